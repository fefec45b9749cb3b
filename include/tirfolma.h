/* The board auditor for programs in C, C++ and Rust: link libabi.a, which `dist/build abi` builds for x86-64-v2 Linux.

   Each function is proved, in crates/abi, to give for any words and any lengths what this page says. What no proof can see is the caller:
   - A buffer is a pointer to 32-bit words, aligned as uint32_t, and their number. The words are there, and are initialised. Where the number
     is 0, the pointer is not followed; it may not be null, so pass the address of any word.
   - A buffer that is lent for writing overlaps no other buffer of the call. Those that are only read may overlap.
   - No other thread writes a buffer, or reads one that is lent for writing, during the call.
   - The stack has room: an audit takes some 38 KiB of it, answering receipts or holding notes some 14 KiB more, a plan less than 1 KiB, and ancestry,
     which calls itself for each parent, up to 130 KiB more.
   The functions keep nothing, allocate nothing, and may be called from several threads at once. */
#ifndef TIRFOLMA_H
#define TIRFOLMA_H

#include <stdbool.h>
#include <stddef.h>
#include <stdint.h>

#ifdef __cplusplus
extern "C" {
#endif

/* ---- audit */

/* The most words and the most items that a board may have. */
#define TIRFOLMA_BOARD_WORDS 262144
#define TIRFOLMA_BOARD_ITEMS 2048

/* Words of the answer, and of the end address in it. */
#define TIRFOLMA_AUDIT_WORDS 22
#define TIRFOLMA_END_WORDS 16

/* Words of an index table for every board: a row for each item. */
#define TIRFOLMA_INDEX_ROW_WORDS 5
#define TIRFOLMA_INDEX_WORDS (TIRFOLMA_INDEX_ROW_WORDS * TIRFOLMA_BOARD_ITEMS)

/* Words of a ballot table for every board: a row for each counted ballot, and no board has more than 408 of those. */
#define TIRFOLMA_BALLOT_ROW_WORDS 3
#define TIRFOLMA_BALLOT_WORDS (TIRFOLMA_BALLOT_ROW_WORDS * 408)

/* The most words that a roll may have: a pair for each voter, voter numbers rising strictly, at most 2048 pairs. */
#define TIRFOLMA_ROLL_ROW_WORDS 2
#define TIRFOLMA_ROLL_WORDS (TIRFOLMA_ROLL_ROW_WORDS * 2048)

/* Where the words of a pair of the roll stand. */
enum {
    TIRFOLMA_ROLL_VOTER = 0,
    TIRFOLMA_ROLL_WEIGHT = 1
};

/* Where the answer's words stand. */
enum {
    TIRFOLMA_NUMBER = 0,      /* 0: accepted; 1 to 16, 18, 20 or 21: the refusal; of tirfolma_receipts also 22, of tirfolma_notes 23 */
    TIRFOLMA_ITEMS = 1,       /* items; of a refusal, those that passed */
    TIRFOLMA_MAINS = 2,       /* main items */
    TIRFOLMA_BALLOTS = 3,     /* counted ballots */
    TIRFOLMA_WEIGHT_HIGH = 4, /* their total weight, high word */
    TIRFOLMA_WEIGHT_LOW = 5,  /* and low word */
    TIRFOLMA_END = 6          /* TIRFOLMA_END_WORDS words: the address of the last main item, of 8, 12 or 16 words, and zeros behind it */
};

/* Where the words of an index row stand. Row k, from 1 on, is that of item k: it begins at word TIRFOLMA_INDEX_ROW_WORDS * (k - 1). */
enum {
    TIRFOLMA_ROW_PLACE = 0,   /* the place of the item's head, counted from 0 */
    TIRFOLMA_ROW_PARENT = 1,  /* the item number of its parent; its own for genesis */
    TIRFOLMA_ROW_SESSION = 2, /* the item number of its session, or TIRFOLMA_NO_ITEM */
    TIRFOLMA_ROW_MAINS = 3,   /* the main items before it */
    TIRFOLMA_ROW_CLOSER = 4   /* of a ballot, the item number of the cast or spoil under it; of an open ballot and of any other item
                                 TIRFOLMA_NO_ITEM */
};

/* The word for no item, in an index row. */
#define TIRFOLMA_NO_ITEM 4294967295u

/* Where the words of a ballot row stand. */
enum {
    TIRFOLMA_COUNTED_BALLOT = 0, /* the main number of the ballot */
    TIRFOLMA_COUNTED_VOTER = 1,
    TIRFOLMA_COUNTED_WEIGHT = 2
};

/* Audits a board with its verdict words and the roll of its voters. An odd number of roll words, more than 4096 of them, or voter numbers
   that do not rise strictly are refused by 20; a session whose voter is not on the roll with the session's weight by 21. A roll of no words
   is good, and has no voters.

   Which curve a board is on and how wide its sets of contests are, its own first item tells. Where that is a genesis of 18 content words,
   the last of them, board[18], is its traits word. Bit 0 set gives each set eight words, for contests 0 to 255; else a set has
   one, for contests 0 to 31. Bits 1 and 2 are the number of the curve:
                                     signature   commitment   cryptogram   address, parent, previous   hash
     0 secp256r1                     16 words    9            17           8                           SHA-256
     1 secp384r1                     24          13           25           12                          SHA-384
     2 secp521r1                     33          17           34           16                          SHA-512
   A board that has no such word is on secp256r1, with sets of one word. A traits word above 5 is refused by 13; until then such a board is
   read with these widths, too. Limits, tables and answers are the same for all boards.

   True: the first 22 words of the answer are as above, of a refusal too (words 2 to 21 are then 0), and the words behind them are as they
   were. The tables:
     refusal 2, and 1 for more than 262144 words    every word as it was
     any other refusal                              every word 0
     accepted, the index table                      a row for each item, as above; then zeros
     accepted, the ballot table                     a row for each counted ballot, as above; then zeros
   An index table of fewer than 10240 words or a ballot table of fewer than 1224 is refused by 2.

   False: the answer has fewer than 22 words. No word of any buffer is written.

   Contract: `Audited` in crates/abi/specs/Written.antt. */
bool tirfolma_audit(
    const uint32_t *board, size_t board_words,
    const uint32_t *verdicts, size_t verdict_words,
    const uint32_t *roll, size_t roll_words,
    uint32_t *index, size_t index_words,
    uint32_t *ballots, size_t ballot_words,
    uint32_t *answer, size_t answer_words);

/* ---- compare */

#define TIRFOLMA_COMPARE_WORDS 6

/* Where the answer's words stand; those that a kind does not use are 0. */
enum {
    TIRFOLMA_KIND = 0,           /* one of the kinds below */
    TIRFOLMA_BOARD = 1,          /* of a refusal: 0 for the kept board, 1 for the later one */
    TIRFOLMA_COMPARE_NUMBER = 2, /* of a refusal: 1 to 16, or 18 to 21 */
    TIRFOLMA_COMPARE_ITEMS = 3,  /* of a refusal: the items that passed */
    TIRFOLMA_KEPT_MAIN = 4,      /* of a collision: the main number in the kept board */
    TIRFOLMA_LATER_MAIN = 5      /* and in the later one */
};

enum {
    TIRFOLMA_REFUSED = 0,
    TIRFOLMA_APART = 1,    /* the kept board's end address does not stand at the item asked for */
    TIRFOLMA_SAME = 2,     /* both boards have the same main items up to there */
    TIRFOLMA_COLLISION = 3 /* two items with one address and different hashed words */
};

/* Audits a kept board, then a later one, each with its own roll and tables, and compares all main items of the kept board with those of the
   later one up to a main number of the later one. A number that the later board does not have is refusal 19, of the later board. Boards on
   different curves have addresses of different widths, and are apart; boards on one curve are compared whatever the widths of their sets.

   True: the first 6 words of the answer are as above, and the words behind them are as they were. Each board's tables are as tirfolma_audit
   leaves them; the later board's are as they were if the kept one is refused, and both are filled under 19.
   False: the answer has fewer than 6 words. No word of any buffer is written.

   Contract: `Compared` in crates/abi/specs/Written.antt. */
bool tirfolma_compare(
    const uint32_t *kept, size_t kept_words,
    const uint32_t *kept_verdicts, size_t kept_verdict_words,
    const uint32_t *kept_roll, size_t kept_roll_words,
    const uint32_t *later, size_t later_words,
    const uint32_t *later_verdicts, size_t later_verdict_words,
    const uint32_t *later_roll, size_t later_roll_words,
    size_t main_number,
    uint32_t *kept_index, size_t kept_index_words,
    uint32_t *kept_ballots, size_t kept_ballot_words,
    uint32_t *later_index, size_t later_index_words,
    uint32_t *later_ballots, size_t later_ballot_words,
    uint32_t *answer, size_t answer_words);

/* ---- ancestry */

#define TIRFOLMA_ANCESTRY_WORDS 2
#define TIRFOLMA_LIST_WORDS 2048

/* Where the answer's words stand. */
enum {
    TIRFOLMA_ANCESTRY_NUMBER = 0, /* 0: listed; 1 to 16, or 18 to 21: the refusal */
    TIRFOLMA_ANCESTRY_COUNT = 1   /* how many numbers were written; of a refusal, the items that passed */
};

/* Audits a board with its verdict words and the roll of its voters, then lists the item number that is asked for, that of the item's
   parent, and so on; genesis, 1, is the last. A number that the board does not have is refusal 19. A list of fewer than 2048 words is
   refused by 2, as a table that is too short.

   True: the two words of the answer are as above, and the words behind them are as they were. The tables are as tirfolma_audit leaves them.
   The list has the numbers and then zeros; under refusal 2, and 1 for more than 262144 words, it is as it was, under any other all zero.
   Under 2 for a list that is too short, the tables are as they were, too.
   False: the answer has fewer than 2 words. No word of any buffer is written.

   Contract: `Listed` in crates/abi/specs/Written.antt. */
bool tirfolma_ancestry(
    const uint32_t *board, size_t board_words,
    const uint32_t *verdicts, size_t verdict_words,
    const uint32_t *roll, size_t roll_words,
    size_t item_number,
    uint32_t *index, size_t index_words,
    uint32_t *ballots, size_t ballot_words,
    uint32_t *list, size_t list_words,
    uint32_t *answer, size_t answer_words);

/* ---- receipts */

/* The most receipts that are answered at once. */
#define TIRFOLMA_RECEIPTS 512

/* Words of a receipt of a board on secp256r1, secp384r1 and secp521r1: a signature, then an address. */
#define TIRFOLMA_RECEIPT_WORDS 24
#define TIRFOLMA_RECEIPT_WORDS_384 36
#define TIRFOLMA_RECEIPT_WORDS_521 49

/* The word for a receipt that has no cast. */
#define TIRFOLMA_NO_CAST 4294967295u

/* Audits a board with its verdict words and the roll of its voters, then gives for each receipt the main number of the first cast with its
   address and its signature, or TIRFOLMA_NO_CAST. A receipt is a signature and then an address, of the board's widths; they are read from
   the board as for tirfolma_audit, also where the board is refused. Words that are not whole receipts, or more than 512 receipts, are refused
   by 22; an answers buffer with fewer words than there are receipts is then refused by 2; both come before the audit, and with 0 items.
   Receipts of no words are good, and have no answers.

   True: the first 22 words of the answer are as those of tirfolma_audit, with 22 among the refusals, and the words behind them are as they
   were. The tables are as tirfolma_audit leaves them; under 22, and under 2 for the answers buffer, they are as they were.
   The answers buffer:
     any refusal    every word as it was
     accepted       a word for each receipt, in the receipts' order; then zeros
   False: the answer has fewer than 22 words. No word of any buffer is written.

   Contract: `Answered` in crates/abi/specs/Written.antt. */
bool tirfolma_receipts(
    const uint32_t *board, size_t board_words,
    const uint32_t *verdicts, size_t verdict_words,
    const uint32_t *roll, size_t roll_words,
    const uint32_t *receipts, size_t receipt_words,
    uint32_t *index, size_t index_words,
    uint32_t *ballots, size_t ballot_words,
    uint32_t *answers, size_t answers_words,
    uint32_t *answer, size_t answer_words);

/* ---- notes */

/* The most notes that are held against a board at once. */
#define TIRFOLMA_NOTES 1024

/* Words of a note of a board on secp256r1, secp384r1 and secp521r1: a time of two words, the high one first, then an address. */
#define TIRFOLMA_NOTE_WORDS 10
#define TIRFOLMA_NOTE_WORDS_384 14
#define TIRFOLMA_NOTE_WORDS_521 18

/* Words of the answer: those of tirfolma_audit's, and two more. */
#define TIRFOLMA_NOTES_ANSWER_WORDS 24

/* Where these two stand. */
enum {
    TIRFOLMA_AGREEMENT = TIRFOLMA_AUDIT_WORDS,     /* one of those below */
    TIRFOLMA_FIRST_NOTE = TIRFOLMA_AUDIT_WORDS + 1 /* the number, from 1, of the first note that disagrees; else 0 */
};

enum {
    TIRFOLMA_NOT_HELD = 0,     /* the notes or the board are refused */
    TIRFOLMA_ALL_AGREE = 1,
    TIRFOLMA_NO_MAIN_ITEM = 2, /* its address is no main item's */
    TIRFOLMA_OUT_OF_ORDER = 3, /* its main item is earlier than that of the note before */
    TIRFOLMA_TOO_EARLY = 4     /* its time is less than that of its main item */
};

/* Audits a board with its verdict words and the roll of its voters, then holds a watcher's notes against it, and gives the first that
   disagrees: whose address is no main item's, or whose main item is earlier than that of the note before, or whose time is less than that
   item's; where two of these hold of it, the one named first. With an address on two main items the first is meant. The same main item as
   that of the note before is no disagreement, and the times of the notes need not rise. A note is a time and then an address, of the board's
   width, which is read from the board as for tirfolma_audit, also where the board is refused. Words that are not whole notes, or more than
   1024 notes, are refused by 23, before the audit and with 0 items. Notes of no words are good, and all agree.

   If all agree, the board cut behind each noted item (the words up to there, a closing word with the number of these items, nine verdict
   words for each, the same roll) is accepted, and has the noted address for its end: `noted-cut` in crates/watch/proofs/Claims.antt.

   True: the first 22 words of the answer are as those of tirfolma_audit, with 23 among the refusals, the next two as above, and the words
   behind them as they were. The tables are as tirfolma_audit leaves them, so they are filled where a note disagrees; under 23 they are as
   they were.
   False: the answer has fewer than 24 words. No word of any buffer is written.

   Contract: `Held` in crates/abi/specs/Written.antt. */
bool tirfolma_notes(
    const uint32_t *board, size_t board_words,
    const uint32_t *verdicts, size_t verdict_words,
    const uint32_t *roll, size_t roll_words,
    const uint32_t *notes, size_t note_words,
    uint32_t *index, size_t index_words,
    uint32_t *ballots, size_t ballot_words,
    uint32_t *answer, size_t answer_words);

/* ---- plan */

#define TIRFOLMA_PLAN_WORDS 4

/* Where the answer's words stand. Of a refusal the last two are 0. */
enum {
    TIRFOLMA_PLAN_NUMBER = 0,      /* 0: planned; 1, 3, 4, 5, 6 or 18: the refusal */
    TIRFOLMA_PLAN_ITEMS = 1,       /* items; of a refusal, those whose heads passed */
    TIRFOLMA_PLAN_INDEX_WORDS = 2, /* words of the index table that their rows fill, TIRFOLMA_INDEX_ROW_WORDS each */
    TIRFOLMA_PLAN_BLOCKS = 3       /* blocks over which their addresses are hashed, each message padded as FIPS 180-4 says: blocks of 64 bytes
                                      on secp256r1, of 128 on secp384r1 and secp521r1 */
};

/* Plans the audit of a board: the number of its items, the words that their rows fill in the index table, and the blocks of their addresses,
   from the heads of the items alone, without hashing. The widths are read as for tirfolma_audit. Refused is, the first that applies:
     1    more than 262144 words; also a word that is not a closing word behind 2048 items
     3    a board of no words, or one that begins with a closing word
     5    of each head in turn: a kind or a type that is not listed
     6    a count of content words that is not in the table
     4    an item that runs past the end; also a board without a closing word
     18   a closing word with another number than that of the items, or words behind it
   No verdict words, roll or tables have a part in it, so it never answers 2, 14 or 20.

   A board that tirfolma_audit accepts is planned, with the same number of items. What tirfolma_audit refuses by 1, 3, 4, 5 or 6 is refused
   here by the same number, after as many items; by 18 likewise, unless only verdict words were left over. Behind an item that it refuses by
   7 to 16 or 21, heads are still read here: such a board may be planned, or refused further on. A board that is refused here is never
   accepted. `Related` in crates/planning/specs/Plan.antt says it whole. The blocks are those of addresses: an audit also hashes the contents
   of the counted ballots, where a fingerprint of them stands on the board.

   True: the first 4 words of the answer are as above, of a refusal too, and the words behind them are as they were.
   False: the answer has fewer than 4 words, and none is written.

   Contract: `Planned` in crates/abi/specs/Written.antt. */
bool tirfolma_plan(
    const uint32_t *board, size_t board_words,
    uint32_t *answer, size_t answer_words);

/* ---- export */

/* Words of the answer: those of tirfolma_audit's, and one more. */
#define TIRFOLMA_EXPORT_ANSWER_WORDS 23

/* Where this one stands: the number of bytes that were written; of a refusal 0. */
enum {
    TIRFOLMA_EXPORT_LENGTH = TIRFOLMA_AUDIT_WORDS
};

/* Bytes of a text buffer for every board: an export has fewer than 8 bytes for each word of its board. */
#define TIRFOLMA_EXPORT_BYTES (8 * TIRFOLMA_BOARD_WORDS)

/* Audits a board with its verdict words and the roll of its voters, then writes its main items into the text buffer, in board order, a line of
   JSON (RFC 8259) for each:
     {"type":1,"time":5,"parent":"..","previous":"..","address":"..","content":".."}
   and byte 10, the last line too, with no spaces. Type and time, in milliseconds, are decimal numbers; the others are strings of lower-case
   hexadecimal digits, eight for each word, and "" for a content of no words. Signatures, hidden tracks and counts of words are not written.
   All bytes are ASCII, and no byte 0 ends the text. A time may have 20 digits: who reads numbers as doubles loses the last digits of one that is
   above 2^53.

   A text buffer that is shorter than the text is refused by 2, with 0 items, and no byte of it is written. This comes after the audit of a
   board that is accepted, so the tables are then filled; a board that is refused is refused as by tirfolma_audit, whatever the buffer's length.
   Two accepted boards have the same text exactly if they have the same main items, signatures left aside, and then they have one format:
   `same-export` and `same_format` in crates/exporting/proofs/Claims.antt.

   True: the first 22 words of the answer are as those of tirfolma_audit, but for that 2, the next is as above, and the words behind them as
   they were. The tables are as tirfolma_audit leaves them, under that 2 too. The text buffer:
     any refusal    every byte as it was
     accepted       the text; the bytes behind it as they were
   False: the answer has fewer than 23 words. No word and no byte of any buffer is written.

   Contract: `Exported` in crates/abi/specs/Written.antt. */
bool tirfolma_export(
    const uint32_t *board, size_t board_words,
    const uint32_t *verdicts, size_t verdict_words,
    const uint32_t *roll, size_t roll_words,
    uint32_t *index, size_t index_words,
    uint32_t *ballots, size_t ballot_words,
    uint8_t *text, size_t text_bytes,
    uint32_t *answer, size_t answer_words);

#ifdef __cplusplus
}
#endif

#endif
