/* Audits the board in a folder: examples/build, then target/examples/audit FOLDER
   FOLDER has board.words, verdicts.words and roll.words: each word four bytes, high byte first. The exit status is 0 for a board that is
   accepted, 1 for one that is refused, 2 where a file can't be read. */
#include "../include/tirfolma.h"

#include <inttypes.h>
#include <stdio.h>
#include <stdlib.h>

static void stop(const char *path, const char *why) {
    fprintf(stderr, "%s: %s\n", path, why);
    exit(2);
}

/* The words of a file, and how many they are. */
static uint32_t *read_words(const char *folder, const char *name, size_t *count) {
    char path[4096];
    if (snprintf(path, sizeof path, "%s/%s", folder, name) >= (int)sizeof path) stop(folder, "the name is too long");
    FILE *file = fopen(path, "rb");
    if (!file) stop(path, "can't be opened");
    size_t room = 1024;
    uint32_t *words = malloc(room * sizeof *words);
    unsigned char b[4];
    size_t got;
    *count = 0;
    while (words && (got = fread(b, 1, 4, file)) == 4) {
        if (*count == room) {
            room *= 2;
            words = realloc(words, room * sizeof *words);
            if (!words) break;
        }
        words[(*count)++] = (uint32_t)b[0] << 24 | (uint32_t)b[1] << 16 | (uint32_t)b[2] << 8 | b[3];
    }
    if (!words) stop(path, "there is no memory for it");
    if (ferror(file)) stop(path, "can't be read");
    if (got != 0) stop(path, "the last word is not whole");
    fclose(file);
    return words;
}

enum { BALLOT = 19, CAST = 20 };

/* The head of a genesis that has a traits word, and where that word stands on the board. */
enum { TRAITS_HEAD = 0x10010012, TRAITS_PLACE = 18 };

/* The row of item k, and its type, of an accepted board. */
static const uint32_t *row_of(const uint32_t *index, uint32_t k) { return index + TIRFOLMA_INDEX_ROW_WORDS * (k - 1); }

static uint32_t type_of(const uint32_t *board, const uint32_t *index, uint32_t k) {
    return board[row_of(index, k)[TIRFOLMA_ROW_PLACE]] >> 16 & 0xfff;
}

/* Of an accepted board: its traits word, or 0, which means the same as none; the words of a set of contests, by bit 0; those of an address,
   by the number of the curve in bits 1 and 2. */
static uint32_t traits(const uint32_t *board) { return board[0] == TRAITS_HEAD ? board[TRAITS_PLACE] : 0; }
static uint32_t set_words(const uint32_t *board) { return traits(board) & 1 ? 8 : 1; }
static uint32_t address_words(const uint32_t *board) { return 8 + 4 * (traits(board) >> 1); }

/* The contests in a set: contest j is bit j mod 32 of word j div 32. */
static void print_contests(const uint32_t *set, uint32_t words) {
    for (uint32_t j = 0; j < 32 * words; j++)
        if (set[j / 32] >> j % 32 & 1) printf(" %" PRIu32, j);
}

/* Of a ballot: which item cast or spoiled it, and its contests. */
static void print_ballot(const uint32_t *board, const uint32_t *index, uint32_t k) {
    if (type_of(board, index, k) != BALLOT) return;
    const uint32_t *row = row_of(index, k);
    uint32_t closer = row[TIRFOLMA_ROW_CLOSER];
    printf("ballot %" PRIu32 ": ", k);
    if (closer == TIRFOLMA_NO_ITEM)
        printf("open");
    else
        printf("%s by item %" PRIu32, type_of(board, index, closer) == CAST ? "cast" : "spoiled", closer);
    /* Its content, behind the head, begins with the set. */
    printf("; contests");
    print_contests(board + row[TIRFOLMA_ROW_PLACE] + 1, set_words(board));
    printf("\n");
}

/* Of a roll that is not bad: how many voters it has, and their weight. The counted ballots weigh no more. */
static void print_roll(const uint32_t *roll, size_t words) {
    uint64_t weight = 0;
    for (size_t i = 0; i < words; i += TIRFOLMA_ROLL_ROW_WORDS) weight += roll[i + TIRFOLMA_ROLL_WEIGHT];
    printf("roll: %zu voters of weight %" PRIu64 "\n", words / TIRFOLMA_ROLL_ROW_WORDS, weight);
}

int main(int argc, char **argv) {
    if (argc != 2) {
        fprintf(stderr, "usage: audit FOLDER\n");
        return 2;
    }
    static uint32_t index[TIRFOLMA_INDEX_WORDS], ballots[TIRFOLMA_BALLOT_WORDS];
    uint32_t answer[TIRFOLMA_AUDIT_WORDS];
    size_t board_words, verdict_words, roll_words;
    uint32_t *board = read_words(argv[1], "board.words", &board_words);
    uint32_t *verdicts = read_words(argv[1], "verdicts.words", &verdict_words);
    uint32_t *roll = read_words(argv[1], "roll.words", &roll_words);
    if (!tirfolma_audit(board, board_words, verdicts, verdict_words, roll, roll_words, index, TIRFOLMA_INDEX_WORDS,
                        ballots, TIRFOLMA_BALLOT_WORDS, answer, TIRFOLMA_AUDIT_WORDS))
        abort(); /* the answer has its 22 words */
    free(verdicts);

    uint32_t number = answer[TIRFOLMA_NUMBER];
    if (number != 0) {
        printf("refused %" PRIu32 " after %" PRIu32 " items\n", number, answer[TIRFOLMA_ITEMS]);
        free(roll);
        free(board);
        return 1;
    }
    uint64_t weight = (uint64_t)answer[TIRFOLMA_WEIGHT_HIGH] << 32 | answer[TIRFOLMA_WEIGHT_LOW];
    printf("accepted: %" PRIu32 " items, %" PRIu32 " of them main, %" PRIu32 " counted ballots of weight %" PRIu64 "\n",
           answer[TIRFOLMA_ITEMS], answer[TIRFOLMA_MAINS], answer[TIRFOLMA_BALLOTS], weight);
    print_roll(roll, roll_words);
    printf("end address");
    for (uint32_t i = 0; i < address_words(board); i++) printf(" %08" PRIx32, answer[TIRFOLMA_END + i]);
    printf("\n");
    for (uint32_t i = 0; i < answer[TIRFOLMA_BALLOTS]; i++) {
        const uint32_t *row = ballots + TIRFOLMA_BALLOT_ROW_WORDS * i;
        printf("main item %" PRIu32 ": voter %" PRIu32 ", weight %" PRIu32 "\n", row[TIRFOLMA_COUNTED_BALLOT],
               row[TIRFOLMA_COUNTED_VOTER], row[TIRFOLMA_COUNTED_WEIGHT]);
    }
    for (uint32_t k = 1; k <= answer[TIRFOLMA_ITEMS]; k++) print_ballot(board, index, k);
    free(roll);
    free(board);
    return 0;
}
