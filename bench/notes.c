/* Times holding 1,024 notes against a board beside the audit alone, on boards of each curve: notes BAR FOLDER...
   Ends with status 1 where it takes more than BAR times as long; with 2 where a board is not accepted, or the answer is not that of a search for
   each note's main item alone. */
#define _POSIX_C_SOURCE 199309L
#include <string.h>

#include "boards.h"

/* A row's runs; where its bar is missed they go on, up to so many: a busy machine spoils some of them. */
enum { RUNS = 100, MOST_RUNS = 1000 };

enum { TIME = 2, MOST_NOTE_WORDS = TIRFOLMA_NOTE_WORDS_521 };

/* What is left where notes are held: an answer of its own length. */
struct held {
    struct left left;
    uint32_t answer[TIRFOLMA_NOTES_ANSWER_WORDS];
};

static size_t note_words(const struct curve *curve)
{
    return TIME + curve->address;
}

static uint64_t joined(const uint32_t *time)
{
    return (uint64_t)time[0] << 32 | time[1];
}

/* ---- the notes */

static void put_note(const struct item *item, const struct curve *curve, uint32_t *note)
{
    memcpy(note, item->time, TIME * sizeof *note);
    memcpy(note + TIME, item->address, curve->address * sizeof *note);
}

/* Writes notes that follow the board: spread over all its main items, each taken at its item's time. */
static void notes_of_all(const struct words *words, const struct curve *curve, const struct left *left, uint32_t *notes)
{
    size_t mains = 0, made = 0;
    for (size_t k = 0; k < left->answer[TIRFOLMA_ITEMS]; k++) {
        struct item item = item_at(words, curve, left, k);
        mains += item.is_main;
        for (; item.is_main && made < TIRFOLMA_NOTES && made * left->answer[TIRFOLMA_MAINS] < mains * TIRFOLMA_NOTES; made++)
            put_note(&item, curve, notes + note_words(curve) * made);
    }
}

/* Writes notes of one item, the last main item. */
static void notes_of_one(const struct words *words, const struct curve *curve, const struct left *left, uint32_t *notes)
{
    size_t last = left->answer[TIRFOLMA_ITEMS];
    while (!item_at(words, curve, left, last - 1).is_main)
        last--;
    struct item item = item_at(words, curve, left, last - 1);
    for (size_t k = 0; k < TIRFOLMA_NOTES; k++)
        put_note(&item, curve, notes + note_words(curve) * k);
}

/* ---- the answer, by a search for each note's main item alone */

/* The number, from 1, of the first main item with an address among all items; 0 where there is none. */
static size_t meant(const struct words *words, const struct curve *curve, const struct left *left, const uint32_t *address)
{
    for (size_t k = 0; k < left->answer[TIRFOLMA_ITEMS]; k++) {
        struct item item = item_at(words, curve, left, k);
        if (item.is_main && memcmp(item.address, address, curve->address * sizeof *address) == 0)
            return k + 1;
    }
    return 0;
}

static bool is_right(const struct words *words, const struct curve *curve, const struct held *held, const uint32_t *notes)
{
    const uint32_t *answer = held->answer;
    size_t before = 0;
    for (size_t k = 0; k < TIRFOLMA_NOTES; k++) {
        const uint32_t *note = notes + note_words(curve) * k;
        size_t item = meant(words, curve, &held->left, note + TIME);
        int wrong = item == 0 ? TIRFOLMA_NO_MAIN_ITEM
            : item < before   ? TIRFOLMA_OUT_OF_ORDER
            : joined(note) < joined(item_at(words, curve, &held->left, item - 1).time) ? TIRFOLMA_TOO_EARLY
                                                                                       : TIRFOLMA_ALL_AGREE;
        if (wrong != TIRFOLMA_ALL_AGREE)
            return answer[TIRFOLMA_AGREEMENT] == (uint32_t)wrong && answer[TIRFOLMA_FIRST_NOTE] == k + 1;
        before = item;
    }
    return answer[TIRFOLMA_AGREEMENT] == TIRFOLMA_ALL_AGREE && answer[TIRFOLMA_FIRST_NOTE] == 0;
}

/* ---- the rows */

/* The time of holding the notes. */
static double timed_notes(const struct board *b, const uint32_t *notes, size_t words, struct held *held)
{
    double start = now();
    bool told = tirfolma_notes(b->words.at, b->words.count, b->verdicts.at, b->verdicts.count, b->roll.at, b->roll.count, notes, words,
                               held->left.index, TIRFOLMA_INDEX_WORDS, held->left.ballots, TIRFOLMA_BALLOT_WORDS, held->answer,
                               TIRFOLMA_NOTES_ANSWER_WORDS);
    double end = now();
    if (!told)
        abort();
    return end - start;
}

/* Holds the notes once, and ends the program where the answer is wrong. */
static void check(const struct board *board, const struct curve *curve, const char *sort, const uint32_t *notes, struct held *held)
{
    timed(tirfolma_audit, board, &held->left);
    timed_notes(board, notes, TIRFOLMA_NOTES * note_words(curve), held);
    if (held->answer[TIRFOLMA_NUMBER] != 0 || !is_right(&board->words, curve, held, notes)) {
        fprintf(stderr, "%s, %s, %zu words: the answer is not that of a search for each note's main item alone\n", sort, curve->name,
                board->words.count);
        exit(2);
    }
}

/* A row: a board, and its notes of one sort. Whether holding them keeps within the bar. They take turns, so that a slow moment of the machine
   falls on both. */
static bool row(const struct board *board, const struct curve *curve, const char *sort, const uint32_t *notes, double bar)
{
    static struct held held;
    check(board, curve, sort, notes, &held);
    double audit = 1e9, both = 1e9;
    int runs = 0;
    while (runs < RUNS || (both / audit > bar && runs < MOST_RUNS)) {
        double took = timed(tirfolma_audit, board, &held.left);
        audit = took < audit ? took : audit;
        took = timed_notes(board, notes, TIRFOLMA_NOTES * note_words(curve), &held);
        both = took < both ? took : both;
        runs++;
    }
    bool met = both / audit <= bar;
    printf("%d notes, %s, on a board of %u items, %zu words, on %s, best of %d runs\n", TIRFOLMA_NOTES, sort, held.answer[TIRFOLMA_ITEMS],
           board->words.count, curve->name, runs);
    printf("  %-20s %10.1f us\n  %-20s %10.1f us\n", "audit", audit, "audit and notes", both);
    printf("  %.3f of the audit's time, at most %.3f wanted: %s\n", both / audit, bar, met ? "met" : "MISSED");
    return met;
}

/* Notes of which only the last is wrong, in each of the three ways: its time, the order, its address. The first is timed. */
static bool last_wrong(const struct board *board, const struct curve *curve, uint32_t *notes, double bar)
{
    static struct held held;
    size_t size = note_words(curve);
    uint32_t *last = notes + size * (TIRFOLMA_NOTES - 1);
    memset(last, 0, TIME * sizeof *last);
    bool met = row(board, curve, "the last one too early", notes, bar);
    memset(last, 0xff, TIME * sizeof *last);
    memcpy(last + TIME, notes + TIME, curve->address * sizeof *last);
    check(board, curve, "the last one out of order", notes, &held);
    last[size - 1] ^= 1;
    check(board, curve, "the last one no main item", notes, &held);
    return met;
}

static bool rows(const char *folder, double bar)
{
    static struct left left;
    static uint32_t notes[TIRFOLMA_NOTES * MOST_NOTE_WORDS];
    struct board board = read_board(folder);
    const struct curve *curve = curve_of(&board.words);
    timed(tirfolma_audit, &board, &left);
    if (left.answer[TIRFOLMA_NUMBER] != 0) {
        fprintf(stderr, "%s: the board is refused\n", folder);
        exit(2);
    }
    notes_of_all(&board.words, curve, &left, notes);
    bool met = row(&board, curve, "of all main items", notes, bar);
    met = last_wrong(&board, curve, notes, bar) && met;
    notes_of_one(&board.words, curve, &left, notes);
    met = row(&board, curve, "all of one item", notes, bar) && met;
    free_board(board);
    return met;
}

int main(int argc, char **argv)
{
    double bar = argc > 1 ? atof(argv[1]) : 0;
    if (argc < 3 || bar <= 0) {
        fprintf(stderr, "usage: notes BAR FOLDER...\n");
        return 2;
    }
    bool met = true;
    for (int k = 2; k < argc; k++)
        met = rows(argv[k], bar) && met;
    return met ? 0 : 1;
}
