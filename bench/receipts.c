/* Times answering 512 receipts beside the audit alone, on boards of each curve: receipts BAR FOLDER...
   Ends with status 1 where it takes more than BAR times as long; with 2 where a board is not accepted, or an answer is not that of a search for
   its receipt alone. */
#define _POSIX_C_SOURCE 199309L
#include <string.h>

#include "boards.h"

/* A row's runs; where its bar is missed they go on, up to so many: a busy machine spoils some of them. */
enum { RUNS = 100, MOST_RUNS = 1000 };

enum { CAST = 20, MOST_RECEIPT_WORDS = TIRFOLMA_RECEIPT_WORDS_521 };

static size_t receipt_words(const struct curve *curve)
{
    return curve->signature + curve->address;
}

/* ---- the receipts */

/* Writes the receipts: of casts, and of other items where there are fewer casts, from the board's end on. */
static void receipts_of_all(const struct words *words, const struct curve *curve, const struct left *left, uint32_t *receipts)
{
    size_t size = receipt_words(curve), count = left->answer[TIRFOLMA_ITEMS], made = 0;
    for (int casts = 1; casts >= 0; casts--)
        for (size_t k = count; k > 0 && made < TIRFOLMA_RECEIPTS; k--) {
            struct item item = item_at(words, curve, left, k - 1);
            if ((item.type == CAST) == casts)
                memcpy(receipts + size * made++, item.signature, size * sizeof *receipts);
        }
}

/* Writes receipts of one cast, the last, each with another signature: all have one address, and none has a cast. */
static void receipts_of_one(const struct words *words, const struct curve *curve, const struct left *left, uint32_t *receipts)
{
    size_t size = receipt_words(curve), last = left->answer[TIRFOLMA_ITEMS];
    while (item_at(words, curve, left, last - 1).type != CAST)
        last--;
    struct item item = item_at(words, curve, left, last - 1);
    for (size_t k = 0; k < TIRFOLMA_RECEIPTS; k++) {
        memcpy(receipts + size * k, item.signature, size * sizeof *receipts);
        receipts[size * k] ^= (uint32_t)k + 1;
    }
}

/* Whether each answer is that of a search for its receipt alone. */
static bool are_right(const struct words *words, const struct curve *curve, const struct left *left, const uint32_t *receipts,
                      const uint32_t *answers)
{
    size_t size = receipt_words(curve);
    for (size_t r = 0; r < TIRFOLMA_RECEIPTS; r++) {
        uint32_t found = TIRFOLMA_NO_CAST, mains = 0;
        for (size_t k = 0; k < left->answer[TIRFOLMA_ITEMS] && found == TIRFOLMA_NO_CAST; k++) {
            struct item item = item_at(words, curve, left, k);
            mains += item.is_main;
            if (item.type == CAST && memcmp(item.signature, receipts + size * r, size * sizeof *receipts) == 0)
                found = mains;
        }
        if (answers[r] != found)
            return false;
    }
    return true;
}

/* ---- the rows */

/* The time of answering the receipts. */
static double answered(const struct board *b, const uint32_t *receipts, size_t words, struct left *left, uint32_t *answers)
{
    double start = now();
    bool told = tirfolma_receipts(b->words.at, b->words.count, b->verdicts.at, b->verdicts.count, b->roll.at, b->roll.count, receipts, words,
                                  left->index, TIRFOLMA_INDEX_WORDS, left->ballots, TIRFOLMA_BALLOT_WORDS, answers, TIRFOLMA_RECEIPTS,
                                  left->answer, TIRFOLMA_AUDIT_WORDS);
    double end = now();
    if (!told)
        abort();
    return end - start;
}

/* A row: a board, and its receipts of one sort. Whether answering keeps within the bar. They take turns, so that a slow moment of the machine
   falls on both. */
static bool row(const struct board *board, const struct curve *curve, const char *sort, const uint32_t *receipts, double bar)
{
    static struct left left;
    static uint32_t answers[TIRFOLMA_RECEIPTS];
    size_t words = TIRFOLMA_RECEIPTS * receipt_words(curve);
    answered(board, receipts, words, &left, answers);
    if (left.answer[TIRFOLMA_NUMBER] != 0 || !are_right(&board->words, curve, &left, receipts, answers)) {
        fprintf(stderr, "%s: an answer is not that of a search for its receipt alone\n", sort);
        exit(2);
    }
    double audit = 1e9, both = 1e9;
    int runs = 0;
    while (runs < RUNS || (both / audit > bar && runs < MOST_RUNS)) {
        double took = timed(tirfolma_audit, board, &left);
        audit = took < audit ? took : audit;
        took = answered(board, receipts, words, &left, answers);
        both = took < both ? took : both;
        runs++;
    }
    bool met = both / audit <= bar;
    printf("%d receipts, %s, on a board of %u items, %zu words, on %s, best of %d runs\n", TIRFOLMA_RECEIPTS, sort, left.answer[TIRFOLMA_ITEMS],
           board->words.count, curve->name, runs);
    printf("  %-20s %10.1f us\n  %-20s %10.1f us\n", "audit", audit, "audit and receipts", both);
    printf("  %.3f of the audit's time, at most %.3f wanted: %s\n", both / audit, bar, met ? "met" : "MISSED");
    return met;
}

static bool rows(const char *folder, double bar)
{
    static struct left left;
    static uint32_t receipts[TIRFOLMA_RECEIPTS * MOST_RECEIPT_WORDS];
    struct board board = read_board(folder);
    const struct curve *curve = curve_of(&board.words);
    timed(tirfolma_audit, &board, &left);
    if (left.answer[TIRFOLMA_NUMBER] != 0 || left.answer[TIRFOLMA_BALLOTS] == 0) {
        fprintf(stderr, "%s: the board is refused, or has no cast\n", folder);
        exit(2);
    }
    receipts_of_all(&board.words, curve, &left, receipts);
    bool met = row(&board, curve, "of casts and other items", receipts, bar);
    receipts_of_one(&board.words, curve, &left, receipts);
    met = row(&board, curve, "all of one address", receipts, bar) && met;
    free_board(board);
    return met;
}

int main(int argc, char **argv)
{
    double bar = argc > 1 ? atof(argv[1]) : 0;
    if (argc < 3 || bar <= 0) {
        fprintf(stderr, "usage: receipts BAR FOLDER...\n");
        return 2;
    }
    bool met = true;
    for (int k = 2; k < argc; k++)
        met = rows(argv[k], bar) && met;
    return met ? 0 : 1;
}
