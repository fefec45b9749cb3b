/* Times the plan of a board beside its audit, on boards of each curve: plan BAR FOLDER...
   Ends with status 1 where it takes more than BAR times as long; with 2 where a board is not accepted, or the plan is not what the items give, each
   message padded on its own. */
#define _POSIX_C_SOURCE 199309L

#include "boards.h"

/* A row's runs; where its bar is missed they go on, up to so many: a busy machine spoils some of them. */
enum { RUNS = 100, MOST_RUNS = 1000 };

/* ---- the answer, item by item */

/* The blocks of a message of so many bytes: it, a byte of 0x80, zeros, and its length in bits as a number of `length` bytes. */
static size_t padded_blocks(size_t bytes, size_t block, size_t length)
{
    size_t padded = bytes + 1;
    while (padded % block != block - length)
        padded++;
    return (padded + length) / block;
}

static bool is_right(const struct words *words, const struct curve *curve, const struct left *left, const uint32_t *plan)
{
    bool small = curve->address == 8;
    size_t items = left->answer[TIRFOLMA_ITEMS], blocks = 0;
    for (size_t k = 0; k < items; k++) {
        struct item item = item_at(words, curve, left, k);
        size_t bytes = sizeof *item.head * (size_t)(item.signature - item.head);
        blocks += small ? padded_blocks(bytes, 64, 8) : padded_blocks(bytes, 128, 16);
    }
    return plan[TIRFOLMA_PLAN_NUMBER] == 0 && plan[TIRFOLMA_PLAN_ITEMS] == items
        && plan[TIRFOLMA_PLAN_INDEX_WORDS] == TIRFOLMA_INDEX_ROW_WORDS * items && plan[TIRFOLMA_PLAN_BLOCKS] == blocks;
}

/* ---- the rows */

static double timed_plan(const struct board *b, uint32_t *plan)
{
    double start = now();
    bool told = tirfolma_plan(b->words.at, b->words.count, plan, TIRFOLMA_PLAN_WORDS);
    double end = now();
    if (!told)
        abort();
    return end - start;
}

/* A row: a board. Whether its plan keeps within the bar. Plan and audit take turns, so that a slow moment of the machine falls on both. */
static bool row(const char *folder, double bar)
{
    static struct left left;
    uint32_t plan[TIRFOLMA_PLAN_WORDS];
    struct board board = read_board(folder);
    const struct curve *curve = curve_of(&board.words);
    timed(tirfolma_audit, &board, &left);
    timed_plan(&board, plan);
    if (left.answer[TIRFOLMA_NUMBER] != 0 || !is_right(&board.words, curve, &left, plan)) {
        fprintf(stderr, "%s: the board is refused, or the plan is not what its items give\n", folder);
        exit(2);
    }
    double audit = 1e9, planned = 1e9;
    int runs = 0;
    while (runs < RUNS || (planned / audit > bar && runs < MOST_RUNS)) {
        double took = timed(tirfolma_audit, &board, &left);
        audit = took < audit ? took : audit;
        took = timed_plan(&board, plan);
        planned = took < planned ? took : planned;
        runs++;
    }
    bool met = planned / audit <= bar;
    printf("plan of a board of %u items, %zu words, %u blocks, on %s, best of %d runs\n", plan[TIRFOLMA_PLAN_ITEMS], board.words.count,
           plan[TIRFOLMA_PLAN_BLOCKS], curve->name, runs);
    printf("  %-20s %10.1f us\n  %-20s %10.1f us\n", "audit", audit, "plan", planned);
    printf("  %.4f of the audit's time, at most %.4f wanted: %s\n", planned / audit, bar, met ? "met" : "MISSED");
    free_board(board);
    return met;
}

int main(int argc, char **argv)
{
    double bar = argc > 1 ? atof(argv[1]) : 0;
    if (argc < 3 || bar <= 0) {
        fprintf(stderr, "usage: plan BAR FOLDER...\n");
        return 2;
    }
    bool met = true;
    for (int k = 2; k < argc; k++)
        met = row(argv[k], bar) && met;
    return met ? 0 : 1;
}
