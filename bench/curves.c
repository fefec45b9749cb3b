/* Times the audit beside the hashes of its items alone, in plain C, on boards of each curve: curves BAR FOLDER...
   Ends with status 1 where the audit takes more than BAR times as long; with 2 where a board is not accepted, or plain C's hash of an item is
   not its address. */
#define _POSIX_C_SOURCE 199309L
#include <string.h>

#include "boards.h"
#include "plain.h"

/* A row's runs; where its bar is missed they go on, up to so many: a busy machine spoils some of them. */
enum { RUNS = 100, MOST_RUNS = 1000 };

/* ---- the hash of each curve */

struct hash {
    const char *name;
    void (*of)(const uint32_t *words, size_t count, uint32_t *digest);
};

static const struct hash hashes[] = {{"SHA-256", plain_sha256_words}, {"SHA-384", plain_sha384_words}, {"SHA-512", plain_sha512_words}};

static const struct hash *hash_of(const struct curve *curve)
{
    return &hashes[curve - curves];
}

/* ---- the items */

/* The items of an accepted board, by its index table. */
static size_t items_of(const struct words *words, const struct curve *curve, const struct left *left, struct item *items)
{
    size_t count = left->answer[TIRFOLMA_ITEMS];
    for (size_t k = 0; k < count; k++)
        items[k] = item_at(words, curve, left, k);
    return count;
}

/* How many of an item's words are hashed. */
static size_t hashed(const struct item *item)
{
    return (size_t)(item->signature - item->head);
}

/* The time of the hashes of all items. */
static double hash_all(const struct curve *curve, const struct item *items, size_t count)
{
    const struct hash *hash = hash_of(curve);
    uint32_t digest[16];
    double start = now();
    for (size_t k = 0; k < count; k++) {
        hash->of(items[k].head, hashed(&items[k]), digest);
        if (digest[0] != *items[k].address)
            exit(2);
    }
    return now() - start;
}

/* ---- the rows */

/* A board's row. Whether the audit keeps within the bar. They take turns, so that a slow moment of the machine falls on both. */
static bool row(const char *folder, double bar)
{
    static struct left left;
    static struct item items[TIRFOLMA_BOARD_ITEMS];
    struct board board = read_board(folder);
    const struct curve *curve = curve_of(&board.words);
    timed(tirfolma_audit, &board, &left);
    if (left.answer[TIRFOLMA_NUMBER] != 0) {
        fprintf(stderr, "%s: the board is refused\n", folder);
        exit(2);
    }
    size_t count = items_of(&board.words, curve, &left, items);
    for (size_t k = 0; k < count; k++) {
        uint32_t digest[16];
        hash_of(curve)->of(items[k].head, hashed(&items[k]), digest);
        if (memcmp(digest, items[k].address, curve->address * sizeof digest[0]) != 0) {
            fprintf(stderr, "%s: item %zu does not have its hash by plain C\n", folder, k + 1);
            exit(2);
        }
    }
    double audit = 1e9, hashes = 1e9;
    int runs = 0;
    while (runs < RUNS || (audit / hashes > bar && runs < MOST_RUNS)) {
        double took = hash_all(curve, items, count);
        hashes = took < hashes ? took : hashes;
        took = timed(tirfolma_audit, &board, &left);
        audit = took < audit ? took : audit;
        runs++;
    }
    printf("an audit of %zu items, %zu words, on %s, best of %d runs\n", count, board.words.count, curve->name, runs);
    printf("  %-20s %10.1f us  %6.3f us an item\n", hash_of(curve)->name, hashes, hashes / (double)count);
    printf("  %-20s %10.1f us  %6.3f us an item\n", "audit", audit, audit / (double)count);
    bool met = audit / hashes <= bar;
    printf("  %.3f of the time of its hashes in plain C, at most %.3f wanted: %s\n", audit / hashes, bar, met ? "met" : "MISSED");
    free_board(board);
    return met;
}

int main(int argc, char **argv)
{
    double bar = argc > 1 ? atof(argv[1]) : 0;
    if (argc < 3 || bar <= 0) {
        fprintf(stderr, "usage: curves BAR FOLDER...\n");
        return 2;
    }
    bool met = true;
    for (int k = 2; k < argc; k++)
        met = row(argv[k], bar) && met;
    return met ? 0 : 1;
}
