/* Times the export of a board beside a writer of the same bytes in plain C, on boards of each curve: export BAR RATE FOLDER...
   What the export takes is the time of tirfolma_export less that of the audit alone. Ends with status 1 where that is more than BAR times plain
   C's, or where fewer than RATE million bytes of text are written in a second; with 2 where a board is not accepted, or the bytes differ. */
#define _POSIX_C_SOURCE 199309L
#include <string.h>

#include "boards.h"
#include "plain_export.h"

/* A row's runs; where a bar is missed they go on, up to so many: a busy machine spoils some of them. */
enum { RUNS = 200, MOST_RUNS = 2000 };

/* What is left by an export: an answer of its own length, and the text. */
struct exported {
    struct left left;
    uint32_t answer[TIRFOLMA_EXPORT_ANSWER_WORDS];
    unsigned char text[TIRFOLMA_EXPORT_BYTES], plain[TIRFOLMA_EXPORT_BYTES];
};

/* The least times, in microseconds. */
struct times {
    double audit, export, plain;
};

static double timed_export(const struct board *b, struct exported *e)
{
    double start = now();
    bool told = tirfolma_export(b->words.at, b->words.count, b->verdicts.at, b->verdicts.count, b->roll.at, b->roll.count, e->left.index,
                                TIRFOLMA_INDEX_WORDS, e->left.ballots, TIRFOLMA_BALLOT_WORDS, e->text, TIRFOLMA_EXPORT_BYTES, e->answer,
                                TIRFOLMA_EXPORT_ANSWER_WORDS);
    double end = now();
    if (!told)
        abort();
    return end - start;
}

/* Writes the plain text of a board that was exported, and gives its length. */
static size_t plain_text(const struct board *b, const struct curve *curve, struct exported *e)
{
    return plain_export(b->words.at, e->left.index + TIRFOLMA_ROW_PLACE, TIRFOLMA_INDEX_ROW_WORDS, e->answer[TIRFOLMA_ITEMS], curve->address,
                        curve->signature, e->plain);
}

static double timed_plain(const struct board *b, const struct curve *curve, struct exported *e)
{
    double start = now();
    plain_text(b, curve, e);
    return now() - start;
}

/* Exports the board once, and ends the program where the bytes are not those of plain C. */
static void check(const char *folder, const struct board *board, const struct curve *curve, struct exported *e)
{
    timed_export(board, e);
    size_t length = plain_text(board, curve, e);
    if (e->answer[TIRFOLMA_NUMBER] != 0 || e->answer[TIRFOLMA_EXPORT_LENGTH] != length || memcmp(e->text, e->plain, length) != 0) {
        fprintf(stderr, "%s: the board is refused, or its export is not plain C's\n", folder);
        exit(2);
    }
}

static void least(double *time, double took)
{
    *time = took < *time ? took : *time;
}

static bool is_met(struct times t, double bytes, double bar, double rate)
{
    double alone = t.export - t.audit;
    return alone <= bar * t.plain && bytes >= rate * alone;
}

/* A row: a board. Whether its export keeps within both bars. The three take turns, so that a slow moment of the machine falls on all. */
static bool row(const char *folder, double bar, double rate)
{
    static struct exported exported;
    struct board board = read_board(folder);
    const struct curve *curve = curve_of(&board.words);
    check(folder, &board, curve, &exported);
    struct times t = {1e9, 1e9, 1e9};
    double bytes = exported.answer[TIRFOLMA_EXPORT_LENGTH];
    int runs = 0;
    while (runs < RUNS || (!is_met(t, bytes, bar, rate) && runs < MOST_RUNS)) {
        least(&t.audit, timed(tirfolma_audit, &board, &exported.left));
        least(&t.export, timed_export(&board, &exported));
        least(&t.plain, timed_plain(&board, curve, &exported));
        runs++;
    }
    double alone = t.export - t.audit;
    bool met = is_met(t, bytes, bar, rate);
    printf("export of a board of %u items, %zu words, on %s: %.0f bytes, best of %d runs\n", exported.answer[TIRFOLMA_ITEMS], board.words.count,
           curve->name, bytes, runs);
    printf("  %-20s %10.1f us\n  %-20s %10.1f us\n  %-20s %10.1f us\n", "audit", t.audit, "audit and export", t.export, "plain C's writer", t.plain);
    printf("  the export alone: %.3f of plain C's time, at most %.3f wanted; %.0f MB/s, at least %.0f wanted: %s\n", alone / t.plain, bar,
           bytes / alone, rate, met ? "met" : "MISSED");
    free_board(board);
    return met;
}

int main(int argc, char **argv)
{
    double bar = argc > 2 ? atof(argv[1]) : 0, rate = argc > 2 ? atof(argv[2]) : 0;
    if (argc < 4 || bar <= 0 || rate <= 0) {
        fprintf(stderr, "usage: export BAR RATE FOLDER...\n");
        return 2;
    }
    bool met = true;
    for (int k = 3; k < argc; k++)
        met = row(argv[k], bar, rate) && met;
    return met ? 0 : 1;
}
