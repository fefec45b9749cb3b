/* Times the library beside an earlier one on the same boards: before BAR FOLDER...
   Both are linked into this program, the earlier one with its function renamed, and audit each board in turns. Ends with status 1 where their
   answers or tables differ, or where the library takes more than BAR times the earlier one's time. A board that the earlier one refuses and the
   library accepts, as one of a newer format, has its time alone. */
#define _POSIX_C_SOURCE 199309L
#include <stdbool.h>
#include <string.h>

#include "boards.h"

/* Rounds of a row; one that misses the bar is run on, up to so many: a busy machine spoils some. */
enum { ROUNDS = 1000, MOST_ROUNDS = 5000 };

audit_function before_tirfolma_audit;

static int by_value(const void *a, const void *b)
{
    double x = *(const double *)a, y = *(const double *)b;
    return (x > y) - (x < y);
}

static double median(const double *times, size_t count)
{
    static double sorted[MOST_ROUNDS];
    memcpy(sorted, times, count * sizeof *times);
    qsort(sorted, count, sizeof *sorted, by_value);
    return sorted[count / 2];
}

static double least(const double *times, size_t count)
{
    double best = times[0];
    for (size_t k = 1; k < count; k++)
        best = times[k] < best ? times[k] : best;
    return best;
}

/* A board's row. Whether the library keeps within the bar. */
static bool row(const char *folder, double bar)
{
    static struct left was, is;
    static double before[MOST_ROUNDS], after[MOST_ROUNDS];
    struct board board = read_board(folder);
    size_t rounds = 0;
    double ratio = 0;
    bool newer = false;
    do {
        for (size_t k = 0; k < ROUNDS; k++, rounds++) {
            before[rounds] = timed(before_tirfolma_audit, &board, &was);
            after[rounds] = timed(tirfolma_audit, &board, &is);
        }
        ratio = median(after, rounds) / median(before, rounds);
        newer = was.answer[TIRFOLMA_NUMBER] != 0 && is.answer[TIRFOLMA_NUMBER] == 0;
    } while (!newer && ratio > bar && rounds < MOST_ROUNDS);
    bool same = memcmp(&was, &is, sizeof was) == 0;
    printf("%8u %8zu", (unsigned)is.answer[TIRFOLMA_ITEMS], board.words.count);
    if (newer)
        printf("          - %10.1f        -        -", median(after, rounds));
    else
        printf(" %10.1f %10.1f %8.3f %8.3f", median(before, rounds), median(after, rounds), ratio, least(after, rounds) / least(before, rounds));
    printf("  %zu rounds, %s\n", rounds, newer ? "refused before" : same ? "one answer" : "ANSWERS DIFFER");
    free_board(board);
    return newer || (same && ratio <= bar);
}

int main(int argc, char **argv)
{
    double bar = argc > 1 ? atof(argv[1]) : 0;
    if (argc < 3 || bar <= 0) {
        fprintf(stderr, "usage: before BAR FOLDER...\n");
        return 2;
    }
    bool met = true;
    printf("medians in microseconds, and after over before by them and by the best; the bar, by medians, is %.3f\n", bar);
    printf("   items    words     before      after    ratio  by best\n");
    for (int k = 2; k < argc; k++)
        met = row(argv[k], bar) && met;
    return met ? 0 : 1;
}
