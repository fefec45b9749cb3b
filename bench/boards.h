/* Boards that are read from folders, to time the library on. */
#ifndef BOARDS_H
#define BOARDS_H

#include <stdbool.h>
#include <stdio.h>
#include <stdlib.h>
#include <time.h>

#include "tirfolma.h"

struct words {
    uint32_t *at;
    size_t count;
};

struct board {
    struct words words, verdicts, roll;
};

/* What an audit leaves. */
struct left {
    uint32_t index[TIRFOLMA_INDEX_WORDS], ballots[TIRFOLMA_BALLOT_WORDS], answer[TIRFOLMA_AUDIT_WORDS];
};

typedef bool audit_function(const uint32_t *, size_t, const uint32_t *, size_t, const uint32_t *, size_t, uint32_t *, size_t, uint32_t *, size_t,
                            uint32_t *, size_t);

static struct words read_words(const char *folder, const char *name)
{
    char path[4096];
    snprintf(path, sizeof path, "%s/%s", folder, name);
    FILE *file = fopen(path, "rb");
    if (file == NULL) {
        perror(path);
        exit(2);
    }
    struct words read = {malloc(4 * TIRFOLMA_BOARD_WORDS), 0};
    unsigned char bytes[4];
    while (read.count < TIRFOLMA_BOARD_WORDS && fread(bytes, 1, 4, file) == 4)
        read.at[read.count++] = (uint32_t)bytes[0] << 24 | (uint32_t)bytes[1] << 16 | (uint32_t)bytes[2] << 8 | bytes[3];
    fclose(file);
    return read;
}

static struct board read_board(const char *folder)
{
    return (struct board){read_words(folder, "board.words"), read_words(folder, "verdicts.words"), read_words(folder, "roll.words")};
}

static void free_board(struct board board)
{
    free(board.words.at);
    free(board.verdicts.at);
    free(board.roll.at);
}

/* The curves, by their numbers in the traits word. */
struct curve {
    const char *name;
    size_t address, signature;
};

static const struct curve curves[] = {{"secp256r1", 8, 16}, {"secp384r1", 12, 24}, {"secp521r1", 16, 33}};

static inline const struct curve *curve_of(const struct words *words)
{
    bool told = words->count > 18 && words->at[0] == 0x10010012;
    uint32_t number = told ? words->at[18] >> 1 : 0;
    return number < sizeof curves / sizeof curves[0] ? &curves[number] : &curves[0];
}

/* What an item says: its type, whether it is a main item, and where its parts stand. The words before its signature are hashed. */
struct item {
    uint32_t type;
    bool is_main;
    const uint32_t *head, *time, *signature, *address;
};

/* Item k of an accepted board, from 0 on. */
static inline struct item item_at(const struct words *words, const struct curve *curve, const struct left *left, size_t k)
{
    const uint32_t *head = words->at + left->index[TIRFOLMA_INDEX_ROW_WORDS * k + TIRFOLMA_ROW_PLACE];
    const uint32_t *time = head + 1 + (*head & 0xffff) + 2 * curve->address;
    return (struct item){*head >> 16 & 0xfff, *head >> 28 == 1, head, time, time + 2, time + 2 + curve->signature};
}

/* The processor time of this thread, in microseconds: other programs on the machine count little. */
static double now(void)
{
    struct timespec t;
    clock_gettime(CLOCK_THREAD_CPUTIME_ID, &t);
    return (double)t.tv_sec * 1e6 + (double)t.tv_nsec / 1e3;
}

/* The time of one audit. */
static double timed(audit_function *audit, const struct board *b, struct left *left)
{
    double start = now();
    bool told = audit(b->words.at, b->words.count, b->verdicts.at, b->verdicts.count, b->roll.at, b->roll.count, left->index,
                      TIRFOLMA_INDEX_WORDS, left->ballots, TIRFOLMA_BALLOT_WORDS, left->answer, TIRFOLMA_AUDIT_WORDS);
    double end = now();
    if (!told)
        abort();
    return end - start;
}

#endif
