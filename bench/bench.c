/* Times the proved hashes beside others on the same words: best of many runs, and each one's time over plain C's.
   Ends with status 1 where two digests differ, or where the proved code misses the bar of a message. */
#define _POSIX_C_SOURCE 199309L
#define OPENSSL_SUPPRESS_DEPRECATED
#include <stdbool.h>
#include <stdio.h>
#include <stdlib.h>
#include <string.h>
#include <time.h>

#include "plain.h"

#if defined(WITH_LIBRARY) || defined(WITH_PORTABLE)
#include <openssl/sha.h>
#endif

/* A row's runs; where its bar is missed they go on, up to so many: a busy machine spoils some of them. */
enum { RUNS = 100, MOST_RUNS = 1000 };

/* ---- the hashes and who computes them */

/* A contender takes the message and gives the digest as words or as bytes, whichever its library is made for. */
typedef void of_words(const uint32_t *words, size_t count, uint32_t *digest);
typedef unsigned char *of_bytes(const unsigned char *bytes, size_t length, unsigned char *digest);

/* The library's entries. A slice is a pointer and a count of its elements. */
bool tirfolma_sha256_words(const uint32_t *words, size_t count, uint32_t digest[8]);
void tirfolma_sha384_words(const uint32_t *words, size_t count, uint32_t digest[12]);
void tirfolma_sha512_words(const uint32_t *words, size_t count, uint32_t digest[16]);

static void proved_sha256_words(const uint32_t *words, size_t count, uint32_t *digest)
{
    if (!tirfolma_sha256_words(words, count, digest))
        abort();
}

#ifdef WITH_LIBRARY
#define LIBRARY(NAME) NAME
#else
#define LIBRARY(NAME) NULL
#endif

#ifdef WITH_PORTABLE
#define PORTABLE(NAME) portable_##NAME
/* The portable C has three steps where the library has one function. */
#define IN_ONE(NAME, CONTEXT)                                                                               \
    int portable_##NAME##_Init(CONTEXT *context);                                                           \
    int portable_##NAME##_Update(CONTEXT *context, const void *bytes, size_t length);                       \
    int portable_##NAME##_Final(unsigned char *digest, CONTEXT *context);                                   \
    static unsigned char *portable_##NAME(const unsigned char *bytes, size_t length, unsigned char *digest) \
    {                                                                                                       \
        CONTEXT context;                                                                                    \
        portable_##NAME##_Init(&context);                                                                   \
        portable_##NAME##_Update(&context, bytes, length);                                                  \
        portable_##NAME##_Final(digest, &context);                                                          \
        return digest;                                                                                      \
    }
IN_ONE(SHA256, SHA256_CTX)
IN_ONE(SHA384, SHA512_CTX)
IN_ONE(SHA512, SHA512_CTX)
#else
#define PORTABLE(NAME) NULL
#endif

struct hash {
    const char *name;
    size_t digest_words;
    of_words *plain, *proved;
    of_bytes *portable, *library;
};

enum { MOST_DIGEST_WORDS = 16 };

static const struct hash sha256 = {"SHA-256", 8, plain_sha256_words, proved_sha256_words, PORTABLE(SHA256), LIBRARY(SHA256)};
static const struct hash sha384 = {"SHA-384", 12, plain_sha384_words, tirfolma_sha384_words, PORTABLE(SHA384), LIBRARY(SHA384)};
static const struct hash sha512 = {"SHA-512", 16, plain_sha512_words, tirfolma_sha512_words, PORTABLE(SHA512), LIBRARY(SHA512)};

/* ---- the rows */

/* A message, how often it is hashed in a run, and the most time that the proved code may take on it, over plain C's. */
struct row {
    const struct hash *hash;
    const char *title;
    size_t count;
    int times;
    double bar;
};

/* An item's address is the hash of its words up to its signature: 19 and its content. */
static const struct row rows[] = {
    {&sha256, "1 MiB", 262144, 1, 0.80},
    {&sha256, "200 bytes", 50, 2000, 0.85},
    {&sha256, "an item's address, 30 words", 30, 2000, 0.85},
    {&sha256, "a ballot's address, one contest, 37 words", 37, 2000, 0.85},
    {&sha384, "1 MiB", 262144, 1, 1.00},
    {&sha384, "300 bytes", 75, 2000, 1.00},
    {&sha512, "1 MiB", 262144, 1, 1.00},
    {&sha512, "300 bytes", 75, 2000, 1.00},
};

/* ---- timing */

/* The processor's time and not the clock's, so that other programs on the machine count little. */
static double now(void)
{
    struct timespec t;
    clock_gettime(CLOCK_PROCESS_CPUTIME_ID, &t);
    return (double)t.tv_sec + 1e-9 * (double)t.tv_nsec;
}

struct message {
    size_t count;
    uint32_t *words;
    unsigned char *bytes;
};

static struct message message_of(size_t count)
{
    struct message m = {count, malloc(count * 4), malloc(count * 4)};
    if (!m.words || !m.bytes)
        abort();
    for (size_t i = 0; i < count; i++) {
        m.words[i] = (uint32_t)i * 2654435761u;
        for (size_t b = 0; b < 4; b++)
            m.bytes[4 * i + b] = (unsigned char)(m.words[i] >> (24 - 8 * b));
    }
    return m;
}

/* Has one of the two functions; neither where it is not installed. */
struct contender {
    const char *name;
    of_words *words;
    of_bytes *bytes;
    double best;
    uint32_t digest[MOST_DIGEST_WORDS];
};

/* Hashes the message so often, and keeps the time of one if it is the best so far. */
static void run(struct contender *c, const struct message *m, int times, size_t digest_words)
{
    unsigned char bytes[4 * MOST_DIGEST_WORDS];
    double start = now();
    for (int k = 0; k < times; k++) {
        if (c->words)
            c->words(m->words, m->count, c->digest);
        else
            c->bytes(m->bytes, m->count * 4, bytes);
    }
    double took = (now() - start) / times;
    if (took < c->best)
        c->best = took;
    if (c->words)
        return;
    for (size_t i = 0; i < digest_words; i++) {
        const unsigned char *b = bytes + 4 * i;
        c->digest[i] = (uint32_t)b[0] << 24 | (uint32_t)b[1] << 16 | (uint32_t)b[2] << 8 | b[3];
    }
}

/* A contender's time over plain C's, by the best run of each. */
static double ratio(const struct contender *c, const struct contender *plain)
{
    return c->best / plain->best;
}

/* Whether the proved code keeps within the row's bar. The contenders take turns, so that a slow moment of the machine falls on all. */
static bool race(const struct row *row)
{
    const struct hash *hash = row->hash;
    struct contender all[] = {
        {.name = "plain C", .words = hash->plain},
        {.name = "proved", .words = hash->proved},
        {.name = "openssl, portable C", .bytes = hash->portable},
        {.name = "openssl, assembly", .bytes = hash->library},
    };
    const struct contender *plain = &all[0], *proved = &all[1];
    struct contender *end = all + sizeof all / sizeof all[0];
    for (struct contender *c = all; c < end; c++)
        c->best = 1e9;

    struct message m = message_of(row->count);
    int runs = 0;
    while (runs < RUNS || (ratio(proved, plain) > row->bar && runs < MOST_RUNS)) {
        for (struct contender *c = all; c < end; c++)
            if (c->words || c->bytes)
                run(c, &m, row->times, hash->digest_words);
        runs++;
    }
    free(m.words);
    free(m.bytes);

    printf("%s of %s, best of %d runs\n", hash->name, row->title, runs);
    for (struct contender *c = all; c < end; c++) {
        if (!c->words && !c->bytes)
            continue;
        if (memcmp(c->digest, plain->digest, hash->digest_words * sizeof c->digest[0]) != 0) {
            printf("%s and %s differ\n", c->name, plain->name);
            exit(1);
        }
        printf("  %-20s %10.3f us  %7.1f MiB/s  %.2f of plain C's time\n", c->name, c->best * 1e6,
               (double)row->count * 4 / c->best / 1048576, ratio(c, plain));
    }
    bool met = ratio(proved, plain) <= row->bar;
    printf("  %.3f of plain C's time, at most %.3f wanted: %s\n", ratio(proved, plain), row->bar, met ? "met" : "MISSED");
    return met;
}

int main(void)
{
    bool met = true;
    for (size_t i = 0; i < sizeof rows / sizeof rows[0]; i++)
        met &= race(&rows[i]);
    return met ? 0 : 1;
}
