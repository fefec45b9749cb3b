#ifndef PLAIN_H
#define PLAIN_H

#include <stddef.h>
#include <stdint.h>

void plain_sha256_words(const uint32_t *words, size_t count, uint32_t digest[8]);
void plain_sha384_words(const uint32_t *words, size_t count, uint32_t digest[12]);
void plain_sha512_words(const uint32_t *words, size_t count, uint32_t digest[16]);

#endif
