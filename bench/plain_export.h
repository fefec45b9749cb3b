#ifndef PLAIN_EXPORT_H
#define PLAIN_EXPORT_H

#include <stddef.h>
#include <stdint.h>

/* Writes the main items of an accepted board, the place of whose item k is places[stride * k], and gives the number of bytes. The text has room. */
size_t plain_export(const uint32_t *board, const uint32_t *places, size_t stride, size_t items, size_t address, size_t signature,
                    unsigned char *text);

#endif
