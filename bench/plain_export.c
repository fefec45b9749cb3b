/* The export of a board in plain C: the text that tirfolma_export writes, byte by byte and with no thought of speed but the compiler's. */
#include "plain_export.h"

#include <string.h>

static unsigned char *put_text(unsigned char *at, const char *text)
{
    size_t length = strlen(text);
    memcpy(at, text, length);
    return at + length;
}

static unsigned char *put_number(unsigned char *at, uint64_t number)
{
    unsigned char digits[20];
    size_t count = 0;
    do
        digits[count++] = (unsigned char)('0' + number % 10);
    while ((number /= 10) != 0);
    while (count > 0)
        *at++ = digits[--count];
    return at;
}

static unsigned char *put_words(unsigned char *at, const uint32_t *words, size_t count)
{
    for (size_t k = 0; k < count; k++)
        for (int shift = 28; shift >= 0; shift -= 4)
            *at++ = (unsigned char)"0123456789abcdef"[words[k] >> shift & 15];
    return at;
}

static unsigned char *put_item(unsigned char *at, const uint32_t *head, size_t address, size_t signature)
{
    size_t count = *head & 0xffff;
    const uint32_t *content = head + 1, *parent = content + count, *previous = parent + address, *time = previous + address;
    at = put_text(at, "{\"type\":");
    at = put_number(at, *head >> 16 & 0xfff);
    at = put_text(at, ",\"time\":");
    at = put_number(at, (uint64_t)time[0] << 32 | time[1]);
    at = put_text(at, ",\"parent\":\"");
    at = put_words(at, parent, address);
    at = put_text(at, "\",\"previous\":\"");
    at = put_words(at, previous, address);
    at = put_text(at, "\",\"address\":\"");
    at = put_words(at, time + 2 + signature, address);
    at = put_text(at, "\",\"content\":\"");
    at = put_words(at, content, count);
    return put_text(at, "\"}\n");
}

size_t plain_export(const uint32_t *board, const uint32_t *places, size_t stride, size_t items, size_t address, size_t signature,
                    unsigned char *text)
{
    unsigned char *at = text;
    for (size_t k = 0; k < items; k++) {
        const uint32_t *head = board + places[stride * k];
        if (*head >> 28 == 1)
            at = put_item(at, head, address, signature);
    }
    return (size_t)(at - text);
}
