/* For a chip whose compiler comes without a C library: the functions that the image calls. By words where it can. */
#include "string.h"
#include <stdint.h>

typedef uintptr_t __attribute__((may_alias)) word;

void *memset(void *to, int byte, size_t count)
{
    uint8_t *at = to;
    word all = (uint8_t)byte * ((word)-1 / 255);

    for (; count > 0 && (uintptr_t)at % sizeof all != 0; count--)
        *at++ = (uint8_t)byte;
    for (; count >= sizeof all; count -= sizeof all, at += sizeof all)
        *(word *)at = all;
    while (count-- > 0)
        *at++ = (uint8_t)byte;
    return to;
}

void *memcpy(void *restrict to, const void *restrict from, size_t count)
{
    uint8_t *at = to;
    const uint8_t *source = from;

    if (((uintptr_t)at | (uintptr_t)source) % sizeof(word) == 0)
        for (; count >= sizeof(word); count -= sizeof(word), at += sizeof(word), source += sizeof(word))
            *(word *)at = *(const word *)source;
    while (count-- > 0)
        *at++ = *source++;
    return to;
}

int memcmp(const void *left, const void *right, size_t count)
{
    const uint8_t *a = left, *b = right;

    for (; count > 0; count--, a++, b++)
        if (*a != *b)
            return *a - *b;
    return 0;
}

size_t strlen(const char *text)
{
    size_t length = 0;

    while (text[length] != '\0')
        length++;
    return length;
}

int strcmp(const char *left, const char *right)
{
    while (*left != '\0' && *left == *right)
        left++, right++;
    return (uint8_t)*left - (uint8_t)*right;
}
