/* Numbers and lists of words in bytes, low byte first, whatever the byte order of the machine. */
#ifndef LISTS_H
#define LISTS_H

#include <stddef.h>
#include <stdint.h>

/* A number of `count` bytes. */
static inline uint64_t number_at(const uint8_t *bytes, size_t count)
{
    uint64_t value = 0;

    while (count > 0)
        value = 256 * value + bytes[--count];
    return value;
}

/* The word at a place of a list. */
static inline uint32_t word_at(const uint8_t *list, size_t place)
{
    return (uint32_t)number_at(list + 4 * place, 4);
}

static inline void put_word(uint8_t *list, size_t place, uint32_t word)
{
    size_t i;

    for (i = 0; i < 4; i++)
        list[4 * place + i] = (uint8_t)(word >> (8 * i));
}

#endif
