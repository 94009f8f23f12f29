/*
 * What the tests of the C calls share: a count of checks, buffers that end at a page that may not be
 * touched and begin after guard bytes, and numbers and words as bytes.
 */
#ifndef BUFFERS_H
#define BUFFERS_H

#define _DEFAULT_SOURCE
#include <stddef.h>
#include <stdint.h>
#include <stdio.h>
#include <stdlib.h>
#include <string.h>
#include <sys/mman.h>

#define GUARD 64          /* guard bytes in front of each buffer */
#define GUARD_BYTE 0xA5
#define FILL 0x5A         /* what an output or answer buffer holds before a call */
#define ROOM (1 << 22)    /* the longest buffer */

static unsigned long checks, failures;

static inline void expect(int holds, const char *what, const char *name)
{
    checks++;
    if (!holds) {
        failures++;
        printf("FAILED: %s: %s\n", name, what);
    }
}

/* ---- Buffers */

/* A buffer of the longest length, its guard bytes before it, and a copy of what it should hold. */
struct buffer {
    uint8_t *end;       /* the page that may not be touched starts here */
    uint8_t *expected;
    uint8_t *bytes;     /* the part lent: `length` bytes up to `end`, or NULL */
    size_t length;
};

static inline void make(struct buffer *buffer)
{
    size_t page = 65536, size = ROOM + page;
    uint8_t *base = mmap(NULL, size + page, PROT_READ | PROT_WRITE, MAP_PRIVATE | MAP_ANONYMOUS, -1, 0);

    if (base == MAP_FAILED || mprotect(base + size, page, PROT_NONE) != 0) {
        perror("a buffer");
        exit(2);
    }
    buffer->end = base + size;
    buffer->expected = malloc(ROOM);
    if (buffer->expected == NULL)
        exit(2);
}

/* Lends `length` bytes, all FILL, which the call is expected to leave. */
static inline void lend(struct buffer *buffer, size_t length)
{
    buffer->length = length;
    buffer->bytes = buffer->end - length;
    memset(buffer->bytes - GUARD, GUARD_BYTE, GUARD);
    memset(buffer->bytes, FILL, length);
    memset(buffer->expected, FILL, length);
}

static inline void lend_bytes(struct buffer *buffer, const uint8_t *bytes, size_t length)
{
    lend(buffer, length);
    if (length > 0) {
        memcpy(buffer->bytes, bytes, length);
        memcpy(buffer->expected, bytes, length);
    }
}

static inline void expect_buffer(const struct buffer *buffer, const char *what, const char *name)
{
    size_t i;
    int same = 1;

    for (i = 1; i <= GUARD; i++)
        same = same && buffer->end[-(ptrdiff_t)(buffer->length + i)] == GUARD_BYTE;
    expect(same, "guard bytes", name);
    expect(memcmp(buffer->end - buffer->length, buffer->expected, buffer->length) == 0, what, name);
}

/* ---- Bytes and words */

/* The bytes of a number, low byte first. */
static inline void put(uint8_t *bytes, uint64_t number, size_t count)
{
    size_t i;

    for (i = 0; i < count; i++)
        bytes[i] = (uint8_t)(number >> 8 * i);
}

/* Words as bytes, four bytes a word. */
static inline size_t list_of(const uint32_t *words, size_t count, uint8_t *list)
{
    size_t i;

    for (i = 0; i < count; i++)
        put(list + 4 * i, words[i], 4);
    return 4 * count;
}

#endif
