/*
 * Stands between a test and the archive: makes each call, and appends it with all bytes before and
 * after to the file that HUTPLAN_RECORD names. Link with -Wl,--wrap=CALL for every call.
 */
#define RECORD
#include "parts.h"

#include <stdio.h>
#include <stdlib.h>
#include <string.h>

static FILE *out;

static void put(const void *bytes, size_t count)
{
    if (count > 0 && fwrite(bytes, 1, count, out) != count) {
        perror("HUTPLAN_RECORD");
        exit(2);
    }
}

static void put_number(uint64_t number, size_t bytes)
{
    uint8_t low_first[8];
    size_t i;

    for (i = 0; i < bytes; i++)
        low_first[i] = (uint8_t)(number >> 8 * i);
    put(low_first, bytes);
}

/* A copy of every buffer, one after the other. */
static uint8_t *copy_of(const struct call *call, const struct part *parts)
{
    uint8_t *copy, *next;
    size_t i, whole = 1;

    for (i = 0; i < call->parts; i++)
        whole += (size_t)parts[i].count * call->kinds[i].size;
    copy = next = malloc(whole);
    if (copy == NULL)
        exit(2);
    for (i = 0; i < call->parts; i++) {
        size_t bytes = (size_t)parts[i].count * call->kinds[i].size;

        if (bytes > 0)
            memcpy(next, parts[i].at, bytes);
        next += bytes;
    }
    return copy;
}

static void put_call(const struct call *call, const struct part *parts, const uint8_t *before, uint32_t returned)
{
    size_t i;

    put_number(strlen(call->name), 1);
    put(call->name, strlen(call->name));
    put_number(returned, 4);
    for (i = 0; i < call->parts; i++) {
        const struct kind *kind = &call->kinds[i];
        size_t bytes = (size_t)parts[i].count * kind->size;

        if (kind->size == 0) {
            put_number(parts[i].count, 8);
            continue;
        }
        put_number(bytes, 4);
        put_number(parts[i].at == NULL ? NOWHERE : (uintptr_t)parts[i].at % 16, 1);
        put(before, bytes);
        if (kind->written)
            put(parts[i].at, bytes);
        before += bytes;
    }
}

static uint32_t record(size_t which, struct part *parts)
{
    const char *name = getenv("HUTPLAN_RECORD");
    uint8_t *before;
    uint32_t returned;

    if (out == NULL && (name == NULL || (out = fopen(name, "ab")) == NULL)) {
        fputs("HUTPLAN_RECORD names no file to append to\n", stderr);
        exit(2);
    }
    before = copy_of(&calls[which], parts);
    returned = make_call(which, parts);
    put_call(&calls[which], parts, before, returned);
    free(before);
    return returned;
}
