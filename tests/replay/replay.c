/*
 * Makes recorded calls again, on another chip, and compares what they return and every byte of every
 * buffer with what was recorded. Between two buffers lie guard bytes, which are compared too. Prints
 * one line; exit status 1 at the first difference.
 */
#include "parts.h"
#include "platform.h"

#include <string.h>

#define GUARD 64
#define GUARD_BYTE 0xA5
#ifndef SPACE
#define SPACE (7 << 20)   /* for the buffers of a call, and as much for what they are to hold: a board has 16 MB */
#endif

static _Alignas(16) uint8_t space[SPACE], expected[SPACE];
static uint8_t passed_over[4096];

/* How many calls were made, how many of each, and how many had no space here. */
static unsigned long made, made_of[CALLS], too_long;

static void say_number(unsigned long number)
{
    char text[24], *at = text + sizeof text - 1;

    *at = '\0';
    do
        *--at = (char)('0' + number % 10);
    while ((number /= 10) > 0);
    platform_say(at);
}

static int different(const struct call *call, const char *what)
{
    platform_say("a difference: ");
    platform_say(call->name);
    platform_say(", ");
    platform_say(what);
    platform_say(", after calls: ");
    say_number(made);
    platform_say("\n");
    return 1;
}

static int read_all(void *bytes, size_t count)
{
    return platform_read(bytes, count) == count;
}

static int read_number(uint64_t *number, size_t bytes)
{
    uint8_t low_first[8];

    *number = 0;
    if (!read_all(low_first, bytes))
        return 0;
    while (bytes > 0)
        *number = *number << 8 | low_first[--bytes];
    return 1;
}

/* Goes past bytes of the file that there is no space for. */
static int pass_over(size_t count)
{
    size_t some;

    for (; count > 0; count -= some) {
        some = count < sizeof passed_over ? count : sizeof passed_over;
        if (!read_all(passed_over, some))
            return 0;
    }
    return 1;
}

/* A call's buffers, laid into the space one after the other. */
struct layout {
    struct part parts[MOST_PARTS];
    size_t end;     /* the space in use */
    int fits;
};

/* One buffer and what it is to hold, from the file. */
static int read_buffer(struct layout *layout, const struct kind *kind, struct part *part)
{
    uint64_t bytes, place;
    size_t start;

    if (!read_number(&bytes, 4) || !read_number(&place, 1))
        return 0;
    part->count = bytes / kind->size;
    start = (layout->end + GUARD + 15) / 16 * 16 + (place == NOWHERE ? 0 : (size_t)place);
    if (!layout->fits || bytes > SPACE || start + bytes + GUARD > SPACE) {
        layout->fits = 0;
        return pass_over((size_t)bytes << kind->written);
    }
    memset(space + layout->end, GUARD_BYTE, start - layout->end);
    memset(expected + layout->end, GUARD_BYTE, start - layout->end);
    part->at = place == NOWHERE ? NULL : space + start;
    layout->end = start + (size_t)bytes;
    if (!read_all(space + start, (size_t)bytes))
        return 0;
    if (kind->written)
        return read_all(expected + start, (size_t)bytes);
    memcpy(expected + start, space + start, (size_t)bytes);
    return 1;
}

static int read_parts(const struct call *call, struct layout *layout)
{
    size_t i;

    for (i = 0; i < call->parts; i++) {
        const struct kind *kind = &call->kinds[i];
        struct part *part = &layout->parts[i];

        if (!(kind->size == 0 ? read_number(&part->count, 8) : read_buffer(layout, kind, part)))
            return 0;
    }
    return 1;
}

static size_t call_named(const char *name)
{
    size_t which = 0;

    while (which < CALLS && strcmp(calls[which].name, name) != 0)
        which++;
    return which;
}

/* Makes the next recorded call: 0 as it was recorded, 1 not so, 2 there is no such call, -1 the end. */
static int replay_one(void)
{
    struct layout layout = {.fits = 1};
    const struct call *call;
    uint64_t length, returned;
    char name[256];
    size_t which;

    if (!read_number(&length, 1))
        return -1;
    if (!read_all(name, (size_t)length))
        return 2;
    name[length] = '\0';
    if ((which = call_named(name)) == CALLS || !read_number(&returned, 4))
        return 2;
    call = &calls[which];
    if (!read_parts(call, &layout))
        return 2;
    if (!layout.fits) {
        too_long++;
        return 0;
    }
    memset(space + layout.end, GUARD_BYTE, GUARD);
    memset(expected + layout.end, GUARD_BYTE, GUARD);
    platform_before_call();
    returned -= make_call(which, layout.parts);
    platform_after_call();
    if (returned != 0)
        return different(call, "what it returned");
    if (memcmp(space, expected, layout.end + GUARD) != 0)
        return different(call, "a buffer");
    made++;
    made_of[which]++;
    return 0;
}

/* The counts, for a reader; whether none was left out, and each call was made at all, or need not be where costs are counted. */
static int tell(void)
{
    size_t i;
    int all = 1;

    say_number(made);
    platform_say(" calls as recorded:");
    for (i = 0; i < CALLS; i++) {
        platform_say(i == 0 ? " " : ", ");
        platform_say(calls[i].name + strlen("hutplan_"));
        platform_say(" ");
        say_number(made_of[i]);
        all = all && made_of[i] > 0;
    }
    if (too_long > 0) {
        platform_say("; too long for the memory here: ");
        say_number(too_long);
    }
#ifdef COUNT
    all = 1;
#endif
    platform_say(all ? "\n" : "; some call was never made\n");
    return all && too_long == 0;
}

int main(void)
{
    int outcome;

    while ((outcome = replay_one()) == 0)
        continue;
    if (outcome == 2)
        platform_say("not a file of recorded calls\n");
    if (outcome > 0)
        return outcome;
    return tell() ? 0 : 1;
}
