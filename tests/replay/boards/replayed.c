/*
 * The replayer's machine is a bare board: recorded calls come from the file `recorded` of the emulator's host. With COUNT
 * it prints a line for each call: instructions, by the clock of a Cortex-M under qemu, which counts them (-icount shift=0:
 * 40 for a tick of 25 MHz), and bytes of stack, by the marks that were put below it and are gone.
 */
#include "../platform.h"
#include "semihosting.h"

size_t platform_read(void *bytes, size_t count)
{
    static uintptr_t file;
    static int open;
    uintptr_t how[3] = {(uintptr_t)"recorded", 1, 8}, what[3] = {0, (uintptr_t)bytes, count};

    if (!open)
        file = ask(OPEN, how);
    open = 1;
    what[0] = file;
    return count - ask(READ, what);
}

void platform_say(const char *text)
{
    ask(WRITE0, text);
}

#ifdef COUNT
#define TICK_CONTROL (*(volatile uint32_t *)0xE000E010)
#define TICK_RELOAD (*(volatile uint32_t *)0xE000E014)
#define TICK_VALUE (*(volatile uint32_t *)0xE000E018)
#define LAST_TICK 0xFFFFFFu
#define INSTRUCTIONS_A_TICK 40
#define MARK 0xC5C5C5C5u
#define OWN 256   /* bytes below the stack's end of now that this file may use itself */

extern uint32_t stack_bottom[];

static uint32_t *marked_to;

static void say_number(uint32_t number, const char *after)
{
    char text[12], *at = text + sizeof text - 1;

    *at = '\0';
    do
        *--at = (char)('0' + number % 10);
    while ((number /= 10) > 0);
    platform_say(at);
    platform_say(after);
}

void platform_before_call(void)
{
    uint32_t *at;

    marked_to = (uint32_t *)((uintptr_t)__builtin_frame_address(0) / 4 * 4) - OWN / 4;
    for (at = stack_bottom; at < marked_to; at++)
        *at = MARK;
    TICK_RELOAD = LAST_TICK;
    TICK_VALUE = 0;
    TICK_CONTROL = 5;
}

void platform_after_call(void)
{
    uint32_t ticks = LAST_TICK - TICK_VALUE;
    uint32_t *at = stack_bottom;

    while (at < marked_to && *at == MARK)
        at++;
    say_number(INSTRUCTIONS_A_TICK * ticks, " ");
    say_number((uint32_t)(4 * (marked_to - at)) + OWN, "\n");
}
#else
void platform_before_call(void)
{
}

void platform_after_call(void)
{
}
#endif
