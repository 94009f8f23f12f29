/* What the replayer needs of the machine that it runs on. */
#ifndef PLATFORM_H
#define PLATFORM_H

#include <stddef.h>

/* The next bytes of the recorded calls; how many there were. */
size_t platform_read(void *bytes, size_t count);

/* Prints a text. */
void platform_say(const char *text);

/* Around every call, for a machine that counts what it costs. */
void platform_before_call(void);
void platform_after_call(void);

#endif
