/* The replayer's machine is Linux: recorded calls come by standard input. */
#include "platform.h"

#include <stdio.h>

size_t platform_read(void *bytes, size_t count)
{
    return fread(bytes, 1, count, stdin);
}

void platform_say(const char *text)
{
    fputs(text, stdout);
}

void platform_before_call(void)
{
}

void platform_after_call(void)
{
}
