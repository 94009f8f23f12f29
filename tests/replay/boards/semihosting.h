/*
 * What a bare image asks of the emulator that it runs in (ARM's and RISC-V's semihosting): to read a
 * file, to print, to end.
 */
#ifndef SEMIHOSTING_H
#define SEMIHOSTING_H

#include <stdint.h>

enum { OPEN = 0x01, WRITE0 = 0x04, READ = 0x06, EXIT_EXTENDED = 0x20 };

#if defined(__arm__)
static inline uintptr_t ask(uintptr_t what, const void *of)
{
    register uintptr_t r0 __asm__("r0") = what;
    register const void *r1 __asm__("r1") = of;

    __asm__ volatile("bkpt 0xab" : "+r"(r0) : "r"(r1) : "memory");
    return r0;
}
#elif defined(__riscv)
static inline uintptr_t ask(uintptr_t what, const void *of)
{
    register uintptr_t a0 __asm__("a0") = what;
    register const void *a1 __asm__("a1") = of;

    __asm__ volatile(".balign 16\n.option push\n.option norvc\n"
                     "slli x0, x0, 0x1f\nebreak\nsrai x0, x0, 7\n.option pop"
                     : "+r"(a0) : "r"(a1) : "memory");
    return a0;
}
#endif

/* Ends with a status: 0x20026 stands for an end that the program wanted. */
static inline void end(int status)
{
    uintptr_t why[2] = {0x20026, (uintptr_t)status};

    ask(EXIT_EXTENDED, why);
    for (;;)
        continue;
}

#endif
