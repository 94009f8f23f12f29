/*
 * The start of a bare image for the tests: vectors (Cortex-M) or the first instructions (RISC-V),
 * memory as C expects it, main, and its status told to the emulator. A fault ends with status 3.
 */
#include "semihosting.h"

#include <stddef.h>

int main(void);

extern uint8_t data_from[], data_start[], data_end[], bss_start[], bss_end[];
void stack_top(void);   /* an address, among the vectors by this type */

static void fault(void)
{
    ask(WRITE0, "a fault\n");
    end(3);
}

__attribute__((used)) static void start(void)
{
    size_t i;

#if defined(__ARM_FP)
    *(volatile uint32_t *)0xE000ED88 |= 0xFu << 20;   /* the floating-point registers may be used */
    __asm__ volatile("dsb\nisb");
#endif
    for (i = 0; data_start + i < data_end; i++)
        ((volatile uint8_t *)data_start)[i] = data_from[i];
    for (i = 0; bss_start + i < bss_end; i++)
        ((volatile uint8_t *)bss_start)[i] = 0;
    end(main());
}

#if defined(__arm__)
__attribute__((section(".first"), used)) static void (*const vectors[16])(void) = {
    stack_top, start, fault, fault, fault, fault, fault,
    fault, fault, fault, fault, fault, fault, fault, fault, fault,
};
#elif defined(__riscv)
__attribute__((section(".first"), naked, used)) void _start(void)
{
    __asm__ volatile(".option arch, +zicsr\nla sp, stack_top\nla t0, %0\ncsrw mtvec, t0\nj %1" : : "i"(fault), "i"(start));
}
#endif
