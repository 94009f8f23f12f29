/* The board: where the processor starts, its console and its clock. */
#include "board.h"
#include "hutplan.h"

int main(void);

/* ---- The start */

/* The deepest call is hutplan_plan; the rest is for this program, for memcpy and the like, and for the clock. */
static _Alignas(8) uint8_t stack[HUTPLAN_PLAN_STACK + 2048] __attribute__((section(".stack")));

/* From board.ld: what of the image belongs into memory, and what of memory starts as zeros. */
extern const uint8_t data_from[];
extern uint8_t data_start[], data_end[], zeros_start[], zeros_end[];

static volatile uint32_t ticks;

static void start(void)
{
    const uint8_t *from = data_from;
    uint8_t *to;

    for (to = data_start; to < data_end; to++)
        *to = *from++;
    for (to = zeros_start; to < zeros_end; to++)
        *to = 0;
    main();
    for (;;)
        continue;
}

static void fault(void)
{
    print("fault\n");
    end_run();
    for (;;)
        continue;
}

static void tick(void)
{
    ticks++;
}

/* What the processor reads first: where the stack ends, where to start, and who takes faults and the clock's ticks. */
struct vectors {
    uint8_t *stack_end;
    void (*handlers[15])(void);
};

__attribute__((section(".vectors"), used)) static const struct vectors vectors = {
    stack + sizeof stack,
    {start, fault, fault, fault, fault, fault, 0, 0, 0, 0, fault, 0, 0, fault, tick},
};

/* ---- The console: the board's first serial port */

#define UART_DATA (*(volatile uint32_t *)0x40004000)
#define UART_STATE (*(volatile uint32_t *)0x40004004)
#define UART_CONTROL (*(volatile uint32_t *)0x40004008)
#define UART_FULL 1u

void print(const char *text)
{
    UART_CONTROL = 1;
    for (; *text != '\0'; text++) {
        while (UART_STATE & UART_FULL)
            continue;
        UART_DATA = (uint8_t)*text;
    }
}

void print_number(uint32_t number)
{
    char digits[11], *at = digits + sizeof digits - 1;

    *at = '\0';
    do
        *--at = (char)('0' + number % 10);
    while ((number /= 10) > 0);
    print(at);
}

/* ---- The clock: a tick every tenth of a second, of 25 MHz */

#define TICK_CONTROL (*(volatile uint32_t *)0xE000E010)
#define TICK_RELOAD (*(volatile uint32_t *)0xE000E014)
#define TICK_VALUE (*(volatile uint32_t *)0xE000E018)
#define TICKS_A_PERIOD 80u

static uint32_t period_end;

void start_clock(void)
{
    TICK_RELOAD = 2500000 - 1;
    TICK_VALUE = 0;
    TICK_CONTROL = 7;
    period_end = ticks + TICKS_A_PERIOD;
}

void wait_for_period(void)
{
    while ((int32_t)(ticks - period_end) < 0)
        __asm__ volatile("wfi");
    period_end += TICKS_A_PERIOD;
}

void end_run(void)
{
    register uint32_t what __asm__("r0") = 0x18, why __asm__("r1") = 0x20026;

    __asm__ volatile("bkpt 0xab" : : "r"(what), "r"(why) : "memory");
}
