/* What the program asks of its board. board.c has it for ARM's MPS2 board with a Cortex-M4 (AN386), as qemu runs it. */
#ifndef BOARD_H
#define BOARD_H

#include <stdint.h>

/* Prints on the console. */
void print(const char *text);
void print_number(uint32_t number);

/* Starts the clock, and waits for the end of a period of eight seconds. */
void start_clock(void);
void wait_for_period(void);

/* Ends the run under qemu. A unit never does. */
void end_run(void);

#endif
