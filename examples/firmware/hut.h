/* What the program asks of its hut: the sheet, what the servers want, what the meters on their cords read, and its bus. */
#ifndef HUT_H
#define HUT_H

#include <stddef.h>
#include <stdint.h>

/* The hut's sheet, in flash. */
extern const uint8_t sheet[];
extern const size_t sheet_bytes;

/* Takes the readings of the next period; 0 where there are no more, which a unit never says. */
int read_meters(void);

/* The watts that a server wants, servers counted from 0 in the sheet's order. */
uint32_t demand_of(size_t server);

/* What a cord draws now, cords counted from 0 in the sheet's order: whether its supply works, and AC watts. */
int cord_works(size_t cord);
double cord_watts(size_t cord);

/* Puts a server's DC cap on the bus. */
void send_cap(size_t server, double watts);

#endif
