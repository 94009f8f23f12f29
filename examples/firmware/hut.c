/* The hut of this example: room H, three periods of readings that stand in for its meters, and a bus that is the console. */
#include "hut.h"
#include "board.h"

const uint8_t sheet[] = {
    0x01,                               /* version 1 */
    0x02, 0x00, 0x96, 0x01,             /* two nodes: a root rated 150 W */
    0x00, 0xF4, 0x03,                   /* and a root rated 500 W */
    0x02,                               /* two servers */
    0x01, 0x64, 0x90, 0x03, 0x02,       /* rank 1, 100 to 400 W, two cords */
    0x01, 0xF4, 0x03, 0x02, 0xF4, 0x03, /* on node 1 and on node 2, half of the load each */
    0x01, 0x64, 0x90, 0x03, 0x01,       /* rank 1, 100 to 400 W, one cord */
    0x02, 0xE8, 0x07,                   /* on node 2, with all of the load */
};
const size_t sheet_bytes = sizeof sheet;

static const struct readings {
    uint32_t demands[2];
    int works[3];
    double watts[3];
} periods[] = {
    {{400, 400}, {1, 1, 1}, {130, 116, 300}},
    {{100, 100}, {1, 1, 1}, {50, 46, 92}},
    {{400, 400}, {1, 0, 1}, {128, 0, 280}},
};

static const struct readings *now, *next = periods;

int read_meters(void)
{
    if (next == periods + sizeof periods / sizeof *periods)
        return 0;
    now = next++;
    return 1;
}

uint32_t demand_of(size_t server)
{
    return now->demands[server];
}

int cord_works(size_t cord)
{
    return now->works[cord];
}

double cord_watts(size_t cord)
{
    return now->watts[cord];
}

void send_cap(size_t server, double watts)
{
    print("sent ");
    print_number((uint32_t)watts);
    print(" to server ");
    print_number((uint32_t)server + 1);
    print("\n");
}
