/*
 * A unit's main program, in small. It starts only with the release of the calls that its header is of.
 * Then, once a period, it reads the hut's sheet from flash, plans the hut by what its servers want,
 * turns each server's DC cap towards its cords' budgets by what the meters read, and sends as many caps
 * as the bus carries. It has no operating system and no heap. What it does it tells on the console.
 */
#include "board.h"
#include "hut.h"
#include "hutplan.h"

/* The slow bus carries so many caps a period. */
#define MESSAGES 1

#define SERVERS HUTPLAN_CONTROLLERS
#define CORDS HUTPLAN_CONTROLLER_CORDS

/* The lists of the calls. All of them are lent at their full size, so that no list is ever too short. */
static uint8_t table[HUTPLAN_TABLE_BYTES], demands[HUTPLAN_DEMANDS_BYTES];
static uint8_t grants[HUTPLAN_GRANTS_BYTES], caps[HUTPLAN_CAPS_BYTES];
static uint8_t headroom[HUTPLAN_HEADROOM_BYTES], held[HUTPLAN_HELD_BYTES];
static uint8_t named[HUTPLAN_SEND_LIST_BYTES];

/* The cap loops: one controller a server, four cords each, fitted or not. */
static struct controller {
    double cap, k, low, high;
} controllers[SERVERS];
static uint8_t working[CORDS * SERVERS], results[SERVERS];
static double budgets[CORDS * SERVERS], measured[CORDS * SERVERS];

/* The position on the bus, from one period to the next. */
static uint64_t position;

/* ---- Words and numbers, as the calls have them: low byte first */

static uint64_t number_at(const uint8_t *bytes, size_t count)
{
    uint64_t value = 0;

    while (count > 0)
        value = 256 * value + bytes[--count];
    return value;
}

static uint32_t word_at(const uint8_t *list, size_t place)
{
    return (uint32_t)number_at(list + 4 * place, 4);
}

static void put_word(uint8_t *list, size_t place, uint32_t word)
{
    size_t i;

    for (i = 0; i < 4; i++)
        list[4 * place + i] = (uint8_t)(word >> 8 * i);
}

/* Tells a refusal on the console. Whether there was none. */
static int accepted(const char *what, const uint8_t *answer)
{
    if (number_at(answer, 8) == HUTPLAN_ACCEPTED)
        return 1;
    print(what);
    print(" refused ");
    print_number((uint32_t)number_at(answer, 8));
    print(" at ");
    print_number((uint32_t)number_at(answer + 8, 8));
    print("\n");
    return 0;
}

/* ---- The table */

/* The place of an accepted table's count of servers: after the nodes, of two words in version 1 and three after it. */
static size_t servers_place(void)
{
    return 2 + (word_at(table, 0) == 1 ? 2 : 3) * word_at(table, 1);
}

static size_t server_count(void)
{
    return word_at(table, servers_place());
}

/* ---- The start */

/* Tells the release of the code on the console. Whether it is the one that the header is of. */
static int right_release(void)
{
    uint8_t answer[HUTPLAN_RELEASE_ANSWER_BYTES];

    hutplan_release(answer, sizeof answer);
    print("release ");
    print_number((uint32_t)number_at(answer + 8, 8));
    print(", sheets up to version ");
    print_number((uint32_t)number_at(answer + 16, 8));
    print("\n");
    return number_at(answer + 8, 8) == HUTPLAN_RELEASE;
}

/* ---- A period */

/* Reads the sheet. How many words its table has, or 0 where it was refused. */
static uint64_t read_sheet(void)
{
    uint8_t answer[HUTPLAN_ANSWER_BYTES];

    hutplan_read(sheet, sheet_bytes, table, sizeof table, answer, sizeof answer);
    return accepted("read", answer) ? number_at(answer + 8, 8) : 0;
}

/* Plans by the demands of now: grants and caps. */
static int plan(uint64_t words)
{
    uint8_t answer[HUTPLAN_ANSWER_BYTES];
    size_t servers = server_count(), i;

    for (i = 0; i < servers; i++)
        put_word(demands, i, demand_of(i));
    hutplan_plan(table, 4 * words, demands, 4 * servers, grants, sizeof grants, caps, sizeof caps,
                 headroom, sizeof headroom, held, sizeof held, answer, sizeof answer);
    if (!accepted("plan", answer))
        return 0;
    print("freed ");
    print_number((uint32_t)number_at(answer + 8, 8));
    print("\n");
    return 1;
}

/* Puts each cord's grant and what its meter reads before its server's loop. A server has four words in the table, the
   last of them its count of cords, and then two words a cord. */
static void load_readings(void)
{
    size_t servers = server_count(), place = servers_place() + 1, cord = 0, server, i;

    for (server = 0; server < servers; server++) {
        size_t cords = word_at(table, place + 3);

        for (i = 0; i < CORDS; i++) {
            size_t at = CORDS * server + i;

            working[at] = i < cords && cord_works(cord + i);
            budgets[at] = working[at] ? word_at(grants, cord + i) : 0;
            measured[at] = working[at] ? cord_watts(cord + i) : 0;
        }
        cord += cords;
        place += 4 + 2 * cords;
    }
}

/* Steps the loops of all servers. */
static int step(void)
{
    uint8_t answer[HUTPLAN_ANSWER_BYTES];
    size_t servers = server_count(), i;

    load_readings();
    hutplan_step_all(&controllers[0].cap, HUTPLAN_CONTROLLER_FIGURES * servers, working, CORDS * servers,
                     budgets, CORDS * servers, measured, CORDS * servers, results, servers, answer, sizeof answer);
    if (!accepted("step", answer))
        return 0;
    for (i = 0; i < servers; i++) {
        print("server ");
        print_number((uint32_t)i + 1);
        print(results[i] == 0 ? " cap " : " not stepped, cap ");
        print_number(word_at(caps, i));
        print(" dc ");
        print_number((uint32_t)controllers[i].cap);
        print("\n");
    }
    return 1;
}

/* Sends the caps that the bus carries in this period. */
static void send(void)
{
    uint8_t answer[HUTPLAN_SEND_ANSWER_BYTES];
    uint64_t i;

    hutplan_send(server_count(), position, MESSAGES, named, sizeof named, answer, sizeof answer);
    if (!accepted("send", answer))
        return;
    for (i = 0; i < number_at(answer + 8, 8); i++) {
        size_t server = word_at(named, (size_t)i);

        send_cap(server, controllers[server].cap);
    }
    position = number_at(answer + 16, 8);
}

int main(void)
{
    uint32_t period;
    size_t i;

    /* With another release's code nothing is planned: the lists may not be those that it wants. */
    if (!right_release()) {
        print("the header is of another release\n");
        end_run();
        return 1;
    }
    for (i = 0; i < SERVERS; i++)
        controllers[i] = (struct controller){.cap = 200, .k = 0.75, .low = 50, .high = 300};
    start_clock();
    for (period = 1; read_meters(); period++) {
        uint64_t words;

        print("period ");
        print_number(period);
        print(": ");
        words = read_sheet();
        /* Where something is refused, the caps stay as they are until the next period. */
        if (words > 0 && plan(words) && step())
            send();
        wait_for_period();
    }
    end_run();
    return 0;
}
