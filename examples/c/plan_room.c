/*
 * Reads a room sheet, plans it, and prints the plan.
 *
 *     plan_room FILE [DEMAND]...
 *
 * There is one DEMAND for each server, in the table's order: watts in decimal.
 *
 * Prints the plan as hutplan does: a line `freed F`, and for each server a line `server N cap W`
 * with a line `cord K node M grant G headroom W held B` for each cord; or, with the
 * refusal's name beside its number, `refused R (NAME) at P`. hutplan.h lists the numbers and places.
 * Exit status: 0 if all was accepted, 1 if the sheet or the demands were refused, 2 if no FILE is
 * given or it cannot be read.
 */
#include <inttypes.h>
#include <stdio.h>
#include <stdlib.h>
#include <string.h>

#include "hutplan.h"
#include "lists.h"
#include "refusal_names.h"

/* More watts than a demand may have. */
#define NO_DEMAND 16777216

/* The inputs have space for one byte, or one demand, more than any room has: input that is cut
   there is still too long, and is refused. All buffers are static, to leave the stack to the
   calls. */
static uint8_t sheet[HUTPLAN_SHEET_BYTES + 1];
static uint8_t table[HUTPLAN_TABLE_BYTES];
static uint8_t demands[HUTPLAN_DEMANDS_BYTES + 4];
static uint8_t grants[HUTPLAN_GRANTS_BYTES];
static uint8_t caps[HUTPLAN_CAPS_BYTES];
static uint8_t headroom[HUTPLAN_HEADROOM_BYTES];
static uint8_t held[HUTPLAN_HELD_BYTES];
static uint8_t answer[HUTPLAN_ANSWER_BYTES];

/* The watts that an argument says. What is not one to eight digits counts as too many watts, so
   that Plan refuses it and tells its place. */
static uint32_t demand_of(const char *text)
{
    size_t digits = strspn(text, "0123456789");

    if (digits < 1 || digits > 8 || text[digits] != '\0')
        return NO_DEMAND;
    return (uint32_t)strtoul(text, NULL, 10);
}

/* Whether the answer says that the input was accepted; if not, prints which refusal, and where. */
static int accepted(void)
{
    uint64_t number = number_at(answer, 8);

    if (number == HUTPLAN_ACCEPTED)
        return 1;
    printf("refused %" PRIu64 " (%s) at %" PRIu64 "\n", number, refusal_name(number),
           number_at(answer + 8, 8));
    return 0;
}

/* Prints the plan. The table was accepted, so its counts are right and no word is missing. */
static void print_plan(uint64_t freed)
{
    uint32_t nodes = word_at(table, 1), servers, server, cords, cord;
    size_t node_words = word_at(table, 0) == 1 ? 2 : 3; /* by the version */
    size_t at = 2 + node_words * nodes;                 /* the place of the table's next word */
    size_t place = 0;                                   /* the place of the next cord's figures */

    printf("freed %" PRIu64 "\n", freed);
    servers = word_at(table, at);
    at += 1;
    for (server = 1; server <= servers; server++) {
        printf("server %" PRIu32 " cap %" PRIu32 "\n", server, word_at(caps, server - 1));
        cords = word_at(table, at + 3); /* after rank, least and greatest */
        at += 4;
        for (cord = 1; cord <= cords; cord++) {
            printf("cord %" PRIu32 " node %" PRIu32, cord, word_at(table, at));
            printf(" grant %" PRIu32 " headroom %" PRIu32 " held %" PRIu32 "\n",
                   word_at(grants, place), word_at(headroom, place), word_at(held, place));
            at += 2; /* node and share */
            place += 1;
        }
    }
}

int main(int argc, char **argv)
{
    size_t sheet_len, words, count;
    FILE *file;

    if (argc < 2) {
        fprintf(stderr, "usage: plan_room FILE [DEMAND]...\n");
        return 2;
    }
    file = fopen(argv[1], "rb");
    if (file == NULL) {
        perror(argv[1]);
        return 2;
    }
    sheet_len = fread(sheet, 1, sizeof sheet, file);
    if (ferror(file)) {
        perror(argv[1]);
        return 2;
    }
    fclose(file);

    for (count = 0; count < sizeof demands / 4 && argv[2 + count] != NULL; count++)
        put_word(demands, count, demand_of(argv[2 + count]));

    /* A call returns 0 only if the answer is shorter than sixteen bytes, and this one is not. */
    hutplan_read(sheet, sheet_len, table, sizeof table, answer, sizeof answer);
    if (!accepted())
        return 1;
    words = (size_t)number_at(answer + 8, 8);

    /* Of the table, only the words that Read wrote: any more would be words left over. */
    hutplan_plan(table, 4 * words, demands, 4 * count,
                 grants, sizeof grants, caps, sizeof caps, headroom, sizeof headroom,
                 held, sizeof held, answer, sizeof answer);
    if (!accepted())
        return 1;
    print_plan(number_at(answer + 8, 8));
    return 0;
}
