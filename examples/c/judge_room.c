/*
 * Reads a room sheet, and says what is wrong with grants that another controller made for it.
 *
 *     judge_room SHEET DEMANDS GRANTS
 *
 * DEMANDS and GRANTS are texts with a number a line, watts in decimal: a demand for each server and a
 * grant for each cord, in the table's order.
 *
 * Prints one line: `passes`, `cord C below its low`, `cord C above its want`, `node N over its limit`
 * or `root N short at rank R`, cords counted from 0 and nodes from 1; or, as plan_room does,
 * `refused R (NAME) at P`. Exit status: 0 if the grants pass, 1 if not, 2 if a file is not given or
 * cannot be read.
 */
#include <inttypes.h>
#include <stdio.h>
#include <stdlib.h>

#include "hutplan.h"
#include "lists.h"
#include "refusal_names.h"

/* As in plan_room.c, each input has space for more than any room has. */
static uint8_t sheet[HUTPLAN_SHEET_BYTES + 1];
static uint8_t table[HUTPLAN_TABLE_BYTES];
static uint8_t demands[HUTPLAN_DEMANDS_BYTES + 4];
static uint8_t grants[HUTPLAN_GRANTS_BYTES + 4];
static uint8_t answer[HUTPLAN_JUDGE_ANSWER_BYTES];

/* Opens a file, or ends the program. */
static FILE *opened(const char *name)
{
    FILE *file = fopen(name, "rb");

    if (file == NULL) {
        perror(name);
        exit(2);
    }
    return file;
}

/* The numbers of a text, at most `most` of them, in a list; how many there are. */
static size_t read_numbers(const char *name, uint8_t *list, size_t most)
{
    FILE *file = opened(name);
    size_t count = 0;
    uint32_t watts;

    while (count < most && fscanf(file, "%9" SCNu32, &watts) == 1)
        put_word(list, count++, watts);
    if (count < most && !feof(file)) {
        fprintf(stderr, "%s: number %zu cannot be read\n", name, count + 1);
        exit(2);
    }
    fclose(file);
    return count;
}

/* The number of the answer's at a place, of those of eight bytes. */
static uint64_t answer_at(size_t place)
{
    return number_at(answer + 8 * place, 8);
}

/* Whether the answer says that the input was accepted; if not, prints which refusal, and where. */
static int accepted(void)
{
    if (answer_at(0) == HUTPLAN_ACCEPTED)
        return 1;
    printf("refused %" PRIu64 " (%s) at %" PRIu64 "\n", answer_at(0), refusal_name(answer_at(0)), answer_at(1));
    return 0;
}

/* Prints the verdict. */
static void print_verdict(void)
{
    uint64_t named = answer_at(2);

    switch (answer_at(1)) {
    case HUTPLAN_PASSES: printf("passes\n"); break;
    case HUTPLAN_BELOW_LOW: printf("cord %" PRIu64 " below its low\n", named); break;
    case HUTPLAN_ABOVE_WANT: printf("cord %" PRIu64 " above its want\n", named); break;
    case HUTPLAN_OVER_LIMIT: printf("node %" PRIu64 " over its limit\n", named); break;
    case HUTPLAN_SHORT: printf("root %" PRIu64 " short at rank %" PRIu64 "\n", named, answer_at(3)); break;
    }
}

int main(int argc, char **argv)
{
    size_t sheet_len, demand_count, grant_count;
    FILE *file;

    if (argc != 4) {
        fprintf(stderr, "usage: judge_room SHEET DEMANDS GRANTS\n");
        return 2;
    }
    file = opened(argv[1]);
    sheet_len = fread(sheet, 1, sizeof sheet, file);
    fclose(file);
    demand_count = read_numbers(argv[2], demands, sizeof demands / 4);
    grant_count = read_numbers(argv[3], grants, sizeof grants / 4);

    hutplan_read(sheet, sheet_len, table, sizeof table, answer, sizeof answer);
    if (!accepted())
        return 1;
    /* Of the table, only the words that Read wrote: any more would be words left over. */
    hutplan_judge(table, 4 * answer_at(1), demands, 4 * demand_count, grants, 4 * grant_count,
                  answer, sizeof answer);
    if (!accepted())
        return 1;
    print_verdict();
    return answer_at(1) != HUTPLAN_PASSES;
}
