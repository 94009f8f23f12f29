/*
 * Moves racks between huts: makes one sheet of two, or two of one.
 *
 *     move_racks join FIRST SECOND WHOLE
 *     move_racks part WHOLE NODES SERVERS FIRST SECOND
 *
 * `join` reads two sheets and writes that of both, the second's breakers and servers behind the
 * first's. `part` reads a sheet and writes one of its first NODES breakers and first SERVERS servers,
 * and one of the others.
 *
 * Prints a line for each sheet that it writes, `NAME: W words, B bytes`; or, as plan_room does,
 * `refused R (NAME) at P`. Exit status: 0 if the sheets were written, 1 if the input was refused, 2 if
 * the words on the command line are wrong or a file cannot be read or written.
 */
#include <inttypes.h>
#include <stdio.h>
#include <stdlib.h>
#include <string.h>

#include "hutplan.h"
#include "lists.h"
#include "refusal_names.h"

/* Space for a byte more than any sheet has: a longer one is refused. All buffers are static, to leave
   the stack to the calls. */
static uint8_t sheet[HUTPLAN_SHEET_BYTES + 1];
static uint8_t whole[HUTPLAN_TABLE_BYTES], first[HUTPLAN_TABLE_BYTES], second[HUTPLAN_TABLE_BYTES];
static uint8_t answer[HUTPLAN_PART_ANSWER_BYTES];

/* The number of the answer's at a place, of those of eight bytes. */
static uint64_t answer_at(size_t place)
{
    return number_at(answer + 8 * place, 8);
}

/* Ends the program where the answer is a refusal, and prints which, and where. */
static void accept(void)
{
    if (answer_at(0) == HUTPLAN_ACCEPTED)
        return;
    printf("refused %" PRIu64 " (%s) at %" PRIu64 "\n", answer_at(0), refusal_name(answer_at(0)), answer_at(1));
    exit(1);
}

/* Opens a file, or ends the program. */
static FILE *opened(const char *name, const char *mode)
{
    FILE *file = fopen(name, mode);

    if (file == NULL) {
        perror(name);
        exit(2);
    }
    return file;
}

/* The table of a sheet; how many bytes its words take. */
static uint64_t read_table(const char *name, uint8_t *table)
{
    FILE *file = opened(name, "rb");
    size_t length = fread(sheet, 1, sizeof sheet, file);

    fclose(file);
    hutplan_read(sheet, length, table, HUTPLAN_TABLE_BYTES, answer, sizeof answer);
    accept();
    return 4 * answer_at(1);
}

/* Writes a table's sheet. */
static void write_table(const char *name, const uint8_t *table, uint64_t words)
{
    FILE *file;

    hutplan_write(table, 4 * words, sheet, sizeof sheet, answer, sizeof answer);
    accept();
    file = opened(name, "wb");
    if (fwrite(sheet, 1, answer_at(1), file) != answer_at(1) || fclose(file) != 0) {
        perror(name);
        exit(2);
    }
    printf("%s: %" PRIu64 " words, %" PRIu64 " bytes\n", name, words, answer_at(1));
}

static void usage(void)
{
    fprintf(stderr, "usage: move_racks join FIRST SECOND WHOLE\n"
                    "       move_racks part WHOLE NODES SERVERS FIRST SECOND\n");
    exit(2);
}

/* A count in decimal digits. One that does not fit 64 bits is as good as the greatest that does. */
static uint64_t count_of(const char *word)
{
    if (*word == 0 || word[strspn(word, "0123456789")] != 0)
        usage();
    return strtoull(word, NULL, 10);
}

static void join(char **names)
{
    uint64_t first_len = read_table(names[0], first), second_len = read_table(names[1], second);

    hutplan_join(first, first_len, second, second_len, whole, sizeof whole, answer, sizeof answer);
    accept();
    write_table(names[2], whole, answer_at(1));
}

static void part(char **words)
{
    uint64_t nodes = count_of(words[1]), servers = count_of(words[2]);
    uint64_t whole_len = read_table(words[0], whole), one, two;

    hutplan_part(whole, whole_len, nodes, servers, first, sizeof first, second, sizeof second,
                 answer, sizeof answer);
    accept();
    one = answer_at(1);
    two = answer_at(2);
    write_table(words[3], first, one);
    write_table(words[4], second, two);
}

int main(int argc, char **argv)
{
    if (argc == 5 && strcmp(argv[1], "join") == 0)
        join(argv + 2);
    else if (argc == 7 && strcmp(argv[1], "part") == 0)
        part(argv + 2);
    else
        usage();
    return 0;
}
