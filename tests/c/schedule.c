/*
 * Tests of hutplan_schedule by running, through the archive that firmware links.
 *
 * Every expected number, place and word is worked out from document 02, A.12. Each buffer lies
 * between guard bytes; after a call every byte of every buffer is compared. Prints one line; exit
 * status 1 and a line for each difference.
 */
#include <stdint.h>
#include <stdio.h>
#include <string.h>

#include "hutplan.h"

#define GUARD 16
#define FILL 0x5A   /* what guards, table and answer hold before a call */
#define MOST 5000   /* the longest table buffer */

static unsigned long checks, failures;

static void expect(int holds, const char *what, const char *name)
{
    checks++;
    if (!holds) {
        failures++;
        printf("FAILED: %s: %s\n", name, what);
    }
}

static void put(uint8_t *bytes, uint64_t number, size_t count)
{
    size_t i;

    for (i = 0; i < count; i++)
        bytes[i] = (uint8_t)(number >> 8 * i);
}

/* One call: the answer's number and figure, and the words of the table if it is accepted. */
static void call(const char *name, const char *text, size_t text_len, size_t table_len, size_t answer_len,
                 uint64_t number, uint64_t figure, const uint32_t *words)
{
    static uint8_t table[MOST + 2 * GUARD], expected_table[sizeof table];
    uint8_t answer[64 + 2 * GUARD], expected_answer[sizeof answer];
    uint32_t returned;
    size_t i;

    memset(table, FILL, sizeof table);
    memset(answer, FILL, sizeof answer);
    memset(expected_table, FILL, sizeof table);
    memset(expected_answer, FILL, sizeof answer);
    if (answer_len >= 16) {
        put(expected_answer + GUARD, number, 8);
        put(expected_answer + GUARD + 8, figure, 8);
        for (i = 0; number == 0 && i < figure; i++)
            put(expected_table + GUARD + 4 * i, words[i], 4);
    }
    returned = hutplan_schedule((const uint8_t *)text, text_len, table + GUARD, table_len, answer + GUARD, answer_len);
    expect(returned == (answer_len >= 16), "returned", name);
    expect(memcmp(answer, expected_answer, sizeof answer) == 0, "answer", name);
    expect(memcmp(table, expected_table, sizeof table) == 0, "table", name);
}

static void accepted(const char *text, uint64_t count, const uint32_t *words)
{
    size_t over;

    for (over = 0; over < 6; over++)
        call(text, text, strlen(text), 4 * count + over, 16 + over, 0, count, words);
    /* Just too short, by one to four bytes; an answer that is too short changes nothing. */
    for (over = 1; over < 5; over++)
        call(text, text, strlen(text), 4 * count - over, 16, HUTPLAN_OUTPUT_TOO_SHORT, count, words);
    call(text, text, strlen(text), 4 * count, 15, 0, count, words);
}

static void refused(const char *text, uint64_t number, uint64_t place)
{
    call(text, text, strlen(text), 40, 16, number, place, NULL);
    call(text, text, strlen(text), 0, 16, number, place, NULL);
    call(text, text, strlen(text), 40, 0, number, place, NULL);
}

/* A text of so many good lines, and then a last one. */
static void many(size_t count, const char *last, uint64_t number, uint64_t figure)
{
    static char text[16384];
    static uint32_t words[2000];
    size_t i;

    text[0] = '\0';
    words[0] = 1;
    words[1] = (uint32_t)count;
    for (i = 0; i < count; i++) {
        memcpy(text + 9 * i, "0 15 100\n", 10);
        words[2 + 2 * i] = 0;
        words[3 + 2 * i] = 1500;
    }
    words[2 + 2 * count] = 0;
    strcat(text, last);
    call(last, text, strlen(text), 4108, 16, number, figure, words);
}

int main(void)
{
    const uint32_t three[] = {1, 3, 0, 48000, 1, 2400, 1, 7200, 0};
    const uint32_t largest[] = {1, 1, 0, 2880000, 0};

    accepted("0 200 240\n1 20 120\n1 60 120\n", 9, three);
    accepted("0 6000 480\n", 5, largest);

    refused("\n", HUTPLAN_NOT_A_LINE, 0);
    refused("0 15 100", HUTPLAN_NOT_A_LINE, 0);
    refused("0 15 100\n0 15", HUTPLAN_NOT_A_LINE, 1);
    refused("0 15 100\r\n", HUTPLAN_NOT_A_LINE, 0);
    refused("0  15 100\n", HUTPLAN_NOT_A_LINE, 0);
    refused("00 15 100\n", HUTPLAN_NOT_A_LINE, 0);
    refused("0 15 0100\n", HUTPLAN_NOT_A_LINE, 0);
    refused("0 15 10000\n", HUTPLAN_NOT_A_LINE, 0);
    call("NUL", "0 15\0 100\n", 10, 40, 16, HUTPLAN_NOT_A_LINE, 0, NULL);
    refused("0 55 100\n", HUTPLAN_NOT_A_SIZE, 0);
    refused("0 15 100\n9 0 99\n", HUTPLAN_NOT_A_SIZE, 1);
    refused("0 15 99\n", HUTPLAN_LINE_OUT_OF_RANGE, 0);
    refused("0 15 481\n", HUTPLAN_LINE_OUT_OF_RANGE, 0);
    refused("1 15 100\n", HUTPLAN_LINE_OUT_OF_RANGE, 0);
    refused("0 15 100\n2 15 100\n", HUTPLAN_LINE_OUT_OF_RANGE, 1);
    refused("", HUTPLAN_LINE_OUT_OF_RANGE, 0);
    call("NULL", NULL, 0, 40, 16, HUTPLAN_LINE_OUT_OF_RANGE, 0, NULL);

    many(512, "", HUTPLAN_ACCEPTED, 1027);
    many(512, "x", HUTPLAN_NOT_A_LINE, 512);
    many(512, "0 55 100\n", HUTPLAN_NOT_A_SIZE, 512);
    many(512, "0 15 100\n", HUTPLAN_LINE_OUT_OF_RANGE, 512);
    many(513, "x", HUTPLAN_LINE_OUT_OF_RANGE, 512);

    printf("schedule: %lu checks, %lu failures\n", checks, failures);
    return failures != 0;
}
