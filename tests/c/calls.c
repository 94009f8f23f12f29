/*
 * Tests of hutplan_read, hutplan_write and hutplan_plan by running, through the archive that firmware links.
 *
 * Every expected number, place and figure here is worked out from documents 01 and 02. Each call is made on
 * buffers that end at a page that may not be touched and begin after guard bytes; after it every byte
 * of every buffer is compared. Prints one line; exit status 1 and a line for each difference.
 */
#include "buffers.h"
#include "hutplan.h"

static struct buffer input, output, answer;

/* Of Plan, whose input is the table: the demands, and the lists that it fills. */
enum { GRANTS, CAPS, HEADROOM, HELD, LISTS };
static struct buffer demands, lists[LISTS];
static const char *const list_names[LISTS] = {"grants", "caps", "headroom", "held"};

/* ---- Sheets and tables in text */

/* Words as numbers of a sheet, seven bits a byte. */
static size_t sheet_of(const uint32_t *words, size_t count, uint8_t *sheet)
{
    size_t i, size = 0;
    uint32_t rest;

    for (i = 0; i < count; i++) {
        for (rest = words[i]; rest > 127; rest >>= 7)
            sheet[size++] = (uint8_t)(0x80 | (rest & 0x7F));
        sheet[size++] = (uint8_t)rest;
    }
    return size;
}

/* The next number of a text, in a base, and whether there is one. */
static int next_number(const char **text, int base, unsigned long *value)
{
    char *next;

    *value = strtoul(*text, &next, base);
    if (next == *text)
        return 0;
    *text = next;
    return 1;
}

/* Bytes in hexadecimal, words in decimal: separated by spaces. */
static size_t parse_bytes(const char *text, uint8_t *bytes)
{
    size_t count = 0;
    unsigned long value;

    while (next_number(&text, 16, &value))
        bytes[count++] = (uint8_t)value;
    return count;
}

static size_t parse_words(const char *text, uint32_t *words)
{
    size_t count = 0;
    unsigned long value;

    while (next_number(&text, 10, &value))
        words[count++] = (uint32_t)value;
    return count;
}

/* ---- One call */

typedef uint32_t call(const uint8_t *, uint64_t, uint8_t *, uint64_t, uint8_t *, uint64_t);

/* Makes a call on the buffers lent, and compares all of them. `written` is what is to stand at the
   front of the output buffer if `number` is 0. */
static void expect_call(call *called, uint64_t number, uint64_t figure, const uint8_t *written, size_t size, const char *name)
{
    uint32_t returned = called(input.bytes, input.length, output.bytes, output.length, answer.bytes, answer.length);

    if (answer.length >= HUTPLAN_ANSWER_BYTES) {
        put(answer.expected, number, 8);
        put(answer.expected + 8, figure, 8);
        if (number == 0 && size > 0)
            memcpy(output.expected, written, size);
    }
    expect(returned == (answer.length >= HUTPLAN_ANSWER_BYTES), "returned", name);
    expect_buffer(&answer, "answer", name);
    expect_buffer(&output, "output", name);
    expect_buffer(&input, "input", name);
}

static uint8_t sheet_bytes[ROOM], list_bytes[ROOM];
static uint32_t words[ROOM / 4];

/* Read, on a sheet, into a list of `entries` bytes; `list` is the list of its words. */
static void expect_read(const uint8_t *sheet, size_t sheet_len, size_t entries, uint64_t number, uint64_t figure,
                        const uint8_t *list, const char *name)
{
    lend_bytes(&input, sheet, sheet_len);
    lend(&output, entries);
    lend(&answer, HUTPLAN_ANSWER_BYTES);
    expect_call(hutplan_read, number, figure, list, 4 * (size_t)figure, name);
}

/* Write, on a list, into a buffer of `entries` bytes; `sheet` is the sheet of its words. */
static void expect_write(const uint8_t *list, size_t list_len, size_t entries, uint64_t number, uint64_t figure,
                         const uint8_t *sheet, const char *name)
{
    lend_bytes(&input, list, list_len);
    lend(&output, entries);
    lend(&answer, HUTPLAN_ANSWER_BYTES);
    expect_call(hutplan_write, number, figure, sheet, (size_t)figure, name);
}

/* Whether every word has a form of four bytes or less. */
static int have_forms(size_t count)
{
    size_t i;

    for (i = 0; i < count; i++)
        if (words[i] >> 28 != 0)
            return 0;
    return 1;
}

/* The first `count` of `words`, read and written. Refused: `number` and `place`, whatever is lent. */
static void expect_table(size_t count, uint64_t number, uint64_t place, const char *name)
{
    size_t list_len = list_of(words, count, list_bytes);
    size_t sheet_len = sheet_of(words, count, sheet_bytes);

    expect_write(list_bytes, list_len, sheet_len + 9, number, number == 0 ? sheet_len : place, sheet_bytes, name);
    if (have_forms(count))
        expect_read(sheet_bytes, sheet_len, list_len + 9, number, number == 0 ? count : place, list_bytes, name);
    if (number == 0)
        return;
    expect_write(list_bytes, list_len, 0, number, place, NULL, name);
    if (have_forms(count))
        expect_read(sheet_bytes, sheet_len, 0, number, place, NULL, name);
}

/* ---- Cases */

/* Room H of document 01. */
static const char room_h[] = "01 02 00 96 01 00 F4 03 02 01 64 90 03 02 01 F4 03 02 F4 03 01 64 90 03 01 02 E8 07";
static const char room_h_words[] = "1 2 0 150 0 500 2 1 100 400 2 1 500 2 500 1 100 400 1 2 1000";
#define H_BYTES 28
#define H_WORDS 21

struct bytes_case {
    const char *name, *sheet;
    uint64_t number, place;
};

/* Sheets that are refused: all bytes are judged before any word. */
static const struct bytes_case bytes_cases[] = {
    {"no bytes", "", 4, 0},
    {"80", "80", 3, 0},
    {"01 80 00", "01 80 00", 2, 1},
    {"80 80 80 80", "80 80 80 80", 1, 0},
    {"80 00", "80 00", 2, 0},
    {"three bytes, the last 0", "FF FF 00", 2, 0},
    {"four bytes, the last 0", "01 FF FF FF 00", 2, 1},
    {"four bytes with the top bit and a fifth", "01 02 FF FF FF FF 07", 1, 2},
    {"three bytes with the top bit", "01 FF FF FF", 3, 1},
    {"the last number cut", "01 02 00 96 01 00 F4 03 02 01 64 90 03 02 01 F4 03 02 F4 03 01 64 90 03 01 02 E8", 3, 26},
    {"a bad version, then a cut number", "04 80", 3, 1},
    {"a bad version, then a number too long", "04 80 80 80 80", 1, 1},
    {"words left over, then a number not shortest", "01 01 00 64 00 00 81 00", 2, 6},
    {"the first bad number wins", "80 00 80", 2, 0},
};

struct table_case {
    const char *name, *table;
    uint64_t number, place;
};

/* Tables, read and written. The place is worked out by hand: the words of the first server of a
   one-node table are rank 5, least 6, greatest 7, count of cords 8, then node and share of each. */
static const struct table_case table_cases[] = {
    {"room H", "1 2 0 150 0 500 2 1 100 400 2 1 500 2 500 1 100 400 1 2 1000", 0, 0},
    {"H, node 2 rated 188", "1 2 0 150 0 188 2 1 100 400 2 1 500 2 500 1 100 400 1 2 1000", 0, 0},
    {"H, node 2 rated 187", "1 2 0 150 0 187 2 1 100 400 2 1 500 2 500 1 100 400 1 2 1000", 9, 2},
    {"room S", "1 3 0 1550 1 938 1 938 4 2 270 500 1 2 1000 1 270 500 1 2 1000 1 270 500 1 3 1000 1 270 500 1 3 1000", 0, 0},
    {"S, root rated 1,625", "1 3 0 1625 1 938 1 938 4 2 270 500 1 2 1000 1 270 500 1 2 1000 1 270 500 1 3 1000 1 270 500 1 3 1000", 0, 0},
    {"S, root limit equal to the lows", "1 3 0 1350 1 938 1 938 4 2 270 500 1 2 1000 1 270 500 1 2 1000 1 270 500 1 3 1000 1 270 500 1 3 1000", 0, 0},
    {"S, root limit one below the lows", "1 3 0 1349 1 938 1 938 4 2 270 500 1 2 1000 1 270 500 1 2 1000 1 270 500 1 3 1000 1 270 500 1 3 1000", 9, 1},
    {"S, the right child too small", "1 3 0 1550 1 938 1 674 4 2 270 500 1 2 1000 1 270 500 1 2 1000 1 270 500 1 3 1000 1 270 500 1 3 1000", 9, 3},
    {"no servers", "1 1 0 150 0", 0, 0},
    {"every word at its least", "1 1 0 0 1 1 0 0 1 1 1000", 0, 0},
    {"watts at their greatest, a share of 0", "1 1 0 16777215 1 16 0 16777215 2 1 0 1 1000", 0, 0},
    {"lows rounded up to the limit", "1 1 0 130 1 3 101 101 4 1 250 1 250 1 250 1 250", 0, 0},
    {"lows rounded up past the limit", "1 1 0 129 1 3 101 101 4 1 250 1 250 1 250 1 250", 9, 1},

    {"no words", "", 4, 0},
    {"version 0", "0 1 0 150 0", 5, 0},
    {"version 4", "4", 5, 0},
    {"version 4,294,967,295", "4294967295", 5, 0},
    {"no nodes", "1 0 0", 5, 1},
    {"513 nodes", "1 513", 5, 1},
    {"a node its own parent", "1 1 1 150 0", 5, 2},
    {"a parent that comes after", "1 3 0 150 0 150 3 150 0", 5, 6},
    {"rating 16,777,216", "1 1 0 16777216 0", 5, 3},
    {"rating 268,435,456", "1 1 0 268435456 0", 5, 3},
    {"513 servers", "1 1 0 150 513", 5, 4},
    {"rank 0", "1 1 0 1000 1 0 100 400 1 1 1000", 5, 5},
    {"rank 17", "1 1 0 1000 1 17 100 400 1 1 1000", 5, 5},
    {"least 16,777,216", "1 1 0 1000 1 3 16777216 16777216 1 1 1000", 5, 6},
    {"greatest 16,777,216", "1 1 0 1000 1 3 100 16777216 1 1 1000", 5, 7},
    {"no cords", "1 1 0 1000 1 3 100 400 0", 5, 8},
    {"five cords", "1 1 0 1000 1 3 100 400 5 1 200 1 200 1 200 1 200 1 200", 5, 8},
    {"a cord on node 0", "1 1 0 1000 1 3 100 400 1 0 1000", 5, 9},
    {"a cord on node 2 of 1", "1 1 0 1000 1 3 100 400 1 2 1000", 5, 9},
    {"share 1,001", "1 1 0 1000 1 3 100 400 1 1 1001", 5, 10},
    {"a word out of range before one missing", "1 1 0 1000 1 3 100 400 2 1 1001", 5, 10},
    {"greatest below least", "1 1 0 1000 1 3 400 399 1 1 1000", 6, 7},
    {"greatest below least, nothing after", "1 1 0 1000 1 3 400 399", 6, 7},
    {"greatest below least before a bad share", "1 1 0 1000 1 3 400 399 1 1 999", 6, 7},
    {"shares of 999", "1 1 0 1000 1 3 100 400 2 1 400 1 599", 7, 5},
    {"shares of 2,000", "1 1 0 1000 1 3 100 400 2 1 1000 1 1000", 7, 5},
    {"shares of the second server", "1 1 0 1000 2 3 100 400 1 1 1000 3 100 400 1 1 1", 7, 11},
    {"the last share missing", "1 1 0 1000 1 3 100 400 2 1 400 1", 4, 12},
    {"a bad share before a bad second server", "1 1 0 1000 2 3 100 400 1 1 999 0", 7, 5},
    {"a word left over", "1 1 0 150 0 7", 8, 5},
    {"words left over before lows", "1 1 0 1 1 3 100 400 1 1 1000 0 0", 8, 11},
    {"lows above the limit of a chain's root", "1 3 0 124 1 200 2 200 1 3 100 400 1 3 1000", 9, 1},
    {"lows above the limit inside a chain", "1 3 0 200 1 124 2 200 1 3 100 400 1 3 1000", 9, 2},
    {"lows above the limit of a chain's leaf", "1 3 0 200 1 200 2 124 1 3 100 400 1 3 1000", 9, 3},
    {"the lowest of two nodes", "1 3 0 200 1 124 2 124 1 3 100 400 1 3 1000", 9, 2},
    {"a limit of 0", "1 1 0 1 1 3 1 1 1 1 1000", 9, 1},

    /* Version 2: a node's words are parent, rating and percent. */
    {"version 2, room H at 80", "2 2 0 150 80 0 500 80 2 1 100 400 2 1 500 2 500 1 100 400 1 2 1000", 0, 0},
    {"version 2, H, node 2 rated 150 at 100", "2 2 0 150 80 0 150 100 2 1 100 400 2 1 500 2 500 1 100 400 1 2 1000", 0, 0},
    {"version 2, H, node 2 rated 149 at 100", "2 2 0 150 80 0 149 100 2 1 100 400 2 1 500 2 500 1 100 400 1 2 1000", 9, 2},
    {"version 2, H, node 2 rated 187 at 80", "2 2 0 150 80 0 187 80 2 1 100 400 2 1 500 2 500 1 100 400 1 2 1000", 9, 2},
    {"version 2, watts at their greatest", "2 1 0 16777215 100 1 16 16777215 16777215 1 1 1000", 0, 0},
    {"version 2, and no more", "2", 4, 1},
    {"version 2, a percent missing", "2 1 0 150", 4, 4},
    {"version 2, a table of version 1", "2 1 0 150 0", 5, 4},
    {"version 2, percent 0", "2 1 0 150 0 0", 5, 4},
    {"version 2, percent 79", "2 1 0 150 79 0", 5, 4},
    {"version 2, percent 81", "2 1 0 150 81 0", 5, 4},
    {"version 2, percent 90", "2 1 0 150 90 0", 5, 4},
    {"version 2, percent 99", "2 1 0 150 99 0", 5, 4},
    {"version 2, percent 101", "2 1 0 150 101 0", 5, 4},
    {"version 2, percent 4,294,967,295", "2 1 0 150 4294967295 0", 5, 4},
    {"version 2, percent of the second node", "2 2 0 150 100 1 150 90 3 0", 5, 7},
    {"version 2, a bad rating before a bad percent", "2 1 0 16777216 90 0", 5, 3},
    {"version 2, a word left over", "2 1 0 150 100 0 7", 8, 6},

    /* Version 3: version 2 with shares of 10,000. */
    {"version 3, room H", "3 2 0 150 80 0 500 80 2 1 100 400 2 1 5000 2 5000 1 100 400 1 2 10000", 0, 0},
    {"version 3, H, node 2 rated 150 at 100", "3 2 0 150 80 0 150 100 2 1 100 400 2 1 5000 2 5000 1 100 400 1 2 10000", 0, 0},
    {"version 3, H, node 2 rated 149 at 100", "3 2 0 150 80 0 149 100 2 1 100 400 2 1 5000 2 5000 1 100 400 1 2 10000", 9, 2},
    {"version 3, watts at their greatest", "3 1 0 16777215 100 1 16 16777215 16777215 1 1 10000", 0, 0},
    {"version 3, and no more", "3", 4, 1},
    {"version 3, a percent missing", "3 1 0 150", 4, 4},
    {"version 3, percent 90", "3 1 0 150 90 0", 5, 4},
    {"version 3, share 10,001", "3 1 0 1000 80 1 3 100 400 1 1 10001", 5, 11},
    {"version 3, shares of 9,999", "3 1 0 1000 80 1 3 100 400 2 1 4000 1 5999", 7, 6},
    {"version 3, shares of 1,000", "3 1 0 1000 80 1 3 100 400 1 1 1000", 7, 6},
    {"version 3, shares of 20,000", "3 1 0 1000 80 1 3 100 400 2 1 10000 1 10000", 7, 6},
    {"version 2, share 10,000", "2 1 0 1000 80 1 3 100 400 1 1 10000", 5, 11},
};

#define COUNT(array) (sizeof(array) / sizeof(array)[0])

static void test_cases(void)
{
    static uint8_t sheet[256];
    size_t i;

    for (i = 0; i < COUNT(bytes_cases); i++) {
        const struct bytes_case *c = &bytes_cases[i];
        size_t sheet_len = parse_bytes(c->sheet, sheet);

        expect_read(sheet, sheet_len, 256, c->number, c->place, NULL, c->name);
        expect_read(sheet, sheet_len, 0, c->number, c->place, NULL, c->name);
    }
    for (i = 0; i < COUNT(table_cases); i++) {
        const struct table_case *c = &table_cases[i];

        expect_table(parse_words(c->table, words), c->number, c->place, c->name);
    }
}

/* Every table that ends early misses a word (4), at its length: the words of room H are all good. */
static void test_prefixes(void)
{
    size_t count;

    for (count = 0; count < H_WORDS; count++) {
        parse_words(room_h_words, words);
        expect_table(count, 4, count, "room H cut");
    }
}

/* Room H, as sheet and as list; three bytes follow the list. */
static uint8_t h_sheet[H_BYTES], h_list[4 * H_WORDS + 3];

static void make_room_h(void)
{
    expect(parse_bytes(room_h, h_sheet) == H_BYTES, "28 bytes", "room H");
    expect(parse_words(room_h_words, words) == H_WORDS, "21 words", "room H");
    list_of(words, H_WORDS, h_list);
    memset(h_list + 4 * H_WORDS, 0xFF, 3);
}

/* Outputs of every length about the one needed, with one to three bytes over among them. */
static void test_output_lengths(void)
{
    size_t length;

    for (length = 0; length < 4 * H_WORDS + 12; length++)
        if (length / 4 < H_WORDS)
            expect_read(h_sheet, H_BYTES, length, 12, H_WORDS, NULL, "Read, list too short");
        else
            expect_read(h_sheet, H_BYTES, length, 0, H_WORDS, h_list, "Read, list long enough");
    for (length = 0; length < H_BYTES + 12; length++)
        if (length < H_BYTES)
            expect_write(h_list, 4 * H_WORDS, length, 12, H_BYTES, NULL, "Write, buffer too short");
        else
            expect_write(h_list, 4 * H_WORDS, length, 0, H_BYTES, h_sheet, "Write, buffer long enough");
}

/* One to three bytes over at the end of a table are not read. */
static void test_bytes_over(void)
{
    size_t over;

    for (over = 0; over < 4; over++) {
        expect_write(h_list, 4 * H_WORDS + over, 40, 0, H_BYTES, h_sheet, "Write, bytes over");
        expect_write(h_list, over, 40, 4, 0, NULL, "Write, only bytes over");
    }
}

/* Answers of 0 to 40 bytes, for an accepted and a refused input of Read and Write. */
static void test_answers(void)
{
    size_t length;

    for (length = 0; length <= 40; length++) {
        lend_bytes(&input, h_sheet, H_BYTES);
        lend(&output, 100);
        lend(&answer, length);
        expect_call(hutplan_read, 0, H_WORDS, h_list, 4 * H_WORDS, "Read, answer");
        lend_bytes(&input, h_sheet, H_BYTES - 1);
        lend(&output, 100);
        lend(&answer, length);
        expect_call(hutplan_read, 3, 26, NULL, 0, "Read refused, answer");
        lend_bytes(&input, h_list, 4 * H_WORDS);
        lend(&output, 40);
        lend(&answer, length);
        expect_call(hutplan_write, 0, H_BYTES, h_sheet, H_BYTES, "Write, answer");
        lend_bytes(&input, h_list, 4 * H_WORDS - 1);
        lend(&output, 40);
        lend(&answer, length);
        expect_call(hutplan_write, 4, 20, NULL, 0, "Write refused, answer");
    }
}

/* NULL with length 0, for each buffer. */
static void test_null(void)
{
    lend(&input, 0);
    lend(&output, 100);
    lend(&answer, 20);
    input.bytes = NULL;
    expect_call(hutplan_read, 4, 0, NULL, 0, "Read, sheet NULL");
    lend(&answer, 20);
    expect_call(hutplan_write, 4, 0, NULL, 0, "Write, table NULL");

    lend_bytes(&input, h_sheet, H_BYTES);
    lend(&output, 0);
    lend(&answer, 20);
    output.bytes = NULL;
    expect_call(hutplan_read, 12, H_WORDS, NULL, 0, "Read, table NULL");
    lend_bytes(&input, h_list, 4 * H_WORDS);
    lend(&answer, 20);
    expect_call(hutplan_write, 12, H_BYTES, NULL, 0, "Write, sheet NULL");

    lend(&output, 100);
    lend(&answer, 0);
    answer.bytes = NULL;
    expect_call(hutplan_write, 0, 0, NULL, 0, "Write, answer NULL");
    lend_bytes(&input, h_sheet, H_BYTES);
    expect_call(hutplan_read, 0, 0, NULL, 0, "Read, answer NULL");
}

/* A room of so many nodes, each the child of the one before, and servers of so many cords each. From
   version 2 on each node has its percent: 80, as in version 1. Each last share is the whole. */
static size_t make_room(uint32_t version, uint32_t nodes, uint32_t servers, uint32_t cords)
{
    size_t count = 0;
    uint32_t i, k;

    words[count++] = version;
    words[count++] = nodes;
    for (i = 1; i <= nodes; i++) {
        words[count++] = i - 1;
        words[count++] = 16777215;
        if (version > 1)
            words[count++] = 80;
    }
    words[count++] = servers;
    for (i = 1; i <= servers; i++) {
        words[count++] = 1 + i % 16;
        words[count++] = 100;
        words[count++] = 16777215;
        words[count++] = cords;
        for (k = 1; k <= cords; k++) {
            words[count++] = 1 + (i + k) % nodes;
            words[count++] = k < cords ? 0 : version > 2 ? 10000 : 1000;
        }
    }
    return count;
}

/* The largest table, and inputs beyond it. */
static void test_sizes(void)
{
    size_t count = make_room(2, 512, 512, 2);

    expect(count == HUTPLAN_TABLE_WORDS, "as many words as the header says", "the largest room");
    expect(count == 5635, "5,635 words", "the largest room");
    expect_table(make_room(1, 512, 512, 2), 0, 0, "the largest room of version 1");
    expect_table(make_room(3, 512, 512, 2), 0, 0, "the largest room of version 3");
    make_room(2, 512, 512, 2);
    expect_table(count, 0, 0, "the largest room");
    words[3] = 1000;
    expect_table(count, 9, 1, "the largest room, lows above the root's limit");
    words[3] = 16777215;
    words[count] = 0;
    expect_table(count + 1, 8, count, "one word after the largest room");
    memset(words + count, 0, 4 * (1000000 - count));
    expect_table(1000000, 8, count, "a million words");

    /* 1,024 cords are the most: 256 servers of four leave none for the next. */
    expect_table(make_room(1, 1, 256, 4), 0, 0, "1,024 cords");
    count = make_room(1, 1, 257, 4);
    expect_table(count, 5, 5 + 256 * 12 + 3, "1,025 cords");

    /* All bytes before any word: a bad number far behind. */
    memset(sheet_bytes, 1, 3000000);
    sheet_bytes[2999999] = 0x80;
    expect_read(sheet_bytes, 3000000, 100, 3, 2999999, NULL, "a cut number at byte 2,999,999");
    expect_read(sheet_bytes, 2999999, 100, 5, 2, NULL, "three million good numbers");
}

/* ---- Plan */

/* Makes the call on the buffers lent, and compares all of them. `figures` are what is to stand at the
   fronts of the lists if `number` is 0. */
static void expect_plan_call(uint64_t number, uint64_t figure, const char *const figures[LISTS], const char *name)
{
    uint32_t returned = hutplan_plan(input.bytes, input.length, demands.bytes, demands.length,
                                     lists[GRANTS].bytes, lists[GRANTS].length, lists[CAPS].bytes, lists[CAPS].length,
                                     lists[HEADROOM].bytes, lists[HEADROOM].length, lists[HELD].bytes, lists[HELD].length,
                                     answer.bytes, answer.length);
    int list;

    if (answer.length >= HUTPLAN_ANSWER_BYTES) {
        put(answer.expected, number, 8);
        put(answer.expected + 8, figure, 8);
        for (list = 0; number == 0 && list < LISTS; list++)
            list_of(words, parse_words(figures[list], words), lists[list].expected);
    }
    expect(returned == (answer.length >= HUTPLAN_ANSWER_BYTES), "returned", name);
    expect_buffer(&answer, "answer", name);
    for (list = 0; list < LISTS; list++)
        expect_buffer(&lists[list], list_names[list], name);
    expect_buffer(&input, "table", name);
    expect_buffer(&demands, "demands", name);
}

/* The lists in the order of the call: the bytes lent for each, and what it is to hold. */
struct plan_case {
    const char *name, *table, *demands;
    size_t lengths[LISTS];
    uint64_t number, figure;
    const char *figures[LISTS];
};

static const char room_s_words[] =
    "1 3 0 1550 1 938 1 938 4 2 270 500 1 2 1000 1 270 500 1 2 1000 1 270 500 1 3 1000 1 270 500 1 3 1000";
static const char larger_s_words[] =
    "1 3 0 1625 1 938 1 938 4 2 270 500 1 2 1000 1 270 500 1 2 1000 1 270 500 1 3 1000 1 270 500 1 3 1000";

/* The root rated 1,750: with the demands below it has 70 W to lend, by weights of 50 and 120; the left node splits its
   20 W by 70 and 230, the right its 50 W by 200 and 170. */
static const char lending_s_words[] =
    "1 3 0 1750 1 938 1 938 4 2 270 500 1 2 1000 1 270 500 1 2 1000 1 270 500 1 3 1000 1 270 500 1 3 1000";

/* Room S in version 2, at 80 throughout; and with the limits of the larger one at percents of 100, 80 and 100. */
static const char second_s_words[] =
    "2 3 0 1550 80 1 938 80 1 938 80 4 2 270 500 1 2 1000 1 270 500 1 2 1000 1 270 500 1 3 1000 1 270 500 1 3 1000";
static const char full_s_words[] =
    "2 3 0 1300 100 1 938 80 1 750 100 4 2 270 500 1 2 1000 1 270 500 1 2 1000 1 270 500 1 3 1000 1 270 500 1 3 1000";

/* A root with limit 500 over node 2 (300) over node 3 (100), and node 4 (40). In the second deal node 4 is cut at rank 9,
   node 3 at 9 and 4, node 2 at 6 and 2, and the root at 3. The servers have ranks 9, 6, 4, 3, 2, 1 and 9, on nodes 3, 2, 3,
   1, 2 and 1, and the last on 4 and 2. */
static const char cut_words[] =
    "1 4 0 625 1 375 2 125 0 50 7 9 0 150 1 3 1000 6 0 400 1 2 1000 4 10 50 1 3 1000 3 0 300 1 1 1000 2 20 60 1 2 1000 "
    "1 30 80 1 1 1000 9 0 200 2 4 500 2 500";

/* The rooms of documents 01 and 02, those of the near misses with the right figures, and one refusal before the next. */
static const struct plan_case plan_cases[] = {
    {"H", room_h_words, "400 400", {12, 8, 12, 12}, 0, 13, {"120 120 280", "240 280", "0 0 0", "1 0 2"}},
    {"H, longer lists", room_h_words, "400 400", {19, 30, 21, 23}, 0, 13, {"120 120 280", "240 280", "0 0 0", "1 0 2"}},
    {"H, lists longer than any room's", room_h_words, "400 400", {100001, 50002, 100003, 100002}, 0, 13,
     {"120 120 280", "240 280", "0 0 0", "1 0 2"}},
    {"H, demands of 100", room_h_words, "100 100", {12, 8, 12, 12}, 0, 0, {"50 50 100", "100 100", "70 83 167", "0 0 0"}},
    {"H, demands of 100, longer lists", room_h_words, "100 100", {13, 11, 30, 29}, 0, 0,
     {"50 50 100", "100 100", "70 83 167", "0 0 0"}},
    {"S", room_s_words, "430 430 430 430", {16, 16, 16, 16}, 0, 0, {"430 270 270 270", "430 270 270 270", "0 0 0 0", "0 1 1 1"}},
    {"S, root rated 1,625", larger_s_words, "430 430 430 430", {16, 16, 16, 16}, 0, 0,
     {"430 281 294 295", "430 281 294 295", "0 0 0 0", "0 1 1 1"}},
    {"S, root rated 1,750", lending_s_words, "430 270 300 330", {16, 16, 16, 16}, 0, 0,
     {"430 270 300 330", "430 270 300 330", "4 16 27 23", "0 0 0 0"}},
    {"S in version 2", second_s_words, "430 430 430 430", {16, 16, 16, 16}, 0, 0,
     {"430 270 270 270", "430 270 270 270", "0 0 0 0", "0 1 1 1"}},
    {"S, root at 100", full_s_words, "430 430 430 430", {16, 16, 16, 16}, 0, 0,
     {"430 281 294 295", "430 281 294 295", "0 0 0 0", "0 1 1 1"}},
    {"H in version 3", "3 2 0 150 80 0 500 80 2 1 100 400 2 1 5000 2 5000 1 100 400 1 2 10000", "400 400", {12, 8, 12, 12},
     0, 13, {"120 120 280", "240 280", "0 0 0", "1 0 2"}},
    {"shares of 3,333 and 6,667", "3 2 0 125 80 0 125 80 1 1 100 400 2 1 3333 2 6667", "400", {8, 4, 8, 8}, 0, 50,
     {"50 100", "149", "50 0", "0 2"}},
    {"shares of 3,334 and 6,666", "3 2 0 125 80 0 125 80 1 1 100 400 2 1 3334 2 6666", "400", {8, 4, 8, 8}, 0, 49,
     {"51 100", "150", "49 0", "0 2"}},
    {"ceilings of 3,333 and 6,667", "3 1 0 1000 80 1 1 100 400 2 1 3333 1 6667", "0", {8, 4, 8, 8}, 0, 0,
     {"34 67", "100", "100 200", "0 0"}},
    {"a percent of 90", "2 1 0 150 90 0", "", {0, 0, 0, 0}, 5, 4, {"", "", "", ""}},
    {"weights are excesses", "1 2 0 188 1 125 2 1 0 1000 1 2 1000 1 0 100 1 1 1000", "1000 100", {8, 8, 8, 8}, 0, 0,
     {"75 75", "75 75", "0 0", "1 1"}},
    {"60 W over 50 and 210", "1 1 0 75 2 1 0 50 1 1 1000 1 0 210 1 1 1000", "50 210", {8, 8, 8, 8}, 0, 0,
     {"11 49", "11 49", "0 0", "1 1"}},
    {"a child node before a cord", "1 2 0 2 1 2 2 1 0 1 1 2 1000 1 0 1 1 1 1000", "1 1", {8, 8, 8, 8}, 0, 0,
     {"0 1", "0 1", "0 0", "1 0"}},
    {"headroom, a child node before a cord", "1 2 0 2 1 2 2 1 0 1 1 2 1000 1 0 1 1 1 1000", "0 0", {8, 8, 8, 8}, 0, 0,
     {"0 0", "0 0", "0 1", "0 0"}},
    {"watts in use go first, through a node", "1 3 0 150 1 100 0 25 3 1 0 100 2 3 500 2 500 1 0 100 1 2 1000 1 0 60 1 1 1000",
     "100 100 60", {16, 12, 16, 16}, 0, 2, {"20 20 47 53", "40 47 53", "0 0 0 0", "3 0 1 1"}},
    {"cuts above at higher ranks", cut_words, "150 400 50 300 60 0 200", {32, 28, 32, 32}, 0, 60,
     {"90 140 10 170 20 30 40 40", "90 140 10 170 20 30 80", "0 0 0 0 0 0 0 0", "3 2 2 1 1 0 4 0"}},
    {"lows rounded up", "1 1 0 127 1 1 100 100 2 1 333 1 667", "100", {8, 4, 8, 8}, 0, 0, {"34 67", "100", "0 0", "0 0"}},
    {"ceilings rounded up", "1 1 0 1000 1 1 0 100 3 1 333 1 333 1 334", "0", {12, 4, 12, 12}, 0, 0,
     {"0 0 0", "0", "34 34 34", "0 0 0"}},
    {"no servers, no demands", "1 1 0 150 0", "", {9, 9, 9, 9}, 0, 0, {"", "", "", ""}},
    {"no servers, no lists", "1 1 0 150 0", "", {0, 0, 0, 0}, 0, 0, {"", "", "", ""}},
    {"a bad table before all else", "1 2", "", {0, 0, 0, 0}, 4, 2, {"", "", "", ""}},
    {"lows above a limit", "1 2 0 150 0 187 2 1 100 400 2 1 500 2 500 1 100 400 1 2 1000", "400 400", {12, 8, 12, 12}, 9, 2,
     {"", "", "", ""}},
    {"no demands", room_h_words, "", {0, 0, 0, 0}, 10, 2, {"", "", "", ""}},
    {"a demand missing", room_h_words, "16777216", {0, 0, 0, 0}, 10, 2, {"", "", "", ""}},
    {"a demand over", room_h_words, "400 400 400", {12, 8, 12, 12}, 10, 2, {"", "", "", ""}},
    {"a demand too large", room_h_words, "400 16777216", {0, 0, 0, 0}, 11, 1, {"", "", "", ""}},
    {"two demands too large", room_h_words, "4294967295 16777216", {12, 8, 12, 12}, 11, 0, {"", "", "", ""}},
    {"the largest demands", room_h_words, "16777215 16777215", {12, 8, 12, 12}, 0, 13, {"120 120 280", "240 280", "0 0 0", "1 0 2"}},
    {"grants too short", room_h_words, "400 400", {11, 0, 0, 0}, 12, 3, {"", "", "", ""}},
    {"caps too short", room_h_words, "400 400", {12, 7, 0, 0}, 13, 2, {"", "", "", ""}},
    {"headroom too short", room_h_words, "400 400", {12, 8, 11, 0}, 14, 3, {"", "", "", ""}},
    {"no headroom list", room_h_words, "400 400", {12, 8, 0, 0}, 14, 3, {"", "", "", ""}},
    {"held too short", room_h_words, "400 400", {12, 8, 12, 11}, 15, 3, {"", "", "", ""}},
    {"no held list", room_h_words, "400 400", {12, 8, 12, 0}, 15, 3, {"", "", "", ""}},
};

static void lend_words(struct buffer *buffer, const char *text)
{
    static uint8_t list[1024];

    lend_bytes(buffer, list, list_of(words, parse_words(text, words), list));
}

static void expect_plan(const struct plan_case *c, size_t answer_len)
{
    int list;

    lend_words(&input, c->table);
    lend_words(&demands, c->demands);
    for (list = 0; list < LISTS; list++)
        lend(&lists[list], c->lengths[list]);
    lend(&answer, answer_len);
    expect_plan_call(c->number, c->figure, c->figures, c->name);
}

/* The largest room and the demands, refused for a list: those before it have the sizes of the header, it has a byte less,
   and those after it have none. */
static void expect_short_list(int list, uint64_t number, uint64_t place)
{
    static const size_t sizes[LISTS] = {HUTPLAN_GRANTS_BYTES, HUTPLAN_CAPS_BYTES, HUTPLAN_HEADROOM_BYTES,
                                        HUTPLAN_HELD_BYTES};
    int k;

    for (k = 0; k < LISTS; k++)
        lend(&lists[k], k < list ? sizes[k] : k == list ? sizes[k] - 1 : 0);
    lend(&answer, 16);
    expect_plan_call(number, place, NULL, "the largest room, a list too short");
}

static void test_plan(void)
{
    size_t i, length;
    int list;

    for (i = 0; i < COUNT(plan_cases); i++)
        for (length = 0; length <= 24; length++)
            expect_plan(&plan_cases[i], length);

    /* The largest room, with as many demands as it has servers, and with more than any room has. */
    lend_bytes(&input, list_bytes, list_of(words, make_room(2, 512, 512, 2), list_bytes));
    for (list = 0; list < LISTS; list++)
        lend(&lists[list], 0);
    memset(list_bytes, 0, 4 * 100000);
    for (length = 511; length < 516; length++) {
        lend_bytes(&demands, list_bytes, 4 * length);
        lend(&answer, 16);
        expect_plan_call(length == 512 ? 12 : 10, length == 512 ? 1024 : 512, NULL, "the largest room");
    }
    lend_bytes(&demands, list_bytes, 4 * 100000);
    lend(&answer, 16);
    expect_plan_call(10, 512, NULL, "a hundred thousand demands");
    lend_bytes(&demands, list_bytes, 4 * 512);
    expect_short_list(GRANTS, 12, 1024);
    expect_short_list(CAPS, 13, 512);
    expect_short_list(HEADROOM, 14, 1024);
    expect_short_list(HELD, 15, 1024);
}

int main(void)
{
    int list;

    setvbuf(stdout, NULL, _IOLBF, 0);
    make(&input);
    make(&output);
    make(&answer);
    make(&demands);
    for (list = 0; list < LISTS; list++)
        make(&lists[list]);
    make_room_h();
    test_cases();
    test_prefixes();
    test_output_lengths();
    test_bytes_over();
    test_answers();
    test_null();
    test_sizes();
    test_plan();
    printf("calls: %lu checks, %lu failed\n", checks, failures);
    return failures != 0;
}
