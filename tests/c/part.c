/*
 * Tests of hutplan_part by running, through the archive that firmware links.
 *
 * Every expected number, place and word is worked out from document 02, A.10. Each buffer ends at a
 * page that may not be touched; after a call every byte of every buffer is compared. Prints one
 * line; exit status 1 and a line for each difference.
 */
#include "buffers.h"
#include "hutplan.h"

struct table {
    const uint32_t *words;
    size_t count;
};

#define TABLE(words) ((struct table){words, sizeof(words) / sizeof(words)[0]})

/* Room H: roots of 150 and 500 W, and servers with two cords and one. */
static const uint32_t room_h[] = {1, 2, 0, 150, 0, 500, 2,
                                  1, 100, 400, 2, 1, 500, 2, 500,
                                  1, 100, 400, 1, 2, 1000};

/* A root with a child, and a server on the child. */
static const uint32_t chain[] = {1, 2, 0, 300, 1, 200, 1, 4, 10, 90, 1, 2, 1000};

/* The chain behind room H, and room H behind the chain. */
static const uint32_t h_and_chain[] = {1, 4, 0, 150, 0, 500, 0, 300, 3, 200, 3,
                                       1, 100, 400, 2, 1, 500, 2, 500,
                                       1, 100, 400, 1, 2, 1000,
                                       4, 10, 90, 1, 4, 1000};
static const uint32_t chain_and_h[] = {1, 4, 0, 300, 1, 200, 0, 150, 0, 500, 3,
                                       4, 10, 90, 1, 2, 1000,
                                       1, 100, 400, 2, 3, 500, 4, 500,
                                       1, 100, 400, 1, 4, 1000};

/* Version 2: a node of 100 percent with a server, and a root without one. Its parts. */
static const uint32_t wide[] = {2, 2, 0, 7, 100, 0, 9, 80, 1, 3, 1, 2, 1, 1, 1000};
static const uint32_t wide_one[] = {2, 1, 0, 7, 100, 1, 3, 1, 2, 1, 1, 1000};
static const uint32_t wide_two[] = {2, 1, 0, 9, 80, 0};

/* One node without servers, and one that is refused at word 3. */
static const uint32_t bare[] = {1, 1, 0, 7, 0};
static const uint32_t rated[] = {1, 2, 0, 16777216, 0, 7, 0};

static struct buffer table, first, second, told;

/* One call at two counts, with so many bytes over the table and so many for both outputs and the answer. */
struct ask {
    const char *name;
    struct table whole;
    uint64_t nodes, servers;
    size_t over, first_len, second_len, answer_len;
};

static void call(struct ask ask, uint64_t number, uint64_t figure, struct table one, struct table two)
{
    static uint8_t list[ROOM];
    size_t length = list_of(ask.whole.words, ask.whole.count, list);
    uint32_t returned;

    memset(list + length, 0xEE, ask.over);
    lend_bytes(&table, list, length + ask.over);
    lend(&first, ask.first_len);
    lend(&second, ask.second_len);
    lend(&told, ask.answer_len);
    if (ask.answer_len >= 24) {
        put(told.expected, number, 8);
        put(told.expected + 8, figure, 8);
        if (number == HUTPLAN_ACCEPTED) {
            put(told.expected + 16, two.count, 8);
            list_of(one.words, one.count, first.expected);
            list_of(two.words, two.count, second.expected);
        }
    }
    returned = hutplan_part(table.bytes, table.length, ask.nodes, ask.servers, first.bytes, first.length,
                            second.bytes, second.length, told.bytes, told.length);
    expect(returned == (ask.answer_len >= 24), "returned", ask.name);
    expect_buffer(&table, "table", ask.name);
    expect_buffer(&first, "first part", ask.name);
    expect_buffer(&second, "second part", ask.name);
    expect_buffer(&told, "answer", ask.name);
}

static void accepted(const char *name, struct table whole, uint64_t nodes, uint64_t servers, struct table one, struct table two)
{
    size_t over, first_len = 4 * one.count, second_len = 4 * two.count;
    struct ask ask = {name, whole, nodes, servers, 0, first_len, second_len, 24};

    for (over = 0; over < 6; over++) {
        ask.over = over % 4;
        ask.first_len = first_len + over;
        ask.second_len = second_len + 5 - over;
        ask.answer_len = 24 + over;
        call(ask, HUTPLAN_ACCEPTED, one.count, one, two);
    }
    /* Just too short, by one to four bytes: the second, and then the first, which is told before it. */
    for (over = 1; over < 5; over++) {
        ask = (struct ask){name, whole, nodes, servers, 0, first_len, second_len - over, 24};
        call(ask, HUTPLAN_OUTPUT_TOO_SHORT, two.count, one, two);
        ask.first_len = first_len - over;
        call(ask, HUTPLAN_OUTPUT_TOO_SHORT, one.count, one, two);
        ask.second_len = second_len;
        call(ask, HUTPLAN_OUTPUT_TOO_SHORT, one.count, one, two);
    }
    /* An answer that is too short changes nothing, sixteen bytes too. */
    ask = (struct ask){name, whole, nodes, servers, 0, first_len, second_len, 23};
    call(ask, HUTPLAN_ACCEPTED, one.count, one, two);
    ask.answer_len = 16;
    call(ask, HUTPLAN_ACCEPTED, one.count, one, two);
    ask.answer_len = 0;
    call(ask, HUTPLAN_ACCEPTED, one.count, one, two);
}

static void refused(const char *name, struct table whole, uint64_t nodes, uint64_t servers, uint64_t number, uint64_t place)
{
    struct ask ask = {name, whole, nodes, servers, 0, 40000, 40000, 24};

    call(ask, number, place, TABLE(bare), TABLE(bare));
    /* Whatever the outputs are, they are asked last. */
    ask.first_len = ask.second_len = 0;
    call(ask, number, place, TABLE(bare), TABLE(bare));
    ask.over = 3;
    ask.answer_len = 31;
    call(ask, number, place, TABLE(bare), TABLE(bare));
    ask.answer_len = 3;
    call(ask, number, place, TABLE(bare), TABLE(bare));
}

/* As many nodes and servers as a table may have, each server with two cords on its own node. */
static void largest(void)
{
    static uint32_t words[6000], one[6000], two[6000];
    size_t n = 0, a = 0, b = 0;
    uint32_t i, c;

    words[n++] = one[a++] = two[b++] = 3;
    words[n++] = 512;
    one[a++] = two[b++] = 256;
    for (i = 0; i < 512; i++)
        for (c = 0; c < 3; c++) {
            uint32_t word = c == 0 ? 0 : c == 1 ? 900 + i : 100;

            words[n++] = word;
            if (i < 256)
                one[a++] = word;
            else
                two[b++] = word;
        }
    words[n++] = 512;
    one[a++] = two[b++] = 256;
    for (i = 0; i < 512; i++)
        for (c = 0; c < 8; c++) {
            uint32_t row[8] = {1 + i % 16, i, 900, 2, 1 + i, 4000, 1 + i, 6000};

            words[n++] = row[c];
            if (i < 256)
                one[a++] = row[c];
            else
                two[b++] = c == 4 || c == 6 ? row[c] - 256 : row[c];
        }
    accepted("the largest", (struct table){words, n}, 256, 256, (struct table){one, a}, (struct table){two, b});
    /* Server 256 hangs on node 257; it is the first that crosses a cut a server later. */
    refused("the largest, a server too many", (struct table){words, n}, 256, 257, HUTPLAN_LINK_ACROSS_THE_CUT, 3 + 3 * 512 + 8 * 256 + 4);
}

int main(void)
{
    make(&table);
    make(&first);
    make(&second);
    make(&told);

    accepted("room H and a chain", TABLE(h_and_chain), 2, 2, TABLE(room_h), TABLE(chain));
    accepted("a chain and room H", TABLE(chain_and_h), 2, 1, TABLE(chain), TABLE(room_h));
    accepted("version 2", TABLE(wide), 1, 1, TABLE(wide_one), TABLE(wide_two));
    largest();

    refused("no words", (struct table){NULL, 0}, 1, 1, HUTPLAN_WORD_MISSING, 0);
    refused("a table that is refused", TABLE(rated), 0, 9, HUTPLAN_WORD_OUT_OF_RANGE, 3);
    refused("a table that is cut", (struct table){room_h, 20}, 1, 1, HUTPLAN_WORD_MISSING, 20);

    refused("no nodes", TABLE(h_and_chain), 0, 2, HUTPLAN_CUT_OUT_OF_RANGE, 0);
    refused("all nodes", TABLE(h_and_chain), 4, 3, HUTPLAN_CUT_OUT_OF_RANGE, 0);
    refused("one node alone", TABLE(bare), 1, 0, HUTPLAN_CUT_OUT_OF_RANGE, 0);
    refused("too many servers", TABLE(h_and_chain), 2, 4, HUTPLAN_CUT_OUT_OF_RANGE, 1);
    refused("both counts", TABLE(h_and_chain), 5, 4, HUTPLAN_CUT_OUT_OF_RANGE, 0);
    /* Good counts in their low 32 bits. */
    refused("nodes above 32 bits", TABLE(h_and_chain), (1ull << 32) + 2, 2, HUTPLAN_CUT_OUT_OF_RANGE, 0);
    refused("servers above 32 bits", TABLE(h_and_chain), 2, (1ull << 32) + 2, HUTPLAN_CUT_OUT_OF_RANGE, 1);
    refused("the greatest numbers", TABLE(h_and_chain), UINT64_MAX, UINT64_MAX, HUTPLAN_CUT_OUT_OF_RANGE, 0);

    /* Words 2, 4, 6 and 8 are parents; the cords' nodes are words 15 and 17, 23, and 29. */
    refused("a parent crosses", TABLE(h_and_chain), 3, 2, HUTPLAN_LINK_ACROSS_THE_CUT, 8);
    refused("a parent and a cord cross", TABLE(h_and_chain), 3, 0, HUTPLAN_LINK_ACROSS_THE_CUT, 8);
    refused("a cord behind the cut", TABLE(h_and_chain), 2, 1, HUTPLAN_LINK_ACROSS_THE_CUT, 23);
    refused("its first cord", TABLE(h_and_chain), 2, 0, HUTPLAN_LINK_ACROSS_THE_CUT, 15);
    refused("a cord before the cut", TABLE(h_and_chain), 2, 3, HUTPLAN_LINK_ACROSS_THE_CUT, 29);
    refused("its second cord", TABLE(h_and_chain), 1, 1, HUTPLAN_LINK_ACROSS_THE_CUT, 17);

    printf("part: %lu checks, %lu failures\n", checks, failures);
    return failures != 0;
}
