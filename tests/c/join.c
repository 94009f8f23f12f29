/*
 * Tests of hutplan_join by running, through the archive that firmware links.
 *
 * Every expected number, place and word is worked out from document 02, A.8. Each buffer ends at a
 * page that may not be touched; after a call every byte of every buffer is compared. Prints one
 * line; exit status 1 and a line for each difference.
 */
#include "buffers.h"
#include "hutplan.h"

struct table {
    const uint32_t *words;
    size_t count;
};

#define TABLE(words) ((struct table){words, sizeof(words) / sizeof(words)[0]})

/* Room H: roots of 150 and 500 W, and servers with two cords and one. */
static const uint32_t room_h[] = {1, 2, 0, 150, 0, 500, 2,
                                  1, 100, 400, 2, 1, 500, 2, 500,
                                  1, 100, 400, 1, 2, 1000};

/* A root with a child, and a server on the child. */
static const uint32_t chain[] = {1, 2, 0, 300, 1, 200, 1, 4, 10, 90, 1, 2, 1000};

/* The chain behind room H: its child's parent and its cord's node are raised by 2, its root is a root. */
static const uint32_t h_and_chain[] = {1, 4, 0, 150, 0, 500, 0, 300, 3, 200, 3,
                                       1, 100, 400, 2, 1, 500, 2, 500,
                                       1, 100, 400, 1, 2, 1000,
                                       4, 10, 90, 1, 4, 1000};

/* Room H behind the chain. */
static const uint32_t chain_and_h[] = {1, 4, 0, 300, 1, 200, 0, 150, 0, 500, 3,
                                       4, 10, 90, 1, 2, 1000,
                                       1, 100, 400, 2, 3, 500, 4, 500,
                                       1, 100, 400, 1, 4, 1000};

/* One node without servers: of version 1, of version 2, and one that is refused at word 3. */
static const uint32_t bare[] = {1, 1, 0, 7, 0};
static const uint32_t bare_two[] = {2, 1, 0, 7, 100, 0};
static const uint32_t rated[] = {1, 1, 0, 16777216, 0};

static struct buffer first, second, output, told;

static void lend_words(struct buffer *buffer, struct table table, size_t over)
{
    static uint8_t list[ROOM];
    size_t length = list_of(table.words, table.count, list);

    memset(list + length, 0xEE, over);
    lend_bytes(buffer, list, length + over);
}

/* One call, with so many bytes over each table and so many for the output and the answer. */
static void call(const char *name, struct table one, struct table two, size_t over, size_t output_len, size_t answer_len,
                 uint64_t number, uint64_t figure, struct table expected)
{
    uint32_t returned;

    lend_words(&first, one, over);
    lend_words(&second, two, over);
    lend(&output, output_len);
    lend(&told, answer_len);
    if (answer_len >= 16) {
        put(told.expected, number, 8);
        put(told.expected + 8, figure, 8);
        if (number == 0)
            list_of(expected.words, expected.count, output.expected);
    }
    returned = hutplan_join(first.bytes, first.length, second.bytes, second.length,
                            output.bytes, output.length, told.bytes, told.length);
    expect(returned == (answer_len >= 16), "returned", name);
    expect_buffer(&first, "first table", name);
    expect_buffer(&second, "second table", name);
    expect_buffer(&output, "output", name);
    expect_buffer(&told, "answer", name);
}

static void accepted(const char *name, struct table one, struct table two, struct table expected)
{
    size_t over, needed = 4 * expected.count;

    for (over = 0; over < 6; over++)
        call(name, one, two, over % 4, needed + over, 16 + over, HUTPLAN_ACCEPTED, expected.count, expected);
    /* Just too short, by one to four bytes; an answer that is too short changes nothing. */
    for (over = 1; over < 5; over++)
        call(name, one, two, 0, needed - over, 16, HUTPLAN_OUTPUT_TOO_SHORT, expected.count, expected);
    call(name, one, two, 0, needed, 15, HUTPLAN_ACCEPTED, expected.count, expected);
    call(name, one, two, 0, needed, 0, HUTPLAN_ACCEPTED, expected.count, expected);
}

static void refused(const char *name, struct table one, struct table two, uint64_t number, uint64_t place)
{
    call(name, one, two, 0, 40000, 16, number, place, TABLE(bare));
    call(name, one, two, 0, 0, 16, number, place, TABLE(bare));
    call(name, one, two, 3, 40000, 3, number, place, TABLE(bare));
}

/* A table of one node with so many servers of so many cords each, all of the shares on the first cord. */
static struct table large(uint32_t *words, uint32_t nodes, uint32_t servers, uint32_t cords)
{
    size_t n = 0;
    uint32_t i, c;

    words[n++] = 1;
    words[n++] = nodes;
    for (i = 0; i < nodes; i++) {
        words[n++] = 0;
        words[n++] = 5;
    }
    words[n++] = servers;
    for (i = 0; i < servers; i++) {
        words[n++] = 16;
        words[n++] = 0;
        words[n++] = 9;
        words[n++] = cords;
        for (c = 0; c < cords; c++) {
            words[n++] = 1;
            words[n++] = c == 0 ? 1000 : 0;
        }
    }
    return (struct table){words, n};
}

static void counts(void)
{
    static uint32_t one[6000], two[6000];

    refused("513 nodes", large(one, 512, 0, 1), TABLE(bare), HUTPLAN_JOINED_TOO_LARGE, 0);
    refused("513 nodes, 513 servers", large(one, 512, 512, 1), large(two, 1, 1, 1), HUTPLAN_JOINED_TOO_LARGE, 0);
    refused("513 servers", large(one, 511, 512, 1), large(two, 1, 1, 1), HUTPLAN_JOINED_TOO_LARGE, 1);
    refused("513 servers, 1,025 cords", large(one, 1, 512, 2), large(two, 1, 1, 1), HUTPLAN_JOINED_TOO_LARGE, 1);
    refused("1,025 cords", large(one, 1, 256, 4), large(two, 1, 1, 1), HUTPLAN_JOINED_TOO_LARGE, 2);
    /* 512 nodes, 512 servers and 1,024 cords are not too many: 3 + 1,024 + 2,048 + 2,048 words are needed. */
    call("the largest", large(one, 500, 300, 2), large(two, 12, 212, 2), 0, 40, 16, HUTPLAN_OUTPUT_TOO_SHORT, 5123, TABLE(bare));
}

int main(void)
{
    make(&first);
    make(&second);
    make(&output);
    make(&told);

    accepted("room H and a chain", TABLE(room_h), TABLE(chain), TABLE(h_and_chain));
    accepted("a chain and room H", TABLE(chain), TABLE(room_h), TABLE(chain_and_h));

    refused("no words", (struct table){NULL, 0}, (struct table){NULL, 0}, HUTPLAN_WORD_MISSING, 0);
    refused("no second", TABLE(room_h), (struct table){NULL, 0}, HUTPLAN_WORD_MISSING, 0);
    refused("the first is refused", TABLE(rated), (struct table){room_h, 20}, HUTPLAN_WORD_OUT_OF_RANGE, 3);
    refused("the second is refused", TABLE(room_h), TABLE(rated), HUTPLAN_WORD_OUT_OF_RANGE, 3);
    refused("the second is cut", TABLE(chain), (struct table){room_h, 20}, HUTPLAN_WORD_MISSING, 20);
    refused("both are refused", (struct table){chain, 5}, TABLE(rated), HUTPLAN_WORD_MISSING, 5);
    refused("versions differ", TABLE(room_h), TABLE(bare_two), HUTPLAN_VERSIONS_DIFFER, 0);
    refused("versions differ, the other way", TABLE(bare_two), TABLE(bare), HUTPLAN_VERSIONS_DIFFER, 0);
    counts();

    printf("join: %lu checks, %lu failures\n", checks, failures);
    return failures != 0;
}
