/*
 * Tests of hutplan_send by running, through the archive that firmware links.
 *
 * Every expected server, number, place and position here is worked out from request A.13. Each call
 * is made on buffers that end at a page that may not be touched and begin after guard bytes; after it
 * every byte of both is compared. Prints one line; exit status 1 and a line for each difference.
 */
#include "buffers.h"
#include "hutplan.h"

static struct buffer list, answer;

struct send_case {
    const char *name;
    uint64_t count, position, m;
    size_t list_len;
    uint64_t number, figure, next; /* `next` counts only where `number` is 0 */
    uint32_t named[8];
};

static const struct send_case send_cases[] = {
    {"the first two", 5, 0, 2, 8, 0, 2, 2, {0, 1}},
    {"two in the middle", 5, 2, 2, 8, 0, 2, 4, {2, 3}},
    {"up to the last", 5, 3, 2, 8, 0, 2, 0, {3, 4}},
    {"round from the last", 5, 4, 2, 8, 0, 2, 1, {4, 0}},
    {"four of five", 5, 3, 4, 16, 0, 4, 2, {3, 4, 0, 1}},
    {"as many as there are", 5, 3, 5, 20, 0, 5, 3, {3, 4, 0, 1, 2}},
    {"one more than there are", 5, 3, 6, 20, 0, 5, 3, {3, 4, 0, 1, 2}},
    {"the greatest m", 5, 3, UINT64_MAX, 20, 0, 5, 3, {3, 4, 0, 1, 2}},
    {"one server", 1, 0, 1, 4, 0, 1, 0, {0}},
    {"one server, many messages", 1, 0, 7, 4, 0, 1, 0, {0}},
    {"the last of 512", 512, 511, 3, 12, 0, 3, 2, {511, 0, 1}},
    {"two bytes for a number", 300, 299, 2, 8, 0, 2, 1, {299, 0}},
    {"bytes over", 5, 4, 2, 11, 0, 2, 1, {4, 0}},
    {"words over", 5, 4, 2, 400, 0, 2, 1, {4, 0}},

    {"m is 0", 5, 4, 0, 20, 27, 0, 0, {0}},
    {"m is 0 before all else", 0, 9, 0, 0, 27, 0, 0, {0}},
    {"no servers", 0, 0, 1, 4, 28, 1, 0, {0}},
    {"513 servers", 513, 0, 1, 4, 28, 1, 0, {0}},
    {"as many servers as can be passed", UINT64_MAX, 0, 1, 4, 28, 1, 0, {0}},
    {"the position after the last", 5, 5, 1, 4, 28, 1, 0, {0}},
    {"the greatest position", 512, UINT64_MAX, 1, 4, 28, 1, 0, {0}},
    {"all numbers at their greatest", UINT64_MAX, UINT64_MAX, UINT64_MAX, 4, 28, 1, 0, {0}},
    {"a bad position before a short list", 5, 5, 2, 0, 28, 1, 0, {0}},
    {"no list", 5, 4, 1, 0, 12, 1, 0, {0}},
    {"a list that lacks a byte", 5, 4, 2, 7, 12, 2, 0, {0}},
    {"a list for m but not for each server", 512, 511, UINT64_MAX, 2047, 12, 512, 0, {0}},
};

#define COUNT(array) (sizeof(array) / sizeof(array)[0])

/* Makes the call on the buffers lent, and compares both. `servers` stand at the list's front if `number` is 0. */
static void expect_send(const struct send_case *c, const uint32_t *servers)
{
    uint32_t returned = hutplan_send(c->count, c->position, c->m, list.bytes, list.length, answer.bytes, answer.length);

    if (answer.length >= HUTPLAN_SEND_ANSWER_BYTES) {
        put(answer.expected, c->number, 8);
        put(answer.expected + 8, c->figure, 8);
        if (c->number == 0) {
            put(answer.expected + 16, c->next, 8);
            list_of(servers, (size_t)c->figure, list.expected);
        }
    }
    expect(returned == (answer.length >= HUTPLAN_SEND_ANSWER_BYTES), "returned", c->name);
    expect_buffer(&list, "list", c->name);
    expect_buffer(&answer, "answer", c->name);
}

static void test_cases(void)
{
    size_t i, length;

    for (i = 0; i < COUNT(send_cases); i++)
        for (length = 0; length <= 40; length++) {
            lend(&list, send_cases[i].list_len);
            lend(&answer, length);
            expect_send(&send_cases[i], send_cases[i].named);
        }
}

/* NULL with length 0, for each buffer. */
static void test_null(void)
{
    static const struct send_case no_list = {"list NULL", 5, 4, 2, 0, 12, 2, 0, {0}};
    static const struct send_case no_answer = {"answer NULL", 5, 4, 2, 8, 0, 2, 1, {4, 0}};

    lend(&list, 0);
    lend(&answer, 24);
    list.bytes = NULL;
    expect_send(&no_list, NULL);
    lend(&list, 8);
    lend(&answer, 0);
    answer.bytes = NULL;
    expect_send(&no_answer, no_answer.named);
}

/* Every server of 512, in lists of every length about 2,048 bytes. */
static void test_sizes(void)
{
    static uint32_t servers[512];
    struct send_case c = {"512 servers", 512, 100, 512, 0, 0, 512, 100, {0}};
    size_t i;

    for (i = 0; i < 512; i++)
        servers[i] = (uint32_t)((100 + i) % 512);
    for (c.list_len = 2040; c.list_len <= 2060; c.list_len++) {
        c.number = c.list_len < HUTPLAN_SEND_LIST_BYTES ? 12 : 0;
        lend(&list, c.list_len);
        lend(&answer, 24);
        expect_send(&c, servers);
    }
}

int main(void)
{
    setvbuf(stdout, NULL, _IOLBF, 0);
    make(&list);
    make(&answer);
    test_cases();
    test_null();
    test_sizes();
    printf("send: %lu checks, %lu failed\n", checks, failures);
    return failures != 0;
}
