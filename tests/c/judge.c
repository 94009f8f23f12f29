/*
 * Tests of hutplan_judge by running, through the archive that firmware links.
 *
 * Every expected verdict, cord, node and rank here is worked out by hand from request A.9, on room H
 * of document 01 and a room of two ranks. Each call is made on buffers that end at a page that may not
 * be touched and begin after guard bytes; after it every byte of all four is compared. Prints one line;
 * exit status 1 and a line for each difference.
 */
#include "buffers.h"
#include "hutplan.h"

static struct buffer table, demands, grants, answer;

/* Room H: limits 120 and 400, lows 50 and 50 of the first server, one on each node, and 100 of the second,
   on node 2; all of one rank. */
static const uint32_t room_h[] = {1, 2, 0, 150, 0, 500, 2, 1, 100, 400, 2, 1, 500, 2, 500, 1, 100, 400, 1, 2, 1000};

/* One root of limit 80, and two servers of one cord each, 0 to 60 W, of ranks 16 and 1. */
static const uint32_t two_ranks[] = {1, 1, 0, 100, 2, 16, 0, 60, 1, 1, 1000, 1, 0, 60, 1, 1, 1000};

/* Room H with node 2 rated too low for its lows. */
static const uint32_t overfull[] = {1, 2, 0, 150, 0, 187, 2, 1, 100, 400, 2, 1, 500, 2, 500, 1, 100, 400, 1, 2, 1000};

#define COUNT(array) (sizeof(array) / sizeof(array)[0])
#define TABLE(words) words, COUNT(words)

struct judge_case {
    const char *name;
    const uint32_t *table;
    size_t words;
    uint32_t demands[3];
    size_t demand_count;
    uint32_t grants[4];
    size_t grant_count;
    uint64_t numbers[4]; /* the last two count only where the first is 0 */
};

static const struct judge_case judge_cases[] = {
    {"the first grants", TABLE(room_h), {400, 400}, 2, {120, 133, 267}, 3, {0, 0, 0, 0}},
    {"another good list", TABLE(room_h), {400, 400}, 2, {120, 200, 200}, 3, {0, 0, 0, 0}},
    {"a cord below its low", TABLE(room_h), {400, 400}, 2, {120, 49, 99}, 3, {0, 1, 1, 0}},
    {"a low before a want", TABLE(room_h), {400, 400}, 2, {201, 133, 99}, 3, {0, 1, 2, 0}},
    {"a cord above its want", TABLE(room_h), {400, 400}, 2, {201, 133, 401}, 3, {0, 2, 0, 0}},
    {"the greatest grant", TABLE(room_h), {400, 400}, 2, {120, 133, UINT32_MAX}, 3, {0, 2, 2, 0}},
    {"a want before a limit", TABLE(room_h), {400, 400}, 2, {121, 201, 267}, 3, {0, 2, 1, 0}},
    {"a limit passed", TABLE(room_h), {400, 400}, 2, {121, 200, 201}, 3, {0, 3, 1, 0}},
    {"a limit before a short tree", TABLE(room_h), {400, 400}, 2, {119, 200, 201}, 3, {0, 3, 2, 0}},
    {"two short trees", TABLE(room_h), {400, 400}, 2, {119, 133, 266}, 3, {0, 4, 1, 1}},
    {"the second tree short", TABLE(room_h), {400, 400}, 2, {120, 133, 266}, 3, {0, 4, 2, 1}},
    {"a plan's own grants", TABLE(room_h), {400, 200}, 2, {120, 120, 200}, 3, {0, 4, 2, 1}},
    {"both ranks have the most", TABLE(two_ranks), {60, 60}, 2, {60, 20}, 2, {0, 0, 0, 0}},
    {"the higher rank short", TABLE(two_ranks), {60, 60}, 2, {59, 21}, 2, {0, 4, 1, 16}},
    {"the lower rank short", TABLE(two_ranks), {60, 60}, 2, {60, 19}, 2, {0, 4, 1, 1}},
    {"both ranks short", TABLE(two_ranks), {60, 60}, 2, {59, 20}, 2, {0, 4, 1, 16}},

    {"no table", room_h, 0, {400, 400}, 2, {0}, 3, {4, 0}},
    {"lows above a limit", TABLE(overfull), {400, 400}, 2, {0}, 0, {9, 2}},
    {"a demand missing", TABLE(room_h), {400}, 1, {0}, 0, {10, 2}},
    {"a demand too many", TABLE(room_h), {400, 400, 400}, 3, {0}, 0, {10, 2}},
    {"a demand too large", TABLE(room_h), {400, 16777216}, 2, {0}, 0, {11, 1}},
    {"no grants", TABLE(room_h), {400, 400}, 2, {0}, 0, {21, 3}},
    {"a grant missing", TABLE(room_h), {400, 400}, 2, {120, 133}, 2, {21, 3}},
    {"a grant too many", TABLE(room_h), {400, 400}, 2, {120, 133, 267, 0}, 4, {21, 3}},
};

static void lend_words(struct buffer *buffer, const uint32_t *words, size_t count, size_t over)
{
    static uint8_t bytes[4 * 32 + 3];
    size_t length = list_of(words, count, bytes);

    memset(bytes + length, 0xFF, over);
    lend_bytes(buffer, bytes, length + over);
}

/* Makes the call on the buffers lent, and compares all of them. */
static void expect_judge(const struct judge_case *c)
{
    uint32_t returned = hutplan_judge(table.bytes, table.length, demands.bytes, demands.length, grants.bytes,
                                      grants.length, answer.bytes, answer.length);
    size_t i, told = c->numbers[0] == 0 ? 4 : 2;

    if (answer.length >= HUTPLAN_JUDGE_ANSWER_BYTES)
        for (i = 0; i < told; i++)
            put(answer.expected + 8 * i, c->numbers[i], 8);
    expect(returned == (answer.length >= HUTPLAN_JUDGE_ANSWER_BYTES), "returned", c->name);
    expect_buffer(&table, "table", c->name);
    expect_buffer(&demands, "demands", c->name);
    expect_buffer(&grants, "grants", c->name);
    expect_buffer(&answer, "answer", c->name);
}

/* Every case, with answers of every length about 32 bytes, and bytes over at the end of each list. */
static void test_cases(void)
{
    size_t i, length, over;

    for (i = 0; i < COUNT(judge_cases); i++)
        for (length = 0; length <= 40; length++)
            for (over = 0; over < 4; over++) {
                const struct judge_case *c = &judge_cases[i];

                lend_words(&table, c->table, c->words, over);
                lend_words(&demands, c->demands, c->demand_count, over);
                lend_words(&grants, c->grants, c->grant_count, over);
                lend(&answer, length);
                expect_judge(c);
            }
}

/* NULL with length 0, for each buffer. */
static void test_null(void)
{
    static const uint32_t bare[] = {1, 1, 0, 100, 0};
    static const struct judge_case none = {"lists NULL", TABLE(bare), {0}, 0, {0}, 0, {0, 0, 0, 0}};
    static const struct judge_case nothing = {"table NULL", bare, 0, {0}, 0, {0}, 0, {4, 0}};

    lend_words(&table, none.table, none.words, 0);
    lend(&demands, 0);
    lend(&grants, 0);
    lend(&answer, 32);
    demands.bytes = grants.bytes = NULL;
    expect_judge(&none);
    lend(&table, 0);
    lend(&answer, 32);
    table.bytes = NULL;
    expect_judge(&nothing);
    lend(&answer, 0);
    answer.bytes = NULL;
    expect_judge(&nothing);
}

int main(void)
{
    setvbuf(stdout, NULL, _IOLBF, 0);
    make(&table);
    make(&demands);
    make(&grants);
    make(&answer);
    test_cases();
    test_null();
    printf("judge: %lu checks, %lu failed\n", checks, failures);
    return failures != 0;
}
