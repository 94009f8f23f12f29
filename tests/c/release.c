/*
 * Tests of hutplan_release by running, through the archive that firmware links.
 *
 * The number is the header's, and the newest version of the sheet is that of request A.11. Each call is
 * made on a buffer that ends at a page that may not be touched and begins after guard bytes; after it
 * every byte is compared. Prints one line; exit status 1 and a line for each difference.
 */
#include "buffers.h"
#include "hutplan.h"

#define NEWEST_VERSION 3

static struct buffer answer;

/* Makes the call on the buffer lent, and compares it. */
static void expect_release(const char *name)
{
    uint32_t returned = hutplan_release(answer.bytes, answer.length);

    if (answer.length >= HUTPLAN_RELEASE_ANSWER_BYTES) {
        put(answer.expected, 0, 8);
        put(answer.expected + 8, HUTPLAN_RELEASE, 8);
        put(answer.expected + 16, NEWEST_VERSION, 8);
    }
    expect(returned == (answer.length >= HUTPLAN_RELEASE_ANSWER_BYTES), "returned", name);
    expect_buffer(&answer, "answer", name);
}

int main(void)
{
    size_t length;

    setvbuf(stdout, NULL, _IOLBF, 0);
    make(&answer);
    /* The call reads the more of the mark the longer the buffer is, up to its 32 bytes. */
    for (length = 0; length <= 80; length++) {
        lend(&answer, length);
        expect_release("every short length");
    }
    lend(&answer, 1000);
    expect_release("a long buffer");
    lend(&answer, 0);
    answer.bytes = NULL;
    expect_release("answer NULL");
    printf("release: %lu checks, %lu failed\n", checks, failures);
    return failures != 0;
}
