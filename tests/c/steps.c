/*
 * Tests of hutplan_step and hutplan_step_all by running, through the archive that firmware links.
 *
 * Every expected figure here is worked out from document 02, A.6 and A.7. Each call is made on a copy of its
 * arrays with guard bytes around it; after it every byte is compared, so that zeros of either sign and
 * NaNs of any pattern are told apart. Prints one line; exit status 1 and a line for each difference.
 */
#include <math.h>
#include <stdint.h>
#include <stdio.h>
#include <string.h>

#include "hutplan.h"

static unsigned long checks, failures;

static void expect(int holds, const char *what, const char *name)
{
    checks++;
    if (!holds) {
        failures++;
        printf("FAILED: %s: %s\n", name, what);
    }
}

/* ---- One step */

/* The arrays of a call, with what may not be touched between them. */
struct arrays {
    uint64_t guard0;
    double controller[4];
    uint64_t guard1;
    double budgets[4];
    uint64_t guard2;
    double measured[4];
    uint64_t guard3;
    uint8_t working[4];
    uint8_t guard4[4];
    uint8_t answer[24];
};

static struct arrays arrays;

/* A server with a cap of 300 W in 100 to 400, k 0.5, and four cords of which none works. */
static void server(void)
{
    static const double controller[4] = {300.0, 0.5, 100.0, 400.0};

    memset(&arrays, 0xA5, sizeof arrays);
    memcpy(arrays.controller, controller, sizeof controller);
    memset(arrays.budgets, 0, sizeof arrays.budgets);
    memset(arrays.measured, 0, sizeof arrays.measured);
    memset(arrays.working, 0, sizeof arrays.working);
}

static void cord(int place, double budget, double measured)
{
    arrays.working[place] = 1;
    arrays.budgets[place] = budget;
    arrays.measured[place] = measured;
}

/* Steps, and expects this cap, number and place, and everything else as it was. */
static void step(double cap, uint8_t number, uint8_t place, const char *name)
{
    struct arrays expected = arrays;
    uint32_t returned;

    memset(expected.answer, 0, HUTPLAN_ANSWER_BYTES);
    expected.answer[0] = number;
    expected.answer[8] = place;
    if (number == HUTPLAN_ACCEPTED)
        expected.controller[0] = cap;
    returned = hutplan_step(arrays.controller, arrays.working, arrays.budgets, arrays.measured,
                            arrays.answer, HUTPLAN_ANSWER_BYTES);
    expect(returned == 1, "returned", name);
    expect(memcmp(&arrays, &expected, sizeof arrays) == 0, "figures, guards or answer", name);
}

static void moved_caps(void)
{
    server();
    cord(0, 200.0, 190.0);
    cord(2, 200.0, 180.0);
    step(310.0, 0, 0, "the least error, over two cords");
    server();
    cord(1, 200.0, 190.0);
    cord(3, 140.0, 200.0);
    step(240.0, 0, 0, "a measurement above its budget");
    server();
    cord(0, 1000.0, 100.0);
    step(400.0, 0, 0, "cut to high");
    server();
    cord(0, 100.0, 1000.0);
    step(100.0, 0, 0, "cut to low");
    server();
    step(300.0, 0, 0, "no working cord");
    server();
    cord(0, 0.0, 0.0);
    cord(1, 50.0, 10.0);
    step(300.0, 0, 0, "a cord at 0 W works");
    server();
    cord(0, 16777215.0, 0.0);
    step(400.0, 0, 0, "figures at the ends of their range");
}

/* Figures of a cord that has failed are not looked at, whatever they are. */
static void failed_cords(void)
{
    server();
    cord(0, 200.0, 190.0);
    cord(1, NAN, -INFINITY);
    arrays.working[1] = 0;
    step(305.0, 0, 0, "a failed cord with figures");
    server();
    cord(0, 200.0, 190.0);
    arrays.working[0] = 255;
    step(305.0, 0, 0, "a mark of 255");
}

/* Rounding, and zeros of either sign. */
static void rounded(void)
{
    server();
    arrays.controller[0] = arrays.controller[2] = 0.0;
    arrays.controller[1] = 0.05;
    cord(0, 2.9, 0.0);
    cord(1, 2.9, 0.0);
    cord(2, 2.9, 0.0);
    step(0.43499999999999994, 0, 0, "(2.9 * 0.05) * 3");
    server();
    arrays.controller[0] = arrays.controller[2] = -0.0;
    cord(0, -0.0, 0.0);
    cord(1, 0.0, 0.0);
    step(-0.0, 0, 0, "of equal errors the first, -0");
    server();
    arrays.controller[0] = arrays.controller[2] = -0.0;
    cord(0, 0.0, 0.0);
    cord(1, -0.0, 0.0);
    step(0.0, 0, 0, "of equal errors the first, +0");
}

static void refused(void)
{
    static const double bad_k[] = {0.0, -0.0, -0.5, 1.0000000000000002, INFINITY, NAN};
    static const double bad_cap[] = {99.0, 401.0, INFINITY, -INFINITY, NAN};
    static const double bad_watts[] = {-1.0, 16777216.0, INFINITY, -INFINITY, NAN};
    size_t i;
    int place, other;

    for (i = 0; i < sizeof bad_k / sizeof *bad_k; i++) {
        server();
        cord(0, -1.0, -1.0);
        arrays.controller[1] = bad_k[i];
        step(0.0, HUTPLAN_CONTROLLER_OUT_OF_RANGE, 0, "k, before a bad reading");
    }
    for (i = 0; i < sizeof bad_cap / sizeof *bad_cap; i++) {
        server();
        arrays.controller[0] = bad_cap[i];
        step(0.0, HUTPLAN_CONTROLLER_OUT_OF_RANGE, 0, "cap");
    }
    for (i = 0; i < sizeof bad_watts / sizeof *bad_watts; i++) {
        for (place = 0; place < 4; place++) {
            server();
            for (other = place; other < 4; other++)
                cord(other, 1.0, bad_watts[i]);
            step(0.0, HUTPLAN_READING_OUT_OF_RANGE, (uint8_t)place, "measured watts");
            server();
            cord(place, bad_watts[i], 1.0);
            step(0.0, HUTPLAN_READING_OUT_OF_RANGE, (uint8_t)place, "budget");
        }
    }
}

/* Answers of every length up to 24 bytes: shorter than sixteen, nothing is changed. */
static void answers(void)
{
    size_t length;

    for (length = 0; length <= sizeof arrays.answer; length++) {
        struct arrays expected;
        uint32_t returned;

        server();
        cord(0, 200.0, 190.0);
        expected = arrays;
        if (length >= HUTPLAN_ANSWER_BYTES) {
            expected.controller[0] = 305.0;
            memset(expected.answer, 0, HUTPLAN_ANSWER_BYTES);
        }
        returned = hutplan_step(arrays.controller, arrays.working, arrays.budgets, arrays.measured,
                                length == 0 ? NULL : arrays.answer, length);
        expect(returned == (length >= HUTPLAN_ANSWER_BYTES), "returned", "answer length");
        expect(memcmp(&arrays, &expected, sizeof arrays) == 0, "figures or answer", "answer length");
    }
}

/* ---- Every controller */

#define MOST (HUTPLAN_CONTROLLERS + 1)

static struct {
    double controllers[4 * MOST + 3];
    uint64_t guard0;
    double budgets[4 * MOST];
    double measured[4 * MOST];
    uint8_t working[4 * MOST];
    uint8_t guard1[8];
    uint8_t results[MOST + 1];
    uint8_t guard2[8];
    uint8_t answer[24];
} pass, expected_pass;

/* So many servers, of which every third has a bad k, and every fifth a bad reading; the others get 10 W. */
static void servers(size_t count)
{
    size_t i;

    memset(&pass, 0xA5, sizeof pass);
    memset(pass.working, 0, sizeof pass.working);
    for (i = 0; i < count; i++) {
        pass.controllers[4 * i] = 300.0;
        pass.controllers[4 * i + 1] = i % 3 == 2 ? 2.0 : 0.5;
        pass.controllers[4 * i + 2] = 100.0;
        pass.controllers[4 * i + 3] = 400.0;
        pass.working[4 * i] = pass.working[4 * i + 3] = 1;
        pass.budgets[4 * i] = pass.budgets[4 * i + 3] = i % 5 == 4 ? -200.0 : 200.0;
        pass.measured[4 * i] = 180.0;
        pass.measured[4 * i + 3] = 190.0;
    }
}

static uint32_t step_servers(size_t controllers, size_t working, size_t budgets, size_t measured,
                             size_t results, size_t answer)
{
    return hutplan_step_all(pass.controllers, controllers, pass.working, working,
                            pass.budgets, budgets, pass.measured, measured,
                            pass.results, results, pass.answer, answer);
}

/* Steps so many servers, with this many doubles over, and expects each to be stepped or left. */
static void pass_of(size_t count, size_t over)
{
    size_t i, stepped = 0;
    uint32_t returned;

    servers(count);
    expected_pass = pass;
    for (i = 0; i < count; i++) {
        expected_pass.results[i] = i % 3 == 2 ? 16 : i % 5 == 4 ? 17 : 0;
        if (expected_pass.results[i] == 0) {
            expected_pass.controllers[4 * i] = 310.0;
            stepped++;
        }
    }
    memset(expected_pass.answer, 0, HUTPLAN_ANSWER_BYTES);
    expected_pass.answer[8] = (uint8_t)(stepped % 256);
    expected_pass.answer[9] = (uint8_t)(stepped / 256);
    returned = step_servers(4 * count + over, 4 * count, 4 * count, 4 * count, count, HUTPLAN_ANSWER_BYTES);
    expect(returned == 1, "returned", "a pass");
    expect(memcmp(&pass, &expected_pass, sizeof pass) == 0, "lists, guards or answer", "a pass");
}

/* Expects refusal 18 at the number of controllers, and nothing else changed. */
static void unfit(size_t count, size_t working, size_t budgets, size_t measured, size_t results, const char *name)
{
    uint32_t returned;

    servers(count);
    expected_pass = pass;
    memset(expected_pass.answer, 0, HUTPLAN_ANSWER_BYTES);
    expected_pass.answer[0] = HUTPLAN_CONTROLLERS_UNFIT;
    expected_pass.answer[8] = (uint8_t)(count % 256);
    expected_pass.answer[9] = (uint8_t)(count / 256);
    returned = step_servers(4 * count, working, budgets, measured, results, HUTPLAN_ANSWER_BYTES);
    expect(returned == 1, "returned", name);
    expect(memcmp(&pass, &expected_pass, sizeof pass) == 0, "lists, guards or answer", name);
}

static void passes(void)
{
    size_t count, length;
    uint8_t answer[HUTPLAN_ANSWER_BYTES], nothing[HUTPLAN_ANSWER_BYTES] = {0};

    for (count = 0; count <= 20; count++)
        pass_of(count, count % 4);
    pass_of(HUTPLAN_CONTROLLERS, 3);
    unfit(MOST, 4 * MOST, 4 * MOST, 4 * MOST, MOST, "513 controllers");
    unfit(7, 27, 28, 28, 7, "a mark too few");
    unfit(7, 29, 28, 28, 7, "a mark too many");
    unfit(7, 28, 27, 28, 7, "a budget too few");
    unfit(7, 28, 29, 28, 7, "a budget too many");
    unfit(7, 28, 28, 24, 7, "a measurement too few");
    unfit(7, 28, 28, 32, 7, "a measurement too many");
    unfit(7, 28, 28, 28, 6, "a result too few");
    unfit(7, 28, 28, 28, 8, "a result too many");
    unfit(0, 0, 0, 0, 1, "a result for no controller");
    for (length = 0; length < HUTPLAN_ANSWER_BYTES; length++) {
        servers(3);
        expected_pass = pass;
        expect(step_servers(12, 12, 12, 12, 3, length) == 0, "returned", "a short answer");
        expect(memcmp(&pass, &expected_pass, sizeof pass) == 0, "lists or answer", "a short answer");
    }
    memset(answer, 0xA5, sizeof answer);
    expect(hutplan_step_all(NULL, 0, NULL, 0, NULL, 0, NULL, 0, NULL, 0, answer, sizeof answer) == 1,
           "returned", "no controllers");
    expect(memcmp(answer, nothing, sizeof answer) == 0, "answer", "no controllers");
}

int main(void)
{
    moved_caps();
    failed_cords();
    rounded();
    refused();
    answers();
    passes();
    printf("steps: %lu checks, %lu failed\n", checks, failures);
    return failures != 0;
}
