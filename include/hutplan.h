/*
 * hutplan: room sheets, room tables, power plans and breaker schedules of equipment huts, and the
 * loop that holds a server's DC cap to its cords' budgets.
 *
 * Link with libhutplan.a of your chip, which `bash chips/build` puts into target/chips/CHIP. For
 * Linux on x86-64 that is libcapi.a too, which `bash build capi` puts into target/staticlib. The
 * calls keep no state and take no memory from the heap, so threads may call them at the same time on
 * buffers of their own. They call nothing but memcpy and memset, on ARM by their names there
 * (__aeabi_memcpy, __aeabi_memclr and the like), and, on chips that lack an instruction for it, the
 * compiler's routines (libgcc's or compiler-rt's) for products and quotients of 64 bits, quotients
 * of 32 bits and doubles.
 *
 * A length is a number of 64 bits on every chip, also where a pointer and a size_t have 32. A size_t
 * may be given as it is.
 *
 * A sheet is bytes. A table is a list of words (unsigned, 32 bits). So are demands, grants, caps and
 * headroom, which are watts, and the nodes that hold cords down, which are node numbers. Every list
 * of words passes as bytes, at any alignment: four for each word, the lowest first. Its length is
 * given in bytes. Where that is no multiple of four, the last one to three bytes are not looked at
 * and not changed. Figures of the cap loop (hutplan_step, hutplan_step_all) are doubles; the length
 * of a list of them is their count.
 *
 * The answer is sixteen bytes, two numbers of eight bytes each, low byte first:
 *   bytes 0 to 7    0 if the input was accepted, else the number of the refusal (see below);
 *   bytes 8 to 15   refused: the refusal's place;
 *                   accepted: the count written, of words (hutplan_read, hutplan_join,
 *                   hutplan_schedule; hutplan_part, of the first part) or bytes (hutplan_write),
 *                   the freed watts (hutplan_plan), 0 (hutplan_step), or how many controllers were
 *                   stepped (hutplan_step_all).
 * The answers of hutplan_send, hutplan_part and hutplan_release have eight bytes more, and that of
 * hutplan_judge sixteen (see there). Bytes past the answer are not touched. If the answer buffer is
 * shorter than the call's answer, the call returns 0 and changes nothing. In every other case it
 * returns 1.
 *
 * Accepted: what is written stands at the front of each output buffer; bytes past it are not
 * touched. Refused: nothing but the answer is changed.
 *
 * The caller's duties:
 *   - each pointer is valid for the length given with it: all those bytes may be read, and those
 *     of an output or answer buffer may be written;
 *   - no buffer that is written (output, answer) overlaps another buffer of the same call, and no
 *     other thread touches the buffers during the call;
 *   - a pointer is NULL only if its length is 0;
 *   - a length is at most PTRDIFF_MAX of the chip, as of any object in C;
 *   - doubles are aligned as any object of that type is in C, and the floating-point environment is
 *     the one that a program starts with: rounding to the nearest, subnormal numbers kept;
 *   - there is enough stack (see below).
 * There is no other duty: any bytes, of any length, and any doubles, NaNs and infinities too, are
 * good input.
 *
 * Stack: each call needs at most HUTPLAN_.._STACK bytes of it (see below), on every chip, whatever
 * the input. No call reaches itself. What memcpy, memset and the compiler's routines need comes on
 * top, and so do interrupts.
 */
#ifndef HUTPLAN_H
#define HUTPLAN_H

#include <stddef.h>
#include <stdint.h>

#ifdef __cplusplus
extern "C" {
#endif

/*
 * Refusal numbers. The first that is met is told, in each call's order, which its own section has: 12,
 * of a list that is too short, comes last in most calls. All bytes of a sheet are judged (1 to 3)
 * before any word, and all words (4 to 8) before the lows (9).
 * Places count from 0; a node's number counts from 1.
 */
enum hutplan_refusal {
    HUTPLAN_ACCEPTED = 0,

    /* Bytes of a sheet, number by number (hutplan_read).
       Place: the index of the byte where the number starts. */
    HUTPLAN_NUMBER_TOO_LONG = 1,       /* four bytes all with the top bit set */
    HUTPLAN_NUMBER_NOT_SHORTEST = 2,   /* longer than one byte, and its last byte is 0 */
    HUTPLAN_NUMBER_CUT_SHORT = 3,      /* the bytes end inside a number */

    /* Words of a table, word by word (hutplan_read, hutplan_write, hutplan_plan, hutplan_judge,
       hutplan_part; hutplan_join, of the first table and then of the second). */
    HUTPLAN_WORD_MISSING = 4,          /* place: the table's length in words */
    HUTPLAN_WORD_OUT_OF_RANGE = 5,     /* place: the word's index */
    HUTPLAN_GREATEST_BELOW_LEAST = 6,  /* place: the index of the word `greatest` */
    HUTPLAN_SHARES_NOT_WHOLE = 7,      /* a server's shares do not sum to 1,000, in version 3
                                          to 10,000; place: the index of the server's rank */
    HUTPLAN_WORDS_LEFT_OVER = 8,       /* place: the index of the first word left over */
    HUTPLAN_LOWS_ABOVE_LIMIT = 9,      /* the lows of the cords beneath a node, at any depth, exceed
                                          its limit; place: the lowest number of such a node */

    /* Demands (hutplan_plan, hutplan_judge). */
    HUTPLAN_DEMAND_COUNT = 10,         /* not one demand a server; place: the count of servers */
    HUTPLAN_DEMAND_TOO_LARGE = 11,     /* a demand above 16,777,215; place: the first such index */

    /* The output buffers. */
    HUTPLAN_OUTPUT_TOO_SHORT = 12,     /* place: the length needed, in words (hutplan_read,
                                          hutplan_join, hutplan_part, hutplan_schedule), bytes
                                          (hutplan_write), grants (hutplan_plan) or servers named
                                          (hutplan_send) */
    HUTPLAN_CAPS_TOO_SHORT = 13,       /* the cap list; place: the count of servers */
    HUTPLAN_HEADROOM_TOO_SHORT = 14,   /* the headroom list; place: the count of cords */
    HUTPLAN_HELD_TOO_SHORT = 15,       /* the list of holding nodes; place: the count of cords */

    /* A step of the DC cap loop (hutplan_step; in the results of hutplan_step_all). */
    HUTPLAN_CONTROLLER_OUT_OF_RANGE = 16, /* not 0 < k <= 1, or not
                                             0 <= low <= cap <= high <= 16,777,215, or one of these
                                             not finite; place: 0 */
    HUTPLAN_READING_OUT_OF_RANGE = 17,    /* a working cord's budget or measured watts not from 0 to
                                             16,777,215, or not finite; place: the first such cord */

    /* A step of every controller (hutplan_step_all), before any is stepped. */
    HUTPLAN_CONTROLLERS_UNFIT = 18,       /* more than 512 controllers, or a list whose length does
                                             not fit their number; place: that number */

    /* Two good tables together (hutplan_join), before 12. */
    HUTPLAN_VERSIONS_DIFFER = 19,      /* place: 0 */
    HUTPLAN_JOINED_TOO_LARGE = 20,     /* more than 512 nodes (place 0), 512 servers (1) or 1,024
                                          cords (2); place: the first of these that is too large */

    /* A list of grants to be judged (hutplan_judge). */
    HUTPLAN_GRANT_COUNT = 21,          /* not one grant a cord; place: the count of cords */

    /* The counts at which a good table is parted (hutplan_part), before 12. */
    HUTPLAN_CUT_OUT_OF_RANGE = 22,     /* the count of nodes is not from 1 to the table's less 1
                                          (place 0); that of servers is above the table's (1) */
    HUTPLAN_LINK_ACROSS_THE_CUT = 23,  /* a parent or a cord's node is on the other side of the cut;
                                          place: the index of the first such word */

    /* Lines of a schedule, line by line (hutplan_schedule), all before 12. Place: the line. */
    HUTPLAN_NOT_A_LINE = 24,           /* not of the form, or a number above 9,999 */
    HUTPLAN_NOT_A_SIZE = 25,           /* the amperes are none of the 37 sizes */
    HUTPLAN_LINE_OUT_OF_RANGE = 26,    /* the volts or the parent are out of range; a 513th line;
                                          no lines at all (place 0) */

    /* The numbers of hutplan_send, before its list. */
    HUTPLAN_NO_MESSAGES = 27,          /* m is 0; place: 0 */
    HUTPLAN_POSITION_OUT_OF_RANGE = 28 /* no server has the position, or there are none or more than
                                          512 of them; place: 1 */
};

/*
 * Sizes to lend, enough for every accepted input.
 *
 * A table has at most 5,635 words: version and count of nodes (2), three for each of at most 512
 * nodes (1,536; two in version 1), the count of servers (1), four for each of at most 512 servers
 * (2,048) and two for each of at most 1,024 cords (2,048). A word takes four bytes of a word list,
 * and one to four bytes of a sheet, so a table's list and its sheet both have at most 22,540 bytes.
 *
 * A plan takes one demand a server, at most 512, and gives one grant a cord, at most 1,024, one cap
 * a server, and one figure of headroom and one holding node a cord. A period of a slow bus names
 * each of at most 512 servers once.
 */
#define HUTPLAN_TABLE_WORDS (2 + 3 * 512 + 1 + 4 * 512 + 2 * 1024)
#define HUTPLAN_TABLE_BYTES (4 * HUTPLAN_TABLE_WORDS)
#define HUTPLAN_SHEET_BYTES (4 * HUTPLAN_TABLE_WORDS)
#define HUTPLAN_DEMANDS_BYTES 2048
#define HUTPLAN_GRANTS_BYTES 4096
#define HUTPLAN_CAPS_BYTES 2048
#define HUTPLAN_HEADROOM_BYTES 4096
#define HUTPLAN_HELD_BYTES 4096
#define HUTPLAN_SEND_LIST_BYTES 2048
#define HUTPLAN_ANSWER_BYTES 16
#define HUTPLAN_SEND_ANSWER_BYTES 24
#define HUTPLAN_PART_ANSWER_BYTES 24
#define HUTPLAN_JUDGE_ANSWER_BYTES 32
#define HUTPLAN_RELEASE_ANSWER_BYTES 24

/*
 * Stack of each call in bytes, no less than the most that it can use on any of the chips.
 * tests/stack computes that from the compiled code of each; docs/PERFORMANCE.md has the figures.
 */
#define HUTPLAN_READ_STACK 27136
#define HUTPLAN_WRITE_STACK 27136
#define HUTPLAN_PLAN_STACK 92416
#define HUTPLAN_JUDGE_STACK 42752
#define HUTPLAN_JOIN_STACK 27264
#define HUTPLAN_PART_STACK 27264
#define HUTPLAN_SCHEDULE_STACK 4608
#define HUTPLAN_STEP_STACK 256
#define HUTPLAN_STEP_ALL_STACK 256
#define HUTPLAN_SEND_STACK 2304
#define HUTPLAN_RELEASE_STACK 256

/* Controllers of one hutplan_step_all, figures of a controller, and cords of a controller. */
#define HUTPLAN_CONTROLLERS 512
#define HUTPLAN_CONTROLLER_FIGURES 4
#define HUTPLAN_CONTROLLER_CORDS 4

/* The table of a schedule has no servers: at most 1,027 words. */
#define HUTPLAN_SCHEDULE_TABLE_BYTES 4108

/*
 * Read: turns the bytes of a sheet into the words of its table.
 *
 * Refusals: 1 to 9 of the sheet; then 12 if table_len / 4 is less than the count of words.
 */
uint32_t hutplan_read(const uint8_t *sheet, uint64_t sheet_len,
                      uint8_t *table, uint64_t table_len,
                      uint8_t *answer, uint64_t answer_len);

/*
 * Write: turns the words of a table into the bytes of its sheet.
 *
 * Refusals: 4 to 9 of the table; then 12 if sheet_len is less than the count of bytes.
 *
 * There and back, as it is proved of the two calls in bytes (crates/sheet_bytes/specs/Promises.antt):
 *   - where hutplan_read was accepted with n words, hutplan_write of the first 4 * n bytes of that
 *     table, into a buffer no shorter than the sheet, is accepted and gives the sheet's bytes;
 *   - where hutplan_write was accepted with n bytes, hutplan_read of the first n bytes of that
 *     sheet, into a buffer no shorter than the table, is accepted and gives the bytes of the
 *     table's words (all of its bytes but one to three over).
 */
uint32_t hutplan_write(const uint8_t *table, uint64_t table_len,
                       uint8_t *sheet, uint64_t sheet_len,
                       uint8_t *answer, uint64_t answer_len);

/*
 * Plan: deals a room's power, from the words of its table and a demand in watts for each server.
 *
 * Refusals: 4 to 9 of the table; 10 and 11 of the demands; then 12 if grants_len / 4 is less than
 * the count of cords, 13 if caps_len / 4 is less than the count of servers, 14 if headroom_len / 4
 * is less than the count of cords, and 15 if held_len / 4 is.
 * Accepted, the grants, the headroom and the holding nodes stand in the table's order of cords and
 * the caps in its order of servers. A cord's headroom is watts for bursts, beyond its grant, lent
 * out of what is not requested at its root. No node's limit is passed by the grants and the headroom
 * beneath it, taken together over all cords at any depth. A cord's headroom may follow the demands
 * of servers of lower ranks; its grant and its server's cap do not.
 * The held list has 0 for a cord whose grant is all that it wants in the second deal. For every other
 * cord it names the node that holds it down: of the nodes above the cord, the nearest to the root
 * that asks, in the second deal, for less than its children together, at the cord's rank or a higher
 * one. The grants beneath that node sum to its limit, and every cord beneath it of a lower rank than
 * the held cord's has just its low.
 * The answer's figure is the freed watts: the watts that the first deal granted and the servers
 * cannot use, summed over all cords.
 */
uint32_t hutplan_plan(const uint8_t *table, uint64_t table_len,
                      const uint8_t *demands, uint64_t demands_len,
                      uint8_t *grants, uint64_t grants_len,
                      uint8_t *caps, uint64_t caps_len,
                      uint8_t *headroom, uint64_t headroom_len,
                      uint8_t *held, uint64_t held_len,
                      uint8_t *answer, uint64_t answer_len);

/*
 * Join: makes one table of two, where one hut's racks move into another.
 *
 * The second's nodes stand behind the first's, and its servers behind the first's. The numbers of its
 * nodes are raised by the first's count of nodes: the parents that are not 0, and the nodes of cords.
 * The table has as many words as both together, less three; hutplan_write and hutplan_plan accept it.
 * Its plan, with the first's demands followed by the second's, has each list of the first's plan
 * followed by that of the second's, with the holding nodes raised likewise, 0 staying 0, and the
 * freed watts of both added up.
 *
 * Refusals: 4 to 9 of the first table, with its own places; 4 to 9 of the second, with its own; 19;
 * 20; then 12 if table_len / 4 is less than the count of words.
 */
uint32_t hutplan_join(const uint8_t *first, uint64_t first_len,
                      const uint8_t *second, uint64_t second_len,
                      uint8_t *table, uint64_t table_len,
                      uint8_t *answer, uint64_t answer_len);

/*
 * Part: makes two tables of one, where racks move back out of a hut.
 *
 * The first has so many of the table's first nodes and so many of its first servers, and the second
 * has the others. The numbers of nodes in the second are lowered by the first's count of nodes: the
 * parents that are not 0, and the nodes of cords. Any two numbers may be given. A table that
 * hutplan_join made, parted at the counts of the first table, gives both tables again; and
 * hutplan_join makes of both parts the table that was parted. Both parts are accepted by hutplan_write
 * and hutplan_plan, and the plan of the table is that of both parts, as hutplan_join has it.
 *
 * The answer is twenty-four bytes, HUTPLAN_PART_ANSWER_BYTES. Accepted: 0, the count of words of the
 * first part, and that of the second, eight bytes each. Refused: the number of the refusal and its
 * place; bytes from 16 on are not touched. Shorter, the call returns 0 and changes nothing.
 *
 * Refusals: 4 to 9; 22; 23; then 12 if first_len / 4 is less than the count of words of the first
 * part, and then if second_len / 4 is less than that of the second.
 */
uint32_t hutplan_part(const uint8_t *table, uint64_t table_len,
                      uint64_t nodes, uint64_t servers,
                      uint8_t *first, uint64_t first_len,
                      uint8_t *second, uint64_t second_len,
                      uint8_t *answer, uint64_t answer_len);

/*
 * Schedule: turns a text, each line of which describes a breaker, into the words of a table.
 *
 * A line has three numbers in decimal, none with a zero in front (zero itself is "0"): the number of
 * the breaker's parent, or 0; its amperes; its volts. One space parts two of them, and a newline
 * ends the line, also the last. Breakers are numbered from 1 in the order of their lines, and a
 * parent's number is below that of the line. The amperes are one of the 37 sizes of NEC 240.6(A),
 * 2020 edition, and the volts run from 100 to 480. A breaker's rating is amperes times volts.
 * The table has version 1 and no servers; hutplan_write and hutplan_plan accept it.
 *
 * Refusals: for each line in turn 24, 25 and 26; then 12 if table_len / 4 is less than the count of
 * words. Only the first 7,695 bytes of a text decide, those of 513 lines at their longest.
 */
uint32_t hutplan_schedule(const uint8_t *text, uint64_t text_len,
                          uint8_t *table, uint64_t table_len,
                          uint8_t *answer, uint64_t answer_len);

/*
 * Step: one step of a server's DC cap loop, by what its four cords read.
 *
 * A controller is four doubles: its DC cap in watts, the efficiency k of its supplies, and the low
 * and high ends of the cap's range in watts. So a list of `struct { double cap, k, low, high; }` is
 * a list of controllers, each lent by the address of its cap.
 *
 * Cord i (from 0) is working where working[i] is not 0; it then has a budget and measured AC watts.
 * Where working[i] is 0 the cord has failed or is not fitted, and its figures are not looked at. The
 * mark alone decides: a working cord may measure 0 W.
 *
 * Accepted, the cap is controller[0]; k, low and high stay. The error is the least of
 * budgets[i] - measured[i] over the working cords, the first of equals. The new cap is
 * cap + (error * k) * count, count being that of the working cords, with each operation rounded
 * once, in this order; and then low or high where it lies outside of these. With no working cord the
 * cap stays, and with an error of zero its value does. (A cap of -0, which is the value 0, may then
 * become +0.)
 *
 * Refusals: 16 of the controller; then 17 of the readings. A refused step changes nothing but the
 * answer, and the answer's figure is the place; accepted, it is 0.
 */
uint32_t hutplan_step(double controller[4],
                      const uint8_t working[4],
                      const double budgets[4],
                      const double measured[4],
                      uint8_t *answer, uint64_t answer_len);

/*
 * Step all: one step of each of up to 512 servers' loops, in one call.
 *
 * The lists go controller by controller: controllers has four doubles each, as in hutplan_step;
 * working, budgets and measured have four entries each, one a cord; results has one byte each. The
 * lengths are counts of entries, so that of controllers is four times their number. One to three
 * doubles over at its end belong to no controller, and are neither read nor written.
 *
 * Each controller ends exactly as hutplan_step would leave it. Its result is 0 where that step is
 * accepted; where it is refused, the result is the number of the refusal, 16 or 17, and the
 * controller stays as it was. Accepted, the answer's figure is how many results are 0.
 *
 * Refusals: 18, before anything is stepped.
 */
uint32_t hutplan_step_all(double *controllers, uint64_t controllers_len,
                          const uint8_t *working, uint64_t working_len,
                          const double *budgets, uint64_t budgets_len,
                          const double *measured, uint64_t measured_len,
                          uint8_t *results, uint64_t results_len,
                          uint8_t *answer, uint64_t answer_len);

/*
 * Send: the servers that a period's messages go to, over a bus that carries m messages a period.
 *
 * Servers are numbered from 0 to count - 1. From the position on, the next m of them are named in
 * the list, going round from the last to the first; none is named twice, so that m of the count or
 * more names each of them. The new position follows the last one named. Begin the next period there:
 * with count and m unchanged, every server is named within ceil(count / m) periods.
 *
 * Refusals: 27 if m is 0; 28 if the position or the count is out of range; then 12 if list_len / 4
 * is less than the servers to be named. Any three numbers are good input.
 *
 * The answer of this call is twenty-four bytes, three numbers of eight bytes each:
 *   bytes 0 to 7     0 if the input was accepted, else the number of the refusal;
 *   bytes 8 to 15    refused: the refusal's place; accepted: how many servers were named;
 *   bytes 16 to 23   refused: not touched; accepted: the new position.
 * If the answer buffer is shorter than twenty-four bytes, the call returns 0 and changes nothing.
 */
uint32_t hutplan_send(uint64_t count, uint64_t position, uint64_t m,
                      uint8_t *list, uint64_t list_len,
                      uint8_t *answer, uint64_t answer_len);

/* The verdicts of hutplan_judge. */
enum {
    HUTPLAN_PASSES = 0,
    HUTPLAN_BELOW_LOW = 1,   /* a cord has less than its low; named: the cord, from 0 */
    HUTPLAN_ABOVE_WANT = 2,  /* a cord has more than it wants; named: the cord, from 0 */
    HUTPLAN_OVER_LIMIT = 3,  /* the grants beneath a node pass its limit; named: the node */
    HUTPLAN_SHORT = 4        /* a tree could have more; named: its root, and the rank */
};

/*
 * Judge: what is wrong with grants that somebody else made, one a cord, by what the servers' demands
 * make the cords want in the first deal. No list is written.
 *
 * The answer has 32 bytes: four numbers of eight bytes each, low byte first. The first two are as in
 * the other calls, the second of an accepted list being the verdict. Accepted, the third is the cord,
 * node or root that the verdict names, and the fourth the rank of verdict 4; a number that a verdict
 * does not use is 0. Refused, bytes 16 to 31 are not touched. If answer_len is less than 32, the
 * call returns 0 and changes nothing.
 *
 * The verdict is the first that holds, of the lowest cord or node of its kind. A tree is short at a
 * rank if some way of dealing it, within lows, wants and limits, gives the cords of that rank and
 * above more in sum; the lowest such root is named with its highest such rank. The grants of
 * hutplan_plan are the second deal's, which goes by other wants, and need not pass.
 *
 * Refusals: 4 to 9 of the table; 10 and 11 of the demands; then 21.
 */
uint32_t hutplan_judge(const uint8_t *table, uint64_t table_len,
                       const uint8_t *demands, uint64_t demands_len,
                       const uint8_t *grants, uint64_t grants_len,
                       uint8_t *answer, uint64_t answer_len);

/*
 * Release: which release the archive is of, and the newest version of the sheet that it reads; the
 * versions before it are read too. It never refuses.
 *
 * The answer has 24 bytes, three numbers of eight bytes each: 0; the number of the release; the
 * version. If the answer buffer is shorter, the call returns 0 and changes nothing.
 *
 * HUTPLAN_RELEASE is the release that this header is of. Compare the two once, when the program
 * starts, so that a header is never used with another release's archive:
 *
 *     uint8_t answer[HUTPLAN_RELEASE_ANSWER_BYTES];
 *
 *     hutplan_release(answer, sizeof answer);
 *     if (number_at(answer + 8, 8) != HUTPLAN_RELEASE)
 *         stop();
 *
 * (number_at is in the example below.) A program that makes this call has the release's mark among
 * its constant bytes, "hutplan release NNNN by Yerkozan", by which the release is found in a unit's
 * image; one that does not make it has none.
 */
#define HUTPLAN_RELEASE 2

uint32_t hutplan_release(uint8_t *answer, uint64_t answer_len);

/*
 * Example: reads a sheet and plans it with the demands given, a list of words. The result is 0, or
 * the number of the refusal.
 *
 *     static uint8_t table[HUTPLAN_TABLE_BYTES];
 *     static uint8_t grants[HUTPLAN_GRANTS_BYTES];
 *     static uint8_t caps[HUTPLAN_CAPS_BYTES];
 *     static uint8_t headroom[HUTPLAN_HEADROOM_BYTES];
 *     static uint8_t held[HUTPLAN_HELD_BYTES];
 *
 *     static uint64_t number_at(const uint8_t *bytes, size_t count)
 *     {
 *         uint64_t value = 0;
 *         while (count > 0)
 *             value = 256 * value + bytes[--count];
 *         return value;
 *     }
 *
 *     uint64_t plan_sheet(const uint8_t *sheet, size_t sheet_len,
 *                         const uint8_t *demands, size_t demands_len)
 *     {
 *         uint8_t answer[HUTPLAN_ANSWER_BYTES];
 *         size_t words;
 *
 *         hutplan_read(sheet, sheet_len, table, sizeof table, answer, sizeof answer);
 *         if (number_at(answer, 8) != HUTPLAN_ACCEPTED)
 *             return number_at(answer, 8);
 *         words = (size_t)number_at(answer + 8, 8);
 *         hutplan_plan(table, 4 * words, demands, demands_len,
 *                      grants, sizeof grants, caps, sizeof caps, headroom, sizeof headroom,
 *                      held, sizeof held, answer, sizeof answer);
 *         return number_at(answer, 8);
 *     }
 *
 * If the result is 0, the server at place i (from 0) has the cap number_at(caps + 4 * i, 4), and
 * the cord at place c, in the table's order, has the grant number_at(grants + 4 * c, 4) and the
 * headroom number_at(headroom + 4 * c, 4), and the node number_at(held + 4 * c, 4) holds it down, or
 * none does if that is 0.
 */

#ifdef __cplusplus
}
#endif

#endif
