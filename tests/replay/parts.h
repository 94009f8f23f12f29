/*
 * What the recorder and the replayer share: the C calls as lists of parts. calls.h is made from the
 * sources of capi (calls.awk, dispatch.awk), so that a new call is there without a line here.
 *
 * A recorded call is, numbers with their low byte first:
 *   one byte, how long its name is, and the name;
 *   four bytes, what it returned;
 *   for each parameter that is a number, eight bytes;
 *   for each buffer four bytes for its length in bytes, one byte for the place (NOWHERE for NULL, else
 *   its address modulo 16), its bytes before the call and, where the call may write, those after it.
 */
#ifndef PARTS_H
#define PARTS_H

#include <stddef.h>
#include <stdint.h>

#include "hutplan.h"

#define NOWHERE 255

/* A parameter of a call: whether it may be written, the bytes of an entry (0: it is a number), and how
   many entries there are (0: the caller says). */
struct kind {
    uint8_t written, size, fixed;
};

/* What is given for it: where the entries are and how many, or the number. */
struct part {
    void *at;
    uint64_t count;
};

#include "calls.h"

#endif
