/* The names of refusals, made from docs/refusals.json by `node docs/refusals --write`. */
#ifndef REFUSAL_NAMES_H
#define REFUSAL_NAMES_H

#include <stdint.h>

/* The name of a refusal's number; of any other number, that it is unknown. */
static const char *refusal_name(uint64_t number)
{
    switch (number) {
    case 1: return "number too long";
    case 2: return "number not shortest";
    case 3: return "number cut short";
    case 4: return "word missing";
    case 5: return "word out of range";
    case 6: return "greatest below least";
    case 7: return "shares not whole";
    case 8: return "words left over";
    case 9: return "lows above limit";
    case 10: return "demand count";
    case 11: return "demand too large";
    case 12: return "output too short";
    case 13: return "caps too short";
    case 14: return "headroom too short";
    case 15: return "held too short";
    case 16: return "controller out of range";
    case 17: return "reading out of range";
    case 18: return "controllers unfit";
    case 19: return "versions differ";
    case 20: return "joined too large";
    case 21: return "grant count";
    case 22: return "cut out of range";
    case 23: return "link across the cut";
    case 24: return "not a line";
    case 25: return "not a size";
    case 26: return "line out of range";
    case 27: return "no messages";
    case 28: return "position out of range";
    default: return "unknown";
    }
}

#endif
