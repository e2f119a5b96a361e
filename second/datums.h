// Routes between datums, a second time: written in C from the paper alone, to be compared with the proved software. Every chain
// is tried.
#ifndef SECOND_DATUMS_H
#define SECOND_DATUMS_H

#include "header.h"

enum { DATUMS = 9, MOST_SHIFTS = 8, NO_ROUTE = 9, NOT_DEFINED = 10 };

// Of each datum the fewest shifts to datum 1, or one of the two above; and the cards of its route, 0 behind the last.
struct routes {
    uint32_t shifts[DATUMS];
    uint32_t cards[DATUMS][MOST_SHIFTS];
};

// The routes of a header; nothing is written where it is refused, or where a datum is defined more than once (22).
struct refusal find_routes(const uint8_t *header, size_t size, struct routes *routes);

#endif
