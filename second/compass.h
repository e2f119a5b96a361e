// Corrected compass headings, a second time: written in C from the paper alone, to be compared with the proved software.
#ifndef SECOND_COMPASS_H
#define SECOND_COMPASS_H

#include "card.h"

// A decimal of degrees: units, of which so many digits stand behind the point.
struct degrees {
    int64_t units;
    uint64_t places;
};

// The heading of the compass with a serial, by its raw reading and the direction of the line; all 0 where it is refused.
struct refusal find_heading(const uint8_t *header, size_t size, const uint8_t *serial, size_t length, struct degrees raw,
                            int64_t direction, struct degrees *heading);

#endif
