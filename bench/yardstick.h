// A check written for speed alone, to time the library against.
#ifndef BENCH_YARDSTICK_H
#define BENCH_YARDSTICK_H

#include "../second/ties.h"

// As check_ties of the second implementation.
struct refusal check_swiftly(const uint8_t *header, size_t size, uint32_t *list, size_t room, size_t *faults);

#endif
