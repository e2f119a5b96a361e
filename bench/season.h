// A full volume, and what the benchmark does with it: by the library and by the second implementation.
#ifndef BENCH_SEASON_H
#define BENCH_SEASON_H

#include "../second/volume.h"
#include "headers.h"

// The volume: nine lines of about a hundred cards, as many cards as there can be.
enum { SEASON_LINES = 9, SEASON_SIZE = MOST_VOLUME * CARD_SIZE };

// Makes the volume.
void make_season(void);

// The bytes of the full volume.
const uint8_t *season(void);

// The last line appended to the volume without it; the answer is the number of cards, or minus the refusal's number.
int64_t append_by_library(void);
int64_t append_by_second(void);

// The line in the middle; the answer is the number of its cards, or minus the refusal's number.
int64_t line_by_library(void);
int64_t line_by_second(void);

// Whether the last appends of both have left the full volume.
int is_season(void);

#endif
