// Headers whose ties are sound or broken, as tests/second/tiecases.c makes them.
#define main tiecases_main
#include "../second/tiecases.c"
#undef main

#include "buffers.h"

void make_tied(uint64_t seed, unsigned turn, struct buffer *b)
{
    state = seed;
    make_header(turn);
    b->size = cards * (size_t)CARD_SIZE;
    memcpy(b->at, header[0], b->size);
}
