// Headers, good and damaged, as tests/second/generate.c makes them.
#define main generate_main
#include "../second/generate.c"
#undef main

#include "buffers.h"

void make_damaged(uint64_t seed, struct buffer *b)
{
    static struct made h;
    state = seed;
    make_header(&h);
    b->size = h.count * (size_t)CARD_SIZE;
    memcpy(b->at, h.at, b->size);
    for (unsigned k = h.more; k && b->size + 2 * CARD_SIZE <= MOST_BYTES; k--, b->size += CARD_SIZE)
        memcpy(b->at + b->size, h.at[h.count - 1], CARD_SIZE);
    memset(b->at + b->size, 'x', h.spare);
    b->size += h.spare;
}
