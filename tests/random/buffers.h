// The buffers that go through the crew's program.
#ifndef BUFFERS_H
#define BUFFERS_H

#include <stddef.h>
#include <stdint.h>

// As many as an empty pipe takes at once, and more than the program reads.
enum { MOST_BYTES = 65536 };

struct buffer {
    uint8_t at[MOST_BYTES];
    size_t size;
};

// A header by tests/second/generate.c, mostly damaged; one by tests/second/tiecases.c, its ties sound or broken.
void make_damaged(uint64_t seed, struct buffer *b);
void make_tied(uint64_t seed, unsigned turn, struct buffer *b);

#endif
