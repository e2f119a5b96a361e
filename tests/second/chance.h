// Chance for the programs that make random cases: the same numbers from the same seed on every machine.
#ifndef SECOND_CHANCE_H
#define SECOND_CHANCE_H

#include <stdint.h>
#include <string.h>

static uint64_t state;

static inline uint64_t chance(void)
{
    uint64_t z = (state += 0x9e3779b97f4a7c15u);
    z = (z ^ (z >> 30)) * 0xbf58476d1ce4e5b9u;
    z = (z ^ (z >> 27)) * 0x94d049bb133111ebu;
    return z ^ (z >> 31);
}

static inline unsigned below(unsigned n)
{
    return (unsigned)(chance() % n);
}

static inline int percent(unsigned n)
{
    return below(100) < n;
}

static inline uint8_t one_of(const char *bytes)
{
    return (uint8_t)bytes[below((unsigned)strlen(bytes))];
}

#endif
