// Tapes in EBCDIC: the library against the second implementation, on every byte and on random buffers, with every byte of the
// output, too short, just long enough or longer; and what was translated, translated back.
#include "../second/chance.h"
#include "compare.h"
#include "../../second/ebcdic.h"

#include <stdio.h>

enum { LONGEST = 70000, SPARE = 16, MOST_OUT = LONGEST + 2 * SPARE };

static uint8_t bytes[LONGEST], again[LONGEST], should[MOST_OUT], is[MOST_OUT];

// The ends that have to come: no byte at all, too short, just long enough, longer; each both ways.
enum { NONE, SHORT, JUST, LONGER, ENDS };
static unsigned long ends[2][ENDS];

static const struct direction {
    const char *name;
    int64_t (*library)(const uint8_t *, size_t, uint8_t *, size_t, int64_t *, size_t);
    struct refusal (*second)(const uint8_t *, size_t, uint8_t *, size_t);
} directions[2] = {{"from_ebcdic", p294_from_ebcdic, to_ascii}, {"to_ebcdic", p294_to_ebcdic, to_ebcdic}};

// An output with so much room, and bytes behind it that are not lent.
static void hold_translation(const struct direction *d, unsigned turn, size_t length, size_t room)
{
    struct input in = {d->name, bytes, length, bytes, 0, {room, turn}};
    struct lent l = lend(turn);
    for (size_t i = 0; i < MOST_OUT; i++)
        should[i] = is[i] = (uint8_t)(i * 7 + turn);
    struct refusal r = d->second(bytes, length, should, room);
    int64_t said = d->library(bytes, length, is, room, l.numbers, l.room);
    hold(&in, r.number ? refused(r) : (struct expected){(int64_t)length, {0, 0, 0}}, said, &l);
    hold_bytes(&in, should, is, MOST_OUT);
    ends[d - directions][length == 0 ? NONE : r.number ? SHORT : room == length ? JUST : LONGER]++;
    if (r.number)
        return;
    const struct direction *back = &directions[d == directions];
    int64_t returned = back->library(is, length, again, LONGEST, l.numbers, 0);
    l = lend(7);
    hold(&in, (struct expected){(int64_t)length, {0, 0, 0}}, returned, &l);
    hold_bytes(&in, bytes, again, length);
}

static size_t room_for(size_t length)
{
    size_t rooms[] = {length, length + below(SPARE), length ? length - 1 : 0, length ? below((unsigned)length) : 0};
    return rooms[below(4)];
}

int compare_tapes(uint64_t seed, unsigned long wanted)
{
    int missing = 0;
    state = seed;
    for (unsigned i = 0; i < 256; i++)
        bytes[i] = (uint8_t)i;
    for (const struct direction *d = directions; d < directions + 2; d++)
        hold_translation(d, 0, 256, 256);
    for (unsigned turn = 0; turn < wanted; turn++) {
        size_t length = turn == 0 ? 0 : turn == 1 ? LONGEST : percent(80) ? below(300) : below(LONGEST + 1);
        for (size_t i = 0; i < length; i++)
            bytes[i] = (uint8_t)chance();
        for (const struct direction *d = directions; d < directions + 2; d++)
            hold_translation(d, turn, length, room_for(length));
    }
    for (const struct direction *d = directions; d < directions + 2; d++)
        for (int end = 0; end < ENDS; end++)
            missing |= ends[d - directions][end] == 0;
    printf("tapes: %lu and %lu of no byte, %lu and %lu with too short an output\n", ends[0][NONE], ends[1][NONE],
           ends[0][SHORT], ends[1][SHORT]);
    return missing;
}
