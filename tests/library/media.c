// Diskette files: the library against the second implementation, both ways, on random and damaged headers and files.
#include "../../second/media.h"
#include "../second/chance.h"
#include "compare.h"

#include <stdio.h>

// The most lines that a case has, with ends and damage; bytes of the output behind what is lent.
enum { MOST_LINES = 803, ROOM = MOST_LINES * 90, BEHIND = 4 };

static const char *const ways[2] = {"to disk", "from disk"};
static unsigned long ends[2][18];

// A number of cards or lines: mostly few, some about the largest header.
static unsigned lines_of(unsigned turn)
{
    return turn % 40 == 0 ? 799 + below(4) : below(6);
}

// A text of so many characters, often with blanks at its end or inside.
static uint8_t *put_text_of(uint8_t *at, size_t size)
{
    size_t blanks = percent(50) ? below((unsigned)size + 1) : 0;
    for (size_t i = 0; i < size; i++)
        *at++ = i + blanks >= size || percent(10) ? ' ' : (uint8_t)(33 + below(94));
    return at;
}

static size_t make_cards(uint8_t *bytes, unsigned turn)
{
    uint8_t *at = bytes;
    for (unsigned n = lines_of(turn); n; n--)
        at = put_text_of(at, CARD_SIZE);
    if (percent(8))
        at = put_text_of(at, below(CARD_SIZE));
    size_t size = (size_t)(at - bytes);
    if (size && percent(15))
        bytes[below((unsigned)size)] = (uint8_t)chance();
    return size;
}

// How long a line is: any length up to 82, often one about 0 and 80.
static size_t line_size(void)
{
    static const uint8_t edges[] = {0, 0, 1, 79, 80, 80, 80, 80};
    return percent(60) ? edges[below(8)] : percent(3) ? 81 + below(2) : below(81);
}

// A line end: nearly always the right one.
static uint8_t *put_end(uint8_t *at, unsigned wrong)
{
    static const char *const ends_of[] = {"\r", "\n", "\n\r", "\r\r\n", "", "\r\n\n", "\x1a\r\n"};
    const char *end = percent(wrong) ? ends_of[below(7)] : "\r\n";
    while (*end)
        *at++ = (uint8_t)*end++;
    return at;
}

static size_t make_file(uint8_t *bytes, unsigned turn)
{
    uint8_t *at = bytes;
    unsigned n = lines_of(turn), wrong = n > 10 ? 0 : 4;
    for (; n; n--)
        at = put_end(put_text_of(at, n > 10 ? below(81) : line_size()), wrong);
    if (percent(8))
        at = put_text_of(at, below(82));
    if (percent(3))
        *at++ = 26;
    size_t size = (size_t)(at - bytes);
    if (size && percent(10))
        bytes[below((unsigned)size)] = percent(40) ? one_of("\r\n\x1a\t") : (uint8_t)chance();
    return size;
}

// The room for an output that wants so many bytes: often just that or one less.
static size_t room_about(size_t needed)
{
    switch (below(6)) {
    case 0: return needed ? needed - 1 : 0;
    case 1: return needed + 1;
    case 2: return below((unsigned)needed + 1);
    case 3: return ROOM - BEHIND;
    default: return needed;
    }
}

static void fill(uint8_t *out)
{
    for (size_t i = 0; i < ROOM; i++)
        out[i] = (uint8_t)(i * 7 + 1);
}

// One conversion by both; what it left is in `is`.
static struct refusal hold_way(int way, const uint8_t *bytes, size_t size, uint8_t *is, size_t room, unsigned turn, size_t *written)
{
    static uint8_t should[ROOM];
    struct input in = {ways[way], bytes, size, bytes, 0, {room, turn}};
    struct lent l = lend(turn);
    fill(should);
    fill(is);
    struct refusal r = (way ? from_disk : to_disk)(bytes, size, should, room, written);
    int64_t said = (way ? p294_from_disk : p294_to_disk)(bytes, size, is, room, l.numbers, l.room);
    hold(&in, r.number ? refused(r) : (struct expected){(int64_t)*written, {0, 0, 0}}, said, &l);
    hold_bytes(&in, should, is, ROOM);
    ends[way][r.number]++;
    return r;
}

int compare_media(uint64_t seed, unsigned long wanted)
{
    static uint8_t bytes[ROOM], is[ROOM], back[ROOM];
    int missing = 0;
    state = seed;
    for (unsigned turn = 0; turn < wanted; turn++) {
        int way = turn % 2;
        size_t size = way ? make_file(bytes, turn / 2) : make_cards(bytes, turn / 2), needed = 0, again = 0;
        if ((way ? from_disk : to_disk)(bytes, size, is, ROOM - BEHIND, &needed).number)
            needed = below(400);
        struct refusal r = hold_way(way, bytes, size, is, room_about(needed), turn, &needed);
        // and back again: cards come back as they were
        if (r.number == 0 && hold_way(!way, is, needed, back, ROOM - BEHIND, turn, &again).number == 0 && !way)
            hold_bytes(&(struct input){"to disk and back", bytes, size, bytes, 0, {turn}}, bytes, back, size);
    }
    static const uint8_t to[] = {0, 1, 2, 3, 4, 17}, from[] = {0, 1, 3, 4, 15, 16, 17};
    for (size_t i = 0; i < sizeof to; i++)
        missing |= ends[0][to[i]] == 0;
    for (size_t i = 0; i < sizeof from; i++)
        missing |= ends[1][from[i]] == 0;
    for (int way = 0; way < 2; way++) {
        printf("%s:", ways[way]);
        for (int n = 0; n < 18; n++)
            if (ends[way][n])
                printf(" %lu of %d", ends[way][n], n);
        putchar('\n');
    }
    return missing;
}
