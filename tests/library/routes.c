// Routes between datums: the library against the second implementation, which tries every chain, on random headers.
#include "../../second/datums.h"
#include "../second/chance.h"
#include "compare.h"

#include <stdio.h>
#include <string.h>

enum { OPENING = 9, MOST = 60, ROW = 9, NUMBERS = ROW * DATUMS, BEHIND = 12 };

static uint8_t header[MOST][CARD_SIZE];
static unsigned cards;

// How often each number of shifts was told, 9 and 10 too, refusals, and lists that were too short; how often a datum that is not
// defined lies between two others, and two cards join the same datums, told either way round.
static unsigned long told[NOT_DEFINED + 1], refusals[23], cut, gaps, doubled[2];

static uint8_t *new_card(const char *code)
{
    uint8_t *card = header[cards++];
    open_card((const uint8_t *)code, CODE_SIZE, card, CARD_SIZE);
    return card;
}

static void put_whole(uint8_t *card, unsigned field, int64_t number)
{
    struct value v = {.kind = VALUE_WHOLE, .units = number};
    put_value(card, CARD_SIZE, field, 0, &v);
}

static void make_opening(void)
{
    char code[] = "H0000";
    for (cards = 0; cards < 8; code[4]++)
        new_card(code);
    uint8_t *line = new_card("H0018");
    put_whole(line, 1, 1);
    put_whole(line, 2, 1);
}

static void add_datum(unsigned datum)
{
    char code[] = "H0110";
    code[4] = (char)('0' + datum);
    new_card(code);
}

static void add_shift(unsigned from, unsigned to)
{
    uint8_t *card = new_card("H0120");
    put_whole(card, 1, from);
    put_whole(card, 2, to);
}

static void mix(void)
{
    uint8_t kept[CARD_SIZE];
    for (unsigned i = OPENING; i < cards; i++) {
        unsigned j = OPENING + below(cards - OPENING);
        memcpy(kept, header[i], CARD_SIZE);
        memcpy(header[i], header[j], CARD_SIZE);
        memcpy(header[j], kept, CARD_SIZE);
    }
}

// Shifts between any datums, few or many; or a line of datums, so that routes are long, with a gap or without.
static void add_shifts(unsigned turn)
{
    if (turn % 3 == 0) {
        uint8_t order[DATUMS] = {1, 2, 3, 4, 5, 6, 7, 8, 9};
        for (unsigned i = 1; i < DATUMS; i++) {
            unsigned j = 1 + below(DATUMS - 1);
            uint8_t kept = order[i];
            order[i] = order[j];
            order[j] = kept;
        }
        for (unsigned i = 0; i + 1 < DATUMS; i++)
            if (!percent(5))
                percent(50) ? add_shift(order[i], order[i + 1]) : add_shift(order[i + 1], order[i]);
    }
    for (unsigned n = turn % 3 == 0 ? below(3) : turn % 3 == 1 ? below(12) : below(40); n; n--)
        add_shift(1 + below(DATUMS), 1 + below(DATUMS));
}

static void make_header(unsigned turn)
{
    unsigned missing = turn % 4 == 0 ? 0 : turn % 4 == 1 ? 10 : 30;
    make_opening();
    for (unsigned d = 1; d <= DATUMS; d++)
        if (!percent(missing))
            add_datum(d);
    if (percent(4))
        add_datum(1 + below(DATUMS));
    add_shifts(turn);
    mix();
    if (percent(3))
        header[below(cards)][below(CARD_SIZE)] = (uint8_t)chance();
}

// What the case has in it.
static void count_case(void)
{
    for (unsigned i = OPENING; i < cards; i++)
        for (unsigned j = OPENING; j < i && !memcmp(header[i], "H0120", CODE_SIZE); j++)
            if (!memcmp(header[j], "H0120", CODE_SIZE) && header[i][6] != header[i][8]) {
                doubled[0] += header[i][6] == header[j][6] && header[i][8] == header[j][8];
                doubled[1] += header[i][6] == header[j][8] && header[i][8] == header[j][6];
            }
}

// Whether shifts join a datum to two others at least.
static int lies_between(unsigned datum)
{
    unsigned others = 0;
    for (unsigned i = OPENING; i < cards; i++)
        if (!memcmp(header[i], "H0120", CODE_SIZE)) {
            unsigned a = header[i][6] - '1', b = header[i][8] - '1';
            others |= a == datum && b != datum ? 1u << b : b == datum && a != datum ? 1u << a : 0;
        }
    return (others & (others - 1)) != 0;
}

static void count_told(const struct routes *r)
{
    for (unsigned d = 0; d < DATUMS; d++) {
        told[r->shifts[d]]++;
        gaps += r->shifts[d] == NOT_DEFINED && lies_between(d);
    }
}

static void hold_routes(unsigned turn)
{
    struct routes r;
    uint32_t should[NUMBERS + BEHIND], is[NUMBERS + BEHIND];
    size_t size = cards * CARD_SIZE, room = percent(80) ? NUMBERS + below(BEHIND) : below(NUMBERS);
    size -= percent(1);
    for (unsigned i = 0; i < NUMBERS + BEHIND; i++)
        should[i] = is[i] = UNTOUCHED;
    struct refusal no = find_routes(header[0], size, &r);
    int64_t routed = 0;
    for (unsigned d = 0; !no.number && d < DATUMS; d++) {
        routed += r.shifts[d] < NO_ROUTE;
        if ((d + 1) * ROW > room)
            continue;
        should[d * ROW] = r.shifts[d];
        memcpy(should + d * ROW + 1, r.cards[d], sizeof r.cards[d]);
    }
    struct input in = {"routes", header[0], size, header[0], 0, {room, turn}};
    struct lent l = lend(turn);
    int64_t said = p294_routes(header[0], size, is, room, l.numbers, l.room);
    hold(&in, no.number ? refused(no) : (struct expected){routed, {0, 0, 0}}, said, &l);
    hold_list(&in, should, is, NUMBERS + BEHIND);
    refusals[no.number]++;
    cut += !no.number && room < NUMBERS;
    if (!no.number)
        count_told(&r);
}

int compare_routes(uint64_t seed, unsigned long wanted)
{
    int missing = 0;
    state = seed;
    for (unsigned turn = 0; turn < wanted; turn++) {
        make_header(turn);
        count_case();
        hold_routes(turn);
    }
    printf("routes: shifts");
    for (unsigned n = 0; n <= NOT_DEFINED; n++) {
        printf(" %u: %lu", n, told[n]);
        missing |= !told[n];
    }
    printf("; refused 22: %lu, lists cut %lu, gaps %lu, doubled %lu and %lu\n", refusals[22], cut, gaps, doubled[0], doubled[1]);
    return missing | !refusals[22] | !refusals[2] | !refusals[4] | !cut | !gaps | !doubled[0] | !doubled[1];
}
