// Routes between datums by trying every chain that comes to no datum twice: of those that end at datum 1 the shortest is kept,
// and of several that are as short the one whose datums are lowest, compared from the first step on.
#include "datums.h"

#include <string.h>

// A header's datums, counted from 0: how often each is defined, and the lowest card that joins two of them.
struct survey {
    unsigned defined[DATUMS];
    uint32_t joined[DATUMS][DATUMS];
};

// A chain: its datums, from the one that is asked about to the one it has come to.
struct chain {
    unsigned shifts, datums[DATUMS];
};

static void see_definition(struct survey *s, const uint8_t *card)
{
    if (memcmp(card, "H011", 4) == 0 && card[4] >= '1' && card[4] <= '9')
        s->defined[card[4] - '1']++;
}

static void see_shift(struct survey *s, const uint8_t *card, uint32_t number)
{
    struct value a, b;
    if (memcmp(card, "H0120", CODE_SIZE) != 0)
        return;
    if (read_field(card, CARD_SIZE, 1, 0, &a).number || read_field(card, CARD_SIZE, 2, 0, &b).number)
        return;
    uint32_t *there = &s->joined[a.units - 1][b.units - 1], *back = &s->joined[b.units - 1][a.units - 1];
    if (!*there)
        *there = *back = number;
}

static int comes_to(const struct chain *c, unsigned datum)
{
    for (unsigned i = 0; i <= c->shifts; i++)
        if (c->datums[i] == datum)
            return 1;
    return 0;
}

static int better(const struct chain *c, const struct chain *best)
{
    if (c->shifts != best->shifts)
        return c->shifts < best->shifts;
    for (unsigned i = 0; i <= c->shifts; i++)
        if (c->datums[i] != best->datums[i])
            return c->datums[i] < best->datums[i];
    return 0;
}

// Goes on with a chain in every way there is.
static void try_all(const struct survey *s, struct chain *c, struct chain *best)
{
    unsigned at = c->datums[c->shifts];
    if (at == 0) {
        if (better(c, best))
            *best = *c;
        return;
    }
    for (unsigned next = 0; next < DATUMS; next++)
        if (s->defined[next] && s->joined[at][next] && !comes_to(c, next)) {
            c->datums[++c->shifts] = next;
            try_all(s, c, best);
            c->shifts--;
        }
}

static void tell(const struct survey *s, unsigned datum, struct routes *routes)
{
    struct chain c = {0, {datum}}, best = {NO_ROUTE, {0}};
    memset(routes->cards[datum], 0, sizeof routes->cards[datum]);
    routes->shifts[datum] = NOT_DEFINED;
    if (!s->defined[datum])
        return;
    try_all(s, &c, &best);
    routes->shifts[datum] = best.shifts;
    for (unsigned i = 0; best.shifts != NO_ROUTE && i < best.shifts; i++)
        routes->cards[datum][i] = s->joined[best.datums[i]][best.datums[i + 1]];
}

struct refusal find_routes(const uint8_t *header, size_t size, struct routes *routes)
{
    struct refusal r = check_header(header, size);
    struct survey s;
    if (r.number)
        return r;
    memset(&s, 0, sizeof s);
    for (size_t i = 0; i < size / CARD_SIZE; i++) {
        see_definition(&s, header + i * CARD_SIZE);
        see_shift(&s, header + i * CARD_SIZE, (uint32_t)i + 1);
    }
    for (unsigned d = 0; d < DATUMS; d++)
        if (s.defined[d] > 1)
            return (struct refusal){22, 0, 0};
    for (unsigned d = 0; d < DATUMS; d++)
        tell(&s, d, routes);
    return r;
}
