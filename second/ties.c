// The ties between cards: every tie column is read once into a row of a list, every key has one number, and what is defined
// how often is counted by that number; the rows are then judged card by card, with the numbers that are misplaced.
#include "ties.h"

#include <string.h>

// Key classes.
enum { DATUM = 1, STREAMER, NODE, SERIAL, SENSOR, LINE, WAYPOINT, POINT, GRID, OBSERVATION, CLASSES };

// What a column does: it defines or refers to a key, says the vessel that the code has to agree with, or states how many
// points there are.
enum role { NOTHING, DEFINES, REFERS, SAYS_VESSEL, STATES };

// A number that is limited names a key only from the least to the greatest; any number does where both are 0.
struct tie_column {
    uint8_t first, last, role, class;
    uint16_t least, most;
};

// The tie columns by the place in `layouts`, from left to right.
enum { MOST_TIES = 5 };
static const struct tie_column columns[LAYOUTS][MOST_TIES + 1] = {
    [8] = {{30, 30, DEFINES, LINE}, {30, 30, SAYS_VESSEL, LINE}, {79, 80, STATES, WAYPOINT}},
    [9] = {{7, 7, REFERS, LINE}, {7, 7, SAYS_VESSEL, LINE}, {9, 11, DEFINES, WAYPOINT}, {39, 41, DEFINES, WAYPOINT}},
    [12] = {{7, 14, DEFINES, GRID}, {16, 19, STATES, POINT}},
    [13] = {{7, 10, REFERS, GRID}, {7, 10, DEFINES, POINT}},
    [14] = {{5, 5, DEFINES, DATUM}},
    [15] = {{7, 7, REFERS, DATUM}, {9, 9, REFERS, DATUM}},
    [16] = {{7, 7, DEFINES, SENSOR}},
    [17] = {{7, 7, REFERS, SENSOR}},
    [18] = {{7, 9, DEFINES, STREAMER}},
    [19] = {{7, 9, REFERS, STREAMER}},
    [23] = {{7, 9, REFERS, STREAMER}, {11, 14, DEFINES, NODE}, {16, 23, DEFINES, SERIAL}, {36, 39, DEFINES, NODE},
            {41, 48, DEFINES, SERIAL}},
    [24] = {{7, 14, REFERS, SERIAL}},
    [26] = {{9, 12, DEFINES, NODE}},
    [27] = {{7, 10, DEFINES, NODE}},
    [28] = {{7, 10, DEFINES, NODE}, {29, 31, REFERS, STREAMER, 200, 299}},
    [29] = {{7, 10, DEFINES, OBSERVATION}, {29, 32, REFERS, NODE}, {34, 37, REFERS, NODE, 1, 9999},
            {39, 42, REFERS, NODE, 1, 9999}},
    [30] = {{7, 10, REFERS, OBSERVATION}},
};

// Numbers of keys: each class has its own from a first one on, serials as they come; behind them what is counted for a
// stated number, the points of each vessel's line and of the grid.
enum {
    SERIALS = 16384, // more than twice the 8,174 that can stand in 4,096 cards; a power of two
    SERIAL_BITS = 14,
    SERIAL_SIZE = 8,
    WAYPOINTS = 1000,
    FIRST_DATUM = SERIALS,
    FIRST_STREAMER = FIRST_DATUM + 10,
    FIRST_NODE = FIRST_STREAMER + 1000,
    FIRST_SENSOR = FIRST_NODE + 10000,
    FIRST_LINE = FIRST_SENSOR + 10,
    FIRST_WAYPOINT = FIRST_LINE + 10,
    FIRST_POINT = FIRST_WAYPOINT + 10 * WAYPOINTS,
    FIRST_GRID = FIRST_POINT + 10000,
    FIRST_OBSERVATION = FIRST_GRID + 1,
    LINE_POINTS = FIRST_OBSERVATION + 10000,
    GRID_POINTS = LINE_POINTS + 10,
    NUMBERS = GRID_POINTS + 1
};

// The first number of a class, how many it has, and whether a reference's code has to have the definition's vessel.
static const struct {
    uint16_t first, count;
    uint8_t vessel;
} classes[CLASSES] = {
    [DATUM] = {FIRST_DATUM, 10, 0},
    [STREAMER] = {FIRST_STREAMER, 1000, 1},
    [NODE] = {FIRST_NODE, 10000, 0},
    [SERIAL] = {0, SERIALS, 1},
    [SENSOR] = {FIRST_SENSOR, 10, 1},
    [LINE] = {FIRST_LINE, 10, 0},
    [WAYPOINT] = {FIRST_WAYPOINT, 10 * WAYPOINTS, 0},
    [POINT] = {FIRST_POINT, 10000, 0},
    [GRID] = {FIRST_GRID, 1, 0},
    [OBSERVATION] = {FIRST_OBSERVATION, 10000, 0},
};

// A tie column of a card: its key's number, and the code's vessel digit, or what is stated.
struct tie {
    uint16_t card, key, said;
    uint8_t column, role, class;
};

struct ties {
    size_t count;
    uint64_t serials[SERIALS];          // 0 where there is none
    uint16_t defined[NUMBERS];          // how often
    uint8_t vessel[NUMBERS];            // the code's digit of the last definition, where there is one
    struct tie list[MOST_CARDS * MOST_TIES];
};

static unsigned digit_at(const uint8_t *card, unsigned column)
{
    return (unsigned)(card[column - 1] - '0');
}

// A whole number of an accepted card, which is not below zero: its digits, whatever stands before them.
static unsigned whole_at(const uint8_t *card, const struct tie_column *c)
{
    unsigned n = 0;
    for (unsigned i = c->first; i <= c->last; i++)
        if (digit_at(card, i) < 10)
            n = n * 10 + digit_at(card, i);
    return n;
}

// The number of a serial's eight columns, the first free one where it is new.
static unsigned serial_number(const uint64_t *serials, const uint8_t *text, uint64_t *packed)
{
    memcpy(packed, text, SERIAL_SIZE);
    unsigned i = (unsigned)((*packed * 0x9e3779b97f4a7c15u) >> (64 - SERIAL_BITS));
    while (serials[i] != 0 && serials[i] != *packed)
        i = (i + 1) % SERIALS;
    return i;
}

// Whether a field is blank: a number may stand anywhere in it.
static int is_blank(const uint8_t *card, const struct tie_column *c)
{
    for (unsigned i = c->first; i <= c->last; i++)
        if (card[i - 1] != ' ')
            return 0;
    return 1;
}

static unsigned key_at(struct ties *t, const uint8_t *card, const struct tie_column *c)
{
    uint64_t packed;
    unsigned i;
    switch (c->class) {
    case SERIAL:
        i = serial_number(t->serials, card + c->first - 1, &packed);
        t->serials[i] = packed;
        return i;
    case GRID: return FIRST_GRID;
    case WAYPOINT: return FIRST_WAYPOINT + digit_at(card, 7) * WAYPOINTS + whole_at(card, c);
    default: return classes[c->class].first + whole_at(card, c);
    }
}

// Counts a definition, and a point of a line or of the grid for those that state how many there are.
static void define(struct ties *t, const uint8_t *card, const struct tie *d)
{
    t->defined[d->key]++;
    t->vessel[d->key] = card[3];
    if (d->class == WAYPOINT)
        t->defined[LINE_POINTS + digit_at(card, 7)]++;
    if (d->class == POINT)
        t->defined[GRID_POINTS]++;
}

static void gather_card(struct ties *t, const uint8_t *card, uint16_t number, int code)
{
    for (const struct tie_column *c = columns[code]; c->role != NOTHING; c++) {
        struct tie d = {number, 0, card[3], c->first, c->role, c->class};
        if (c->class != GRID && is_blank(card, c))
            continue;
        if (c->most != 0 && (whole_at(card, c) < c->least || whole_at(card, c) > c->most))
            continue;
        if (c->role == STATES) {
            d.key = (uint16_t)(c->class == WAYPOINT ? LINE_POINTS + digit_at(card, 30) : GRID_POINTS);
            d.said = (uint16_t)whole_at(card, c);
        } else {
            d.key = (uint16_t)key_at(t, card, c);
        }
        if (c->role == DEFINES)
            define(t, card, &d);
        t->list[t->count++] = d;
    }
}

// All ties of an accepted header.
static void gather(struct ties *t, const uint8_t *header, size_t cards)
{
    t->count = 0;
    memset(t->serials, 0, sizeof t->serials);
    memset(t->defined, 0, sizeof t->defined);
    for (size_t i = 0; i < cards; i++) {
        const uint8_t *card = header + i * CARD_SIZE;
        int code = code_of(card);
        if (code >= 0)
            gather_card(t, card, (uint16_t)(i + 1), code);
    }
}

// The kinds of fault of one tie, as the bits with their numbers.
static unsigned kinds_of(const struct ties *t, const struct tie *d)
{
    unsigned defined = t->defined[d->key];
    switch (d->role) {
    case DEFINES: return defined > 1 ? 1u << 2 : 0;
    case REFERS:
        if (defined != 1)
            return defined == 0 ? 1u << 1 : 1u << 3;
        return classes[d->class].vessel && t->vessel[d->key] != d->said ? 1u << 4 : 0;
    case SAYS_VESSEL: return d->key != FIRST_LINE + (unsigned)(d->said - '0') ? 1u << 4 : 0;
    default: return d->said != defined ? 1u << 5 : 0;
    }
}

// The vessel digit in the code of a card with ties. The layouts of H00@8, H00@9 and H51@0 have # for it, since it may be 0 there;
// the two of H52## and H54## are a type.
static uint32_t vessel_of(const uint8_t *card)
{
    const char *code = layouts[code_of(card)].code;
    return code[3] == '@' || (code[3] == '#' && code[4] != '#') ? digit_at(card, 4) : NO_VESSEL;
}

// The kinds of a card's columns, those of its broken ties from the row with number `from` on; the number behind its last row.
static size_t kinds_on(const struct ties *t, size_t from, uint16_t number, uint8_t kinds[CARD_SIZE + 1])
{
    for (; from < t->count && t->list[from].card == number; from++)
        kinds[t->list[from].column] |= (uint8_t)kinds_of(t, &t->list[from]);
    return from;
}

// The same with the numbers that are misplaced.
static void misplaced_on(const uint8_t *card, const struct layout *l, uint8_t kinds[CARD_SIZE + 1])
{
    for (unsigned k = 0; k < l->count; k++)
        if (is_misplaced(card, &l->fields[k]))
            kinds[l->fields[k].first] |= 1u << MISPLACED;
}

struct refusal check_ties(const uint8_t *header, size_t size, uint32_t *list, size_t room, size_t *faults)
{
    struct ties t;
    size_t n = 0, row = 0;
    *faults = 0;
    struct refusal r = check_header(header, size);
    if (r.number)
        return r;
    gather(&t, header, size / CARD_SIZE);
    for (uint16_t number = 1; number <= size / CARD_SIZE; number++) {
        const uint8_t *card = header + (number - 1u) * CARD_SIZE;
        uint8_t kinds[CARD_SIZE + 1] = {0};
        int code = code_of(card);
        if (code < 0)
            continue;
        row = kinds_on(&t, row, number, kinds);
        misplaced_on(card, &layouts[code], kinds);
        for (uint32_t column = 1; column <= CARD_SIZE; column++)
            for (uint32_t kind = 1; kinds[column] >> kind; kind++) {
                if (!(kinds[column] >> kind & 1))
                    continue;
                if (room / ENTRY_SIZE > n) {
                    list[ENTRY_SIZE * n] = number;
                    list[ENTRY_SIZE * n + 1] = column;
                    list[ENTRY_SIZE * n + 2] = kind;
                    list[ENTRY_SIZE * n + 3] = vessel_of(card);
                }
                n++;
            }
    }
    *faults = n;
    return r;
}

// The number of an offered text, or NUMBERS where no card can have it.
static unsigned offered_text(const struct ties *t, const struct key *key)
{
    uint8_t text[SERIAL_SIZE];
    uint64_t packed;
    size_t length = key->length;
    while (length > 0 && key->text[length - 1] == ' ')
        length--;
    if (length == 0 || length > SERIAL_SIZE)
        return NUMBERS;
    memset(text, ' ', SERIAL_SIZE);
    memcpy(text, key->text, length);
    unsigned i = serial_number(t->serials, text, &packed);
    return t->serials[i] == packed && packed != 0 ? i : NUMBERS;
}

// The number of an offered key, or NUMBERS where no card can have it.
static unsigned offered(const struct ties *t, unsigned class, const struct key *key)
{
    if (class == SERIAL)
        return key->kind == KEY_TEXT ? offered_text(t, key) : NUMBERS;
    if (class == WAYPOINT) {
        if (key->kind != KEY_PAIR || key->first < 0 || key->first > 9 || key->second < 0 || key->second >= WAYPOINTS)
            return NUMBERS;
        return FIRST_WAYPOINT + (unsigned)key->first * WAYPOINTS + (unsigned)key->second;
    }
    if (key->kind != KEY_WHOLE || key->first < 0 || key->first >= classes[class].count)
        return NUMBERS;
    return classes[class].first + (unsigned)key->first;
}

struct refusal find_key(const uint8_t *header, size_t size, uint64_t class, const struct key *key, struct defined *defined)
{
    struct ties t;
    *defined = (struct defined){0, 0, 0};
    struct refusal r = check_header(header, size);
    if (r.number)
        return r;
    if (class == 0 || class >= CLASSES)
        return (struct refusal){13, 0, 0};
    gather(&t, header, size / CARD_SIZE);
    unsigned k = offered(&t, (unsigned)class, key);
    if (k == NUMBERS)
        return r;
    defined->number = t.defined[k];
    for (size_t i = 0; i < t.count && defined->number == 1; i++)
        if (t.list[i].role == DEFINES && t.list[i].key == k) {
            defined->card = t.list[i].card;
            defined->column = t.list[i].column;
        }
    return r;
}
