// A check written for speed alone. It takes the tables of the second implementation, and turns to its code for the ties and for
// the cards that need it: those with a label, a date, a coordinate, an offence or a misplaced number. Every other card is looked
// at once, a column after the other, by a table of next states, and each code is found once, by its four digits.
#define check_header plainly_checked
#include "../second/header.c"
#define GRID KEY_OF_GRID
#define WAYPOINTS WAYPOINTS_OF_LINE
#define check_ties ties_plainly
#define find_key key_plainly
#include "../second/ties.c"
#undef check_header
#undef check_ties
#undef find_key
#undef GRID
#undef WAYPOINTS

#include "yardstick.h"

#include <stdio.h>

enum { NO_ROLE = 255, MOST_ROLES = 16, CODES = 10000 };

// States, as places in a row of next states.
enum state { EMPTY = 0, LACKS = 8, SIGN = 16, FULL = 24, POINT_ONLY = 32, PLACES = 40, ZEROS = 48, UNSURE = 56 };

// Roles of columns: none, and the first and the further ones of each kind of field.
enum column_role {
    GAP_ROLE, TEXT_ROLE, NEEDED_TEXT, LINE_ROLE, DECIMAL_ROLE, PLACES_ROLE, NEEDED_0, MORE_0,
    NEEDED_1, MORE_1, BIT_ROLE, DEGREES, LIMITED, FROM_0_ROLE, FROM_1_ROLE, QUALITY
};

static uint64_t rows[MOST_ROLES][256];        // the next states by role and byte
static uint8_t roles[LAYOUTS][CARD_SIZE];     // the role of each column
static uint8_t sure[LAYOUTS];                 // whether each column of a layout has one
static int8_t codes[CODES];                   // by the four digits of an H code
static int ready;

static int may_end(unsigned q)
{
    return q == EMPTY || q == FULL || q == PLACES;
}

static unsigned in_decimal(uint8_t b, unsigned q)
{
    if (b == ' ')
        return q == EMPTY ? EMPTY : UNSURE;
    if (b == '+' || b == '-')
        return q == EMPTY ? SIGN : UNSURE;
    if (b == '.')
        return q == EMPTY || q == SIGN ? POINT_ONLY : q == FULL ? PLACES : UNSURE;
    if ((unsigned)(b - '0') > 9)
        return UNSURE;
    return q == POINT_ONLY || q == PLACES ? PLACES : FULL;
}

static unsigned in_whole(uint8_t b, unsigned q, int from_1)
{
    if (b == ' ')
        return q == EMPTY || q == LACKS ? q : UNSURE;
    if ((unsigned)(b - '0') > 9)
        return UNSURE;
    return from_1 && b == '0' && q != FULL ? ZEROS : FULL;
}

static unsigned in_limited(uint8_t b, unsigned q)
{
    unsigned d = (unsigned)(b - '0');
    if (b == ' ')
        return q == EMPTY ? EMPTY : UNSURE;
    if (q == SIGN)
        return d <= 5 ? PLACES : d == 6 ? POINT_ONLY : UNSURE;
    if (q == POINT_ONLY)
        return d == 0 ? PLACES : UNSURE;
    if (q == FULL)
        return d <= 1 ? FULL : UNSURE;
    return d <= 9 ? PLACES : UNSURE;
}

static unsigned one_digit(uint8_t b, unsigned most)
{
    return b == ' ' ? EMPTY : (unsigned)(b - '0') <= most ? FULL : UNSURE;
}

static unsigned next(unsigned role, uint8_t b, unsigned q)
{
    unsigned d = (unsigned)(b - '0');
    if (q == UNSURE)
        return UNSURE;
    switch (role) {
    case LINE_ROLE: return q == FULL ? FULL : b == ' ' && q == EMPTY ? EMPTY : UNSURE;
    case PLACES_ROLE: return in_decimal(b, q);
    case MORE_0: return in_whole(b, q, 0);
    case MORE_1: return in_whole(b, q, 1);
    case LIMITED: return in_limited(b, q);
    default: break;
    }
    if (!may_end(q))
        return UNSURE;
    switch (role) {
    case GAP_ROLE: return b == ' ' ? EMPTY : UNSURE;
    case TEXT_ROLE: return b == ' ' ? EMPTY : FULL;
    case NEEDED_TEXT: return b == ' ' ? UNSURE : FULL;
    case DECIMAL_ROLE: return in_decimal(b, EMPTY);
    case NEEDED_0: return in_whole(b, LACKS, 0);
    case NEEDED_1: return in_whole(b, LACKS, 1);
    case FROM_0_ROLE: return in_whole(b, EMPTY, 0);
    case FROM_1_ROLE: return in_whole(b, EMPTY, 1);
    case BIT_ROLE: return one_digit(b, 1);
    case QUALITY: return one_digit(b, 4);
    default: return b == ' ' ? EMPTY : d <= 2 ? PLACES : d == 3 ? SIGN : UNSURE;
    }
}

// The role of a field's first column, NO_ROLE where it has none, and that of the others.
static unsigned first_role(const struct field *f, unsigned *later)
{
    *later = LINE_ROLE;
    if (f->spelling == SPELL_TEXT)
        return f->needed ? NEEDED_TEXT : TEXT_ROLE;
    *later = PLACES_ROLE;
    if (f->spelling == SPELL_DECIMAL)
        return DECIMAL_ROLE;
    if (f->spelling != SPELL_WHOLE)
        return NO_ROLE;
    *later = MORE_0;
    if (f->range == ANY || f->range == FROM_0)
        return f->needed ? NEEDED_0 : FROM_0_ROLE;
    *later = MORE_1;
    if (f->range == FROM_1 || f->range == ONE_TO_9)
        return f->needed ? NEEDED_1 : FROM_1_ROLE;
    *later = LIMITED;
    if (f->needed)
        return NO_ROLE;
    if (f->range == BIT || f->range == UP_TO_11)
        return BIT_ROLE;
    return f->range == UP_TO_4 ? QUALITY : f->range == UP_TO_360 ? DEGREES : NO_ROLE;
}

static void prepare_layout(unsigned k)
{
    const struct layout *l = &layouts[k];
    unsigned later;
    sure[k] = l->label_size == 0;
    for (unsigned i = 0; i < CODE_SIZE; i++)
        roles[k][i] = LINE_ROLE;
    for (const struct field *f = l->fields; f < l->fields + l->count; f++) {
        unsigned first = first_role(f, &later);
        sure[k] &= first != NO_ROLE;
        roles[k][f->first - 1] = (uint8_t)first;
        for (unsigned c = f->first; c < f->last; c++)
            roles[k][c] = (uint8_t)later;
    }
}

static void prepare(void)
{
    for (unsigned role = 0; role < MOST_ROLES; role++)
        for (unsigned b = 0; b < 256; b++)
            for (unsigned q = 0; q < 64; q += 8)
                rows[role][b] |= (uint64_t)next(role, (uint8_t)b, q) << q;
    for (unsigned k = 0; k < LAYOUTS; k++)
        prepare_layout(k);
    for (unsigned n = 0; n < CODES; n++) {
        char text[CODE_SIZE + 1];
        snprintf(text, sizeof text, "H%04u", n % CODES);
        codes[n] = (int8_t)code_of((const uint8_t *)text);
    }
    ready = 1;
}

static inline int swift_code(const uint8_t *card)
{
    unsigned a = digit_at(card, 2), b = digit_at(card, 3), c = digit_at(card, 4), d = digit_at(card, 5);
    if (card[0] == 'H' && a < 10 && b < 10 && c < 10 && d < 10)
        return codes[a * 1000 + b * 100 + c * 10 + d];
    return code_of(card);
}

// Whether a card has neither an offence nor a misplaced number; not all such cards are told.
static inline int is_sure(const uint8_t *card, int code)
{
    uint64_t q = FULL;
    unsigned bad = 0;
    if (code < 0 || !sure[code])
        return 0;
    const uint8_t *role = roles[code];
    for (unsigned i = 0; i < CARD_SIZE; i++)
        bad |= (unsigned)(card[i] - 32) > 94;
    for (unsigned i = 0; i < CARD_SIZE; i++)
        q = rows[role[i]][card[i]] >> (q & 63);
    return !bad && may_end(q & 63);
}

// What is known of a header on the way.
static struct ties t;
static int8_t code[MOST_CARDS];
static uint8_t fine[MOST_CARDS];

// The vessel digit in a card's code, by its layout.
static inline uint32_t digit_of(const uint8_t *card, const char *code)
{
    return code[3] == '@' || (code[3] == '#' && code[4] != '#') ? (uint32_t)(card[3] - '0') : NO_VESSEL;
}

// A card with a fault: its entries in the list.
static size_t list_card(size_t i, size_t from, size_t to, const uint8_t *card, uint32_t *list, size_t room, size_t n)
{
    uint8_t kinds[CARD_SIZE + 8] = {0};
    uint32_t number = (uint32_t)i + 1, vessel = digit_of(card, layouts[code[i]].code);
    for (; from < to; from++)
        kinds[t.list[from].column] |= (uint8_t)kinds_of(&t, &t.list[from]);
    if (!fine[i])
        misplaced_on(card, &layouts[code[i]], kinds);
    for (uint32_t column = 1; column <= CARD_SIZE; column++)
        for (uint32_t left = kinds[column]; left; left &= left - 1) {
            if (n < room) {
                uint32_t entry[] = {number, column, (uint32_t)__builtin_ctz(left), vessel};
                memcpy(list + ENTRY_SIZE * n, entry, sizeof entry);
            }
            n++;
        }
    return n;
}

// The codes of all cards, and the forms that some of them state.
static void find_codes(const uint8_t *header, size_t cards, struct forms *f)
{
    for (size_t i = 0; i < 256; i++)
        f->line[i] = (struct stated){0, FORM_UNKNOWN};
    f->grid = (struct stated){0, FORM_UNKNOWN};
    for (size_t i = 0; i < cards; i++) {
        const uint8_t *card = header + i * CARD_SIZE;
        code[i] = (int8_t)swift_code(card);
        if (code[i] == VESSEL_LINE)
            note(&f->line[at(card, LINE_VESSEL)], at(card, LINE_FORM));
        else if (code[i] == GRID)
            note(&f->grid, at(card, GRID_FORM));
    }
}

// Judges the cards and gathers their ties, up to the first offence.
static struct refusal judge_cards(const uint8_t *header, size_t cards, const struct forms *f)
{
    struct opening opening = {0, 0, 0, 0};
    for (size_t i = 0; i < cards; i++) {
        const uint8_t *card = header + i * CARD_SIZE;
        struct refusal r = {0, 0, 0};
        fine[i] = (uint8_t)is_sure(card, code[i]);
        if (!fine[i])
            r = judge_card(card, CARD_SIZE, form_for(f, card, code[i]));
        int placed = take_card(&opening, card, code[i]);
        if (r.number != 4 && r.number != 5 && !placed)
            r = (struct refusal){6, 0, 1};
        if (r.number)
            return (struct refusal){r.number, (uint32_t)i + 1, r.column};
        if (code[i] >= 0)
            gather_card(&t, card, (uint16_t)(i + 1), code[i]);
    }
    return opening.line ? (struct refusal){0, 0, 0} : (struct refusal){6, (uint32_t)cards + 1, 1};
}

static size_t list_all(const uint8_t *header, size_t cards, uint32_t *list, size_t room)
{
    size_t n = 0, row = 0;
    for (size_t i = 0; i < cards; i++) {
        size_t from = row;
        unsigned any = !fine[i];
        for (; row < t.count && t.list[row].card == i + 1; row++)
            any |= kinds_of(&t, &t.list[row]);
        if (any && code[i] >= 0)
            n = list_card(i, from, row, header + i * CARD_SIZE, list, room, n);
    }
    return n;
}

struct refusal check_swiftly(const uint8_t *header, size_t size, uint32_t *list, size_t room, size_t *faults)
{
    struct forms forms;
    size_t cards = size / CARD_SIZE;
    *faults = 0;
    if (!ready)
        prepare();
    if (size == 0 || size % CARD_SIZE != 0 || cards > MOST_CARDS)
        return (struct refusal){size == 0 ? 1 : size % CARD_SIZE != 0 ? 2 : 3, 0, 0};
    t.count = 0;
    memset(t.serials, 0, sizeof t.serials);
    memset(t.defined, 0, sizeof t.defined);
    find_codes(header, cards, &forms);
    struct refusal r = judge_cards(header, cards, &forms);
    if (r.number == 0)
        *faults = list_all(header, cards, list, room / ENTRY_SIZE);
    return r;
}
