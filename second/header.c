// A whole line header: the forms that its cards state, the opening block, each card in its turn.
#include "header.h"

// Places in `layouts`.
enum { VESSEL_LINE = 8, WAYPOINTS = 9, GRID = 12, VARIATION = 13, FIXED_NODE = 27 };

// Columns: of the vessel number on H00@8 and on H00@9, and of the form on H00@8, on H0100 and on H5000.
enum { LINE_VESSEL = 30, WAYPOINT_VESSEL = 7, LINE_FORM = 32, GRID_FORM = 21, NODE_FORM = 29 };

// What the cards say of a form: not known before the first of them nor after the second.
struct stated {
    uint8_t cards, form; // cards counts to 2 and stops
};

// The forms by the byte of a vessel number, and that of the grid.
struct forms {
    struct stated line[256], grid;
};

static uint8_t at(const uint8_t *card, unsigned column)
{
    return card[column - 1];
}

static uint8_t form_said(uint8_t b)
{
    return b == '0' ? 0 : b == '1' ? 1 : FORM_UNKNOWN;
}

static void note(struct stated *s, uint8_t b)
{
    s->form = s->cards == 0 ? form_said(b) : FORM_UNKNOWN;
    s->cards = s->cards == 0 ? 1 : 2;
}

// All forms that the cards state, whatever else is wrong with them and wherever they stand.
static void note_forms(const uint8_t *header, size_t cards, struct forms *f)
{
    for (size_t i = 0; i < 256; i++)
        f->line[i] = (struct stated){0, FORM_UNKNOWN};
    f->grid = (struct stated){0, FORM_UNKNOWN};
    for (size_t i = 0; i < cards; i++) {
        const uint8_t *card = header + i * CARD_SIZE;
        int code = code_of(card);
        if (code == VESSEL_LINE)
            note(&f->line[at(card, LINE_VESSEL)], at(card, LINE_FORM));
        else if (code == GRID)
            note(&f->grid, at(card, GRID_FORM));
    }
}

// The form that a card's own coordinates have; one that has none gets any.
static unsigned form_for(const struct forms *f, const uint8_t *card, int code)
{
    switch (code) {
    case VESSEL_LINE: return form_said(at(card, LINE_FORM));
    case WAYPOINTS: return f->line[at(card, WAYPOINT_VESSEL)].form;
    case VARIATION: return f->grid.form;
    case FIXED_NODE: return form_said(at(card, NODE_FORM));
    default: return FORM_UNKNOWN;
    }
}

// How far the opening block has come: how many of H0000 to H0007 have stood in their places, and of what follows them the number
// of the last code, whether an H00@8 was among it, and whether it is over.
struct opening {
    int first;
    unsigned last;
    int line, over;
};

// The number in columns 2 to 5 of an opening code.
static unsigned code_number(const uint8_t *card)
{
    unsigned n = 0;
    for (unsigned column = 2; column <= 5; column++)
        n = n * 10 + (at(card, column) - '0');
    return n;
}

// Takes one card more; answers whether it may stand here.
static int take_card(struct opening *o, const uint8_t *card, int code)
{
    int opens = 0 <= code && code <= WAYPOINTS;
    if (o->first < VESSEL_LINE)
        return code == o->first++;
    if (!o->over && opens && code >= VESSEL_LINE && code_number(card) >= o->last) {
        o->last = code_number(card);
        o->line |= code == VESSEL_LINE;
        return 1;
    }
    o->over = 1;
    return !opens && o->line;
}

struct refusal check_header(const uint8_t *header, size_t size)
{
    struct forms forms;
    size_t cards = size / CARD_SIZE;
    struct opening opening = {0, 0, 0, 0};
    if (size == 0)
        return (struct refusal){1, 0, 0};
    if (size % CARD_SIZE != 0)
        return (struct refusal){2, 0, 0};
    if (cards > MOST_CARDS)
        return (struct refusal){3, 0, 0};
    note_forms(header, cards, &forms);
    for (size_t i = 0; i < cards; i++) {
        const uint8_t *card = header + i * CARD_SIZE;
        int code = code_of(card);
        struct refusal r = judge_card(card, CARD_SIZE, form_for(&forms, card, code));
        int placed = take_card(&opening, card, code);
        if (r.number != 4 && r.number != 5 && !placed)
            r = (struct refusal){6, 0, 1};
        if (r.number)
            return (struct refusal){r.number, (uint32_t)i + 1, r.column};
    }
    if (!opening.line)
        return (struct refusal){6, (uint32_t)cards + 1, 1};
    return (struct refusal){0, 0, 0};
}
