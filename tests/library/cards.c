// Fields, texts, openings, puts and the refusals of headers: the library against the second implementation, on what
// tests/second/generate.c makes.
#define main generate_main
#include "../second/generate.c"
#undef main

#include "../../second/ties.h"
#include "compare.h"

static struct expected value_expected(const struct value *v)
{
    switch (v->kind) {
    case VALUE_WHOLE: return (struct expected){P294_WHOLE, {v->units, 0, v->misplaced}};
    case VALUE_DECIMAL: return (struct expected){P294_DECIMAL, {v->units, (int64_t)v->places, v->misplaced}};
    case VALUE_ANGLE: return (struct expected){P294_ANGLE, {v->units, 0, 0}};
    case VALUE_DATE: return (struct expected){P294_DATE, {v->year, v->month, v->day}};
    case VALUE_TEXT: return (struct expected){P294_TEXT, {(int64_t)v->first, (int64_t)v->last, 0}};
    default: return (struct expected){P294_ABSENT, {0, 0, 0}};
    }
}

static void hold_field(const struct input *in, struct test *t, struct lent l)
{
    struct value v = {0};
    struct refusal r = read_field(t->card.at, t->card.size, t->number, t->form, &v);
    int64_t said = p294_read_field(in->bytes, in->size, t->number, t->form, l.numbers, l.room);
    hold(in, r.number ? refused(r) : value_expected(&v), said, &l);
}

static void hold_text(const struct input *in, struct test *t, struct lent l)
{
    struct value v = {0};
    struct refusal r = read_field(t->card.at, t->card.size, t->number, t->form, &v);
    struct expected none = {0, {0, 0, 0}};
    int64_t said = p294_read_text(in->bytes, in->size, t->number, t->form, l.numbers, l.room);
    hold(in, r.number ? refused(r) : v.kind == VALUE_TEXT ? value_expected(&v) : none, said, &l);
}

// A value as the library takes it. What no value of the second implementation can be stands for one that it refuses alike:
// a kind beyond the last for a text, a part of a date beyond 32 bits or below zero for 0.
static int64_t put_by_library(uint8_t *card, struct test *t, unsigned turn, struct lent *l)
{
    struct value *v = &t->value;
    size_t kind = v->kind, b = v->kind == VALUE_DATE ? v->month : v->places, c = v->day;
    int64_t a = v->kind == VALUE_DATE ? v->year : v->units;
    if (v->kind == VALUE_TEXT)
        kind += turn % 3 * 251;
    if (v->kind == VALUE_DATE && turn % 4 == 0) {
        unsigned part = turn / 4 % 4;
        a = part == 0 ? a + 4294967296 : part == 1 ? -a : a;
        b += part == 2 ? 4294967296 : 0;
        c += part == 3 ? 4294967296 : 0;
        *(part < 2 ? &v->year : part == 2 ? &v->month : &v->day) = 0;
    }
    return p294_put(card, t->card.size, t->number, t->form, kind, a, b, c, l->numbers, l->room);
}

// What changes the card: on a copy by the library, in the case itself by the second implementation.
static void hold_change(const struct input *in, struct test *t, unsigned turn, struct lent l)
{
    uint8_t card[COLUMNS + 1];
    struct refusal r;
    int64_t said;
    memcpy(card, t->card.at, sizeof card);
    if (t->op == OP_OPEN) {
        said = p294_open(card, t->card.size, t->text.at, t->text.size, l.numbers, l.room);
        r = open_card(t->text.at, t->text.size, t->card.at, t->card.size);
    } else if (t->op == OP_PUT) {
        said = put_by_library(card, t, turn, &l);
        r = put_value(t->card.at, t->card.size, t->number, t->form, &t->value);
    } else {
        said = p294_put_text(card, t->card.size, t->number, t->form, t->text.at, t->text.size, l.numbers, l.room);
        r = put_text(t->card.at, t->card.size, t->number, t->form, t->text.at, t->text.size);
    }
    hold(in, refused(r), said, &l);
    hold_bytes(in, t->card.at, card, sizeof card);
}

int compare_cards(uint64_t seed, unsigned long wanted)
{
    static const enum operation share[10] = {OP_FIELD, OP_TEXT, OP_FIELD, OP_PUT,     OP_JUDGE,
                                             OP_FIELD, OP_OPEN, OP_PUT,   OP_PUTTEXT, OP_JUDGE};
    static unsigned turns[OPERATIONS];
    state = seed;
    for (unsigned turn = 0; turn < wanted; turn++) {
        struct test t, again;
        enum operation op = share[turn % 10];
        make(&t, op, turns[op]++);
        again = t;
        struct input in = {names[op], again.card.at, again.card.size, again.text.at, again.text.size,
                           {t.number, t.form, t.value.kind, (uint64_t)t.value.units, t.value.places, turn}};
        struct lent l = lend(turns[op]);
        if (op == OP_FIELD)
            hold_field(&in, &t, l);
        else if (op == OP_TEXT)
            hold_text(&in, &t, l);
        else if (op != OP_JUDGE)
            hold_change(&in, &t, turns[op], l);
        count(&again);
    }
    histogram();
    return missing;
}

int compare_headers(uint64_t seed, unsigned long wanted)
{
    static uint8_t bytes[(ROOM + MOST_CARDS) * CARD_SIZE];
    static uint32_t should[MOST_FAULTS * ENTRY_SIZE], is[MOST_FAULTS * ENTRY_SIZE];
    state = seed;
    for (unsigned turn = 0; turn < wanted; turn++) {
        static struct made h;
        make_header(&h);
        size_t size = h.count * (size_t)CARD_SIZE, faults = 0;
        memcpy(bytes, h.at, size);
        for (unsigned k = h.more; k; k--, size += CARD_SIZE)
            memcpy(bytes + size, h.at[h.count - 1], CARD_SIZE);
        memset(bytes + size, 'x', h.spare);
        struct input in = {"check", bytes, size + h.spare, bytes, 0, {turn}};
        struct lent l = lend(turn);
        struct refusal r = check_ties(bytes, in.size, should, MOST_FAULTS * ENTRY_SIZE, &faults);
        int64_t said = p294_check(bytes, in.size, is, MOST_FAULTS * ENTRY_SIZE, l.numbers, l.room);
        hold(&in, r.number ? refused(r) : (struct expected){(int64_t)faults, {0, 0, 0}}, said, &l);
        hold_list(&in, should, is, MOST_FAULTS * ENTRY_SIZE);
        count_header(&h);
    }
    header_histogram();
    return missing;
}
