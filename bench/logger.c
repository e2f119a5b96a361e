// A logger's start of a line, as the library and as the second implementation does it.
#include "logger.h"
#include "../include/p294.h"

#include <string.h>

// What goes into a card of each code, field by field; numbers follow the put's own, so that no two cards are the same.
struct plan {
    const char *code;
    size_t count;
    struct {
        size_t field, form;
        enum value_kind kind;
    } puts[8];
};

static const struct plan plans[] = {
    {"H2210", 6, {{1, 0, VALUE_WHOLE}, {2, 0, VALUE_WHOLE}, {3, 0, VALUE_TEXT}, {4, 0, VALUE_DECIMAL}, {6, 0, VALUE_WHOLE},
                  {8, 0, VALUE_DECIMAL}}},
    {"H2110", 6, {{1, 0, VALUE_WHOLE}, {2, 0, VALUE_DECIMAL}, {3, 0, VALUE_DECIMAL}, {4, 0, VALUE_DECIMAL}, {5, 0, VALUE_DECIMAL},
                  {9, 0, VALUE_DECIMAL}}},
    {"H0101", 5, {{1, 0, VALUE_WHOLE}, {2, 0, VALUE_ANGLE}, {3, 0, VALUE_ANGLE}, {4, 0, VALUE_DECIMAL}, {4, 0, VALUE_ABSENT}}},
    {"H0019", 4, {{1, 1, VALUE_WHOLE}, {2, 1, VALUE_WHOLE}, {3, 1, VALUE_DECIMAL}, {4, 1, VALUE_DECIMAL}}},
    {"H0100", 3, {{1, 0, VALUE_DATE}, {2, 0, VALUE_WHOLE}, {4, 0, VALUE_TEXT}}},
};
enum { PLANS = sizeof plans / sizeof plans[0] };

static struct value value_of(enum value_kind kind, size_t k)
{
    struct value v = {.kind = kind};
    switch (kind) {
    case VALUE_WHOLE: v.units = (int64_t)(1 + k % 9); break;
    case VALUE_DECIMAL:
        v.units = (int64_t)(k * 37 % 19999) - 9999;
        v.places = 1 + k % 2;
        break;
    case VALUE_ANGLE: v.units = (int64_t)(k * 64123 % 648000001) - 324000000; break;
    case VALUE_DATE:
        v.year = 1994 + (uint32_t)(k % 40);
        v.month = 1 + (uint32_t)(k % 12);
        v.day = 1 + (uint32_t)(k % 28);
        break;
    default: break;
    }
    return v;
}

struct entry entry_at(size_t k)
{
    static const char *const texts[] = {"A17", "B000214", "K9"};
    size_t card = k % LOGGED_CARDS, turn = k / LOGGED_CARDS;
    const struct plan *p = &plans[card % PLANS];
    size_t n = turn % p->count;
    struct entry e = {.card = card, .field = p->puts[n].field, .form = p->puts[n].form, .value = value_of(p->puts[n].kind, k)};
    e.text = p->puts[n].kind == VALUE_TEXT ? texts[k % 3] : NULL;
    return e;
}

void open_cards(uint8_t cards[LOGGED_CARDS][CARD_SIZE])
{
    for (size_t c = 0; c < LOGGED_CARDS; c++)
        open_card((const uint8_t *)plans[c % PLANS].code, CODE_SIZE, cards[c], CARD_SIZE);
}

unsigned log_by_library(uint8_t cards[LOGGED_CARDS][CARD_SIZE])
{
    unsigned refused = 0;
    int64_t numbers[P294_NUMBERS];
    for (size_t k = 0; k < LOGGED_PUTS; k++) {
        struct entry e = entry_at(k);
        const struct value *v = &e.value;
        int64_t a = v->kind == VALUE_DATE ? v->year : v->units;
        size_t b = v->kind == VALUE_DATE ? v->month : v->places;
        int64_t said =
            e.text ? p294_put_text(cards[e.card], CARD_SIZE, e.field, e.form, (const uint8_t *)e.text, strlen(e.text), numbers, P294_NUMBERS)
                   : p294_put(cards[e.card], CARD_SIZE, e.field, e.form, v->kind, a, b, v->day, numbers, P294_NUMBERS);
        refused += said != 0;
    }
    return refused;
}

unsigned log_by_second(uint8_t cards[LOGGED_CARDS][CARD_SIZE])
{
    unsigned refused = 0;
    for (size_t k = 0; k < LOGGED_PUTS; k++) {
        struct entry e = entry_at(k);
        struct refusal r = e.text ? put_text(cards[e.card], CARD_SIZE, e.field, e.form, (const uint8_t *)e.text, strlen(e.text))
                                  : put_value(cards[e.card], CARD_SIZE, e.field, e.form, &e.value);
        refused += r.number != 0;
    }
    return refused;
}
