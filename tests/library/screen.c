// Headers with one to four bytes changed on one card, the library against the second implementation: a card that is judged at a
// glance would go wrong there, if at all.
#include "../../second/ties.h"
#include "../second/chance.h"
#include "compare.h"

#include <stdio.h>
#include <string.h>

// Codes with many numbers, which are judged at a glance, and those that never are.
static const char *const glanced[] = {"H0111", "H0120", "H2110", "H2111", "H2210", "H2310", "H1611", "H5110", "H5201", "H5401"};
static const char *const others[] = {"H1710", "H1711", "H2112", "H2300", "H2301", "C0001", "H0101", "H5000"};

enum { OPENING = 9, CARDS = 24, NUMBERS = 4 * 18 * CARDS, REFUSALS = 11 };

static uint8_t cards[CARDS][CARD_SIZE];

// How often a header was broken, a number misplaced, and a header refused by each number.
static unsigned broken, misplaced, refusals[REFUSALS + 1];

static void open_line(void)
{
    char code[] = "H0000";
    for (unsigned i = 0; i < OPENING - 1; i++, code[4]++)
        open_card((const uint8_t *)code, CODE_SIZE, cards[i], CARD_SIZE);
    open_card((const uint8_t *)"H0018", CODE_SIZE, cards[OPENING - 1], CARD_SIZE);
    cards[OPENING - 1][29] = cards[OPENING - 1][31] = '1';
}

// Digits up to the last column, with a sign and a point where the field may have them.
static void fill_number(uint8_t *card, const struct field *f)
{
    unsigned width = f->last - f->first + 1u, size = percent(40) ? 1 : 1 + below(width), from = f->last - size;
    for (unsigned c = from; c < f->last; c++)
        card[c] = (uint8_t)('0' + below(10));
    if (f->spelling == SPELL_DECIMAL && size > 2 && percent(60))
        card[from + 1 + below(size - 1)] = '.';
    if (size > 1 && percent(20) && (f->spelling == SPELL_DECIMAL || f->range == ANY) && card[from + 1] != '.')
        card[from] = one_of("+-");
}

// A value in the range: a number that is out of it is drawn again.
static void fill_field(uint8_t *card, uint64_t number, const struct field *f)
{
    struct value v;
    uint8_t text[] = "Buoy A17";
    unsigned width = f->last - f->first + 1u;
    if (!f->needed && percent(20))
        return;
    if (f->spelling == SPELL_TEXT || f->spelling == SPELL_COMMENT)
        memcpy(card + f->first - 1, text, width < 8 ? width : 1 + below(8));
    if (f->spelling != SPELL_WHOLE && f->spelling != SPELL_DECIMAL)
        return;
    do {
        memset(card + f->first - 1, ' ', width);
        fill_number(card, f);
    } while (read_field(card, CARD_SIZE, number, 1, &v).number);
}

static void fill_card(uint8_t *card, const char *code)
{
    const struct layout *l;
    open_card((const uint8_t *)code, CODE_SIZE, card, CARD_SIZE);
    l = &layouts[code_of(card)];
    unsigned last = l->second && percent(30) ? l->second - 1u : l->count;
    for (unsigned k = 0; k < last; k++)
        fill_field(card, k + 1, &l->fields[k]);
}

// Mostly bytes that are not blank, behind the code, and mostly into others that numbers have.
static void change_bytes(uint8_t *card)
{
    for (unsigned n = 1 + below(4); n; n--) {
        unsigned column = percent(98) ? CODE_SIZE + below(CARD_SIZE - CODE_SIZE) : below(CARD_SIZE);
        for (unsigned more = percent(70) ? CARD_SIZE : 0; more && card[column] == ' '; more--)
            column = column + 1 < CARD_SIZE ? column + 1 : CODE_SIZE;
        card[column] = percent(97) ? one_of(" +-.0123456789A  000") : (uint8_t)below(256);
    }
}

static void count_end(struct refusal r, const uint32_t *list, size_t faults)
{
    refusals[r.number]++;
    broken += r.number == 0 && faults > 0;
    for (size_t i = 0; i < faults; i++)
        misplaced += list[ENTRY_SIZE * i + 2] == MISPLACED;
}

static void hold_changed(unsigned turn)
{
    static uint32_t should[NUMBERS], is[NUMBERS];
    size_t faults = 0;
    for (unsigned i = OPENING; i < CARDS; i++)
        fill_card(cards[i], percent(85) ? glanced[below(10)] : others[below(8)]);
    if (percent(95))
        change_bytes(cards[OPENING + below(CARDS - OPENING)]);
    memset(should, 0, sizeof should);
    memset(is, 0, sizeof is);
    struct refusal r = check_ties(cards[0], sizeof cards, should, NUMBERS, &faults);
    struct input in = {"check", cards[0], sizeof cards, cards[0], 0, {turn}};
    struct lent l = lend(turn);
    int64_t said = p294_check(cards[0], sizeof cards, is, NUMBERS, l.numbers, l.room);
    hold(&in, r.number ? refused(r) : (struct expected){(int64_t)faults, {0, 0, 0}}, said, &l);
    hold_list(&in, should, is, NUMBERS);
    count_end(r, should, faults);
}

int compare_changed(uint64_t seed, unsigned long count)
{
    state = seed;
    open_line();
    for (unsigned turn = 0; turn < count; turn++)
        hold_changed(turn);
    printf("changed: broken %u, misplaced numbers %u; refused 4 %u, 7 %u, 9 %u, 10 %u, 11 %u\n", broken, misplaced, refusals[4],
           refusals[7], refusals[9], refusals[10], refusals[11]);
    return !broken || !misplaced || !refusals[4] || !refusals[7] || !refusals[9] || !refusals[10] || !refusals[11];
}
