// Makes a script of random and damaged cases for answer.c, test_card and test_header.
//
// generate codes                         prints a script that reads the first field of every H code
// generate SEED COUNT                    prints a script of COUNT cases on cards
// generate SEED COUNT histogram          prints how often each operation came to each end instead, and fails if a
//                                        refusal of an operation, a field of a code or a passed code was never reached
// generate headers SEED COUNT            prints a script that makes COUNT headers
// generate headers SEED COUNT histogram  prints how often each refusal came instead, and fails if one never did
#include "../../second/header.h"
#include "chance.h"

#include <stdio.h>
#include <stdlib.h>
#include <string.h>

enum { COLUMNS = 100, PASSED = 56, FIELDS = 174, NUMBERS = 15 };

static const char passed[PASSED][CODE_SIZE + 1] = {
    "H0130", "H0140", "H0150", "H0160", "H0170", "H0180", "H0181", "H0190", "H0199", "H0200", "H0210", "H0220", "H0230",
    "H0240", "H10@0", "H11@0", "H12@0", "H12@1", "H13@0", "H14@#", "H1500", "H1501", "H16@0", "H16@2", "H23@1",
    "H24@0", "H24@1", "H25@0", "H31@0", "H31@1", "H32@0", "H32@1", "H32@2", "H33@0", "H34@0", "H34@1", "H41@0", "H5306",
    "H5307", "H5500", "H56@0", "H600#", "H610#", "H620#", "H6300", "H6301", "H631#",
    "H632#", "H6330", "H65##", "H66##", "H67@0", "H7000", "H7010", "H7020", "H7021"};

static const char unknown[][CODE_SIZE + 1] = {"H0110", "H1700", "H1701", "H2100", "H2200", "H0211", "H1601", "H5600",
                                              "H6700", "C0003", "C0000", "E1000", "T14@0", "H0010", "H0131", "H1400",
                                              "H2302", "H9999", "h0000", "     ", "H00@8", "H0 18", "H8000", "H630:"};

enum operation { OP_FIELD, OP_TEXT, OP_OPEN, OP_PUT, OP_PUTTEXT, OP_JUDGE, OPERATIONS };
static const char *const names[OPERATIONS] = {"field", "text", "open", "put", "write", "judge"};

struct bytes {
    uint8_t at[COLUMNS + 1];
    size_t size;
};

// One case; which fields count depends on the operation. layout and passed are the code's place, -1 where it has none.
struct test {
    enum operation op;
    int layout, passed;
    uint64_t number, form;
    struct value value;
    struct bytes text, card;
};

// A printable byte that the script can say: not one of the four that stand for others.
static uint8_t any_printable(void)
{
    uint8_t b;
    do
        b = (uint8_t)(32 + below(95));
    while (strchr("[]{}", b));
    return b;
}

static uint8_t any_unprintable(void)
{
    static const uint8_t bad[] = {0, 31, 127, 255, 9, 13, 128, 160, 254};
    return bad[below(sizeof bad)];
}

// Codes.

// Digits for a pattern's @ and #.
static void concrete(const char *pattern, uint8_t *code)
{
    for (size_t i = 0; i < CODE_SIZE; i++)
        code[i] = (uint8_t)(pattern[i] == '@' ? '1' + (int)below(9) : pattern[i] == '#' ? '0' + (int)below(10) : pattern[i]);
}

// A code that is unknown, or one digit beside a known one.
static void any_unknown(uint8_t *code)
{
    memcpy(code, unknown[below(sizeof unknown / sizeof *unknown)], CODE_SIZE);
    if (percent(50)) {
        unsigned n = below(LAYOUTS + PASSED), at = 1 + below(CODE_SIZE - 1);
        concrete(n < LAYOUTS ? layouts[n].code : passed[n - LAYOUTS], code);
        code[at] = percent(90) ? one_of("00123456789") : one_of("@#/: ");
    } else if (percent(30)) {
        for (size_t i = 0; i < CODE_SIZE; i++)
            code[i] = i == 0 ? one_of("HHHCETh ") : one_of("01234567890123456789@# ");
    }
}

static int is_text(const struct field *f)
{
    return f->spelling == SPELL_TEXT || f->spelling == SPELL_COMMENT;
}

// The layout and number of the n-th field of all, or of all texts, and round again.
static void nth_field(unsigned n, int texts, int *layout, uint64_t *number)
{
    for (;;)
        for (int l = 0; l < LAYOUTS; l++)
            for (unsigned k = 0; k < layouts[l].count; k++)
                if ((!texts || is_text(&layouts[l].fields[k])) && n-- == 0) {
                    *layout = l;
                    *number = k + 1;
                    return;
                }
}

// Values.

// Digits that each range allows, and its largest value of more than one.
static const char *const digits[] = {"0123456789", "01", "0123456789", "0123456789", "123456789", "123456789", "01234",
                                     "012345", "0123456789", "0123456789", "0123456789", "349", "019"};
static const int largest[] = {99999, 1, 9, 9999, 9999, 9, 4, 5, 11, 99, 360, 9, 9};

// A value at an end of a range, or one beside it.
static int64_t range_edge(unsigned range)
{
    static const int8_t beside[] = {-1, 0, 0, 1};
    int64_t lowest = digits[range][0] - '0';
    int64_t end = percent(40) ? lowest : percent(60) ? largest[range] : one_of(digits[range]) - '0';
    return end + beside[below(4)];
}

static int64_t any_units(unsigned range)
{
    if (percent(60))
        return range_edge(range);
    static const int64_t edges[] = {0,   1,   -1,  2,    3,    4,         5,          8,         9,        10,       99,
                                    100, 359, 360, 361,  999,  1000,      9999,       -9,        -99,      -999,     10000,
                                    -10, 89,  -100000, 99999, 999999, 1000000, 99999999, 100000000, -9999999, 9999999999,
                                    INT64_MAX, INT64_MIN, INT64_MIN + 1, 99999999999, -9999999999, -99999999999};
    if (percent(50))
        return edges[below(sizeof edges / sizeof *edges)];
    unsigned bits = 1 + below(63);
    int64_t n = (int64_t)(chance() >> bits);
    return percent(30) ? -n : n;
}

static int64_t any_angle(void)
{
    static const int64_t edges[] = {0, 1, 59999, 60000, 3599999, 3600000, 323999999, 324000000, 324000001, 324000000,
                                    324000001, 648000000, 648000001, 648000000, 648000001, INT64_MAX, INT64_MIN};
    int64_t n = percent(60) ? edges[below(sizeof edges / sizeof *edges)] : (int64_t)(chance() % 330000000);
    return n != INT64_MIN && percent(50) ? -n : n;
}

static uint64_t any_places(void)
{
    if (percent(5))
        return percent(50) ? UINT64_MAX - below(3) : chance();
    return below(percent(80) ? 5 : 14);
}

static const uint32_t years[] = {1, 4, 100, 400, 1900, 1994, 1996, 2000, 2023, 2024, 2100, 9999, 0, 10000, UINT32_MAX};
enum { YEARS = sizeof years / sizeof *years, GOOD_YEARS = YEARS - 3 };

static void good_date(struct value *v)
{
    static const uint8_t last[] = {31, 28, 31, 30, 31, 30, 31, 31, 30, 31, 30, 31};
    v->year = percent(50) ? years[below(GOOD_YEARS)] : 1 + below(9999);
    v->month = 1 + below(12);
    v->day = percent(50) ? last[v->month - 1] : 1 + below(28);
}

// A date at the end of what is allowed, or beyond.
static void any_date(struct value *v)
{
    static const uint32_t months[] = {0, 13, 14, 257, UINT32_MAX}, days[] = {0, 1, 32, 257, UINT32_MAX};
    good_date(v);
    v->year = years[below(percent(80) ? GOOD_YEARS : YEARS)];
    if (percent(20))
        v->month = months[below(5)];
    else if (percent(30))
        v->month = 2;
    v->day = percent(80) ? v->day + below(2) : days[below(5)];
}

static struct value any_value(enum value_kind kind, unsigned range, int good)
{
    struct value v;
    memset(&v, 0, sizeof v);
    v.kind = kind;
    v.units = kind == VALUE_ANGLE ? any_angle() : good ? one_of(digits[range]) - '0' : any_units(range);
    v.places = good ? below(2) : any_places();
    if (good && kind == VALUE_ANGLE)
        v.units %= 324000000;
    if (good)
        good_date(&v);
    else
        any_date(&v);
    v.first = percent(70) ? 1 + below(80) : chance();
    v.last = percent(70) ? 1 + below(80) : chance();
    return v;
}

// A value of the kind that a field takes, mostly.
static struct value offer(const struct field *f, uint64_t form)
{
    enum value_kind kind = (enum value_kind)below(6);
    if (percent(85))
        switch (f->spelling) {
        case SPELL_WHOLE: kind = VALUE_WHOLE; break;
        case SPELL_DECIMAL: kind = VALUE_DECIMAL; break;
        case SPELL_DATE: kind = VALUE_DATE; break;
        case SPELL_Y:
        case SPELL_X: kind = form == 0 ? VALUE_ANGLE : VALUE_DECIMAL; break;
        default: kind = percent(70) ? VALUE_ABSENT : VALUE_TEXT;
        }
    int good = percent(40);
    return any_value(percent(10) ? VALUE_ABSENT : kind, f->range, good);
}

// Columns.

// Text at the right end of columns, blanks before it; only its end where it is too long.
static void right(uint8_t *s, size_t n, const char *text)
{
    size_t length = strlen(text);
    memset(s, ' ', n);
    if (length > n) {
        text += length - n;
        length = n;
    }
    memcpy(s + n - length, text, length);
}

// Moves what stands in columns to the left, by some of the blanks before it.
static void push_left(uint8_t *s, size_t n)
{
    size_t blanks = 0;
    while (blanks < n && s[blanks] == ' ')
        blanks++;
    if (blanks == 0 || blanks == n)
        return;
    size_t by = percent(50) ? blanks : 1 + below((unsigned)blanks);
    memmove(s, s + by, n - by);
    memset(s + n - by, ' ', by);
}

static void good_whole(uint8_t *s, size_t n, unsigned range)
{
    char text[32];
    long number = one_of(digits[range]) - '0';
    if (largest[range] > 9 && percent(60))
        number = percent(40) ? largest[range] : 1 + (long)below((unsigned)largest[range]);
    if (range == ANY && percent(30))
        number = -number;
    snprintf(text, sizeof text, percent(20) ? "%+ld" : percent(20) ? "%03ld" : "%ld", number);
    if (strlen(text) > n)
        snprintf(text, sizeof text, "%c", one_of(digits[range]));
    right(s, n, text);
}

static void good_decimal(uint8_t *s, size_t n)
{
    char text[32];
    size_t room = n - below((unsigned)n), i = 0;
    if (room > 1 && percent(40))
        text[i++] = (char)one_of("+-");
    size_t start = i, point = percent(60) && room - i > 1 ? start + below((unsigned)(room - start)) : room;
    for (; i < room; i++)
        text[i] = i == point ? '.' : (char)one_of("0123456789");
    text[i] = 0;
    right(s, n, text);
}

static void good_angle(uint8_t *s, unsigned spelling)
{
    char text[32];
    unsigned degrees = below(spelling == SPELL_Y ? 90 : 180), minutes = below(60), seconds = below(60);
    if (percent(10))
        degrees = spelling == SPELL_Y ? 90 : 180, minutes = seconds = 0;
    unsigned thousandths = percent(30) || degrees == (spelling == SPELL_Y ? 90 : 180) ? 0 : below(1000);
    uint8_t letter = one_of(spelling == SPELL_Y ? "NS" : "EW");
    snprintf(text, sizeof text, percent(50) ? "%03u%02u%02u.%03u%c" : "%3u%2u%2u.%03u%c", degrees % 1000, minutes % 100,
             seconds % 100, thousandths % 1000, letter);
    memcpy(s, text, 12);
}

static void good_text(uint8_t *s, size_t n, int comment)
{
    size_t length = 1 + below((unsigned)n);
    memset(s, ' ', n);
    for (size_t i = 0; i < length; i++)
        s[i] = any_printable();
    if (s[0] == ' ' && !comment)
        s[0] = 'A';
}

static void good_columns(uint8_t *card, const struct field *f, uint64_t form)
{
    uint8_t *s = card + f->first - 1;
    size_t n = (size_t)f->last - f->first + 1;
    struct value v;
    char text[32];
    switch (f->spelling) {
    case SPELL_WHOLE: good_whole(s, n, f->range); break;
    case SPELL_DECIMAL: good_decimal(s, n); break;
    case SPELL_DATE:
        good_date(&v);
        snprintf(text, sizeof text, "%04u%02u%02u", v.year % 10000, v.month % 100, v.day % 100);
        memcpy(s, text, 8);
        break;
    case SPELL_Y:
    case SPELL_X:
        if (form == 0) {
            good_angle(s, f->spelling);
        } else {
            good_decimal(s, 11);
            s[11] = f->spelling == SPELL_Y ? 'N' : 'E';
        }
        break;
    default: good_text(s, n, f->spelling == SPELL_COMMENT);
    }
    if ((f->spelling == SPELL_WHOLE || f->spelling == SPELL_DECIMAL) && percent(66))
        push_left(s, n);
}

// An angle at the end of what is allowed, or beyond.
static void edge_angle(uint8_t *s, unsigned spelling)
{
    char text[32];
    unsigned most = spelling == SPELL_Y ? 90 : 180, degrees = percent(80) ? most - 1 + below(3) : percent(80) ? 0 : 999;
    unsigned minutes = percent(40) ? 59 + below(2) : 0, seconds = percent(40) ? 59 + below(2) : 0;
    unsigned thousandths = percent(50) ? 999 * below(2) : below(2);
    uint8_t letter = percent(10) ? one_of("NSEWnsew ") : one_of(spelling == SPELL_Y ? "NS" : "EW");
    snprintf(text, sizeof text, "%03u%02u%02u.%03u%c", degrees % 1000, minutes % 100, seconds % 100, thousandths % 1000, letter);
    memcpy(s, text, 12);
}

// Columns that are badly formed or outside their range, or only seem so.
static void bad_columns(uint8_t *card, const struct field *f, uint64_t form)
{
    uint8_t *s = card + f->first - 1;
    size_t n = (size_t)f->last - f->first + 1;
    struct value v;
    char text[64];
    good_columns(card, f, form);
    switch (f->spelling) {
    case SPELL_WHOLE:
        if (percent(f->range == ANY || f->range == DIGIT || f->range == FROM_0 ? 15 : 40)) {
            snprintf(text, sizeof text, "%lld", (long long)any_units(f->range));
            right(s, n, text);
            return;
        }
        if (percent(85))
            s[n - 1] = one_of("+-.ex/: ");
        break;
    case SPELL_DATE:
        any_date(&v);
        snprintf(text, sizeof text, percent(80) ? "%04u%02u%02u" : "%4u%2u%2u", v.year % 10000, v.month % 100, v.day % 100);
        memcpy(s, text, 8);
        if (percent(60))
            return;
        break;
    case SPELL_Y:
    case SPELL_X:
        if (form == 0 && percent(50)) {
            edge_angle(s, f->spelling);
            return;
        }
        if (percent(20)) {
            s[11] = one_of(" NSEWnse0");
            return;
        }
        if (form == 1 && percent(20)) {
            push_left(s, 11);
            return;
        }
        if (percent(15)) {
            memset(s, ' ', 11);
            return;
        }
        break;
    case SPELL_TEXT:
        if (n > 1 && percent(80)) {
            s[0] = ' ';
            s[n - 1] = any_printable();
            return;
        }
        break;
    default: break;
    }
    for (unsigned k = 1 + below(2), at; k; k--) {
        at = below((unsigned)n);
        s[at] = percent(70) ? one_of("+-.eENSWx/:") : percent(70) ? one_of("0123456789.  ") : any_printable();
    }
}

// Cards.

static void blank_field(uint8_t *card, const struct field *f)
{
    memset(card + f->first - 1, ' ', (size_t)f->last - f->first + 1);
}

// The form of a card's coordinates: its own, where it has a column for it, or the one that another card states.
static uint64_t own_form(const uint8_t *card, int layout, uint64_t form)
{
    return layout == 8 ? card[31] == '1' : layout == 27 && card[28] != ' ' ? card[28] == '1' : form;
}

// A card of a layout, filled by chance; nothing on it is wrong.
static void good_card(uint8_t *card, int layout, uint64_t form)
{
    const struct layout *l = &layouts[layout];
    uint8_t code[CODE_SIZE];
    unsigned filled = percent(40) ? 100 : percent(50) ? 50 : 10;
    int second = percent(60);
    concrete(l->code, code);
    open_card(code, CODE_SIZE, card, CARD_SIZE);
    for (unsigned k = 1; k <= l->count; k++) {
        int wanted = l->fields[k - 1].needed || percent(filled);
        if (wanted && (l->second == 0 || k < l->second || second))
            good_columns(card, &l->fields[k - 1], own_form(card, layout, form));
    }
}

static void shift(uint8_t *card)
{
    unsigned at = 5 + below(74);
    if (percent(50)) {
        memmove(card + at + 1, card + at, 79 - at);
        card[at] = percent(70) ? ' ' : any_printable();
    } else {
        memmove(card + at, card + at + 1, 79 - at);
        card[79] = ' ';
    }
}

// A byte in a column that no field covers, if chance finds one.
static void stray(uint8_t *card, const struct layout *l)
{
    unsigned at = CODE_SIZE + below(CARD_SIZE - CODE_SIZE);
    for (unsigned k = 0; l && k < l->count; k++)
        if (l->fields[k].first <= at + 1 && at < l->fields[k].last)
            at = l->fields[k].last;
    if (at < CARD_SIZE)
        card[at] = any_printable();
}

static void damage(uint8_t *card, int layout, uint64_t form)
{
    unsigned at = below(CARD_SIZE), in_label = CODE_SIZE + below(23), in_code = below(CODE_SIZE), length;
    const struct layout *l = layout < 0 ? NULL : &layouts[layout];
    switch (below(10)) {
    case 0: card[at] = any_printable(); break;
    case 1: card[at] = any_unprintable(); break;
    case 2: shift(card); break;
    case 3:
        length = 1 + below(20);
        memset(card + at, ' ', at + length > CARD_SIZE ? CARD_SIZE - at : length);
        break;
    case 4: card[in_label] = percent(50) ? ' ' : any_printable(); break;
    case 5: card[in_code] = percent(70) ? one_of("0123456789") : any_printable(); break;
    case 6:
    case 7:
        if (l)
            bad_columns(card, &l->fields[below(l->count)], form);
        break;
    case 8:
        if (l)
            blank_field(card, &l->fields[below(l->count)]);
        break;
    default: stray(card, l);
    }
}

static void any_size(struct bytes *card)
{
    static const size_t sizes[] = {0, 0, 0, 1, 4, 5, 40, 79, 79, 81, 81, 82, 99, 100};
    size_t size = sizes[below(sizeof sizes / sizeof *sizes)];
    for (size_t i = CARD_SIZE; i < size; i++)
        card->at[i] = any_printable();
    card->size = size;
}

static uint64_t any_form(void)
{
    return percent(94) ? below(2) : percent(50) ? 2 + below(9) : UINT64_MAX - below(2);
}

static uint64_t other_number(int layout)
{
    unsigned count = layout < 0 ? 0 : layouts[layout].count;
    return percent(50) ? 0 : percent(50) ? count + 1u : percent(50) ? chance() : (uint64_t)count + 1 + below(256);
}

static void any_text(struct bytes *text, size_t width)
{
    size_t most = width + 3 < COLUMNS ? width + 3 : COLUMNS;
    text->size = percent(25) ? width : percent(20) ? width + 1 : percent(10) ? 0 : below((unsigned)most);
    for (size_t i = 0; i < text->size; i++)
        text->at[i] = any_printable();
    if (text->size > 0 && percent(10))
        text->at[0] = ' ';
    if (text->size > 0 && text->at[text->size - 1] == ' ' && percent(80))
        text->at[text->size - 1] = '~';
    if (text->size > 0 && percent(8))
        text->at[text->size - 1] = ' ';
    unsigned at = text->size > 0 ? below((unsigned)text->size) : 0;
    if (text->size > 0 && percent(8))
        text->at[at] = any_unprintable();
}

// A passed or an unknown card: its code, and anything behind it.
static void other_card(struct test *t, const char *pattern)
{
    if (pattern)
        concrete(pattern, t->card.at);
    else
        any_unknown(t->card.at);
    memset(t->card.at + CODE_SIZE, ' ', CARD_SIZE - CODE_SIZE);
    for (unsigned k = below(40), at; k; k--) {
        at = CODE_SIZE + below(CARD_SIZE - CODE_SIZE);
        t->card.at[at] = any_printable();
    }
}

static void fill_card(struct test *t, unsigned turn, unsigned others)
{
    t->layout = t->passed = -1;
    t->number = below(20);
    t->card.size = CARD_SIZE;
    if (percent(others)) {
        t->passed = (int)(turn % PASSED);
        other_card(t, passed[t->passed]);
    } else if (percent(5)) {
        other_card(t, NULL);
    } else if (t->op == OP_OPEN) {
        t->layout = (int)(turn % LAYOUTS);
        t->number = 1;
        good_card(t->card.at, t->layout, t->form);
    } else {
        nth_field(turn % FIELDS, (t->op == OP_TEXT || t->op == OP_PUTTEXT) && percent(80), &t->layout, &t->number);
        good_card(t->card.at, t->layout, t->form);
    }
}

// The n-th case of an operation.
static void make(struct test *t, enum operation op, unsigned turn)
{
    memset(t, 0, sizeof *t);
    t->op = op;
    t->form = any_form();
    fill_card(t, turn, op == OP_OPEN ? 50 : op == OP_JUDGE ? 20 : 4);
    if (op == OP_JUDGE && t->form > 1)
        t->form = FORM_UNKNOWN;
    const struct field *f = t->layout < 0 ? NULL : &layouts[t->layout].fields[t->number - 1];
    if (f && op != OP_OPEN && percent(op == OP_JUDGE ? 15 : 50))
        bad_columns(t->card.at, f, t->form);
    else if (f && percent(8))
        blank_field(t->card.at, f);
    else if (f && percent(60))
        good_columns(t->card.at, f, t->form);
    if (op == OP_OPEN)
        memcpy(t->text.at, t->card.at, CODE_SIZE);
    for (unsigned k = percent(op == OP_JUDGE ? 60 : 30) ? 1 + below(3) : 0; k; k--)
        damage(t->card.at, t->layout, t->form);
    if (f && op == OP_JUDGE && percent(15) && t->form < 2)
        t->form = FORM_UNKNOWN;
    if (op == OP_OPEN) {
        t->text.size = percent(96) ? CODE_SIZE : below(9);
        for (size_t i = CODE_SIZE; i < t->text.size; i++)
            t->text.at[i] = ' ';
    }
    if (f)
        t->value = offer(f, t->form);
    else
        t->value = any_value((enum value_kind)below(6), ANY, 1);
    if (op == OP_PUTTEXT)
        any_text(&t->text, f && percent(90) ? (size_t)f->last - f->first + 1 : below(82));
    if (percent(3))
        t->number = other_number(t->layout);
    if (percent(4))
        any_size(&t->card);
}

// The script.

static uint8_t shown(uint8_t b)
{
    return b == 0 ? '[' : b == 31 ? '{' : b == 127 ? '}' : b == 255 ? ']' : b;
}

static void print_bytes(const struct bytes *b)
{
    putchar('|');
    for (size_t i = 0; i < b->size; i++)
        putchar(shown(b->at[i]));
    putchar('|');
}

// Without its trailing blanks, where it has the right length.
static void print_card(const struct bytes *card)
{
    struct bytes c = *card;
    if (c.size != CARD_SIZE) {
        print_bytes(card);
        return;
    }
    while (c.size > 0 && c.at[c.size - 1] == ' ')
        c.size--;
    putchar('|');
    for (size_t i = 0; i < c.size; i++)
        putchar(shown(c.at[i]));
    putchar('>');
}

static void print_value(const struct value *v)
{
    switch (v->kind) {
    case VALUE_ABSENT: printf("absent "); break;
    case VALUE_WHOLE: printf("whole %lld ", (long long)v->units); break;
    case VALUE_DECIMAL: printf("decimal %lld %llu ", (long long)v->units, (unsigned long long)v->places); break;
    case VALUE_ANGLE: printf("angle %lld ", (long long)v->units); break;
    case VALUE_DATE: printf("date %u %u %u ", (unsigned)v->year, (unsigned)v->month, (unsigned)v->day); break;
    case VALUE_TEXT: printf("text %llu %llu ", (unsigned long long)v->first, (unsigned long long)v->last); break;
    }
}

static void print(const struct test *t)
{
    printf("%s ", names[t->op]);
    if (t->op == OP_JUDGE)
        printf("%c ", "01?"[t->form]);
    else if (t->op != OP_OPEN)
        printf("%llu %llu ", (unsigned long long)t->number, (unsigned long long)t->form);
    if (t->op == OP_PUT)
        print_value(&t->value);
    if (t->op == OP_PUTTEXT || t->op == OP_OPEN) {
        print_bytes(&t->text);
        putchar(' ');
    }
    print_card(&t->card);
    putchar('\n');
}

// The histogram. A refusal is counted apart where it has no column.

static unsigned ends[OPERATIONS][NUMBERS][2];
static unsigned held[FIELDS], left[FIELDS], refused_there[FIELDS], entered[FIELDS], opened[LAYOUTS + PASSED], judged[LAYOUTS + PASSED];

static int field_place(const struct test *t)
{
    if (t->layout < 0 || t->number == 0 || t->number > layouts[t->layout].count)
        return -1;
    int n = 0;
    for (int l = 0; l < t->layout; l++)
        n += layouts[l].count;
    return n + (int)t->number - 1;
}

// Whether damage has left the case its code.
static int has_code(const struct test *t, const uint8_t *code)
{
    return t->layout >= 0 ? code_of(code) == t->layout : code_of(code) == CODE_PASSED;
}

static struct refusal run(struct test *t, struct value *v, size_t *length)
{
    const uint8_t *text;
    *length = 0;
    switch (t->op) {
    case OP_FIELD: return read_field(t->card.at, t->card.size, t->number, t->form, v);
    case OP_TEXT:
        *length = read_text(t->card.at, t->card.size, t->number, t->form, &text);
        return (struct refusal){0, 0, 0};
    case OP_OPEN: return open_card(t->text.at, t->text.size, t->card.at, t->card.size);
    case OP_PUT: return put_value(t->card.at, t->card.size, t->number, t->form, &t->value);
    case OP_PUTTEXT: return put_text(t->card.at, t->card.size, t->number, t->form, t->text.at, t->text.size);
    default: return judge_card(t->card.at, t->card.size, (unsigned)t->form);
    }
}

static void count(struct test *t)
{
    struct value v = {0};
    size_t length;
    struct refusal r = run(t, &v, &length);
    int place = field_place(t), code = t->layout >= 0 ? t->layout : t->passed >= 0 ? LAYOUTS + t->passed : -1;
    ends[t->op][r.number][t->op == OP_TEXT ? length > 0 : r.column > 0]++;
    if (t->op == OP_OPEN && code >= 0 && r.number == 0)
        opened[code]++;
    if (!has_code(t, t->card.at))
        return;
    if (t->op == OP_JUDGE && code >= 0 && r.number == 0)
        judged[code]++;
    if (place < 0)
        return;
    if (t->op == OP_FIELD && r.number == 0 && v.kind != VALUE_ABSENT)
        held[place]++;
    if (t->op == OP_FIELD && r.number == 0 && v.misplaced)
        left[place]++;
    if (t->op == OP_FIELD && (r.number == 9 || (r.number == 10 && r.column)))
        refused_there[place]++;
    if (r.number == 0 && (t->op == OP_PUTTEXT || (t->op == OP_PUT && t->value.kind != VALUE_ABSENT)))
        entered[place]++;
}

// The refusals that an operation can give, with and without a column; 0 is none.
static const struct {
    const uint8_t with[NUMBERS], without[NUMBERS];
} possible[OPERATIONS] = {
    [OP_FIELD] = {{4, 5, 9, 10, 11}, {1, 2, 10, 13}},
    [OP_OPEN] = {{5}, {1, 2}},
    [OP_PUT] = {{4, 5, 11}, {1, 2, 10, 12, 13, 14}},
    [OP_PUTTEXT] = {{4, 5}, {1, 2, 4, 9, 10, 12, 13, 14}},
    [OP_JUDGE] = {{4, 5, 7, 8, 9, 10, 11}, {2}},
};

static int missing;

static void demand(unsigned count, const char *what, int where, int number)
{
    if (count == 0) {
        fprintf(stderr, "missing: %s %d %d\n", what, where, number);
        missing = 1;
    }
}

static void histogram(void)
{
    for (int op = 0; op < OPERATIONS; op++) {
        printf("%s:", names[op]);
        for (int n = 0; n < NUMBERS; n++)
            for (int c = 0; c < 2; c++)
                if (ends[op][n][c])
                    printf(" %d%s %u", n, n ? (c ? "" : "(no column)") : op == OP_TEXT && c ? "(some text)" : "", ends[op][n][c]);
        putchar('\n');
        for (int i = 0; i < NUMBERS && possible[op].with[i]; i++)
            demand(ends[op][possible[op].with[i]][1], names[op], possible[op].with[i], 1);
        for (int i = 0; i < NUMBERS && possible[op].without[i]; i++)
            demand(ends[op][possible[op].without[i]][0], names[op], possible[op].without[i], 0);
        demand(ends[op][0][op == OP_TEXT], names[op], 0, 0);
    }
    unsigned f = 0;
    for (int l = 0; l < LAYOUTS; l++) {
        printf("%s: opened %u, fine %u; fields read, misplaced, refused, written:", layouts[l].code, opened[l], judged[l]);
        demand(opened[l], layouts[l].code, 0, 0);
        demand(judged[l], layouts[l].code, 0, 1);
        unsigned wide = 0, misplaced = 0;
        for (int k = 1; k <= layouts[l].count; k++, f++) {
            const struct field *field = &layouts[l].fields[k - 1];
            printf(" %u-%u-%u-%u", held[f], left[f], refused_there[f], entered[f]);
            demand(held[f], layouts[l].code, k, 0);
            if ((field->spelling == SPELL_WHOLE || field->spelling == SPELL_DECIMAL) && field->first < field->last)
                wide++;
            misplaced += left[f];
            demand(entered[f], layouts[l].code, k, 1);
            if (field->spelling != SPELL_COMMENT)
                demand(refused_there[f], layouts[l].code, k, 9);
        }
        demand(wide == 0 || misplaced > 0, layouts[l].code, 0, 6);
        putchar('\n');
    }
    for (int p = 0; p < PASSED; p++) {
        printf("%s: opened %u, fine %u\n", passed[p], opened[LAYOUTS + p], judged[LAYOUTS + p]);
        demand(opened[LAYOUTS + p], passed[p], 0, 0);
        demand(judged[LAYOUTS + p], passed[p], 0, 1);
    }
}

// Headers: good ones, then damaged.

// The places in `layouts` of the codes that state a form or take one.
enum { LINE = 8, WAYPOINTS = 9, COMMENT = 10, GRID = 12, VARIATION = 13, FIXED_NODE = 27, ROOM = 40 };

// A header: its cards, the last one said `more` times more, and `spare` bytes of a card behind them.
struct made {
    uint8_t at[ROOM][CARD_SIZE];
    unsigned count, more, spare;
};

static uint64_t form_in(const uint8_t *card, unsigned column)
{
    return card[column - 1] == '1';
}

static int by_code(const void *a, const void *b)
{
    return memcmp(a, b, CODE_SIZE);
}

// The opening block: one to three vessels, mostly different, and waypoints, mostly theirs, by code number.
static void good_opening(struct made *h)
{
    unsigned lines = 1 + (percent(50) ? below(3) : 0), first = below(10);
    for (int l = 0; l < LINE; l++)
        good_card(h->at[h->count++], l, 0);
    for (unsigned i = 0; i < lines; i++) {
        good_card(h->at[h->count], LINE, 0);
        h->at[h->count++][29] = (uint8_t)('0' + (percent(15) ? first : first + i) % 10);
    }
    for (unsigned k = percent(70) ? below(6) : 0; k; k--) {
        const uint8_t *line = h->at[LINE + below(lines)];
        good_card(h->at[h->count], WAYPOINTS, form_in(line, 32));
        h->at[h->count++][6] = percent(90) ? line[29] : one_of("0123456789");
    }
    qsort(h->at[LINE], h->count - LINE, CARD_SIZE, by_code);
}

// The rest: mostly at most one grid, its points before or behind it, and whatever else is read or passed.
static void good_rest(struct made *h, unsigned cards)
{
    unsigned form = below(2), grids = 0;
    struct test t;
    for (; cards; cards--) {
        uint8_t *card = h->at[h->count++];
        int any = COMMENT + (int)below(percent(20) ? 2 : LAYOUTS - COMMENT);
        int layout = percent(25) ? VARIATION : percent(15) ? GRID : percent(15) ? FIXED_NODE : any;
        if (layout == GRID && grids++ > 0 && percent(80))
            layout = VARIATION;
        good_card(card, layout, form);
        if (layout == GRID)
            card[20] = (uint8_t)('0' + form);
        if (percent(15)) {
            other_card(&t, passed[below(PASSED)]);
            memcpy(card, t.card.at, CARD_SIZE);
        }
    }
}

static int layout_at(const struct made *h, unsigned i)
{
    int code = code_of(h->at[i]);
    return code >= 0 ? code : -1;
}

// A card of a layout, from a place found by chance on; the one at that place where there is none behind it.
static uint8_t *some_card(struct made *h, int layout)
{
    unsigned from = below(h->count);
    for (unsigned i = from; i < h->count; i++)
        if (layout_at(h, i) == layout)
            return h->at[i];
    return h->at[from];
}

static void drop_card(struct made *h, unsigned i)
{
    memmove(h->at[i], h->at[i + 1], (size_t)(h->count - i - 1) * CARD_SIZE);
    h->count--;
}

static void insert_card(struct made *h, unsigned i, const uint8_t *card)
{
    uint8_t kept[CARD_SIZE];
    memcpy(kept, card, CARD_SIZE);
    memmove(h->at[i + 1], h->at[i], (size_t)(h->count - i) * CARD_SIZE);
    memcpy(h->at[i], kept, CARD_SIZE);
    h->count++;
}

static void swap_cards(struct made *h, unsigned i, unsigned j)
{
    uint8_t kept[CARD_SIZE];
    memcpy(kept, h->at[i], CARD_SIZE);
    memcpy(h->at[i], h->at[j], CARD_SIZE);
    memcpy(h->at[j], kept, CARD_SIZE);
}

// Another code for a card: unknown, or of another card.
static void change_code(uint8_t *card)
{
    unsigned n = below(LAYOUTS + PASSED), at = 1 + below(CODE_SIZE - 1);
    if (percent(30))
        any_unknown(card);
    else if (percent(50))
        card[at] = one_of("0123456789");
    else
        concrete(n < LAYOUTS ? layouts[n].code : passed[n - LAYOUTS], card);
}

// Coordinates of another form, badly formed, or in a second set of which nothing else stands there.
static void change_coordinates(struct made *h)
{
    int code = percent(45) ? WAYPOINTS : percent(50) ? VARIATION : percent(70) ? FIXED_NODE : LINE;
    uint8_t *card = some_card(h, code);
    const struct layout *l = &layouts[code];
    unsigned k = below(l->count);
    for (; l->fields[k].spelling != SPELL_Y && l->fields[k].spelling != SPELL_X; k = (k + 1) % l->count)
        ;
    if (code == FIXED_NODE && percent(50))
        card[28] = '0';
    if (percent(30))
        edge_angle(card + l->fields[k].first - 1, l->fields[k].spelling);
    else if (percent(50))
        good_columns(card, &l->fields[k], below(2));
    else
        bad_columns(card, &l->fields[k], below(2));
    if (l->second && k + 1 > l->second && percent(30))
        blank_field(card, &l->fields[l->second - 1]);
}

static void damage_header(struct made *h)
{
    unsigned i = below(h->count), j = below(h->count), k = below(CARD_SIZE);
    int layout = percent(60) ? LINE : percent(60) ? GRID : FIXED_NODE;
    unsigned form_at = layout == LINE ? 31 : layout == GRID ? 20 : 28;
    switch (below(18)) {
    case 0: swap_cards(h, i, j); break;
    case 1: swap_cards(h, i, (i + 1) % h->count); break;
    case 2: drop_card(h, i); break;
    case 3: insert_card(h, i, h->at[i]); break;
    case 4: insert_card(h, i, h->at[j]); break;
    case 5: insert_card(h, i, some_card(h, percent(70) ? LINE : GRID)); break;
    case 6: h->at[i][k] = percent(60) ? any_printable() : any_unprintable(); break;
    case 7: change_code(h->at[i]); break;
    case 8: some_card(h, LINE)[29] = percent(90) ? one_of("0123456789") : any_printable(); break;
    case 9: some_card(h, WAYPOINTS)[6] = percent(90) ? one_of("0123456789") : any_printable(); break;
    case 10: some_card(h, layout)[form_at] = percent(70) ? one_of("01") : any_printable(); break;
    case 11:
    case 12:
    case 13: change_coordinates(h); break;
    default: damage(h->at[i], layout_at(h, i), below(2));
    }
}

// About as many cards as the program takes, about as many as a header may have, or some number between.
static unsigned about_the_limits(void)
{
    unsigned limit = percent(50) ? FEW_CARDS : MOST_CARDS;
    return percent(70) ? limit - 2 + below(4) : FEW_CARDS + below(MOST_CARDS - FEW_CARDS);
}

static void make_header(struct made *h)
{
    memset(h, 0, sizeof *h);
    good_opening(h);
    good_rest(h, below(30 - h->count + 1));
    for (unsigned k = percent(85) ? 1 + below(3) : 0; k && h->count > 0; k--)
        damage_header(h);
    if (percent(5))
        h->count = below(h->count + 1);
    if (percent(2) && h->count > 0)
        h->more = about_the_limits() - h->count;
    if (percent(4))
        h->spare = 1 + below(CARD_SIZE);
}

static void print_header(const struct made *h)
{
    struct bytes b;
    printf("keep 0\n");
    for (unsigned i = 0; i < h->count; i++) {
        b.size = CARD_SIZE;
        memcpy(b.at, h->at[i], CARD_SIZE);
        printf("add %u ", 1 + (i + 1 == h->count ? h->more : 0));
        print_card(&b);
        putchar('\n');
    }
    b.size = h->spare;
    memset(b.at, 'x', h->spare);
    printf("add 1 ");
    print_bytes(&b);
    putchar('\n');
}

// How often each refusal came; a 6 apart where cards are missing, 9 and 10 apart in coordinates by the code that has them.
static unsigned refusals[NUMBERS], missed, in_coordinates[LAYOUTS][NUMBERS];

static void count_header(const struct made *h)
{
    static uint8_t bytes[(ROOM + MOST_CARDS) * CARD_SIZE];
    size_t cards = h->count;
    memcpy(bytes, h->at, cards * CARD_SIZE);
    for (unsigned k = h->more; k; k--, cards++)
        memcpy(bytes + cards * CARD_SIZE, h->at[h->count - 1], CARD_SIZE);
    memset(bytes + cards * CARD_SIZE, 'x', h->spare);
    struct refusal r = check_header(bytes, cards * CARD_SIZE + h->spare);
    refusals[r.number]++;
    if (r.number == 6 && r.card > cards)
        missed++;
    int code = r.card > 0 && r.card <= h->count ? layout_at(h, r.card - 1) : -1;
    for (unsigned k = 0; code >= 0 && k < layouts[code].count; k++)
        if (layouts[code].fields[k].first == r.column && layouts[code].fields[k].spelling >= SPELL_Y)
            in_coordinates[code][r.number]++;
}

static void header_histogram(void)
{
    printf("headers: accepted %u, cards missing %u; refused", refusals[0], missed);
    for (int n = 1; n < NUMBERS; n++)
        printf(" %d %u", n, refusals[n]);
    printf("; coordinates of H00@9 9 %u, 10 %u", in_coordinates[WAYPOINTS][9], in_coordinates[WAYPOINTS][10]);
    printf("; H0101 9 %u, 10 %u", in_coordinates[VARIATION][9], in_coordinates[VARIATION][10]);
    printf("; H5000 9 %u, 10 %u\n", in_coordinates[FIXED_NODE][9], in_coordinates[FIXED_NODE][10]);
    for (int n = 0; n <= 11; n++)
        demand(refusals[n], "header", n, 0);
    demand(missed, "header", 6, 1);
    for (int n = 9; n <= 10; n++) {
        demand(in_coordinates[WAYPOINTS][n], "H00@9", n, 0);
        demand(in_coordinates[VARIATION][n], "H0101", n, 0);
        demand(in_coordinates[FIXED_NODE][n], "H5000", n, 0);
    }
}

static int headers(const char *seed, const char *count, int counting)
{
    state = strtoull(seed, NULL, 10);
    for (unsigned long long i = strtoull(count, NULL, 10); i; i--) {
        static struct made h;
        make_header(&h);
        if (counting)
            count_header(&h);
        else
            print_header(&h);
    }
    if (counting)
        header_histogram();
    return missing;
}

// Every order of up to four H00@8 and H00@9 of two vessels, equal codes too, and behind it nothing, or a card that may stand
// there, one with an unknown code, one of the first eight, or a comment and an H00@8 that would rise.
static int orders(void)
{
    static const char *const behind[] = {"", "C0001", "E1000", "H0007", "C0001H0098"};
    static struct made h;
    for (unsigned vessel = 0; vessel < 2; vessel++)
        for (unsigned n = 0; n < 1 + 4 + 16 + 64 + 256; n++)
            for (unsigned b = 0; b < sizeof behind / sizeof *behind; b++) {
                memset(&h, 0, sizeof h);
                for (int l = 0; l < LINE; l++)
                    open_card((const uint8_t *)layouts[l].code, CODE_SIZE, h.at[h.count++], CARD_SIZE);
                // the digits of n to the base 4, from 1 to 4 each, are the cards
                for (unsigned left = n; left; left = (left - 1) / 4) {
                    uint8_t *card = h.at[h.count++], digit = (uint8_t)('0' + vessel + (left - 1) / 2 % 2);
                    int line = left % 2;
                    open_card((const uint8_t[]){'H', '0', '0', digit, line ? '8' : '9'}, CODE_SIZE, card, CARD_SIZE);
                    card[line ? 29 : 6] = digit;
                    card[line ? 31 : 10] = '1';
                }
                for (const char *code = behind[b]; *code; code += CODE_SIZE)
                    if (open_card((const uint8_t *)code, CODE_SIZE, h.at[h.count++], CARD_SIZE).number)
                        memcpy(memset(h.at[h.count - 1], ' ', CARD_SIZE), code, CODE_SIZE);
                print_header(&h);
            }
    return EXIT_SUCCESS;
}

static int every_code(void)
{
    for (unsigned n = 0; n < 10000; n++)
        printf("field 1 0 |H%04u>\n", n);
    return EXIT_SUCCESS;
}

static int cases(const char *seed, const char *wanted, int counting)
{
    static unsigned turns[OPERATIONS];
    static const enum operation share[20] = {OP_FIELD, OP_FIELD, OP_FIELD, OP_FIELD, OP_FIELD,   OP_FIELD,   OP_TEXT,
                                             OP_OPEN,  OP_OPEN,  OP_PUT,   OP_PUT,   OP_PUT,     OP_PUT,     OP_PUT,
                                             OP_PUTTEXT, OP_PUTTEXT, OP_JUDGE, OP_JUDGE, OP_JUDGE, OP_JUDGE};
    state = strtoull(seed, NULL, 10);
    for (unsigned long long i = strtoull(wanted, NULL, 10); i; i--) {
        struct test t;
        enum operation op = share[below(20)];
        make(&t, op, turns[op]++);
        if (counting)
            count(&t);
        else
            print(&t);
    }
    if (counting)
        histogram();
    return missing;
}

int main(int argc, char **argv)
{
    if (argc == 2 && strcmp(argv[1], "codes") == 0)
        return every_code();
    if (argc == 2 && strcmp(argv[1], "orders") == 0)
        return orders();
    int of_headers = argc > 1 && strcmp(argv[1], "headers") == 0;
    char **args = argv + 1 + of_headers;
    int left = argc - 1 - of_headers;
    if (left < 2 || left > 3 || (left == 3 && strcmp(args[2], "histogram") != 0)) {
        fprintf(stderr, "usage: generate codes | generate orders | generate [headers] SEED COUNT [histogram]\n");
        return 2;
    }
    return of_headers ? headers(args[0], args[1], left == 3) : cases(args[0], args[1], left == 3);
}
