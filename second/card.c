// One card of a line header: its table, reading, putting, opening, judging.
#include "card.h"

#include <string.h>

#define A(first, last) {SPELL_TEXT, first, last, ANY, 0}
#define A_(first, last) {SPELL_TEXT, first, last, ANY, 1}
#define C(first, last) {SPELL_COMMENT, first, last, ANY, 0}
#define I(first, last, range) {SPELL_WHOLE, first, last, range, 0}
#define I_(first, last, range) {SPELL_WHOLE, first, last, range, 1}
#define N(first, last) {SPELL_DECIMAL, first, last, ANY, 0}
#define D(first, last) {SPELL_DATE, first, last, ANY, 0}
#define Y(first, last) {SPELL_Y, first, last, ANY, 0}
#define X(first, last) {SPELL_X, first, last, ANY, 0}
#define LABEL(text) text, sizeof(text) - 1

// The layouts; _ marks a needed field. In a code, @ is 1 to 9 and # is 0 to 9.
const struct layout layouts[LAYOUTS] = {
    {"H0000", LABEL("Line Name:"), 3, 0, {A(29, 44), I(46, 49, ANY), A(50, 80)}},
    {"H0001", LABEL("Project Name:"), 4, 0, {A(29, 36), A(38, 62), D(64, 71), D(73, 80)}},
    {"H0002", LABEL("Project Description:"), 1, 0, {A(29, 80)}},
    {"H0003", LABEL("Media Specification:"), 5, 0, {D(29, 36), A(38, 47), A(49, 64), A(66, 76), N(78, 80)}},
    {"H0004", LABEL("Client:"), 1, 0, {A(29, 80)}},
    {"H0005", LABEL("Geophysical Contractor:"), 1, 0, {A(29, 80)}},
    {"H0006", LABEL("Positioning Contractor:"), 1, 0, {A(29, 80)}},
    {"H0007", LABEL("Processing Contractor:"), 1, 0, {A(29, 80)}},
    {"H00#8", LABEL("Line Parameters Vessel:"), 9, 0,
     {I_(30, 30, DIGIT), I_(32, 32, BIT), Y(34, 45), X(46, 57), I(59, 64, ANY), I(66, 68, ANY), N(70, 75), I(77, 77, BIT),
      I(79, 80, UP_TO_99)}},
    {"H00#9", LABEL(""), 7, 5,
     {I_(7, 7, DIGIT), I_(9, 11, FROM_0), Y(13, 24), X(26, 37), I_(39, 41, FROM_0), Y(43, 54), X(56, 67)}},
    {"C0001", LABEL(""), 1, 0, {C(6, 80)}},
    {"C0002", LABEL(""), 1, 0, {C(6, 80)}},
    {"H0100", LABEL(""), 4, 0, {D(7, 14), I(16, 19, FROM_0), I_(21, 21, BIT), A(23, 80)}},
    {"H0101", LABEL(""), 5, 0, {I_(7, 10, FROM_0), Y(12, 23), X(25, 36), N(38, 44), N(46, 51)}},
    {"H011@", LABEL(""), 5, 0, {A(7, 24), A(25, 43), N(44, 55), N(57, 68), N(70, 80)}},
    {"H0120", LABEL(""), 10, 0,
     {I_(7, 7, ONE_TO_9), I_(9, 9, ONE_TO_9), I(11, 11, BIT), N(13, 22), N(24, 33), N(35, 44), N(46, 53), N(55, 62),
      N(64, 71), N(73, 80)}},
    {"H17@0", LABEL(""), 14, 0,
     {I_(7, 7, FROM_0), I(9, 9, BIT), I(10, 10, BIT), I(11, 11, BIT), I(12, 12, SET_349), I(13, 13, SET_019), N(15, 22),
      N(24, 31), I(33, 33, UP_TO_4), I(34, 34, UP_TO_4), N(36, 42), N(44, 50), N(52, 58), A(60, 80)}},
    {"H17@1", LABEL(""), 2, 0, {I_(7, 7, FROM_0), A(9, 80)}},
    {"H21@0", LABEL(""), 9, 0,
     {I_(7, 9, FROM_0), N(11, 17), N(19, 25), N(27, 32), N(35, 41), N(43, 49), N(51, 56), N(58, 64), N(66, 71)}},
    {"H21@1", LABEL(""), 14, 0,
     {I_(7, 9, FROM_0), N(11, 15), N(17, 21), I(23, 25, ANY), N(27, 31), N(33, 37), I(39, 41, ANY), N(43, 47),
      I(49, 51, ANY), N(53, 57), I(59, 61, ANY), N(63, 67), I(69, 69, UP_TO_4), I(71, 71, UP_TO_4)}},
    {"H21@2", LABEL(""), 1, 0, {A(7, 80)}},
    {"H21@3", LABEL(""), 1, 0, {A(7, 80)}},
    {"H2300", LABEL(""), 1, 0, {A(7, 80)}},
    {"H22@0", LABEL(""), 9, 6,
     {I_(7, 9, FROM_0), I_(11, 14, FROM_1), A(16, 23), N(25, 32), I(34, 34, BIT), I_(36, 39, FROM_1), A(41, 48),
      N(50, 57), I(59, 59, BIT)}},
    {"H23@0", LABEL(""), 18, 0,
     {A_(7, 14), N(15, 20), I(21, 23, UP_TO_360), N(24, 27), I(28, 30, UP_TO_360), N(31, 34), I(35, 37, UP_TO_360),
      N(38, 41), I(42, 44, UP_TO_360), N(45, 48), I(49, 51, UP_TO_360), N(52, 55), I(56, 58, UP_TO_360), N(59, 62),
      I(63, 65, UP_TO_360), N(66, 69), I(70, 72, UP_TO_360), N(73, 76)}},
    {"H2301", LABEL(""), 2, 0, {I(7, 7, BIT), A(9, 80)}},
    {"H16@1", LABEL(""), 12, 0,
     {I(7, 7, FROM_0), I_(9, 12, FROM_1), N(14, 20), N(22, 28), N(30, 35), N(37, 41), N(43, 47), N(49, 53), N(55, 61),
      N(63, 69), I(71, 71, BIT), N(73, 80)}},
    {"H5000", LABEL(""), 8, 0,
     {I_(7, 10, FROM_1), A(12, 27), I(29, 29, BIT), Y(31, 42), X(44, 55), N(57, 63), I(65, 65, BIT), I(67, 67, UP_TO_5)}},
    {"H51#0", LABEL(""), 6, 0, {I_(7, 10, FROM_1), A(12, 27), I(29, 31, FROM_0), N(33, 39), N(41, 47), N(49, 55)}},
    {"H52##", LABEL(""), 8, 0,
     {I_(7, 10, FROM_1), A(12, 27), I(29, 32, FROM_1), I(34, 37, FROM_0), I(39, 42, FROM_0), I(44, 45, UP_TO_11),
      I(47, 49, FROM_1), A(51, 80)}},
    {"H54##", LABEL(""), 10, 0,
     {I(7, 10, FROM_1), N(12, 23), N(25, 36), I(38, 38, BIT), I(40, 40, BIT), N(42, 53), N(55, 64), N(66, 73), N(75, 78),
      I(80, 80, UP_TO_4)}},
};

// The H codes by their first two digits: the last two, and the place in `layouts`. A row ends at an empty entry.
enum { ROWS = 80, MOST_TAILS = 14, P = CODE_PASSED };
static const struct tail {
    char third, fourth;
    int8_t place;
} tails[ROWS][MOST_TAILS] = {
    [0] = {{'0', '0', 0}, {'0', '1', 1}, {'0', '2', 2}, {'0', '3', 3}, {'0', '4', 4}, {'0', '5', 5}, {'0', '6', 6},
           {'0', '7', 7}, {'#', '8', 8}, {'#', '9', 9}},
    [1] = {{'0', '0', 12}, {'0', '1', 13}, {'1', '@', 14}, {'2', '0', 15}, {'3', '0', P}, {'4', '0', P}, {'5', '0', P},
           {'6', '0', P}, {'7', '0', P}, {'8', '0', P}, {'8', '1', P}, {'9', '0', P}, {'9', '9', P}},
    [2] = {{'0', '0', P}, {'1', '0', P}, {'2', '0', P}, {'3', '0', P}, {'4', '0', P}},
    [10] = {{'@', '0', P}},
    [11] = {{'@', '0', P}},
    [12] = {{'@', '0', P}, {'@', '1', P}},
    [13] = {{'@', '0', P}},
    [14] = {{'@', '#', P}},
    [15] = {{'0', '0', P}, {'0', '1', P}},
    [16] = {{'@', '0', P}, {'@', '1', 26}, {'@', '2', P}},
    [17] = {{'@', '0', 16}, {'@', '1', 17}},
    [21] = {{'@', '0', 18}, {'@', '1', 19}, {'@', '2', 20}, {'@', '3', 21}},
    [22] = {{'@', '0', 23}},
    [23] = {{'0', '0', 22}, {'@', '0', 24}, {'0', '1', 25}, {'@', '1', P}},
    [24] = {{'@', '0', P}, {'@', '1', P}},
    [25] = {{'@', '0', P}},
    [31] = {{'@', '0', P}, {'@', '1', P}},
    [32] = {{'@', '0', P}, {'@', '1', P}, {'@', '2', P}},
    [33] = {{'@', '0', P}},
    [34] = {{'@', '0', P}, {'@', '1', P}},
    [41] = {{'@', '0', P}},
    [50] = {{'0', '0', 27}},
    [51] = {{'#', '0', 28}},
    [52] = {{'#', '#', 29}},
    [53] = {{'0', '6', P}, {'0', '7', P}},
    [54] = {{'#', '#', 30}},
    [55] = {{'0', '0', P}},
    [56] = {{'@', '0', P}},
    [60] = {{'0', '#', P}},
    [61] = {{'0', '#', P}},
    [62] = {{'0', '#', P}},
    [63] = {{'0', '0', P}, {'0', '1', P}, {'1', '#', P}, {'2', '#', P}, {'3', '0', P}},
    [65] = {{'#', '#', P}},
    [66] = {{'#', '#', P}},
    [67] = {{'@', '0', P}},
    [70] = {{'0', '0', P}, {'1', '0', P}, {'2', '0', P}, {'2', '1', P}},
};

static int is_digit(uint8_t b)
{
    return (unsigned)(b - '0') < 10;
}

// Whether a digit is one that a pattern's character stands for.
static int stands_for(char pattern, uint8_t digit)
{
    return pattern == (char)digit || pattern == '#' || (pattern == '@' && digit != '0');
}

int code_of(const uint8_t *code)
{
    if (code[0] == 'C')
        return memcmp(code, "C0001", CODE_SIZE) == 0 ? 10 : memcmp(code, "C0002", CODE_SIZE) == 0 ? 11 : CODE_UNKNOWN;
    if (code[0] != 'H' || !is_digit(code[1]) || !is_digit(code[2]) || !is_digit(code[3]) || !is_digit(code[4]))
        return CODE_UNKNOWN;
    unsigned row = 10u * (unsigned)(code[1] - '0') + (unsigned)(code[2] - '0');
    if (row >= ROWS)
        return CODE_UNKNOWN;
    for (const struct tail *t = tails[row]; t->third; t++)
        if (stands_for(t->third, code[3]) && stands_for(t->fourth, code[4]))
            return t->place;
    return CODE_UNKNOWN;
}

static struct refusal refused(uint32_t number, uint32_t card, uint32_t column)
{
    return (struct refusal){number, card, column};
}

static const struct refusal none = {0, 0, 0};

static int printable(uint8_t b)
{
    return (unsigned)(b - 32) < 95;
}

// The column of the first byte that is not printable, 0 where all are.
static uint32_t first_unprintable(const uint8_t *s, size_t n)
{
    unsigned bad = 0;
    for (size_t i = 0; i < n; i++)
        bad |= (unsigned)!printable(s[i]);
    if (!bad)
        return 0;
    size_t i = 0;
    while (printable(s[i]))
        i++;
    return (uint32_t)i + 1;
}

static int is_blank(const uint8_t *s, size_t n)
{
    for (size_t i = 0; i < n; i++)
        if (s[i] != ' ')
            return 0;
    return 1;
}

static const uint8_t *columns_of(const uint8_t *card, const struct field *f)
{
    return card + f->first - 1;
}

static size_t width_of(const struct field *f)
{
    return (size_t)f->last - f->first + 1;
}

static int in_range(unsigned range, int64_t n)
{
    switch (range) {
    case BIT: return n == 0 || n == 1;
    case DIGIT: return 0 <= n && n <= 9;
    case FROM_0: return 0 <= n;
    case FROM_1: return 1 <= n;
    case ONE_TO_9: return 1 <= n && n <= 9;
    case UP_TO_4: return 0 <= n && n <= 4;
    case UP_TO_5: return 0 <= n && n <= 5;
    case UP_TO_11: return 0 <= n && n <= 11;
    case UP_TO_99: return 0 <= n && n <= 99;
    case UP_TO_360: return 0 <= n && n <= 360;
    case SET_349: return n == 3 || n == 4 || n == 9;
    case SET_019: return n == 0 || n == 1 || n == 9;
    default: return 1;
    }
}

// Reading. Each answers 0, 9 or 10; the columns are not blank, and at most twelve for a number.

// Blanks, a sign, digits with at most `points` points among them.
static unsigned read_number(const uint8_t *s, size_t n, int points, struct value *v)
{
    size_t i = 0;
    while (i < n && s[i] == ' ')
        i++;
    int minus = i < n && s[i] == '-';
    if (i < n && (s[i] == '-' || s[i] == '+'))
        i++;
    int64_t units = 0;
    unsigned digits = 0, before = 0, seen = 0;
    for (; i < n; i++) {
        if (is_digit(s[i])) {
            units = units * 10 + (s[i] - '0');
            digits++;
        } else if (s[i] == '.' && points && !seen) {
            seen = 1;
            before = digits;
        } else {
            return 9;
        }
    }
    if (digits == 0)
        return 9;
    v->units = minus ? -units : units;
    v->places = seen ? digits - before : 0;
    return 0;
}

// The same where blanks may follow it: I and N fields.
static unsigned read_placed(const uint8_t *s, size_t n, int points, struct value *v)
{
    size_t end = n;
    while (s[end - 1] == ' ')
        end--;
    v->misplaced = end < n;
    return read_number(s, end, points, v);
}

static unsigned read_whole(const uint8_t *s, size_t n, unsigned range, struct value *v)
{
    v->kind = VALUE_WHOLE;
    if (read_placed(s, n, 0, v))
        return 9;
    return in_range(range, v->units) ? 0 : 10;
}

int is_misplaced(const uint8_t *card, const struct field *f)
{
    if (f->spelling != SPELL_WHOLE && f->spelling != SPELL_DECIMAL)
        return 0;
    return card[f->last - 1] == ' ' && !is_blank(columns_of(card, f), width_of(f));
}

static uint32_t days_in(uint32_t year, uint32_t month)
{
    static const uint8_t days[12] = {31, 28, 31, 30, 31, 30, 31, 31, 30, 31, 30, 31};
    int leap = year % 4 == 0 && (year % 100 != 0 || year % 400 == 0);
    return days[month - 1] + (month == 2 && leap ? 1u : 0u);
}

static int is_date(uint32_t year, uint32_t month, uint32_t day)
{
    return 1 <= year && year <= 9999 && 1 <= month && month <= 12 && 1 <= day && day <= days_in(year, month);
}

static uint32_t digits_at(const uint8_t *s, size_t n)
{
    uint32_t number = 0;
    for (size_t i = 0; i < n; i++)
        number = number * 10 + (uint32_t)(s[i] - '0');
    return number;
}

static unsigned read_date(const uint8_t *s, struct value *v)
{
    v->kind = VALUE_DATE;
    for (size_t i = 0; i < 8; i++)
        if (!is_digit(s[i]))
            return 9;
    v->year = digits_at(s, 4);
    v->month = digits_at(s + 4, 2);
    v->day = digits_at(s + 6, 2);
    return is_date(v->year, v->month, v->day) ? 0 : 10;
}

// Blanks, then one or more digits; whether they are well formed.
static int read_padded(const uint8_t *s, size_t n, int64_t *number)
{
    size_t i = 0;
    while (i < n && s[i] == ' ')
        i++;
    if (i == n)
        return 0;
    for (size_t k = i; k < n; k++)
        if (!is_digit(s[k]))
            return 0;
    *number = digits_at(s + i, n - i);
    return 1;
}

static int64_t most_angle(unsigned spelling)
{
    return (spelling == SPELL_Y ? 90 : 180) * (int64_t)3600000;
}

// Form 0: dddmmss.sss and a letter.
static unsigned read_angle(const uint8_t *s, unsigned spelling, struct value *v)
{
    int64_t degrees, minutes, seconds, thousandths;
    uint8_t plus = spelling == SPELL_Y ? 'N' : 'E', minus = spelling == SPELL_Y ? 'S' : 'W';
    v->kind = VALUE_ANGLE;
    if (!read_padded(s, 3, &degrees) || !read_padded(s + 3, 2, &minutes) || !read_padded(s + 5, 2, &seconds))
        return 9;
    if (s[7] != '.' || !is_digit(s[8]) || !is_digit(s[9]) || !is_digit(s[10]) || (s[11] != plus && s[11] != minus))
        return 9;
    thousandths = digits_at(s + 8, 3);
    v->units = ((degrees * 60 + minutes) * 60 + seconds) * 1000 + thousandths;
    if (minutes >= 60 || seconds >= 60 || v->units > most_angle(spelling))
        return 10;
    if (s[11] == minus)
        v->units = -v->units;
    return 0;
}

// Form 1: eleven columns of a number, and a letter.
static unsigned read_grid(const uint8_t *s, unsigned spelling, struct value *v)
{
    v->kind = VALUE_DECIMAL;
    if (s[11] != (spelling == SPELL_Y ? 'N' : 'E'))
        return 9;
    return read_number(s, 11, 1, v);
}

static unsigned read_letters(const uint8_t *s, const struct field *f, struct value *v)
{
    size_t n = width_of(f);
    v->kind = VALUE_TEXT;
    if (f->spelling == SPELL_TEXT && s[0] == ' ')
        return 9;
    while (s[n - 1] == ' ')
        n--;
    v->first = f->first;
    v->last = f->first + n - 1;
    return 0;
}

// What stands in a field: 0, 9 or 10; a blank one is absent.
static unsigned read_columns(const uint8_t *card, const struct field *f, unsigned form, struct value *v)
{
    const uint8_t *s = columns_of(card, f);
    size_t n = width_of(f);
    v->kind = VALUE_ABSENT;
    v->misplaced = 0;
    if (is_blank(s, n))
        return 0;
    switch (f->spelling) {
    case SPELL_WHOLE: return read_whole(s, n, f->range, v);
    case SPELL_DECIMAL: v->kind = VALUE_DECIMAL; return read_placed(s, n, 1, v);
    case SPELL_DATE: return read_date(s, v);
    case SPELL_Y:
    case SPELL_X: return form == 0 ? read_angle(s, f->spelling, v) : read_grid(s, f->spelling, v);
    default: return read_letters(s, f, v);
    }
}

// Whether a field of a second set other than number `but` is not blank (0: any field of it).
static int second_present(const uint8_t *card, const struct layout *l, unsigned but)
{
    for (unsigned k = l->second; k <= l->count; k++)
        if (k != but && !is_blank(columns_of(card, &l->fields[k - 1]), width_of(&l->fields[k - 1])))
            return 1;
    return 0;
}

// Whether a field, if it is blank, is missed on this card.
static int is_missed(const uint8_t *card, const struct layout *l, unsigned number)
{
    if (!l->fields[number - 1].needed)
        return 0;
    return l->second == 0 || number < l->second || second_present(card, l, number);
}

// 4, 5: what is asked of eighty columns before anything else; their layout, or none for a passed code.
static struct refusal look_at(const uint8_t *card, const struct layout **layout)
{
    *layout = NULL;
    uint32_t bad = first_unprintable(card, CARD_SIZE);
    if (bad)
        return refused(4, 1, bad);
    int place = code_of(card);
    if (place == CODE_UNKNOWN)
        return refused(5, 1, 1);
    if (place >= 0)
        *layout = &layouts[place];
    return none;
}

// 1, 2, 4, 5, 13, and 10 for the form: what is asked before a field is looked at.
static struct refusal find_field(const uint8_t *card, size_t size, uint64_t number, uint64_t form,
                                 const struct layout **layout)
{
    if (size != CARD_SIZE)
        return refused(size == 0 ? 1 : 2, 0, 0);
    struct refusal r = look_at(card, layout);
    if (r.number)
        return r;
    if (*layout == NULL || number == 0 || number > (*layout)->count)
        return refused(13, 0, 0);
    if (form > 1)
        return refused(10, 0, 0);
    return none;
}

struct refusal read_field(const uint8_t *card, size_t size, uint64_t number, uint64_t form, struct value *value)
{
    const struct layout *l;
    struct refusal r = find_field(card, size, number, form, &l);
    if (r.number)
        return r;
    const struct field *f = &l->fields[number - 1];
    unsigned fault = read_columns(card, f, (unsigned)form, value);
    if (fault)
        return refused(fault, 1, f->first);
    if (value->kind == VALUE_ABSENT && is_missed(card, l, (unsigned)number))
        return refused(11, 1, f->first);
    return none;
}

size_t read_text(const uint8_t *card, size_t size, uint64_t number, uint64_t form, const uint8_t **text)
{
    struct value v;
    struct refusal r = read_field(card, size, number, form, &v);
    *text = card;
    if (r.number || v.kind != VALUE_TEXT)
        return 0;
    *text = card + v.first - 1;
    return (size_t)(v.last - v.first + 1);
}

struct refusal open_card(const uint8_t *code, size_t code_size, uint8_t *card, size_t size)
{
    if (size != CARD_SIZE)
        return refused(size == 0 ? 1 : 2, 0, 0);
    int place = code_size == CODE_SIZE ? code_of(code) : CODE_UNKNOWN;
    if (place == CODE_UNKNOWN)
        return refused(5, 1, 1);
    memcpy(card, code, CODE_SIZE);
    memset(card + CODE_SIZE, ' ', CARD_SIZE - CODE_SIZE);
    if (place >= 0)
        memcpy(card + CODE_SIZE, layouts[place].label, layouts[place].label_size);
    return none;
}

// Writing. Each answers 0, 10 or 14 and writes nothing unless 0.

static void write_digits(uint8_t *s, size_t n, uint64_t number)
{
    while (n) {
        s[--n] = (uint8_t)('0' + number % 10);
        number /= 10;
    }
}

static uint64_t size_of(int64_t units)
{
    return units < 0 ? 0 - (uint64_t)units : (uint64_t)units;
}

static size_t count_digits(uint64_t number)
{
    size_t n = 0;
    for (; number; number /= 10)
        n++;
    return n;
}

// From the last column backwards: the digits behind the point, the point, those before it, the minus, blanks.
static unsigned write_number(uint8_t *s, size_t n, int64_t units, uint64_t places)
{
    uint64_t left = size_of(units);
    size_t minus = units < 0, digits = count_digits(left);
    if (places >= n + (places == 0))
        return 14;
    size_t behind = (size_t)places, before = digits > behind ? digits - behind : 0;
    if (before == 0 && behind == 0)
        before = 1;
    size_t needs = minus + before + (behind ? behind + 1 : 0);
    if (needs > n)
        return 14;
    if (before == 0 && needs < n) {
        before = 1;
        needs++;
    }
    size_t end = n;
    if (behind) {
        for (; behind; behind--, left /= 10)
            s[--end] = (uint8_t)('0' + left % 10);
        s[--end] = '.';
    }
    write_digits(s + end - before, before, left);
    end -= before;
    if (minus)
        s[--end] = '-';
    memset(s, ' ', end);
    return 0;
}

static unsigned write_date(uint8_t *s, const struct value *v)
{
    if (!is_date(v->year, v->month, v->day))
        return 10;
    write_digits(s, 4, v->year);
    write_digits(s + 4, 2, v->month);
    write_digits(s + 6, 2, v->day);
    return 0;
}

static unsigned write_angle(uint8_t *s, unsigned spelling, int64_t units)
{
    uint64_t left = size_of(units);
    if (left > (uint64_t)most_angle(spelling))
        return 10;
    write_digits(s, 3, left / 3600000);
    write_digits(s + 3, 2, left / 60000 % 60);
    write_digits(s + 5, 2, left / 1000 % 60);
    s[7] = '.';
    write_digits(s + 8, 3, left % 1000);
    s[11] = spelling == SPELL_Y ? (units < 0 ? 'S' : 'N') : (units < 0 ? 'W' : 'E');
    return 0;
}

static unsigned write_grid(uint8_t *s, unsigned spelling, const struct value *v)
{
    unsigned fault = write_number(s, 11, v->units, v->places);
    if (fault == 0)
        s[11] = spelling == SPELL_Y ? 'N' : 'E';
    return fault;
}

// The kind of value that a field takes; a text is none of them.
static enum value_kind kind_of(unsigned spelling, unsigned form)
{
    switch (spelling) {
    case SPELL_WHOLE: return VALUE_WHOLE;
    case SPELL_DECIMAL: return VALUE_DECIMAL;
    case SPELL_DATE: return VALUE_DATE;
    case SPELL_Y:
    case SPELL_X: return form == 0 ? VALUE_ANGLE : VALUE_DECIMAL;
    default: return VALUE_ABSENT;
    }
}

static unsigned write_columns(uint8_t *s, const struct field *f, unsigned form, const struct value *v)
{
    switch (f->spelling) {
    case SPELL_WHOLE: return in_range(f->range, v->units) ? write_number(s, width_of(f), v->units, 0) : 10;
    case SPELL_DECIMAL: return write_number(s, width_of(f), v->units, v->places);
    case SPELL_DATE: return write_date(s, v);
    default: return form == 0 ? write_angle(s, f->spelling, v->units) : write_grid(s, f->spelling, v);
    }
}

struct refusal put_value(uint8_t *card, size_t size, uint64_t number, uint64_t form, const struct value *value)
{
    const struct layout *l;
    struct refusal r = find_field(card, size, number, form, &l);
    if (r.number)
        return r;
    const struct field *f = &l->fields[number - 1];
    uint8_t *s = card + f->first - 1;
    if (value->kind == VALUE_ABSENT) {
        if (is_missed(card, l, (unsigned)number))
            return refused(11, 1, f->first);
        memset(s, ' ', width_of(f));
        return none;
    }
    if (value->kind != kind_of(f->spelling, (unsigned)form))
        return refused(12, 1, 0);
    unsigned fault = write_columns(s, f, (unsigned)form, value);
    return fault ? refused(fault, 1, 0) : none;
}

// 4, 9 and 14 of a text that is offered.
static unsigned fault_of(const struct field *f, const uint8_t *text, size_t length)
{
    if (first_unprintable(text, length))
        return 4;
    if (length == 0 || text[length - 1] == ' ' || (f->spelling == SPELL_TEXT && text[0] == ' '))
        return 9;
    return length > width_of(f) ? 14 : 0;
}

struct refusal put_text(uint8_t *card, size_t size, uint64_t number, uint64_t form, const uint8_t *text, size_t length)
{
    const struct layout *l;
    struct refusal r = find_field(card, size, number, form, &l);
    if (r.number)
        return r;
    const struct field *f = &l->fields[number - 1];
    uint8_t *s = card + f->first - 1;
    if (f->spelling != SPELL_TEXT && f->spelling != SPELL_COMMENT)
        return refused(12, 1, 0);
    unsigned fault = fault_of(f, text, length);
    if (fault)
        return refused(fault, 1, 0);
    memcpy(s, text, length);
    memset(s + length, ' ', width_of(f) - length);
    return none;
}

// Judging.

// The column of the first byte from column `from` on and before column `to` that is not blank, 0 where all are.
static uint32_t first_stray(const uint8_t *card, unsigned from, unsigned to)
{
    for (unsigned k = from; k < to; k++)
        if (card[k - 1] != ' ')
            return k;
    return 0;
}

static unsigned judge_field(const uint8_t *card, const struct layout *l, unsigned number, unsigned form)
{
    const struct field *f = &l->fields[number - 1];
    struct value v;
    if (form == FORM_UNKNOWN && (f->spelling == SPELL_Y || f->spelling == SPELL_X))
        return 0;
    unsigned fault = read_columns(card, f, form, &v);
    if (fault)
        return fault;
    return v.kind == VALUE_ABSENT && is_missed(card, l, number) ? 11 : 0;
}

struct refusal judge_card(const uint8_t *card, size_t size, unsigned form)
{
    const struct layout *l;
    if (size != CARD_SIZE)
        return refused(size == 0 ? 1 : 2, 0, 0);
    struct refusal r = look_at(card, &l);
    if (r.number || l == NULL)
        return r;
    if (memcmp(card + CODE_SIZE, l->label, l->label_size) != 0)
        return refused(8, 1, CODE_SIZE + 1);
    unsigned next = CODE_SIZE + 1u + l->label_size;
    for (unsigned k = 1; k <= l->count; k++) {
        const struct field *f = &l->fields[k - 1];
        uint32_t stray = first_stray(card, next, f->first);
        if (stray)
            return refused(7, 1, stray);
        unsigned fault = judge_field(card, l, k, form);
        if (fault)
            return refused(fault, 1, f->first);
        next = f->last + 1u;
    }
    uint32_t stray = first_stray(card, next, CARD_SIZE + 1);
    return stray ? refused(7, 1, stray) : none;
}
