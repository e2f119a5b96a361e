// A season's volume, a second time. The paper: requests No. 8 to No. 10.
#include "volume.h"
#include "header.h"

#include <string.h>

// A form of volume: the codes of its two kinds of cards, how wide their numbers are, the most cards of a volume, of a header.
struct form {
    char entry[CODE_SIZE + 1], trailer[CODE_SIZE + 1];
    unsigned width;
    size_t most, largest;
};

enum { OLD, WIDE, FORMS };
static const struct form forms[FORMS] = {{"X0001", "X0009", 3, MOST_VOLUME, 800}, {"X0011", "X0019", 5, MOST_WIDE, 4096}};

// Columns: of name and sequence on a directory card and on H0000, of the first number on a directory card and on a trailer.
// The second number stands a blank behind the first.
enum { NAME = 7, NAME_SIZE = 16, SEQUENCE = 24, SEQUENCE_SIZE = 4, LINE_NAME = 29, LINE_SEQUENCE = 46 };
enum { ENTRY_NUMBERS = 29, TRAILER_NUMBERS = 7 };

static struct refusal refuse(uint32_t number)
{
    return (struct refusal){number, 0, 0};
}

static const struct refusal none = {0, 0, 0};

static int is_blank(const uint8_t *columns, size_t size)
{
    for (size_t i = 0; i < size; i++)
        if (columns[i] != ' ')
            return 0;
    return 1;
}

// A number that ends in the last of its columns, with blanks before it, no sign and no zero in front.
static int read_number(const uint8_t *columns, unsigned width, size_t *number)
{
    unsigned i = 0;
    while (i < width && columns[i] == ' ')
        i++;
    if (i == width || (columns[i] == '0' && i + 1 < width))
        return 0;
    for (*number = 0; i < width; i++) {
        if (columns[i] < '0' || columns[i] > '9')
            return 0;
        *number = *number * 10 + (columns[i] - '0');
    }
    return 1;
}

static void write_number(uint8_t *columns, unsigned width, size_t number)
{
    memset(columns, ' ', width);
    do {
        columns[--width] = (uint8_t)('0' + number % 10);
        number /= 10;
    } while (number);
}

// Two numbers from a column on, a blank before each and nothing behind them.
static int read_numbers(const uint8_t *card, const struct form *f, unsigned column, size_t *first, size_t *second)
{
    const uint8_t *at = card + column - 1;
    unsigned end = column - 1 + 2 * f->width + 1;
    return at[-1] == ' ' && read_number(at, f->width, first) && at[f->width] == ' ' &&
           read_number(at + f->width + 1, f->width, second) && is_blank(card + end, CARD_SIZE - end);
}

static void write_numbers(uint8_t *card, const struct form *f, unsigned column, size_t first, size_t second)
{
    write_number(card + column - 1, f->width, first);
    write_number(card + column + f->width, f->width, second);
}

static void write_trailer(uint8_t *card, const struct form *f, size_t first, size_t entries)
{
    memset(card, ' ', CARD_SIZE);
    memcpy(card, f->trailer, CODE_SIZE);
    write_numbers(card, f, TRAILER_NUMBERS, first, entries);
}

// The directory card of a header that stands from a card on.
static void write_entry(uint8_t *card, const struct form *f, const uint8_t *header, size_t first, size_t cards)
{
    memset(card, ' ', CARD_SIZE);
    memcpy(card, f->entry, CODE_SIZE);
    memcpy(card + NAME - 1, header + LINE_NAME - 1, NAME_SIZE);
    memcpy(card + SEQUENCE - 1, header + LINE_SEQUENCE - 1, SEQUENCE_SIZE);
    write_numbers(card, f, ENTRY_NUMBERS, first, cards);
}

static const uint8_t *card_in(const uint8_t *volume, size_t card)
{
    return volume + (card - 1) * CARD_SIZE;
}

static int has_code(const uint8_t *card, const char *code)
{
    return memcmp(card, code, CODE_SIZE) == 0;
}

// What a trailer says: the volume's form, its first directory card, how many there are.
struct directory {
    const struct form *form;
    size_t first, entries;
};

// The form that the last card's code names.
static const struct form *form_of(const uint8_t *trailer)
{
    for (const struct form *f = forms; f < forms + FORMS; f++)
        if (has_code(trailer, f->trailer))
            return f;
    return NULL;
}

// Whether a directory card has the code of another form's.
static int is_mixed(const uint8_t *volume, const struct directory *l)
{
    for (size_t card = l->first; card < l->first + l->entries; card++)
        for (const struct form *f = forms; f < forms + FORMS; f++)
            if (f != l->form && has_code(card_in(volume, card), f->entry))
                return 1;
    return 0;
}

// 18: the stated number, the trailer and what it points at.
static int is_pointed(const uint8_t *volume, size_t size, size_t stated, struct directory *l)
{
    if (stated == 0 || stated > size / CARD_SIZE)
        return 0;
    const uint8_t *trailer = card_in(volume, stated);
    l->form = form_of(trailer);
    return l->form && stated <= l->form->most && read_numbers(trailer, l->form, TRAILER_NUMBERS, &l->first, &l->entries) &&
           l->first >= 1 && l->first + l->entries == stated && !is_mixed(volume, l);
}

// The line that a directory card names; 0 where the card is malformed.
static int read_entry(const uint8_t *volume, const struct directory *l, size_t place, struct line *line)
{
    line->entry = l->first + place - 1;
    const uint8_t *card = card_in(volume, line->entry);
    return has_code(card, l->form->entry) && card[NAME - 2] == ' ' && card[SEQUENCE - 2] == ' ' &&
           read_numbers(card, l->form, ENTRY_NUMBERS, &line->first, &line->cards);
}

// 19: the directory names all cards before it once, in order, each header with the name and sequence of its first card.
static int is_covered(const uint8_t *volume, const struct directory *l)
{
    size_t next = 1;
    for (size_t place = 1; place <= l->entries; place++) {
        struct line line;
        if (!read_entry(volume, l, place, &line) || line.first != next || line.cards == 0 || line.cards > l->first - next)
            return 0;
        const uint8_t *entry = card_in(volume, line.entry), *header = card_in(volume, line.first);
        if (memcmp(entry + NAME - 1, header + LINE_NAME - 1, NAME_SIZE) != 0 ||
            memcmp(entry + SEQUENCE - 1, header + LINE_SEQUENCE - 1, SEQUENCE_SIZE) != 0)
            return 0;
        next += line.cards;
    }
    return next == l->first;
}

// A header by itself, with the most cards that the form allows.
static struct refusal judge_header(const struct form *f, const uint8_t *header, size_t size)
{
    if (size % CARD_SIZE == 0 && size / CARD_SIZE > f->largest)
        return refuse(3);
    return check_header(header, size);
}

// The whole volume.
static struct refusal judge_volume(const uint8_t *volume, size_t size, size_t stated, struct directory *l)
{
    if (!is_pointed(volume, size, stated, l))
        return refuse(18);
    if (!is_covered(volume, l))
        return refuse(19);
    for (size_t place = 1; place <= l->entries; place++) {
        struct line line;
        read_entry(volume, l, place, &line);
        struct refusal r = judge_header(l->form, card_in(volume, line.first), line.cards * CARD_SIZE);
        if (r.number)
            return r;
    }
    return none;
}

struct refusal empty_volume(uint8_t *buffer, size_t size, size_t *cards)
{
    if (size < CARD_SIZE)
        return refuse(20);
    write_trailer(buffer, &forms[OLD], 1, 0);
    *cards = 1;
    return none;
}

struct refusal lines_in(const uint8_t *volume, size_t size, size_t stated, size_t *lines)
{
    struct directory l;
    struct refusal r = judge_volume(volume, size, stated, &l);
    if (r.number == 0)
        *lines = l.entries;
    return r;
}

struct refusal line_at(const uint8_t *volume, size_t size, size_t stated, size_t place, struct line *line)
{
    struct directory l;
    struct refusal r = judge_volume(volume, size, stated, &l);
    if (r.number)
        return r;
    if (place == 0 || place > l.entries)
        return refuse(13);
    read_entry(volume, &l, place, line);
    return none;
}

struct refusal append_line(uint8_t *buffer, size_t size, size_t stated, const uint8_t *header, size_t header_size, size_t *cards)
{
    struct directory l;
    size_t more = header_size / CARD_SIZE;
    struct refusal r = judge_volume(buffer, size, stated, &l);
    if (r.number == 0)
        r = judge_header(l.form, header, header_size);
    if (r.number)
        return r;
    *cards = stated + more + 1;
    if (*cards > l.form->most || *cards > size / CARD_SIZE)
        return refuse(20);
    // the directory behind the new header, and then the new entry and the new trailer
    uint8_t *body_end = buffer + (l.first - 1) * CARD_SIZE, *entries = body_end + header_size;
    memmove(entries, body_end, l.entries * CARD_SIZE);
    memcpy(body_end, header, header_size);
    write_entry(entries + l.entries * CARD_SIZE, l.form, header, l.first, more);
    write_trailer(buffer + (*cards - 1) * CARD_SIZE, l.form, l.first + more, l.entries + 1);
    return none;
}

// Directory and trailer written anew in a form.
static void rewrite(uint8_t *buffer, size_t stated, const struct directory *l, const struct form *to)
{
    for (size_t place = 1; place <= l->entries; place++) {
        struct line line;
        read_entry(buffer, l, place, &line);
        write_entry(buffer + (line.entry - 1) * CARD_SIZE, to, card_in(buffer, line.first), line.first, line.cards);
    }
    write_trailer(buffer + (stated - 1) * CARD_SIZE, to, l->first, l->entries);
}

// Whether a form can hold a volume: its cards, and those of each header.
static int holds(const struct form *f, const uint8_t *volume, size_t stated, const struct directory *l)
{
    for (size_t place = 1; place <= l->entries; place++) {
        struct line line;
        read_entry(volume, l, place, &line);
        if (line.cards > f->largest)
            return 0;
    }
    return stated <= f->most;
}

static struct refusal convert(uint8_t *buffer, size_t size, size_t stated, const struct form *to, size_t *cards)
{
    struct directory l;
    struct refusal r = judge_volume(buffer, size, stated, &l);
    if (r.number)
        return r;
    if (!holds(to, buffer, stated, &l))
        return refuse(21);
    if (l.form != to)
        rewrite(buffer, stated, &l, to);
    *cards = stated;
    return none;
}

struct refusal widen_volume(uint8_t *buffer, size_t size, size_t stated, size_t *cards)
{
    return convert(buffer, size, stated, &forms[WIDE], cards);
}

struct refusal narrow_volume(uint8_t *buffer, size_t size, size_t stated, size_t *cards)
{
    return convert(buffer, size, stated, &forms[OLD], cards);
}

// The most lines: a header that is accepted has nine cards or more.
enum { MOST_LINES = MOST_WIDE / 9 };

// Whether two first cards have the same name and sequence number, as fields are read.
static int is_same_line(const uint8_t *one, const uint8_t *other)
{
    struct value a, b;
    const uint8_t *name, *other_name;
    size_t size = read_text(one, CARD_SIZE, 1, 0, &name), other_size = read_text(other, CARD_SIZE, 1, 0, &other_name);
    read_field(one, CARD_SIZE, 2, 0, &a);
    read_field(other, CARD_SIZE, 2, 0, &b);
    return size == other_size && (size == 0 || memcmp(name, other_name, size) == 0) && a.kind == b.kind &&
           (a.kind == VALUE_ABSENT || a.units == b.units);
}

// The lines that no later one supersedes.
static size_t keep_last(const uint8_t *volume, const struct directory *l, struct line *kept)
{
    size_t count = 0;
    for (size_t place = 1; place <= l->entries; place++) {
        struct line line, later;
        int superseded = 0;
        read_entry(volume, l, place, &line);
        for (size_t next = place + 1; next <= l->entries && !superseded; next++) {
            read_entry(volume, l, next, &later);
            superseded = is_same_line(card_in(volume, line.first), card_in(volume, later.first));
        }
        if (!superseded)
            kept[count++] = line;
    }
    return count;
}

struct refusal compact_volume(uint8_t *buffer, size_t size, size_t stated, size_t *cards)
{
    struct directory l;
    struct line kept[MOST_LINES];
    size_t next = 1;
    struct refusal r = judge_volume(buffer, size, stated, &l);
    if (r.number)
        return r;
    size_t count = keep_last(buffer, &l, kept);
    for (size_t k = 0; k < count; k++) {
        memmove(buffer + (next - 1) * CARD_SIZE, card_in(buffer, kept[k].first), kept[k].cards * CARD_SIZE);
        kept[k].first = next;
        next += kept[k].cards;
    }
    for (size_t k = 0; k < count; k++)
        write_entry(buffer + (next - 1 + k) * CARD_SIZE, l.form, card_in(buffer, kept[k].first), kept[k].first, kept[k].cards);
    *cards = next + count;
    write_trailer(buffer + (*cards - 1) * CARD_SIZE, l.form, next, count);
    memset(buffer + *cards * CARD_SIZE, ' ', (stated - *cards) * CARD_SIZE);
    return none;
}
