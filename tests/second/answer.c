// Answers a script of commands, one on each line of standard input, as the programs test_card and test_header do,
// or, with the argument ties, as test_tie does.
//
// field N FORM card          what stands in field N
// text N FORM card           its text
// open |code| card           the card opened with a code
// put N FORM value card      the card with a value put into field N
// write N FORM |text| card   the card with a text put into field N
// judge FORM card            the card's first offence by itself, FORM being 0, 1 or ?
// keep N                     a header of the first N cards, or of all; what the check says of it
// add N card                 a header with a card, or any columns, put behind it N times; the same
//
// With ties the answer to these two is the number of bytes, and there are
// check N                    the number of broken ties, and a list of N numbers as the check leaves it
// sum N                      the same with one number for the whole list
// find CLASS KEY             what the header says of a key: whole N, pair N M, text |bytes|; or streamer, node, motion or
//                            observation and N
#include "../../second/ties.h"

#include <stdio.h>
#include <stdlib.h>
#include <string.h>

enum { LINE_SIZE = 4096, COLUMNS = 128, HEADER_SIZE = 327936, LIST_SIZE = 16384 };

// A part of a line.
struct part {
    const uint8_t *at;
    size_t size;
};

// Bytes that a part between bars stands for.
struct bytes {
    uint8_t at[COLUMNS];
    size_t size;
};

static size_t place(struct part s, uint8_t b)
{
    size_t i = 0;
    while (i < s.size && s.at[i] != b)
        i++;
    return i;
}

static struct part front(struct part s, size_t n)
{
    return (struct part){s.at, n < s.size ? n : s.size};
}

static struct part from(struct part s, size_t n)
{
    return n < s.size ? (struct part){s.at + n, s.size - n} : (struct part){s.at + s.size, 0};
}

static struct part word(struct part s)
{
    return front(s, place(s, ' '));
}

static struct part next(struct part s)
{
    return from(s, place(s, ' ') + 1);
}

static int is(struct part s, const char *text)
{
    return s.size == strlen(text) && memcmp(s.at, text, s.size) == 0;
}

static int number_in(struct part s, uint64_t *number)
{
    uint64_t n = 0;
    if (s.size == 0)
        return 0;
    for (size_t i = 0; i < s.size; i++) {
        unsigned digit = (unsigned)(s.at[i] - '0');
        if (digit > 9 || n > (UINT64_MAX - digit) / 10)
            return 0;
        n = n * 10 + digit;
    }
    *number = n;
    return 1;
}

static int signed_in(struct part s, int64_t *number)
{
    int minus = s.size > 0 && s.at[0] == '-';
    uint64_t n;
    if (!number_in(from(s, (size_t)minus), &n) || n > (uint64_t)INT64_MAX + (uint64_t)minus)
        return 0;
    *number = minus ? (n == 0 ? 0 : -(int64_t)(n - 1) - 1) : (int64_t)n;
    return 1;
}

static int small_in(struct part s, uint32_t *number)
{
    uint64_t n;
    if (!number_in(s, &n) || n > UINT32_MAX)
        return 0;
    *number = (uint32_t)n;
    return 1;
}

// absent, whole UNITS, decimal UNITS PLACES, angle THOUSANDTHS, date YEAR MONTH DAY, text FIRST LAST
static int value_in(struct part s, struct value *v)
{
    struct part name = word(s), rest = next(s), more = next(rest);
    memset(v, 0, sizeof *v);
    if (is(s, "absent"))
        return 1;
    if (is(name, "whole")) {
        v->kind = VALUE_WHOLE;
        return signed_in(rest, &v->units);
    }
    if (is(name, "decimal")) {
        v->kind = VALUE_DECIMAL;
        return signed_in(word(rest), &v->units) && number_in(more, &v->places);
    }
    if (is(name, "angle")) {
        v->kind = VALUE_ANGLE;
        return signed_in(rest, &v->units);
    }
    if (is(name, "date")) {
        v->kind = VALUE_DATE;
        return small_in(word(rest), &v->year) && small_in(word(more), &v->month) && small_in(next(more), &v->day);
    }
    if (is(name, "text")) {
        v->kind = VALUE_TEXT;
        return number_in(word(rest), &v->first) && number_in(more, &v->last);
    }
    return 0;
}

static uint8_t meant(uint8_t b)
{
    return b == '[' ? 0 : b == '{' ? 31 : b == '}' ? 127 : b == ']' ? 255 : b;
}

static uint8_t shown(uint8_t b)
{
    return b == 0 ? '[' : b == 31 ? '{' : b == 127 ? '}' : b == 255 ? ']' : b;
}

// What stands between a bar and an end.
static int columns_in(struct part s, uint8_t end, struct bytes *b)
{
    if (s.size < 2 || s.at[0] != '|' || s.at[s.size - 1] != end || s.size - 2 > COLUMNS)
        return 0;
    b->size = s.size - 2;
    for (size_t i = 0; i < b->size; i++)
        b->at[i] = meant(s.at[i + 1]);
    return 1;
}

// A card: |columns| as they are, or |columns> with blanks up to the eightieth.
static int card_in(struct part s, struct bytes *b)
{
    if (columns_in(s, '|', b))
        return 1;
    if (!columns_in(s, '>', b) || b->size > CARD_SIZE)
        return 0;
    memset(b->at + b->size, ' ', CARD_SIZE - b->size);
    b->size = CARD_SIZE;
    return 1;
}

// Where the first of two parts between bars ends: before the first blank that has a bar on either side.
static size_t seam(struct part s)
{
    for (size_t i = 2; i + 1 < s.size; i++)
        if (s.at[i - 1] == '|' && s.at[i] == ' ' && s.at[i + 1] == '|')
            return i;
    return s.size;
}

static void say_columns(const uint8_t *s, size_t n)
{
    putchar('|');
    for (size_t i = 0; i < n; i++)
        putchar(shown(s[i]));
    putchar('|');
}

static void say_refused(struct refusal r)
{
    printf("refused %u %u %u", (unsigned)r.number, (unsigned)r.card, (unsigned)r.column);
}

static void say_value(const struct value *v)
{
    switch (v->kind) {
    case VALUE_ABSENT: printf("absent"); break;
    case VALUE_WHOLE: printf("whole %lld", (long long)v->units); break;
    case VALUE_DECIMAL: printf("decimal %lld %llu", (long long)v->units, (unsigned long long)v->places); break;
    case VALUE_ANGLE: printf("angle %lld", (long long)v->units); break;
    case VALUE_DATE: printf("date %u %u %u", (unsigned)v->year, (unsigned)v->month, (unsigned)v->day); break;
    case VALUE_TEXT: printf("text %llu %llu", (unsigned long long)v->first, (unsigned long long)v->last); break;
    }
    if (v->misplaced)
        printf(" misplaced");
}

static void say_card(struct refusal r, const struct bytes *card)
{
    if (r.number)
        say_refused(r);
    else
        printf("done");
    putchar(' ');
    say_columns(card->at, card->size);
}

// Each command answers whether it was one.

static int field_command(struct part args, int text_only)
{
    uint64_t number, form;
    struct bytes card;
    struct value v;
    const uint8_t *text;
    if (!number_in(word(args), &number) || !number_in(word(next(args)), &form) || !card_in(next(next(args)), &card))
        return 0;
    if (text_only) {
        size_t length = read_text(card.at, card.size, number, form, &text);
        say_columns(text, length);
        return 1;
    }
    struct refusal r = read_field(card.at, card.size, number, form, &v);
    if (r.number)
        say_refused(r);
    else
        say_value(&v);
    return 1;
}

static int open_command(struct part args)
{
    struct bytes code, card;
    size_t end = seam(args);
    if (!columns_in(front(args, end), '|', &code) || !card_in(from(args, end + 1), &card))
        return 0;
    struct refusal r = open_card(code.at, code.size, card.at, card.size);
    say_card(r, &card);
    return 1;
}

static int put_command(struct part args)
{
    uint64_t number, form;
    struct value v;
    struct bytes card;
    struct part offer = next(next(args));
    size_t bar = place(offer, '|');
    if (!number_in(word(args), &number) || !number_in(word(next(args)), &form))
        return 0;
    if (bar == 0 || !value_in(front(offer, bar - 1), &v) || !card_in(from(offer, bar), &card))
        return 0;
    struct refusal r = put_value(card.at, card.size, number, form, &v);
    say_card(r, &card);
    return 1;
}

static int write_command(struct part args)
{
    uint64_t number, form;
    struct bytes text, card;
    struct part offer = next(next(args));
    size_t end = seam(offer);
    if (!number_in(word(args), &number) || !number_in(word(next(args)), &form))
        return 0;
    if (!columns_in(front(offer, end), '|', &text) || !card_in(from(offer, end + 1), &card))
        return 0;
    struct refusal r = put_text(card.at, card.size, number, form, text.at, text.size);
    say_card(r, &card);
    return 1;
}

static int judge_command(struct part args)
{
    struct part name = word(args);
    struct bytes card;
    unsigned form = is(name, "0") ? 0 : is(name, "1") ? 1 : FORM_UNKNOWN;
    if ((form == FORM_UNKNOWN && !is(name, "?")) || !card_in(next(args), &card))
        return 0;
    struct refusal r = judge_card(card.at, card.size, form);
    if (r.number)
        printf("offence %u %u", (unsigned)r.number, (unsigned)r.column);
    else
        printf("fine");
    return 1;
}

static uint8_t header[HEADER_SIZE];
static size_t header_size;
static int of_ties;

static void say_checked(void)
{
    if (of_ties) {
        printf("%zu", header_size);
        return;
    }
    struct refusal r = check_header(header, header_size);
    if (r.number)
        say_refused(r);
    else
        printf("accepted");
}

static int keep_command(struct part args)
{
    uint64_t cards;
    if (!number_in(args, &cards))
        return 0;
    if (cards <= header_size / CARD_SIZE)
        header_size = (size_t)cards * CARD_SIZE;
    say_checked();
    return 1;
}

static int add_command(struct part args)
{
    uint64_t times;
    struct bytes card;
    if (!number_in(word(args), &times) || !card_in(next(args), &card))
        return 0;
    for (; times && card.size <= HEADER_SIZE - header_size; times--) {
        memcpy(header + header_size, card.at, card.size);
        header_size += card.size;
    }
    say_checked();
    return 1;
}

// The list is just as long as is asked for, so that a build that looks for it sees a write behind its end.
static int check_command(struct part args, int whole)
{
    uint64_t asked, sum = 0;
    size_t faults;
    if (!number_in(args, &asked))
        return 0;
    size_t room = asked < LIST_SIZE ? (size_t)asked : LIST_SIZE;
    uint32_t *list = malloc(room * sizeof *list + 1);
    if (!list)
        exit(EXIT_FAILURE);
    for (size_t i = 0; i < room; i++)
        list[i] = (uint32_t)(90000 + i % 10000);
    struct refusal r = check_ties(header, header_size, list, room, &faults);
    if (r.number)
        say_refused(r);
    else
        printf("broken %zu", faults);
    for (size_t i = 0; i < room; i++) {
        sum = (sum * 31 + list[i]) % 1000000007;
        if (whole)
            printf(i % ENTRY_SIZE == 0 ? " | %u" : " %u", (unsigned)list[i]);
    }
    if (!whole)
        printf(" sum %u", (unsigned)sum);
    free(list);
    return 1;
}

// whole N, pair N M, text |bytes|
static int key_in(struct part s, struct key *key, struct bytes *text)
{
    struct part name = word(s), rest = next(s);
    memset(key, 0, sizeof *key);
    if (is(name, "whole")) {
        key->kind = KEY_WHOLE;
        return signed_in(rest, &key->first);
    }
    if (is(name, "pair")) {
        key->kind = KEY_PAIR;
        return signed_in(word(rest), &key->first) && signed_in(next(rest), &key->second);
    }
    key->kind = KEY_TEXT;
    if (!is(name, "text") || !columns_in(rest, '|', text))
        return 0;
    key->text = text->at;
    key->length = text->size;
    return 1;
}

// CLASS KEY, or a name and a number for the classes that have one.
static int question_in(struct part s, uint64_t *class, struct key *key, struct bytes *text)
{
    struct part name = word(s), rest = next(s);
    *class = is(name, "streamer") ? 2 : is(name, "node") ? 3 : is(name, "motion") ? 5 : is(name, "observation") ? 10 : 0;
    if (*class == 0)
        return number_in(name, class) && key_in(rest, key, text);
    memset(key, 0, sizeof *key);
    return signed_in(rest, &key->first);
}

static int find_command(struct part args)
{
    uint64_t class;
    struct key key;
    struct bytes text;
    struct defined d;
    if (!question_in(args, &class, &key, &text))
        return 0;
    struct refusal r = find_key(header, header_size, class, &key, &d);
    if (r.number)
        say_refused(r);
    else if (d.number == 0)
        printf("none");
    else if (d.number == 1)
        printf("only %u %u", (unsigned)d.card, (unsigned)d.column);
    else
        printf("several %zu", d.number);
    return 1;
}

static int tie_answer(struct part name, struct part args)
{
    if (is(name, "keep"))
        return keep_command(args);
    if (is(name, "add"))
        return add_command(args);
    if (is(name, "check"))
        return check_command(args, 1);
    if (is(name, "sum"))
        return check_command(args, 0);
    if (is(name, "find"))
        return find_command(args);
    return 0;
}

static int answer(struct part line)
{
    struct part name = word(line), args = next(line);
    if (of_ties)
        return tie_answer(name, args);
    if (is(name, "field"))
        return field_command(args, 0);
    if (is(name, "text"))
        return field_command(args, 1);
    if (is(name, "open"))
        return open_command(args);
    if (is(name, "put"))
        return put_command(args);
    if (is(name, "write"))
        return write_command(args);
    if (is(name, "judge"))
        return judge_command(args);
    if (is(name, "keep"))
        return keep_command(args);
    if (is(name, "add"))
        return add_command(args);
    return 0;
}

// Repeats a line, and answers it unless it is empty or a title.
static void reply(struct part line)
{
    fwrite(line.at, 1, line.size, stdout);
    if (line.size > 0 && line.at[0] != '#') {
        printf(" = ");
        if (!answer(line))
            putchar('?');
    }
    putchar('\n');
}

int main(int argc, char **argv)
{
    static uint8_t line[LINE_SIZE];
    of_ties = argc == 2 && strcmp(argv[1], "ties") == 0;
    size_t n = 0;
    int c;
    while ((c = getchar()) != EOF) {
        if (c == '\n') {
            reply((struct part){line, n});
            n = 0;
        } else if (n < LINE_SIZE) {
            line[n++] = (uint8_t)c;
        } else {
            fprintf(stderr, "a line is longer than %d bytes\n", LINE_SIZE);
            return EXIT_FAILURE;
        }
    }
    if (n > 0)
        reply((struct part){line, n});
    return ferror(stdin) || fflush(stdout) != 0 ? EXIT_FAILURE : EXIT_SUCCESS;
}
