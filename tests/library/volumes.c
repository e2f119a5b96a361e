// A season's volume: the library against the second implementation, on volumes of good and damaged headers, with every kind of
// damage to directory and trailer, any stated number, any place and buffers of any size. The volumes are laid here a third time,
// from their headers, and what the second implementation says of them is held to how they were made.
#define main volumes_generate_main
#include "../second/generate.c"
#undef main

#include "../../second/volume.h"
#include "compare.h"

// The most lines of a season and cards of its headers; the most cards of a header that is made; bytes behind what is lent; the
// most bytes of a case's buffer, and of one that a small volume needs.
enum { MOST_LINES = 60, MOST_SEASON = 20010, MOST_HEADER = 4200, BEHIND = 2 * CARD_SIZE };
enum { BUFFER = (MOST_SEASON + MOST_HEADER) * CARD_SIZE, SMALL_BUFFER = (2000 + MOST_HEADER) * CARD_SIZE };

// How a form is written: codes, width of numbers, limits.
static const struct shape {
    const char *entry, *trailer;
    unsigned width;
    size_t most, largest;
} shapes[] = {{"X0001", "X0009", 3, 999, 800}, {"X0011", "X0019", 5, 20000, 4096}};

static const struct shape *other_shape(const struct shape *shape)
{
    return &shapes[shape == shapes];
}

// Headers one behind the other, as a volume has them.
struct season {
    const struct shape *shape;
    uint8_t at[MOST_SEASON * CARD_SIZE];
    size_t lines, first[MOST_LINES], cards[MOST_LINES], total;
};

// A volume in a buffer of which so many bytes are lent: the cards that it has, those that are stated, its directory.
struct volume {
    uint8_t at[BUFFER];
    const struct shape *shape;
    size_t cards, stated, lent, first, entries;
};

static void die(const char *what, unsigned turn)
{
    printf("library: volumes: %s (turn %u)\n", what, turn);
    exit(EXIT_FAILURE);
}

// Seasons.

static void add_line(struct season *s, const uint8_t *header, size_t cards)
{
    s->first[s->lines] = s->total + 1;
    s->cards[s->lines++] = cards;
    memcpy(s->at + s->total * CARD_SIZE, header, cards * CARD_SIZE);
    s->total += cards;
}

static const uint8_t *line_of(const struct season *s, size_t k)
{
    return s->at + (s->first[k] - 1) * CARD_SIZE;
}

// A header that is accepted, filled up with comments to so many cards where they are more.
static size_t good_header(uint8_t *to, size_t cards)
{
    static struct made h;
    do {
        memset(&h, 0, sizeof h);
        good_opening(&h);
        good_rest(&h, below(8));
    } while (check_header(h.at[0], h.count * CARD_SIZE).number);
    memcpy(to, h.at, h.count * CARD_SIZE);
    for (; h.count < cards; h.count++)
        good_card(to + h.count * CARD_SIZE, COMMENT, 0);
    return h.count;
}

// One that is damaged, but still whole cards and not none.
static size_t damaged_header(uint8_t *to)
{
    static struct made h;
    do {
        make_header(&h);
        if (percent(20) && h.count > 0)
            damage_header(&h);
    } while (h.count == 0);
    memcpy(to, h.at, h.count * CARD_SIZE);
    return h.count;
}

// How many cards the next header is filled up to: mostly not at all, some to the limits of a header or a volume. In a large season
// all are, up to the last card or until less than a header's cards are left.
enum { AS_COMES, TO_THE_LAST, TO_SOME };
static size_t cards_wanted(const struct season *s, int large)
{
    size_t largest = s->shape->largest, left = s->shape->most - s->total - s->lines - 2;
    if (large)
        return left > 800 ? 800 - below(20) : large == TO_THE_LAST ? left : MOST_HEADER;
    switch (below(40)) {
    case 0: return largest + 1;
    case 1:
    case 2: return 760 + below(100);
    case 3: return left > largest ? largest : left;
    case 4: return left > largest ? largest - 1 : left - 1;
    case 5: return left > largest ? largest : left - 30 - below(30);
    default: return 0;
    }
}

// Gives a header the name and sequence number of an earlier line, spelled in another way or nearly the same.
static void rename_as(uint8_t *header, const uint8_t *earlier)
{
    static const char *const spellings[] = {"   1", "0001", "1   ", "  +1", " 1  ", "    ", "   0", "  -0", "   2"};
    memcpy(header + 28, earlier + 28, 16);
    memcpy(header + 45, percent(50) ? earlier + 45 : (const uint8_t *)spellings[below(9)], 4);
    switch (below(8)) {
    case 0: memset(header + 28, ' ', 16); break;
    case 1: header[43] = header[43] == ' ' ? 'x' : ' '; break;
    case 2: memcpy(header + 28, "Line", 4); break;
    case 3: memcpy(header + 28, "LINE", 4); break;
    }
}

// Whether two headers have the same name and sequence number.
static int is_same(const uint8_t *one, const uint8_t *other)
{
    char a[5] = {0}, b[5] = {0};
    memcpy(a, one + 45, 4);
    memcpy(b, other + 45, 4);
    int blank = strspn(a, " ") == 4, other_blank = strspn(b, " ") == 4;
    return memcmp(one + 28, other + 28, 16) == 0 && blank == other_blank && strtol(a, NULL, 10) == strtol(b, NULL, 10);
}

// Whether a volume with so many cards more, and another directory card, keeps to the form.
static int has_room(const struct season *s, size_t cards)
{
    return s->lines < MOST_LINES && s->total + cards + s->lines + 2 <= s->shape->most;
}

static void make_season(struct season *s, const struct shape *shape, int damaged, int large)
{
    static uint8_t header[MOST_HEADER * CARD_SIZE];
    s->shape = shape;
    s->lines = s->total = 0;
    for (unsigned n = percent(10) ? 0 : percent(5) || large ? 40 : 1 + below(6); n; n--) {
        size_t wanted = cards_wanted(s, large);
        int bad = damaged && percent(n == 1 ? 60 : large ? 2 : 30);
        size_t cards = bad ? damaged_header(header) : wanted < MOST_HEADER ? good_header(header, wanted) : 0;
        if (cards > 0 && s->lines > 0 && percent(60))
            rename_as(header, line_of(s, below((unsigned)s->lines)));
        if (cards > 0 && has_room(s, cards))
            add_line(s, header, cards);
    }
}

// Volumes.

static void put_number(uint8_t *columns, unsigned width, size_t n)
{
    char text[24];
    snprintf(text, sizeof text, "%*zu", (int)width, n);
    memcpy(columns, text, width);
}

static uint8_t *card_at(struct volume *v, size_t card)
{
    return v->at + (card - 1) * CARD_SIZE;
}

static void put_entry(struct volume *v, size_t card, const uint8_t *header, size_t first, size_t cards)
{
    uint8_t *at = memset(card_at(v, card), ' ', CARD_SIZE);
    memcpy(at, v->shape->entry, CODE_SIZE);
    memcpy(at + 6, header + 28, 16);
    memcpy(at + 23, header + 45, 4);
    put_number(at + 28, v->shape->width, first);
    put_number(at + 28 + v->shape->width + 1, v->shape->width, cards);
}

static void put_trailer(struct volume *v, size_t card, size_t first, size_t entries)
{
    uint8_t *at = memset(card_at(v, card), ' ', CARD_SIZE);
    memcpy(at, v->shape->trailer, CODE_SIZE);
    put_number(at + 6, v->shape->width, first);
    put_number(at + 6 + v->shape->width + 1, v->shape->width, entries);
}

static void fill(struct volume *v, unsigned turn, size_t size)
{
    for (size_t i = 0; i < size; i++)
        v->at[i] = (uint8_t)(i * 7 + turn);
}

// The volume of a season; the buffer behind it stays as it was.
static void lay(struct volume *v, const struct season *s)
{
    v->shape = s->shape;
    memcpy(v->at, s->at, s->total * CARD_SIZE);
    for (size_t k = 0; k < s->lines; k++)
        put_entry(v, s->total + 1 + k, line_of(s, k), s->first[k], s->cards[k]);
    v->first = s->total + 1;
    v->entries = s->lines;
    v->cards = v->stated = s->total + s->lines + 1;
    put_trailer(v, v->cards, v->first, v->entries);
}

// The refusal of a header in a volume of a form.
static struct refusal own_refusal(const struct shape *shape, const uint8_t *header, size_t size)
{
    if (size % CARD_SIZE == 0 && size / CARD_SIZE > shape->largest)
        return (struct refusal){3, 0, 0};
    return check_header(header, size);
}

// What a volume with a good directory has to be answered: the first refusal of a header in its turn.
static struct refusal first_refusal(const struct season *s)
{
    struct refusal r = {0, 0, 0};
    for (size_t k = 0; k < s->lines && r.number == 0; k++)
        r = own_refusal(s->shape, line_of(s, k), s->cards[k] * CARD_SIZE);
    return r;
}

// Damage. Each answers whether it could be done, to a volume whose numbers and directory were good.

static uint8_t *trailer_of(struct volume *v)
{
    return card_at(v, v->cards);
}

static uint8_t *some_entry(struct volume *v)
{
    return v->entries ? card_at(v, v->first + below((unsigned)v->entries)) : NULL;
}

static int other_code(uint8_t *card, const char *other)
{
    if (card == NULL)
        return 0;
    if (percent(50)) {
        memcpy(card, other, CODE_SIZE);
        return 1;
    }
    card[below(CODE_SIZE)] ^= (uint8_t)(1 + below(255));
    return 1;
}

// Something in a column that has to be blank.
static int spoil(uint8_t *card, const uint8_t *columns, size_t count, unsigned numbers, unsigned width)
{
    if (card == NULL)
        return 0;
    unsigned behind = numbers + 2 * width + 1, n = below((unsigned)count + 2);
    unsigned column = n < count ? columns[n] : n == count ? numbers + width : behind + below(CARD_SIZE - behind + 1);
    card[column - 1] = percent(70) ? (uint8_t)(33 + below(94)) : (uint8_t)(128 + below(128));
    return 1;
}

// A number spelled otherwise than it is written: zeros in front, a sign, at the left, a blank or a letter in it, none at all.
static int respell(uint8_t *columns, unsigned width)
{
    unsigned blanks = 0;
    while (blanks < width && columns[blanks] == ' ')
        blanks++;
    if (blanks == width)
        return 0;
    switch (below(6)) {
    case 0: return blanks ? (memset(columns, '0', blanks), 1) : 0;
    case 1: return blanks ? (columns[blanks - 1] = one_of("+-0."), 1) : 0;
    case 2: return blanks ? (memmove(columns, columns + blanks, width - blanks), memset(columns + width - blanks, ' ', blanks), 1) : 0;
    case 3: columns[width - 1] = one_of(" /:.xO"); return 1;
    case 4: memset(columns, ' ', width); return 1;
    default: columns[blanks] = (uint8_t)(128 + below(128)); return 1;
    }
}

// A number changed by one or a few, up or down, while it stays one of these columns.
static int change_by(uint8_t *columns, unsigned width, size_t number, int by)
{
    size_t limit = 1;
    for (unsigned i = 0; i < width; i++)
        limit *= 10;
    size_t changed = number + (size_t)(int64_t)by;
    if ((by < 0 && number < (size_t)-by) || changed >= limit || by == 0)
        return 0;
    put_number(columns, width, changed);
    return 1;
}

static int no_card(struct volume *v)
{
    v->stated = 0;
    return 1;
}

static int too_many_stated(struct volume *v)
{
    // some wrap around to few bytes when they are multiplied by 80
    static const uint64_t many[] = {UINT64_MAX, (uint64_t)1 << 63, UINT64_MAX / 80 + 1, UINT64_MAX / 80 + 2, (uint64_t)1 << 32,
                                    ((uint64_t)1 << 60) + 1};
    size_t one_more = v->shape->most + 1;
    if (percent(60)) {
        v->stated = (size_t)many[below(6)];
        return 1;
    }
    // one card too many, behind which the buffer still goes on
    v->stated = one_more;
    v->lent = one_more * CARD_SIZE;
    put_trailer(v, one_more, one_more - 1, 1);
    return 1;
}

static int more_than_lent(struct volume *v)
{
    v->lent = v->cards * CARD_SIZE - 1 - below(percent(50) ? 1 : (unsigned)v->cards * CARD_SIZE);
    return 1;
}

static int one_card_off(struct volume *v)
{
    v->stated = percent(50) ? v->cards + 1 : v->cards - 1;
    return 1;
}

static int trailer_code(struct volume *v)
{
    return other_code(trailer_of(v), v->shape->entry);
}

static int trailer_column(struct volume *v)
{
    return spoil(trailer_of(v), (const uint8_t[]){6}, 1, 7, v->shape->width);
}

static int trailer_spelling(struct volume *v)
{
    return respell(trailer_of(v) + 6 + (percent(50) ? 0 : v->shape->width + 1), v->shape->width);
}

static int trailer_elsewhere(struct volume *v)
{
    unsigned w = v->shape->width;
    int by = (int)below(5) - 2;
    switch (below(3)) {
    case 0: return change_by(trailer_of(v) + 6, w, v->first, by);
    case 1: return change_by(trailer_of(v) + 6 + w + 1, w, v->entries, by);
    default: put_trailer(v, v->cards, 0, v->cards); return 1;
    }
}

// The trailer points well, but at more or fewer cards than the directory has.
static int directory_moved(struct volume *v)
{
    size_t first = percent(50) ? v->first - 1 : v->first + 1;
    if (first == 0 || first > v->cards)
        return 0;
    put_trailer(v, v->cards, first, v->cards - first);
    return 1;
}

// The other form's trailer code too; not its directory code, which is mixed.
static int entry_code(struct volume *v)
{
    uint8_t *entry = some_entry(v);
    int done = other_code(entry, percent(50) ? v->shape->trailer : other_shape(v->shape)->trailer);
    if (done && memcmp(entry, other_shape(v->shape)->entry, CODE_SIZE) == 0)
        entry[0] = 'x';
    return done;
}

static int mixed(struct volume *v)
{
    uint8_t *entry = some_entry(v);
    if (entry == NULL)
        return 0;
    memcpy(entry, other_shape(v->shape)->entry, CODE_SIZE);
    if (percent(50))
        memset(entry + CODE_SIZE, 'x', CARD_SIZE - CODE_SIZE);
    // another that is malformed makes it no 19
    if (percent(50))
        some_entry(v)[CARD_SIZE - 1] = 'x';
    return 1;
}

static int entry_column(struct volume *v)
{
    return spoil(some_entry(v), (const uint8_t[]){6, 23, 28}, 3, 29, v->shape->width);
}

static int entry_spelling(struct volume *v)
{
    uint8_t *entry = some_entry(v);
    return entry && respell(entry + 28 + (percent(50) ? 0 : v->shape->width + 1), v->shape->width);
}

static int entry_number(struct volume *v)
{
    uint8_t *entry = some_entry(v);
    if (entry == NULL)
        return 0;
    uint8_t *columns = entry + 28 + (percent(50) ? 0 : v->shape->width + 1);
    char text[8] = {0};
    memcpy(text, columns, v->shape->width);
    return change_by(columns, v->shape->width, strtoul(text, NULL, 10), (int)below(5) - 2);
}

static int entries_swapped(struct volume *v)
{
    uint8_t kept[CARD_SIZE];
    if (v->entries < 2)
        return 0;
    uint8_t *one = card_at(v, v->first + below((unsigned)v->entries - 1)), *next = one + CARD_SIZE;
    memcpy(kept, one, CARD_SIZE);
    memcpy(one, next, CARD_SIZE);
    memcpy(next, kept, CARD_SIZE);
    return 1;
}

static int name_differs(struct volume *v)
{
    static const uint8_t places[] = {6, 7, 20, 21, 23, 24, 25, 26};
    uint8_t *entry = some_entry(v);
    if (entry == NULL)
        return 0;
    entry[places[below(8)]] ^= (uint8_t)(1 + below(255));
    return 1;
}

// One directory card more: of a header without cards, or the same again.
static int entry_added(struct volume *v)
{
    uint8_t *entry = some_entry(v);
    if (entry == NULL || v->cards >= v->shape->most)
        return 0;
    memmove(entry + CARD_SIZE, entry, (size_t)(card_at(v, v->cards) - entry));
    if (percent(70))
        put_number(entry + 28 + v->shape->width + 1, v->shape->width, 0);
    put_trailer(v, v->cards + 1, v->first, v->entries + 1);
    v->stated = v->cards + 1;
    if (v->lent < v->stated * CARD_SIZE)
        v->lent = v->stated * CARD_SIZE;
    return 1;
}

// A card that no entry names, before the directory.
static int card_left_over(struct volume *v)
{
    if (v->cards >= v->shape->most)
        return 0;
    memmove(card_at(v, v->first + 1), card_at(v, v->first), v->entries * CARD_SIZE);
    put_trailer(v, v->cards + 1, v->first + 1, v->entries);
    v->stated = v->cards + 1;
    if (v->lent < v->stated * CARD_SIZE)
        v->lent = v->stated * CARD_SIZE;
    return 1;
}

static const struct damage {
    const char *name;
    uint32_t number;
    int (*done)(struct volume *);
} damages[] = {{"none stated", 18, no_card},
               {"too many stated", 18, too_many_stated},
               {"more than lent", 18, more_than_lent},
               {"a card off", 18, one_card_off},
               {"trailer code", 18, trailer_code},
               {"trailer column", 18, trailer_column},
               {"trailer spelling", 18, trailer_spelling},
               {"trailer elsewhere", 18, trailer_elsewhere},
               {"mixed", 18, mixed},
               {"directory moved", 19, directory_moved},
               {"entry code", 19, entry_code},
               {"entry column", 19, entry_column},
               {"entry spelling", 19, entry_spelling},
               {"entry number", 19, entry_number},
               {"entries swapped", 19, entries_swapped},
               {"name differs", 19, name_differs},
               {"entry added", 19, entry_added},
               {"card left over", 19, card_left_over}};
enum { DAMAGES = sizeof damages / sizeof *damages };
static unsigned long done[DAMAGES];

// How often each operation came to each end; the volume itself was in order where an append was refused.
enum volume_operation { EMPTY, LINES, LINE_AT, APPEND, WIDEN, NARROW, COMPACT, VOLUME_OPERATIONS };
static const char *const volume_names[VOLUME_OPERATIONS] = {"volume empty",  "volume lines", "volume line",
                                                            "volume append", "volume widen", "volume narrow",
                                                            "volume compact"};
static unsigned long came[VOLUME_OPERATIONS][22], by_header[22], filled[2], one_too_many[2];
// Wide volumes that the old form cannot hold: for their cards, and for those of a header alone.
static unsigned long too_many_cards, too_long_header;

static void hold_empty(struct volume *v, struct volume *is, unsigned turn)
{
    static const size_t sizes_lent[] = {0, 1, 79, 80, 81, 160, 80};
    size_t lent = sizes_lent[turn % 7], cards = 0;
    struct input in = {volume_names[EMPTY], v->at, lent, v->at, 0, {turn}};
    struct lent l = lend(turn);
    struct refusal r = empty_volume(v->at, lent, &cards);
    int64_t said = p294_volume_empty(is->at, lent, l.numbers, l.room);
    hold(&in, r.number ? refused(r) : (struct expected){(int64_t)cards, {0, 0, 0}}, said, &l);
    hold_bytes(&in, v->at, is->at, lent + BEHIND);
    came[EMPTY][r.number]++;
}

static struct refusal hold_lines(const struct volume *v, unsigned turn, size_t *lines)
{
    struct input in = {volume_names[LINES], v->at, v->lent, v->at, 0, {v->stated, turn}};
    struct lent l = lend(turn);
    struct refusal r = lines_in(v->at, v->lent, v->stated, lines);
    int64_t said = p294_volume_lines(v->at, v->lent, v->stated, l.numbers, l.room);
    hold(&in, r.number ? refused(r) : (struct expected){(int64_t)*lines, {0, 0, 0}}, said, &l);
    came[LINES][r.number]++;
    return r;
}

static struct refusal hold_line(const struct volume *v, size_t place, unsigned turn, struct line *line)
{
    struct input in = {volume_names[LINE_AT], v->at, v->lent, v->at, 0, {v->stated, place, turn}};
    struct lent l = lend(turn + (unsigned)place);
    struct refusal r = line_at(v->at, v->lent, v->stated, place, line);
    int64_t said = p294_volume_line(v->at, v->lent, v->stated, place, l.numbers, l.room);
    struct expected should = {(int64_t)line->cards, {(int64_t)line->first, (int64_t)line->entry, 0}};
    hold(&in, r.number ? refused(r) : should, said, &l);
    came[LINE_AT][r.number]++;
    return r;
}

// A place that a volume of so many lines has not.
static size_t no_place(size_t lines)
{
    size_t places[] = {0, lines + 1, SIZE_MAX, (size_t)1 << 63};
    return places[below(4)];
}

// A season's volume as it was made: as many lines as it has, each where it was laid, no further one.
static void hold_season(const struct volume *v, const struct season *s, unsigned turn)
{
    size_t lines = 0;
    struct line line = {0, 0, 0};
    struct refusal should = first_refusal(s), r = hold_lines(v, turn, &lines);
    if (r.number != should.number || r.card != should.card || r.column != should.column)
        die("a volume is not refused as its headers are", turn);
    if (r.number) {
        hold_line(v, percent(50) ? 1 : no_place(s->lines), turn, &line);
        return;
    }
    if (lines != s->lines)
        die("another number of lines", turn);
    for (size_t k = 0; k < s->lines; k++)
        if (hold_line(v, k + 1, turn, &line).number || line.first != s->first[k] || line.cards != s->cards[k] ||
            line.entry != v->first + k)
            die("a line stands elsewhere", turn);
    if (hold_line(v, no_place(lines), turn, &line).number != 13)
        die("a place that there is not", turn);
}

// A header to append: good, damaged, of an odd length, of none, too long, or as long as the volume takes.
static size_t header_to_append(uint8_t *to, const struct season *s)
{
    size_t left = s->shape->most - s->total - s->lines - 2;
    if (left < 800 && percent(60))
        return good_header(to, left + below(2)) * CARD_SIZE;
    switch (below(14)) {
    case 0: return 0;
    case 1: return good_header(to, 0) * CARD_SIZE - 1 - below(79);
    case 2: return good_header(to, s->shape->largest + below(2)) * CARD_SIZE;
    case 3:
    case 4:
    case 5: return damaged_header(to) * CARD_SIZE;
    default: return good_header(to, 0) * CARD_SIZE;
    }
}

// Bytes to lend for an append that wants so many cards: often just these, a card or a byte less, some odd bytes more.
static size_t lent_about(size_t cards, size_t at_least)
{
    size_t bytes[] = {cards * CARD_SIZE, cards * CARD_SIZE - 1, (cards - 1) * CARD_SIZE, cards * CARD_SIZE + below(CARD_SIZE),
                      (cards + 2) * CARD_SIZE + below(CARD_SIZE)};
    size_t lent = bytes[below(5)];
    return lent < at_least ? at_least : lent;
}

// One append by both, and held to the season with one line more, laid anew.
static struct refusal hold_append(struct volume *v, struct season *s, int good, unsigned turn)
{
    static struct volume before, is, laid;
    static uint8_t header[MOST_HEADER * CARD_SIZE];
    size_t size = header_to_append(header, s), cards = 0, wanted = v->cards + size / CARD_SIZE + 1;
    if (v->lent == v->cards * CARD_SIZE)
        v->lent = lent_about(wanted, v->lent);
    memcpy(before.at, v->at, v->lent + BEHIND);
    memcpy(is.at, v->at, v->lent + BEHIND);
    struct input in = {volume_names[APPEND], before.at, v->lent, header, size, {v->stated, turn}};
    struct lent l = lend(turn);
    struct refusal own = own_refusal(s->shape, header, size);
    struct refusal r = append_line(v->at, v->lent, v->stated, header, size, &cards);
    int64_t said = p294_volume_append(is.at, v->lent, v->stated, header, size, l.numbers, l.room);
    hold(&in, r.number ? refused(r) : (struct expected){(int64_t)cards, {0, 0, 0}}, said, &l);
    hold_bytes(&in, v->at, is.at, v->lent + BEHIND);
    came[APPEND][r.number]++;
    if (!good)
        return r;
    by_header[r.number]++;
    uint32_t should = own.number ? own.number : wanted > s->shape->most || wanted > v->lent / CARD_SIZE ? 20 : 0;
    if (r.number != should)
        die("an append is not refused as it has to be", turn);
    filled[s->shape - shapes] += r.number == 0 && cards == s->shape->most;
    one_too_many[s->shape - shapes] += r.number == 20 && wanted == s->shape->most + 1 && wanted <= v->lent / CARD_SIZE;
    if (r.number)
        return r;
    add_line(s, header, size / CARD_SIZE);
    memcpy(laid.at, before.at, v->lent + BEHIND);
    lay(&laid, s);
    if (cards != laid.cards || memcmp(laid.at, v->at, v->lent + BEHIND) != 0)
        die("an append is not the volume of one line more", turn);
    v->cards = v->stated = cards;
    v->first = laid.first;
    v->entries = laid.entries;
    return r;
}

// What is done to a volume in its own cards, by both.
static const struct {
    struct refusal (*second)(uint8_t *, size_t, size_t, size_t *);
    int64_t (*library)(uint8_t *, size_t, size_t, int64_t *, size_t);
} changes[VOLUME_OPERATIONS] = {[WIDEN] = {widen_volume, p294_volume_widen},
                                [NARROW] = {narrow_volume, p294_volume_narrow},
                                [COMPACT] = {compact_volume, p294_volume_compact}};

// One change of a copy by both. It is in `is` afterwards.
static struct refusal hold_change(enum volume_operation op, const struct volume *v, struct volume *is, unsigned turn)
{
    static struct volume should;
    struct input in = {volume_names[op], v->at, v->lent, v->at, 0, {v->stated, turn}};
    struct lent l = lend(turn);
    size_t cards = 0;
    memcpy(should.at, v->at, v->lent + BEHIND);
    memcpy(is->at, v->at, v->lent + BEHIND);
    struct refusal r = changes[op].second(should.at, v->lent, v->stated, &cards);
    int64_t said = changes[op].library(is->at, v->lent, v->stated, l.numbers, l.room);
    hold(&in, r.number ? refused(r) : (struct expected){(int64_t)cards, {0, 0, 0}}, said, &l);
    hold_bytes(&in, should.at, is->at, v->lent + BEHIND);
    came[op][r.number]++;
    is->lent = v->lent;
    is->cards = is->stated = cards;
    return r;
}

// Whether the old form can hold a season; why not is counted.
static int is_old(const struct season *s)
{
    int cards = s->total + s->lines + 1 > shapes[0].most, header = 0;
    for (size_t k = 0; k < s->lines; k++)
        header |= s->cards[k] > shapes[0].largest;
    too_many_cards += cards;
    too_long_header += header && !cards;
    return !cards && !header;
}

// A season's volume brought to both forms: as it is laid in that form, and back again to the very bytes.
static void hold_forms(const struct volume *v, const struct season *s, unsigned turn)
{
    static struct volume is, laid, back;
    static struct season in_form;
    struct refusal own = first_refusal(s);
    for (int to = 0; to < 2; to++) {
        struct refusal r = hold_change(to ? WIDEN : NARROW, v, &is, turn);
        if (r.number != (own.number ? own.number : to || is_old(s) ? 0 : 21))
            die("a conversion is not refused as it has to be", turn);
        if (r.number)
            continue;
        in_form = *s;
        in_form.shape = &shapes[to];
        memcpy(laid.at, v->at, v->lent + BEHIND);
        lay(&laid, &in_form);
        if (memcmp(laid.at, is.at, v->lent + BEHIND) != 0)
            die("a conversion is not the volume in that form", turn);
        if (v->shape == shapes && to && hold_change(NARROW, &is, &back, turn).number)
            die("a widened volume is not brought back", turn);
        if (v->shape == shapes && to && memcmp(v->at, back.at, v->lent + BEHIND) != 0)
            die("a widened volume comes back with other bytes", turn);
    }
}

// Volumes that compaction left as they were, and those that it made shorter.
static unsigned long as_before, shortened;

// A season's volume compacted: that of the lines that no later one is the same as, blank cards behind it; once more it stays.
static void hold_compacted(const struct volume *v, const struct season *s, unsigned turn)
{
    static struct volume is, laid, again;
    static struct season kept;
    struct refusal own = first_refusal(s), r = hold_change(COMPACT, v, &is, turn);
    if (r.number != own.number)
        die("a compaction is not refused as it has to be", turn);
    if (r.number)
        return;
    kept.shape = s->shape;
    kept.lines = kept.total = 0;
    for (size_t k = 0; k < s->lines; k++) {
        int superseded = 0;
        for (size_t later = k + 1; later < s->lines; later++)
            superseded |= is_same(line_of(s, k), line_of(s, later));
        if (!superseded)
            add_line(&kept, line_of(s, k), s->cards[k]);
    }
    memcpy(laid.at, v->at, v->lent + BEHIND);
    memset(laid.at, ' ', v->cards * CARD_SIZE);
    lay(&laid, &kept);
    if (is.cards != laid.cards || memcmp(laid.at, is.at, v->lent + BEHIND) != 0)
        die("a compaction is not the volume of the lines that are kept", turn);
    *(kept.lines == s->lines ? &as_before : &shortened) += 1;
    if (hold_change(COMPACT, &is, &again, turn).number || again.cards != is.cards || memcmp(is.at, again.at, v->lent + BEHIND) != 0)
        die("compacting twice is not compacting once", turn);
    is.shape = kept.shape;
    is.first = laid.first;
    is.entries = laid.entries;
    hold_append(&is, &kept, 1, turn);
}

// A volume that was damaged once: by its number; damaged again, whatever comes.
static void hold_damaged(struct volume *v, const struct season *s, unsigned turn)
{
    unsigned n = turn % DAMAGES;
    size_t lines = 0;
    struct line line = {0, 0, 0};
    static struct season copy;
    if (!damages[n].done(v))
        return;
    done[n]++;
    struct refusal r = hold_lines(v, turn, &lines);
    if (r.number != damages[n].number || r.card || r.column)
        die(damages[n].name, turn);
    hold_line(v, percent(50) ? 1 : no_place(s->lines), turn, &line);
    static struct volume is;
    hold_change(WIDEN + turn % 3, v, &is, turn);
    copy = *s;
    hold_append(v, &copy, 0, turn);
    if (v->stated == v->cards && damages[below(DAMAGES)].done(v))
        hold_lines(v, turn, &lines);
}

static int volume_histogram(void)
{
    static const uint8_t needed[VOLUME_OPERATIONS][20] = {{0, 20},
                                                          {0, 3, 4, 5, 6, 7, 8, 9, 10, 11, 18, 19},
                                                          {0, 3, 4, 5, 6, 7, 8, 9, 10, 11, 13, 18, 19},
                                                          {0, 1, 2, 3, 4, 5, 6, 7, 8, 9, 10, 11, 18, 19, 20},
                                                          {0, 3, 4, 5, 6, 7, 8, 9, 10, 11, 18, 19},
                                                          {0, 3, 4, 5, 6, 7, 8, 9, 10, 11, 18, 19, 21},
                                                          {0, 3, 4, 5, 6, 7, 8, 9, 10, 11, 18, 19}};
    for (int op = 0; op < VOLUME_OPERATIONS; op++) {
        printf("%s:", volume_names[op]);
        for (int n = 0; n < 22; n++)
            if (came[op][n])
                printf(" %lu of %d", came[op][n], n);
        putchar('\n');
        for (int i = 0; i < 20 && (i == 0 || needed[op][i]); i++)
            demand((unsigned)came[op][needed[op][i]], volume_names[op], needed[op][i], 0);
    }
    for (int n = 1; n <= 11; n++)
        demand((unsigned)by_header[n], "the appended header", n, 0);
    for (int n = 0; n < DAMAGES; n++)
        demand((unsigned)done[n], damages[n].name, (int)damages[n].number, 0);
    for (int form = 0; form < 2; form++) {
        printf("volumes of form %d filled to the last card %lu, one card too many %lu\n", form, filled[form], one_too_many[form]);
        demand((unsigned)filled[form], "a full volume", form, 0);
        demand((unsigned)one_too_many[form], "a card too many", form, 20);
    }
    printf("wide volumes of too many cards for the old form %lu, with too long a header %lu\n", too_many_cards, too_long_header);
    printf("volumes compacted: %lu as before, %lu shorter\n", as_before, shortened);
    demand((unsigned)as_before, "compacted as before", 0, 0);
    demand((unsigned)shortened, "compacted and shorter", 0, 0);
    demand((unsigned)too_many_cards, "wide and of too many cards", 21, 0);
    if (MOST_CARDS > shapes[0].largest)
        demand((unsigned)too_long_header, "wide and with too long a header", 21, 0);
    return missing;
}

int compare_volumes(uint64_t seed, unsigned long wanted)
{
    static struct season s;
    static struct volume v, is;
    state = seed;
    for (unsigned turn = 0; turn < wanted; turn++) {
        int large = turn % 60 != 7 ? AS_COMES : percent(30) ? TO_THE_LAST : TO_SOME;
        make_season(&s, &shapes[large || percent(40)], percent(large ? 10 : 40), large);
        fill(&v, turn, s.total > 1000 ? BUFFER : SMALL_BUFFER);
        fill(&is, turn, SMALL_BUFFER);
        hold_empty(&v, &is, turn);
        lay(&v, &s);
        v.lent = v.cards * CARD_SIZE + (large || percent(50) ? 0 : below(5 * CARD_SIZE));
        hold_season(&v, &s, turn);
        hold_forms(&v, &s, turn);
        hold_compacted(&v, &s, turn);
        int good = first_refusal(&s).number == 0;
        for (unsigned n = below(4); n && s.lines < MOST_LINES; n--) {
            hold_append(&v, &s, good, turn);
            hold_season(&v, &s, turn);
        }
        hold_damaged(&v, &s, turn);
    }
    return volume_histogram();
}
