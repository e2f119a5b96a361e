// Makes a script of random headers, their ties sound or broken on purpose, for answer.c and test_tie.
//
// tiecases SEED COUNT            prints a script that makes COUNT headers and asks for their lists and keys
// tiecases SEED COUNT histogram  prints how often each fault came at each place instead, and fails if a kind that can
//                                stand at a column, a pair of kinds at one place, a room or a question was never reached,
//                                or if a kind stood where it cannot
#include "../../second/ties.h"
#include "chance.h"

#include <stdio.h>
#include <stdlib.h>

// Places in `layouts`.
enum {
    LINE = 8, WAYPOINT = 9, COMMENT = 10, GRID = 12, POINT = 13, DATUM = 14, SHIFT = 15, SENSOR = 16, SENSED = 17,
    STREAMER = 18, DETAIL = 19, NODE = 23, COMPASS = 24, TRANSDUCER = 26, FIXED = 27, ABOARD = 28, OBSERVED = 29,
    MEASURED = 30
};

enum { OPENING = 8, SERIAL_SIZE = 8, KINDS = 6, CLASSES = 10, MOST_NUMBERS = MOST_FAULTS * ENTRY_SIZE, MOST_ROOM = 16384 };

// Rooms that are each to be tried, and questions to a header.
enum { ROOMS = 16, QUESTIONS = 3 };

// A column that has a key: its layout, its place, its class.
struct keyed {
    uint8_t layout, first, last, class;
};

static const struct keyed keyed[] = {
    {LINE, 30, 30, 6},    {WAYPOINT, 7, 7, 6},  {WAYPOINT, 9, 11, 7}, {WAYPOINT, 39, 41, 7}, {POINT, 7, 10, 8},
    {DATUM, 5, 5, 1},     {SHIFT, 7, 7, 1},     {SHIFT, 9, 9, 1},     {SENSOR, 7, 7, 5},     {SENSED, 7, 7, 5},
    {STREAMER, 7, 9, 2},  {DETAIL, 7, 9, 2},    {NODE, 7, 9, 2},      {NODE, 11, 14, 3},     {NODE, 16, 23, 4},
    {NODE, 36, 39, 3},    {NODE, 41, 48, 4},    {COMPASS, 7, 14, 4},
    {TRANSDUCER, 9, 12, 3}, {FIXED, 7, 10, 3},  {ABOARD, 7, 10, 3},   {ABOARD, 29, 31, 2},   {OBSERVED, 7, 10, 10},
    {OBSERVED, 29, 32, 3}, {OBSERVED, 34, 37, 3}, {OBSERVED, 39, 42, 3}, {MEASURED, 7, 10, 10}};
enum { KEYED = sizeof keyed / sizeof *keyed };

// The kinds that can stand at a column, as digits.
static const struct {
    uint8_t layout, column;
    const char *kinds;
} possible[] = {{LINE, 30, "24"}, {LINE, 79, "5"},     {WAYPOINT, 7, "134"}, {WAYPOINT, 9, "2"}, {WAYPOINT, 39, "2"},
                {GRID, 7, "2"},   {GRID, 16, "5"},     {POINT, 7, "123"},    {DATUM, 5, "2"},    {SHIFT, 7, "13"},
                {SHIFT, 9, "13"}, {SENSOR, 7, "2"},    {SENSED, 7, "134"},   {STREAMER, 7, "2"}, {DETAIL, 7, "134"},
                {NODE, 7, "134"}, {NODE, 11, "2"},     {NODE, 16, "2"},      {NODE, 36, "2"},    {NODE, 41, "2"},
                {COMPASS, 7, "134"},    {TRANSDUCER, 9, "2"},   {FIXED, 7, "2"},      {ABOARD, 7, "2"},
                {ABOARD, 29, "134"},    {OBSERVED, 7, "2"},     {OBSERVED, 29, "13"}, {OBSERVED, 34, "13"},
                {OBSERVED, 39, "13"},   {MEASURED, 7, "13"}};

// The pairs of kinds that can stand at one place.
static const struct {
    uint8_t layout, column, first, second;
} pairs[] = {{LINE, 30, 2, 4}, {LINE, 79, 5, 6},   {WAYPOINT, 7, 1, 4}, {WAYPOINT, 7, 3, 4}, {WAYPOINT, 9, 2, 6},
             {GRID, 16, 5, 6}, {POINT, 7, 1, 2},   {POINT, 7, 2, 3},    {NODE, 7, 1, 6},     {NODE, 36, 2, 6}};
enum { PAIRS = sizeof pairs / sizeof *pairs };

static uint8_t header[MOST_CARDS][CARD_SIZE];
static unsigned cards;

// How many cards the long headers have: in a script few enough for the program that reads it.
static unsigned longest = FEW_CARDS;

// Cards.

static uint8_t *new_card(const char *code, unsigned vessel)
{
    uint8_t bytes[CODE_SIZE];
    memcpy(bytes, code, CODE_SIZE);
    if (bytes[3] == '@')
        bytes[3] = (uint8_t)('0' + vessel);
    open_card(bytes, CODE_SIZE, header[cards], CARD_SIZE);
    return header[cards++];
}

// A whole number in one of its spellings.
static void write_whole(uint8_t *card, unsigned first, unsigned last, unsigned n)
{
    char text[16];
    size_t width = last - first + 1;
    snprintf(text, sizeof text, percent(10) ? "+%u" : percent(10) ? "%03u" : "%u", n);
    if (strlen(text) > width)
        snprintf(text, sizeof text, "%u", n);
    memset(card + first - 1, ' ', width);
    memcpy(card + last - strlen(text), text, strlen(text));
}

static void write_text(uint8_t *card, unsigned first, const char *text)
{
    memset(card + first - 1, ' ', SERIAL_SIZE);
    memcpy(card + first - 1, text, strlen(text));
}

// A serial of a number; some differ only in their last column, some in their length.
static void write_serial(uint8_t *card, unsigned first, unsigned n)
{
    char text[16];
    snprintf(text, sizeof text, n % 3 == 0 ? "A%u" : n % 3 == 1 ? "SERIAL%02u" : "%u|~", n % 100);
    write_text(card, first, text);
}

// Numbers below `most`, each once.
struct deck {
    unsigned at, most;
};

static struct deck deal(unsigned most)
{
    return (struct deck){below(most), most};
}

static unsigned draw(struct deck *d)
{
    d->at = (d->at + 1) % d->most;
    return d->at;
}

// Sound headers. Vessels are those of the lines; what is defined is defined once.

static unsigned vessels[3], lines;

static unsigned any_vessel(void)
{
    return vessels[below(lines)];
}

static int by_code(const void *a, const void *b)
{
    return memcmp(a, b, CODE_SIZE);
}

// The opening block, by code number.
static void open_header(void)
{
    static const char *const codes[OPENING] = {"H0000", "H0001", "H0002", "H0003", "H0004", "H0005", "H0006", "H0007"};
    struct deck vessel = deal(9), waypoint = deal(1000);
    unsigned stated[3] = {0}, at;
    cards = 0;
    for (unsigned i = 0; i < OPENING; i++)
        new_card(codes[i], 0);
    lines = 1 + below(3);
    for (unsigned i = 0; i < lines; i++) {
        vessels[i] = 1 + draw(&vessel);
        uint8_t *card = new_card("H00@8", vessels[i]);
        card[29] = (uint8_t)('0' + vessels[i]);
        card[31] = one_of("01");
    }
    for (unsigned k = below(5); k; k--) {
        unsigned i = below(lines);
        uint8_t *card = new_card("H00@9", vessels[i]);
        card[6] = (uint8_t)('0' + vessels[i]);
        at = draw(&waypoint);
        write_whole(card, 9, 11, at);
        stated[i]++;
        if (percent(50)) {
            write_whole(card, 39, 41, draw(&waypoint));
            stated[i]++;
        }
    }
    for (unsigned i = 0; i < lines; i++)
        if (percent(60))
            write_whole(header[OPENING + i], 79, 80, stated[i]);
    qsort(header[OPENING], cards - OPENING, CARD_SIZE, by_code);
}

static void add_grid(void)
{
    struct deck point = deal(10000);
    unsigned points = below(4);
    uint8_t *card = new_card("H0100", 0);
    card[20] = one_of("01");
    if (percent(50))
        memcpy(card + 6, "19940601", 8);
    if (percent(60))
        write_whole(card, 16, 19, points);
    for (; points; points--)
        write_whole(new_card("H0101", 0), 7, 10, draw(&point));
}

static void add_datums(void)
{
    unsigned first = 1 + below(8);
    new_card("H0111", 0)[4] = (uint8_t)('0' + first);
    new_card("H0111", 0)[4] = (uint8_t)('0' + first + 1);
    for (unsigned k = below(3); k; k--) {
        uint8_t *card = new_card("H0120", 0);
        card[6] = (uint8_t)('0' + first + below(2));
        card[8] = (uint8_t)('0' + first + below(2));
    }
}

static void add_sensors(void)
{
    struct deck sensor = deal(10);
    for (unsigned k = 1 + below(2); k; k--) {
        unsigned vessel = any_vessel();
        uint8_t key = (uint8_t)('0' + draw(&sensor));
        new_card("H17@0", vessel)[6] = key;
        if (percent(70))
            new_card("H17@1", vessel)[6] = key;
    }
}

// A streamer with its details, nodes and compasses.
static void add_streamer(unsigned number, struct deck *node, struct deck *serial)
{
    unsigned vessel = any_vessel();
    write_whole(new_card("H21@0", vessel), 7, 9, number);
    if (percent(50))
        write_whole(new_card("H21@1", vessel), 7, 9, number);
    for (unsigned k = below(4); k; k--) {
        uint8_t *card = new_card("H22@0", vessel);
        write_whole(card, 7, 9, number);
        for (unsigned at = 11, last = percent(50) ? 36 : 11; at <= last; at += 25) {
            write_whole(card, at, at + 3, 1 + draw(node));
            if (percent(30))
                continue;
            write_serial(card, at + 5, draw(serial));
            if (percent(50))
                memcpy(new_card("H23@0", vessel) + 6, card + at + 4, SERIAL_SIZE);
        }
    }
}

// A streamer's card, found by chance, or NULL.
static const uint8_t *some_streamer(void)
{
    unsigned from = below(cards);
    for (unsigned i = 0; i < cards; i++)
        if (code_of(header[(from + i) % cards]) == STREAMER)
            return header[(from + i) % cards];
    return NULL;
}

// A node of one of the codes of the network; one aboard a relay has the digit 0, one on a streamer names it.
static void add_node(unsigned number)
{
    const uint8_t *streamer = some_streamer();
    unsigned code = below(3), on_streamer = percent(60), relay = percent(30);
    if (code == 0) {
        write_whole(new_card("H16@1", any_vessel()), 9, 12, number);
    } else if (code == 1) {
        write_whole(new_card("H5000", 0), 7, 10, number);
    } else if (streamer && on_streamer) {
        uint8_t *card = new_card("H51@0", (unsigned)(streamer[3] - '0'));
        write_whole(card, 7, 10, number);
        memcpy(card + 28, streamer + 6, 3);
    } else {
        uint8_t *card = new_card("H51@0", relay ? 0 : any_vessel());
        write_whole(card, 7, 10, number);
        if (percent(30))
            write_whole(card, 29, 31, percent(50) ? below(200) : 300 + below(700));
    }
}

// Nodes, observations from one of them to others or to the ship's head, and their parameters.
static void add_network(struct deck *node)
{
    struct deck observation = deal(9999);
    unsigned nodes[3];
    for (unsigned k = 0; k < 3; k++) {
        nodes[k] = 1 + draw(node);
        add_node(nodes[k]);
    }
    for (unsigned k = below(4), number; k; k--) {
        uint8_t *card = new_card("H5200", 0);
        card[3] = one_of("0123456789");
        card[4] = one_of("0123456789");
        number = 1 + draw(&observation);
        write_whole(card, 7, 10, number);
        for (unsigned at = 29; at <= 39; at += 5)
            if (percent(80))
                write_whole(card, at, at + 3, at > 29 && percent(20) ? 0 : nodes[below(3)]);
        if (percent(70))
            write_whole(new_card("H5406", 0), 7, 10, number);
    }
    if (percent(20))
        new_card("H5401", 0);
}

static void add_others(void)
{
    static const char *const codes[] = {"C0001", "C0002", "H21@2", "H21@3", "H2300", "H23@1", "H0210", "H6101"};
    for (unsigned k = below(3); k; k--)
        write_text(new_card(codes[below(8)], 1), 7, "1");
}

static void swap_cards(unsigned i, unsigned j)
{
    uint8_t kept[CARD_SIZE];
    memcpy(kept, header[i], CARD_SIZE);
    memcpy(header[i], header[j], CARD_SIZE);
    memcpy(header[j], kept, CARD_SIZE);
}

// The number of cards in the opening block.
static unsigned opening(void)
{
    unsigned n = 0;
    while (n < cards && memcmp(header[n], "H00", 3) == 0)
        n++;
    return n;
}

static void make_sound(unsigned streamers)
{
    unsigned from = percent(50) ? 200 : 0;
    struct deck streamer = deal(from ? 100 : 1000), node = deal(9999), serial = deal(100);
    open_header();
    unsigned first = cards;
    if (percent(60))
        add_grid();
    if (percent(60))
        add_datums();
    if (percent(60))
        add_sensors();
    for (; streamers; streamers--)
        add_streamer(from + draw(&streamer), &node, &serial);
    if (percent(50))
        add_network(&node);
    add_others();
    for (unsigned i = first; i < cards; i++)
        swap_cards(i, first + below(cards - first));
}

// Broken ties.

static int has_vessel(int layout)
{
    return layout >= 0 && layouts[layout].code[3] == '@';
}

// Another key of a class, of a few that often meet.
static void write_key(uint8_t *card, const struct keyed *k, unsigned n)
{
    if (k->class == 4)
        write_serial(card, k->first, n);
    else if (k->first == 5 || k->first == k->last)
        card[k->first - 1] = (uint8_t)('1' + n % 9);
    else
        write_whole(card, k->first, k->last, (k->class == 2 && percent(50) ? 200 : 1) + n);
    if (k->layout == NODE && k->first == 41 && card[38] == ' ')
        write_whole(card, 36, 39, 1 + n);
}

// A key of a card becomes another, or that of another card with the same column.
static void change_key(unsigned i, unsigned j)
{
    int code = code_of(header[i]);
    const struct keyed *k = &keyed[below(KEYED)];
    for (unsigned tries = 0; k->layout != code && tries < 50; tries++)
        k = &keyed[below(KEYED)];
    if (k->layout != code)
        return;
    if (code == code_of(header[j]) && k->first != 36 && k->first != 39 && k->first != 41)
        memcpy(header[i] + k->first - 1, header[j] + k->first - 1, (size_t)k->last - k->first + 1);
    else
        write_key(header[i], k, below(4));
}

static void change_stated(unsigned i)
{
    int code = code_of(header[i]);
    if (code == LINE)
        write_whole(header[i], 79, 80, below(percent(90) ? 6 : 100));
    if (code == GRID)
        write_whole(header[i], 16, 19, below(percent(90) ? 5 : 10000));
}

// A card once more, beside itself or, behind the opening block, anywhere.
static void repeat_card(unsigned i)
{
    if (cards == MOST_CARDS)
        return;
    unsigned first = opening(), to = i < first || percent(50) ? i : first + below(cards - first + 1);
    uint8_t kept[CARD_SIZE];
    memcpy(kept, header[i], CARD_SIZE);
    memmove(header[to + 1], header[to], (size_t)(cards - to) * CARD_SIZE);
    memcpy(header[to], kept, CARD_SIZE);
    cards++;
}

static void drop_card(unsigned i)
{
    memmove(header[i], header[i + 1], (size_t)(cards - i - 1) * CARD_SIZE);
    cards--;
}

static void break_tie(void)
{
    unsigned i = OPENING + below(cards - OPENING), j = OPENING + below(cards - OPENING);
    int code = code_of(header[i]);
    switch (below(10)) {
    case 0:
    case 1: repeat_card(i); break;
    case 2:
        if (i > OPENING)
            drop_card(i);
        break;
    case 3:
    case 4:
        if (has_vessel(code))
            header[i][3] = one_of("123");
        else if (code == LINE || code == WAYPOINT || code == ABOARD)
            header[i][3] = one_of("0123");
        break;
    case 5: change_stated(i); break;
    default: change_key(i, j);
    }
}

// Keys of a node card, the same on each or by chance.
static void write_node(uint8_t *card, struct deck *node, int same)
{
    write_whole(card, 7, 9, 9);
    write_whole(card, 11, 14, 1 + (same ? 213 : draw(node)));
    write_whole(card, 36, 39, 1 + (same ? 213 : draw(node)));
    write_serial(card, 16, same ? 3 : below(100));
    write_serial(card, 41, same ? 3 : below(100));
}

// So many cards: one of most ties over and over, which gives the largest number of broken ties; or many keys, and compasses.
static void make_long(unsigned size, int same)
{
    struct deck node = deal(9999);
    open_header();
    cards = OPENING + 1;
    header[OPENING][3] = (uint8_t)(header[OPENING][29] == '1' ? '2' : '1');
    write_whole(header[OPENING], 79, 80, 1);
    while (cards < size) {
        const uint8_t *before = header[cards - 1];
        if (!same && code_of(before) == NODE && percent(50))
            memcpy(new_card("H23@0", 1) + 6, before + 15, SERIAL_SIZE);
        else
            write_node(new_card("H22@0", 1), &node, same);
    }
}

// Misplaced numbers.

static int is_number(const struct field *f)
{
    return (f->spelling == SPELL_WHOLE || f->spelling == SPELL_DECIMAL) && f->first < f->last;
}

// Moves the number of a field to the left by some of the blanks before it; a blank field gets a 1.
static void push_left(uint8_t *card, const struct field *f)
{
    uint8_t *s = card + f->first - 1;
    unsigned n = f->last - f->first + 1u, blanks = 0;
    while (blanks < n && s[blanks] == ' ')
        blanks++;
    if (blanks == n) {
        s[below(n - 1)] = '1';
        return;
    }
    if (blanks == 0)
        return;
    unsigned by = percent(50) ? blanks : 1 + below(blanks);
    memmove(s, s + by, n - by);
    memset(s + n - by, ' ', by);
}

// Does so to a field of a card, unless the card would then be refused.
static void misplace(uint8_t *card)
{
    uint8_t before[CARD_SIZE];
    int code = code_of(card);
    if (code < 0 || layouts[code].count == 0)
        return;
    const struct field *f = &layouts[code].fields[below(layouts[code].count)];
    if (!is_number(f))
        return;
    memcpy(before, card, CARD_SIZE);
    push_left(card, f);
    if (judge_card(card, CARD_SIZE, FORM_UNKNOWN).number)
        memcpy(card, before, CARD_SIZE);
}

// Many cards with as many faults as can be: compasses that stand nowhere, all numbers misplaced.
static void make_left(void)
{
    open_header();
    cards = OPENING + 1;
    header[OPENING][3] = (uint8_t)(header[OPENING][29] == '1' ? '2' : '1');
    write_whole(header[OPENING], 79, 80, 1);
    while (cards < longest)
        write_serial(new_card("H23@0", 1), 7, 3);
    for (unsigned i = 0; i < cards; i++) {
        const struct layout *l = &layouts[code_of(header[i])];
        for (unsigned k = 0; k < l->count; k++)
            if (is_number(&l->fields[k]))
                push_left(header[i], &l->fields[k]);
    }
}

static void make_header(unsigned turn)
{
    if (turn < 2) {
        make_long(longest, turn == 0);
        return;
    }
    if (turn == 2) {
        make_left();
        return;
    }
    if (longest > FEW_CARDS && turn % 250 == 3)
        make_long(FEW_CARDS + below(longest - FEW_CARDS), 0);
    else
        make_sound(below(4));
    for (unsigned k = percent(15) ? 0 : percent(70) ? 1 + below(3) : 5 + below(20); k; k--)
        break_tie();
    for (unsigned k = percent(50) ? 0 : percent(30) ? 1 + below(4) : 10 + below(100); k; k--)
        misplace(header[below(cards)]);
    unsigned i = below(cards), column = below(CARD_SIZE);
    if (percent(4))
        header[i][column] = one_of("x \037\177");
}

// Questions.

struct question {
    uint64_t class;
    struct key key;
    uint8_t text[24];
};

static void key_of_text(struct question *q, const uint8_t *text, size_t length)
{
    q->key.kind = KEY_TEXT;
    q->key.length = length;
    memcpy(q->text, text, length);
}

// The key that stands in a column of a card.
static void key_on_card(struct question *q, const uint8_t *card, const struct keyed *k)
{
    q->class = k->class;
    q->key.kind = k->class == 7 ? KEY_PAIR : KEY_WHOLE;
    for (unsigned i = k->first; i <= k->last; i++)
        if (card[i - 1] >= '0' && card[i - 1] <= '9')
            q->key.first = q->key.first * 10 + card[i - 1] - '0';
    if (k->class == 7) {
        q->key.second = q->key.first;
        q->key.first = card[6] - '0';
    }
    if (k->class == 4)
        key_of_text(q, card + k->first - 1, SERIAL_SIZE - below(2));
}

// Any key of any kind.
static void any_key(struct question *q)
{
    static const int64_t odd[] = {0, 1, 2, 3, 7, -1, 9, 10, 999, 1000, 9999, 10000, 4294967297, INT64_MAX, INT64_MIN};
    static const char *const texts[] = {"", " ", "A0", " A0", "A0         ", "SERIAL01", "SERIAL01 ", "SERIAL011", "1", "A0~",
                                        "{", "        "};
    static const uint8_t zeros[SERIAL_SIZE] = {0};
    const char *text = texts[below(sizeof texts / sizeof *texts)];
    q->key.kind = (enum key_kind)below(3);
    q->key.first = odd[below(sizeof odd / sizeof *odd)];
    q->key.second = odd[below(sizeof odd / sizeof *odd)];
    if (q->key.kind == KEY_TEXT && percent(10))
        key_of_text(q, zeros, SERIAL_SIZE);
    else if (q->key.kind == KEY_TEXT)
        key_of_text(q, (const uint8_t *)text, strlen(text));
}

// A key beside one that stands on a card: a longer text, a pair that any packing might take for another.
static void change_offer(struct question *q)
{
    static const char behind[] = "   X";
    if (q->key.kind == KEY_TEXT) {
        size_t more = below(5);
        memcpy(q->text + q->key.length, behind, more);
        q->key.length += more;
    } else if (q->key.kind == KEY_PAIR && percent(50)) {
        q->key.first -= 1;
        q->key.second += 1000;
    } else {
        q->key.first += percent(50) ? 4294967296 : -10;
    }
}

static struct question make_question(void)
{
    static const uint64_t classes[] = {0, 11, 12, 255, 256, 4294967297, UINT64_MAX};
    struct question q = {0};
    unsigned i = below(cards), r = below(KEYED), any = 1 + below(CLASSES), odd = below(7);
    for (unsigned tries = 0; keyed[r].layout != code_of(header[i]) && tries < 100; tries++)
        i = below(cards), r = below(KEYED);
    if (keyed[r].layout == code_of(header[i]) && percent(70)) {
        key_on_card(&q, header[i], &keyed[r]);
        if (percent(10))
            q.class = any;
        else if (percent(10))
            change_offer(&q);
    } else {
        any_key(&q);
        q.class = percent(85) ? any : classes[odd];
    }
    if (percent(5))
        q.class = 9;
    if (q.class == 9 && percent(60))
        q.key = (struct key){.kind = KEY_WHOLE};
    return q;
}

static void print_byte(uint8_t b)
{
    putchar(b == 0 ? '[' : b == 31 ? '{' : b == 127 ? '}' : b);
}

static void print_question(const struct question *q)
{
    static const char *const named[CLASSES + 1] = {[2] = "streamer", [3] = "node", [5] = "motion", [10] = "observation"};
    printf("find ");
    if (q->key.kind == KEY_WHOLE && q->class <= CLASSES && named[q->class] && q->key.first % 2 == 0) {
        printf("%s %lld\n", named[q->class], (long long)q->key.first);
        return;
    }
    printf("%llu ", (unsigned long long)q->class);
    if (q->key.kind == KEY_WHOLE)
        printf("whole %lld\n", (long long)q->key.first);
    if (q->key.kind == KEY_PAIR)
        printf("pair %lld %lld\n", (long long)q->key.first, (long long)q->key.second);
    if (q->key.kind != KEY_TEXT)
        return;
    printf("text |");
    for (size_t i = 0; i < q->key.length; i++)
        print_byte(q->text[i]);
    printf("|\n");
}

// The script.

static void print_header(void)
{
    printf("keep 0\n");
    for (unsigned i = 0; i < cards; i++) {
        int size = CARD_SIZE;
        while (size > 0 && header[i][size - 1] == ' ')
            size--;
        printf("add 1 |");
        for (int k = 0; k < size; k++)
            print_byte(header[i][k]);
        printf(">\n");
    }
}

// A room below, at or above what the faults need.
static size_t room_for(size_t faults)
{
    size_t needed = faults * ENTRY_SIZE < MOST_ROOM - 6 ? faults * ENTRY_SIZE : MOST_ROOM - 6;
    if (percent(30))
        return below(ROOMS);
    if (percent(40))
        return below((unsigned)needed + 6);
    return needed + below(7) - (needed == 0 ? 0 : 3);
}

// The histogram.

static unsigned came[LAYOUTS][CARD_SIZE + 1][KINDS + 1], paired[PAIRS], rooms[ROOMS], fits[3][ENTRY_SIZE], headers[3];
static unsigned told[NO_VESSEL + 1]; // by the vessel of an entry
static unsigned counted[CLASSES + 1][3], offered[CLASSES + 1][3], beyond[CLASSES + 1], no_class, not_asked;

static void count_list(const uint32_t *list, size_t faults)
{
    for (const uint32_t *e = list; e < list + faults * ENTRY_SIZE; e += ENTRY_SIZE) {
        int code = code_of(header[e[0] - 1]);
        const uint32_t *b = e - ENTRY_SIZE; // the entry before it
        came[code][e[1]][e[2]]++;
        told[e[3]]++;
        for (unsigned k = 0; k < PAIRS && e > list; k++)
            if (b[0] == e[0] && b[1] == e[1] && code == pairs[k].layout && e[1] == pairs[k].column &&
                b[2] == pairs[k].first && e[2] == pairs[k].second)
                paired[k]++;
    }
}

static void count_room(size_t room, size_t faults)
{
    size_t entries = room / ENTRY_SIZE;
    if (room < ROOMS)
        rooms[room]++;
    fits[entries < faults ? 0 : entries == faults ? 1 : 2][room % ENTRY_SIZE]++;
}

// Whether a key is of the kind that its class has, and yet no card can bear it.
static int is_beyond(const struct question *q)
{
    static const int64_t most[CLASSES + 1] = {0, 9, 999, 9999, 0, 9, 9, 9, 9999, 0};
    size_t length = q->key.length;
    while (length > 0 && q->text[length - 1] == ' ')
        length--;
    if (q->class == 4)
        return q->key.kind == KEY_TEXT && (length == 0 || length > SERIAL_SIZE);
    if (q->key.kind != (q->class == 7 ? KEY_PAIR : KEY_WHOLE))
        return 0;
    return q->key.first < 0 || q->key.first > most[q->class] ||
           (q->class == 7 && (q->key.second < 0 || q->key.second > 999));
}

static void count_question(const struct question *q)
{
    struct defined d;
    struct refusal r = find_key(header[0], cards * CARD_SIZE, q->class, &q->key, &d);
    if (r.number == 13)
        no_class++;
    else if (r.number)
        not_asked++;
    else {
        counted[q->class][d.number > 2 ? 2 : d.number]++;
        offered[q->class][q->key.kind]++;
        beyond[q->class] += (unsigned)is_beyond(q);
    }
}

static int missing;

static void demand(int good, const char *what, unsigned a, unsigned b, unsigned c)
{
    if (!good) {
        fprintf(stderr, "missing or where it cannot be: %s %u %u %u\n", what, a, b, c);
        missing = 1;
    }
}

static int can_stand(int layout, unsigned column, unsigned kind)
{
    for (unsigned k = 0; kind == 6 && k < layouts[layout].count; k++)
        if (layouts[layout].fields[k].first == column)
            return is_number(&layouts[layout].fields[k]);
    for (size_t i = 0; i < sizeof possible / sizeof *possible; i++)
        if (possible[i].layout == layout && possible[i].column == column)
            return strchr(possible[i].kinds, (int)('0' + kind)) != NULL;
    return 0;
}

static void fault_histogram(void)
{
    for (int l = 0; l < LAYOUTS; l++)
        for (unsigned column = 1; column <= CARD_SIZE; column++)
            for (unsigned kind = 1; kind <= KINDS; kind++) {
                unsigned n = came[l][column][kind];
                demand((n > 0) == can_stand(l, column, kind), layouts[l].code, column, kind, n);
                if (n)
                    printf("%s %u %u: %u\n", layouts[l].code, column, kind, n);
            }
    for (unsigned k = 0; k < PAIRS; k++) {
        printf("%s %u %u and %u: %u\n", layouts[pairs[k].layout].code, pairs[k].column, pairs[k].first, pairs[k].second,
               paired[k]);
        demand(paired[k] > 0, "pair", k, 0, 0);
    }
}

static void room_histogram(void)
{
    printf("headers: sound %u, broken %u, refused %u; rooms", headers[0], headers[1], headers[2]);
    for (unsigned k = 0; k < 3; k++)
        demand(headers[k] > 0, "header", k, 0, 0);
    for (unsigned k = 0; k < ROOMS; k++) {
        printf(" %u", rooms[k]);
        demand(rooms[k] > 0, "room", k, 0, 0);
    }
    printf("; too little, just enough, more:");
    for (unsigned k = 0; k < 3; k++)
        for (unsigned m = 0; m < ENTRY_SIZE; m++) {
            printf(" %u", fits[k][m]);
            demand(fits[k][m] > 0, "room left", k, m, 0);
        }
    printf("; vessels");
    for (unsigned k = 0; k <= NO_VESSEL; k++) {
        printf(" %u", told[k]);
        demand(told[k] > 0, "vessel", k, 0, 0);
    }
    putchar('\n');
}

static void question_histogram(void)
{
    for (unsigned c = 1; c <= CLASSES; c++) {
        printf("class %u: none %u, only %u, several %u; offered whole %u, pair %u, text %u, beyond %u\n", c, counted[c][0],
               counted[c][1], counted[c][2], offered[c][0], offered[c][1], offered[c][2], beyond[c]);
        for (unsigned k = 0; k < 3; k++) {
            demand(counted[c][k] > 0, "answer", c, k, 0);
            demand(offered[c][k] > 0, "key", c, k, 0);
        }
        demand(beyond[c] > 0, "key that no card can bear", c, 0, 0);
    }
    demand(no_class > 0 && not_asked > 0, "refused question", 0, 0, 0);
}

int main(int argc, char **argv)
{
    static uint32_t list[MOST_NUMBERS];
    if (argc < 3 || argc > 4 || (argc == 4 && strcmp(argv[3], "histogram") != 0)) {
        fprintf(stderr, "usage: tiecases SEED COUNT [histogram]\n");
        return 2;
    }
    state = strtoull(argv[1], NULL, 10);
    unsigned long count = strtoul(argv[2], NULL, 10);
    for (unsigned turn = 0; turn < count; turn++) {
        size_t faults;
        make_header(turn);
        struct refusal r = check_ties(header[0], cards * CARD_SIZE, list, MOST_NUMBERS, &faults);
        size_t room = turn < 3 ? MOST_ROOM : room_for(faults);
        if (argc == 4) {
            headers[r.number ? 2 : faults > 0]++;
            count_list(list, faults);
            count_room(room, faults);
        } else {
            print_header();
            printf("check %zu\n", room);
        }
        for (unsigned k = QUESTIONS; k; k--) {
            struct question q = make_question();
            q.key.text = q.text;
            if (argc == 4)
                count_question(&q);
            else
                print_question(&q);
        }
    }
    if (argc == 4) {
        fault_histogram();
        room_histogram();
        question_histogram();
    }
    return missing;
}
