// Makes the headers that the benchmark times.
#include "headers.h"

#include <stdarg.h>
#include <stdio.h>
#include <string.h>

// How serials and nodes are chosen.
enum keys { EACH_ITS_OWN, ALL_EQUAL, ONE_CHAIN };

enum { SERIAL_SIZE = 8, COMPASSES = 12, MOST_COMPASSES = 2 * MOST_CARDS };

// Cards.

static uint8_t *new_card(struct made *h, const char *code)
{
    uint8_t *card = h->at + h->size;
    open_card((const uint8_t *)code, CODE_SIZE, card, CARD_SIZE);
    h->size += CARD_SIZE;
    return card;
}

static void left(uint8_t *card, unsigned first, const char *text)
{
    memcpy(card + first - 1, text, strlen(text));
}

// Right adjusted, as numbers are.
static void right(uint8_t *card, unsigned last, const char *format, ...)
{
    char text[32];
    va_list args;
    va_start(args, format);
    vsnprintf(text, sizeof text, format, args);
    va_end(args);
    memcpy(card + last - strlen(text), text, strlen(text));
}

static void open_line(struct made *h)
{
    h->size = 0;
    uint8_t *card = new_card(h, "H0000");
    left(card, 29, "NT94-1014");
    right(card, 49, "14");
    card = new_card(h, "H0001");
    left(card, 38, "Northern trough 1994");
    left(card, 64, "19940503");
    left(new_card(h, "H0002"), 29, "A three dimensional survey");
    left(new_card(h, "H0003"), 29, "19940612");
    left(new_card(h, "H0004"), 29, "The licence group");
    for (char code[] = "H0005"; code[4] <= '7'; code[4]++)
        left(new_card(h, code), 29, "A contractor");
    card = new_card(h, "H0018");
    left(card, 30, "1 0 0611542.318N0021830.774E");
    right(card, 64, "1001");
    right(card, 75, "18.75");
    right(card, 80, "2");
    card = new_card(h, "H0019");
    left(card, 7, "1   1 0611540.212N 0020011.480E   2 0611538.905N 0014206.120E");
}

static void add_geodesy(struct made *h)
{
    uint8_t *card = new_card(h, "H0100");
    left(card, 7, "19940615    9 0 A model of the field");
    for (unsigned n = 1; n <= 9; n++) {
        card = new_card(h, "H0101");
        right(card, 10, "%u", n);
        left(card, 12, "0610000.000N 0020000.000E");
        right(card, 44, "-%u.62", n);
        right(card, 51, "0.1320");
    }
    for (char code[] = "H0111"; code[4] <= '2'; code[4]++) {
        card = new_card(h, code);
        left(card, 7, "A datum");
        left(card, 25, "An ellipsoid");
        right(card, 55, "6378137.000");
        right(card, 80, "298.2572236");
    }
    card = new_card(h, "H0120");
    left(card, 7, "1 2 0");
    right(card, 22, "82.98");
    right(card, 33, "-99.72");
    left(new_card(h, "H1710"), 7, "1 00030");
    left(new_card(h, "H1711"), 7, "1 None");
}

// Serials.

// The chain of the proved store in which a serial falls: seven bits a byte, the first lowest, by a prime.
static unsigned chain_of(const char *serial)
{
    uint64_t bits = 4;
    for (unsigned i = SERIAL_SIZE; i; i--)
        bits = bits * 128 + (uint8_t)serial[i - 1];
    return (unsigned)(bits % 8093);
}

// Serials of one chain, each another: a number and two bytes of any kind behind it.
static const char *crowded_serial(unsigned n)
{
    enum { BYTES = 94 };
    static char found[MOST_COMPASSES][SERIAL_SIZE + 1], text[16];
    static unsigned count, tried;
    for (; count <= n; tried++) {
        if (tried % (BYTES * BYTES) == 0)
            snprintf(text, sizeof text, "S%05u!!", tried / (BYTES * BYTES));
        text[6] = (char)(33 + tried % BYTES);
        text[7] = (char)(33 + tried / BYTES % BYTES);
        if (chain_of(text) == 0)
            memcpy(found[count++], text, SERIAL_SIZE);
    }
    return found[n];
}

static void write_serial(uint8_t *card, unsigned first, enum keys keys, unsigned n)
{
    char text[16];
    snprintf(text, sizeof text, "A%06u", n);
    left(card, first, keys == EACH_ITS_OWN ? text : keys == ALL_EQUAL ? "A17" : crowded_serial(n));
}

// Streamers.

static void add_streamer(struct made *h, unsigned number)
{
    static const uint8_t decimals[] = {17, 25, 32, 41, 49, 56, 64, 71}, lengths[] = {15, 21, 31, 37, 47, 57, 67},
                         sections[] = {25, 41, 51, 61};
    uint8_t *card = new_card(h, "H2110");
    right(card, 9, "%u", number);
    for (unsigned i = 0; i < sizeof decimals; i++)
        right(card, decimals[i], "-%u.5", 10 + i + number);
    card = new_card(h, "H2111");
    right(card, 9, "%u", number);
    for (unsigned i = 0; i < sizeof lengths; i++)
        right(card, lengths[i], "%u.0", 50 + i);
    for (unsigned i = 0; i < sizeof sections; i++)
        right(card, sections[i], "%u", 4 + i);
    left(card, 69, "0 0");
}

// A card of two compasses.
static void add_compasses(struct made *h, unsigned streamer, enum keys keys, unsigned n)
{
    uint8_t *card = new_card(h, "H2210");
    right(card, 9, "%u", streamer);
    for (unsigned i = 0; i < 2; i++) {
        right(card, 14 + 25 * i, "%u", keys == ALL_EQUAL ? 214 : 1 + n + i);
        write_serial(card, 16 + 25 * i, keys, n + i);
        right(card, 32 + 25 * i, "%u.25", 100 + n % 6000);
        card[33 + 25 * i] = '0';
    }
}

// The corrections of a compass for eight directions.
static void add_corrections(struct made *h, enum keys keys, unsigned n)
{
    uint8_t *card = new_card(h, "H2310");
    write_serial(card, 7, keys, n);
    right(card, 20, "-0.%u", n % 10);
    for (unsigned i = 0; i < 8; i++) {
        right(card, 23 + 7 * i, "%u", 45 * i);
        right(card, 27 + 7 * i, "%s%u.%u", i % 2 ? "-" : "", i % 3, n % 10);
    }
}

static void make_line(struct made *h, unsigned cards, enum keys keys)
{
    size_t size = cards * (size_t)CARD_SIZE;
    unsigned n = 0;
    open_line(h);
    add_geodesy(h);
    for (unsigned streamer = 1; h->size < size; streamer++) {
        add_streamer(h, streamer);
        for (unsigned last = n + COMPASSES; n < last && h->size + 3 * CARD_SIZE <= size; n += 2) {
            add_compasses(h, streamer, keys, n);
            add_corrections(h, keys, n);
            add_corrections(h, keys, n + 1);
        }
        while (h->size + 3 * CARD_SIZE > size && h->size < size)
            left(new_card(h, "C0001"), 6, "Nothing to remark");
    }
}

// The network.

enum { NODES = 4, FIRST_NODE = 8000, FIXED_NODE = 7999 };

static void open_network(struct made *h)
{
    uint8_t *card = new_card(h, "H5000");
    right(card, 10, "%u", FIXED_NODE);
    left(card, 12, "A platform       0 0611542.318N 0021830.774E");
    card = new_card(h, "H5100");
    right(card, 10, "%u", FIXED_NODE - 1);
    left(card, 12, "A relay buoy");
    card = new_card(h, "H1611");
    left(card, 7, "1");
    right(card, 12, "%u", FIXED_NODE - 2);
    right(card, 20, "-1.5");
}

// Nodes on a streamer, ranges from one to the next and to the platform, and the parameters of each range.
static void add_ranges(struct made *h, unsigned streamer, unsigned n)
{
    static const uint8_t offsets[] = {39, 47, 55}, parameters[] = {23, 36, 53, 64, 73};
    for (unsigned i = 0; i < NODES; i++) {
        uint8_t *card = new_card(h, "H5110");
        right(card, 10, "%u", FIRST_NODE + n + i);
        left(card, 12, "A float");
        right(card, 31, "%u", streamer);
        for (unsigned k = 0; k < sizeof offsets; k++)
            right(card, offsets[k], "-%u.5", 10 + i + k);
    }
    for (unsigned i = 0; i < NODES; i++) {
        uint8_t *card = new_card(h, "H5201");
        right(card, 10, "%u", 1 + n + i);
        left(card, 12, "A range");
        right(card, 32, "%u", FIRST_NODE + n + i);
        right(card, 37, "%u", FIRST_NODE + n + (i + 1) % NODES);
        right(card, 42, "%u", FIXED_NODE);
        right(card, 49, "1");
        card = new_card(h, "H5401");
        right(card, 10, "%u", 1 + n + i);
        for (unsigned k = 0; k < sizeof parameters; k++)
            right(card, parameters[k], "%u.250", 1 + k);
    }
}

void make_network(struct made *h, unsigned cards)
{
    size_t size = cards * (size_t)CARD_SIZE, block = (2 + 3 * 4 + 3 * NODES) * (size_t)CARD_SIZE;
    open_line(h);
    add_geodesy(h);
    open_network(h);
    for (unsigned s = 0; h->size + block <= size; s++) {
        add_streamer(h, 201 + s);
        for (unsigned n = 8 * s; n < 8 * s + 8; n += 2) {
            add_compasses(h, 201 + s, EACH_ITS_OWN, n);
            add_corrections(h, EACH_ITS_OWN, n);
            add_corrections(h, EACH_ITS_OWN, n + 1);
        }
        add_ranges(h, 201 + s, NODES * s);
    }
    while (h->size < size)
        left(new_card(h, "C0001"), 6, "Nothing to remark");
}

void make_clean(struct made *h, unsigned cards)
{
    make_line(h, cards, EACH_ITS_OWN);
}

void make_equal(struct made *h, unsigned cards)
{
    make_line(h, cards, ALL_EQUAL);
}

void make_crowded(struct made *h, unsigned cards)
{
    open_line(h);
    add_streamer(h, 1);
    for (unsigned n = 0; h->size < cards * (size_t)CARD_SIZE; n += 2)
        add_compasses(h, 1, ONE_CHAIN, n);
}

void make_faulty(struct made *h, unsigned cards)
{
    unsigned compasses = 0, corrections = 0;
    make_clean(h, cards);
    for (uint8_t *card = h->at; card < h->at + h->size; card += CARD_SIZE) {
        if (memcmp(card, "H2210", CODE_SIZE) == 0 && compasses++ < 10) {
            right(card, 14, "%u", 9000 + compasses);
            right(card, 39, "%u", 9000 + compasses);
        }
        if (memcmp(card, "H2310", CODE_SIZE) != 0)
            continue;
        corrections++;
        if (corrections <= 20)
            left(card, 7, "B");
        else if (corrections <= 30)
            card[3] = '2';
    }
}

void make_late(struct made *h, unsigned cards)
{
    make_clean(h, cards);
    h->size -= CARD_SIZE;
    add_corrections(h, EACH_ITS_OWN, 0);
    h->at[h->size - 1] = 'x';
}

void make_worst(struct made *h, unsigned cards)
{
    open_line(h);
    h->size = 8 * CARD_SIZE;
    left(new_card(h, "H0028"), 30, "1 1");
    h->at[h->size - 1] = '1';
    while (h->size < cards * (size_t)CARD_SIZE) {
        uint8_t *card = new_card(h, "H2210");
        left(card, 7, "  1  214 A17");
        left(card, 36, " 214 A17");
    }
}

void make_left(struct made *h, unsigned cards)
{
    h->size = 0;
    for (char code[] = "H0000"; code[4] <= '7'; code[4]++)
        new_card(h, code);
    left(h->at, 46, "1");
    left(h->at + 3 * CARD_SIZE, 78, "1");
    uint8_t *card = new_card(h, "H0028");
    left(card, 30, "1 1");
    left(card, 59, "1      1   1");
    left(card, 79, "1");
    while (h->size < cards * (size_t)CARD_SIZE) {
        card = new_card(h, "H2310");
        left(card, 7, "A17     1");
        for (unsigned i = 0; i < 8; i++)
            left(card, 21 + 7 * i, "1  1");
    }
}
