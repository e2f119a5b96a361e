// Corrected compass headings: the library against the second implementation, on headers with one compass or more, cards of
// corrections with directions and numbers at the edges of their columns, and raw readings of up to twelve places.
#include "../second/chance.h"
#include "../../second/compass.h"
#include "compare.h"

#include <stdio.h>

enum { MOST = 24, PAIRS = 8, FIRST_OWN = 23, LAST_OWN = 26 };

static uint8_t header[MOST][CARD_SIZE];
static unsigned cards;

// The ends that have to come: each refusal of a heading, the header's own, and answers by what is special in them.
enum { NO_LIST, TIED, ROUND, BELOW, ABOVE, FIXED_LEADS, USED_LEADS, ELEVEN, ENDS };
static const char *const names[ENDS] = {"no direction listed", "two as near",        "nearest round north",
                                        "sum below 0",         "sum of 360 or more", "places of the fixed correction",
                                        "places of the used correction", "eleven places"};
static unsigned long ends[ENDS], own[LAST_OWN + 1], others, answered, asked[361];

static uint8_t *new_card(const char *code)
{
    uint8_t *card = header[cards++];
    memset(card, ' ', CARD_SIZE);
    memcpy(card, code, CODE_SIZE);
    return card;
}

static void write_at(uint8_t *card, unsigned column, const char *text)
{
    memcpy(card + column - 1, text, strlen(text));
}

// A number of so many columns: at an edge, or any; now and then pushed left.
static void put_correction(uint8_t *card, unsigned first, unsigned width)
{
    static const char *const six[] = {"999999", "-99999", "-.0001", ".99999", "359.99", "-359.9", "0", "360", "-360", "-0.0",
                                      "+1.250", "720", "-.5", "180.00"};
    static const char *const four[] = {"9999", "-999", ".999", "-.99", "0", "360", "-360", "1.50", "-.5", "+2", "-0.0", ".001"};
    char text[8];
    if (percent(15))
        return;
    if (percent(60))
        snprintf(text, sizeof text, "%s", width == 6 ? six[below(14)] : four[below(12)]);
    else
        snprintf(text, width + 1u, "%s%u.%u", percent(50) ? "-" : "", below(100), below(100));
    size_t length = strlen(text);
    write_at(card, first + (percent(90) ? width - (unsigned)length : 0), text);
}

static void put_direction(uint8_t *card, unsigned first, unsigned direction)
{
    char text[4];
    snprintf(text, sizeof text, percent(90) ? "%3u" : "%-3u", direction);
    write_at(card, first, text);
}

// Directions about the one that is asked, at equal distances, at the ends of the circle, or any; seldom one twice.
static unsigned some_direction(unsigned about, unsigned away)
{
    static const unsigned edges[] = {0, 1, 90, 179, 180, 181, 270, 359, 360};
    switch (below(4)) {
    case 0: return (about + away) % 360;
    case 1: return (about + 360 - away) % 360;
    case 2: return edges[below(9)];
    default: return below(361);
    }
}

static void add_corrections(const char *serial, unsigned about)
{
    uint8_t *card = new_card(percent(50) ? "H2310" : "H2320");
    unsigned away = below(181), used = below(PAIRS + 1);
    uint8_t listed[360] = {0};
    write_at(card, 7, serial);
    put_correction(card, 15, 6);
    for (unsigned i = 0; i < PAIRS; i++) {
        unsigned direction = some_direction(about, away);
        if (i < used && percent(listed[direction % 360] ? 5 : 95)) {
            put_direction(card, 21 + 7 * i, direction);
            listed[direction % 360] = 1;
        }
        put_correction(card, 24 + 7 * i, 4);
    }
}

// Eight cards with their labels, a vessel's line, a streamer, compasses, cards of corrections; sometimes damaged.
static void make_header(unsigned about)
{
    static const char *const labels[] = {"Line Name:", "Project Name:", "Project Description:", "Media Specification:",
                                         "Client:", "Geophysical Contractor:", "Positioning Contractor:",
                                         "Processing Contractor:"};
    static const char *const opening[] = {"H0000", "H0001", "H0002", "H0003", "H0004", "H0005", "H0006", "H0007"};
    cards = 0;
    for (unsigned i = 0; i < 8; i++)
        write_at(new_card(opening[i]), 6, labels[i]);
    write_at(new_card("H0018"), 6, "Line Parameters Vessel: 1 1");
    write_at(new_card("H2110"), 7, "  1");
    uint8_t *compass = new_card("H2210");
    write_at(compass, 7, "  1    1 A17");
    if (percent(30))
        write_at(compass, 36, percent(10) ? "   2 A17" : "   2 A18");
    for (unsigned n = percent(90) ? 1 : below(3); n; n--)
        add_corrections("A17", about);
    if (percent(30))
        add_corrections("A18", about);
    if (percent(3))
        header[below(cards)][below(CARD_SIZE)] = one_of(" 0A\t");
}

// A raw reading: at an edge or any, with up to eleven places; now and then one that is refused.
static struct degrees make_raw(void)
{
    uint64_t places = percent(30) ? 11 : below(12), turn = 360;
    for (uint64_t i = 0; i < places; i++)
        turn *= 10;
    if (percent(2))
        return (struct degrees){(int64_t)(chance() % 1000), percent(50) ? 12 : chance()};
    switch (below(20)) {
    case 0: return (struct degrees){0, places};
    case 1: return (struct degrees){(int64_t)turn - 1, places};
    case 2: return percent(30) ? (struct degrees){(int64_t)turn, places} : (struct degrees){1, places};
    case 3: return percent(30) ? (struct degrees){-1, places} : (struct degrees){(int64_t)turn / 2, places};
    default: return (struct degrees){(int64_t)(chance() % turn), places};
    }
}

// What was special in an answer, by the card with the corrections.
static void count_answer(const uint8_t *card, struct degrees raw, unsigned direction, struct degrees heading)
{
    struct value fixed, d;
    unsigned away[PAIRS], least = 999, ties = 0, round = 0;
    read_field(card, CARD_SIZE, 2, 0, &fixed);
    for (unsigned i = 0; i < PAIRS; i++) {
        read_field(card, CARD_SIZE, 3 + 2 * i, 0, &d);
        unsigned apart = d.kind == VALUE_WHOLE ? (unsigned)(d.units + 720 - direction) % 360 : 999;
        away[i] = apart > 180 && apart < 360 ? 360 - apart : apart;
        if (away[i] < least) {
            least = away[i];
            round = d.kind == VALUE_WHOLE && (unsigned)(d.units > direction ? d.units - direction : direction - d.units) > 180;
        }
    }
    for (unsigned i = 0; i < PAIRS; i++)
        ties += away[i] == least;
    uint64_t fixed_places = fixed.kind == VALUE_DECIMAL ? fixed.places : 0;
    ends[NO_LIST] += least == 999;
    ends[TIED] += least < 999 && ties > 1;
    ends[ROUND] += least < 999 && round;
    ends[FIXED_LEADS] += heading.places == fixed_places && fixed_places > raw.places;
    ends[USED_LEADS] += heading.places > raw.places && heading.places > fixed_places;
    ends[ELEVEN] += heading.places == 11;
    ends[BELOW] += fixed.kind == VALUE_DECIMAL && fixed.units < 0 && raw.units == 0;
    ends[ABOVE] += fixed.kind == VALUE_DECIMAL && fixed.units > 0 && fixed.places == 0 && fixed.units > 360;
}

static void hold_heading(unsigned turn, const char *serial, struct degrees raw, int64_t direction)
{
    const uint8_t *text = (const uint8_t *)serial;
    size_t size = cards * (size_t)CARD_SIZE, length = strlen(serial);
    struct degrees heading;
    struct input in = {"heading", header[0], size, text, length, {(uint64_t)raw.units, raw.places, (uint64_t)direction, turn}};
    struct lent l = lend(turn);
    struct refusal r = find_heading(header[0], size, text, length, raw, direction, &heading);
    int64_t said = p294_heading(header[0], size, text, length, raw.units, raw.places, direction, l.numbers, l.room);
    struct expected should = {P294_DECIMAL, {heading.units, (int64_t)heading.places, 0}};
    hold(&in, r.number ? refused(r) : should, said, &l);
    if (r.number) {
        own[r.number >= FIRST_OWN ? r.number : 0]++;
        others += r.number < FIRST_OWN;
        return;
    }
    answered++;
    asked[direction]++;
    for (unsigned i = 0; i < cards; i++)
        if (code_of(header[i]) == 24 && memcmp(header[i] + 6, "A17     ", 8) == 0 && serial[1] == '1' && serial[2] == '7')
            count_answer(header[i], raw, (unsigned)direction, heading);
}

int compare_headings(uint64_t seed, unsigned long wanted)
{
    static const char *const serials[] = {"A17  ", "A18", "A19", "", "   ", "A17      Z", "a17", "A17\t"};
    int missing = 0;
    state = seed;
    for (unsigned turn = 0; turn < wanted; turn++) {
        int64_t direction = turn % 361;
        make_header((unsigned)direction);
        if (percent(2))
            direction = percent(50) ? 361 + below(1000) : -1 - (int64_t)below(400);
        hold_heading(turn, percent(90) ? "A17" : serials[below(8)], make_raw(), direction);
    }
    for (unsigned i = FIRST_OWN; i <= LAST_OWN; i++)
        missing |= own[i] == 0;
    for (unsigned i = 0; i < ENDS; i++)
        missing |= ends[i] == 0;
    for (unsigned i = 0; i <= 360; i++)
        missing |= wanted >= 20000 && asked[i] == 0;
    missing |= others == 0 || answered == 0;
    printf("headings: %lu answered, refused by the header %lu, 23 %lu, 24 %lu, 25 %lu, 26 %lu\n", answered, others, own[23],
           own[24], own[25], own[26]);
    for (unsigned i = 0; i < ENDS; i++)
        printf("headings: %s %lu\n", names[i], ends[i]);
    return missing;
}
