// Corrected compass headings: every number is brought to eleven places, which no number exceeds, and summed in 128 bits; the
// nearest direction is looked for outwards from the one that is asked.
#include "compass.h"

#include "ties.h"

#include <string.h>

enum { CORRECTIONS = 24, SERIAL_CLASS = 4, MOST_PLACES = 11, CIRCLE = 360, PAIRS = 8 };

// Fields of H23@0: the serial, the fixed correction, the direction and the correction of the first pair.
enum { SERIAL_FIELD = 1, FIXED_FIELD = 2, DIRECTION_FIELD = 3, CORRECTION_FIELD = 4 };

static struct refusal refuse(uint32_t number)
{
    return (struct refusal){number, 0, 0};
}

static __int128 power_of_ten(uint64_t n)
{
    __int128 p = 1;
    while (n--)
        p *= 10;
    return p;
}

// The only H23@0 card for a serial; none where there is another number of them.
static const uint8_t *card_for(const uint8_t *header, size_t size, const uint8_t *serial, size_t length)
{
    const uint8_t *found = NULL, *text;
    for (const uint8_t *card = header; card < header + size; card += CARD_SIZE) {
        if (code_of(card) != CORRECTIONS)
            continue;
        size_t n = read_text(card, CARD_SIZE, SERIAL_FIELD, 0, &text);
        if (n != length || memcmp(text, serial, n) != 0)
            continue;
        if (found)
            return NULL;
        found = card;
    }
    return found;
}

// Which pair lists each direction of the circle, 360 being 0; -1 for none. Whether one is listed twice.
static int list_directions(const uint8_t *card, int listed[CIRCLE])
{
    int twice = 0;
    for (int i = 0; i < CIRCLE; i++)
        listed[i] = -1;
    for (int i = 0; i < PAIRS; i++) {
        struct value v;
        read_field(card, CARD_SIZE, (uint64_t)(DIRECTION_FIELD + 2 * i), 0, &v);
        if (v.kind != VALUE_WHOLE)
            continue;
        int *at = &listed[v.units % CIRCLE];
        twice |= *at >= 0;
        *at = i;
    }
    return twice;
}

// The pair whose direction is nearest to the one that is asked, at equal distance the smaller; -1 where none is listed.
static int nearest(const int listed[CIRCLE], int asked)
{
    for (int away = 0; away <= CIRCLE / 2; away++) {
        int a = (asked + away) % CIRCLE, b = (asked + CIRCLE - away) % CIRCLE;
        int smaller = a < b ? a : b, larger = a < b ? b : a;
        if (listed[smaller] >= 0)
            return listed[smaller];
        if (listed[larger] >= 0)
            return listed[larger];
    }
    return -1;
}

// Adds a correction, if it is there.
static void add(__int128 *sum, uint64_t *places, const uint8_t *card, int field)
{
    struct value v;
    read_field(card, CARD_SIZE, (uint64_t)field, 0, &v);
    if (v.kind != VALUE_DECIMAL)
        return;
    *sum += v.units * power_of_ten(MOST_PLACES - v.places);
    if (v.places > *places)
        *places = v.places;
}

struct refusal find_heading(const uint8_t *header, size_t size, const uint8_t *serial, size_t length, struct degrees raw,
                            int64_t direction, struct degrees *heading)
{
    struct key key = {KEY_TEXT, 0, 0, serial, length};
    struct defined defined;
    int listed[CIRCLE];
    *heading = (struct degrees){0, 0};
    struct refusal r = find_key(header, size, SERIAL_CLASS, &key, &defined);
    if (r.number)
        return r;
    if (defined.number != 1)
        return refuse(23);
    while (length && serial[length - 1] == ' ')
        length--;
    const uint8_t *card = card_for(header, size, serial, length);
    if (!card)
        return refuse(24);
    if (direction < 0 || direction > CIRCLE || list_directions(card, listed))
        return refuse(25);
    if (raw.places > MOST_PLACES || raw.units < 0 || raw.units >= CIRCLE * power_of_ten(raw.places))
        return refuse(26);
    __int128 sum = raw.units * power_of_ten(MOST_PLACES - raw.places), turn = CIRCLE * power_of_ten(MOST_PLACES);
    uint64_t places = raw.places;
    int pair = nearest(listed, (int)(direction % CIRCLE));
    add(&sum, &places, card, FIXED_FIELD);
    if (pair >= 0)
        add(&sum, &places, card, CORRECTION_FIELD + 2 * pair);
    while (sum < 0)
        sum += turn;
    sum %= turn;
    *heading = (struct degrees){(int64_t)(sum / power_of_ten(MOST_PLACES - places)), places};
    return refuse(0);
}
