// The ties between the cards of a line header, a second time: written in C from the paper alone, to be compared with the
// proved software.
#ifndef SECOND_TIES_H
#define SECOND_TIES_H

#include "header.h"

// An entry of the list of faults is card, column, kind and vessel: the digit in the card's code, NO_VESSEL where it has none.
enum { ENTRY_SIZE = 4, NO_VESSEL = 10, MISPLACED = 6, MOST_FAULTS = 73574 };

enum key_kind { KEY_WHOLE, KEY_PAIR, KEY_TEXT };

// A key that is asked for: a whole number in `first`, a pair, or a text.
struct key {
    enum key_kind kind;
    int64_t first, second;
    const uint8_t *text;
    size_t length;
};

// What a header says of a key: the number of its definitions, and where the only one stands; both 0 where it is not the only.
struct defined {
    size_t number;
    uint32_t card, column;
};

// The number of all faults; as many whole entries as fit in `room` numbers are written from the first of the list. Nothing
// is written where the header is refused.
struct refusal check_ties(const uint8_t *header, size_t size, uint32_t *list, size_t room, size_t *faults);

// What a header says of a key of a class; all 0 where the header or the class is refused.
struct refusal find_key(const uint8_t *header, size_t size, uint64_t class, const struct key *key, struct defined *defined);

#endif
