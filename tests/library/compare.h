// What the parts of the library's test share: answers of libp294.a held to those of the second implementation.
#ifndef COMPARE_H
#define COMPARE_H

#include "../../include/p294.h"
#include "../../second/card.h"

// Numbers that no answer has, in what is lent and must stay as it was.
enum { UNTOUCHED = 7777777, LENT = P294_NUMBERS + 2 };

// What an answer should be: what it says, the numbers that go with it.
struct expected {
    int64_t said, numbers[P294_NUMBERS];
};

// What was lent for the numbers, and how much of it.
struct lent {
    int64_t numbers[LENT];
    size_t room;
};

// The input of a case: the bytes of a card or a header, and some numbers.
struct input {
    const char *operation;
    const uint8_t *bytes;
    size_t size;
    const uint8_t *text;
    size_t text_size;
    uint64_t numbers[6];
};

struct expected refused(struct refusal r);

// Numbers to lend, mostly enough of them.
struct lent lend(unsigned turn);

// Ends with the input in hex unless an answer is as it should be, with all that was lent for numbers.
void hold(const struct input *in, struct expected should, int64_t said, const struct lent *l);

// The same of bytes, and of a list.
void hold_bytes(const struct input *in, const uint8_t *should, const uint8_t *is, size_t size);
void hold_list(const struct input *in, const uint32_t *should, const uint32_t *is, size_t length);

// Compare on so many random inputs from a seed, print how often each end came, and say whether one is missing.
int compare_cards(uint64_t seed, unsigned long count);
int compare_headers(uint64_t seed, unsigned long count);
int compare_ties(uint64_t seed, unsigned long count);
int compare_changed(uint64_t seed, unsigned long count);
int compare_media(uint64_t seed, unsigned long count);
int compare_tapes(uint64_t seed, unsigned long count);
int compare_volumes(uint64_t seed, unsigned long count);
int compare_routes(uint64_t seed, unsigned long count);
int compare_headings(uint64_t seed, unsigned long count);

#endif
