// A logger's start of a line: 5,000 puts of mixed kinds over 300 cards.
#ifndef BENCH_LOGGER_H
#define BENCH_LOGGER_H

#include "../second/card.h"

enum { LOGGED_CARDS = 300, LOGGED_PUTS = 5000 };

// A put: into a field in a form, a value, or a text where there is one.
struct entry {
    size_t card, field, form;
    struct value value;
    const char *text;
};

// The k-th of the puts.
struct entry entry_at(size_t k);

// The cards before the first of them: opened, and blank but for code and label.
void open_cards(uint8_t cards[LOGGED_CARDS][CARD_SIZE]);

// All of them, by the library and by the second implementation; the answer is how many were refused.
unsigned log_by_library(uint8_t cards[LOGGED_CARDS][CARD_SIZE]);
unsigned log_by_second(uint8_t cards[LOGGED_CARDS][CARD_SIZE]);

#endif
