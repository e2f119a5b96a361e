// A whole line header, a second time: written in C from the paper alone, to be compared with the proved software.
#ifndef SECOND_HEADER_H
#define SECOND_HEADER_H

#include "card.h"

// The most cards of a header; and of one that the crew's program takes or that goes on a diskette.
enum { MOST_CARDS = 4096, FEW_CARDS = 800 };

// The first offence of a header; number 0 where it is accepted.
struct refusal check_header(const uint8_t *header, size_t size);

#endif
