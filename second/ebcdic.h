// Tapes in EBCDIC, a second time: IBM code page 037 from its characters, written from the paper alone.
#ifndef SECOND_EBCDIC_H
#define SECOND_EBCDIC_H

#include "card.h"

// Translate a tape to ASCII, or a text to EBCDIC, into an output with so much room. The refusal is 17 where there is too
// little, and then nothing is written.
struct refusal to_ascii(const uint8_t *tape, size_t length, uint8_t *out, size_t room);
struct refusal to_ebcdic(const uint8_t *text, size_t length, uint8_t *out, size_t room);

#endif
