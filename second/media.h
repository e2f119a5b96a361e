// Headers on other media, a second time: written in C from the paper alone, to be compared with the proved software.
#ifndef SECOND_MEDIA_H
#define SECOND_MEDIA_H

#include "card.h"

// A header as a diskette file, and a diskette file as a header. Number 0 where it was written: then *written is the length.
// A refusal leaves the output as it was.
struct refusal to_disk(const uint8_t *header, size_t size, uint8_t *out, size_t room, size_t *written);
struct refusal from_disk(const uint8_t *file, size_t size, uint8_t *out, size_t room, size_t *written);

#endif
