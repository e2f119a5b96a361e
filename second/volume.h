// A season's volume, a second time: written in C from the paper alone, to be compared with the proved software.
// A volume is a stated number of cards at the front of a lent buffer: the cards of each header in turn, a directory card for
// each, a trailer. Cards and places count from 1.
#ifndef SECOND_VOLUME_H
#define SECOND_VOLUME_H

#include "card.h"

// The most cards of a volume in the old form and in the wide one.
enum { MOST_VOLUME = 999, MOST_WIDE = 20000 };

// Where a line stands: its first card, its number of cards, and its directory card.
struct line {
    size_t first, cards, entry;
};

// Lay the empty volume into a buffer; how many lines a volume has; the line at a place; one line more. Number 0 where it was
// done: then *cards is the new number of cards. A refusal leaves the buffer as it was.
struct refusal empty_volume(uint8_t *buffer, size_t size, size_t *cards);
struct refusal lines_in(const uint8_t *volume, size_t size, size_t stated, size_t *lines);
struct refusal line_at(const uint8_t *volume, size_t size, size_t stated, size_t place, struct line *line);
struct refusal append_line(uint8_t *buffer, size_t size, size_t stated, const uint8_t *header, size_t header_size, size_t *cards);

// Bring a volume to a form, within its own cards; *cards is their number, as it was.
struct refusal widen_volume(uint8_t *buffer, size_t size, size_t stated, size_t *cards);
struct refusal narrow_volume(uint8_t *buffer, size_t size, size_t stated, size_t *cards);

// Drops, within the volume's own cards, every line that a later one with the same name and sequence number supersedes; *cards is
// the new number of cards, and those that are free are blank.
struct refusal compact_volume(uint8_t *buffer, size_t size, size_t stated, size_t *cards);

#endif
