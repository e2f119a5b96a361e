// A full volume, and what the benchmark does with it.
#include "season.h"
#include "../include/p294.h"

#include <string.h>

enum { LAST_CARDS = 100, MIDDLE = 5 };

// The full volume; the one before its last line, in which an append of both goes on; where its directory begins, its cards.
static uint8_t full[SEASON_SIZE], before[SEASON_SIZE], by[2][SEASON_SIZE];
static struct made last;
static size_t cards, directory;
static int64_t numbers[P294_NUMBERS];

void make_season(void)
{
    static struct made line;
    struct line first;
    // all lines but the last have as many cards as there are left for them
    size_t left = MOST_VOLUME - 1 - SEASON_LINES - LAST_CARDS;
    empty_volume(before, sizeof before, &cards);
    for (size_t k = SEASON_LINES - 1; k > 0; k--) {
        make_clean(&line, (unsigned)(left / k));
        left -= left / k;
        append_line(before, sizeof before, cards, line.at, line.size, &cards);
    }
    line_at(before, sizeof before, cards, 1, &first);
    directory = (first.entry - 1) * CARD_SIZE;
    make_clean(&last, LAST_CARDS);
    memcpy(full, before, sizeof full);
    size_t most;
    append_line(full, sizeof full, cards, last.at, last.size, &most);
    memcpy(by[0], before, sizeof before);
    memcpy(by[1], before, sizeof before);
}

const uint8_t *season(void)
{
    return full;
}

// An append writes from the directory on, so only that is put back.
static uint8_t *restored(int which)
{
    memcpy(by[which] + directory, before + directory, cards * CARD_SIZE - directory);
    return by[which];
}

int64_t append_by_library(void)
{
    return p294_volume_append(restored(0), SEASON_SIZE, cards, last.at, last.size, numbers, P294_NUMBERS);
}

int64_t append_by_second(void)
{
    size_t most = 0;
    struct refusal r = append_line(restored(1), SEASON_SIZE, cards, last.at, last.size, &most);
    return r.number ? -(int64_t)r.number : (int64_t)most;
}

int64_t line_by_library(void)
{
    return p294_volume_line(full, SEASON_SIZE, MOST_VOLUME, MIDDLE, numbers, P294_NUMBERS);
}

int64_t line_by_second(void)
{
    struct line line = {0, 0, 0};
    struct refusal r = line_at(full, SEASON_SIZE, MOST_VOLUME, MIDDLE, &line);
    return r.number ? -(int64_t)r.number : (int64_t)line.cards;
}

int is_season(void)
{
    return memcmp(by[0], full, SEASON_SIZE) == 0 && memcmp(by[1], full, SEASON_SIZE) == 0;
}
