// The headers that the benchmark times.
#ifndef BENCH_HEADERS_H
#define BENCH_HEADERS_H

#include "../second/ties.h"

struct made {
    uint8_t at[MOST_CARDS * CARD_SIZE];
    size_t size;
};

// A line of so many cards, 60 or more, with every field of its streamers' cards filled and no broken tie: streamers of
// twelve compasses, two to a card, and the corrections of each.
void make_clean(struct made *h, unsigned cards);

// The same with 50 broken ties; refused at the last column of the last card.
void make_faulty(struct made *h, unsigned cards);
void make_late(struct made *h, unsigned cards);

// The same cards with one node and one serial throughout.
void make_equal(struct made *h, unsigned cards);

// One streamer and nothing but compasses, whose serials all fall in one chain of the proved store; no broken tie.
void make_crowded(struct made *h, unsigned cards);

// A line with network cards among its streamers': half of them nodes, observations between these, and their parameters;
// no broken tie.
void make_network(struct made *h, unsigned cards);

// As many broken ties as so many cards can have; as many faults, nearly all of them misplaced numbers.
void make_worst(struct made *h, unsigned cards);
void make_left(struct made *h, unsigned cards);

#endif
