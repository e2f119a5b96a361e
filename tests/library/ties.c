// The list of broken ties, also with cards taken away that a reader may skip, and the question about a key: the library
// against the second implementation, on what tests/second/tiecases.c makes.
#define main tiecases_main
#include "../second/tiecases.c"
#undef main

#include "compare.h"

static void hold_faults(unsigned turn, size_t size)
{
    static uint32_t all[MOST_NUMBERS], should[MOST_NUMBERS + 8], is[MOST_NUMBERS + 8];
    size_t faults = 0;
    struct refusal r = check_ties(header[0], size, all, MOST_NUMBERS, &faults);
    size_t room = turn < 3 ? MOST_NUMBERS : room_for(faults), lent = (turn < 3 ? MOST_NUMBERS : MOST_ROOM) + 8;
    for (size_t i = 0; i < lent; i++)
        should[i] = is[i] = UNTOUCHED;
    check_ties(header[0], size, should, room, &faults);
    struct input in = {"check", header[0], size, header[0], 0, {room, turn}};
    struct lent l = lend(turn);
    int64_t said = p294_check(header[0], size, is, room, l.numbers, l.room);
    hold(&in, r.number ? refused(r) : (struct expected){(int64_t)faults, {0, 0, 0}}, said, &l);
    hold_list(&in, should, is, lent);
    headers[r.number ? 2 : faults > 0]++;
    count_list(all, faults);
    count_room(room, faults);
}

// One question in ten has a kind that there is not; the key is then a text without bytes.
static void hold_question(struct question *q, unsigned turn, size_t size)
{
    size_t kind = (size_t)q->key.kind + 1;
    struct defined d;
    q->key.text = q->text;
    count_question(q);
    struct input in = {"key", header[0], size, q->text, q->key.length,
                       {q->class, kind, (uint64_t)q->key.first, (uint64_t)q->key.second, turn}};
    if (turn % 10 == 0)
        kind = turn % 20 ? 0 : 4 + turn;
    struct key asked = q->key;
    if (turn % 10 == 0)
        asked = (struct key){KEY_TEXT, 0, 0, q->text, 0};
    struct lent l = lend(turn);
    int64_t said = p294_key(header[0], size, q->class, kind, q->key.first, q->key.second, q->text, q->key.length, l.numbers,
                            l.room);
    struct refusal r = find_key(header[0], size, q->class, &asked, &d);
    struct expected should = {(int64_t)d.number, {d.card, d.column, 0}};
    hold(&in, r.number ? refused(r) : should, said, &l);
}

// Cards that a reader may skip: passed ones, C0001 and C0002. How often none, some and all of them were taken away, and how
// many entries stood behind one that was.
static unsigned taken[3], moved;

static int may_skip(const uint8_t *card)
{
    int code = code_of(card);
    return code == CODE_PASSED || code == COMMENT || code == COMMENT + 1;
}

// More of them, anywhere behind the opening block.
static void add_skipped(void)
{
    static const char *const codes[] = {"C0001", "C0002", "H0210", "H23@1", "H6101"};
    unsigned first = opening();
    for (unsigned k = below(8); k && cards < MOST_CARDS; k--) {
        write_text(new_card(codes[below(5)], 1), 7, "1");
        swap_cards(cards - 1, first + below(cards - first));
    }
}

// Without them the list is that of the whole, the card numbers moved down.
static void hold_taken(unsigned turn)
{
    static uint8_t left[MOST_CARDS][CARD_SIZE];
    static uint32_t should[MOST_NUMBERS + 8], is[MOST_NUMBERS + 8];
    unsigned down[MOST_CARDS], skipped = 0, gone = 0, share = 50 * below(3);
    size_t faults;
    add_skipped();
    if (check_ties(header[0], cards * CARD_SIZE, should, MOST_NUMBERS, &faults).number)
        return;
    for (size_t i = 0; i < ENTRY_SIZE * faults + 8; i++) {
        is[i] = UNTOUCHED;
        should[i] = i < ENTRY_SIZE * faults ? should[i] : UNTOUCHED;
    }
    for (unsigned i = 0; i < cards; i++) {
        int away = may_skip(header[i]) && (skipped++, percent(share));
        down[i] = gone;
        memcpy(left[i - gone], header[i], CARD_SIZE);
        gone += (unsigned)away;
    }
    for (uint32_t *e = should; e < should + faults * ENTRY_SIZE; e += ENTRY_SIZE) {
        moved += down[e[0] - 1] > 0;
        e[0] -= down[e[0] - 1];
    }
    taken[gone == 0 ? 0 : gone < skipped ? 1 : 2]++;
    struct input in = {"check of what is left", left[0], (cards - gone) * CARD_SIZE, header[0], cards * CARD_SIZE, {turn}};
    struct lent l = lend(turn);
    int64_t said = p294_check(left[0], in.size, is, MOST_NUMBERS, l.numbers, l.room);
    hold(&in, (struct expected){(int64_t)faults, {0, 0, 0}}, said, &l);
    hold_list(&in, should, is, ENTRY_SIZE * faults + 8);
}

static void taken_histogram(void)
{
    printf("taken away: none %u, some %u, all %u; entries moved down %u\n", taken[0], taken[1], taken[2], moved);
    for (unsigned k = 0; k < 3; k++)
        demand(taken[k] > 0, "taken away", k, 0, 0);
    demand(moved > 0, "entry moved down", 0, 0, 0);
}

int compare_ties(uint64_t seed, unsigned long wanted)
{
    state = seed;
    longest = MOST_CARDS;
    for (unsigned turn = 0; turn < wanted; turn++) {
        make_header(turn);
        hold_faults(turn, cards * CARD_SIZE);
        for (unsigned k = QUESTIONS; k; k--) {
            struct question q = make_question();
            hold_question(&q, turn * QUESTIONS + k, cards * CARD_SIZE);
        }
        hold_taken(turn);
    }
    fault_histogram();
    room_histogram();
    question_histogram();
    taken_histogram();
    return missing;
}
