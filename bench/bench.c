// Times the proved library, the second implementation, the yardstick (of checks) and one bare pass over the bytes, in turns, and
// prints the least time of each with the ratios; then how time grows with the cards, and how deep the library goes into the stack.
// It first holds the answers to each other on all that is timed, and ends where they differ.
// Usage: bench [SECONDS [FILE]]; the least times in the file, left there by the same program at other addresses, count too.
// bench call ROW [RUNNER]: makes one call of a check, and prints its name.
#define _GNU_SOURCE
#include "../include/p294.h"
#include "../second/ebcdic.h"
#include "../second/media.h"
#include "headers.h"
#include "logger.h"
#include "season.h"
#include "yardstick.h"

#include <stdio.h>
#include <stdlib.h>
#include <string.h>
#include <time.h>
#include <ucontext.h>

enum { LIBRARY, SECOND, YARDSTICK, PASS, RUNNERS };
enum { MOST_ROWS = 58, MOST_NUMBERS = MOST_FAULTS * ENTRY_SIZE, SOME_CARDS = 16, CARD_CALLS = 512 };

enum operation { CHECK, KEY, READ, PUT, LOG, FROM_TAPE, TO_TAPE, TO_DISK, FROM_DISK, APPEND, LINE };
enum { MOST_FILE = FEW_CARDS * P294_LINE };

// What is timed: an operation on a header, or on some cards of one code in turn; its least time by each, in ns a call.
struct row {
    char name[64];
    enum operation operation;
    const struct made *header;
    uint8_t cards[SOME_CARDS][CARD_SIZE];
    size_t field, calls;
    enum value_kind kind;
    uint64_t key_class;
    struct key key;
    double least[RUNNERS];
};

static struct row rows[MOST_ROWS];
static unsigned count;

static uint32_t list[MOST_NUMBERS], second_list[MOST_NUMBERS], swift_list[MOST_NUMBERS];
static int64_t numbers[P294_NUMBERS];
static uint8_t logged[LOGGED_CARDS][CARD_SIZE], second_logged[LOGGED_CARDS][CARD_SIZE];
static uint8_t translated[FEW_CARDS * CARD_SIZE], second_translated[FEW_CARDS * CARD_SIZE];
static uint8_t out[MOST_FILE], second_out[MOST_FILE], disk[MOST_FILE];
static size_t disk_size;
static volatile int64_t sink;

static void fail(const struct row *r, const char *what)
{
    fprintf(stderr, "bench: %s: %s\n", r->name, what);
    exit(EXIT_FAILURE);
}

// What is timed.

// The number that the k-th call puts: of one to four digits, the last behind the point of a decimal.
static int64_t number_at(size_t k)
{
    return (int64_t)(1 + k * 37 % 9999);
}

static int64_t ask_library(const struct row *r)
{
    const struct made *h = r->header;
    return p294_key(h->at, h->size, r->key_class, (size_t)r->key.kind + 1, r->key.first, r->key.second, r->key.text,
                    r->key.length, numbers, P294_NUMBERS);
}

static void by_library(struct row *r)
{
    const struct made *h = r->header;
    for (size_t k = 0; k < r->calls; k++) {
        uint8_t *card = r->cards[k % SOME_CARDS];
        switch (r->operation) {
        case CHECK: sink = p294_check(h->at, h->size, list, MOST_NUMBERS, numbers, P294_NUMBERS); break;
        case READ: sink = p294_read_field(card, CARD_SIZE, r->field, 0, numbers, P294_NUMBERS); break;
        case PUT:
            sink = p294_put(card, CARD_SIZE, r->field, 0, r->kind, number_at(k), r->kind == VALUE_DECIMAL, 0, numbers,
                            P294_NUMBERS);
            break;
        case LOG: sink = log_by_library(logged); break;
        case FROM_TAPE: sink = p294_from_ebcdic(h->at, h->size, translated, sizeof translated, numbers, P294_NUMBERS); break;
        case TO_TAPE: sink = p294_to_ebcdic(h->at, h->size, translated, sizeof translated, numbers, P294_NUMBERS); break;
        case TO_DISK: sink = p294_to_disk(h->at, h->size, out, MOST_FILE, numbers, P294_NUMBERS); break;
        case FROM_DISK: sink = p294_from_disk(disk, disk_size, out, MOST_FILE, numbers, P294_NUMBERS); break;
        case APPEND: sink = append_by_library(); break;
        case LINE: sink = line_by_library(); break;
        default: sink = ask_library(r);
        }
    }
}

static struct defined ask_second(const struct row *r)
{
    struct defined d;
    find_key(r->header->at, r->header->size, r->key_class, &r->key, &d);
    return d;
}

static void by_second(struct row *r)
{
    const struct made *h = r->header;
    size_t faults;
    struct value v = {.kind = r->kind, .places = r->kind == VALUE_DECIMAL};
    for (size_t k = 0; k < r->calls; k++) {
        uint8_t *card = r->cards[k % SOME_CARDS];
        switch (r->operation) {
        case CHECK: sink = check_ties(h->at, h->size, second_list, MOST_NUMBERS, &faults).number; break;
        case READ: sink = read_field(card, CARD_SIZE, r->field, 0, &v).number; break;
        case PUT:
            v.units = number_at(k);
            sink = put_value(card, CARD_SIZE, r->field, 0, &v).number;
            break;
        case LOG: sink = log_by_second(second_logged); break;
        case FROM_TAPE: sink = to_ascii(h->at, h->size, second_translated, sizeof second_translated).number; break;
        case TO_TAPE: sink = to_ebcdic(h->at, h->size, second_translated, sizeof second_translated).number; break;
        case TO_DISK: sink = to_disk(r->header->at, r->header->size, second_out, MOST_FILE, &faults).number; break;
        case FROM_DISK: sink = from_disk(disk, disk_size, second_out, MOST_FILE, &faults).number; break;
        case APPEND: sink = append_by_second(); break;
        case LINE: sink = line_by_second(); break;
        default: sink = (int64_t)ask_second(r).number;
        }
    }
}

// Only checks have a yardstick.
static void by_yardstick(struct row *r)
{
    size_t faults;
    for (size_t k = 0; r->operation == CHECK && k < r->calls; k++)
        sink = check_swiftly(r->header->at, r->header->size, swift_list, MOST_NUMBERS, &faults).number;
}

// Whether every byte is one that a card may have.
static __attribute__((noinline)) int pass_over(const uint8_t *bytes, size_t size)
{
    for (size_t i = 0; i < size; i++)
        if (bytes[i] < 32 || bytes[i] > 126)
            return 0;
    return 1;
}

static void by_pass(struct row *r)
{
    for (size_t k = 0; k < r->calls; k++)
        if (r->operation == LOG)
            sink = pass_over(logged[0], sizeof logged);
        else if (r->operation == APPEND || r->operation == LINE)
            sink = pass_over(season(), SEASON_SIZE);
        else
            sink = r->header ? pass_over(r->header->at, r->header->size) : pass_over(r->cards[k % SOME_CARDS], CARD_SIZE);
}

// The same answers by both.

static void hold_check(struct row *r)
{
    size_t faults = 0;
    memset(list, 0, sizeof list);
    memset(second_list, 0, sizeof second_list);
    struct refusal s = check_ties(r->header->at, r->header->size, second_list, MOST_NUMBERS, &faults);
    int64_t said = p294_check(r->header->at, r->header->size, list, MOST_NUMBERS, numbers, P294_NUMBERS);
    if (said != (s.number ? -(int64_t)s.number : (int64_t)faults) || numbers[0] != s.number || numbers[1] != s.card ||
        numbers[2] != s.column || memcmp(list, second_list, sizeof list) != 0)
        fail(r, "the answers differ");
    size_t found = 0;
    memset(swift_list, 0, sizeof swift_list);
    struct refusal y = check_swiftly(r->header->at, r->header->size, swift_list, MOST_NUMBERS, &found);
    if (y.number != s.number || y.card != s.card || y.column != s.column || found != faults ||
        memcmp(list, swift_list, sizeof list) != 0)
        fail(r, "the yardstick's answer differs");
}

static void hold_read(struct row *r, const uint8_t *card)
{
    struct value v = {0};
    struct refusal s = read_field(card, CARD_SIZE, r->field, 0, &v);
    int64_t said = p294_read_field(card, CARD_SIZE, r->field, 0, numbers, P294_NUMBERS);
    if (s.number || v.kind != r->kind || said != (int64_t)v.kind)
        fail(r, "a field is not read as it has to be");
    if (v.kind == VALUE_TEXT ? numbers[0] != (int64_t)v.first || numbers[1] != (int64_t)v.last
                             : numbers[0] != v.units || numbers[1] != (v.kind == VALUE_DECIMAL ? (int64_t)v.places : 0))
        fail(r, "the values differ");
}

// As many cards are compared as were put last, so every put is compared in its turn.
static void hold_put(struct row *r)
{
    static struct row copy;
    copy = *r;
    for (copy.calls = SOME_CARDS; copy.calls <= CARD_CALLS; copy.calls += SOME_CARDS) {
        r->calls = copy.calls;
        by_library(r);
        int64_t said = sink;
        by_second(&copy);
        if (said != 0 || sink != 0)
            fail(r, "a number is not put");
        if (memcmp(r->cards, copy.cards, sizeof r->cards) != 0)
            fail(r, "the cards differ");
    }
}

static void hold_log(struct row *r)
{
    open_cards(logged);
    open_cards(second_logged);
    if (log_by_library(logged) != 0 || log_by_second(second_logged) != 0)
        fail(r, "a value is not put");
    if (memcmp(logged, second_logged, sizeof logged) != 0)
        fail(r, "the cards differ");
}

static void hold_key(struct row *r)
{
    struct defined d = ask_second(r);
    int64_t said = ask_library(r);
    if (said != 1 || d.number != 1 || numbers[0] != (int64_t)d.card || numbers[1] != (int64_t)d.column)
        fail(r, "the answers differ or a key is not there once");
}

static void hold_tape(struct row *r)
{
    by_library(r);
    int64_t said = sink;
    by_second(r);
    if (said != (int64_t)r->header->size || sink != 0 || memcmp(translated, second_translated, sizeof translated) != 0)
        fail(r, "the translations differ");
}

static void hold_disk(struct row *r)
{
    by_library(r);
    int64_t said = sink;
    by_second(r);
    if (said <= 0 || sink != 0 || memcmp(out, second_out, (size_t)said) != 0)
        fail(r, "the answers differ");
}

static void hold_season(struct row *r)
{
    by_library(r);
    int64_t said = sink;
    by_second(r);
    if (said <= 0 || sink != said || (r->operation == APPEND && (said != MOST_VOLUME || !is_season())))
        fail(r, "the answers differ or the volume is not full");
}

static void hold(struct row *r)
{
    if (r->operation == APPEND || r->operation == LINE)
        hold_season(r);
    if (r->operation == TO_DISK || r->operation == FROM_DISK)
        hold_disk(r);
    if (r->operation == CHECK)
        hold_check(r);
    for (size_t k = 0; r->operation == READ && k < SOME_CARDS; k++)
        hold_read(r, r->cards[k]);
    if (r->operation == PUT)
        hold_put(r);
    if (r->operation == LOG)
        hold_log(r);
    if (r->operation == KEY)
        hold_key(r);
    if (r->operation == FROM_TAPE || r->operation == TO_TAPE)
        hold_tape(r);
}

// The rows.

static struct row *new_row(const char *name, enum operation operation)
{
    struct row *r = &rows[count++];
    snprintf(r->name, sizeof r->name, "%s", name);
    r->operation = operation;
    r->calls = 1;
    for (int i = 0; i < RUNNERS; i++)
        r->least[i] = 1e18;
    return r;
}

static int64_t answer_to(const struct made *h)
{
    return p294_check(h->at, h->size, list, MOST_NUMBERS, numbers, P294_NUMBERS);
}

// A check of a header made with so many cards, which has to answer so.
static struct row *check_row(const char *name, void (*make)(struct made *, unsigned), unsigned cards, int64_t answer)
{
    struct row *r = new_row(name, CHECK);
    struct made *h = malloc(sizeof *h);
    if (h == NULL)
        fail(r, "no memory");
    make(h, cards);
    r->header = h;
    if (h->size != cards * (size_t)CARD_SIZE || answer_to(h) != answer)
        fail(r, "the header is not what it has to be");
    return r;
}

// An operation on a field of the cards with a code.
static void card_row(const char *name, enum operation operation, const struct made *h, const char *code, size_t field,
                     enum value_kind kind)
{
    struct row *r = new_row(name, operation);
    unsigned n = 0;
    r->field = field;
    r->kind = kind;
    r->calls = CARD_CALLS;
    while (n < SOME_CARDS)
        for (const uint8_t *card = h->at; card < h->at + h->size && n < SOME_CARDS; card += CARD_SIZE)
            if (memcmp(card, code, CODE_SIZE) == 0)
                memcpy(r->cards[n++], card, CARD_SIZE);
}

static void card_rows(const struct made *h)
{
    static const uint8_t serial[] = "A000300";
    struct row *r = new_row("question about a key: a serial", KEY);
    r->header = h;
    r->key_class = P294_SERIAL;
    r->key = (struct key){.kind = KEY_TEXT, .text = serial, .length = sizeof serial - 1};
    card_row("field read: whole number", READ, h, "H2210", 2, VALUE_WHOLE);
    card_row("field read: decimal", READ, h, "H2310", 2, VALUE_DECIMAL);
    card_row("field read: last of 18", READ, h, "H2310", 18, VALUE_DECIMAL);
    card_row("field read: text", READ, h, "H2210", 3, VALUE_TEXT);
    card_row("field read: angle", READ, h, "H0101", 2, VALUE_ANGLE);
    card_row("number put: whole", PUT, h, "H2210", 2, VALUE_WHOLE);
    card_row("number put: decimal", PUT, h, "H2310", 2, VALUE_DECIMAL);
    new_row("a logger's start: 5,000 puts over 300 cards", LOG);
}

// A header to a diskette file, and that file back.
static void disk_rows(const struct made *h)
{
    to_disk(h->at, h->size, disk, MOST_FILE, &disk_size);
    new_row("to diskette", TO_DISK)->header = h;
    new_row("from diskette", FROM_DISK)->header = h;
}

// Headers of growing size.
static const unsigned sizes[] = {100, 200, 400, FEW_CARDS, 1600, MOST_CARDS};
enum { FEW = 3, MOST = 5, SIZES };

struct grown {
    const char *name;
    void (*make)(struct made *, unsigned);
    struct row *rows[SIZES];
};
static struct grown grown[] = {{"check: clean", make_clean, {0}},
                               {"check: as many broken ties as can be", make_worst, {0}},
                               {"check: as many faults as can be", make_left, {0}},
                               {"check: one node and serial throughout", make_equal, {0}},
                               {"check: serials of one chain", make_crowded, {0}}};
enum { CLEAN, WORST, LEFT, EQUAL, CROWDED, GROWN };

// The faults that a header of a kind and a size has to have: with one serial throughout a compass has two, its correction one.
static int64_t faults_of(unsigned kind, const struct made *h)
{
    int64_t cards = (int64_t)(h->size / CARD_SIZE), compasses = 0;
    for (const uint8_t *card = h->at; card < h->at + h->size; card += CARD_SIZE)
        compasses += memcmp(card, "H2310", CODE_SIZE) == 0;
    return kind == WORST ? 2 + 5 * (cards - 9) : kind == LEFT ? 8 + 18 * (cards - 9) : kind == EQUAL ? 3 * compasses : 0;
}

static void make_rows(void)
{
    static struct made h;
    for (unsigned g = 0; g < GROWN; g++)
        for (unsigned k = 0; k < SIZES; k++) {
            grown[g].make(&h, sizes[k]);
            grown[g].rows[k] = check_row(grown[g].name, grown[g].make, sizes[k], faults_of(g, &h));
        }
    check_row("check: network cards among them", make_network, FEW_CARDS, 0);
    check_row("check: 50 faults", make_faulty, FEW_CARDS, 50);
    check_row("check: refused at the last column of the last card", make_late, FEW_CARDS, -P294_NO_FIELD_HERE);
    const struct made *clean = grown[CLEAN].rows[FEW]->header;
    card_rows(clean);
    new_row("tape translated to ASCII", FROM_TAPE)->header = clean;
    new_row("header translated to EBCDIC", TO_TAPE)->header = clean;
    disk_rows(clean);
    make_season();
    new_row("a line appended to a volume, which is then full", APPEND);
    new_row("a line of a full volume", LINE);
}

// Time.

static double now(void)
{
    struct timespec t;
    clock_gettime(CLOCK_MONOTONIC, &t);
    return 1e9 * (double)t.tv_sec + (double)t.tv_nsec;
}

// By the wall clock: the least of many short calls is one that nobody disturbed. The processor's own time is sometimes booked
// short on a virtual machine.
static void time_once(struct row *r)
{
    static void (*const runners[RUNNERS])(struct row *) = {by_library, by_second, by_yardstick, by_pass};
    for (int i = 0; i < RUNNERS; i++) {
        double from = now();
        runners[i](r);
        double took = (now() - from) / (double)r->calls;
        if (took < r->least[i])
            r->least[i] = took;
    }
}

static unsigned rounds, addresses = 1;

static void time_all(double seconds)
{
    for (double from = now(); rounds < 5 || now() - from < seconds * 1e9; rounds++)
        for (unsigned k = 0; k < count; k++)
            time_once(&rows[k]);
}

// Takes in what an earlier program has measured, if there is such a file.
static void load_least(const char *path)
{
    FILE *file = fopen(path, "r");
    unsigned more, before;
    if (file == NULL)
        return;
    if (fscanf(file, "%u %u", &more, &before) != 2)
        fail(rows, "the file of least times is damaged");
    rounds += more;
    addresses += before;
    for (struct row *r = rows; r < rows + count; r++)
        for (int i = 0; i < RUNNERS; i++) {
            double least;
            if (fscanf(file, "%lf", &least) != 1)
                fail(r, "the file of least times is damaged");
            if (least < r->least[i])
                r->least[i] = least;
        }
    fclose(file);
}

static void store_least(const char *path)
{
    FILE *file = fopen(path, "w");
    if (file == NULL)
        fail(rows, "the file of least times cannot be written");
    fprintf(file, "%u %u\n", rounds, addresses);
    for (const struct row *r = rows; r < rows + count; r++)
        for (int i = 0; i < RUNNERS; i++)
            fprintf(file, "%.17g%c", r->least[i], i + 1 < RUNNERS ? ' ' : '\n');
    if (fclose(file) != 0)
        fail(rows, "the file of least times cannot be written");
}

static void print_time(double ns)
{
    printf(" %.*f |", ns >= 1e5 ? 0 : ns >= 1e4 ? 1 : 3, ns / 1e3);
}

// Whether a row belongs only to the table by the number of cards.
static int of_other_size(const struct row *r)
{
    return r->header && r->header->size != FEW_CARDS * CARD_SIZE;
}

static void print_rows(void)
{
    printf("Least of %u rounds at %u addresses, in microseconds a call. Headers are of 800 cards,\n"
           "the volume of %d.\n\n",
           rounds, addresses, MOST_VOLUME);
    printf("| what | library | second | yardstick | pass | library / second | library / yardstick | library / pass |\n");
    printf("|---|---:|---:|---:|---:|---:|---:|---:|\n");
    for (const struct row *r = rows; r < rows + count; r++) {
        if (of_other_size(r))
            continue;
        printf("| %s |", r->name);
        for (int i = 0; i < RUNNERS; i++)
            if (i != YARDSTICK || r->operation == CHECK)
                print_time(r->least[i]);
            else
                printf(" |");
        printf(" %.2f |", r->least[LIBRARY] / r->least[SECOND]);
        if (r->operation == CHECK)
            printf(" %.2f | %.1f |\n", r->least[LIBRARY] / r->least[YARDSTICK], r->least[LIBRARY] / r->least[PASS]);
        else
            printf(" | %.1f |\n", r->least[LIBRARY] / r->least[PASS]);
    }
}

static void print_growth(void)
{
    static const char *const by[RUNNERS] = {"library", "second", "yardstick", "pass"};
    printf("\nMicroseconds by the number of cards, and two by others: 8 and 5.1 where time is the cards'.\n\n");
    printf("| what | by | 100 | 200 | 400 | 800 | 1,600 | 4,096 | 800 / 100 | 4,096 / 800 |\n");
    printf("|---|---|---:|---:|---:|---:|---:|---:|---:|---:|\n");
    for (unsigned g = 0; g < GROWN; g++)
        for (int i = 0; i < (g == 0 ? RUNNERS : PASS); i++) {
            printf("| %s | %s |", grown[g].name, by[i]);
            for (unsigned k = 0; k < SIZES; k++)
                print_time(grown[g].rows[k]->least[i]);
            printf(" %.1f | %.1f |\n", grown[g].rows[FEW]->least[i] / grown[g].rows[0]->least[i],
                   grown[g].rows[MOST]->least[i] / grown[g].rows[FEW]->least[i]);
        }
}

// Instructions.

// The name of a check of 800 cards, for a tool that counts the instructions of one call; nothing for another row. Serials of one
// chain would take too long.
static int call_once(unsigned long number, const char *runner)
{
    static const char *const names[] = {"library", "second", "yardstick"};
    static void (*const runners[])(struct row *) = {by_library, by_second, by_yardstick};
    if (number >= count)
        return EXIT_FAILURE;
    struct row *r = &rows[number];
    if (r->operation != CHECK || of_other_size(r) || strcmp(r->name, grown[CROWDED].name) == 0)
        return EXIT_SUCCESS;
    hold(r);
    for (int i = 0; runner != NULL && i < PASS; i++)
        if (strcmp(runner, names[i]) == 0)
            runners[i](r);
    printf("%s\n", r->name);
    return EXIT_SUCCESS;
}

// The stack.

enum { PAINT = 0xa5, STACK = 1 << 20 };
static const struct made *deep;
static const struct row *asked;

static void nothing(void)
{
    sink = 0;
}

static void check_by_library(void)
{
    sink = answer_to(deep);
}

static void check_by_second(void)
{
    size_t faults;
    sink = check_ties(deep->at, deep->size, second_list, MOST_NUMBERS, &faults).number;
}

static void question_to_library(void)
{
    sink = ask_library(asked);
}

static void log_to_library(void)
{
    sink = log_by_library(logged);
}

static void disk_by_library(void)
{
    sink = p294_to_disk(deep->at, deep->size, out, MOST_FILE, numbers, P294_NUMBERS);
}

static void file_by_library(void)
{
    sink = p294_from_disk(disk, disk_size, out, MOST_FILE, numbers, P294_NUMBERS);
}

static void append_to_season(void)
{
    sink = append_by_library();
}

// The bytes from the top of a painted stack down to the lowest that a call wrote.
static size_t depth_of(void (*call)(void))
{
    static uint8_t stack[STACK];
    ucontext_t here, there;
    size_t i = 0;
    memset(stack, PAINT, sizeof stack);
    if (getcontext(&there) != 0)
        exit(EXIT_FAILURE);
    there.uc_stack.ss_sp = stack;
    there.uc_stack.ss_size = sizeof stack;
    there.uc_link = &here;
    makecontext(&there, call, 0);
    if (swapcontext(&here, &there) != 0)
        exit(EXIT_FAILURE);
    while (i < sizeof stack && stack[i] == PAINT)
        i++;
    return sizeof stack - i;
}

static void print_stack(void)
{
    size_t without = depth_of(nothing);
    deep = grown[WORST].rows[MOST]->header;
    for (asked = rows; asked->operation != KEY; asked++)
        ;
    printf("\nStack, in bytes from the call down to the lowest that was written:\n\n");
    printf("| call | bytes |\n|---|---:|\n");
    printf("| p294_check, 4,096 cards, as many broken ties as can be | %zu |\n", depth_of(check_by_library) - without);
    printf("| the second implementation's check | %zu |\n", depth_of(check_by_second) - without);
    deep = grown[WORST].rows[FEW]->header;
    printf("| p294_key, 800 cards | %zu |\n", depth_of(question_to_library) - without);
    printf("| 5,000 calls of p294_put and p294_put_text, every kind of value, and the loop that makes them | %zu |\n",
           depth_of(log_to_library) - without);
    printf("| p294_to_disk, 800 cards | %zu |\n", depth_of(disk_by_library) - without);
    printf("| p294_from_disk, 800 lines | %zu |\n", depth_of(file_by_library) - without);
    printf("| p294_volume_append, 999 cards | %zu |\n", depth_of(append_to_season) - without);
}

int main(int argc, char **argv)
{
    double seconds = argc > 1 ? strtod(argv[1], NULL) : 15;
    make_rows();
    if (argc > 2 && strcmp(argv[1], "call") == 0)
        return call_once(strtoul(argv[2], NULL, 10), argv[3]);
    for (unsigned k = 0; k < count; k++)
        hold(&rows[k]);
    printf("All give the same answers in all %u cases.\n", count);
    fflush(stdout);
    time_all(seconds);
    if (argc > 2) {
        load_least(argv[2]);
        store_least(argv[2]);
    }
    print_rows();
    print_growth();
    print_stack();
    return EXIT_SUCCESS;
}
