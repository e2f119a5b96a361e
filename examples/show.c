/* Reads a line header from a file or from standard input, and prints its line name, its node numbers and its faults:
 * what a logger does with libp294.a. Usage: show [FILE] */
#include "p294.h"

#include <stdio.h>
#include <stdlib.h>
#include <string.h>

/* The longest header, and as many entries as it can have faults. */
enum { MOST = P294_CARDS * P294_CARD, ENTRIES = P294_FAULTS };

/* The number of a field in its code, from left to right. */
enum { NAME = 1, NODE = 2, SECOND_NODE = 6 };

/* One byte more, to notice a longer one. */
static uint8_t header[MOST + 1];
static uint32_t list[ENTRIES * P294_ENTRY];

static const char *kinds[] = {"",
                              "refers to what is not defined",
                              "is defined more than once",
                              "refers to what is defined more than once",
                              "has a vessel digit that contradicts",
                              "states a count that differs from the number found",
                              "has a number with blanks behind it"};

/* A code with any digit where the pattern has @. */
static int has_code(const uint8_t *card, const char *pattern)
{
    for (int i = 0; i < P294_CODE; i++)
        if (pattern[i] == '@' ? card[i] < '0' || card[i] > '9' : card[i] != pattern[i])
            return 0;
    return 1;
}

/* Prints the text of a field, if it has one. */
static void print_text(const char *title, const uint8_t *card, size_t field)
{
    int64_t at[P294_NUMBERS];
    if (p294_read_text(card, P294_CARD, field, 0, at, P294_NUMBERS) == P294_TEXT)
        printf("%s%.*s\n", title, (int)(at[1] - at[0] + 1), (const char *)card + at[0] - 1);
}

/* Prints the whole number in a field, if it has one, with the place of its only definition or the number of several. */
static void print_node(size_t length, const uint8_t *card, size_t field)
{
    int64_t value[P294_NUMBERS], place[P294_NUMBERS];
    if (p294_read_field(card, P294_CARD, field, 0, value, P294_NUMBERS) != P294_WHOLE)
        return;
    int64_t times = p294_key(header, length, P294_NODE, P294_KEY_WHOLE, value[0], 0, header, 0, place, P294_NUMBERS);
    printf("node %lld", (long long)value[0]);
    if (times == 1)
        printf(" on card %lld, column %lld\n", (long long)place[0], (long long)place[1]);
    else
        printf(" in %lld places\n", (long long)times);
}

static void print_header(size_t length, size_t faults)
{
    for (const uint8_t *card = header; card < header + length; card += P294_CARD) {
        if (has_code(card, "H0000"))
            print_text("line ", card, NAME);
        if (has_code(card, "H22@0")) {
            print_node(length, card, NODE);
            print_node(length, card, SECOND_NODE);
        }
    }
    printf("%zu faults\n", faults);
    for (size_t i = 0; i < faults && i < ENTRIES; i++) {
        const uint32_t *entry = list + P294_ENTRY * i;
        printf("card %u, column %u %s", (unsigned)entry[0], (unsigned)entry[1], kinds[entry[2]]);
        if (entry[3] != P294_NO_VESSEL)
            printf(" (vessel %u)", (unsigned)entry[3]);
        putchar('\n');
    }
}

int main(int count, char **words)
{
    FILE *in = count > 1 ? fopen(words[1], "rb") : stdin;
    if (in == NULL) {
        perror(words[1]);
        return EXIT_FAILURE;
    }
    size_t length = fread(header, 1, sizeof header, in);
    if (ferror(in)) {
        perror("the header cannot be read");
        return EXIT_FAILURE;
    }
    int64_t why[P294_NUMBERS];
    int64_t said = p294_check(header, length, list, sizeof list / sizeof *list, why, P294_NUMBERS);
    if (said < 0)
        printf("refused %lld, card %lld, column %lld\n", (long long)why[0], (long long)why[1], (long long)why[2]);
    else
        print_header(length, (size_t)said);
    return fflush(stdout) == 0 ? EXIT_SUCCESS : EXIT_FAILURE;
}
