// Compares libp294.a with the second implementation on random and damaged cards, headers, diskette files, tapes, volumes,
// routes between datums and headings, and on headers with bytes changed on one card.
// Usage: compare SEED CARDS HEADERS TIES FILES TAPES VOLUMES ROUTES HEADINGS CHANGED
#include "compare.h"

#include <stdio.h>
#include <stdlib.h>
#include <string.h>

struct expected refused(struct refusal r)
{
    return (struct expected){-(int64_t)r.number, {r.number, r.card, r.column}};
}

struct lent lend(unsigned turn)
{
    static const size_t rooms[] = {3, 4, 3, 2, 3, 5, 3, 0, 3, 1};
    struct lent l = {.room = rooms[turn % 10]};
    for (int i = 0; i < LENT; i++)
        l.numbers[i] = UNTOUCHED;
    return l;
}

static void print_hex(const char *title, const uint8_t *bytes, size_t size)
{
    printf("%s ", title);
    for (size_t i = 0; i < size; i++)
        printf("%02x", bytes[i]);
    putchar('\n');
}

static void fail(const struct input *in)
{
    printf("library: %s differs on", in->operation);
    for (int i = 0; i < 6; i++)
        printf(" %llu", (unsigned long long)in->numbers[i]);
    putchar('\n');
    print_hex("bytes", in->bytes, in->size);
    print_hex("text", in->text, in->text_size);
    exit(EXIT_FAILURE);
}

void hold(const struct input *in, struct expected should, int64_t said, const struct lent *l)
{
    int good = said == should.said;
    for (int i = 0; i < LENT; i++)
        good &= l->numbers[i] == (l->room < P294_NUMBERS || i >= P294_NUMBERS ? UNTOUCHED : should.numbers[i]);
    if (good)
        return;
    printf("should say %lld with %lld %lld %lld, says %lld with %lld %lld %lld (room %zu)\n", (long long)should.said,
           (long long)should.numbers[0], (long long)should.numbers[1], (long long)should.numbers[2], (long long)said,
           (long long)l->numbers[0], (long long)l->numbers[1], (long long)l->numbers[2], l->room);
    fail(in);
}

void hold_bytes(const struct input *in, const uint8_t *should, const uint8_t *is, size_t size)
{
    if (memcmp(should, is, size) == 0)
        return;
    print_hex("should leave", should, size);
    print_hex("leaves", is, size);
    fail(in);
}

void hold_list(const struct input *in, const uint32_t *should, const uint32_t *is, size_t length)
{
    for (size_t i = 0; i < length; i++)
        if (should[i] != is[i]) {
            printf("number %zu of the list should be %u, is %u\n", i, (unsigned)should[i], (unsigned)is[i]);
            fail(in);
        }
}

int main(int argc, char **argv)
{
    if (argc != 11) {
        fprintf(stderr, "usage: compare SEED CARDS HEADERS TIES FILES TAPES VOLUMES ROUTES HEADINGS CHANGED\n");
        return 2;
    }
    uint64_t seed = strtoull(argv[1], NULL, 10);
    int missing = compare_cards(seed, strtoul(argv[2], NULL, 10));
    missing |= compare_headers(seed, strtoul(argv[3], NULL, 10));
    missing |= compare_ties(seed, strtoul(argv[4], NULL, 10));
    missing |= compare_media(seed, strtoul(argv[5], NULL, 10));
    missing |= compare_tapes(seed, strtoul(argv[6], NULL, 10));
    missing |= compare_volumes(seed, strtoul(argv[7], NULL, 10));
    missing |= compare_routes(seed, strtoul(argv[8], NULL, 10));
    missing |= compare_headings(seed, strtoul(argv[9], NULL, 10));
    missing |= compare_changed(seed, strtoul(argv[10], NULL, 10));
    return missing ? EXIT_FAILURE : EXIT_SUCCESS;
}
