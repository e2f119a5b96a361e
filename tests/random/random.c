// Puts random and damaged buffers through the crew's program and compares what it prints with the second implementation's
// answer. Prints how often each end came, and fails if one never did.
// Usage: random SEED COUNT JOBS WORD.. (the words of the command)
#define _GNU_SOURCE
#include "../../second/ties.h"
#include "../second/chance.h"
#include "buffers.h"

#include <fcntl.h>
#include <signal.h>
#include <stdio.h>
#include <stdlib.h>
#include <sys/mman.h>
#include <sys/wait.h>
#include <unistd.h>

// What the program reads at most, the entries that it prints at most, the bytes that these can take; seconds to a run.
enum { MOST_READ = 64080, MOST_ENTRIES = 4000, MOST_TEXT = 80000, PATIENCE = 60 };

// Refusals that a header can get, kinds of fault; from how many buffers on each has to come; one in so many is accepted.
enum { REFUSALS = 11, FAULTS = 6, ENOUGH = 2000, ACCEPTED = 8 };

struct text {
    char at[MOST_TEXT];
    size_t size;
};

// How often each end came, by one job.
struct ends {
    unsigned sound, broken, refused[REFUSALS + 1], faults[FAULTS + 1], long_ones;
};

// Buffers.

// Any bytes, printable ones, or those of a few cards' codes.
static uint8_t any_byte(unsigned kind)
{
    return kind == 0 ? (uint8_t)below(256) : kind == 1 ? (uint8_t)(32 + below(95)) : one_of("HC0123456789 .-+NSEW");
}

static void make_noise(struct buffer *b)
{
    unsigned kind = below(3), pick = below(10);
    b->size = pick == 0 ? 0 : pick < 4 ? below(400) : pick < 8 ? below(803) * (size_t)CARD_SIZE : below(MOST_BYTES + 1);
    for (size_t i = 0; i < b->size; i++)
        b->at[i] = any_byte(kind);
}

static void remove_bytes(struct buffer *b, size_t from, size_t n)
{
    if (n > b->size - from)
        n = b->size - from;
    memmove(b->at + from, b->at + from + n, b->size - from - n);
    b->size -= n;
}

static void insert_bytes(struct buffer *b, size_t from, size_t n)
{
    unsigned kind = below(3);
    if (n > MOST_BYTES - b->size)
        n = MOST_BYTES - b->size;
    memmove(b->at + from + n, b->at + from, b->size - from);
    for (size_t i = 0; i < n; i++)
        b->at[from + i] = any_byte(kind);
    b->size += n;
}

// Says the last so many bytes over and over.
static void repeat_end(struct buffer *b, size_t n, size_t size)
{
    for (; n > 0 && n <= b->size && b->size < size; b->size++)
        b->at[b->size] = b->at[b->size - n];
}

// The next digit from a place on becomes a 9, or some bytes from there on become blanks.
static void change_field(struct buffer *b, size_t from)
{
    while (from < b->size && (b->at[from] < '0' || b->at[from] > '9' || from % CARD_SIZE < CODE_SIZE))
        from++;
    size_t n = percent(50) ? 0 : 1 + below(4);
    for (size_t i = from; i < b->size && i <= from + n; i++)
        b->at[i] = n == 0 ? '9' : ' ';
}

static void damage(struct buffer *b)
{
    size_t at = below((unsigned)b->size + 1), byte = b->size ? below((unsigned)b->size) : 0;
    unsigned n = percent(50) ? CARD_SIZE : 1 + below(200);
    switch (below(11)) {
    case 0: b->at[byte] = any_byte(below(3)); break;
    case 1: b->at[byte] ^= (uint8_t)(1u << below(8)); break;
    case 2: remove_bytes(b, at, n); break;
    case 3: insert_bytes(b, at, n); break;
    case 4: b->size = at; break;
    case 5: b->size = at / CARD_SIZE * CARD_SIZE; break;
    case 6:
    case 7:
    case 8: change_field(b, byte); break;
    case 9: repeat_end(b, CARD_SIZE, (798 + below(8)) * (size_t)CARD_SIZE); break;
    default: repeat_end(b, n, below(MOST_BYTES + 1));
    }
}

static void make_buffer(uint64_t seed, unsigned turn, struct buffer *b)
{
    state = seed + turn;
    uint64_t other = chance();
    unsigned kind = turn / 2 % 8;
    if (kind == 0) {
        make_noise(b);
        return;
    }
    if (kind % 2)
        make_damaged(other, b);
    else
        make_tied(other, turn == 8 ? 0 : turn == 9 ? 1 : turn == 24 ? 2 : 3, b); // its first three are long: once each
    for (unsigned k = kind == 1 || kind == 2 ? 1 + below(3) : 0; k; k--)
        damage(b);
}

// What the program has to print, and an end counted.
static void answer(const struct buffer *b, struct text *t, struct ends *e)
{
    static uint32_t list[MOST_FAULTS * ENTRY_SIZE];
    size_t faults = 0, size = b->size < MOST_READ ? b->size : MOST_READ;
    struct refusal r = {3, 0, 0}; // more cards than the program takes
    if (size % CARD_SIZE != 0 || size / CARD_SIZE <= FEW_CARDS)
        r = check_ties(b->at, size, list, MOST_FAULTS * ENTRY_SIZE, &faults);
    e->long_ones += b->size > MOST_READ;
    if (r.number) {
        e->refused[r.number]++;
        t->size = (size_t)snprintf(t->at, MOST_TEXT, "refused %u %u %u\n", r.number, r.card, r.column);
        return;
    }
    *(faults ? &e->broken : &e->sound) += 1;
    t->size = (size_t)snprintf(t->at, MOST_TEXT, "broken %zu\n", faults);
    for (size_t i = 0; i < faults && i < MOST_ENTRIES; i++) {
        const uint32_t *f = list + ENTRY_SIZE * i;
        t->size += (size_t)snprintf(t->at + t->size, MOST_TEXT - t->size, "%u %u %u %u\n", f[0], f[1], f[2], f[3]);
        e->faults[f[2]]++;
    }
}

// The program.

static void give_up(const char *what)
{
    perror(what);
    exit(EXIT_FAILURE);
}

static int new_file(void)
{
    FILE *f = tmpfile();
    if (f == NULL)
        give_up("random: a file");
    return fileno(f);
}

// What a file has; it is empty then.
static void take(int file, struct text *t)
{
    ssize_t n = pread(file, t->at, MOST_TEXT, 0);
    if (n < 0 || ftruncate(file, 0) != 0 || lseek(file, 0, SEEK_SET) != 0)
        give_up("random: a file");
    t->size = (size_t)n;
}

// Runs the program on a buffer and gives its status as wait has it.
static int run(char **command, const struct buffer *b, int out, int err)
{
    int ends[2], status;
    if (pipe2(ends, O_CLOEXEC) != 0)
        give_up("random: a pipe");
    pid_t program = fork();
    if (program < 0)
        give_up("random: a process");
    if (program == 0) {
        dup2(ends[0], 0);
        dup2(out, 1);
        dup2(err, 2);
        signal(SIGPIPE, SIG_DFL);
        alarm(PATIENCE);
        execv(command[0], command);
        _exit(127);
    }
    close(ends[0]);
    // a program that ends early leaves a part unread, which its answer shows
    ssize_t written = write(ends[1], b->at, b->size);
    (void)written;
    close(ends[1]);
    if (waitpid(program, &status, 0) != program)
        give_up("random: a process");
    return status;
}

static void fail(unsigned turn, const struct buffer *b, const struct text *should, const struct text *is, int status,
                 const struct text *said)
{
    printf("random: buffer %u differs; status %d, expected and found:\n%.*s---\n%.*s---\n%.*s---\nbytes ", turn, status,
           (int)should->size, should->at, (int)is->size, is->at, (int)said->size, said->at);
    for (size_t i = 0; i < b->size; i++)
        printf("%02x", b->at[i]);
    putchar('\n');
    fflush(stdout);
    _exit(EXIT_FAILURE);
}

static void run_job(uint64_t seed, unsigned first, unsigned count, unsigned jobs, char **command, struct ends *e)
{
    static struct buffer b;
    static struct text should, is, said;
    int out = new_file(), err = new_file();
    for (unsigned turn = first; turn < count; turn += jobs) {
        make_buffer(seed, turn, &b);
        answer(&b, &should, e);
        int status = run(command, &b, out, err);
        take(out, &is);
        take(err, &said);
        if (status != 0 || said.size != 0 || is.size != should.size || memcmp(is.at, should.at, is.size) != 0)
            fail(turn, &b, &should, &is, status, &said);
    }
    _exit(EXIT_SUCCESS);
}

// The ends of all jobs.

static int missing;

static void demand(int good, const char *what, unsigned number)
{
    if (!good) {
        printf("random: too few: %s %u\n", what, number);
        missing = 1;
    }
}

static void print_ends(const struct ends *jobs, unsigned n, unsigned count)
{
    struct ends all = {0};
    for (unsigned j = 0; j < n; j++)
        for (size_t i = 0; i < sizeof all / sizeof(unsigned); i++)
            ((unsigned *)&all)[i] += ((const unsigned *)&jobs[j])[i];
    printf("random: sound %u, broken %u, longer than is read %u; refused", all.sound, all.broken, all.long_ones);
    for (unsigned k = 1; k <= REFUSALS; k++)
        printf(" %u: %u", k, all.refused[k]);
    printf("; faults");
    for (unsigned k = 1; k <= FAULTS; k++)
        printf(" %u: %u", k, all.faults[k]);
    putchar('\n');
    if (count < ENOUGH)
        return;
    demand(all.sound > 0, "sound", all.sound);
    demand(all.sound + all.broken >= count / ACCEPTED, "accepted", all.sound + all.broken);
    demand(all.long_ones > 0, "longer than is read", all.long_ones);
    for (unsigned k = 1; k <= REFUSALS; k++)
        demand(all.refused[k] > 0, "refusal", k);
    for (unsigned k = 1; k <= FAULTS; k++)
        demand(all.faults[k] > 0, "kind of fault", k);
}

int main(int argc, char **argv)
{
    if (argc < 5) {
        fprintf(stderr, "usage: random SEED COUNT JOBS WORD..\n");
        return 2;
    }
    uint64_t seed = strtoull(argv[1], NULL, 10) << 32;
    unsigned count = (unsigned)strtoul(argv[2], NULL, 10), jobs = (unsigned)strtoul(argv[3], NULL, 10), failed = 0;
    struct ends *ends = mmap(NULL, (jobs + 1) * sizeof *ends, PROT_READ | PROT_WRITE, MAP_SHARED | MAP_ANONYMOUS, -1, 0);
    if (ends == MAP_FAILED)
        give_up("random: memory");
    signal(SIGPIPE, SIG_IGN);
    for (unsigned j = 0; j < jobs; j++) {
        pid_t job = fork();
        if (job < 0)
            give_up("random: a process");
        if (job == 0)
            run_job(seed, j, count, jobs, argv + 4, &ends[j]);
    }
    for (int status; wait(&status) > 0;)
        failed += status != 0;
    if (failed == 0)
        print_ends(ends, jobs, count);
    return failed || missing ? EXIT_FAILURE : EXIT_SUCCESS;
}
