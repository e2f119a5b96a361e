/* What a proved program calls: the C library's functions and those of the toolchain's library os, over the kernel's calls. */
#include "aboard.h"

/* The proved program's entry. */
extern int entry(void) __asm__("main");

enum { CALL_READ = 0, CALL_WRITE = 1 };

int error;
int complained;

/* The words that the proved program is handed. */
static const char *words[MOST_WORDS];
static size_t word_count;

/* The sample that is tried, or 0, and where its answer is compared next, or 0 once it differs. */
static const struct sample *tried;
static const char *next_answer;

/* What is left of the bytes that are read before a file. */
static const char *next_input, *input_end;

long kernel(long number, long first, long second, long third)
{
    long answer;
    __asm__ volatile("syscall" : "=a"(answer) : "0"(number), "D"(first), "S"(second), "d"(third) : "rcx", "r11", "memory");
    return answer;
}

/* The C library's two that compiled code calls. */
void *memcpy(void *to, const void *from, size_t size)
{
    void *start = to;
    __asm__ volatile("rep movsb" : "+D"(to), "+S"(from), "+c"(size) : : "memory");
    return start;
}

void *memset(void *to, int byte, size_t size)
{
    void *start = to;
    __asm__ volatile("rep stosb" : "+D"(to), "+c"(size) : "a"(byte) : "memory");
    return start;
}

/* The answer of a call, as C has it: -1 where it failed, with the error set aside. */
static ssize_t noted(long answer)
{
    if (answer >= 0)
        return answer;
    error = (int)-answer;
    return -1;
}

/* Hands out as much of the first bytes as there is room for. */
static ssize_t read_left(void *to, size_t size)
{
    size_t left = (size_t)(input_end - next_input);
    size_t taken = left < size ? left : size;
    memcpy(to, next_input, taken);
    next_input += taken;
    return (ssize_t)taken;
}

/* Compares what is written with the answer, as far as it went on as it has to. */
static ssize_t compare(const char *from, size_t size)
{
    for (size_t i = 0; i < size && next_answer; i++)
        next_answer = next_answer < tried->answer_end && *next_answer == from[i] ? next_answer + 1 : 0;
    return (ssize_t)size;
}

void proved(void)
{
    complained |= entry() != 0;
}

void hand(const char *word)
{
    if (word_count < MOST_WORDS)
        words[word_count++] = word;
}

void read_first(const char *from, const char *end)
{
    next_input = from;
    input_end = end;
}

void try_sample(const struct sample *sample)
{
    tried = sample;
    if (!sample)
        return;
    read_first(sample->input, sample->input_end);
    next_answer = sample->answer;
}

int trial_holds(void)
{
    return next_answer == tried->answer_end;
}

ssize_t read(int file, void *to, size_t size)
{
    return tried || next_input != input_end ? read_left(to, size) : noted(kernel(CALL_READ, file, (long)to, (long)size));
}

/* A proved program has no status of its own: whatever it says on standard error is a failure. */
ssize_t write(int file, const void *from, size_t size)
{
    complained |= file == STANDARD_ERROR;
    return tried && file == STANDARD_OUTPUT ? compare(from, size) : noted(kernel(CALL_WRITE, file, (long)from, (long)size));
}

/* A program begins by asking that a pipe without a reader be an error and no signal. Aboard it stays the signal. */
void *__sysv_signal(int number, void *action)
{
    (void)number;
    (void)action;
    return 0;
}

/* The error, as the library os asks for it and sets it. */
int rattle_errno(void)
{
    return error;
}

void rattle_set_errno(int number)
{
    error = number;
}

/* Puts the word with a number, from 1, into a buffer: its length, -1 where there is none, -2 where it does not fit. */
ssize_t rattle_arg(size_t number, char *to, size_t size)
{
    if (number == 0 || number > word_count)
        return -1;
    const char *word = words[number - 1];
    size_t length = 0;
    while (word[length]) {
        if (length == size)
            return -2;
        to[length] = word[length];
        length++;
    }
    return (ssize_t)length;
}

/* Puts an error's words into a buffer, as far as they fit with the 0 behind them. */
int __xpg_strerror_r(int number, char *to, size_t size)
{
    const char *from = words_of(number);
    size_t i = 0;
    while (i + 1 < size && from[i]) {
        to[i] = from[i];
        i++;
    }
    if (size > 0)
        to[i] = 0;
    return 0;
}
