/* The start of a program aboard: answers what it is asked of itself, or runs it, and ends with its status. */
#include "aboard.h"

enum { CALL_EXIT = 231 };

__asm__(".globl _start\n_start:\n xor %ebp, %ebp\n mov %rsp, %rdi\n and $-16, %rsp\n call begin\n");

/* Writes a text on standard output, and answers the status. */
static int tell(const char *text)
{
    if (write_all(STANDARD_OUTPUT, text, length_of(text)))
        return ANSWERED;
    complain("standard output", words_of(error));
    return FAILED;
}

/* Answers the samples that the program was shipped with, and names each that is answered otherwise. */
static int try_samples(void)
{
    for (const char *const *word = trial_words; *word; word++)
        hand(*word);
    for (const struct sample *sample = samples; sample->name; sample++) {
        try_sample(sample);
        proved();
        if (!trial_holds())
            complain(sample->name, "the answer is another");
    }
    try_sample(0);
    return complained ? FAILED : tell("ok\n");
}

/* What a call asks. */
static int answer(char **argument)
{
    if (argument[0] && !argument[1]) {
        if (same(argument[0], "--help"))
            return tell(help);
        if (same(argument[0], "--version"))
            return tell(version);
        if (same(argument[0], "--selftest") && samples->name)
            return try_samples();
    }
    return run(argument);
}

/* The stack begins with the number of arguments, the program's name among them, and the arguments. */
__attribute__((used)) void begin(long *stack)
{
    char **argument = (char **)(stack + 1);
    kernel(CALL_EXIT, answer(*stack > 0 ? argument + 1 : argument), 0, 0);
}
