/* What a program aboard says by itself, and the files that it opens. */
#include "aboard.h"

enum { CALL_OPEN = 2, CALL_CLOSE = 3, CALL_STAT = 4, CALL_ACCESS = 21, CALL_DUP2 = 33 };

/* What access is asked for. */
enum { TO_READ = 4 };

/* The kernel's answer about a file, as 32-bit numbers, and where its kind stands. */
enum { STAT_SIZE = 36, STAT_MODE = 6, KIND = 0170000, DIRECTORY = 0040000 };

size_t length_of(const char *text)
{
    size_t length = 0;
    while (text[length])
        length++;
    return length;
}

int same(const char *a, const char *b)
{
    while (*a && *a == *b)
        a++, b++;
    return *a == *b;
}

/* However much of it each call takes. */
int write_all(int file, const char *text, size_t left)
{
    while (left > 0) {
        ssize_t taken = write(file, text, left);
        if (taken <= 0)
            return 0;
        text += taken;
        left -= (size_t)taken;
    }
    return 1;
}

/* Where that fails too there is nobody to tell. */
void say(const char *text)
{
    write_all(STANDARD_ERROR, text, length_of(text));
}

void complain(const char *what, const char *wrong)
{
    say(program);
    say(": ");
    say(what);
    say(": ");
    say(wrong);
    say("\n");
}

int refuse(const char *file, const char *why)
{
    complain(file, why);
    return WRONG_CALL;
}

long open_as(int number, const char *file, long how, long mode)
{
    long opened = kernel(CALL_OPEN, (long)file, how, mode);
    if (opened >= 0 && opened != number) {
        kernel(CALL_DUP2, opened, number, 0);
        kernel(CALL_CLOSE, opened, 0, 0);
    }
    return opened;
}

int check_input(const char *file, const char *missing)
{
    unsigned about[STAT_SIZE];
    if (kernel(CALL_STAT, (long)file, (long)about, 0) < 0)
        return refuse(file, missing);
    if ((about[STAT_MODE] & KIND) == DIRECTORY)
        return refuse(file, "is a directory");
    if (kernel(CALL_ACCESS, (long)file, TO_READ, 0) < 0)
        return refuse(file, "cannot be read");
    return ANSWERED;
}

int open_input(const char *file, const char *missing)
{
    if (check_input(file, missing) != ANSWERED)
        return WRONG_CALL;
    return open_as(STANDARD_INPUT, file, 0, 0) < 0 ? refuse(file, "cannot be read") : ANSWERED;
}
