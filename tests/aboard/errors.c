/* Holds the words of errors aboard to those of this machine's C library. Prints how many there are. */
#include <stdio.h>
#include <string.h>

const char *words_of(int number);

/* One more than the last error of Linux. */
enum { ERRORS = 134 };

int main(void)
{
    int known = 0;
    for (int number = 0; number < ERRORS; number++) {
        const char *words = words_of(number);
        if (strcmp(words, "Unknown error") == 0)
            continue;
        if (strcmp(words, strerror(number)) != 0) {
            fprintf(stderr, "error %d is \"%s\", not \"%s\"\n", number, strerror(number), words);
            return 1;
        }
        known++;
    }
    printf("%d\n", known);
    return 0;
}
