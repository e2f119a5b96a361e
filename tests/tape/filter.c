// Translates standard input by the library, into as much room as there are bytes, to standard output.
// Usage: filter ascii|ebcdic
#include "../../include/p294.h"

#include <stdio.h>
#include <string.h>

enum { LONGEST = 70000 };

int main(int argc, char **argv)
{
    static uint8_t bytes[LONGEST], out[LONGEST];
    int64_t numbers[P294_NUMBERS];
    size_t length = fread(bytes, 1, LONGEST, stdin);
    if (argc != 2 || ferror(stdin))
        return 2;
    int64_t said = strcmp(argv[1], "ascii") == 0 ? p294_from_ebcdic(bytes, length, out, length, numbers, P294_NUMBERS)
                                                 : p294_to_ebcdic(bytes, length, out, length, numbers, P294_NUMBERS);
    return said < 0 || fwrite(out, 1, (size_t)said, stdout) != length;
}
