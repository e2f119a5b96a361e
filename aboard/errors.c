/* The kernel's errors in the C library's words, those that opening, reading and writing can meet. */
#include "aboard.h"

const char *words_of(int number)
{
    switch (number) {
    case 1:
        return "Operation not permitted";
    case 4:
        return "Interrupted system call";
    case 5:
        return "Input/output error";
    case 6:
        return "No such device or address";
    case 9:
        return "Bad file descriptor";
    case 11:
        return "Resource temporarily unavailable";
    case 12:
        return "Cannot allocate memory";
    case 13:
        return "Permission denied";
    case 14:
        return "Bad address";
    case 21:
        return "Is a directory";
    case 22:
        return "Invalid argument";
    case 27:
        return "File too large";
    case 28:
        return "No space left on device";
    case 30:
        return "Read-only file system";
    case 32:
        return "Broken pipe";
    case 104:
        return "Connection reset by peer";
    case 107:
        return "Transport endpoint is not connected";
    case 110:
        return "Connection timed out";
    case 116:
        return "Stale file handle";
    case 121:
        return "Remote I/O error";
    case 122:
        return "Disk quota exceeded";
    default:
        return "Unknown error";
    }
}
