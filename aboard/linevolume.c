/* The calls of linevolume: a volume is locked with its folder, written anew beside the old one, flushed, and put in its place. */
#include "aboard.h"

enum { CALL_FSTAT = 5, CALL_LSTAT = 6, CALL_ACCESS = 21, CALL_GETPID = 39, CALL_FLOCK = 73, CALL_FSYNC = 74, CALL_GETCWD = 79 };
enum { CALL_CHDIR = 80, CALL_RENAME = 82, CALL_UNLINK = 87, CALL_READLINK = 89, CALL_FCHMOD = 91 };

/* How files are opened, what access is asked for, the lock that one holder has, and what a call that fails may answer. */
enum { TO_MAKE = 0301, A_FOLDER = 0200000, TO_WRITE = 2, ALONE = 2, IS_THERE = -17 };

/* The kernel's answer about a file, as 32-bit numbers, and where its mode stands. */
enum { STAT_SIZE = 36, STAT_MODE = 6, MODE = 07777 };

/* The number of the open folder, and of digits where a number becomes a word. */
enum { FOLDER = 3, DIGITS = 6 };

/* The longest path, a header's bytes with one card more to notice a longer one, and the most links that are followed. */
enum { PATH = 4096, HEADER = 4097 * 80, LINKS = 40 };

static const char no_volume[] = "no such file; linevolume new makes an empty volume";

/* The volume's folder, which is the current one, its name there, and the name of the new file beside it. */
static char folder[PATH], path[PATH], beside[PATH + DIGITS + 3];
static const char *name;

/* The header to append, and its size as a word. */
static char header[HEADER], header_size[DIGITS + 1];

/* Copies a text with the 0 behind it, and answers where that is. */
static char *put(char *to, const char *text)
{
    while ((*to = *text))
        to++, text++;
    return to;
}

/* Puts a number's last digits, and a 0 behind them. */
static void put_digits(char *to, long number)
{
    to[DIGITS] = 0;
    for (int i = DIGITS - 1; i >= 0; i--, number /= 10)
        to[i] = (char)('0' + number % 10);
}

/* Says how the program is called. */
static int say_usage(void)
{
    say("linevolume: usage: linevolume ");
    say(forms);
    say("\n");
    return WRONG_CALL;
}

/* Says that the work failed, for what reason. */
static int fail(const char *what, const char *wrong)
{
    complain(what, wrong);
    return FAILED;
}

/* Goes to the folder of the path, and notes the name there; slashes behind it are none of it. */
static int go_along_path(void)
{
    size_t slash = length_of(path);
    while (slash > 1 && path[slash - 1] == '/')
        path[--slash] = 0;
    while (slash > 0 && path[slash - 1] != '/')
        slash--;
    name = path + slash;
    if (slash == 0)
        return 1;
    if (slash == 1)
        return kernel(CALL_CHDIR, (long)"/", 0, 0) >= 0;
    path[slash - 1] = 0;
    return kernel(CALL_CHDIR, (long)path, 0, 0) >= 0;
}

/* Goes to the folder of a volume; a link is followed to the file that it names. */
static int go_to(const char *volume)
{
    static char target[PATH];
    if (!*volume || length_of(volume) >= PATH)
        return 0;
    put(path, volume);
    for (int links = 0; links < LINKS; links++) {
        if (!go_along_path())
            return 0;
        long size = kernel(CALL_READLINK, (long)name, (long)target, PATH - 1);
        if (size < 0)
            return kernel(CALL_GETCWD, (long)folder, PATH, 0) >= 0;
        target[size] = 0;
        put(path, target);
    }
    return 0;
}

/* Begins a new file beside the volume, with a name that nothing there has; it is standard output. */
static int begin_new(long mode)
{
    char *end = put(put(put(beside, "."), name), ".");
    long number = kernel(CALL_GETPID, 0, 0, 0);
    long opened = IS_THERE;
    while (opened == IS_THERE) {
        put_digits(end, number++);
        opened = open_as(STANDARD_OUTPUT, beside, TO_MAKE, mode);
    }
    return opened < 0 ? fail(folder, "no file can be written there") : ANSWERED;
}

/* Lets nobody else change a volume of a folder meanwhile. The folder is locked and not the file, which is replaced. */
static int enter(const char *volume, long mode)
{
    if (!go_to(volume))
        return refuse(volume, "no such folder");
    if (open_as(FOLDER, ".", A_FOLDER, 0) < 0)
        return fail(folder, "cannot be read");
    if (kernel(CALL_FLOCK, FOLDER, ALONE, 0) < 0)
        return fail(folder, "cannot be locked");
    return begin_new(mode);
}

/* Takes the new file away, unless it has the volume's place. */
static int leave(int status)
{
    kernel(CALL_UNLINK, (long)beside, 0, 0);
    return status;
}

/* Says that the volume is not written, by the whole path of its file. */
static void complain_of_volume(void)
{
    static char whole[2 * PATH];
    put(put(put(whole, folder), folder[1] ? "/" : ""), name);
    complain(whole, "could not be written");
}

/* Puts what the program writes in the volume's place, flushed before: a power cut leaves the old volume or the new. */
static int replace(void)
{
    proved();
    if (!complained && (kernel(CALL_FSYNC, STANDARD_OUTPUT, 0, 0) < 0 || kernel(CALL_RENAME, (long)beside, (long)name, 0) < 0 ||
                        kernel(CALL_FSYNC, FOLDER, 0, 0) < 0))
        complain_of_volume();
    return complained ? leave(FAILED) : ANSWERED;
}

/* Makes an empty volume; a file or a link that is there is left alone. */
static int make_new(char **argument)
{
    unsigned about[STAT_SIZE];
    int is_link = kernel(CALL_READLINK, (long)argument[1], (long)about, sizeof about) >= 0;
    int status = enter(argument[1], 0666);
    if (status != ANSWERED)
        return status;
    if (is_link || kernel(CALL_LSTAT, (long)name, (long)about, 0) >= 0)
        return leave(refuse(argument[1], "is there already"));
    return replace();
}

/* Answers a question about a volume. */
static int ask(char **argument)
{
    if (open_input(argument[1], no_volume) != ANSWERED)
        return WRONG_CALL;
    proved();
    return complained ? FAILED : ANSWERED;
}

/* Answers the header at a place, a number of 1 to 18 digits. */
static int get(char **argument)
{
    size_t digits = 0;
    while (argument[2][digits] >= '0' && argument[2][digits] <= '9')
        digits++;
    if (argument[2][digits] || digits < 1 || digits > 18)
        return say_usage();
    hand(argument[2]);
    return ask(argument);
}

/* Changes a volume by what the program makes of it; the file keeps its mode. */
static int change(char **argument)
{
    unsigned about[STAT_SIZE];
    if (check_input(argument[1], no_volume) != ANSWERED)
        return WRONG_CALL;
    if (kernel(CALL_ACCESS, (long)argument[1], TO_WRITE, 0) < 0)
        return refuse(argument[1], "cannot be written");
    int status = enter(argument[1], 0600);
    if (status != ANSWERED)
        return status;
    if (open_as(STANDARD_INPUT, name, 0, 0) < 0 || kernel(CALL_FSTAT, STANDARD_INPUT, (long)about, 0) < 0)
        return leave(fail(argument[1], "could not be read"));
    if (kernel(CALL_FCHMOD, STANDARD_OUTPUT, about[STAT_MODE] & MODE, 0) < 0)
        return leave(fail(argument[1], "could not be written"));
    return replace();
}

/* Puts a header at the end: the program is told its size, and reads it before the volume. */
static int append(char **argument)
{
    size_t size = 0;
    ssize_t taken = 1;
    if (check_input(argument[1], no_volume) != ANSWERED || open_input(argument[2], "no such file") != ANSWERED)
        return WRONG_CALL;
    while (taken > 0 && size < HEADER) {
        taken = read(STANDARD_INPUT, header + size, HEADER - size);
        size += taken > 0 ? (size_t)taken : 0;
    }
    if (taken < 0)
        return fail(argument[2], "could not be read");
    put_digits(header_size, (long)size);
    hand(header_size);
    read_first(header, header + size);
    return change(argument);
}

/* The calls: the first word, the number of words, and what is done. */
static const struct {
    const char *word;
    int words;
    int (*action)(char **argument);
} calls[] = {
    {"new", 2, make_new},
    {"list", 2, ask},
    {"get", 3, get},
    {"append", 3, append},
    {"widen", 2, change},
    {"narrow", 2, change},
    {"compact", 2, change},
};

int run(char **argument)
{
    int words = 0;
    while (argument[words])
        words++;
    for (size_t i = 0; i < sizeof calls / sizeof *calls; i++)
        if (words == calls[i].words && same(argument[0], calls[i].word)) {
            hand(argument[0]);
            return calls[i].action(argument);
        }
    return say_usage();
}
