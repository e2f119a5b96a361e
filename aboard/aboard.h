/* What the parts of a program aboard share. No header of a C library is read: none need be there. */
#ifndef ABOARD_H
#define ABOARD_H

typedef __SIZE_TYPE__ size_t;
typedef __PTRDIFF_TYPE__ ssize_t;

enum { STANDARD_INPUT, STANDARD_OUTPUT, STANDARD_ERROR };

/* The status that a program ends with. */
enum { ANSWERED = 0, FAILED = 1, WRONG_CALL = 2 };

/* A sample, and what the program has to answer. */
struct sample {
    const char *name;
    const char *input, *input_end;
    const char *answer, *answer_end;
};

/* What tools/release links into a program: its name, the forms of its arguments, and its texts. */
extern const char program[], forms[], help[], version[];

/* Its trial: the words that it is handed, 0 behind them, and the samples, one without a name behind them. */
extern const char *const trial_words[];
extern const struct sample samples[];

/* Runs the proved program. */
void proved(void);

/* What it calls to read and to write. */
ssize_t read(int file, void *to, size_t size);
ssize_t write(int file, const void *from, size_t size);

/* No program has more forms of arguments, or is handed more words. */
enum { MOST_WORDS = 8 };

/* Hands a word to the proved program, behind those before it. */
void hand(const char *word);

/* These bytes are read first, before any of a file. */
void read_first(const char *from, const char *end);

/* The error of the last call that failed, and its words. */
extern int error;
const char *words_of(int number);

/* Whether anything was said on standard error, or the proved program has ended with another status than 0. */
extern int complained;

/* From now on a sample is read, and what is written is compared with its answer; without one, no longer. */
void try_sample(const struct sample *sample);

/* Whether all of the answer was written, and nothing else. */
int trial_holds(void);

/* A call of the kernel; below 0 it is an error. */
long kernel(long number, long first, long second, long third);

/* The number of a text's bytes, without the 0 behind them, and whether two texts are the same. */
size_t length_of(const char *text);
int same(const char *a, const char *b);

/* Writes all of a text, and says one on standard error, or what is wrong with what, or why a file is not read. */
int write_all(int file, const char *text, size_t left);
void say(const char *text);
void complain(const char *what, const char *wrong);
int refuse(const char *file, const char *why);

/* Opens a file under a number; below 0 it is an error. */
long open_as(int number, const char *file, long how, long mode);

/* Whether a file can be read, and the same with the file as standard input; missing says that it is not there. */
int check_input(const char *file, const char *missing);
int open_input(const char *file, const char *missing);

/* Runs the proved program on what the arguments ask for, and answers the status. */
int run(char **argument);
#endif
