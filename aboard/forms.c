/* Takes a call apart by the forms of its arguments, and runs the proved program on the file that it names. */
#include "aboard.h"

/* Where a form of an argument ends, and where the next begins. */
static const char *end_of(const char *form)
{
    while (*form && *form != ' ')
        form++;
    return form;
}

static const char *next_of(const char *form)
{
    form = end_of(form);
    return *form ? form + 1 : form;
}

/* Whether a form takes any argument. */
static int takes_any(const char *form)
{
    return *form >= 'A' && *form <= 'Z';
}

/* Whether a word of a form ends here. */
static int ends(char byte)
{
    return byte == '|' || byte == ']' || byte == ' ' || byte == 0;
}

/* Whether an argument is the word that begins here. */
static int is_word(const char *form, const char *argument)
{
    while (!ends(*form) && *argument == *form)
        argument++, form++;
    return !*argument && ends(*form);
}

/* Whether an argument is one of a form's words. */
static int is_among(const char *form, const char *argument)
{
    while (!is_word(form, argument)) {
        while (!ends(*form))
            form++;
        if (*form++ != '|')
            return 0;
    }
    return 1;
}

/* Says how the program is called: each form, or the word in its place that was understood. */
static int say_usage(const char *const *understood)
{
    say(program);
    say(": usage: ");
    say(program);
    for (const char *form = forms; *form; form = next_of(form)) {
        say(" ");
        if (*understood)
            say(*understood);
        else
            write_all(STANDARD_ERROR, form, (size_t)(end_of(form) - form));
        understood++;
    }
    say("\n");
    return WRONG_CALL;
}

int run(char **argument)
{
    const char *understood[MOST_WORDS] = {0};
    const char *file = 0;
    int at = 0;
    for (const char *form = forms; *form; form = next_of(form), at++) {
        int spare = *form == '[';
        int any = takes_any(form + spare);
        if (!*argument || !(any || is_among(form + spare, *argument))) {
            if (spare)
                continue;
            return say_usage(understood);
        }
        if (is_among(form + spare, "FILE"))
            file = spare || !same(*argument, "-") ? *argument : 0;
        else
            hand(*argument);
        if (!any)
            understood[at] = *argument;
        argument++;
    }
    if (*argument)
        return say_usage(understood);
    if (file && open_input(file, "no such file") != ANSWERED)
        return WRONG_CALL;
    proved();
    return complained ? FAILED : ANSWERED;
}
