/* What the command lines of the gateway and of the gate have in common. */
#include "arguments.h"

#include <errno.h>
#include <stdarg.h>
#include <stdio.h>
#include <stdlib.h>
#include <string.h>

#include "streams.h"
#include "turretnail.h"

bool argument_wrong(const char *format, ...)
{
    va_list words;
    va_start(words, format);
    say_line(format, words, "; --help lists the options");
    va_end(words);
    return false;
}

bool decimal_number(const char *text, unsigned long least, unsigned long most, unsigned long *value)
{
    char *end;
    errno = 0;
    *value = strtoul(text, &end, 10);
    bool digits = text[0] != '\0' && strspn(text, "0123456789") == strlen(text);
    return digits && errno == 0 && *value >= least && *value <= most;
}

bool argument_number(const char *name, const char *text, unsigned long least, unsigned long most, unsigned long *value)
{
    return decimal_number(text, least, most, value) || argument_wrong("--%s: '%s' is no number from %lu to %lu", name, text, least, most);
}

bool argument_seconds(const char *name, const char *text, unsigned *value)
{
    unsigned long n;
    if (!argument_number(name, text, 1, 86400, &n))
        return false;
    *value = (unsigned)n;
    return true;
}

/* getopt_long's complaint in our own words: a single letter is in optopt, a long option is the last word that was looked at. */
static void complain(int which, const char *word)
{
    char letter[] = {'-', (char)optopt, '\0'};
    bool single = which == '?' && optopt > 0 && optopt < 128 && optopt != ARGUMENT_HELP;
    (void)argument_wrong("'%s' %s", single ? letter : word, which == ':' ? "needs a value" : "is not understood");
}

enum reading arguments_read(int count, char **words, const struct option *names, const char *help, bool (*take)(void *options, int which, const char *text),
                            void *options)
{
    opterr = 0;
    for (int which; (which = getopt_long(count, words, ":h", names, NULL)) != -1;) {
        if (which == ARGUMENT_HELP) {
            fputs(help, stdout);
            return OPTIONS_HELP;
        }
        if (which == ARGUMENT_VERSION) {
            printf("%s of turretnail " TN_VERSION "\n", program_name);
            return OPTIONS_HELP;
        }
        if (which == '?' || which == ':') {
            complain(which, words[optind - 1]);
            return OPTIONS_WRONG;
        }
        if (!take(options, which, optarg))
            return OPTIONS_WRONG;
    }
    return OPTIONS_READ;
}
