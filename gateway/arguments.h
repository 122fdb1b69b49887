/* What the command lines of the gateway and of the gate have in common. Whatever is wrong is said in one line on standard error. */
#ifndef HOST_ARGUMENTS_H
#define HOST_ARGUMENTS_H

#include <getopt.h>
#include <stdbool.h>

enum { ARGUMENT_HELP = 'h', ARGUMENT_VERSION = 256 }; /* `val` of --help, for which -h stands too, and of --version */

enum reading { OPTIONS_READ, OPTIONS_HELP, OPTIONS_WRONG };

/* Reads the options, each with its argument by `take`, which is false for one that is wrong. OPTIONS_HELP: help or version was asked for and printed.
 * OPTIONS_WRONG: it was said what is wrong. From words[optind] on stand the words that are no options. */
enum reading arguments_read(int count, char **words, const struct option *names, const char *help, bool (*take)(void *options, int which, const char *text),
                            void *options);

/* Says what is wrong, and that --help lists the options; false. */
bool argument_wrong(const char *format, ...) __attribute__((format(printf, 1, 2)));

/* Whether the text is a decimal number from least to most, digits only; the value. Says nothing where it is not. */
bool decimal_number(const char *text, unsigned long least, unsigned long most, unsigned long *value);

/* The same of an option's argument. */
bool argument_number(const char *name, const char *text, unsigned long least, unsigned long most, unsigned long *value);

/* Seconds, 1 to 86,400. */
bool argument_seconds(const char *name, const char *text, unsigned *value);

#endif
