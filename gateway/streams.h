/* Standard input, output and error, and writing to any of them. */
#ifndef HOST_STREAMS_H
#define HOST_STREAMS_H

#include <stdarg.h>
#include <stdbool.h>
#include <stddef.h>

/* How the program calls itself; each defines its own. */
extern const char program_name[];

/* One line on standard error: the program's name, the text, and `end`. */
void say_line(const char *format, va_list words, const char *end);

/* The same without an end; gives the exit status that goes with it. */
int say(int status, const char *format, ...) __attribute__((format(printf, 2, 3)));

/* Where standard input, output or error is closed, something takes its place that can't be written: a file or a socket that is opened later must not be taken
 * for it. False where the system refuses. */
bool hold_streams(void);

/* Writes all n bytes. */
bool write_whole(int fd, const void *bytes, size_t n);

#endif
