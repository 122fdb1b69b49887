/*
 * The gateway's log: lines on standard output, each with its time. A line never makes the gateway wait. What can't be written at once is kept, as far as there
 * is room; lines beyond that are dropped and counted, and the count is a line of its own once there is room again.
 */
#ifndef HOST_LOG_H
#define HOST_LOG_H

#include <stdbool.h>
#include <stddef.h>
#include <stdint.h>

enum { LOG_LINE_LIMIT = 1024 }; /* of a line with its time and line end; what is longer is cut */

/* To be called before anything is opened: makes standard input, output and error exist, finds out how to write without waiting, and ignores SIGPIPE. */
void log_start(void);

/* One line, without its time and line end. */
void log_line(const char *format, ...) __attribute__((format(printf, 1, 2)));

/* What is to be polled for POLLOUT, or -1 where nothing waits to be written; log_flush is to be called when it is ready. */
int log_waits_for(void);
void log_flush(void);

/* Writes what is left, for at most half a second. */
void log_finish(void);

/* How many lines of a kind were said in the current second, and how many were not. */
struct pace {
    int64_t begun; /* of that second, in milliseconds */
    unsigned said;
    unsigned long held_back;
};

/* Whether one more line of this kind may be said, where `most` may be in a second; counts it either way. */
bool pace_allows(struct pace *pace, unsigned most);

#endif
