/* The gateway's log, which never makes it wait. */
#include "log.h"

#include <errno.h>
#include <fcntl.h>
#include <limits.h>
#include <poll.h>
#include <signal.h>
#include <stdarg.h>
#include <stdio.h>
#include <string.h>
#include <sys/socket.h>
#include <sys/stat.h>
#include <time.h>
#include <unistd.h>

#include "clock.h"

enum { ROOM = 65536, FINISH_MS = 500, STAMP = sizeof "2026-01-31T23:59:59.999Z " };

/* How standard output is written to: it may be shared with other programs, so its own mode is left alone. */
enum way {
    WAY_DIRECT,  /* a file, or a description of our own that does not block */
    WAY_SOCKET,  /* by send, which can be told not to block */
    WAY_ASKING   /* it may block: only when poll allows it, and then no more than a pipe takes at once */
};

static char kept[ROOM];
static size_t kept_from, kept_to;
static unsigned long dropped;
static int output = STDOUT_FILENO;
static enum way way = WAY_DIRECT;

void log_start(void)
{
    int fd;
    while ((fd = open("/dev/null", O_RDWR | O_CLOEXEC)) >= 0 && fd <= STDERR_FILENO)
        (void)fcntl(fd, F_SETFD, 0);
    if (fd >= 0)
        close(fd);
    signal(SIGPIPE, SIG_IGN);
    struct stat kind;
    if (fstat(STDOUT_FILENO, &kind) != 0)
        return;
    if (S_ISSOCK(kind.st_mode))
        way = WAY_SOCKET;
    if (!S_ISFIFO(kind.st_mode) && !S_ISCHR(kind.st_mode))
        return;
    fd = open("/proc/self/fd/1", O_WRONLY | O_NONBLOCK | O_NOCTTY | O_CLOEXEC);
    way = fd >= 0 ? WAY_DIRECT : WAY_ASKING;
    output = fd >= 0 ? fd : STDOUT_FILENO;
}

static bool keep(const char *line, size_t n)
{
    if (kept_to + n > sizeof kept && kept_from > 0) {
        memmove(kept, kept + kept_from, kept_to - kept_from);
        kept_to -= kept_from;
        kept_from = 0;
    }
    if (kept_to + n > sizeof kept)
        return false;
    memcpy(kept + kept_to, line, n);
    kept_to += n;
    return true;
}

/* The time in UTC as ISO 8601 has it, to the millisecond. */
static size_t stamp(char *text)
{
    struct timespec now;
    struct tm parts;
    clock_gettime(CLOCK_REALTIME, &now);
    gmtime_r(&now.tv_sec, &parts);
    size_t n = strftime(text, STAMP, "%Y-%m-%dT%H:%M:%S", &parts);
    return n + (size_t)snprintf(text + n, STAMP - n, ".%03uZ ", (unsigned)(now.tv_nsec / 1000000) % 1000);
}

/* Makes the line and keeps it; false where there is no room. */
static bool add(const char *format, va_list words)
{
    char line[LOG_LINE_LIMIT];
    size_t n = stamp(line), room = sizeof line - n - 1;
    int wanted = vsnprintf(line + n, room, format, words);
    n += wanted < 0 ? 0 : (size_t)wanted < room ? (size_t)wanted : room - 1;
    line[n++] = '\n';
    return keep(line, n);
}

static bool say(const char *format, ...)
{
    va_list words;
    va_start(words, format);
    bool added = add(format, words);
    va_end(words);
    return added;
}

/* As many whole lines as a pipe takes at once. */
static size_t portion(void)
{
    size_t n = kept_to - kept_from;
    if (n <= PIPE_BUF)
        return n;
    const char *end = memrchr(kept + kept_from, '\n', PIPE_BUF);
    return end ? (size_t)(end - (kept + kept_from)) + 1 : PIPE_BUF;
}

static ssize_t write_portion(void)
{
    if (way == WAY_SOCKET)
        return send(output, kept + kept_from, portion(), MSG_DONTWAIT | MSG_NOSIGNAL);
    struct pollfd ask = {.fd = output, .events = POLLOUT};
    if (way == WAY_ASKING && poll(&ask, 1, 0) <= 0) {
        errno = EAGAIN;
        return -1;
    }
    return write(output, kept + kept_from, portion());
}

/* Nobody will ever read what is kept: the reader is gone, or the disk is full. */
static void give_up(void)
{
    for (size_t i = kept_from; i < kept_to; i++)
        dropped += kept[i] == '\n';
    kept_from = kept_to = 0;
}

void log_flush(void)
{
    while (kept_from < kept_to) {
        ssize_t n = write_portion();
        if (n < 0 && (errno == EAGAIN || errno == EWOULDBLOCK || errno == EINTR))
            return;
        if (n <= 0) {
            give_up();
            return;
        }
        kept_from += (size_t)n;
        if (dropped > 0 && say("%lu lines of this log were dropped, since nobody read them in time", dropped))
            dropped = 0;
    }
    kept_from = kept_to = 0;
}

void log_line(const char *format, ...)
{
    va_list words;
    va_start(words, format);
    /* behind dropped lines none is kept before their count is */
    if ((dropped > 0 && kept_from < kept_to) || !add(format, words))
        dropped++;
    va_end(words);
    log_flush();
}

int log_waits_for(void)
{
    return kept_from < kept_to ? output : -1;
}

void log_finish(void)
{
    int64_t end = milliseconds() + FINISH_MS;
    log_flush();
    for (int64_t left; log_waits_for() >= 0 && (left = end - milliseconds()) > 0;) {
        struct pollfd ready = {.fd = output, .events = POLLOUT};
        if (poll(&ready, 1, (int)left) > 0)
            log_flush();
    }
}

bool pace_allows(struct pace *pace, unsigned most)
{
    int64_t now = milliseconds();
    if (now - pace->begun >= 1000) {
        pace->begun = now;
        pace->said = 0;
    }
    if (pace->said >= most) {
        pace->held_back++;
        return false;
    }
    pace->said++;
    return true;
}
