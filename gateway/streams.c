/* Standard input, output and error. */
#include "streams.h"

#include <fcntl.h>
#include <stdio.h>
#include <unistd.h>

void say_line(const char *format, va_list words, const char *end)
{
    fprintf(stderr, "%s: ", program_name);
    vfprintf(stderr, format, words);
    fprintf(stderr, "%s\n", end);
}

int say(int status, const char *format, ...)
{
    va_list words;
    va_start(words, format);
    say_line(format, words, "");
    va_end(words);
    return status;
}

bool hold_streams(void)
{
    int fd;
    while ((fd = open("/dev/null", O_RDONLY | O_CLOEXEC)) >= 0 && fd <= STDERR_FILENO)
        continue;
    return fd >= 0 && close(fd) == 0;
}

bool write_whole(int fd, const void *bytes, size_t n)
{
    for (size_t at = 0; at < n;) {
        ssize_t written = write(fd, (const char *)bytes + at, n - at);
        if (written <= 0)
            return false;
        at += (size_t)written;
    }
    return true;
}
