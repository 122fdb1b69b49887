/* Randomness from the system's own source, getrandom(2). */
#include "entropy.h"

#include <errno.h>
#include <sys/random.h>

bool entropy_fill(uint8_t *bytes, size_t n)
{
    size_t at = 0;
    while (at < n) {
        ssize_t got = getrandom(bytes + at, n - at, 0);
        if (got > 0)
            at += (size_t)got;
        else if (errno != EINTR)
            return false;
    }
    return true;
}
