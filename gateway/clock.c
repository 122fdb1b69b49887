/* A clock that only goes forward. */
#include "clock.h"

#include <time.h>

int64_t nanoseconds(void)
{
    struct timespec now;
    clock_gettime(CLOCK_MONOTONIC, &now);
    return (int64_t)now.tv_sec * 1000000000 + now.tv_nsec;
}

int64_t milliseconds(void)
{
    return nanoseconds() / 1000000;
}
