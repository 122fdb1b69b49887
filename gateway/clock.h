/* A clock that only goes forward. */
#ifndef HOST_CLOCK_H
#define HOST_CLOCK_H

#include <stdint.h>

int64_t milliseconds(void);
int64_t nanoseconds(void);

#endif
