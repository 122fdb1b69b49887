/*
 * Under the rule hide a login rests after its ClientKeyExchange. How long the library takes with that message depends on the table, on the name's place in it
 * and on the key, so the gateway neither reads, sends nor closes anything of this connection before a fixed time since the message came. What it does at the
 * end of the login, right or wrong, is seen from then on only. Where the work took longer than that time, twice the time counts, and so on.
 */
#ifndef HOST_REST_H
#define HOST_REST_H

#include <stdbool.h>
#include <stdint.h>

#include "clock.h"

/* Of one connection, in nanoseconds of the monotonic clock; cleared: it has not rested yet. */
struct rest {
    int64_t until;
};

/* The first whole tick since `came` that is not before `now`; at least one. */
int64_t rest_end(int64_t came, int64_t now, int64_t tick);

/* The time that is left, 0 where it does not rest. */
int64_t rest_left(const struct rest *r);

#endif
