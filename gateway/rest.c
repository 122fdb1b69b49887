/* The rest of a login after its ClientKeyExchange, under the rule hide. */
#include "rest.h"

int64_t rest_end(int64_t came, int64_t now, int64_t tick)
{
    int64_t ticks = (now - came + tick - 1) / tick;
    return came + tick * (ticks < 1 ? 1 : ticks);
}

int64_t rest_left(const struct rest *r)
{
    int64_t left = r->until == 0 ? 0 : r->until - nanoseconds();
    return left > 0 ? left : 0;
}
