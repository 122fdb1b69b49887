/* The tick at which a login that rests (gateway/rest.c) goes on: the first whole one since its message came that is not past. */
#include "../gateway/rest.h"

#include <stdio.h>
#include <stdlib.h>

static void is(int64_t got, int64_t wanted)
{
    if (got == wanted)
        return;
    fprintf(stderr, "tests/rest: %lld, not %lld\n", (long long)got, (long long)wanted);
    exit(1);
}

int main(void)
{
    struct rest rest = {0};
    int64_t came = 1000, tick = 50;
    for (int64_t work = 0; work <= 500; work++)
        is(rest_end(came, came + work, tick), came + tick * (work <= tick ? 1 : work / tick + (work % tick != 0)));
    is(rest_left(&rest), 0);
    came = nanoseconds();
    rest.until = rest_end(came, came, 1000000000);
    is(rest_left(&rest) > 0 && rest_left(&rest) <= 1000000000, 1);
    rest.until = came;
    is(rest_left(&rest), 0);
    printf("tests/rest: whole ticks\n");
    return 0;
}
