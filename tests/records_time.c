/*
 * Opening a CBC record with a wrong MAC takes as long whatever its padding is. With HMAC over the content alone the spread over the paddings is some 390 of
 * 4,000 cycles; a spread below the limit here is the measurement's own, which the number of rounds keeps there: where a record takes 40,000 cycles, a fifth of
 * them left one and the same record a spread of 30 to 119. A crowded machine gets several tries.
 */
#include <stdio.h>

#include "../bench/records_time.h"
#include "../gateway/records.h"
#include "turretnail.h"

enum { ROUNDS = 10001, TRIES = 5, LIMIT = 60 };

static int even(uint16_t suite)
{
    double spread = 0;
    for (int i = 0; i < TRIES; i++) {
        spread = records_opening(suite, ROUNDS).spread;
        if (spread < LIMIT)
            return 1;
    }
    fprintf(stderr, "tests/records_time: suite %04x: %.1f cycles between paddings\n", (unsigned)suite, spread);
    return 0;
}

int main(void)
{
    if (!records_start() || !even(TN_SUITE_PSK_AES_128_CBC_SHA256) || !even(TN_SUITE_PSK_AES_128_CBC_SHA))
        return 1;
    records_stop();
    printf("tests/records_time: a wrong MAC takes as long with every padding\n");
    return 0;
}
