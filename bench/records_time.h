/*
 * Opening a CBC record whose MAC is wrong: the time must not show how long its padding is (RFC 5246 section 6.2.3.2). Records of one length, with good paddings
 * from the shortest to the longest at every place in a block, and with a bad one, take turns in a drawn order.
 */
#ifndef BENCH_RECORDS_TIME_H
#define BENCH_RECORDS_TIME_H

#include <stddef.h>
#include <stdint.h>

/* In cycles. The spread is that between the slowest and the fastest kind of record, each by the mean of the middle half of its distances from the round's
 * median, so that what slows the machine for a while slows all of them. */
struct opening {
    double cycles;        /* the median round's */
    double spread;        /* over the paddings */
    double spread_of_one; /* the measurement's own: one and the same record takes all the turns */
};

/* After records_start; at most 10,001 rounds. */
struct opening records_opening(uint16_t suite, size_t rounds);

#endif
