/* The steps of a handshake, which its sides take by turns: the client's hello; the server's flight; the client's key exchange and Finished; the server's
 * Finished; and what the client makes of that. */
#ifndef BENCH_STEPS_H
#define BENCH_STEPS_H

#include <stddef.h>
#include <stdint.h>

enum { STEPS = 5 };

/* Who takes a step: TN_SIDE_CLIENT or TN_SIDE_SERVER. */
uint8_t side_of(size_t step);

/* One handshake, of which each step is taken by a call of the function: the nanoseconds of the steps of one side. */
double time_of_side(uint8_t side, void (*take)(void *state, size_t step), void *state);

#endif
