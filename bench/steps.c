/* The steps of a handshake. */
#include "steps.h"

#include "measure.h"
#include "turretnail.h"

uint8_t side_of(size_t step)
{
    return step % 2 == 0 ? TN_SIDE_CLIENT : TN_SIDE_SERVER;
}

double time_of_side(uint8_t side, void (*take)(void *state, size_t step), void *state)
{
    double taken = 0;
    for (size_t step = 0; step < STEPS; step++) {
        double from = now();
        take(state, step);
        double time = now() - from;
        taken += side_of(step) == side ? time : 0;
    }
    return taken;
}
