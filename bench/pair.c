/* A handshake of two ends over memory. */
#include "measure.h"
#include "peers.h"
#include "steps.h"
#include "turretnail.h"

/* An end's first step makes its connection, and its last completes the handshake. */
static void take(void *state, size_t step)
{
    struct end *ends = state, *e = &ends[side_of(step)];
    if (e->connection == NULL)
        e->kind->open(e);
    int complete = e->kind->go_on(e);
    must(complete || step + 2 < STEPS, e->kind->failure);
}

double sample_pair(void *state)
{
    const struct pair *p = state;
    struct wire up = {.end = 0}, down = {.end = 0};
    struct end ends[] = {
        [TN_SIDE_CLIENT] = {.kind = p->client, .in = &down, .out = &up},
        [TN_SIDE_SERVER] = {.kind = p->server, .in = &up, .out = &down, .keys = p->keys},
    };
    double taken = time_of_side(p->counted, take, ends);
    ends[TN_SIDE_CLIENT].kind->close(&ends[TN_SIDE_CLIENT]);
    ends[TN_SIDE_SERVER].kind->close(&ends[TN_SIDE_SERVER]);
    return taken;
}
