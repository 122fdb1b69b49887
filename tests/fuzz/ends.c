/* What the tests of both ends' connections do alike: look at what a call leaves in one, hand over what comes beside messages, and try bytes of any kind. */
#include "compare.h"

#include <string.h>

enum { CONNECTION_MOST = TN_CLIENT_SIZE, ANSWER_MOST = TN_FLIGHT_SIZE }; /* bytes of a connection of either end, and of an answer to a message */

_Static_assert(TN_CONNECTION_SIZE <= CONNECTION_MOST && TN_CLIENT_FLIGHT_SIZE <= ANSWER_MOST, "the larger of the two ends'");

/* ---- what a call leaves in a connection */

int32_t told(const char *name, int32_t (*call)(const uint8_t *), struct bytes connection)
{
    begin(name);
    struct lent *c = lend(connection);
    int32_t said = call(c->bytes);
    finish();
    return said;
}

static int32_t phase_of(const struct end *e, const uint8_t *connection)
{
    return told(e->phase_name, e->phase, (struct bytes){connection, e->size});
}

/* A connection that a call changed may have any bytes; one that was refused to the host, or that a warning left, has its own. */
void settle_connection(struct lent *c, int32_t result, bool stays)
{
    if (!tn_is_host_refusal(result) && !stays)
        becomes(c, c->bytes, c->n);
}

void keep_connection(const struct end *e, uint8_t *connection, const struct lent *c, int32_t result, int32_t phase, int32_t suite)
{
    memcpy(connection, c->bytes, e->size);
    expect_number(phase_of(e, connection), phase);
    expect_number(told(e->suite_name, e->suite, (struct bytes){connection, e->size}), suite);
    if (!tn_is_host_refusal(result) && (phase == 0 || phase == e->complete))
        e->expect_over(connection, phase);
}

/* ---- a change of cipher, and an alert */

static int32_t signal_lent(const struct end *e, struct lent *c, struct signal s)
{
    int32_t result = s.change ? e->change(c->bytes) : e->alert(c->bytes, s.level, s.description);
    settle_connection(c, result, !s.change && s.level == 1 && s.description != 0);
    return result;
}

void compare_signal(const struct end *e, uint8_t *connection, struct signal s, int32_t said, int32_t phase, int32_t suite)
{
    begin(s.change ? e->change_name : e->alert_name);
    struct lent *c = lend((struct bytes){connection, e->size});
    int32_t result = signal_lent(e, c, s);
    expect_number(result, said);
    finish();
    keep_connection(e, connection, c, result, phase, suite);
}

bool drawn_signal(size_t wildness, bool change_awaited, struct signal *s)
{
    *s = (struct signal){.change = change_awaited ? !once_in(wildness) : once_in(2 * wildness)};
    if (s->change)
        return true;
    s->level = (uint8_t)(once_in(wildness) ? below(4) : 1);
    s->description = (uint8_t)(once_in(wildness) ? 0 : between(1, 255));
    return once_in(10);
}

/* ---- bytes of any kind as a connection */

/* What one message came to: its result and all that the call wrote. */
struct outcome {
    int32_t result;
    uint8_t connection[CONNECTION_MOST], out[ANSWER_MOST], master[TN_MASTER_SIZE];
    uint64_t blocks;
};

static void expect_result_of_message(const struct end *e, int32_t result, size_t room)
{
    seen(result);
    if (!e->is_result(result))
        fail("%d is no result of it", (int)result);
    if (result > 0 && (size_t)result > room)
        fail("%d was given with room for %zu", (int)result, room);
}

static void probe_message(const struct end *e, const uint8_t *connection, const struct coming *m, struct outcome *o)
{
    int32_t phase = phase_of(e, connection);
    begin(e->message_name);
    struct lent *c = lend((struct bytes){connection, e->size}), *message = lend(m->message), *out = lend_room(m->room);
    struct lent *master = lend_room(TN_MASTER_SIZE), *blocks = lend_number();
    int32_t result = e->message(c, m->keys, message, out, master, blocks);
    expect_result_of_message(e, result, m->room);
    size_t written = result > 0 ? (size_t)result : 0, handed = result >= 0 && e->hands_master(result) ? TN_MASTER_SIZE : 0;
    memset(o, 0, sizeof *o);
    o->result = result;
    o->blocks = handed ? e->blocks(connection, m) : 0;
    settle_connection(c, result, false);
    becomes(out, out->bytes, written);
    becomes(master, master->bytes, handed);
    becomes(blocks, (const uint8_t *)&o->blocks, handed ? sizeof o->blocks : 0);
    finish();
    memcpy(o->connection, c->bytes, e->size);
    memcpy(o->out, out->bytes, written);
    memcpy(o->master, master->bytes, handed);
    if (tn_is_alert(result))
        e->expect_over(o->connection, 0);
    if (result >= 0 && phase == e->complete - 1)
        e->expect_over(o->connection, e->complete);
}

static void probe_signal(const struct end *e, const uint8_t *connection, struct signal s)
{
    uint8_t after[CONNECTION_MOST];
    begin(s.change ? e->change_name : e->alert_name);
    struct lent *c = lend((struct bytes){connection, e->size});
    int32_t result = signal_lent(e, c, s), alert = TN_ALERT_RESULT(s.change ? 10 : 47);
    seen(result);
    if (result != 0 && result != TN_R4 && result != alert)
        fail("%d is no result of it", (int)result);
    finish();
    memcpy(after, c->bytes, e->size);
    if (tn_is_alert(result) || (!s.change && result == 0 && (s.level == 2 || s.description == 0)))
        e->expect_over(after, 0);
}

void probe(const struct end *e, const uint8_t *connection, const struct coming *m)
{
    static struct outcome one, two;
    int32_t phase = phase_of(e, connection);
    seen(phase);
    if (phase < 0 || phase > e->complete)
        fail("%d is no phase", (int)phase);
    probe_message(e, connection, m, &one);
    if ((phase == 0 || phase == e->complete) != (one.result == TN_R4))
        fail("phase %d, and %s gave %d", (int)phase, e->message_name, (int)one.result);
    probe_message(e, connection, m, &two);
    if (memcmp(&one, &two, sizeof one) != 0)
        fail("the same call has two answers");
    probe_signal(e, connection, (struct signal){.change = true});
    probe_signal(e, connection, (struct signal){false, (uint8_t)below(4), (uint8_t)below(3)});
    if (once_in(2))
        probe_message(e, one.connection, m, &two);
}

void probe_damaged(const struct end *e, const uint8_t *connection, const uint8_t *other, const struct coming *m)
{
    uint8_t c[CONNECTION_MOST];
    memcpy(c, connection, e->size);
    damage_connection(c, other, e->size);
    probe(e, c, m);
}

void probe_flipped(const struct end *e, const uint8_t *connection, size_t bit, const struct coming *m)
{
    uint8_t c[CONNECTION_MOST];
    memcpy(c, connection, e->size);
    c[bit / 8] ^= (uint8_t)(1u << bit % 8);
    probe(e, c, m);
}
