/* The server: series of calls on a connection against the model, and on bytes that no call has written. */
#include "compare.h"

#include <string.h>

static struct answer wanted;

/* ---- what a call leaves in a connection */

/* Connections that a call has closed or completed have the same bytes, whoever the client was: those of the first one that was seen. A record connection
 * begins with one of the server's. */
static void expect_over(const uint8_t *connection, int32_t phase)
{
    static uint8_t first[6][TN_CONNECTION_SIZE];
    static bool seen[6];
    expect_number(told("tn_phase", tn_phase, (struct bytes){connection, TN_CONNECTION_SIZE}), phase);
    if (!seen[phase])
        memcpy(first[phase], connection, TN_CONNECTION_SIZE);
    seen[phase] = true;
    if (memcmp(first[phase], connection, TN_CONNECTION_SIZE) != 0)
        fail("a connection in phase %d is not as others are: it has a trace of its client", (int)phase);
}

static void keep(struct pair *p, const struct lent *c, int32_t result)
{
    keep_connection(&server_end, p->connection, c, result, p->model.phase, model_suite(&p->model));
}

static struct lent *lend_connection(const struct pair *p)
{
    return lend((struct bytes){p->connection, TN_CONNECTION_SIZE});
}

/* ---- calls on a connection and on its model */

void pair_start(struct pair *p, struct bytes random, struct bytes hint, struct bytes stand_in, uint8_t rule)
{
    int32_t said = model_start(&p->model, random, hint, stand_in, rule);
    begin("tn_start");
    struct lent *c = once_in(4) ? lend_room(TN_CONNECTION_SIZE) : lend_connection(p); /* what was there before does not matter */
    struct lent *r = lend(random), *h = lend(hint), *k = lend(stand_in);
    int32_t result = tn_start(c->bytes, r->bytes, r->n, h->bytes, h->n, k->bytes, k->n, rule);
    expect_number(result, said);
    settle_connection(c, result, false);
    finish();
    if (said == 0)
        keep(p, c, result);
}

/* The one call that takes a message, of lent pieces and of a table and its list that it lends. */
static int32_t message_lent(struct lent *c, const struct keys *keys, struct lent *m, struct lent *out, struct lent *master, struct lent *blocks)
{
    const struct lent *t = lend(keys->text), *s = lend_numbers(keys->list.at, keys->list.n);
    return tn_message(c->bytes, t->bytes, t->n, numbers_of(s), keys->list.n, keys->list.count, m->bytes, m->n, out->bytes, out->n, master->bytes,
                      number_of(blocks));
}

struct bytes pair_message(struct pair *p, const struct keys *keys, struct bytes message, size_t room)
{
    model_message(&p->model, keys, message, room, &wanted);
    begin("tn_message");
    struct lent *c = lend_connection(p), *m = lend(message), *out = lend_room(room), *master = lend_room(TN_MASTER_SIZE), *blocks = lend_number();
    int32_t result = message_lent(c, keys, m, out, master, blocks);
    settle_connection(c, result, false);
    if (wanted.said == 0) {
        becomes(master, p->model.master, TN_MASTER_SIZE);
        becomes(blocks, (const uint8_t *)&p->model.blocks, sizeof p->model.blocks);
    }
    settle(result, out, &wanted);
    keep(p, c, result);
    return (struct bytes){wanted.bytes, wanted.said > 0 ? (size_t)wanted.said : 0};
}

void pair_signal(struct pair *p, struct signal s)
{
    int32_t said = s.change ? model_change(&p->model) : model_alert(&p->model, s.level, s.description);
    compare_signal(&server_end, p->connection, s, said, p->model.phase, model_suite(&p->model));
}

/* ---- this end, on any bytes */

static bool is_alert_of_message(int32_t result)
{
    static const uint8_t alerts[] = {10, 40, 47, 50, 51, 70, 115};
    return tn_is_alert(result) && result >= -1255 && memchr(alerts, tn_alert_number(result), sizeof alerts);
}

static bool is_result_of_message(int32_t result)
{
    bool count = result == 0 || result == 16 || result == 46 || (result > 52 && result <= TN_FLIGHT_SIZE);
    return count || result == TN_R1 || result == TN_R2 || result == TN_R4 || result == TN_R10 || is_alert_of_message(result);
}

static bool without_answer(int32_t result)
{
    return result == 0;
}

/* The randoms and the key's bytes do not matter, and a stand-in key has 32 bytes in any connection. */
static uint64_t blocks_of_message(const uint8_t *connection, const struct coming *m)
{
    (void)connection;
    return model_exchange_blocks(m->keys, m->message);
}

const struct end server_end = {
    .message_name = "tn_message",
    .change_name = "tn_change_of_cipher",
    .alert_name = "tn_alert",
    .phase_name = "tn_phase",
    .suite_name = "tn_suite",
    .message = message_lent,
    .change = tn_change_of_cipher,
    .alert = tn_alert,
    .phase = tn_phase,
    .suite = tn_suite,
    .size = TN_CONNECTION_SIZE,
    .complete = TN_PHASE_COMPLETE,
    .is_result = is_result_of_message,
    .hands_master = without_answer,
    .blocks = blocks_of_message,
    .expect_over = expect_over,
};

/* ---- drawn series */

static size_t wildness; /* of a series: once in so many times something else than what is awaited */

static struct bytes drawn_finished(const struct pair *p)
{
    model_verify_data(&p->model.messages, p->model.master, (uint8_t)(once_in(wildness) ? 1 : 0), &wanted);
    if (once_in(wildness))
        wanted.bytes[below(12)] ^= (uint8_t)(1u << below(8));
    struct bytes value = copied(0, (struct bytes){wanted.bytes, 12});
    compose_message(20, value, &wanted);
    return copied(MESSAGE, (struct bytes){wanted.bytes, (size_t)wanted.said});
}

/* The message that the connection awaits, or would if it awaited one; seldom damaged. */
static struct bytes drawn_message(const struct pair *p, struct bytes table)
{
    struct hello h;
    struct bytes m;
    switch (once_in(wildness) ? (int32_t)below(6) : p->model.phase) {
    case TN_PHASE_CLIENT_KEY_EXCHANGE:
        model_write_key_exchange(16, drawn_identity(0, table), &wanted);
        m = copied(MESSAGE, (struct bytes){wanted.bytes, wanted.said < 0 ? 0 : (size_t)wanted.said});
        break;
    case TN_PHASE_FINISHED: m = drawn_finished(p); break;
    default: m = once_in(wildness) ? drawn_hello(&h, true) : drawn_login();
    }
    return once_in(wildness) ? damaged(m) : m;
}

static void drawn_start(struct pair *p)
{
    struct settings s = drawn_settings();
    pair_start(p, s.random, s.hint, s.stand_in, s.rule);
}

static size_t drawn_message_room(const struct pair *p)
{
    size_t flight = p->model.hint_n == 0 ? 46 : 52 + p->model.hint_n;
    return once_in(6) ? below(TN_FLIGHT_SIZE + 2) : once_in(6) ? drawn_room((int32_t)flight) : once_in(6) ? drawn_room(16) : between(TN_FLIGHT_SIZE, 260);
}

static void drawn_call(struct pair *p, const struct keys *keys)
{
    struct signal s;
    if (drawn_signal(wildness, p->model.phase == TN_PHASE_CHANGE_OF_CIPHER, &s))
        pair_signal(p, s);
    else
        pair_message(p, keys, once_in(2 * wildness) ? drawn(MESSAGE, below(50)) : drawn_message(p, keys->text), drawn_message_room(p));
}

void server_round(void)
{
    static struct pair p, other;
    struct keys keys = keys_of(drawn_table(6));
    memset(&p, 0, sizeof p); /* cleared bytes are a closed connection */
    memset(&other, 0, sizeof other);
    drawn_start(&other);
    wildness = once_in(2) ? 6 : 60;
    if (once_in(8))
        drawn_call(&p, &keys);
    for (size_t i = between(3, 12); i > 0; i--) {
        if (p.model.phase == TN_PHASE_CLOSED || p.model.phase == TN_PHASE_COMPLETE || once_in(40))
            drawn_start(&p);
        drawn_call(&p, keys_of_call(&keys));
        if (once_in(3)) {
            struct coming m = {keys_of_call(&keys), drawn_message(&p, keys.text), drawn_message_room(&p)};
            probe_damaged(&server_end, p.connection, other.connection, &m);
        }
    }
}

/* ---- sweeps */

void every_alert(void)
{
    static struct pair p;
    for (unsigned i = 0; i < 65536; i++) {
        if (p.model.phase != TN_PHASE_CLIENT_HELLO)
            pair_start(&p, drawn(0, 32), drawn(1, 0), drawn(2, 32), TN_RULE_NONE);
        pair_signal(&p, (struct signal){false, (uint8_t)(i >> 8), (uint8_t)i});
    }
}

/* A connection that awaits a ClientKeyExchange. */
static void go_to_exchange(struct pair *p, uint8_t rule)
{
    const struct keys none = keys_of(drawn(6, 0));
    do {
        pair_start(p, drawn(0, 32), clean_text(1, 20), drawn(2, 32), rule);
        pair_message(p, &none, drawn_login(), TN_FLIGHT_SIZE);
    } while (p->model.phase != TN_PHASE_CLIENT_KEY_EXCHANGE);
}

/* Keys of each length under each rule, of the identity that has one and of one that is not listed; also without a well-formed table, and without its list. */
void every_key(void)
{
    static struct pair p, there;
    for (size_t i = 0; i < 3 * TN_PSK_LIMIT; i++) {
        go_to_exchange(&there, (uint8_t)(i % 3));
        struct keys keys = keys_of(full_table(6, 1, 0, 0, 1 + i / 3)), cut = keys, uncounted = keys;
        const struct keys *given[] = {&keys, &keys, &cut, &uncounted};
        cut.text.n--;
        uncounted.list.count = 0;
        for (size_t k = 0; k < 4; k++) {
            model_write_key_exchange(16, (struct bytes){(const uint8_t *)ODD, k == 0 ? 2 : 3}, &wanted);
            p = there;
            pair_message(&p, given[k], copied(MESSAGE, (struct bytes){wanted.bytes, (size_t)wanted.said}), 0);
        }
    }
}

/* The call that takes a login one step on. */
static void step(struct pair *p, const struct keys *keys)
{
    if (p->model.phase == TN_PHASE_CHANGE_OF_CIPHER)
        pair_signal(p, (struct signal){.change = true});
    else
        pair_message(p, keys, drawn_message(p, keys->text), TN_FLIGHT_SIZE);
}

/* Each bit of a connection changed, in each phase, before the awaited message. */
void every_bit(void)
{
    static const uint8_t line[] = "gate7:abcd\n";
    struct keys keys = keys_of((struct bytes){line, sizeof line - 1});
    static struct pair p;
    wildness = SIZE_MAX; /* nothing but what is awaited */
    pair_start(&p, drawn(0, 32), clean_text(1, 20), drawn(2, 32), TN_RULE_HIDE);
    for (int32_t phase = TN_PHASE_CLIENT_HELLO; phase < TN_PHASE_COMPLETE; phase++) {
        for (size_t bit = 0; bit < 8 * TN_CONNECTION_SIZE; bit++) {
            struct coming m = {&keys, drawn_message(&p, keys.text), TN_FLIGHT_SIZE};
            probe_flipped(&server_end, p.connection, bit, &m);
        }
        while (p.model.phase == phase)
            step(&p, &keys);
    }
}
