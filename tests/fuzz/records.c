/* Record connections: calls on a connection and on its model, and on bytes that no call has written. */
#include "compare.h"

#include <string.h>

/* Where a connection's bytes have what is set here: each direction's `protected` and, behind it, its number; how many bytes are held; the closing alert. */
enum { READING = 388, WRITING = 429, HELD = 534, CLOSING = 536 };

#define ANSWER_MOST 336u /* bytes of an answer, of a connection that no call has written; of others TN_RECORD_ANSWER */

static struct answer wanted;

/* ---- what a call leaves in a connection */

static struct bytes connection_bytes(const uint8_t connection[TN_RECORD_CONNECTION_SIZE])
{
    return (struct bytes){connection, TN_RECORD_CONNECTION_SIZE};
}

static int32_t phase_of(const uint8_t connection[TN_RECORD_CONNECTION_SIZE])
{
    return told("tn_record_phase", tn_record_phase, connection_bytes(connection));
}

/* Closed by a call it has nothing but the alert that closed it. */
static void expect_closed(const uint8_t connection[TN_RECORD_CONNECTION_SIZE], struct bytes alert)
{
    uint8_t rest[TN_RECORD_CONNECTION_SIZE - TN_CONNECTION_SIZE] = {0};
    rest[CLOSING - TN_CONNECTION_SIZE] = (uint8_t)alert.n;
    memcpy(rest + (CLOSING + 1 - TN_CONNECTION_SIZE), alert.at, alert.n);
    server_end.expect_over(connection, TN_PHASE_CLOSED);
    if (memcmp(rest, connection + TN_CONNECTION_SIZE, sizeof rest) != 0)
        fail("a closed connection has more than the alert that closed it");
}

static void compare_closing_alert(const struct record_pair *p)
{
    model_closing_alert(&p->model, &wanted);
    begin("tn_closing_alert");
    struct lent *c = lend(connection_bytes(p->connection)), *out = lend_room(drawn_room(wanted.said));
    settle(tn_closing_alert(c->bytes, out->bytes, out->n), out, &wanted);
}

/* After `finish`: the bytes are kept for the next call, and what they tell is looked at. */
static void keep(struct record_pair *p, const struct lent *c, int32_t result)
{
    memcpy(p->connection, c->bytes, TN_RECORD_CONNECTION_SIZE);
    expect_number(phase_of(p->connection), p->model.server.phase);
    compare_closing_alert(p);
    if (tn_is_host_refusal(result))
        return;
    if (p->model.server.phase == TN_PHASE_CLOSED)
        expect_closed(p->connection, (struct bytes){p->model.alert, p->model.alert_n});
    if (p->model.server.phase == TN_PHASE_COMPLETE)
        server_end.expect_over(p->connection, TN_PHASE_COMPLETE);
}

/* ---- calls on a connection and on its model */

void record_start(struct record_pair *p, struct settings s)
{
    int32_t said = model_record_start(&p->model, s.random, s.hint, s.stand_in, s.rule);
    begin("tn_record_start");
    struct lent *c = once_in(4) ? lend_room(TN_RECORD_CONNECTION_SIZE) : lend(connection_bytes(p->connection)); /* what was there does not matter */
    struct lent *r = lend(s.random), *h = lend(s.hint), *k = lend(s.stand_in);
    int32_t result = tn_record_start(c->bytes, r->bytes, r->n, h->bytes, h->n, k->bytes, k->n, s.rule);
    expect_number(result, said);
    settle_connection(c, result, false);
    finish();
    if (said == 0)
        keep(p, c, result);
}

/* The one call that takes a record, of lent pieces in its order and of a table and its list that it lends. */
static int32_t take_lent(const struct lent *c, const struct keys *keys, const struct lent *r, const struct lent *m, const struct lent *out,
                         const struct lent *master, const struct lent *numbers, const struct lent *blocks)
{
    const struct lent *t = lend(keys->text), *s = lend_numbers(keys->list.at, keys->list.n);
    return tn_take_record(c->bytes, t->bytes, t->n, numbers_of(s), keys->list.n, keys->list.count, r->bytes, r->n, m->bytes, m->n, out->bytes, out->n,
                          master->bytes, numbers_of(numbers), number_of(blocks));
}

/* Memory with what is held at its front; behind that anything may stand. */
static struct lent *lend_memory(const struct record_model *m, size_t n)
{
    struct lent *l = lend_room(n < m->held_n ? m->held_n : n);
    memcpy(l->bytes, m->held, m->held_n);
    memcpy(l->before, m->held, m->held_n);
    return l;
}

void record_take(struct record_pair *p, const struct keys *keys, struct bytes record, size_t memory, size_t room)
{
    static struct taken taken;
    begin("tn_take_record");
    struct lent *c = lend(connection_bytes(p->connection)), *r = lend(record), *m = lend_memory(&p->model, memory), *out = lend_room(room);
    struct lent *master = lend_room(TN_MASTER_SIZE), *numbers = lend_room(sizeof taken.told), *blocks = lend_number();
    model_take(&p->model, keys, record, m->n, room, &taken);
    int32_t result = take_lent(c, keys, r, m, out, master, numbers, blocks);
    settle_connection(c, result, false);
    if (taken.answer.said >= 0) {
        becomes(m, p->model.held, p->model.held_n);
        becomes(numbers, (const uint8_t *)taken.told, sizeof taken.told);
        becomes(master, p->model.server.master, taken.told[0] ? TN_MASTER_SIZE : 0);
        becomes(blocks, (const uint8_t *)&p->model.server.blocks, taken.told[0] ? sizeof p->model.server.blocks : 0);
    }
    settle(result, out, &taken.answer);
    keep(p, c, result);
}

void record_send(struct record_pair *p, struct bytes content, size_t room)
{
    model_send(&p->model, content, room, &wanted);
    begin("tn_send_data");
    struct lent *c = lend(connection_bytes(p->connection)), *d = lend(content), *out = lend_room(room);
    int32_t result = tn_send_data(c->bytes, d->bytes, d->n, out->bytes, out->n);
    settle_connection(c, result, false);
    settle(result, out, &wanted);
    keep(p, c, result);
}

void record_close(struct record_pair *p, size_t room)
{
    model_close(&p->model, room, &wanted);
    begin("tn_send_close");
    struct lent *c = lend(connection_bytes(p->connection)), *out = lend_room(room);
    int32_t result = tn_send_close(c->bytes, out->bytes, out->n);
    settle_connection(c, result, false);
    settle(result, out, &wanted);
    keep(p, c, result);
}

void record_renumber(struct record_pair *p, bool sending, uint64_t number)
{
    uint8_t *at = p->connection + (sending ? WRITING : READING) + 1;
    if (p->model.server.phase == TN_PHASE_CLOSED)
        return;
    for (size_t i = 0; i < 8; i++)
        at[i] = (uint8_t)(number >> (56 - 8 * i));
    *(sending ? &p->model.writing.number : &p->model.reading.number) = number;
}

/* ---- bytes of any kind as a connection */

/* What one call came to: its result and all that it wrote. */
struct outcome {
    int32_t result;
    uint8_t connection[TN_RECORD_CONNECTION_SIZE], out[ANSWER_MOST], master[TN_MASTER_SIZE], memory[TN_RECORD_MEMORY];
    uint32_t told[4];
    uint64_t blocks;
};

static bool is_alert_of_record(int32_t result)
{
    static const uint8_t alerts[] = {10, 20, 22, 40, 47, 50, 51, 70, 115};
    return tn_is_alert(result) && result >= -1255 && memchr(alerts, tn_alert_number(result), sizeof alerts);
}

static void expect_result_of_record(int32_t result, size_t room)
{
    bool refusal = result == TN_R1 || result == TN_R2 || result == TN_R4 || result == TN_R9 || result == TN_R10;
    seen(result);
    if (!(result >= 0 && (size_t)result <= ANSWER_MOST) && !is_alert_of_record(result) && !refusal)
        fail("tn_take_record gave %d, which is no result of it", (int)result);
    if (result > 0 && (size_t)result > room)
        fail("tn_take_record gave %d with room for %zu", (int)result, room);
}

/* The numbers that may be told of a record of so many bytes. */
static void expect_told(const uint32_t numbers[4], size_t record)
{
    bool data = numbers[1] == 1 && numbers[2] == 5 && numbers[3] <= record - 5 && numbers[0] == 0;
    if (!data && (numbers[0] > 1 || numbers[1] != 0 || numbers[2] != 0 || numbers[3] != 0))
        fail("tn_take_record told %u, %u, %u, %u", numbers[0], numbers[1], numbers[2], numbers[3]);
}

/* The alert that closed a connection, as far as it is known without the keys. */
static void expect_alert(const uint8_t connection[TN_RECORD_CONNECTION_SIZE], int32_t result)
{
    const uint8_t *alert = connection + CLOSING + 1;
    size_t n = connection[CLOSING];
    const uint8_t front[] = {21, 3, 3, 0, (uint8_t)(n - 5), 2, tn_alert_number(result)};
    if (n != 0 && n != 7 && n != 39)
        fail("a closing alert of %zu bytes", n);
    if (n != 0 && memcmp(alert, front, sizeof front) != 0)
        fail("a closing alert that is not alert %u", tn_alert_number(result));
    expect_closed(connection, (struct bytes){alert, n});
}

/* The ClientKeyExchange that a record finished, in what was held and what came. None where memory is to hold what no call leaves there, a whole message or
 * more: whether that counts is left open. */
static struct bytes finished_exchange(const uint8_t connection[TN_RECORD_CONNECTION_SIZE], struct bytes record, struct bytes memory)
{
    static uint8_t joined[2 * TN_RECORD_LIMIT];
    size_t held = (size_t)connection[HELD] << 8 | connection[HELD + 1], n = 0;
    if (held > memory.n || (held >= 4 && (size_t)model_message_end(memory.at) <= held))
        return (struct bytes){joined, 0};
    if (record.n > TN_RECORD_LIMIT)
        fail("a record of %zu bytes was accepted", record.n);
    memcpy(joined, memory.at, held);
    memcpy(joined + held, record.at + 5, record.n - 5);
    for (struct bytes rest = {joined, held + record.n - 5}; rest.n >= 4; rest.at += n, rest.n -= n) {
        n = (size_t)model_message_end(rest.at);
        if (n > rest.n)
            break;
        if (rest.at[0] == 16)
            return (struct bytes){rest.at, n};
    }
    fail("a master secret without a ClientKeyExchange");
}

static void probe_take(const uint8_t *connection, const struct keys *keys, struct bytes record, struct bytes memory, size_t room, struct outcome *o)
{
    begin("tn_take_record");
    struct lent *c = lend(connection_bytes(connection)), *r = lend(record), *m = lend(memory), *out = lend_room(room);
    struct lent *master = lend_room(TN_MASTER_SIZE), *numbers = lend_room(sizeof o->told), *blocks = lend_number();
    int32_t result = take_lent(c, keys, r, m, out, master, numbers, blocks);
    expect_result_of_record(result, room);
    memset(o, 0, sizeof *o);
    o->result = result;
    if (result >= 0)
        memcpy(o->told, numbers->bytes, sizeof o->told);
    expect_told(o->told, record.n);
    settle_connection(c, result, false);
    becomes(numbers, numbers->bytes, result >= 0 ? numbers->n : 0);
    becomes(m, m->bytes, result >= 0 ? m->n : 0);
    becomes(out, out->bytes, result > 0 ? (size_t)result : 0);
    becomes(master, master->bytes, o->told[0] ? TN_MASTER_SIZE : 0);
    if (o->told[0]) {
        struct bytes exchange = finished_exchange(connection, record, memory);
        o->blocks = exchange.n > 0 ? model_exchange_blocks(keys, exchange) : *number_of(blocks);
        becomes(blocks, (const uint8_t *)&o->blocks, sizeof o->blocks);
    }
    finish();
    memcpy(o->connection, c->bytes, sizeof o->connection);
    memcpy(o->out, out->bytes, out->now_n);
    memcpy(o->master, master->bytes, master->now_n);
    memcpy(o->memory, m->bytes, m->n);
    if (tn_is_alert(result))
        expect_alert(o->connection, result);
}

/* One tn_send_data, or without content tn_send_close, and what it wrote. */
static int32_t probe_send(const uint8_t connection[TN_RECORD_CONNECTION_SIZE], const struct bytes *content, size_t room)
{
    uint8_t after[TN_RECORD_CONNECTION_SIZE];
    begin(content ? "tn_send_data" : "tn_send_close");
    struct lent *c = lend(connection_bytes(connection)), *d = lend(content ? *content : (struct bytes){connection, 0}), *out = lend_room(room);
    int32_t result = content ? tn_send_data(c->bytes, d->bytes, d->n, out->bytes, out->n) : tn_send_close(c->bytes, out->bytes, out->n);
    size_t n = content ? content->n : 2;
    seen(result);
    if (result != TN_R1 && result != TN_R4 && result != TN_R9 && !(content && result == TN_R5) && result != (int32_t)n + 5 && result != (int32_t)n + 37)
        fail("%d is no result of it", (int)result);
    settle_connection(c, result, false);
    becomes(out, out->bytes, result > 0 ? (size_t)result : 0);
    finish();
    memcpy(after, c->bytes, sizeof after);
    if (result > 0 && !content)
        expect_closed(after, (struct bytes){connection, 0});
    return result;
}

static int32_t probe_closing_alert(const uint8_t connection[TN_RECORD_CONNECTION_SIZE], size_t room)
{
    begin("tn_closing_alert");
    struct lent *c = lend(connection_bytes(connection)), *out = lend_room(room);
    int32_t result = tn_closing_alert(c->bytes, out->bytes, out->n);
    seen(result);
    if (result != TN_R1 && (result < 0 || result > TN_CLOSING_ALERT_SIZE || (size_t)result > room))
        fail("tn_closing_alert gave %d with room for %zu", (int)result, room);
    becomes(out, connection + CLOSING + 1, result > 0 ? (size_t)result : 0);
    finish();
    return result;
}

/* The calls that send, and the phase, say the same of whether it is closed. */
static void probe_others(const uint8_t connection[TN_RECORD_CONNECTION_SIZE], struct bytes content, bool closed)
{
    size_t room = below(content.n + 80);
    content.n = content.n > CONTENT_LIMIT ? CONTENT_LIMIT : content.n;
    if ((probe_send(connection, &content, room) == TN_R4) != closed || (probe_send(connection, NULL, room) == TN_R4) != closed)
        fail("the calls do not agree whether the connection is closed");
    probe_closing_alert(connection, room);
}

void record_probe(const uint8_t connection[TN_RECORD_CONNECTION_SIZE], const struct keys *keys, struct bytes record, struct bytes memory, size_t room)
{
    static struct outcome one, two;
    int32_t phase = phase_of(connection);
    bool closed = phase == TN_PHASE_CLOSED;
    seen(phase);
    if (phase < TN_PHASE_CLOSED || phase > TN_PHASE_COMPLETE)
        fail("tn_record_phase gave %d, which is no phase", (int)phase);
    probe_take(connection, keys, record, memory, room, &one);
    if (closed != (one.result == TN_R4))
        fail("phase %d, and tn_take_record gave %d", (int)phase, (int)one.result);
    probe_take(connection, keys, record, memory, room, &two);
    if (memcmp(&one, &two, sizeof one) != 0)
        fail("the same call has two answers");
    probe_others(connection, record, closed);
    if (once_in(2))
        probe_take(one.connection, keys, record, (struct bytes){one.memory, memory.n}, room, &two);
}

void record_probe_unwritten(const uint8_t connection[TN_RECORD_CONNECTION_SIZE], const struct keys *keys, struct bytes record, struct bytes memory,
                            size_t room)
{
    uint8_t c[TN_RECORD_CONNECTION_SIZE];
    memcpy(c, connection, sizeof c);
    c[once_in(2) ? READING : WRITING] = (uint8_t)between(2, 255);
    if (phase_of(c) != TN_PHASE_CLOSED || probe_closing_alert(c, TN_CLOSING_ALERT_SIZE) != 0)
        fail("bytes that no call writes are not a closed connection");
    record_probe(c, keys, record, memory, room);
    memcpy(c, connection, sizeof c);
    size_t held = once_in(2) ? 65535 - below(3) : memory.n + below(4);
    c[HELD] = (uint8_t)(held >> 8);
    c[HELD + 1] = (uint8_t)held;
    record_probe(c, keys, record, memory, room);
}
