/*
 * Records and record connections a second time, written from RFC 5246 sections 6 and 7 and the request for them (document 02, P5), over the server of
 * model_server.c. A record is judged on a copy of the connection, which takes its place where all of the record was accepted.
 */
#include "model.h"

#include <string.h>

/* ---- layout and protection */

static size_t put_front(uint8_t *at, uint8_t type, uint32_t version, size_t n)
{
    const uint8_t front[5] = {type, (uint8_t)(version >> 8), (uint8_t)version, (uint8_t)(n >> 8), (uint8_t)n};
    memcpy(at, front, sizeof front);
    return sizeof front;
}

/* HMAC-SHA-256 of the number and of what the record would be without its MAC: section 6.2.3.1. */
static void mac_of(const uint8_t key[32], uint64_t number, uint8_t type, uint32_t version, struct bytes content, uint8_t out[32])
{
    static uint8_t text[8 + 5 + 65535];
    static struct answer mac;
    for (size_t i = 0; i < 8; i++)
        text[i] = (uint8_t)(number >> (56 - 8 * i));
    size_t n = 8 + put_front(text + 8, type, version, content.n);
    memcpy(text + n, content.at, content.n);
    model_hmac((struct bytes){key, 32}, (struct bytes){text, n + content.n}, &mac);
    memcpy(out, mac.bytes, 32);
}

void compose_record(const struct direction *d, uint8_t type, uint32_t version, struct bytes content, struct answer *a)
{
    size_t n = put_front(a->bytes, type, version, content.n + (d->protected ? 32 : 0));
    memcpy(a->bytes + n, content.at, content.n);
    n += content.n;
    if (d->protected) {
        mac_of(d->key, d->number, type, version, content, a->bytes + n);
        n += 32;
    }
    a->said = (int32_t)n;
}

static bool is_type(uint8_t type)
{
    return type >= CHANGE && type <= DATA;
}

/* A record that we send. */
static void write_in(const struct direction *d, uint8_t type, struct bytes content, struct answer *a)
{
    a->said = TN_R5;
    if (is_type(type) && content.n <= CONTENT_LIMIT)
        compose_record(d, type, 0x0303, content, a);
}

void model_write_record(uint8_t type, struct bytes content, struct answer *a)
{
    const struct direction plain = {false, 0, {0}};
    write_in(&plain, type, content, a);
}

static struct direction under(const uint8_t key[32], uint64_t number)
{
    struct direction d = {true, number, {0}};
    memcpy(d.key, key, 32);
    return d;
}

void model_seal_record(const uint8_t key[32], uint64_t number, uint8_t type, struct bytes content, struct answer *a)
{
    struct direction d = under(key, number);
    write_in(&d, type, content, a);
}

static uint32_t two(const uint8_t *at)
{
    return (uint32_t)at[0] << 8 | at[1];
}

int32_t model_read_record(struct bytes record, size_t added, uint32_t fields[3])
{
    if (record.n < 5 || two(record.at + 3) != record.n - 5)
        return TN_ALERT_RESULT(50);
    if (!is_type(record.at[0]))
        return TN_ALERT_RESULT(10);
    if (record.n - 5 > CONTENT_LIMIT && record.n - 5 - CONTENT_LIMIT > added)
        return TN_ALERT_RESULT(22);
    fields[0] = record.at[0];
    fields[1] = two(record.at + 1);
    fields[2] = (uint32_t)record.n - 5;
    return 0;
}

/* How many bytes of a record that came are content, or an alert. */
static int32_t open_in(const struct direction *d, struct bytes record)
{
    uint32_t fields[3];
    uint8_t mac[32];
    int32_t said = model_read_record(record, d->protected ? 32 : 0, fields);
    if (said != 0)
        return said;
    if (!d->protected)
        return (int32_t)fields[2];
    if (fields[2] < 32)
        return TN_ALERT_RESULT(20);
    struct bytes content = {record.at + 5, fields[2] - 32};
    mac_of(d->key, d->number, (uint8_t)fields[0], fields[1], content, mac);
    return memcmp(mac, content.at + content.n, 32) == 0 ? (int32_t)content.n : TN_ALERT_RESULT(20);
}

int32_t model_open_record(const uint8_t key[32], uint64_t number, struct bytes record)
{
    struct direction d = under(key, number);
    return open_in(&d, record);
}

int32_t model_message_end(const uint8_t header[4])
{
    return (int32_t)(4 + (two(header + 1) << 8 | header[3]));
}

/* ---- the connection */

static bool complete(const struct record_model *m)
{
    return m->server.phase == TN_PHASE_COMPLETE;
}

/* One more record in a direction; there is no number after the last. */
static void count(struct direction *d)
{
    if (d->number != LAST_NUMBER)
        d->number++;
}

/* The direction from its change of cipher on, under one of the key block's two MAC keys. */
static void change_direction(const struct record_model *m, struct direction *d, size_t which)
{
    static struct answer block;
    const struct server *s = &m->server;
    model_key_block((struct bytes){s->master, 48}, (struct bytes){s->random, 32}, (struct bytes){s->client, 32}, 0x00B0, &block);
    *d = under(block.bytes + 32 * which, 0);
}

/* Closed, without a trace of what was; an alert's record is left to be sent, where there is a number for it. */
static void shut(struct record_model *m, int32_t said)
{
    static struct answer record;
    struct direction writing = m->writing;
    memset(m, 0, sizeof *m);
    if (!tn_is_alert(said) || writing.number == LAST_NUMBER)
        return;
    const uint8_t alert[2] = {2, tn_alert_number(said)};
    write_in(&writing, ALERT, (struct bytes){alert, 2}, &record);
    m->alert_n = (size_t)record.said;
    memcpy(m->alert, record.bytes, m->alert_n);
}

int32_t model_record_start(struct record_model *m, struct bytes random, struct bytes hint, struct bytes stand_in, uint8_t rule)
{
    static struct server started;
    int32_t said = model_start(&started, random, hint, stand_in, rule);
    if (said != 0)
        return said;
    memset(m, 0, sizeof *m);
    m->server = started;
    m->server.null_only = true;
    return 0;
}

/* R4 and R9, with which every call begins; 0 where neither is due. */
static int32_t spent(const struct record_model *m, const struct direction *d)
{
    return m->server.phase == TN_PHASE_CLOSED ? TN_R4 : d->number == LAST_NUMBER ? TN_R9 : 0;
}

/* ---- what is taken: each gives 0, or a refusal, on a copy of the connection */

/* One record more of the answer. */
static void answer_with(struct record_model *m, uint8_t type, struct bytes content, struct answer *a)
{
    static struct answer record;
    write_in(&m->writing, type, content, &record);
    count(&m->writing);
    memcpy(a->bytes + a->said, record.bytes, (size_t)record.said);
    a->said += record.said;
}

/* A flight, each of its messages in a record of its own, and before the Finished the change of cipher. */
static void answer_flight(struct record_model *m, struct bytes flight, struct answer *a)
{
    static const uint8_t one = 1;
    if (complete(m)) {
        answer_with(m, CHANGE, (struct bytes){&one, 1}, a);
        change_direction(m, &m->writing, 1);
    }
    while (flight.n > 0) {
        size_t n = (size_t)model_message_end(flight.at);
        answer_with(m, HANDSHAKE, (struct bytes){flight.at, n}, a);
        flight.at += n;
        flight.n -= n;
    }
}

/* What the header of a message is refused for, as soon as it is in. */
static int32_t early(const struct record_model *m, const uint8_t header[4])
{
    if (header[0] != model_awaited(&m->server))
        return TN_ALERT_RESULT(10);
    return model_message_end(header) > 16384 ? TN_ALERT_RESULT(50) : 0;
}

/* The first message of the bytes: how many they are, 0 where more has to come, or a refusal. */
static int32_t take_message(struct record_model *m, const struct keys *keys, struct bytes bytes, struct taken *t)
{
    static struct answer flight;
    if (complete(m) && bytes.n > 0)
        return TN_ALERT_RESULT(10);
    if (bytes.n < 4)
        return 0;
    int32_t refusal = early(m, bytes.at), end = model_message_end(bytes.at);
    if (refusal != 0 || (size_t)end > bytes.n)
        return refusal;
    model_message(&m->server, keys, (struct bytes){bytes.at, (size_t)end}, ANSWER_LIMIT, &flight);
    if (flight.said < 0)
        return flight.said;
    if (bytes.at[0] == 16)
        t->told[0] = 1;
    answer_flight(m, (struct bytes){flight.bytes, (size_t)flight.said}, &t->answer);
    return end;
}

static int32_t take_handshake(struct record_model *m, const struct keys *keys, struct bytes content, struct taken *t)
{
    static uint8_t joined[2 * CONTENT_LIMIT];
    struct bytes rest = {joined, m->held_n + content.n};
    memcpy(joined, m->held, m->held_n);
    memcpy(joined + m->held_n, content.at, content.n);
    for (int32_t n; (n = take_message(m, keys, rest, t)) != 0;) {
        if (n < 0)
            return n;
        rest.at += n;
        rest.n -= (size_t)n;
    }
    memcpy(m->held, rest.at, rest.n);
    m->held_n = rest.n;
    return 0;
}

static int32_t take_change(struct record_model *m)
{
    int32_t said = model_change(&m->server);
    if (said == 0)
        change_direction(m, &m->reading, 0);
    return said;
}

static int32_t take_alert(struct record_model *m, uint8_t level, uint8_t description)
{
    if (level != 1 && level != 2)
        return TN_ALERT_RESULT(47);
    if (level == 2 || description == 0)
        shut(m, 0);
    return 0;
}

/* What has no place where the record stands, and then what no record of its type may hold. */
static int32_t misplaced(const struct record_model *m, uint8_t type, struct bytes content)
{
    bool handshake = type == HANDSHAKE, change = type == CHANGE;
    if (complete(m) ? change || (handshake && content.n > 0) : type == DATA || (change && m->held_n > 0))
        return TN_ALERT_RESULT(10);
    if ((handshake && content.n == 0) || (type == ALERT && content.n != 2) || (change && (content.n != 1 || content.at[0] != 1)))
        return TN_ALERT_RESULT(50);
    return 0;
}

static int32_t take_content(struct record_model *m, const struct keys *keys, uint8_t type, struct bytes content, struct taken *t)
{
    int32_t said = misplaced(m, type, content);
    if (said != 0)
        return said;
    count(&m->reading);
    switch (type) {
    case HANDSHAKE: return take_handshake(m, keys, content, t);
    case CHANGE: return take_change(m);
    case ALERT: return take_alert(m, content.at[0], content.at[1]);
    default:
        t->told[1] = 1;
        t->told[2] = 5;
        t->told[3] = (uint32_t)content.n;
        return 0;
    }
}

/* The record's own tests: how many bytes are content, or the refusal. In the first protected record the MAC is the identity's proof: 51. */
static int32_t opened(const struct record_model *m, struct bytes record)
{
    int32_t n = open_in(&m->reading, record);
    bool first = m->reading.protected && m->reading.number == 0, wrong = n == TN_ALERT_RESULT(20);
    return first && (wrong || (n >= 0 && !m->server.listed)) ? TN_ALERT_RESULT(51) : n;
}

static int32_t judge(struct record_model *m, const struct keys *keys, struct bytes record, struct taken *t)
{
    int32_t n = spent(m, &m->reading);
    if (n == 0)
        n = opened(m, record);
    return n < 0 ? n : take_content(m, keys, record.at[0], (struct bytes){record.at + 5, (size_t)n}, t);
}

void model_take(struct record_model *m, const struct keys *keys, struct bytes record, size_t memory, size_t room, struct taken *t)
{
    static struct record_model next;
    next = *m;
    memset(t->told, 0, sizeof t->told);
    t->answer.said = 0;
    int32_t refusal = judge(&next, keys, record, t);
    if (refusal == 0 && ((size_t)t->answer.said > room || next.held_n > memory))
        refusal = TN_R1;
    if (refusal == 0)
        *m = next;
    else
        t->answer.said = refusal;
    if (tn_is_alert(refusal))
        shut(m, refusal);
}

/* ---- what is sent */

/* One record of the server's own, after R4, R9 and R5. */
static void send_record(struct record_model *m, uint8_t type, struct bytes content, bool allowed, size_t room, struct answer *a)
{
    a->said = spent(m, &m->writing);
    if (a->said == 0)
        a->said = TN_R5;
    if (a->said == TN_R5 && allowed)
        write_in(&m->writing, type, content, a);
    if (a->said > 0 && (size_t)a->said > room)
        a->said = TN_R1;
    if (a->said > 0)
        count(&m->writing);
}

void model_send(struct record_model *m, struct bytes content, size_t room, struct answer *a)
{
    send_record(m, DATA, content, complete(m), room, a);
}

void model_close(struct record_model *m, size_t room, struct answer *a)
{
    static const uint8_t close_notify[2] = {1, 0};
    send_record(m, ALERT, (struct bytes){close_notify, 2}, true, room, a);
    if (a->said > 0)
        shut(m, 0);
}

void model_closing_alert(const struct record_model *m, struct answer *a)
{
    memcpy(a->bytes, m->alert, m->alert_n);
    a->said = (int32_t)m->alert_n;
}
