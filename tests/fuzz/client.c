/* The client: series of calls on a connection against the model, logins between it and the library's own server, and bytes that no call has written. */
#include "compare.h"

#include <string.h>

static struct answer wanted;
static size_t wildness; /* of a series: once in so many times something else than what is awaited */

static struct bytes answer(void)
{
    return (struct bytes){wanted.bytes, wanted.said > 0 ? (size_t)wanted.said : 0};
}

/* ---- what a call leaves in a connection */

/* A connection that a call has closed or completed has the phase, the starting words of its hash (FIPS 180-4 section 5.3.3), and nothing else. */
static void expect_over(const uint8_t *connection, int32_t phase)
{
    static const uint8_t starting[] = {0x6a, 0x09, 0xe6, 0x67, 0xbb, 0x67, 0xae, 0x85, 0x3c, 0x6e, 0xf3, 0x72, 0xa5, 0x4f, 0xf5, 0x3a,
                                       0x51, 0x0e, 0x52, 0x7f, 0x9b, 0x05, 0x68, 0x8c, 0x1f, 0x83, 0xd9, 0xab, 0x5b, 0xe0, 0xcd, 0x19};
    uint8_t ended[TN_CLIENT_SIZE] = {(uint8_t)phase};
    memcpy(ended + CLIENT_FIELDS, starting, sizeof starting);
    if (memcmp(ended, connection, sizeof ended) != 0)
        fail("a client's connection that ended in phase %d has a trace of it", (int)phase);
}

/* What stands in front of the transcript, which is known by its hashes alone. */
static void expect_fields(const struct client_pair *p)
{
    uint8_t fields[CLIENT_FIELDS];
    model_client_save(&p->model, fields);
    if (!p->forged && memcmp(fields, p->connection, sizeof fields) != 0)
        fail("a client's connection in phase %d has other fields than the model", (int)p->model.phase);
}

static void keep(struct client_pair *p, const struct lent *c, int32_t result)
{
    keep_connection(&client_end, p->connection, c, result, p->model.phase, model_client_suite(&p->model));
    expect_fields(p);
}

static struct lent *lend_connection(const struct client_pair *p)
{
    return lend((struct bytes){p->connection, TN_CLIENT_SIZE});
}

/* ---- calls on a connection and on its model */

struct bytes client_start(struct client_pair *p, struct gate g, size_t room)
{
    model_client_start(&p->model, g.random, g.identity, g.key, room, &wanted);
    begin("tn_client_start");
    struct lent *c = once_in(4) ? lend_room(TN_CLIENT_SIZE) : lend_connection(p); /* what was there before does not matter */
    struct lent *r = lend(g.random), *i = lend(g.identity), *k = lend(g.key), *out = lend_room(room);
    int32_t result = tn_client_start(c->bytes, r->bytes, r->n, i->bytes, i->n, k->bytes, k->n, out->bytes, out->n);
    settle_connection(c, result, false);
    settle(result, out, &wanted);
    if (wanted.said > 0) {
        p->forged = false;
        keep(p, c, result);
    }
    return answer();
}

static int32_t message_lent(struct lent *c, const struct keys *none, struct lent *m, struct lent *out, struct lent *master, struct lent *blocks)
{
    (void)none;
    return tn_client_message(c->bytes, m->bytes, m->n, out->bytes, out->n, master->bytes, number_of(blocks));
}

struct bytes client_message(struct client_pair *p, struct bytes message, size_t room)
{
    model_client_message(&p->model, message, room, &wanted);
    begin("tn_client_message");
    struct lent *c = lend_connection(p), *m = lend(message), *out = lend_room(room), *master = lend_room(TN_MASTER_SIZE), *blocks = lend_number();
    int32_t result = message_lent(c, NULL, m, out, master, blocks);
    settle_connection(c, result, false);
    if (wanted.said > 0) {
        becomes(master, p->model.master, TN_MASTER_SIZE);
        becomes(blocks, (const uint8_t *)&p->model.blocks, sizeof p->model.blocks);
    }
    settle(result, out, &wanted);
    keep(p, c, result);
    return answer();
}

void client_signal(struct client_pair *p, struct signal s)
{
    int32_t said = s.change ? model_client_change(&p->model) : model_client_alert(&p->model, s.level, s.description);
    compare_signal(&client_end, p->connection, s, said, p->model.phase, model_client_suite(&p->model));
    expect_fields(p);
}

/* ---- this end, on any bytes */

static bool is_result_of_message(int32_t result)
{
    static const uint8_t alerts[] = {10, 47, 50, 51, 70, 110};
    if (tn_is_alert(result))
        return result >= -1255 && memchr(alerts, tn_alert_number(result), sizeof alerts);
    return result == 0 || (result >= 22 && result <= TN_CLIENT_FLIGHT_SIZE) || result == TN_R1 || result == TN_R4;
}

static bool with_answer(int32_t result)
{
    return result > 0;
}

/* The key stands in the connection; its bytes and the randoms do not matter. */
static uint64_t blocks_of_message(const uint8_t *connection, const struct coming *m)
{
    static struct client c;
    (void)m;
    model_client_restore(&c, connection);
    return model_blocks((struct bytes){c.key, c.key_n});
}

const struct end client_end = {
    .message_name = "tn_client_message",
    .change_name = "tn_client_change_of_cipher",
    .alert_name = "tn_client_alert",
    .phase_name = "tn_client_phase",
    .suite_name = "tn_client_suite",
    .message = message_lent,
    .change = tn_client_change_of_cipher,
    .alert = tn_client_alert,
    .phase = tn_client_phase,
    .suite = tn_client_suite,
    .size = TN_CLIENT_SIZE,
    .complete = TN_CLIENT_PHASE_COMPLETE,
    .is_result = is_result_of_message,
    .hands_master = with_answer,
    .blocks = blocks_of_message,
    .expect_over = expect_over,
};

static bool is_over(const struct client *c)
{
    return c->phase == TN_CLIENT_PHASE_CLOSED || c->phase == TN_CLIENT_PHASE_COMPLETE;
}

void client_probe_forged(const struct client_pair *p, const uint8_t fields[CLIENT_FIELDS], struct bytes message, size_t room)
{
    static struct client_pair forged, q;
    if (is_over(&p->model) || p->model.messages.n + message.n > TRANSCRIPT_LIMIT - TN_CLIENT_FLIGHT_SIZE)
        return; /* what is over has no transcript any more, and the model's has an end */
    forged = *p;
    forged.forged = true;
    memcpy(forged.connection, fields, CLIENT_FIELDS);
    model_client_restore(&forged.model, fields);
    if (is_over(&forged.model) || forged.model.phase == TN_CLIENT_PHASE_SERVER_HELLO)
        memset(forged.connection + CLIENT_SUITE, 0, 2); /* where no ServerHello was accepted it is left open whether a suite that stands there is told */
    q = forged;
    client_message(&q, message, room);
    q = forged;
    client_signal(&q, (struct signal){.change = true});
    q = forged;
    client_signal(&q, (struct signal){false, (uint8_t)below(4), (uint8_t)below(3)});
}

/* ---- drawn series */

static struct gate drawn_gate(void)
{
    struct gate g = {.random = drawn(0, once_in(20) ? draw_length(32, 66000) : 32), .key = drawn(2, once_in(6) ? draw_length(64, 300) : between(1, 64))};
    size_t n = once_in(6) ? draw_length(128, 300) : between(1, 128);
    g.identity = once_in(3) ? plain_text(1, n) : drawn_text(1, n); /* in the second a colon or a control character may stand too */
    return g;
}

/* A message with this body, which may be another type's. */
static struct bytes composed(uint8_t type, struct bytes body)
{
    compose_message(type, body, &wanted);
    return copied(MESSAGE, answer());
}

/* A ServerKeyExchange with any hint. */
static struct bytes drawn_hint(void)
{
    model_write_key_exchange(12, drawn(0, once_in(12) ? draw_length(16378, 16380) : below(140)), &wanted);
    return copied(MESSAGE, answer());
}

static struct bytes drawn_finished(const struct client *c)
{
    model_verify_data(&c->messages, c->master, (uint8_t)(once_in(wildness) ? 0 : 1), &wanted);
    if (once_in(wildness))
        wanted.bytes[below(12)] ^= (uint8_t)(1u << below(8));
    return composed(20, copied(0, (struct bytes){wanted.bytes, 12}));
}

/* A message that is never awaited, right in itself: HelloRequest, NewSessionTicket, and the client's own. */
static struct bytes drawn_stray(void)
{
    switch (below(4)) {
    case 0: return composed(0, drawn(0, 0));
    case 1: model_write_new_session_ticket((uint32_t)draw(), drawn(0, below(60)), &wanted); break;
    case 2: model_write_key_exchange(16, drawn(0, below(60)), &wanted); break;
    default: return drawn_login();
    }
    return copied(MESSAGE, answer());
}

/* The message that the connection awaits, or would if it awaited one; seldom another, or damaged. */
static struct bytes drawn_message(const struct client *c)
{
    struct hello h;
    struct bytes m;
    switch (once_in(wildness) ? (int32_t)below(7) : c->phase) {
    case TN_CLIENT_PHASE_SERVER_HELLO: m = once_in(wildness) ? drawn_hello(&h, false) : drawn_server_hello(); break;
    case TN_CLIENT_PHASE_SERVER_KEY_EXCHANGE: m = once_in(2) ? drawn_hint() : composed(14, drawn(0, 0)); break;
    case TN_CLIENT_PHASE_SERVER_HELLO_DONE: m = composed(14, drawn(0, 0)); break;
    case TN_CLIENT_PHASE_FINISHED: m = drawn_finished(c); break;
    default: m = drawn_stray();
    }
    return once_in(wildness) ? damaged(m) : m;
}

static size_t drawn_message_room(const struct client *c)
{
    return once_in(6) ? below(TN_CLIENT_FLIGHT_SIZE + 2) : once_in(3) ? drawn_room((int32_t)(22 + c->identity_n)) : between(TN_CLIENT_FLIGHT_SIZE, 200);
}

static void drawn_call(struct client_pair *p)
{
    struct signal s;
    if (drawn_signal(wildness, p->model.phase == TN_CLIENT_PHASE_CHANGE_OF_CIPHER, &s))
        client_signal(p, s);
    else
        client_message(p, once_in(2 * wildness) ? drawn(MESSAGE, below(50)) : drawn_message(&p->model), drawn_message_room(&p->model));
}

/* Other fields: any phase, other lengths and suites, or any bytes. */
static void forge_drawn(const struct client_pair *p, const struct client_pair *other)
{
    uint8_t fields[CLIENT_FIELDS];
    memcpy(fields, p->connection, sizeof fields);
    size_t kind = below(4);
    if (kind == 0)
        damage_connection(fields, other->connection, sizeof fields);
    else
        fields[once_in(2) ? 0 : below(5)] = (uint8_t)(kind == 1 ? draw() : below(8));
    client_probe_forged(p, fields, drawn_message(&p->model), drawn_message_room(&p->model));
}

static void series(void)
{
    static struct client_pair p, other;
    memset(&p, 0, sizeof p); /* cleared bytes are a closed connection */
    memset(&other, 0, sizeof other);
    client_start(&other, drawn_gate(), TN_CLIENT_HELLO_SIZE);
    if (once_in(8))
        drawn_call(&p);
    for (size_t i = between(3, 12); i > 0; i--) {
        if (is_over(&p.model) || once_in(40))
            client_start(&p, drawn_gate(), drawn_room(TN_CLIENT_HELLO_SIZE));
        drawn_call(&p);
        if (once_in(3))
            forge_drawn(&p, &other);
        if (once_in(6)) {
            struct coming m = {NULL, drawn_message(&p.model), drawn_message_room(&p.model)};
            probe_damaged(&client_end, p.connection, other.connection, &m);
        }
    }
}

/* ---- logins between the two ends of the library */

/* Both ends, what is on the way between them, and whether anything but that came. */
struct login {
    struct client_pair client;
    struct pair server;
    struct keys keys;
    uint8_t way[2][TN_FLIGHT_SIZE]; /* to the server, to the client */
    bool altered;
};

static struct bytes on_the_way(struct login *l, bool to_client, struct bytes b)
{
    memcpy(l->way[to_client], b.at, b.n);
    return (struct bytes){l->way[to_client], b.n};
}

/* One message to the client: seldom damaged, lost, sent twice, or behind another one. What is answered comes back. */
static struct bytes to_client(struct login *l, struct bytes m)
{
    size_t needed = l->client.model.phase < TN_CLIENT_PHASE_CHANGE_OF_CIPHER ? 22 + l->client.model.identity_n : 0;
    bool odd = once_in(wildness);
    l->altered = l->altered || odd;
    if (odd)
        switch (below(4)) {
        case 0: return client_message(&l->client, damaged(m), needed);
        case 1: return (struct bytes){m.at, 0};
        case 2: client_message(&l->client, m, needed); break;
        default: client_message(&l->client, drawn_message(&l->client.model), needed);
        }
    else if (m.at[0] == 14 && once_in(3))
        client_message(&l->client, m, below(needed)); /* R1, after which it comes again */
    return client_message(&l->client, m, needed);
}

/* One message to the server. */
static struct bytes to_server(struct login *l, struct bytes m)
{
    bool odd = once_in(wildness) && m.n > 0;
    l->altered = l->altered || odd;
    return pair_message(&l->server, &l->keys, odd ? damaged(m) : m, TN_FLIGHT_SIZE);
}

/* The server's answer, message by message; the client's to it. */
static struct bytes flight_to_client(struct login *l, struct bytes flight)
{
    struct bytes last = {flight.at, 0};
    for (size_t n; flight.n >= 4; flight.at += n, flight.n -= n) {
        n = (size_t)model_message_end(flight.at);
        last = to_client(l, (struct bytes){flight.at, n});
    }
    return last;
}

/* A gate of the table, with its key or another one; where the table has none, any. */
static struct gate gate_of(const struct keys *keys)
{
    static struct answer key;
    struct gate g = {drawn(0, 32), drawn_identity(1, keys->text), drawn(2, between(1, 64))};
    model_lookup(keys, g.identity, &key);
    if (key.said > 0 && !once_in(8))
        g.key = copied(2, (struct bytes){key.bytes, (size_t)key.said});
    return g;
}

/* Whether nothing stands in the way of this login: the table is well formed and gives the gate its key. */
static bool agreed(const struct login *l)
{
    static struct answer key;
    const struct client *c = &l->client.model;
    model_lookup(&l->keys, (struct bytes){c->identity, c->identity_n}, &key);
    return model_keys(&l->keys) == 0 && key.said == (int32_t)c->key_n && memcmp(key.bytes, c->key, c->key_n) == 0;
}

static void expect_equal_ends(const struct login *l)
{
    const struct client *c = &l->client.model;
    const struct server *s = &l->server.model;
    uint8_t blocks[2][TN_KEY_BLOCK_LIMIT];
    if (c->phase != TN_CLIENT_PHASE_COMPLETE || s->phase != TN_PHASE_COMPLETE)
        fail("the client ended in phase %d and the server in phase %d", (int)c->phase, (int)s->phase);
    int32_t n = tn_key_block(c->master, 48, c->server, 32, c->random, 32, (uint16_t)c->suite, blocks[0], sizeof blocks[0]);
    if (n <= 0 || tn_key_block(s->master, 48, s->random, 32, s->client, 32, (uint16_t)s->suite, blocks[1], sizeof blocks[1]) != n)
        fail("the two ends have key blocks of other lengths");
    if (memcmp(c->master, s->master, 48) != 0 || memcmp(blocks[0], blocks[1], (size_t)n) != 0)
        fail("the two ends have different keys");
}

static void log_in(struct login *l)
{
    const struct signal change = {.change = true};
    struct bytes hello = client_start(&l->client, gate_of(&l->keys), TN_CLIENT_HELLO_SIZE);
    struct settings s = {drawn(0, 32), once_in(2) ? drawn(1, 0) : clean_text(1, below(129)), drawn(2, 32), (uint8_t)below(3)};
    hello = on_the_way(l, false, hello);
    pair_start(&l->server, s.random, s.hint, s.stand_in, s.rule);
    struct bytes flight = on_the_way(l, true, to_server(l, hello)), answered = on_the_way(l, false, flight_to_client(l, flight));
    size_t cut = answered.n < TN_FINISHED_SIZE ? 0 : answered.n - TN_FINISHED_SIZE;
    to_server(l, (struct bytes){answered.at, cut});
    pair_signal(&l->server, change);
    struct bytes finished = on_the_way(l, true, to_server(l, (struct bytes){answered.at + cut, answered.n - cut}));
    client_signal(&l->client, change);
    if (finished.n > 0)
        to_client(l, finished);
}

static void login_round(void)
{
    static struct login l;
    memset(&l, 0, sizeof l);
    l.keys = keys_of(drawn_table(6));
    log_in(&l);
    if (!l.altered && agreed(&l))
        expect_equal_ends(&l);
    else if (!l.altered && l.client.model.phase == TN_CLIENT_PHASE_COMPLETE)
        fail("a client without the server's key is complete");
}

void client_round(void)
{
    wildness = once_in(2) ? 6 : 60;
    series();
    wildness = once_in(3) ? 12 : SIZE_MAX;
    login_round();
}

/* ---- sweeps */

static struct gate plain_gate(size_t identity, size_t key)
{
    return (struct gate){drawn(0, 32), plain_text(1, identity), drawn(2, key)};
}

static struct bytes plain_hello(void)
{
    struct hello h = {.version = 0x0303, .random = drawn(0, 32), .session_id = drawn(1, 0), .suite = 0x00B0};
    compose_server_hello(&h, &wanted);
    return copied(MESSAGE, answer());
}

/* A connection as far as the phase, by nothing but what is awaited. */
static void go_to(struct client_pair *p, int32_t phase)
{
    wildness = SIZE_MAX;
    client_start(p, plain_gate(20, 16), TN_CLIENT_HELLO_SIZE);
    while (p->model.phase < phase)
        switch (p->model.phase) {
        case TN_CLIENT_PHASE_SERVER_HELLO: client_message(p, plain_hello(), 0); break;
        case TN_CLIENT_PHASE_SERVER_KEY_EXCHANGE: client_message(p, drawn_hint(), 0); break;
        case TN_CLIENT_PHASE_SERVER_HELLO_DONE: client_message(p, composed(14, drawn(0, 0)), TN_CLIENT_FLIGHT_SIZE); break;
        case TN_CLIENT_PHASE_CHANGE_OF_CIPHER: client_signal(p, (struct signal){.change = true}); break;
        default: client_message(p, drawn_finished(&p->model), 0);
        }
}

/* Every two of a ServerHello's faults together, whose order decides the alert; with each the other fields in all their forms. */
void every_server_hello(void)
{
    static const uint32_t suites[] = {0x00AE, 0x008C, 0x00B0, 0x00AF, 0x0000, 0xAE00, 0x01B0}, versions[] = {0x0303, 0x0302, 0x0304, 0x0003, 0xFFFF};
    static const uint8_t blocks[][9] = {"", "", "\x00\x23\x00\x00", "\xFF\x01\x00\x01\x00", "\x00\x23\x00\x00\x00\x23\x00\x00", "\x00\x23\x00\x01"};
    static const size_t lengths[] = {0, 0, 4, 5, 8, 4}, ids[] = {0, 32, 33};
    static struct client_pair p, there;
    go_to(&there, TN_CLIENT_PHASE_SERVER_HELLO);
    for (size_t i = 0; i < 7 * 5 * 3 * 6 * 3; i++) {
        size_t block = i / 105 % 6;
        struct hello h = {.version = versions[i / 7 % 5], .suite = suites[i % 7], .compression = (uint8_t)(i / 35 % 3 * 127), .present = block > 0};
        h.random = drawn(0, 32);
        h.session_id = drawn(1, ids[i / 630]);
        h.block = (struct bytes){blocks[block], lengths[block]};
        compose_server_hello(&h, &wanted);
        p = there;
        client_message(&p, copied(MESSAGE, answer()), 0);
    }
}

/* The server's right Finished with each byte changed. */
static void every_finished(void)
{
    static struct client_pair p, there;
    uint8_t finished[TN_FINISHED_SIZE];
    go_to(&there, TN_CLIENT_PHASE_FINISHED);
    for (size_t i = 0; i < sizeof finished; i++) {
        memcpy(finished, drawn_finished(&there.model).at, sizeof finished);
        finished[i] ^= (uint8_t)(1u << below(8));
        p = there;
        client_message(&p, (struct bytes){finished, sizeof finished}, 0);
    }
}

/* Each type of message in each phase, with bodies that some type may have; and each alert that is of a kind of its own. */
void every_client_message(void)
{
    static const uint8_t bodies[][12] = {"", "\x00\x00", "\x00\x04hint", "\x00\x00\x00\x00\x00\x00"};
    static const size_t lengths[] = {0, 2, 6, 6};
    static struct client_pair p, there;
    for (int32_t phase = TN_CLIENT_PHASE_CLOSED; phase <= TN_CLIENT_PHASE_COMPLETE; phase++) {
        go_to(&there, phase == TN_CLIENT_PHASE_CLOSED ? TN_CLIENT_PHASE_SERVER_HELLO : phase);
        if (phase == TN_CLIENT_PHASE_CLOSED)
            client_signal(&there, (struct signal){false, 2, 40});
        for (size_t i = 0; i < 5 * 26; i++) {
            struct bytes value = drawn(0, 12), body = i % 5 == 4 ? value : (struct bytes){bodies[i % 5], lengths[i % 5]};
            p = there;
            client_message(&p, composed((uint8_t)(i / 5 == 25 ? 255 : i / 5), body), TN_CLIENT_FLIGHT_SIZE);
        }
        for (size_t i = 0; i < 5 * 4; i++) {
            static const uint8_t levels[] = {0, 1, 2, 3, 255}, descriptions[] = {0, 1, 90, 255};
            p = there;
            client_signal(&p, (struct signal){false, levels[i % 5], descriptions[i / 5]});
        }
    }
    every_finished();
}

/* Each byte of a connection changed, in each phase, before the awaited message: phase and lengths to every value, the others in one bit. Of the transcript no
 * more is known than the header says. */
void every_client_byte(void)
{
    static struct client_pair p;
    uint8_t fields[CLIENT_FIELDS];
    for (int32_t phase = TN_CLIENT_PHASE_SERVER_HELLO; phase < TN_CLIENT_PHASE_COMPLETE; phase++) {
        go_to(&p, phase);
        for (size_t i = 0; i < 3 * 256 + CLIENT_FIELDS - 3; i++) {
            memcpy(fields, p.connection, sizeof fields);
            if (i < 3 * 256)
                fields[i / 256] = (uint8_t)i;
            else
                fields[i - 3 * 256 + 3] ^= (uint8_t)(1u << below(8));
            client_probe_forged(&p, fields, drawn_message(&p.model), TN_CLIENT_FLIGHT_SIZE);
        }
        for (size_t at = CLIENT_FIELDS; at < TN_CLIENT_SIZE; at++) {
            struct coming m = {NULL, drawn_message(&p.model), TN_CLIENT_FLIGHT_SIZE};
            probe_flipped(&client_end, p.connection, 8 * at + below(8), &m);
        }
    }
}

/* Identities and keys of each length, refused ones too, each key as far as its master secret; and each room for both answers, also where ServerHelloDone has
 * a body. */
void every_client_room(void)
{
    static struct client_pair p, there, longest;
    go_to(&there, TN_CLIENT_PHASE_SERVER_HELLO_DONE);
    client_start(&longest, plain_gate(TN_IDENTITY_LIMIT, TN_PSK_LIMIT), TN_CLIENT_HELLO_SIZE);
    client_message(&longest, plain_hello(), 0);
    for (size_t n = 0; n <= TN_CLIENT_FLIGHT_SIZE; n++) {
        client_start(&p, plain_gate(n, 16), n % (TN_CLIENT_HELLO_SIZE + 2));
        client_start(&p, plain_gate(n, 16), TN_CLIENT_HELLO_SIZE);
        client_start(&p, plain_gate(12, n), TN_CLIENT_HELLO_SIZE);
        client_message(&p, plain_hello(), 0);
        client_message(&p, composed(14, drawn(0, 0)), 33);
        client_message(&p, composed(14, drawn(0, 0)), 34);
        p = there;
        client_message(&p, composed(14, drawn(0, n % 2)), n);
        p = longest;
        client_message(&p, composed(14, drawn(0, 0)), n);
    }
}
