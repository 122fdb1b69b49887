/* Drawn sessions on record connections, and sweeps: a client that seals its records, cuts them anywhere and does much that it should not. */
#include "compare.h"

#include <string.h>

static struct answer made;
static size_t wildness; /* of a series: once in so many times something else than what is awaited */

/* ---- the client */

/* Handshake bytes that the client has to send, and how many of them were taken. */
static struct {
    uint8_t bytes[2 * CONTENT_LIMIT + 100];
    size_t n, taken;
} stream;

static void stream_add(struct bytes b)
{
    if (b.n > sizeof stream.bytes - stream.n)
        b.n = sizeof stream.bytes - stream.n;
    memcpy(stream.bytes + stream.n, b.at, b.n);
    stream.n += b.n;
}

static void stream_clear(void)
{
    stream.n = stream.taken = 0;
}

static struct bytes made_bytes(void)
{
    return (struct bytes){made.bytes, made.said < 0 ? 0 : (size_t)made.said};
}

/* A hello that lists our one suite. */
static struct bytes plain_hello(void)
{
    static const uint8_t suites[] = {0, 0xae, 0, 0xb0}, null = 0;
    struct hello h = {.version = 0x0303, .session_id = {&null, 0}, .suites = {suites, sizeof suites}, .methods = {&null, 1}};
    h.random = drawn(0, 32);
    compose_client_hello(&h, &made);
    return made_bytes();
}

static struct bytes plain_finished(const struct record_model *m)
{
    static struct answer value;
    model_verify_data(&m->server.messages, m->server.master, TN_SIDE_CLIENT, &value);
    if (once_in(wildness))
        value.bytes[below(12)] ^= 1;
    compose_message(20, (struct bytes){value.bytes, 12}, &made);
    return made_bytes();
}

static struct bytes key_exchange(struct bytes identity)
{
    model_write_key_exchange(16, identity, &made);
    return made_bytes();
}

/* What the client sends next: the message that is awaited, at times the next one behind it, at times bytes that are none. */
static void stream_fill(const struct record_model *m, struct bytes table)
{
    struct hello any;
    int32_t phase = m->server.phase;
    stream_clear();
    if (phase == TN_PHASE_CLIENT_HELLO)
        stream_add(once_in(wildness) ? drawn_hello(&any, true) : once_in(3) ? drawn_login() : plain_hello());
    if (phase == TN_PHASE_CLIENT_KEY_EXCHANGE || (phase == TN_PHASE_CLIENT_HELLO && once_in(3)))
        stream_add(key_exchange(drawn_identity(0, table)));
    if (phase == TN_PHASE_FINISHED)
        stream_add(plain_finished(m));
    if (stream.n == 0 || once_in(wildness))
        stream_add(drawn(0, between(1, 6)));
    if (once_in(2 * wildness))
        stream.bytes[below(stream.n)] ^= (uint8_t)(1u << below(8));
}

/* What a record holds, and whether it is the stream's. */
struct content {
    uint8_t type;
    struct bytes bytes;
    bool streamed;
};

static struct content stream_part(const struct record_model *m, struct bytes table)
{
    if (stream.taken == stream.n)
        stream_fill(m, table);
    size_t rest = stream.n - stream.taken, most = rest < CONTENT_LIMIT ? rest : CONTENT_LIMIT;
    size_t n = once_in(2) ? most : once_in(2) ? between(1, most) : between(1, most < 6 ? most : 6);
    return (struct content){HANDSHAKE, {stream.bytes + stream.taken, n}, true};
}

/* Anything, mostly such as is of some meaning somewhere. */
static struct content odd_content(void)
{
    static const uint8_t known[][2] = {{1, 1}, {2, 0}, {1, 0}, {1, 90}, {2, 40}, {3, 90}, {0, 0}, {22, 3}};
    struct content c = {(uint8_t)(once_in(8) ? draw() : between(19, 24)), drawn(CONTENT, 0), false};
    if (once_in(2))
        c.bytes = (struct bytes){known[below(8)], below(3)};
    else
        c.bytes = drawn(CONTENT, once_in(6) ? draw_length(CONTENT_LIMIT, 17000) : below(5));
    return c;
}

static struct content drawn_content(const struct record_model *m, struct bytes table)
{
    static const uint8_t one = 1, warning[] = {1, 90};
    int32_t phase = m->server.phase;
    if (once_in(wildness))
        return odd_content();
    if (once_in(12))
        return (struct content){ALERT, {warning, sizeof warning}, false};
    if (phase == TN_PHASE_CHANGE_OF_CIPHER)
        return (struct content){CHANGE, {&one, 1}, false};
    if (phase == TN_PHASE_COMPLETE)
        return (struct content){DATA, drawn(CONTENT, once_in(12) ? draw_length(CONTENT_LIMIT, 17000) : below(40)), false};
    return stream_part(m, table);
}

/* The record of a content, under the client's direction as the server has it; seldom under another one, or damaged. */
static struct bytes drawn_record(const struct record_model *m, const struct content *c)
{
    struct direction d = m->reading;
    if (once_in(2 * wildness))
        d.number += once_in(2) ? 1 : draw();
    if (once_in(2 * wildness))
        d.key[below(32)] ^= (uint8_t)(1u << below(8));
    if (once_in(2 * wildness))
        d.protected = !d.protected;
    compose_record(&d, c->type, once_in(8) ? (uint32_t)below(65536) : 0x0303, c->bytes, &made);
    if (once_in(2 * wildness))
        made.bytes[below((size_t)made.said)] ^= (uint8_t)(1u << below(8));
    struct bytes record = copied(RECORD, made_bytes());
    return once_in(4 * wildness) ? damaged(record) : record;
}

/* ---- one call of a series */

static size_t drawn_answer_room(const struct record_model *m)
{
    size_t hint = m->server.hint_n, flight = m->server.phase == TN_PHASE_CLIENT_HELLO ? (hint == 0 ? 56 : 67 + hint) : 59;
    return once_in(8) ? below(TN_RECORD_ANSWER + 2) : once_in(3) ? drawn_room((int32_t)flight) : TN_RECORD_ANSWER;
}

static void take_drawn(struct record_pair *p, const struct keys *keys)
{
    struct content c = drawn_content(&p->model, keys->text);
    struct bytes record = drawn_record(&p->model, &c);
    size_t held = p->model.held_n, memory = once_in(4) ? TN_RECORD_MEMORY : between(once_in(6) ? held : held + c.bytes.n, held + c.bytes.n + 9);
    uint64_t number = p->model.reading.number;
    int32_t phase = p->model.server.phase;
    record_take(p, keys, record, memory, drawn_answer_room(&p->model));
    if (c.streamed && (p->model.reading.number != number || p->model.server.phase != phase))
        stream.taken += c.bytes.n;
}

static void send_drawn(struct record_pair *p)
{
    struct bytes content = drawn(CONTENT, once_in(12) ? draw_length(CONTENT_LIMIT, 17000) : below(60));
    record_send(p, content, drawn_room((int32_t)content.n + 37));
}

static void probe_drawn(const struct record_pair *p, const struct record_pair *other, const struct keys *keys)
{
    uint8_t c[TN_RECORD_CONNECTION_SIZE];
    struct content content = drawn_content(&p->model, keys->text);
    struct bytes record = drawn_record(&p->model, &content), memory = drawn(0, once_in(4) ? TN_RECORD_MEMORY : below(60));
    memcpy(c, p->connection, sizeof c);
    damage_connection(c, other->connection, sizeof c);
    record_probe(c, keys, record, memory, drawn_answer_room(&p->model));
    record_probe_unwritten(p->connection, keys, record, memory, drawn_answer_room(&p->model));
}

static void call_drawn(struct record_pair *p, const struct keys *keys)
{
    if (once_in(p->model.server.phase == TN_PHASE_COMPLETE ? 3 : 20))
        send_drawn(p);
    else if (once_in(60))
        record_close(p, drawn_room(p->model.writing.protected ? 39 : 7));
    else
        take_drawn(p, keys);
    if (once_in(60))
        record_renumber(p, once_in(2), LAST_NUMBER - below(3));
}

static void start_drawn(struct record_pair *p)
{
    record_start(p, drawn_settings());
    stream_clear();
}

void records_round(void)
{
    static struct record_pair p, other;
    struct keys keys = keys_of(drawn_table(6));
    memset(&p, 0, sizeof p); /* cleared bytes are a closed connection */
    memset(&other, 0, sizeof other);
    start_drawn(&other);
    stream_clear();
    wildness = once_in(3) ? 8 : 100;
    if (once_in(8))
        call_drawn(&p, &keys);
    for (size_t i = between(4, 16); i > 0; i--) {
        if (p.model.server.phase == TN_PHASE_CLOSED)
            start_drawn(&p);
        call_drawn(&p, keys_of_call(&keys));
        if (once_in(8))
            probe_drawn(&p, &other, keys_of_call(&keys));
    }
}

/* ---- sweeps */

static const uint8_t gate[] = "gate7:abcd\n";
static const struct keys gates = {{gate, sizeof gate - 1}, {.n = 1, .count = 1}};
static const struct bytes gate7 = {gate, 5};

static void take_with(struct record_pair *p, const struct keys *keys, uint8_t type, struct bytes content, size_t room)
{
    compose_record(&p->model.reading, type, 0x0303, content, &made);
    record_take(p, keys, copied(RECORD, made_bytes()), TN_RECORD_MEMORY, room);
}

static void take(struct record_pair *p, uint8_t type, struct bytes content)
{
    take_with(p, &gates, type, content, TN_RECORD_ANSWER);
}

static void start_plain(struct record_pair *p)
{
    wildness = SIZE_MAX; /* nothing but what is awaited */
    record_start(p, (struct settings){drawn(0, 32), clean_text(1, 20), drawn(2, 32), TN_RULE_HIDE});
}

/* The handshake message that is awaited. */
static struct bytes next_message(const struct record_pair *p)
{
    int32_t phase = p->model.server.phase;
    return copied(CONTENT, phase == TN_PHASE_CLIENT_HELLO ? plain_hello() : phase == TN_PHASE_FINISHED ? plain_finished(&p->model) : key_exchange(gate7));
}

/* A session as far as the phase. */
static void go_to(struct record_pair *p, int32_t phase)
{
    static const uint8_t one = 1;
    start_plain(p);
    while (p->model.server.phase < phase)
        if (p->model.server.phase == TN_PHASE_CHANGE_OF_CIPHER)
            take(p, CHANGE, (struct bytes){&one, 1});
        else
            take(p, HANDSHAKE, next_message(p));
}

/* Each content type at each place, amid an unfinished message too, with contents that some type may have. */
void every_content(void)
{
    static const struct {
        uint8_t at[3];
        size_t n;
    } contents[] = {{{0}, 0}, {{1}, 1}, {{2}, 1}, {{1, 1}, 2}, {{1, 90}, 2}, {{1, 0}, 2}, {{2, 40}, 2}, {{3, 90}, 2}, {{0, 0}, 2}, {{1, 90, 0}, 3}};
    static const uint8_t begun[] = {1, 16, 20, 20};
    static struct record_pair p, there, amid;
    for (int32_t phase = TN_PHASE_CLIENT_HELLO; phase <= TN_PHASE_COMPLETE; phase++) {
        go_to(&there, phase);
        amid = there;
        if (phase < TN_PHASE_COMPLETE)
            take(&amid, HANDSHAKE, (struct bytes){begun + phase - 1, 1});
        for (uint8_t type = CHANGE - 1; type <= DATA + 1; type++)
            for (size_t i = 0; i < 2 * sizeof contents / sizeof contents[0]; i++) {
                p = i % 2 ? amid : there;
                take(&p, type, (struct bytes){contents[i / 2].at, contents[i / 2].n});
                take(&p, HANDSHAKE, next_message(&p));
            }
    }
}

/* Two records with the bytes, cut there; an empty one is none. */
static void take_cut(struct record_pair *p, struct bytes bytes, size_t cut)
{
    if (cut > 0)
        take(p, HANDSHAKE, (struct bytes){bytes.at, cut});
    if (cut < bytes.n)
        take(p, HANDSHAKE, (struct bytes){bytes.at + cut, bytes.n - cut});
}

/* Hello and key exchange together. */
static struct bytes hello_and_exchange(struct bytes identity)
{
    static uint8_t both[200];
    struct bytes m = plain_hello();
    size_t n = m.n;
    memcpy(both, m.at, n);
    m = key_exchange(identity);
    memcpy(both + n, m.at, m.n);
    return (struct bytes){both, n + m.n};
}

/* These two, and the Finished, each cut at every place; then the longest message, and headers of one that would be longer. */
void every_cut(void)
{
    static struct record_pair p;
    static const uint8_t one = 1, longer[] = {16, 0, 0x3f, 0xfd}, other[] = {20, 0, 0x3f, 0xfd};
    for (size_t cut = 0, n = 1; cut <= n; cut++) {
        start_plain(&p);
        struct bytes m = hello_and_exchange(gate7);
        n = m.n;
        take_cut(&p, m, cut);
        take(&p, CHANGE, (struct bytes){&one, 1});
        m = next_message(&p);
        take_cut(&p, m, cut < m.n ? cut : m.n);
    }
    for (size_t n = CONTENT_LIMIT - 5; n <= CONTENT_LIMIT - 3; n++) {
        go_to(&p, TN_PHASE_CLIENT_KEY_EXCHANGE);
        compose_message(16, plain_text(CONTENT, n), &made);
        made.bytes[4] = (uint8_t)((n - 2) >> 8);
        made.bytes[5] = (uint8_t)(n - 2);
        struct bytes m = copied(CONTENT, made_bytes());
        take_cut(&p, m, CONTENT_LIMIT - 1);
        go_to(&p, TN_PHASE_CLIENT_KEY_EXCHANGE);
        take_cut(&p, m, 1);
    }
    for (size_t n = 1; n <= 4; n++) {
        go_to(&p, TN_PHASE_CLIENT_KEY_EXCHANGE);
        take_cut(&p, (struct bytes){n % 2 ? longer : other, 4}, n);
    }
}

/* Each bit of a record changed: of the key exchange, of the first protected record and of a later one; and of the connection before it. */
void every_record_bit(void)
{
    static struct record_pair p, there;
    uint8_t c[TN_RECORD_CONNECTION_SIZE], bytes[100];
    for (int32_t phase = TN_PHASE_CLIENT_KEY_EXCHANGE; phase <= TN_PHASE_COMPLETE; phase++) {
        if (phase == TN_PHASE_CHANGE_OF_CIPHER)
            continue;
        go_to(&there, phase);
        struct bytes content = phase == TN_PHASE_COMPLETE ? drawn(CONTENT, 9) : next_message(&there);
        compose_record(&there.model.reading, phase == TN_PHASE_COMPLETE ? DATA : HANDSHAKE, 0x0303, content, &made);
        struct bytes record = copied(RECORD, made_bytes());
        for (size_t bit = 0; bit < 8 * record.n; bit++) {
            p = there;
            memcpy(bytes, record.at, record.n);
            bytes[bit / 8] ^= (uint8_t)(1u << bit % 8);
            record_take(&p, &gates, (struct bytes){bytes, record.n}, 20, TN_RECORD_ANSWER);
        }
        for (size_t bit = 0; bit < 8 * sizeof c; bit++) {
            memcpy(c, there.connection, sizeof c);
            c[bit / 8] ^= (uint8_t)(1u << bit % 8);
            record_probe(c, &gates, record, drawn(0, 20), TN_RECORD_ANSWER);
        }
    }
}

/* Keys of each length, of the identity that has one and of one that is not listed: the key exchange with the hello, for whose answer there is room the second
 * time, and in two records. */
void every_record_key(void)
{
    static struct record_pair p;
    for (size_t i = 0; i < 2 * TN_PSK_LIMIT; i++) {
        struct keys keys = keys_of(full_table(6, 1, 0, 0, 1 + i / 2));
        struct bytes both = hello_and_exchange((struct bytes){(const uint8_t *)ODD, i % 2 ? 3 : 2});
        start_plain(&p);
        take_with(&p, &keys, HANDSHAKE, both, 86);
        take_with(&p, &keys, HANDSHAKE, both, 87);
        start_plain(&p);
        take_with(&p, &keys, HANDSHAKE, (struct bytes){both.at, both.n - 3}, 87);
        take_with(&p, &keys, HANDSHAKE, (struct bytes){both.at + both.n - 3, 3}, 0);
    }
}

/* Every room and every memory before each answer, and before a part of a message. */
void every_record_room(void)
{
    static struct record_pair p, there;
    for (int32_t phase = TN_PHASE_CLIENT_HELLO; phase <= TN_PHASE_FINISHED; phase++) {
        go_to(&there, phase);
        struct bytes content = next_message(&there);
        for (size_t n = 0; n < 120; n++) {
            p = there;
            compose_record(&p.model.reading, HANDSHAKE, 0x0303, (struct bytes){content.at, content.n - n % 2}, &made);
            struct bytes record = copied(RECORD, made_bytes());
            record_take(&p, &gates, record, n / 2, TN_RECORD_ANSWER);
            p = there;
            record_take(&p, &gates, record, 60, n);
        }
    }
}

/* The last numbers of both directions in each phase: each call under them, and an alert that cannot be sent. */
void every_number(void)
{
    static const uint8_t warning[] = {1, 90}, level[] = {9, 90};
    static struct record_pair p, there;
    for (int32_t phase = TN_PHASE_CLIENT_HELLO; phase <= TN_PHASE_COMPLETE; phase++) {
        go_to(&there, phase);
        for (size_t i = 0; i < 8; i++) {
            p = there;
            record_renumber(&p, i % 2, LAST_NUMBER - i / 2 % 2);
            for (size_t times = 0; times < 3; times++) {
                record_send(&p, drawn(CONTENT, times == 1 ? 17000 : 3), 40);
                take(&p, ALERT, (struct bytes){warning, 2});
            }
            if (i < 4)
                record_close(&p, 39);
            else
                take(&p, ALERT, (struct bytes){level, 2});
        }
    }
}
