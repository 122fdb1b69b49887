/* The message layouts against readers and writers of their own. */
#include "compare.h"

static struct answer wanted;

/* ---- readers */

/* The result, and the fields where they were to be written: the model's, as they stand in memory. */
static void settle_fields(int32_t result, int32_t said, struct lent *fields, const uint32_t *model)
{
    if (said >= 0 && model)
        becomes(fields, (const uint8_t *)model, fields->n);
    expect_number(result, said);
    finish();
}

typedef int32_t reader(const uint8_t *message, size_t message_len, uint32_t *fields);

/* One reader: its name, how many fields it has, whether the model accepts, and the model's fields. */
static void compare_reader(const char *name, reader *read, struct bytes message, size_t count, bool good, const uint32_t *model)
{
    begin(name);
    struct lent *m = lend(message), *fields = lend_room(count * sizeof(uint32_t));
    settle_fields(read(m->bytes, m->n, (uint32_t *)(void *)fields->bytes), good ? 0 : TN_ALERT_RESULT(50), fields, model);
}

static int32_t read_done(const uint8_t *message, size_t message_len, uint32_t *fields)
{
    (void)fields;
    return tn_read_server_hello_done(message, message_len);
}

void compare_readers(struct bytes m)
{
    uint32_t f[9];
    bool good = model_read_client_hello(m, f);
    compare_reader("tn_read_client_hello", tn_read_client_hello, m, 9, good, f);
    good = model_read_server_hello(m, f);
    compare_reader("tn_read_server_hello", tn_read_server_hello, m, 7, good, f);
    good = model_read_key_exchange(12, m, f);
    compare_reader("tn_read_server_key_exchange", tn_read_server_key_exchange, m, 2, good, f);
    good = model_read_key_exchange(16, m, f);
    compare_reader("tn_read_client_key_exchange", tn_read_client_key_exchange, m, 2, good, f);
    good = model_read_finished(m, f);
    compare_reader("tn_read_finished", tn_read_finished, m, 2, good, f);
    good = model_read_new_session_ticket(m, f);
    compare_reader("tn_read_new_session_ticket", tn_read_new_session_ticket, m, 3, good, f);
    compare_reader("tn_read_server_hello_done", read_done, m, 0, model_read_server_hello_done(m), f);
}

/* One step through a block; where the next one starts, or the end. */
static size_t compare_next(struct bytes block, size_t at)
{
    uint32_t f[3];
    int32_t said = model_next_extension(block, at, f);
    begin("tn_next_extension");
    struct lent *b = lend(block), *fields = lend_room(sizeof f);
    settle_fields(tn_next_extension(b->bytes, b->n, at, (uint32_t *)(void *)fields->bytes), said, fields, said == 1 ? f : NULL);
    return said == 1 ? (size_t)f[1] + f[2] : SIZE_MAX;
}

void compare_extensions(struct bytes block)
{
    size_t at = 0;
    for (size_t steps = 0; steps < 20 && at != SIZE_MAX; steps++)
        at = compare_next(block, at);
    compare_next(block, below(block.n + 3));
    compare_next(block, SIZE_MAX - below(5));
}

void compare_record(const uint8_t key[32], uint64_t number, struct bytes record)
{
    const size_t added[] = {0, TN_RECORD_MAC_SIZE, SIZE_MAX, below(3000)};
    for (size_t i = 0; i < 4; i++) {
        uint32_t f[3];
        int32_t said = model_read_record(record, added[i], f);
        begin("tn_read_record");
        struct lent *r = lend(record), *fields = lend_room(sizeof f);
        settle_fields(tn_read_record(r->bytes, r->n, added[i], (uint32_t *)(void *)fields->bytes), said, fields, f);
    }
    begin("tn_open_record");
    struct lent *k = lend((struct bytes){key, TN_RECORD_MAC_SIZE}), *r = lend(record);
    expect_number(tn_open_record(k->bytes, number, r->bytes, r->n), model_open_record(key, number, record));
    finish();
}

/* ---- writers */

static void compare_write_client_hello(const struct hello *h)
{
    model_write_client_hello(h, &wanted);
    begin("tn_write_client_hello");
    struct lent *r = lend(h->random), *i = lend(h->session_id), *s = lend(h->suites), *m = lend(h->methods), *b = lend(h->block);
    struct lent *out = lend_room(drawn_room(wanted.said));
    settle(tn_write_client_hello(h->version, r->bytes, r->n, i->bytes, i->n, s->bytes, s->n, m->bytes, m->n, h->present, b->bytes, b->n, out->bytes, out->n),
           out, &wanted);
}

static void compare_write_server_hello(const struct hello *h)
{
    model_write_server_hello(h, &wanted);
    begin("tn_write_server_hello");
    struct lent *r = lend(h->random), *i = lend(h->session_id), *b = lend(h->block), *out = lend_room(drawn_room(wanted.said));
    settle(tn_write_server_hello(h->version, r->bytes, r->n, i->bytes, i->n, h->suite, h->compression, h->present, b->bytes, b->n, out->bytes, out->n), out,
           &wanted);
}

static void compare_write_key_exchanges(void)
{
    struct bytes contents = drawn(0, draw_length(16378, 66000));
    model_write_key_exchange(12, contents, &wanted);
    begin("tn_write_server_key_exchange");
    struct lent *c = lend(contents), *out = lend_room(drawn_room(wanted.said));
    settle(tn_write_server_key_exchange(c->bytes, c->n, out->bytes, out->n), out, &wanted);
    model_write_key_exchange(16, contents, &wanted);
    begin("tn_write_client_key_exchange");
    c = lend(contents);
    out = lend_room(drawn_room(wanted.said));
    settle(tn_write_client_key_exchange(c->bytes, c->n, out->bytes, out->n), out, &wanted);
}

static void compare_write_fixed(void)
{
    struct bytes value = drawn(0, once_in(3) ? draw_length(12, 66000) : 12);
    model_write_server_hello_done(&wanted);
    begin("tn_write_server_hello_done");
    struct lent *out = lend_room(drawn_room(wanted.said));
    settle(tn_write_server_hello_done(out->bytes, out->n), out, &wanted);
    model_write_finished(value, &wanted);
    begin("tn_write_finished");
    struct lent *v = lend(value);
    out = lend_room(drawn_room(wanted.said));
    settle(tn_write_finished(v->bytes, v->n, out->bytes, out->n), out, &wanted);
}

static void compare_write_tickets(void)
{
    uint32_t number = (uint32_t)draw(), kind = once_in(2) ? (uint32_t)below(65536) : number;
    struct bytes ticket = drawn(0, draw_length(16374, 66000));
    model_write_new_session_ticket(number, ticket, &wanted);
    begin("tn_write_new_session_ticket");
    struct lent *t = lend(ticket), *out = lend_room(drawn_room(wanted.said));
    settle(tn_write_new_session_ticket(number, t->bytes, t->n, out->bytes, out->n), out, &wanted);
    ticket = drawn(0, draw_length(once_in(4) ? 65535 : 60, 66000));
    model_write_extension(kind, ticket, &wanted);
    begin("tn_write_extension");
    t = lend(ticket);
    out = lend_room(drawn_room(wanted.said));
    settle(tn_write_extension(kind, t->bytes, t->n, out->bytes, out->n), out, &wanted);
    ticket = drawn(0, draw_length(once_in(4) ? 65535 : 60, 66000));
    model_write_ticket_extension(ticket, &wanted);
    begin("tn_write_ticket_extension");
    t = lend(ticket);
    out = lend_room(drawn_room(wanted.said));
    settle(tn_write_ticket_extension(t->bytes, t->n, out->bytes, out->n), out, &wanted);
}

static void compare_write_records(const uint8_t key[32], uint64_t number)
{
    struct bytes content = drawn(0, once_in(8) ? draw_length(CONTENT_LIMIT, 66000) : below(100));
    uint8_t type = (uint8_t)(once_in(4) ? draw() : between(19, 24));
    model_write_record(type, content, &wanted);
    begin("tn_write_record");
    struct lent *c = lend(content), *out = lend_room(drawn_room(wanted.said));
    settle(tn_write_record(type, c->bytes, c->n, out->bytes, out->n), out, &wanted);
    model_seal_record(key, number, type, content, &wanted);
    begin("tn_seal_record");
    struct lent *k = lend((struct bytes){key, TN_RECORD_MAC_SIZE});
    c = lend(content);
    out = lend_room(drawn_room(wanted.said));
    settle(tn_seal_record(k->bytes, number, type, c->bytes, c->n, out->bytes, out->n), out, &wanted);
}

static void compare_message_end(void)
{
    struct bytes header = drawn(0, 4);
    begin("tn_message_end");
    struct lent *h = lend(header);
    expect_number(tn_message_end(h->bytes), model_message_end(header.at));
    finish();
}

/* ---- a round */

/* A short message of one of the other kinds. */
static struct bytes drawn_short(void)
{
    struct bytes contents = drawn(0, once_in(2) ? 12 : draw_length(12, once_in(4) ? 16400 : 40));
    switch (below(5)) {
    case 0: model_write_new_session_ticket((uint32_t)draw(), contents, &wanted); break;
    case 1: model_write_key_exchange(12, contents, &wanted); break;
    case 2: model_write_key_exchange(16, contents, &wanted); break;
    case 3: compose_message(20, contents, &wanted); break;
    default: compose_message(14, (struct bytes){contents.at, once_in(2) ? 0 : contents.n}, &wanted);
    }
    return wanted.said < 0 ? drawn(MESSAGE, below(40)) : copied(MESSAGE, (struct bytes){wanted.bytes, (size_t)wanted.said});
}

static void compare_damaged(struct bytes message)
{
    compare_readers(message);
    compare_readers(damaged(message));
}

/* A record, mostly protected, opened as it was sealed; damaged; under the next number, or cut; and with one bit changed. */
static void compare_records(void)
{
    struct direction d;
    d.protected = !once_in(6);
    d.number = once_in(4) ? LAST_NUMBER - below(3) : draw() >> below(64);
    draw_bytes(d.key, sizeof d.key);
    struct bytes content = drawn(0, once_in(8) ? draw_length(CONTENT_LIMIT, 65000) : below(70));
    compose_record(&d, (uint8_t)(once_in(8) ? draw() : between(19, 24)), once_in(3) ? (uint32_t)below(65536) : 0x0303, content, &wanted);
    struct bytes record = copied(RECORD, (struct bytes){wanted.bytes, (size_t)wanted.said});
    compare_record(d.key, d.number, record);
    compare_record(d.key, d.number, damaged(record));
    compare_record(d.key, d.number + (once_in(2) ? 1 : 0), (struct bytes){record.at, once_in(2) ? record.n : below(record.n + 1)});
    wanted.bytes[below(record.n)] ^= (uint8_t)(1u << below(8));
    compare_record(d.key, d.number, copied(RECORD, (struct bytes){wanted.bytes, record.n}));
    compare_write_records(d.key, d.number);
    compare_message_end();
}

void layouts_round(void)
{
    struct hello h;
    compare_damaged(drawn_hello(&h, true));
    compare_write_client_hello(&h);
    compare_damaged(drawn_hello(&h, false));
    compare_write_server_hello(&h);
    compare_extensions(h.block);
    compare_damaged(drawn_short());
    compare_write_key_exchanges();
    compare_write_fixed();
    compare_write_tickets();
    compare_records();
}

/* ---- a sweep */

/* A message of n bytes that ends with a field of drawn bytes, whose 2 bytes of length stand at a place. */
static struct bytes long_message(uint8_t type, size_t place, size_t n)
{
    size_t field = n - place - 2;
    compose_message(type, drawn(0, n - 4), &wanted);
    wanted.bytes[place] = (uint8_t)(field >> 8);
    wanted.bytes[place + 1] = (uint8_t)field;
    return copied(MESSAGE, (struct bytes){wanted.bytes, n});
}

/* A hello of n bytes, with one extension of as many as that takes: read, and written. */
static void compare_long_hello(bool of_client, size_t n)
{
    static uint8_t block[TN_MESSAGE_LIMIT];
    static const uint8_t suites[] = {0x00, 0xAE}, null = 0;
    struct hello h = {.version = 0x0303, .random = drawn(0, 32), .session_id = {&null, 0}, .suites = {suites, 2}, .methods = {&null, 1}, .suite = 0x00AE};
    h.present = true;
    h.block = (struct bytes){block, n - (of_client ? 47 : 44)};
    block[2] = (uint8_t)((h.block.n - 4) >> 8);
    block[3] = (uint8_t)(h.block.n - 4);
    bool composed = of_client ? compose_client_hello(&h, &wanted) : compose_server_hello(&h, &wanted);
    if (!composed || wanted.said != (int32_t)n)
        fail("a hello of %d bytes, which was to have %zu", (int)wanted.said, n);
    compare_readers(copied(MESSAGE, (struct bytes){wanted.bytes, n}));
    if (of_client)
        compare_write_client_hello(&h);
    else
        compare_write_server_hello(&h);
}

/* Messages just below the limit, at it and above it, of each layout that can have so many bytes. */
void every_long_message(void)
{
    for (size_t n = TN_MESSAGE_LIMIT - 1; n <= TN_MESSAGE_LIMIT + 2; n++) {
        compare_readers(long_message(4, 8, n));
        compare_readers(long_message(12, 4, n));
        compare_readers(long_message(16, 4, n));
        compare_long_hello(true, n);
        compare_long_hello(false, n);
    }
}
