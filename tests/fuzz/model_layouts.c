/*
 * The message layouts a second time, written from document 01, "Message layouts", the ticket extension from RFC 5077: readers that eat a body from
 * its front, writers that grow one.
 */
#include "model.h"

#include <string.h>

/* ---- writing */

struct growing {
    struct answer *to;
    size_t n;
    bool full;
};

static void put(struct growing *g, struct bytes b)
{
    if (g->full || b.n > ANSWER_LIMIT - g->n) {
        g->full = true;
        return;
    }
    if (b.n > 0)
        memcpy(g->to->bytes + g->n, b.at, b.n);
    g->n += b.n;
}

static void put_number(struct growing *g, size_t width, size_t number)
{
    uint8_t digits[8];
    for (size_t i = 0; i < width; i++)
        digits[i] = (uint8_t)(number >> (8 * (width - 1 - i)));
    put(g, (struct bytes){digits, width});
}

static void put_vector(struct growing *g, size_t width, struct bytes b)
{
    put_number(g, width, b.n);
    put(g, b);
}

/* Starts a message whose length is not known yet. */
static struct growing started(uint8_t type, struct answer *a)
{
    struct growing g = {a, 0, false};
    put_number(&g, 4, (size_t)type << 24);
    return g;
}

/* Ends it: its length goes to the header. */
static bool ended(const struct growing *g)
{
    if (g->full)
        return false;
    size_t body = g->n - 4;
    g->to->bytes[1] = (uint8_t)(body >> 16);
    g->to->bytes[2] = (uint8_t)(body >> 8);
    g->to->bytes[3] = (uint8_t)body;
    g->to->said = (int32_t)g->n;
    return true;
}

/* The limit of a whole message, for a writer. */
static void limited(const struct growing *g)
{
    if (!ended(g) || g->n > 16384)
        g->to->said = TN_R5;
}

bool compose_client_hello(const struct hello *h, struct answer *a)
{
    struct growing g = started(1, a);
    put_number(&g, 2, h->version);
    put(&g, h->random);
    put_vector(&g, 1, h->session_id);
    put_vector(&g, 2, h->suites);
    put_vector(&g, 1, h->methods);
    if (h->present)
        put_vector(&g, 2, h->block);
    return ended(&g);
}

bool compose_server_hello(const struct hello *h, struct answer *a)
{
    struct growing g = started(2, a);
    put_number(&g, 2, h->version);
    put(&g, h->random);
    put_vector(&g, 1, h->session_id);
    put_number(&g, 2, h->suite);
    put_number(&g, 1, h->compression);
    if (h->present)
        put_vector(&g, 2, h->block);
    return ended(&g);
}

void compose_message(uint8_t type, struct bytes body, struct answer *a)
{
    struct growing g = started(type, a);
    put(&g, body);
    ended(&g);
}

/* ---- reading */

struct eating {
    struct bytes whole;
    size_t at;
    bool bad;
};

static bool at_end(const struct eating *e)
{
    return !e->bad && e->at == e->whole.n;
}

/* The next n bytes. */
static struct bytes eat(struct eating *e, size_t n)
{
    struct bytes b = {e->whole.at + e->at, n};
    if (e->bad || n > e->whole.n - e->at) {
        e->bad = true;
        b.n = 0;
        return b;
    }
    e->at += n;
    return b;
}

static uint32_t eat_number(struct eating *e, size_t width)
{
    struct bytes b = eat(e, width);
    uint32_t number = 0;
    for (size_t i = 0; i < b.n; i++)
        number = number * 256 + b.at[i];
    return number;
}

static struct bytes eat_vector(struct eating *e, size_t width)
{
    uint32_t n = eat_number(e, width);
    return eat(e, n);
}

/* A start and a length among the fields. */
static void place(struct bytes message, struct bytes part, uint32_t fields[2])
{
    fields[0] = (uint32_t)(part.at - message.at);
    fields[1] = (uint32_t)part.n;
}

/* A whole message of that type, as far as its body. */
static struct eating opened(uint8_t type, struct bytes message)
{
    struct eating e = {message, 0, message.n > 16384};
    e.bad |= eat_number(&e, 1) != type;
    e.bad |= eat_number(&e, 3) != message.n - 4;
    return e;
}

/* A sequence of extensions, none with another's type; any data will do. */
static bool is_block(struct bytes block)
{
    static uint8_t seen[65536];
    struct eating e = {block, 0, false}, again;
    bool good = true;
    while (good && !at_end(&e)) {
        uint32_t type = eat_number(&e, 2);
        eat_vector(&e, 2);
        good = !e.bad && !seen[type];
        seen[type] = 1;
    }
    for (again = (struct eating){block, 0, false}; !again.bad && !at_end(&again); eat_vector(&again, 2))
        seen[eat_number(&again, 2)] = 0;
    seen[0] = 0; /* what a cut number counts as */
    return good;
}

/* The end of a hello: nothing, or an extension block. fields: present, start, length. */
static bool eat_extensions(struct eating *e, uint32_t fields[3])
{
    memset(fields, 0, 3 * sizeof fields[0]);
    if (at_end(e))
        return true;
    struct bytes block = eat_vector(e, 2);
    fields[0] = 1;
    place(e->whole, block, fields + 1);
    return at_end(e) && is_block(block);
}

bool model_read_client_hello(struct bytes message, uint32_t fields[9])
{
    struct eating e = opened(1, message);
    fields[0] = eat_number(&e, 2);
    eat(&e, 32);
    struct bytes session_id = eat_vector(&e, 1), suites = eat_vector(&e, 2), methods = eat_vector(&e, 1);
    if (e.bad || session_id.n > 32 || suites.n < 2 || suites.n % 2 != 0 || methods.n < 1)
        return false;
    fields[1] = (uint32_t)session_id.n;
    place(message, suites, fields + 2);
    place(message, methods, fields + 4);
    return eat_extensions(&e, fields + 6);
}

bool model_read_server_hello(struct bytes message, uint32_t fields[7])
{
    struct eating e = opened(2, message);
    fields[0] = eat_number(&e, 2);
    eat(&e, 32);
    struct bytes session_id = eat_vector(&e, 1);
    fields[1] = (uint32_t)session_id.n;
    fields[2] = eat_number(&e, 2);
    fields[3] = eat_number(&e, 1);
    return !e.bad && session_id.n <= 32 && eat_extensions(&e, fields + 4);
}

bool model_read_key_exchange(uint8_t type, struct bytes message, uint32_t fields[2])
{
    struct eating e = opened(type, message);
    place(message, eat_vector(&e, 2), fields);
    return at_end(&e);
}

bool model_read_server_hello_done(struct bytes message)
{
    struct eating e = opened(14, message);
    return at_end(&e);
}

bool model_read_finished(struct bytes message, uint32_t fields[2])
{
    struct eating e = opened(20, message);
    place(message, eat(&e, 12), fields);
    return at_end(&e);
}

bool model_read_new_session_ticket(struct bytes message, uint32_t fields[3])
{
    struct eating e = opened(4, message);
    fields[0] = eat_number(&e, 4);
    place(message, eat_vector(&e, 2), fields + 1);
    return at_end(&e);
}

int32_t model_next_extension(struct bytes block, size_t at, uint32_t fields[3])
{
    if (block.n > 65535)
        return TN_ALERT_RESULT(50);
    if (at >= block.n)
        return 0;
    struct eating e = {block, at, false};
    fields[0] = eat_number(&e, 2);
    place(block, eat_vector(&e, 2), fields + 1);
    return e.bad ? TN_ALERT_RESULT(50) : 1;
}

/* ---- writers: what the layout forbids, then the bytes */

static bool hello_forbidden(const struct hello *h)
{
    return h->version > 65535 || h->random.n != 32 || h->session_id.n > 32 || (h->present && (h->block.n > 65535 || !is_block(h->block)));
}

void model_write_client_hello(const struct hello *h, struct answer *a)
{
    bool suites = h->suites.n >= 2 && h->suites.n <= 65535 && h->suites.n % 2 == 0, methods = h->methods.n >= 1 && h->methods.n <= 255;
    if (hello_forbidden(h) || !suites || !methods || !compose_client_hello(h, a) || a->said > 16384)
        a->said = TN_R5;
}

void model_write_server_hello(const struct hello *h, struct answer *a)
{
    if (hello_forbidden(h) || h->suite > 65535 || !compose_server_hello(h, a) || a->said > 16384)
        a->said = TN_R5;
}

void model_write_key_exchange(uint8_t type, struct bytes contents, struct answer *a)
{
    struct growing g = started(type, a);
    put_vector(&g, 2, contents);
    limited(&g);
}

void model_write_server_hello_done(struct answer *a)
{
    struct growing g = started(14, a);
    limited(&g);
}

void model_write_finished(struct bytes verify_data, struct answer *a)
{
    struct growing g = started(20, a);
    put(&g, verify_data);
    limited(&g);
    if (verify_data.n != 12)
        a->said = TN_R5;
}

void model_write_new_session_ticket(uint32_t lifetime_hint, struct bytes ticket, struct answer *a)
{
    struct growing g = started(4, a);
    put_number(&g, 4, lifetime_hint);
    put_vector(&g, 2, ticket);
    limited(&g);
}

void model_write_extension(uint32_t kind, struct bytes contents, struct answer *a)
{
    struct growing g = {a, 0, false};
    put_number(&g, 2, kind);
    put_vector(&g, 2, contents);
    a->said = g.full || kind > 65535 || contents.n > 65535 ? TN_R5 : (int32_t)g.n;
}

void model_write_ticket_extension(struct bytes ticket, struct answer *a)
{
    model_write_extension(35, ticket, a);
}
