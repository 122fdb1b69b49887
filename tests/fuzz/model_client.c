/* The client a second time, written from the request for it (document 02, P7), RFC 5246 section 7.4 and RFC 4279 section 2. */
#include "model.h"

#include <string.h>

/* Where a connection's bytes have their fields. */
enum { PHASE = 0, IDENTITY_LENGTH = 1, KEY_LENGTH = 2, SUITE = CLIENT_SUITE, IDENTITY = 5, KEY = 133, RANDOM = 197, SERVER_RANDOM = 229, MASTER = 261 };

static const uint8_t offered[] = {0x00, 0xAE, 0x00, 0x8C, 0x00, 0xB0};

static bool over(const struct client *c)
{
    return c->phase == TN_CLIENT_PHASE_CLOSED || c->phase == TN_CLIENT_PHASE_COMPLETE;
}

static int32_t closing(struct client *c, uint8_t alert)
{
    c->phase = TN_CLIENT_PHASE_CLOSED;
    return TN_ALERT_RESULT(alert);
}

void model_client_start(struct client *c, struct bytes random, struct bytes identity, struct bytes key, size_t room, struct answer *a)
{
    const uint8_t null = 0;
    struct hello h = {.version = 0x0303, .random = random, .session_id = {&null, 0}, .suites = {offered, sizeof offered}, .methods = {&null, 1}};
    a->said = TN_R3;
    if (random.n != 32 || !model_identity(identity) || key.n < 1 || key.n > 64)
        return;
    compose_client_hello(&h, a);
    if ((size_t)a->said > room) {
        a->said = TN_R1;
        return;
    }
    memset(c, 0, sizeof *c);
    c->phase = TN_CLIENT_PHASE_SERVER_HELLO;
    memcpy(c->random, random.at, 32);
    memcpy(c->identity, identity.at, identity.n);
    memcpy(c->key, key.at, key.n);
    c->identity_n = identity.n;
    c->key_n = key.n;
    model_add(&c->messages, (struct bytes){a->bytes, (size_t)a->said});
}

/* ---- one message */

static bool is_offered(uint32_t suite)
{
    bool found = false;
    for (size_t i = 0; i < sizeof offered; i += 2)
        found = found || suite == (uint32_t)(offered[i] << 8 | offered[i + 1]);
    return found;
}

/* The alert that a ServerHello's fields get, 0 where they are accepted. Its session id does not matter. */
static uint8_t judged(const uint32_t f[7])
{
    uint32_t version = f[0], suite = f[2], compression = f[3], extensions = f[6];
    if (!is_offered(suite))
        return 47;
    if (version != 0x0303)
        return suite == 0x008C ? 70 : 47;
    if (compression != 0)
        return 47;
    return extensions > 0 ? 110 : 0;
}

static int32_t hello_step(struct client *c, struct bytes m)
{
    uint32_t f[7];
    uint8_t alert = model_read_server_hello(m, f) ? judged(f) : 50;
    if (alert != 0)
        return closing(c, alert);
    memcpy(c->server, m.at + 6, 32);
    c->suite = f[2];
    model_add(&c->messages, m);
    c->phase = TN_CLIENT_PHASE_SERVER_KEY_EXCHANGE;
    return 0;
}

static int32_t key_exchange_step(struct client *c, struct bytes m)
{
    uint32_t f[2];
    if (!model_read_key_exchange(12, m, f))
        return closing(c, 50);
    model_add(&c->messages, m);
    c->phase = TN_CLIENT_PHASE_SERVER_HELLO_DONE;
    return 0;
}

/* ClientKeyExchange and Finished, each added behind what it answers. */
static void flight(struct client *c, struct answer *a)
{
    static struct answer value, finished;
    model_write_key_exchange(16, (struct bytes){c->identity, c->identity_n}, a);
    model_add(&c->messages, (struct bytes){a->bytes, (size_t)a->said});
    model_verify_data(&c->messages, c->master, TN_SIDE_CLIENT, &value);
    compose_message(20, (struct bytes){value.bytes, 12}, &finished);
    model_add(&c->messages, (struct bytes){finished.bytes, 16});
    memcpy(a->bytes + a->said, finished.bytes, 16);
    a->said += 16;
}

static void done_step(struct client *c, struct bytes m, size_t room, struct answer *a)
{
    static struct answer premaster;
    model_premaster((struct bytes){c->key, c->key_n}, &premaster);
    if (m.n != 4)
        a->said = closing(c, 50);
    else if (premaster.said < 0)
        a->said = closing(c, 51); /* of a connection that no call has written: without a key there is no master secret */
    else if (room < 22 + c->identity_n)
        a->said = TN_R1;
    else {
        c->blocks = model_master((struct bytes){premaster.bytes, (size_t)premaster.said}, (struct bytes){c->random, 32}, (struct bytes){c->server, 32}, a);
        memcpy(c->master, a->bytes, 48);
        model_add(&c->messages, m);
        flight(c, a);
        c->phase = TN_CLIENT_PHASE_CHANGE_OF_CIPHER;
    }
}

static int32_t finished_step(struct client *c, struct bytes m)
{
    static struct answer value;
    uint32_t f[2];
    if (!model_read_finished(m, f))
        return closing(c, 50);
    model_verify_data(&c->messages, c->master, TN_SIDE_SERVER, &value);
    if (memcmp(value.bytes, m.at + f[0], 12) != 0)
        return closing(c, 51);
    c->phase = TN_CLIENT_PHASE_COMPLETE;
    return 0;
}

/* The types that may come next, -1 where there is none, or no second one. */
static const int awaited[][2] = {
    [TN_CLIENT_PHASE_SERVER_HELLO] = {2, -1},
    [TN_CLIENT_PHASE_SERVER_KEY_EXCHANGE] = {12, 14},
    [TN_CLIENT_PHASE_SERVER_HELLO_DONE] = {14, -1},
    [TN_CLIENT_PHASE_CHANGE_OF_CIPHER] = {-1, -1},
    [TN_CLIENT_PHASE_FINISHED] = {20, -1},
};

void model_client_message(struct client *c, struct bytes m, size_t room, struct answer *a)
{
    a->said = over(c) ? TN_R4 : model_header(m, awaited[c->phase][0], awaited[c->phase][1]);
    if (tn_is_alert(a->said))
        c->phase = TN_CLIENT_PHASE_CLOSED;
    if (a->said != 0)
        return;
    switch (m.at[0]) {
    case 2: a->said = hello_step(c, m); break;
    case 12: a->said = key_exchange_step(c, m); break;
    case 14: done_step(c, m, room, a); break;
    default: a->said = finished_step(c, m);
    }
}

/* ---- the other calls */

int32_t model_client_change(struct client *c)
{
    if (over(c))
        return TN_R4;
    if (c->phase != TN_CLIENT_PHASE_CHANGE_OF_CIPHER)
        return closing(c, 10);
    c->phase = TN_CLIENT_PHASE_FINISHED;
    return 0;
}

int32_t model_client_alert(struct client *c, uint8_t level, uint8_t description)
{
    return over(c) ? TN_R4 : model_received_alert(&c->phase, level, description);
}

int32_t model_client_suite(const struct client *c)
{
    return over(c) || c->phase == TN_CLIENT_PHASE_SERVER_HELLO ? 0 : (int32_t)c->suite;
}

/* ---- a connection's bytes */

void model_client_save(const struct client *c, uint8_t fields[CLIENT_FIELDS])
{
    memset(fields, 0, CLIENT_FIELDS);
    fields[PHASE] = (uint8_t)c->phase;
    if (over(c))
        return;
    fields[IDENTITY_LENGTH] = (uint8_t)c->identity_n;
    fields[KEY_LENGTH] = (uint8_t)c->key_n;
    fields[SUITE] = (uint8_t)(c->suite >> 8);
    fields[SUITE + 1] = (uint8_t)c->suite;
    memcpy(fields + IDENTITY, c->identity, 128);
    memcpy(fields + KEY, c->key, 64);
    memcpy(fields + RANDOM, c->random, 32);
    memcpy(fields + SERVER_RANDOM, c->server, 32);
    memcpy(fields + MASTER, c->master, 48);
}

/* A length that no field has counts as the field's. */
void model_client_restore(struct client *c, const uint8_t fields[CLIENT_FIELDS])
{
    c->phase = fields[PHASE] <= TN_CLIENT_PHASE_COMPLETE ? fields[PHASE] : TN_CLIENT_PHASE_CLOSED;
    c->identity_n = fields[IDENTITY_LENGTH] < 128 ? fields[IDENTITY_LENGTH] : 128;
    c->key_n = fields[KEY_LENGTH] < 64 ? fields[KEY_LENGTH] : 64;
    c->suite = (uint32_t)(fields[SUITE] << 8 | fields[SUITE + 1]);
    memcpy(c->identity, fields + IDENTITY, 128);
    memcpy(c->key, fields + KEY, 64);
    memcpy(c->random, fields + RANDOM, 32);
    memcpy(c->server, fields + SERVER_RANDOM, 32);
    memcpy(c->master, fields + MASTER, 48);
}
