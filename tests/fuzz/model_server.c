/* The server a second time, written from document 01, "The server's steps" and "Numbers that come back". */
#include "model.h"

#include <string.h>

static bool over(const struct server *s)
{
    return s->phase == TN_PHASE_CLOSED || s->phase == TN_PHASE_COMPLETE;
}

static int32_t closing(struct server *s, uint8_t alert)
{
    s->phase = TN_PHASE_CLOSED;
    return TN_ALERT_RESULT(alert);
}

int32_t model_start(struct server *s, struct bytes random, struct bytes hint, struct bytes stand_in, uint8_t rule)
{
    if (random.n != 32 || stand_in.n != 32 || hint.n > 128 || !model_utf8(hint) || rule > 2)
        return TN_R3;
    memset(s, 0, sizeof *s);
    s->phase = TN_PHASE_CLIENT_HELLO;
    memcpy(s->random, random.at, 32);
    memcpy(s->stand_in, stand_in.at, 32);
    memcpy(s->hint, hint.at, hint.n);
    s->hint_n = hint.n;
    s->hides = rule != TN_RULE_TELL;
    return 0;
}

static uint32_t two(const uint8_t *at)
{
    return (uint32_t)at[0] << 8 | at[1];
}

/* The first of ours that the client lists, 0 where there is none. */
static uint32_t chosen(const struct server *s, const uint8_t *suites, size_t n)
{
    static const uint32_t ours[] = {0x00AE, 0x008C, 0x00B0};
    for (size_t k = s->null_only ? 2 : 0; k < 3; k++)
        for (size_t i = 0; i + 1 < n; i += 2)
            if (two(suites + i) == ours[k])
                return ours[k];
    return 0;
}

/* The flight after an accepted hello. */
static void flight(const struct server *s, uint32_t suite, struct answer *a)
{
    static struct answer part;
    const uint8_t null = 0;
    struct hello h = {.version = 0x0303, .random = {s->random, 32}, .session_id = {&null, 0}, .suite = suite};
    compose_server_hello(&h, a);
    if (s->hint_n > 0) {
        model_write_key_exchange(12, (struct bytes){s->hint, s->hint_n}, &part);
        memcpy(a->bytes + a->said, part.bytes, (size_t)part.said);
        a->said += part.said;
    }
    compose_message(14, (struct bytes){&null, 0}, &part);
    memcpy(a->bytes + a->said, part.bytes, (size_t)part.said);
    a->said += part.said;
}

static void hello_step(struct server *s, struct bytes m, size_t room, struct answer *a)
{
    uint32_t f[9];
    if (!model_read_client_hello(m, f)) {
        a->said = closing(s, 50);
        return;
    }
    uint32_t suite = chosen(s, m.at + f[2], f[3]);
    if (f[0] < 0x0303)
        a->said = closing(s, 70);
    else if (!memchr(m.at + f[4], 0, f[5]))
        a->said = closing(s, 47);
    else if (suite == 0)
        a->said = closing(s, 40);
    else {
        flight(s, suite, a);
        if ((size_t)a->said > room) {
            a->said = TN_R1;
            return;
        }
        memcpy(s->client, m.at + 6, 32);
        s->suite = suite;
        model_add(&s->messages, m);
        model_add(&s->messages, (struct bytes){a->bytes, (size_t)a->said});
        s->phase = TN_PHASE_CLIENT_KEY_EXCHANGE;
    }
}

static void key_exchange_step(struct server *s, const struct keys *keys, struct bytes m, struct answer *a)
{
    static struct answer key, premaster;
    uint32_t f[2];
    a->said = model_keys(keys);
    if (a->said != 0)
        return;
    if (!model_read_key_exchange(16, m, f)) {
        a->said = closing(s, 50);
        return;
    }
    model_lookup(keys, (struct bytes){m.at + f[0], f[1]}, &key);
    s->listed = key.said > 0;
    if (!s->listed && !s->hides) {
        a->said = closing(s, 115);
        return;
    }
    model_premaster(s->listed ? (struct bytes){key.bytes, (size_t)key.said} : (struct bytes){s->stand_in, 32}, &premaster);
    s->blocks = model_master((struct bytes){premaster.bytes, (size_t)premaster.said}, (struct bytes){s->client, 32}, (struct bytes){s->random, 32}, a);
    memcpy(s->master, a->bytes, 48);
    model_add(&s->messages, m);
    s->phase = TN_PHASE_CHANGE_OF_CIPHER;
    a->said = 0;
}

uint64_t model_exchange_blocks(const struct keys *keys, struct bytes m)
{
    static struct answer key;
    static const uint8_t stand_in[32];
    uint32_t f[2];
    if (!model_read_key_exchange(16, m, f))
        return 0;
    model_lookup(keys, (struct bytes){m.at + f[0], f[1]}, &key);
    return model_blocks(key.said > 0 ? (struct bytes){key.bytes, (size_t)key.said} : (struct bytes){stand_in, 32});
}

static void finished_step(struct server *s, struct bytes m, size_t room, struct answer *a)
{
    uint32_t f[2];
    if (!model_read_finished(m, f)) {
        a->said = closing(s, 50);
        return;
    }
    model_verify_data(&s->messages, s->master, TN_SIDE_CLIENT, a);
    if (!s->listed || memcmp(a->bytes, m.at + f[0], 12) != 0) {
        a->said = closing(s, 51);
        return;
    }
    if (room < 16) {
        a->said = TN_R1;
        return;
    }
    uint8_t value[12];
    model_add(&s->messages, m);
    model_verify_data(&s->messages, s->master, TN_SIDE_SERVER, a);
    memcpy(value, a->bytes, 12);
    compose_message(20, (struct bytes){value, 12}, a);
    s->phase = TN_PHASE_COMPLETE;
}

int model_awaited(const struct server *s)
{
    return s->phase == TN_PHASE_CLIENT_HELLO ? 1 : s->phase == TN_PHASE_CLIENT_KEY_EXCHANGE ? 16 : s->phase == TN_PHASE_FINISHED ? 20 : -1;
}

void model_message(struct server *s, const struct keys *keys, struct bytes m, size_t room, struct answer *a)
{
    a->said = over(s) ? TN_R4 : model_header(m, model_awaited(s), -1);
    if (tn_is_alert(a->said))
        s->phase = TN_PHASE_CLOSED;
    if (a->said != 0)
        return;
    if (m.at[0] == 1)
        hello_step(s, m, room, a);
    else if (m.at[0] == 16)
        key_exchange_step(s, keys, m, a);
    else
        finished_step(s, m, room, a);
}

int32_t model_change(struct server *s)
{
    if (over(s))
        return TN_R4;
    if (s->phase != TN_PHASE_CHANGE_OF_CIPHER)
        return closing(s, 10);
    s->phase = TN_PHASE_FINISHED;
    return 0;
}

int32_t model_alert(struct server *s, uint8_t level, uint8_t description)
{
    return over(s) ? TN_R4 : model_received_alert(&s->phase, level, description);
}

int32_t model_suite(const struct server *s)
{
    return over(s) ? 0 : (int32_t)s->suite;
}
