/* The secrets against libcrypto. */
#include "compare.h"

static struct answer wanted;

static void compare_sha256(void)
{
    struct bytes message = drawn(0, draw_length(once_in(2) ? 64 : 128, 70000));
    model_sha256(message, &wanted);
    begin("tn_sha256");
    struct lent *m = lend(message), *out = lend_room(drawn_room(wanted.said));
    settle(tn_sha256(m->bytes, m->n, out->bytes, out->n), out, &wanted);
}

static void compare_hmac(void)
{
    struct bytes key = drawn(0, draw_length(64, 70000)), message = drawn(1, draw_length(119, 70000));
    model_hmac(key, message, &wanted);
    begin("tn_hmac");
    struct lent *k = lend(key), *m = lend(message), *out = lend_room(drawn_room(wanted.said));
    settle(tn_hmac(k->bytes, k->n, m->bytes, m->n, out->bytes, out->n), out, &wanted);
}

static void compare_prf(void)
{
    struct bytes secret = drawn(0, once_in(20) ? draw_length(65536, 66000) : draw_length(64, 600));
    struct bytes seed = drawn(1, once_in(20) ? draw_length(65536, 66000) : draw_length(64, 1100));
    uint8_t label = (uint8_t)(once_in(10) ? draw() : below(4));
    size_t n = once_in(50) ? SIZE_MAX - below(3) : draw_length(256, 600);
    model_prf(secret, label, seed, n, &wanted);
    begin("tn_prf");
    struct lent *k = lend(secret), *s = lend(seed), *out = lend_room(drawn_room(wanted.said));
    settle(tn_prf(k->bytes, k->n, label, s->bytes, s->n, n, out->bytes, out->n), out, &wanted);
}

static void compare_premaster(void)
{
    struct bytes psk = drawn(0, once_in(8) ? draw_length(64, 66000) : between(0, 66));
    model_premaster(psk, &wanted);
    begin("tn_premaster");
    struct lent *k = lend(psk), *out = lend_room(drawn_room(wanted.said));
    settle(tn_premaster(k->bytes, k->n, out->bytes, out->n), out, &wanted);
}

/* 32 bytes, now and then another length. */
static struct bytes drawn_random(size_t slot)
{
    return drawn(slot, once_in(12) ? draw_length(32, 66000) : 32);
}

static void compare_master(struct bytes premaster, struct bytes client, struct bytes server, size_t room)
{
    uint64_t counted = model_master(premaster, client, server, &wanted);
    begin("tn_master");
    struct lent *p = lend(premaster), *c = lend(client), *s = lend(server), *out = lend_room(room), *blocks = lend_number();
    int32_t result = tn_master(p->bytes, p->n, c->bytes, c->n, s->bytes, s->n, out->bytes, out->n, number_of(blocks));
    if (wanted.said >= 0 && (size_t)wanted.said <= room)
        becomes(blocks, (const uint8_t *)&counted, sizeof counted);
    settle(result, out, &wanted);
}

static void compare_drawn_master(void)
{
    struct bytes premaster = drawn(0, once_in(30) ? draw_length(65536, 66000) : draw_length(132, 200));
    struct bytes client = drawn_random(1), server = drawn_random(2);
    compare_master(premaster, client, server, drawn_room(TN_MASTER_SIZE));
}

static void compare_key_block(void)
{
    static const uint16_t suites[] = {0x00AE, 0x008C, 0x00B0};
    struct bytes master = drawn(0, once_in(12) ? draw_length(48, 66000) : 48), server = drawn_random(1), client = drawn_random(2);
    uint16_t suite = once_in(12) ? (uint16_t)draw() : suites[below(3)];
    model_key_block(master, server, client, suite, &wanted);
    begin("tn_key_block");
    struct lent *m = lend(master), *s = lend(server), *c = lend(client), *out = lend_room(drawn_room(wanted.said));
    settle(tn_key_block(m->bytes, m->n, s->bytes, s->n, c->bytes, c->n, suite, out->bytes, out->n), out, &wanted);
}

static void compare_finished(void)
{
    struct bytes master = drawn(0, once_in(12) ? draw_length(48, 66000) : 48), hash = drawn_random(1);
    uint8_t side = (uint8_t)(once_in(12) ? draw() : below(2));
    model_finished(side, master, hash, &wanted);
    begin("tn_finished");
    struct lent *m = lend(master), *h = lend(hash), *out = lend_room(drawn_room(wanted.said));
    settle(tn_finished(side, m->bytes, m->n, h->bytes, h->n, out->bytes, out->n), out, &wanted);
}

void every_suite(void)
{
    for (uint32_t suite = 0; suite <= 0xffff; suite++) {
        begin("tn_key_block_length");
        expect_number(tn_key_block_length((uint16_t)suite), model_key_block_length((uint16_t)suite));
    }
}

/* Premaster secrets of each length up to that of five blocks, and around the limit; with room, without it, and with randoms of other lengths. */
void every_premaster(void)
{
    for (size_t n = 0; n <= TN_PRF_INPUT_LIMIT + 3; n = n == 320 ? TN_PRF_INPUT_LIMIT - 12 : n + 1) {
        compare_master(drawn(0, n), drawn(1, 32), drawn(2, 32), TN_MASTER_SIZE);
        compare_master(drawn(0, n), drawn(1, 32), drawn(2, 32), TN_MASTER_SIZE - 1);
        compare_master(drawn(0, n), drawn(1, 31 + n % 3), drawn(2, 32 + n % 2), TN_MASTER_SIZE);
    }
}

void secrets_round(void)
{
    compare_sha256();
    compare_hmac();
    compare_prf();
    compare_premaster();
    compare_drawn_master();
    compare_key_block();
    compare_finished();
}
