/* The library alone: start, three messages, a change of cipher and the key block. */
#include "login.h"
#include "peers.h"

const struct gates peer_gates = {.text = (const uint8_t *)PEER_TABLE, .size = sizeof PEER_TABLE - 1, .starts = {0}, .count = 1};
static struct login with_extensions, bare;

void ours_prepare(struct login *l, const struct gates *gates)
{
    l->hello_len = openssl_hello(l->hello);
    l->suite = TN_SUITE_PSK_AES_128_CBC_SHA256;
    login_name(l, PEER_IDENTITY, gates);
}

void start_ours(void)
{
    start_openssl();
    ours_prepare(&with_extensions, &peer_gates);
    login_plain_hello(&bare, TN_SUITE_PSK_AES_128_CBC_SHA256, 0, 0);
    login_name(&bare, PEER_IDENTITY, &peer_gates);
}

int ours_open(struct login *l)
{
    return login_open(l, TN_RULE_TELL);
}

static int finish(struct login *l)
{
    login_finish(l, peer_key, sizeof peer_key);
    return 1;
}

int ours_agrees(struct login *l)
{
    return login_agrees(l, peer_key, sizeof peer_key);
}

double sample_ours_login(void *state)
{
    static const struct course course = {{login_hello_set, ours_open, finish, login_close, ours_agrees}};
    return login_sample(state, &course, TN_SIDE_SERVER);
}

double sample_ours(void *state)
{
    (void)state;
    return sample_ours_login(&with_extensions);
}

double sample_ours_bare(void *state)
{
    (void)state;
    return sample_ours_login(&bare);
}
