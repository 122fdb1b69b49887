/* Logins by the library's own client. */
#include "client_login.h"

#include <string.h>

#include "login.h"
#include "measure.h"
#include "peers.h"

enum { PHASES = TN_CLIENT_PHASE_COMPLETE + 1, HELLO_DONE = 4 /* bytes of a ServerHelloDone, the last in the server's flight */ };

/* The server's, and the messages */
static struct login login = {.gates = &peer_gates, .suite = TN_SUITE_PSK_AES_128_CBC_SHA256};
static uint8_t with_hint[6 + TN_HINT_LIMIT]; /* a ServerKeyExchange */

/* The client's */
static const uint8_t client_random[TN_RANDOM_SIZE] = {3};
static uint8_t client[TN_CLIENT_SIZE], out[TN_CLIENT_FLIGHT_SIZE], master[TN_MASTER_SIZE], keys[TN_KEY_BLOCK_LIMIT];
static uint64_t blocks;                          /* of the master secret */
static uint8_t awaiting[PHASES][TN_CLIENT_SIZE]; /* the connection in each phase */

static int32_t hand_over(const uint8_t *message, size_t n)
{
    return tn_client_message(client, message, n, out, sizeof out, master, &blocks);
}

/* ---- every call */

static int32_t call_start(void)
{
    return tn_client_start(client, client_random, sizeof client_random, (const uint8_t *)PEER_IDENTITY, strlen(PEER_IDENTITY), peer_key, PEER_KEY_SIZE,
                           login.hello, sizeof login.hello);
}

static int32_t call_server_hello(void)
{
    return hand_over(login.flight, login.flight_len - HELLO_DONE);
}

static int32_t call_server_key_exchange(void)
{
    return hand_over(with_hint, sizeof with_hint);
}

static int32_t call_server_hello_done(void)
{
    return hand_over(login.flight + login.flight_len - HELLO_DONE, HELLO_DONE);
}

static int32_t call_change(void)
{
    return tn_client_change_of_cipher(client);
}

static int32_t call_finished(void)
{
    return hand_over(login.answer, TN_FINISHED_SIZE);
}

static void ready(int phase)
{
    memcpy(client, awaiting[phase], sizeof client);
}

struct part client_parts[CLIENT_PARTS] = {
    [CLIENT_START] = {"tn_client_start", call_start, TN_CLIENT_PHASE_CLOSED, ready},
    [CLIENT_SERVER_HELLO] = {"tn_client_message, ServerHello", call_server_hello, TN_CLIENT_PHASE_SERVER_HELLO, ready},
    [CLIENT_SERVER_KEY_EXCHANGE] = {"tn_client_message, ServerKeyExchange", call_server_key_exchange, TN_CLIENT_PHASE_SERVER_KEY_EXCHANGE, ready},
    [CLIENT_SERVER_HELLO_DONE] = {"tn_client_message, ServerHelloDone", call_server_hello_done, TN_CLIENT_PHASE_SERVER_KEY_EXCHANGE, ready},
    [CLIENT_CHANGE] = {"tn_client_change_of_cipher", call_change, TN_CLIENT_PHASE_CHANGE_OF_CIPHER, ready},
    [CLIENT_FINISHED] = {"tn_client_message, Finished", call_finished, TN_CLIENT_PHASE_FINISHED, ready},
};

/* ---- a login */

static int start(struct login *l)
{
    int32_t n = call_start();
    l->hello_len = n > 0 ? (size_t)n : 0;
    return n > 0;
}

/* Reads the server's flight, makes the keys, and cuts the answer. */
static int answer(struct login *l)
{
    if (call_server_hello() != 0)
        return 0;
    uint16_t suite = (uint16_t)tn_client_suite(client);
    const uint8_t *server_random = l->flight + TN_HELLO_RANDOM_AT;
    int32_t n = call_server_hello_done();
    if (n <= TN_FINISHED_SIZE
        || tn_key_block(master, sizeof master, server_random, TN_RANDOM_SIZE, client_random, sizeof client_random, suite, keys, sizeof keys)
               != TN_KEY_BLOCK_LIMIT)
        return 0;
    l->key_exchange_len = (size_t)n - TN_FINISHED_SIZE;
    memcpy(l->key_exchange, out, l->key_exchange_len);
    memcpy(l->finished, out + l->key_exchange_len, sizeof l->finished);
    return 1;
}

static int complete(struct login *l)
{
    (void)l;
    return call_change() == 0 && call_finished() == 0;
}

double sample_ours_client(void *state)
{
    static const struct course course = {{start, ours_open, answer, login_close, complete}};
    (void)state;
    double taken = login_sample(&login, &course, TN_SIDE_CLIENT);
    must(tn_client_phase(client) == TN_CLIENT_PHASE_COMPLETE && memcmp(master, login.master, sizeof master) == 0
             && memcmp(keys, login.keys, sizeof keys) == 0 && blocks == login.blocks,
         "our client has other secrets than our server");
    return taken;
}

void client_prepare(void)
{
    static const uint8_t hint[TN_HINT_LIMIT];
    must(tn_write_server_key_exchange(hint, sizeof hint, with_hint, sizeof with_hint) == sizeof with_hint, "the key exchange can't be written");
    (void)sample_ours_client(NULL);
    for (size_t i = 0; i < CLIENT_PARTS; i++) {
        if (i == CLIENT_SERVER_KEY_EXCHANGE)
            continue;
        memcpy(awaiting[client_parts[i].phase], client, sizeof client);
        must(client_parts[i].call() >= 0, "our client's login fails");
    }
}
