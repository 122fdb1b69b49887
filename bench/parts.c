/* Where the time of our own handshake goes: each call by itself, on a connection that awaits it. */
#include <stdio.h>
#include <string.h>

#include "cases.h"
#include "login.h"
#include "measure.h"
#include "parts.h"
#include "peers.h"

enum { SAMPLES = 7, PHASES = TN_PHASE_COMPLETE + 1 };

static struct login login;
static uint8_t awaiting[PHASES][TN_CONNECTION_SIZE]; /* the connection in each phase */
static uint8_t scratch[TN_CONNECTION_SIZE];

static int32_t hand_over(const uint8_t *message, size_t n)
{
    uint8_t out[TN_FLIGHT_SIZE], master[TN_MASTER_SIZE];
    uint64_t blocks;
    const struct gates *g = &peer_gates;
    return tn_message(scratch, g->text, g->size, g->starts, TN_TABLE_LINES, g->count, message, n, out, sizeof out, master, &blocks);
}

static int32_t call_start(void)
{
    static const uint8_t zeros[TN_STAND_IN_SIZE];
    return tn_start(scratch, zeros, sizeof zeros, zeros, 0, zeros, sizeof zeros, TN_RULE_TELL);
}

static int32_t call_hello(void)
{
    return hand_over(login.hello, login.hello_len);
}

static int32_t call_key_exchange(void)
{
    return hand_over(login.key_exchange, login.key_exchange_len);
}

static int32_t call_key_block(void)
{
    uint8_t keys[TN_KEY_BLOCK_LIMIT];
    return tn_key_block(login.master, sizeof login.master, login.random, sizeof login.random, login.hello + TN_HELLO_RANDOM_AT, TN_RANDOM_SIZE,
                        TN_SUITE_PSK_AES_128_CBC_SHA256, keys, sizeof keys);
}

static int32_t call_change(void)
{
    return tn_change_of_cipher(scratch);
}

static int32_t call_finished(void)
{
    return hand_over(login.finished, sizeof login.finished);
}

static void ready(int phase)
{
    memcpy(scratch, awaiting[phase], sizeof scratch);
}

struct part parts[PARTS] = {
    {"start", call_start, TN_PHASE_CLOSED, ready},
    {"ClientHello", call_hello, TN_PHASE_CLIENT_HELLO, ready},
    {"ClientKeyExchange", call_key_exchange, TN_PHASE_CLIENT_KEY_EXCHANGE, ready},
    {"change of cipher", call_change, TN_PHASE_CHANGE_OF_CIPHER, ready},
    {"Finished", call_finished, TN_PHASE_FINISHED, ready},
    {"key block", call_key_block, TN_PHASE_COMPLETE, ready},
};

void parts_prepare(void)
{
    start_openssl();
    login.hello_len = openssl_hello(login.hello);
    login_name(&login, PEER_IDENTITY, &peer_gates);
    must(login_open(&login, TN_RULE_TELL), "our server refuses the hello");
    login_finish(&login, peer_key, sizeof peer_key);
    for (size_t i = 0; i < PARTS - 1; i++) {
        must(parts[i].call() >= 0, "our handshake fails");
        memcpy(awaiting[parts[i].phase + 1], scratch, sizeof scratch);
    }
}

double sample_part(void *state)
{
    const struct part *p = state;
    p->ready(p->phase);
    double from = now();
    int32_t result = p->call();
    double taken = now() - from;
    must(result >= 0, "a call is refused");
    return taken;
}

double sample_block(void *state)
{
    static const uint8_t message[256 * 64]; /* and one block of padding */
    uint8_t digest[TN_HASH_SIZE];
    (void)state;
    double from = now();
    int32_t n = tn_sha256(message, sizeof message, digest, sizeof digest);
    double taken = now() - from;
    must(n == TN_HASH_SIZE, "our hash is refused");
    return taken / 257;
}

void time_calls(const char *title, struct part *calls, size_t n)
{
    static struct subject subjects[TIMED_LIMIT + 1];
    struct subject *block = &subjects[n];
    must(n <= TIMED_LIMIT, "too many calls");
    for (size_t i = 0; i < n; i++)
        subjects[i] = (struct subject){.name = calls[i].name, .sample = sample_part, .state = &calls[i]};
    *block = (struct subject){.name = "one block of SHA-256, in a message of 16 KiB", .sample = sample_block};
    heading(title);
    measure(subjects, n + 1, SAMPLES);
    for (size_t i = 0; i <= n; i++) {
        print_time(&subjects[i], 1000, "us");
        if (i < n)
            print_ratio("in blocks", &subjects[i], block);
        printf("\n");
    }
}

void bench_parts(void)
{
    char title[96];
    parts_prepare();
    snprintf(title, sizeof title, "The calls of our handshake, for a hello of %zu bytes, microseconds", login.hello_len);
    time_calls(title, parts, PARTS);
    time_budget();
}
