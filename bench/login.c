/* A login at the library's server. The client's hashes of the transcript are OpenSSL's. */
#include "login.h"

#include <openssl/sha.h>
#include <string.h>

#include "measure.h"

enum { FIRST_TYPE = 100, MESSAGES = 4, CLIENT = 3 /* messages before the client's Finished */ };

static const uint8_t stand_in[TN_STAND_IN_SIZE] = {1};

void gates_set(struct gates *g, const void *text, size_t size)
{
    g->text = text;
    g->size = size;
    int32_t count = tn_table_list(g->text, size, g->starts, TN_TABLE_LINES);
    must(count >= 0, "the table is not well formed");
    g->count = (size_t)count;
}

void login_plain_hello(struct login *l, uint16_t suite, size_t block_len, size_t step)
{
    static uint8_t block[TN_MESSAGE_LIMIT];
    static const uint8_t random[TN_RANDOM_SIZE] = {2}, methods[] = {0};
    const uint8_t suites[] = {(uint8_t)(suite >> 8), (uint8_t)suite};
    for (size_t i = 0; i < block_len / 4; i++) {
        block[4 * i] = (uint8_t)((FIRST_TYPE + i * step) >> 8);
        block[4 * i + 1] = (uint8_t)(FIRST_TYPE + i * step);
    }
    int32_t n = tn_write_client_hello(0x0303, random, sizeof random, random, 0, suites, sizeof suites, methods, sizeof methods, block_len > 0, block, block_len,
                                      l->hello, sizeof l->hello);
    must(n > 0, "the hello can't be written");
    l->hello_len = (size_t)n;
    l->suite = suite;
}

void login_name(struct login *l, const char *identity, const struct gates *gates)
{
    l->gates = gates;
    int32_t n = tn_write_client_key_exchange((const uint8_t *)identity, strlen(identity), l->key_exchange, sizeof l->key_exchange);
    must(n > 0, "the key exchange can't be written");
    l->key_exchange_len = (size_t)n;
}

/* The server's call for a message. */
static int32_t hand_over(struct login *l, const uint8_t *message, size_t n, uint8_t out[TN_FLIGHT_SIZE])
{
    static const struct gates none = {.text = stand_in}; /* for a hello, which needs no table */
    const struct gates *g = l->gates != NULL ? l->gates : &none;
    return tn_message(l->connection, g->text, g->size, g->starts, TN_TABLE_LINES, g->count, message, n, out, TN_FLIGHT_SIZE, l->master, &l->blocks);
}

int login_open(struct login *l, uint8_t rule)
{
    if (tn_start(l->connection, l->random, sizeof l->random, stand_in, 0, stand_in, sizeof stand_in, rule) != 0)
        return 0;
    int32_t n = hand_over(l, l->hello, l->hello_len, l->flight);
    l->flight_len = n > 0 ? (size_t)n : 0;
    return n > 0;
}

int login_close(struct login *l)
{
    const uint8_t *client_random = l->hello + TN_HELLO_RANDOM_AT;
    return hand_over(l, l->key_exchange, l->key_exchange_len, l->answer) == 0
           && tn_key_block(l->master, sizeof l->master, l->random, sizeof l->random, client_random, TN_RANDOM_SIZE, l->suite, l->keys, sizeof l->keys) > 0
           && tn_change_of_cipher(l->connection) == 0
           && hand_over(l, l->finished, sizeof l->finished, l->answer) == TN_FINISHED_SIZE;
}

/* The Finished of a side, over the first so many messages. */
static void finished_of(const struct login *l, uint8_t side, size_t messages, const uint8_t *master, uint8_t out[TN_FINISHED_SIZE])
{
    const uint8_t *parts[MESSAGES] = {l->hello, l->flight, l->key_exchange, l->finished};
    const size_t sizes[MESSAGES] = {l->hello_len, l->flight_len, l->key_exchange_len, sizeof l->finished};
    uint8_t hash[TN_HASH_SIZE], value[TN_VERIFY_DATA_SIZE];
    static uint8_t all[TN_MESSAGE_LIMIT + TN_FLIGHT_SIZE + KEY_EXCHANGE_LIMIT + TN_FINISHED_SIZE];
    size_t n = 0;
    for (size_t i = 0; i < messages; i++) {
        memcpy(all + n, parts[i], sizes[i]);
        n += sizes[i];
    }
    SHA256(all, n, hash);
    must(tn_finished(side, master, TN_MASTER_SIZE, hash, sizeof hash, value, sizeof value) == TN_VERIFY_DATA_SIZE
             && tn_write_finished(value, sizeof value, out, TN_FINISHED_SIZE) == TN_FINISHED_SIZE,
         "no Finished");
}

uint64_t login_master(const struct login *l, const uint8_t *key, size_t key_len, uint8_t master[TN_MASTER_SIZE])
{
    uint8_t premaster[TN_PREMASTER_LIMIT];
    uint64_t blocks = 0;
    int32_t n = tn_premaster(key, key_len, premaster, sizeof premaster);
    must(n > 0
             && tn_master(premaster, (size_t)n, l->hello + TN_HELLO_RANDOM_AT, TN_RANDOM_SIZE, l->random, sizeof l->random, master, TN_MASTER_SIZE, &blocks)
                    == TN_MASTER_SIZE,
         "no master secret");
    return blocks;
}

void login_finish(struct login *l, const uint8_t *key, size_t key_len)
{
    uint8_t master[TN_MASTER_SIZE];
    (void)login_master(l, key, key_len, master);
    finished_of(l, TN_SIDE_CLIENT, CLIENT, master, l->finished);
}

int login_agrees(const struct login *l, const uint8_t *key, size_t key_len)
{
    uint8_t master[TN_MASTER_SIZE], answer[TN_FINISHED_SIZE];
    uint64_t blocks = login_master(l, key, key_len, master);
    finished_of(l, TN_SIDE_SERVER, MESSAGES, master, answer);
    return memcmp(master, l->master, sizeof master) == 0 && memcmp(answer, l->answer, sizeof answer) == 0 && blocks == l->blocks;
}

/* Another random for each connection. */
static void count_up(uint8_t random[TN_RANDOM_SIZE])
{
    size_t i = 0;
    while (i < TN_RANDOM_SIZE && ++random[i] == 0)
        i++;
}

int login_hello_set(struct login *l)
{
    return l->hello_len > 0;
}

/* A login on its way. */
struct passage {
    struct login *login;
    const struct course *course;
};

static void take(void *state, size_t step)
{
    static const char *const failures[STEPS] = {"our client has no hello", "our server refuses the hello", "our client refuses the server's flight",
                                                "our server refuses the client's flight", "our handshake fails"};
    const struct passage *p = state;
    must(p->course->steps[step](p->login), failures[step]);
}

double login_sample(struct login *l, const struct course *c, uint8_t side)
{
    struct passage p = {l, c};
    count_up(l->random);
    return time_of_side(side, take, &p);
}
