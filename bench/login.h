/* A login at the library's server, over messages without records: what a client sends, put together by calls on layouts and secrets, and what the server's
 * answers have to be. */
#ifndef BENCH_LOGIN_H
#define BENCH_LOGIN_H

#include <stddef.h>
#include <stdint.h>

#include "steps.h"
#include "turretnail.h"

enum { KEY_EXCHANGE_LIMIT = 6 + TN_IDENTITY_LIMIT };

/* A key table and its list, as the server keeps them. */
struct gates {
    const uint8_t *text;
    size_t size;
    uint32_t starts[TN_TABLE_LINES];
    size_t count;
};

/* Sets them to this text, which stays where it is, and its list. */
void gates_set(struct gates *g, const void *text, size_t size);

struct login {
    const struct gates *gates;              /* the server's */
    uint16_t suite;                         /* that the server chooses */
    uint8_t connection[TN_CONNECTION_SIZE]; /* the server's */
    uint8_t random[TN_RANDOM_SIZE];         /* the server's */
    uint8_t master[TN_MASTER_SIZE];         /* the server's */
    uint64_t blocks;                        /* that the server's master secret took, by its own count */
    uint8_t keys[TN_KEY_BLOCK_LIMIT];       /* the server's */
    uint8_t hello[TN_MESSAGE_LIMIT];
    size_t hello_len;
    uint8_t flight[TN_FLIGHT_SIZE];
    size_t flight_len;
    uint8_t key_exchange[KEY_EXCHANGE_LIMIT];
    size_t key_exchange_len;
    uint8_t finished[TN_FINISHED_SIZE];
    uint8_t answer[TN_FLIGHT_SIZE]; /* to the Finished */
};

/* Sets a hello with this suite and an extension block of so many bytes, none for 0, of four-byte extensions whose types are `step` apart. */
void login_plain_hello(struct login *l, uint16_t suite, size_t block_len, size_t step);

/* Sets the ClientKeyExchange of an identity, and the server's gates, which stay where they are. */
void login_name(struct login *l, const char *identity, const struct gates *gates);

/* The server's calls of one login, each true where it was accepted. Between the two groups the client finds its Finished. */
int login_open(struct login *l, uint8_t rule);
int login_close(struct login *l);

/* The client's master secret, under the key; how many blocks it took. */
uint64_t login_master(const struct login *l, const uint8_t *key, size_t key_len, uint8_t master[TN_MASTER_SIZE]);

/* The client's Finished, under the key; and whether the server's secrets, their blocks and its answer are those of the client. */
void login_finish(struct login *l, const uint8_t *key, size_t key_len);
int login_agrees(const struct login *l, const uint8_t *key, size_t key_len);

/* How one login goes, step by step (steps.h); each gives whether all went well. */
struct course {
    int (*steps[STEPS])(struct login *l);
};

/* The client's first step where its hello was set before. */
int login_hello_set(struct login *l);

/* One login with another random of the server: the nanoseconds of the calls of one side. */
double login_sample(struct login *l, const struct course *c, uint8_t side);

#endif
