/*
 * The servers and clients whose handshakes are compared. All speak TLS 1.2 with PSK-AES128-CBC-SHA256, without hint, tickets, extended master secret and
 * encrypt-then-MAC, so that they do the same work. What a process does once is done by the start functions; a sample is one handshake of two ends in this
 * process, of which one side's calls are timed, from making its connection to its last message. What a connection's end takes does not count.
 */
#ifndef BENCH_PEERS_H
#define BENCH_PEERS_H

#include <stddef.h>
#include <stdint.h>

#define PEER_IDENTITY "gate7"
#define PEER_TABLE "gate7:00112233445566778899aabbccddeeff\n"
enum { PEER_KEY_SIZE = 16, PEER_HELLO_LIMIT = 512 };
extern const uint8_t peer_key[PEER_KEY_SIZE];
struct gates;
extern const struct gates peer_gates; /* PEER_TABLE and its list (login.h) */

/* ---- the library alone, messages without records */

/* The server, with the hello of OpenSSL's client, and with one that has no extensions. The client is in client_login.h. */
void start_ours(void);
double sample_ours(void *state);
double sample_ours_bare(void *state);

/* The same with another table that has PEER_IDENTITY's key: sets the login that is then the sample's state. */
struct login;
void ours_prepare(struct login *l, const struct gates *gates);
double sample_ours_login(void *state);

/* The steps of such a login, for another that is made of them; the server's last step is login_close. */
int ours_open(struct login *l);
int ours_agrees(struct login *l);

/* ---- ends with records, over memory */

/* Bytes on their way from one end to the other; full is an error. */
struct wire {
    uint8_t bytes[4096];
    size_t at, end;
};

size_t wire_put(struct wire *w, const void *from, size_t n);
size_t wire_take(struct wire *w, void *to, size_t n);

struct end {
    const struct kind *kind;
    struct wire *in, *out;
    void *keys;       /* what gnutls_keys_of gave, for GnuTLS's server; NULL: the one key */
    void *connection; /* the library's own */
};

/* A library's calls for one side. */
struct kind {
    void (*open)(struct end *e);  /* makes the connection */
    int (*go_on)(struct end *e);  /* reads and answers what has come; true once the handshake is complete */
    void (*close)(struct end *e); /* frees the connection, and ends the program where its suite is another */
    const char *failure;          /* what is said where the handshake fails */
};

/* The gateway's connection and the gate's session of gateway/: the library with records by libcrypto and randomness from the system. */
void start_gateway(void);
void stop_gateway(void); /* drops what the records need, which other cases make anew */
extern const struct kind gateway_server, gate_client;

void start_openssl(void);
extern const struct kind openssl_server, openssl_client;
size_t openssl_hello(uint8_t hello[PEER_HELLO_LIMIT]); /* the client's first message, without the record's header */

void start_mbedtls(void);
extern const struct kind mbedtls_server, mbedtls_client;

void start_gnutls(void);
extern const struct kind gnutls_server, gnutls_client;
void *gnutls_keys_of(const char *file); /* a psk.passwd file, which GnuTLS reads anew at each login */
const char *version_of_gnutls(void);

/* Two ends that shake hands, the state of a sample. */
struct pair {
    const struct kind *client, *server;
    uint8_t counted; /* whose time: TN_SIDE_CLIENT or TN_SIDE_SERVER */
    void *keys;      /* the server's, as in its end */
};

double sample_pair(void *state);

#endif
