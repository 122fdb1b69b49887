/* OpenSSL's ends, with BIOs over memory. */
#include <openssl/ssl.h>
#include <string.h>

#include "measure.h"
#include "peers.h"

static SSL_CTX *server_context, *client_context;
static BIO *server_bio, *client_bio; /* one for both directions of an end, as one over a socket is; made once, like the contexts */

static unsigned int server_key(SSL *ssl, const char *identity, unsigned char *key, unsigned int room)
{
    (void)ssl;
    if (strcmp(identity, PEER_IDENTITY) != 0 || room < PEER_KEY_SIZE)
        return 0;
    memcpy(key, peer_key, PEER_KEY_SIZE);
    return PEER_KEY_SIZE;
}

static unsigned int client_key(SSL *ssl, const char *hint, char *identity, unsigned int identity_room, unsigned char *key, unsigned int room)
{
    (void)hint;
    if (identity_room < sizeof PEER_IDENTITY)
        return 0;
    memcpy(identity, PEER_IDENTITY, sizeof PEER_IDENTITY);
    return server_key(ssl, identity, key, room);
}

static SSL_CTX *context_of(const SSL_METHOD *method)
{
    SSL_CTX *c = SSL_CTX_new(method);
    must(c != NULL && SSL_CTX_set_min_proto_version(c, TLS1_2_VERSION) && SSL_CTX_set_max_proto_version(c, TLS1_2_VERSION)
             && SSL_CTX_set_cipher_list(c, "PSK-AES128-CBC-SHA256"),
         "OpenSSL's context");
    SSL_CTX_set_options(c, SSL_OP_NO_TICKET | SSL_OP_NO_EXTENDED_MASTER_SECRET | SSL_OP_NO_ENCRYPT_THEN_MAC | SSL_OP_LEGACY_SERVER_CONNECT);
    SSL_CTX_set_session_cache_mode(c, SSL_SESS_CACHE_OFF);
    return c;
}

static int send_bytes(BIO *b, const char *bytes, int n)
{
    const struct end *e = BIO_get_data(b);
    return (int)wire_put(e->out, bytes, (size_t)n);
}

static int receive_bytes(BIO *b, char *bytes, int n)
{
    const struct end *e = BIO_get_data(b);
    size_t size = wire_take(e->in, bytes, (size_t)n);
    BIO_clear_retry_flags(b);
    if (size > 0)
        return (int)size;
    BIO_set_retry_read(b);
    return -1;
}

/* All that is sent is on its way at once, so that a flush has nothing left to do. */
static long control(BIO *b, int command, long number, void *pointer)
{
    (void)b, (void)number, (void)pointer;
    return command == BIO_CTRL_FLUSH;
}

static BIO *bio_of(const BIO_METHOD *method)
{
    BIO *b = BIO_new(method);
    must(b != NULL, "OpenSSL's BIO");
    BIO_set_init(b, 1);
    return b;
}

void start_openssl(void)
{
    if (server_context != NULL)
        return;
    server_context = context_of(TLS_server_method());
    client_context = context_of(TLS_client_method());
    SSL_CTX_set_psk_server_callback(server_context, server_key);
    SSL_CTX_set_psk_client_callback(client_context, client_key);
    BIO_METHOD *method = BIO_meth_new(BIO_get_new_index() | BIO_TYPE_SOURCE_SINK, "wire");
    must(method != NULL && BIO_meth_set_write(method, send_bytes) && BIO_meth_set_read(method, receive_bytes) && BIO_meth_set_ctrl(method, control),
         "OpenSSL's BIO");
    server_bio = bio_of(method);
    client_bio = bio_of(method);
}

static void open_end(struct end *e, SSL_CTX *context, BIO *b)
{
    SSL *ssl = SSL_new(context);
    must(ssl != NULL && BIO_up_ref(b), "OpenSSL's connection");
    BIO_set_data(b, e);
    SSL_set_bio(ssl, b, b);
    e->connection = ssl;
}

static void open_server(struct end *e)
{
    open_end(e, server_context, server_bio);
    SSL_set_accept_state(e->connection);
}

static void open_client(struct end *e)
{
    open_end(e, client_context, client_bio);
    SSL_set_connect_state(e->connection);
}

static int go_on(struct end *e)
{
    return SSL_do_handshake(e->connection) == 1;
}

static void close_end(struct end *e)
{
    must(strcmp(SSL_get_cipher_name(e->connection), "PSK-AES128-CBC-SHA256") == 0, "OpenSSL's suite is another");
    SSL_free(e->connection);
}

const struct kind openssl_server = {open_server, go_on, close_end, "the handshake of OpenSSL's server fails"};
const struct kind openssl_client = {open_client, go_on, close_end, "the handshake of OpenSSL's client fails"};

size_t openssl_hello(uint8_t hello[PEER_HELLO_LIMIT])
{
    enum { RECORD_HEADER = 5 };
    uint8_t record[RECORD_HEADER + PEER_HELLO_LIMIT];
    struct wire up = {.end = 0}, down = {.end = 0};
    struct end client = {.in = &down, .out = &up};
    open_client(&client);
    (void)go_on(&client);
    size_t n = wire_take(&up, record, sizeof record);
    must(n > RECORD_HEADER && up.at == up.end, "the hello of OpenSSL's client");
    SSL_free(client.connection);
    memcpy(hello, record + RECORD_HEADER, n - RECORD_HEADER);
    return n - RECORD_HEADER;
}
