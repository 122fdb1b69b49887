/* mbed TLS's ends, with callbacks over memory. */
#include <mbedtls/ctr_drbg.h>
#include <mbedtls/entropy.h>
#include <mbedtls/ssl.h>
#include <string.h>

#include "measure.h"
#include "peers.h"

static mbedtls_entropy_context entropy;
static mbedtls_ctr_drbg_context drbg;
static mbedtls_ssl_config server_config, client_config;
static mbedtls_ssl_context server, client;

static const int suites[] = {MBEDTLS_TLS_PSK_WITH_AES_128_CBC_SHA256, 0};

static void configure(mbedtls_ssl_config *c, int endpoint)
{
    mbedtls_ssl_config_init(c);
    must(mbedtls_ssl_config_defaults(c, endpoint, MBEDTLS_SSL_TRANSPORT_STREAM, MBEDTLS_SSL_PRESET_DEFAULT) == 0, "mbed TLS's configuration");
    mbedtls_ssl_conf_rng(c, mbedtls_ctr_drbg_random, &drbg);
    mbedtls_ssl_conf_min_version(c, MBEDTLS_SSL_MAJOR_VERSION_3, MBEDTLS_SSL_MINOR_VERSION_3);
    mbedtls_ssl_conf_max_version(c, MBEDTLS_SSL_MAJOR_VERSION_3, MBEDTLS_SSL_MINOR_VERSION_3);
    mbedtls_ssl_conf_ciphersuites(c, suites);
    mbedtls_ssl_conf_extended_master_secret(c, MBEDTLS_SSL_EXTENDED_MS_DISABLED);
    mbedtls_ssl_conf_encrypt_then_mac(c, MBEDTLS_SSL_ETM_DISABLED);
    must(mbedtls_ssl_conf_psk(c, peer_key, PEER_KEY_SIZE, (const unsigned char *)PEER_IDENTITY, strlen(PEER_IDENTITY)) == 0, "mbed TLS's key");
}

void start_mbedtls(void)
{
    static int started;
    if (started)
        return;
    started = 1;
    mbedtls_entropy_init(&entropy);
    mbedtls_ctr_drbg_init(&drbg);
    must(mbedtls_ctr_drbg_seed(&drbg, mbedtls_entropy_func, &entropy, NULL, 0) == 0, "mbed TLS's randomness");
    configure(&server_config, MBEDTLS_SSL_IS_SERVER);
    configure(&client_config, MBEDTLS_SSL_IS_CLIENT);
    mbedtls_ssl_conf_session_tickets(&client_config, MBEDTLS_SSL_SESSION_TICKETS_DISABLED);
}

static int send_bytes(void *state, const unsigned char *bytes, size_t n)
{
    const struct end *e = state;
    return (int)wire_put(e->out, bytes, n);
}

static int receive_bytes(void *state, unsigned char *bytes, size_t n)
{
    const struct end *e = state;
    size_t size = wire_take(e->in, bytes, n);
    return size > 0 ? (int)size : MBEDTLS_ERR_SSL_WANT_READ;
}

static void open_end(struct end *e, mbedtls_ssl_context *ssl, const mbedtls_ssl_config *config)
{
    mbedtls_ssl_init(ssl);
    must(mbedtls_ssl_setup(ssl, config) == 0, "mbed TLS's connection");
    mbedtls_ssl_set_bio(ssl, e, send_bytes, receive_bytes, NULL);
    e->connection = ssl;
}

static void open_server(struct end *e)
{
    open_end(e, &server, &server_config);
}

static void open_client(struct end *e)
{
    open_end(e, &client, &client_config);
}

static int go_on(struct end *e)
{
    return mbedtls_ssl_handshake(e->connection) == 0;
}

static void close_end(struct end *e)
{
    must(strcmp(mbedtls_ssl_get_ciphersuite(e->connection), "TLS-PSK-WITH-AES-128-CBC-SHA256") == 0, "mbed TLS's suite is another");
    mbedtls_ssl_free(e->connection);
}

const struct kind mbedtls_server = {open_server, go_on, close_end, "the handshake of mbed TLS's server fails"};
const struct kind mbedtls_client = {open_client, go_on, close_end, "the handshake of mbed TLS's client fails"};
