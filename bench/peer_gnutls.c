/* GnuTLS's ends, with push and pull over memory. */
#include <errno.h>
#include <gnutls/gnutls.h>
#include <string.h>

#include "measure.h"
#include "peers.h"

#define PRIORITY "NORMAL:-VERS-ALL:+VERS-TLS1.2:-KX-ALL:+PSK:-CIPHER-ALL:+AES-128-CBC:-MAC-ALL:+SHA256:%NO_TICKETS:%NO_SESSION_HASH:%NO_ETM"

static gnutls_psk_server_credentials_t server_credentials;
static gnutls_psk_client_credentials_t client_credentials;
static gnutls_priority_t priority;

static int server_key(gnutls_session_t session, const char *identity, gnutls_datum_t *key)
{
    (void)session;
    key->data = strcmp(identity, PEER_IDENTITY) == 0 ? gnutls_malloc(PEER_KEY_SIZE) : NULL;
    if (key->data == NULL)
        return -1;
    memcpy(key->data, peer_key, PEER_KEY_SIZE);
    key->size = PEER_KEY_SIZE;
    return 0;
}

void start_gnutls(void)
{
    uint8_t bytes[PEER_KEY_SIZE];
    const gnutls_datum_t key = {bytes, sizeof bytes};
    if (priority != NULL)
        return;
    memcpy(bytes, peer_key, sizeof bytes);
    must(gnutls_psk_allocate_server_credentials(&server_credentials) == 0 && gnutls_psk_allocate_client_credentials(&client_credentials) == 0
             && gnutls_psk_set_client_credentials(client_credentials, PEER_IDENTITY, &key, GNUTLS_PSK_KEY_RAW) == 0
             && gnutls_priority_init(&priority, PRIORITY, NULL) == 0,
         "GnuTLS's configuration");
    gnutls_psk_set_server_credentials_function(server_credentials, server_key);
}

void *gnutls_keys_of(const char *file)
{
    gnutls_psk_server_credentials_t credentials;
    must(gnutls_psk_allocate_server_credentials(&credentials) == 0 && gnutls_psk_set_server_credentials_file(credentials, file) == 0,
         "GnuTLS's file of keys");
    return credentials;
}

const char *version_of_gnutls(void)
{
    return gnutls_check_version(NULL);
}

static ssize_t push(gnutls_transport_ptr_t state, const void *bytes, size_t n)
{
    const struct end *e = state;
    return (ssize_t)wire_put(e->out, bytes, n);
}

static ssize_t pull(gnutls_transport_ptr_t state, void *bytes, size_t n)
{
    const struct end *e = state;
    size_t size = wire_take(e->in, bytes, n);
    if (size > 0)
        return (ssize_t)size;
    gnutls_transport_set_errno(e->connection, EAGAIN);
    return -1;
}

static void open_end(struct end *e, unsigned int side, void *credentials)
{
    gnutls_session_t session;
    must(gnutls_init(&session, side | GNUTLS_NONBLOCK) == 0 && gnutls_priority_set(session, priority) == 0
             && gnutls_credentials_set(session, GNUTLS_CRD_PSK, credentials) == 0,
         "GnuTLS's connection");
    gnutls_transport_set_ptr(session, e);
    gnutls_transport_set_push_function(session, push);
    gnutls_transport_set_pull_function(session, pull);
    e->connection = session;
}

static void open_server(struct end *e)
{
    open_end(e, GNUTLS_SERVER, e->keys != NULL ? e->keys : server_credentials);
}

static void open_client(struct end *e)
{
    open_end(e, GNUTLS_CLIENT, client_credentials);
}

static int go_on(struct end *e)
{
    return gnutls_handshake(e->connection) == 0;
}

static void close_end(struct end *e)
{
    gnutls_session_t session = e->connection;
    must(gnutls_kx_get(session) == GNUTLS_KX_PSK && gnutls_mac_get(session) == GNUTLS_MAC_SHA256
             && gnutls_cipher_get(session) == GNUTLS_CIPHER_AES_128_CBC,
         "GnuTLS's suite is another");
    gnutls_deinit(session);
}

const struct kind gnutls_server = {open_server, go_on, close_end, "the handshake of GnuTLS's server fails"};
const struct kind gnutls_client = {open_client, go_on, close_end, "the handshake of GnuTLS's client fails"};
