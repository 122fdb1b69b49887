/* The time of one side for a whole handshake, key block included, against other libraries. */
#include <mbedtls/version.h>
#include <openssl/crypto.h>
#include <stdio.h>

#include "cases.h"
#include "client_login.h"
#include "measure.h"
#include "peers.h"
#include "turretnail.h"

enum { SAMPLES = 7, AIMS = 2 };

/* Who is compared: first we ourselves, the library alone at the front and with records at the end, then the others. */
struct contest {
    const char *title, *driven; /* by whom each of them is */
    struct subject *subjects;
    size_t n, ours;
    const char *whole;          /* how the ratio of the one with records is called */
    const double (*aims)[AIMS]; /* what the library alone may take of each other's time, the first aim and a later one; 0, or NULL of all: none is set */
};

static void compare(const struct contest *c)
{
    const struct subject *alone = &c->subjects[0], *whole = &c->subjects[c->ours - 1];
    start_ours();
    start_gateway();
    start_mbedtls();
    start_gnutls();
    heading(c->title);
    printf("  %s, %s, GnuTLS %s\n  %s\n", OpenSSL_version(OPENSSL_VERSION), MBEDTLS_VERSION_STRING_FULL, version_of_gnutls(), c->driven);
    measure(c->subjects, c->n, SAMPLES);
    stop_gateway();
    for (size_t i = 0; i < c->n; i++) {
        const struct subject *s = &c->subjects[i];
        print_time(s, 1000, "us");
        if (i >= c->ours) {
            print_ratio("ours / this", alone, s);
            for (size_t aim = 0; c->aims != NULL && aim < AIMS; aim++)
                if (c->aims[i - c->ours][aim] > 0)
                    print_aim(alone, s, c->aims[i - c->ours][aim]);
            print_ratio(c->whole, whole, s);
        }
        printf("\n");
    }
}

void bench_handshake(void)
{
    static struct pair gateway = {.client = &openssl_client, .server = &gateway_server, .counted = TN_SIDE_SERVER};
    static struct pair openssl = {.client = &openssl_client, .server = &openssl_server, .counted = TN_SIDE_SERVER};
    static struct pair mbedtls = {.client = &mbedtls_client, .server = &mbedtls_server, .counted = TN_SIDE_SERVER};
    static struct pair gnutls = {.client = &gnutls_client, .server = &gnutls_server, .counted = TN_SIDE_SERVER};
    static struct subject subjects[] = {
        {.name = "ours", .sample = sample_ours},
        {.name = "ours, a hello without extensions", .sample = sample_ours_bare},
        {.name = "ours in the gateway, with records by libcrypto", .sample = sample_pair, .state = &gateway},
        {.name = "OpenSSL", .sample = sample_pair, .state = &openssl},
        {.name = "mbed TLS", .sample = sample_pair, .state = &mbedtls},
        {.name = "GnuTLS", .sample = sample_pair, .state = &gnutls},
    };
    static const double aims[][AIMS] = {{0.5, 0.4}, {0.5}, {1, 1.2}};
    compare(&(struct contest){
        .title = "The server's time for a PSK-AES128-CBC-SHA256 handshake, microseconds",
        .driven = "each with the client of its own library, the gateway with OpenSSL's",
        .subjects = subjects, .n = sizeof subjects / sizeof *subjects, .ours = 3, .whole = "gateway / this", .aims = aims,
    });
}

void bench_client(void)
{
    static struct pair gate = {.client = &gate_client, .server = &gateway_server, .counted = TN_SIDE_CLIENT};
    static struct pair openssl = {.client = &openssl_client, .server = &gateway_server, .counted = TN_SIDE_CLIENT};
    static struct pair mbedtls = {.client = &mbedtls_client, .server = &gateway_server, .counted = TN_SIDE_CLIENT};
    static struct pair gnutls = {.client = &gnutls_client, .server = &gateway_server, .counted = TN_SIDE_CLIENT};
    static struct subject subjects[] = {
        {.name = "ours", .sample = sample_ours_client},
        {.name = "ours in the gate, with records by libcrypto", .sample = sample_pair, .state = &gate},
        {.name = "OpenSSL", .sample = sample_pair, .state = &openssl},
        {.name = "mbed TLS", .sample = sample_pair, .state = &mbedtls},
        {.name = "GnuTLS", .sample = sample_pair, .state = &gnutls},
    };
    compare(&(struct contest){
        .title = "The client's time for a PSK-AES128-CBC-SHA256 handshake, microseconds",
        .driven = "each with our server, so that all read the same messages: ours alone without records, the others with the gateway's",
        .subjects = subjects, .n = sizeof subjects / sizeof *subjects, .ours = 2, .whole = "gate / this",
    });
    client_prepare();
    time_calls("The calls of our client, microseconds", client_parts, CLIENT_PARTS);
}
