/* What the client and the server over mbed TLS have in common, for tests/interop. */
#include "mbedtls_side.h"

#include <mbedtls/ctr_drbg.h>
#include <mbedtls/entropy.h>
#include <stdio.h>
#include <stdlib.h>
#include <string.h>

mbedtls_net_context net;
mbedtls_ssl_context tls;
static mbedtls_entropy_context entropy;
static mbedtls_ctr_drbg_context random_source;
static mbedtls_ssl_config config;

void must(int result, const char *what)
{
    if (result >= 0)
        return;
    if (result == MBEDTLS_ERR_SSL_FATAL_ALERT_MESSAGE)
        printf("alert %d\n", tls.in_msg[1]);
    else
        printf("%s failed: -0x%04x\n", what, (unsigned)-result);
    exit(1);
}

void set_up(int side, const char *suite, const char *identity, const char *hex)
{
    static int suites[2];
    unsigned char key[64];
    size_t n = strlen(hex) / 2;
    for (size_t i = 0; i < n && i < sizeof key; i++)
        key[i] = (unsigned char)strtoul((char[]){hex[2 * i], hex[2 * i + 1], 0}, NULL, 16);
    suites[0] = mbedtls_ssl_get_ciphersuite_id(suite);
    mbedtls_entropy_init(&entropy);
    mbedtls_ctr_drbg_init(&random_source);
    must(mbedtls_ctr_drbg_seed(&random_source, mbedtls_entropy_func, &entropy, NULL, 0), "seeding");
    mbedtls_ssl_config_init(&config);
    must(mbedtls_ssl_config_defaults(&config, side, MBEDTLS_SSL_TRANSPORT_STREAM, MBEDTLS_SSL_PRESET_DEFAULT), "defaults");
    mbedtls_ssl_conf_rng(&config, mbedtls_ctr_drbg_random, &random_source);
    mbedtls_ssl_conf_min_version(&config, MBEDTLS_SSL_MAJOR_VERSION_3, MBEDTLS_SSL_MINOR_VERSION_3);
    mbedtls_ssl_conf_max_version(&config, MBEDTLS_SSL_MAJOR_VERSION_3, MBEDTLS_SSL_MINOR_VERSION_3);
    mbedtls_ssl_conf_ciphersuites(&config, suites);
    mbedtls_ssl_conf_read_timeout(&config, 5000);
    must(mbedtls_ssl_conf_psk(&config, key, n, (const unsigned char *)identity, strlen(identity)), "the key");
    mbedtls_ssl_init(&tls);
    must(mbedtls_ssl_setup(&tls, &config), "set-up");
    mbedtls_net_init(&net);
    mbedtls_ssl_set_bio(&tls, &net, mbedtls_net_send, NULL, mbedtls_net_recv_timeout);
}

size_t read_line(unsigned char *line, size_t size)
{
    size_t got = 0;
    while (got < size && (got == 0 || line[got - 1] != '\n')) {
        int n = mbedtls_ssl_read(&tls, line + got, size - got);
        if (n == MBEDTLS_ERR_SSL_PEER_CLOSE_NOTIFY && got == 0)
            return 0;
        must(n == 0 ? -1 : n, "reading");
        got += (size_t)n;
    }
    return got;
}

void write_line(const char *text, size_t n)
{
    must(mbedtls_ssl_write(&tls, (const unsigned char *)text, n), "writing");
    must(mbedtls_ssl_write(&tls, (const unsigned char *)"\n", 1), "writing");
}
