/*
 * A server over mbed TLS for tests/interop: one handshake with a pre-shared key, then each line X is answered with `enrolled X`, until close_notify.
 *
 *     mbedtls_server SUITE IDENTITY HEXKEY
 *
 * Prints `port N` at the start, then `suite NAME`, each line that came and `closed`, or `alert N`. mbed TLS's server sends no identity hint.
 */
#include <arpa/inet.h>
#include <stdio.h>
#include <string.h>

#include "mbedtls_side.h"

/* Listens on any free port, says on which, and takes the first who comes. */
static void take_client(void)
{
    mbedtls_net_context listener;
    struct sockaddr_in at;
    socklen_t size = sizeof at;
    mbedtls_net_init(&listener);
    must(mbedtls_net_bind(&listener, "127.0.0.1", "0", MBEDTLS_NET_PROTO_TCP), "listening");
    must(getsockname(listener.fd, (struct sockaddr *)&at, &size), "its address");
    printf("port %u\n", (unsigned)ntohs(at.sin_port));
    fflush(stdout);
    must(mbedtls_net_accept(&listener, &net, NULL, 0, NULL), "accepting");
    mbedtls_net_free(&listener);
}

int main(int count, char **words)
{
    unsigned char line[512];
    char answer[600];
    if (count != 4)
        return 2;
    set_up(MBEDTLS_SSL_IS_SERVER, words[1], words[2], words[3]);
    take_client();
    must(mbedtls_ssl_handshake(&tls), "the handshake");
    printf("suite %s\n", mbedtls_ssl_get_ciphersuite(&tls));
    for (size_t n; (n = read_line(line, sizeof line)) > 0;) {
        printf("%.*s", (int)n, (const char *)line);
        write_line(answer, (size_t)snprintf(answer, sizeof answer, "enrolled %.*s", (int)n - 1, (const char *)line));
    }
    must(mbedtls_ssl_close_notify(&tls), "closing");
    printf("closed\n");
    return 0;
}
