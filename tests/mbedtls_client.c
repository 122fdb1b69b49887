/*
 * A client over mbed TLS for tests/interop: one handshake with a pre-shared key, one line there, one back.
 *
 *     mbedtls_client PORT SUITE IDENTITY HEXKEY LINE
 *
 * Prints `suite NAME` and the line that came, or `alert N`.
 */
#include <stdio.h>
#include <string.h>

#include "mbedtls_side.h"

int main(int count, char **words)
{
    unsigned char answer[512];
    if (count != 6)
        return 2;
    set_up(MBEDTLS_SSL_IS_CLIENT, words[2], words[3], words[4]);
    must(mbedtls_net_connect(&net, "127.0.0.1", words[1], MBEDTLS_NET_PROTO_TCP), "connecting");
    must(mbedtls_ssl_handshake(&tls), "the handshake");
    printf("suite %s\n", mbedtls_ssl_get_ciphersuite(&tls));
    write_line(words[5], strlen(words[5]));
    printf("%.*s", (int)read_line(answer, sizeof answer), (const char *)answer);
    must(mbedtls_ssl_close_notify(&tls), "closing");
    must(read_line(answer, sizeof answer) == 0 ? 0 : -1, "close_notify");
    printf("closed\n");
    return 0;
}
