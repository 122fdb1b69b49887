/* What the client and the server over mbed TLS have in common, for tests/interop. */
#ifndef TESTS_MBEDTLS_SIDE_H
#define TESTS_MBEDTLS_SIDE_H

#define MBEDTLS_ALLOW_PRIVATE_ACCESS /* the alert's number stands in a field that version 3 calls private */
#include <mbedtls/net_sockets.h>
#include <mbedtls/ssl.h>

extern mbedtls_net_context net; /* the connection's */
extern mbedtls_ssl_context tls;

/* Ends the program with a line where a call of mbed TLS has failed: `alert N` where one came, else what failed. */
void must(int result, const char *what);

/* Makes `tls` for MBEDTLS_SSL_IS_CLIENT or MBEDTLS_SSL_IS_SERVER, with this suite, identity and key alone, over `net`. */
void set_up(int side, const char *suite, const char *identity, const char *hex);

/* Reads up to a line end or the gateway's or gate's close_notify; the length with the line end, 0: it was close_notify. */
size_t read_line(unsigned char *line, size_t size);

/* Writes the text and a line end. */
void write_line(const char *text, size_t n);

#endif
