/* Logins by the library's own client at the library's server, PSK-AES128-CBC-SHA256, messages without records: one whole, and every call of it by itself. */
#ifndef BENCH_CLIENT_LOGIN_H
#define BENCH_CLIENT_LOGIN_H

#include "parts.h"

/* The client's calls in the order of a login. The login is without hint; the part of a ServerKeyExchange is given one of the longest. */
enum client_part {
    CLIENT_START, CLIENT_SERVER_HELLO, CLIENT_SERVER_KEY_EXCHANGE, CLIENT_SERVER_HELLO_DONE, CLIENT_CHANGE, CLIENT_FINISHED, CLIENT_PARTS
};
extern struct part client_parts[CLIENT_PARTS];

/* The client's time for a login, from tn_client_start to the server's Finished, tn_key_block included. */
double sample_ours_client(void *state);

/* Makes a connection in every phase, for the parts. A sample of a whole login changes the messages, and with them what the parts are given. */
void client_prepare(void);

#endif
