/*
 * The gate's session with a gateway, apart from its socket: bytes that came go in, bytes to be sent come out. Handshake messages are judged by the library's
 * client; once logged in, lines go out and answers come, one at a time.
 */
#ifndef HOST_GATE_SESSION_H
#define HOST_GATE_SESSION_H

#include <stdbool.h>
#include <stddef.h>
#include <stdint.h>

#include "channel.h"
#include "turretnail.h"

enum { ANSWER_LIMIT = 1024 }; /* of an answer, without its line end: more than any gateway of ours sends */

enum ending {
    ENDING_NONE,           /* not yet */
    ENDING_OURS,           /* we closed it, with close_notify */
    ENDING_ALERT_SENT,     /* what came was refused */
    ENDING_UNOPENED,       /* so was a record that did not open */
    ENDING_ALERT_RECEIVED, /* the gateway's */
    ENDING_CLOSED          /* by the gateway, with close_notify */
};

struct session {
    uint8_t login[TN_CLIENT_SIZE]; /* the library's part */
    uint8_t client_random[TN_RANDOM_SIZE];
    uint8_t server_random[TN_RANDOM_SIZE];
    const struct suite *suite; /* NULL until the gateway has chosen */
    uint64_t blocks;           /* that SHA-256 compressed to derive the master secret; 0: it was not */
    struct channel channel;
    bool complete; /* logged in */
    bool ended;    /* nothing more is read; what is in the channel's `out` is still to be sent */
    enum ending ending;
    uint8_t alert;   /* of an ending that has one */
    const char *why; /* we sent it */
    bool awaiting;   /* a line was sent whose answer is not whole */
    uint8_t answer[ANSWER_LIMIT + 1]; /* room for a line end */
    size_t answer_len;
};

/* Makes a session whose ClientHello is to be sent, for an identity and a key of a well-formed key table; false where the system has no randomness or the
 * library refuses them. */
bool session_start(struct session *s, const uint8_t *identity, size_t identity_len, const uint8_t *key, size_t key_len);

/* How many bytes may be read into the channel's in + in_len now; 0: none. */
size_t session_wants(const struct session *s);

/* So many bytes of those came. */
void session_received(struct session *s, size_t n);

/* A line for the gateway, without its line end, 1 to LINE_LIMIT bytes, where none is awaiting its answer. False where it can't be sealed, or there is no
 * login under whose keys it could be. */
bool session_say(struct session *s, const uint8_t *line, size_t n);

/* Ends the session from our side, with close_notify. */
void session_close(struct session *s);

/* Clears every byte, and with them all secrets. */
void session_clear(struct session *s);

#endif
