/*
 * One client of the gateway, apart from its socket: bytes that came go in, bytes to be sent come out. Joins records to handshake messages, hands these to the
 * library, changes ciphers, sends and takes alerts, or hands the records to the library, which then does all that; and answers the enrolment lines.
 */
#ifndef HOST_CONNECTION_H
#define HOST_CONNECTION_H

#include <stdbool.h>
#include <stddef.h>
#include <stdint.h>

#include "channel.h"
#include "enrolment.h"
#include "settings.h"
#include "turretnail.h"

/* How a login, or a connection after it, ended. */
enum outcome {
    OUTCOME_NONE, /* not yet */
    OUTCOME_COMPLETE,
    OUTCOME_ALERT_SENT,
    OUTCOME_CLOSED_FOR, /* close_notify where this alert is meant: the library sends no alert of the host's */
    OUTCOME_ALERT_RECEIVED,
    OUTCOME_CLOSED,
    OUTCOME_TIME_OUT,
    OUTCOME_STOPPED,   /* the gateway stops */
    OUTCOME_MADE_ROOM, /* an unfinished handshake went for another client */
    OUTCOME_REPLACED,  /* the gate has logged in too often since */
    OUTCOME_RETIRED    /* a new table has come that the login was not judged by */
};

struct connection {
    bool proved;                              /* as in the settings that it was started with */
    uint8_t login[TN_RECORD_CONNECTION_SIZE]; /* the library's part, of which tn_start's kind has TN_CONNECTION_SIZE bytes */
    uint8_t server_random[TN_RANDOM_SIZE];
    uint8_t client_random[TN_RANDOM_SIZE];
    const struct suite *suite; /* NULL until it is chosen */
    struct channel channel;    /* where the library reads and writes the records, only for their bytes and the messages that it overhears */
    bool ended;                /* nothing more is read; what is in the channel's `out` is still sent */

    enum outcome login_outcome; /* of the login; the next is of what came after it */
    enum outcome later_outcome;
    uint8_t alert; /* of the last outcome that has one */
    uint8_t identity[TN_IDENTITY_LIMIT];
    size_t identity_len; /* as the client named it; only so many bytes as fit are kept */
    bool identity_known;
    uint64_t blocks; /* that SHA-256 compressed to derive the master secret; 0: it was not. For the log alone, since the key's length shows in it */
    bool judged;     /* a message came where a ClientKeyExchange was awaited: the table may have been looked at */
    bool unlisted;   /* under the rule hide, and the gateway's own finding: the table has no such gate */

    size_t lines_at, lines_end;   /* application data in the channel's `in` that is not yet answered */
    unsigned long messages;       /* that came whole */
    uint8_t line[LINE_LIMIT + 1]; /* room for a CR */
    size_t line_len;
    unsigned long lines; /* that ended, empty ones too */
    uint8_t memory[TN_RECORD_MEMORY]; /* the library's, where it reads the records; last, since it is not cleared */
};

/* Makes a connection that awaits a ClientHello; false where the system has no randomness or the library refuses the settings. */
bool connection_start(struct connection *c, const struct settings *settings);

/* How many bytes may be read into the channel's in + in_len now; 0: none until something was sent, or none at all. */
size_t connection_wants(const struct connection *c);

/* So many bytes of those came; true where they ended a record, or one that is refused. */
bool connection_received(struct connection *c, const struct settings *settings, size_t n);

/* So many bytes from the channel's out + out_at on were sent. */
void connection_sent(struct connection *c, size_t n);

/* Ends the connection from our side, with close_notify. */
void connection_close(struct connection *c, enum outcome why);

/* The client closed its side, or the transport broke. */
void connection_lost(struct connection *c);

/* Clears every byte, and with them all secrets, but those of `memory`: they are no more than what passed in the clear, and clearing 16 KiB more for each
 * client that comes keeps the others waiting. */
void connection_clear(struct connection *c);

#endif
