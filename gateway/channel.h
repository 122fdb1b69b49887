/*
 * The records of one connection, of either side, apart from its socket and from what the messages mean: what comes is cut into records, these are opened and
 * handshake bytes joined to messages; what is to be sent is sealed. The gateway's connections and the gate's session have it in common: which keys are for
 * writing is all that differs.
 *
 * What is refused is given the alert of RFC 5246; where it leaves a choice: an unknown content type is 10, a change of cipher after completion or amid a
 * message is 10, an empty handshake fragment, an alert that is not of two bytes or a change of cipher that is not the byte 01 is 50. A record's version is
 * not judged.
 */
#ifndef HOST_CHANNEL_H
#define HOST_CHANNEL_H

#include <stdbool.h>
#include <stddef.h>
#include <stdint.h>

#include "records.h"
#include "turretnail.h"

enum { OUT_SIZE = 8192, MESSAGE_HEADER = 4 };

/* All zero is the state at the start. */
struct channel {
    struct protection reading, writing;           /* in force */
    struct protection next_reading, next_writing; /* after the change of cipher */
    uint8_t in[RECORD_LIMIT];                     /* the record that is coming */
    size_t in_len;
    uint8_t message[TN_MESSAGE_LIMIT]; /* the handshake message that is coming */
    size_t message_len;
    uint8_t out[OUT_SIZE]; /* what is to be sent, from out_at to out_end */
    size_t out_at, out_end;
};

/* ---- what is sent */

/* Puts one record with this content behind what is to be sent; false where there is no room or libcrypto fails. */
bool channel_queue(struct channel *c, enum record_type type, const uint8_t *content, size_t n);

/* So many bytes of what is to be sent were; true where that was all. */
bool channel_sent(struct channel *c, size_t n);

/* ---- keys */

/* Makes the keys of both directions, to be used after the changes of cipher, for our side of the connection: TN_SIDE_CLIENT or TN_SIDE_SERVER. */
bool channel_keys(struct channel *c, uint8_t side, const struct suite *suite, const uint8_t master[TN_MASTER_SIZE],
                  const uint8_t client_random[TN_RANDOM_SIZE], const uint8_t server_random[TN_RANDOM_SIZE]);

/* Our change of cipher, which is queued: what is queued from then on is sealed with our keys. */
bool channel_change_writing(struct channel *c);

/* The other side's, which was accepted: what comes from then on is opened with its keys. */
void channel_change_reading(struct channel *c);

/* Clears all keys, libcrypto's copies too. */
void channel_forget(struct channel *c);

/* ---- what comes */

/* The length of the record that is coming: its header first, then as the header says. */
size_t channel_record_size(const struct channel *c);

/* A record that is whole. */
struct arrival {
    uint8_t alert; /* not 0: it is refused with this alert, and only the next is set beside it */
    bool unopened; /* it was protected, and is not what was sent under these keys */
    uint8_t type;
    const uint8_t *content; /* in the channel's `in` */
    size_t n;
};

/* So many bytes came behind those in `in`. True where a record is whole, or refused for its header already. */
bool channel_received(struct channel *c, size_t n, struct arrival *a);

/* Takes handshake bytes to the message that is coming, as far as it goes; how many. */
size_t channel_join(struct channel *c, const uint8_t *bytes, size_t n);

/* Whether that message is whole, or only its header but one that promises more than the library takes: to be handed over as it is, and refused. Before more is
 * joined message_len is to be set to 0. */
bool channel_joined(const struct channel *c);

/* The alert for a change of cipher that has no place or not its form here, or 0. */
uint8_t channel_change_fault(const struct channel *c, bool complete, const struct arrival *a);

#endif
