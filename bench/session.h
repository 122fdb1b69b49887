/*
 * Sessions under PSK-NULL-SHA256: one login served by the calls of a record connection or by those on messages, and every call on records by itself. The
 * client's records are made, and the server's opened, by libcrypto (gateway/records.h).
 */
#ifndef BENCH_SESSION_H
#define BENCH_SESSION_H

#include "login.h"
#include "parts.h"

/* tn_record_start and four times tn_take_record. */
extern const struct course session_by_records;

/* tn_start, three messages, the change of cipher and the key block; the two Finished records by tn_open_record and tn_seal_record, or by libcrypto. */
extern const struct course session_by_messages, session_by_libcrypto;

/* The calls on records: those of a login in its order, then others of tn_take_record, then the rest. Contents have 16 KiB where nothing else is said. */
enum session_part {
    SESSION_START, SESSION_HELLO, SESSION_KEY_EXCHANGE, SESSION_CHANGE, SESSION_FINISHED,
    SESSION_TAKE_DATA, SESSION_TAKE_BAD, SESSION_TAKE_REST,
    SESSION_SEND_DATA, SESSION_SEND_CLOSE, SESSION_CLOSING_ALERT, SESSION_PHASE,
    SESSION_SEAL, SESSION_OPEN, SESSION_WRITE, SESSION_READ, SESSION_MESSAGE_END, SESSION_PARTS
};
extern struct part session_parts[SESSION_PARTS];

/* Makes a connection in every phase, and gives the login that the courses above are for. A login by one of them changes what the parts are given. */
struct login *session_prepare(void);

/* The MAC, its key and the bytes under it, of the record that SESSION_OPEN and SESSION_TAKE_DATA are given. */
enum { SESSION_MAC_INPUT = 13 + TN_RECORD_CONTENT_LIMIT };
const uint8_t *session_mac(void);
const uint8_t *session_key(void);
void session_mac_input(uint8_t bytes[SESSION_MAC_INPUT]);

#endif
