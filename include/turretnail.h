/*
 * turretnail.h: the server's and the client's side of the TLS 1.2 handshake with pre-shared keys (RFC 4279, RFC 5246), for a host program in C or C++.
 *
 * The library is proved: for any bytes in any order each call has one answer, fixed by definitions that follow the RFCs. What the proofs assume of the
 * caller is on this page and nowhere else.
 *
 *   - The host opens sockets. A server has two kinds of connection, and chooses one: on a connection of tn_start it cuts and joins records and protects them
 *     itself, and hands over one whole handshake message a call, header included; on one of tn_record_start the library does that too, for the one suite
 *     without a cipher, and the host hands over one whole record a call. "Record connections" below says which is for whom. A client has one kind, that of
 *     tn_client_start, and deals with records itself.
 *   - The host lends all memory. The library allocates nothing, keeps nothing between two calls, has no global state and calls nothing of the host's.
 *     Calls from several threads at once are fine where no two of them are lent the same writable memory.
 *   - The host lends all randomness: 32 fresh bytes for each connection, on either side, from a source that never repeats. Two connections with the same 32
 *     bytes can be recorded and played again.
 *
 * POINTERS AND LENGTHS
 *
 * A `const uint8_t *p` with its `size_t p_len` is read and left as it was; a `uint8_t *out` with its `size_t out_len` is lent for the answer. Of a list,
 * `uint32_t *starts`, `starts_len` counts the numbers, not their bytes. A parameter written as an array, as `uint32_t fields[9]`, is a pointer to so many
 * elements, and `size_t *count` and `uint64_t *blocks` to one. The caller sees to it that
 *
 *   - each pointer points to as many bytes or elements as its length or its type says, and is not null, also where the length is 0;
 *   - memory that is lent to be written (`out`, `memory`, `fields`, `connection`, `told`, `blocks`, and `client`, `master`, `starts` and `count` without
 *     `const`) overlaps no other argument of the same call;
 *   - nobody else writes to any of it before the call returns.
 *
 * Nothing else is asked: there is no length, no byte and no order of calls that may not be given.
 *
 * WHAT COMES BACK
 *
 * One `int32_t`, of which three kinds never meet:
 *
 *   0 and above   accepted. Of a call that is lent an `out`: so many bytes were written at its front, and the rest of it is as it was.
 *   -1 .. -10     refused to the host: TN_R1 .. TN_R10. Nothing that was lent is changed.
 *   -1000 - a     refused to the peer: the host sends it the fatal alert a. Nothing that was lent is changed, except that the connection is closed.
 *
 * The peer is the client where the host is a server, and the server where it is a client.
 *
 * So a refusal never writes to `out`, `memory`, `starts`, `count`, `fields`, `master`, `blocks` or `told`. The tests `tn_is_count`, `tn_is_host_refusal` and
 * `tn_is_alert` below tell the kinds apart.
 */
#ifndef TURRETNAIL_H
#define TURRETNAIL_H

#include <stdbool.h>
#include <stddef.h>
#include <stdint.h>

#ifdef __cplusplus
extern "C" {
#endif

/* The version of header and library, as pkg-config has it. */
#define TN_VERSION "0.3"

/* ==== Sizes ================================================================================================================================== */

#define TN_RANDOM_SIZE 32       /* a hello's random, and the bytes lent to a start */
#define TN_STAND_IN_SIZE 32     /* the stand-in key lent to tn_start */
#define TN_HINT_LIMIT 128       /* a hint has at most so many bytes */
#define TN_MESSAGE_LIMIT 16384  /* a handshake message has at most so many bytes, its header included */
#define TN_CONNECTION_SIZE 388  /* a connection, see tn_start */
#define TN_FLIGHT_SIZE 180      /* the longest answer of tn_message */
#define TN_FINISHED_SIZE 16     /* a Finished message */
#define TN_HASH_SIZE 32         /* SHA-256 and HMAC-SHA-256 */
#define TN_PSK_LIMIT 64         /* a pre-shared key has 1 to 64 bytes */
#define TN_PREMASTER_LIMIT 132  /* the longest premaster secret: 4 + 2 * 64 */
#define TN_MASTER_SIZE 48       /* a master secret */
#define TN_KEY_BLOCK_LIMIT 96   /* the longest key block */
#define TN_VERIFY_DATA_SIZE 12  /* the value in a Finished message */
#define TN_PRF_LIMIT 256        /* the PRF gives at most so many bytes */
#define TN_PRF_INPUT_LIMIT 65536 /* secret and seed of the PRF have at most so many bytes each */
#define TN_IDENTITY_LIMIT 128   /* a listed identity has 1 to 128 bytes */
#define TN_TABLE_LIMIT 65536    /* a key table has at most so many bytes */
#define TN_TABLE_LINES 256      /* and so many lines, and the list of their starts so many numbers */
#define TN_RECORD_HEADER_SIZE 5 /* a record's header: type, version and the fragment's length */
#define TN_RECORD_CONTENT_LIMIT 16384 /* a record has at most so many bytes of content */
#define TN_RECORD_MAC_SIZE 32   /* and so many bytes behind it where it is protected */
#define TN_RECORD_LIMIT 16421   /* the longest record that may be accepted: 5 + 16,384 + 32 */
#define TN_RECORD_CONNECTION_SIZE 576 /* a record connection, see tn_record_start */
#define TN_RECORD_MEMORY 16383  /* so much memory is always enough for what came of an unfinished message */
#define TN_RECORD_ANSWER 195    /* the longest answer of tn_take_record, on a connection that calls have made */
#define TN_CLOSING_ALERT_SIZE 39 /* the longest record of tn_closing_alert and of tn_send_close */
#define TN_CLIENT_SIZE 413      /* a client's connection, see tn_client_start */
#define TN_CLIENT_HELLO_SIZE 49 /* the ClientHello of tn_client_start */
#define TN_CLIENT_FLIGHT_SIZE 150 /* the longest answer of tn_client_message: 22 bytes and the identity's */

/* ==== Results ================================================================================================================================ */

/* Refusals to the host. The peer is told nothing, and a connection stays as it was. */
#define TN_R1 (-1) /* the lent output is shorter than the answer */
#define TN_R2 (-2) /* the key table is not well formed */
#define TN_R3 (-3) /* a bad setting at a start; no connection was made */
#define TN_R4 (-4) /* the connection is complete or closed; of a record connection: it is closed */
#define TN_R5 (-5) /* a value to be written that its layout forbids, or a length outside its limit */
#define TN_R6 (-6) /* the identity is listed already (tn_table_add) */
#define TN_R7 (-7) /* the identity is not listed (tn_table_replace, tn_table_retire) */
#define TN_R8 (-8) /* the edited table would have a 257th line, or more than 65,536 bytes */
#define TN_R9 (-9) /* a record to be sent or taken under sequence number 2^64 - 1, the last (record connections) */
#define TN_R10 (-10) /* the list is not exactly the table's line starts and their count */

/*
 * The alerts that the library gives (RFC 5246 section 7.2, RFC 4279 section 6). The library sends nothing: where a call on a connection gives an alert, the
 * host sends its peer an alert record with the bytes 2 (fatal) and this number, under the write protection of the moment, and closes the transport. For a
 * record connection tn_closing_alert makes that record. A layout reader or the table used alone gives the same numbers and touches no connection.
 *
 * What is said of tn_message here holds for the handshake messages in the records of tn_take_record too.
 *
 *   alert                          given by
 *   10 unexpected_message          tn_message, tn_client_message: another message than the one awaited. tn_change_of_cipher, tn_client_change_of_cipher: none
 *                                  awaited. tn_take_record: what has no place where it stands. Every reader of a record: an unknown content type.
 *   20 bad_record_mac              tn_take_record: a wrong MAC, but in the first protected record. tn_open_record.
 *   22 record_overflow             tn_take_record, tn_read_record, tn_open_record: a fragment that is too long.
 *   40 handshake_failure           tn_message: the ClientHello lists none of our suites.
 *   47 illegal_parameter           tn_message: the ClientHello lists no null compression. tn_client_message: a ServerHello with a suite that was not offered,
 *                                  not of TLS 1.2 with 0x00AE or 0x00B0, or with a compression. tn_alert, tn_client_alert, tn_take_record: an alert's level
 *                                  other than 1 and 2.
 *   50 decode_error                tn_message, tn_client_message: a wrong layout, or a message over 16,384 bytes. Every tn_read_ function and
 *                                  tn_next_extension. tn_take_record, tn_open_record: bytes that are not one whole record. tn_take_record: an empty handshake
 *                                  fragment, an alert that is not of two bytes, a change of cipher that is not the one byte 01.
 *   51 decrypt_error               tn_message, tn_client_message: a wrong Finished. tn_message: any Finished after an identity that is not listed.
 *                                  tn_take_record: a wrong MAC in the first protected record, or any such record after an identity that is not listed.
 *   70 protocol_version            tn_message: a ClientHello below TLS 1.2. tn_client_message: a ServerHello not of TLS 1.2 with 0x008C.
 *   110 unsupported_extension      tn_client_message: a ServerHello with an extension, since the client asks for none.
 *   115 unknown_psk_identity       tn_message under TN_RULE_TELL: the identity is not listed. tn_table_lookup.
 *
 * On a connection of tn_start or tn_client_start the alerts on records (bad_record_mac, record_overflow) and close_notify are the host's own.
 */
#define TN_ALERT_UNEXPECTED_MESSAGE 10
#define TN_ALERT_BAD_RECORD_MAC 20
#define TN_ALERT_RECORD_OVERFLOW 22
#define TN_ALERT_HANDSHAKE_FAILURE 40
#define TN_ALERT_ILLEGAL_PARAMETER 47
#define TN_ALERT_DECODE_ERROR 50
#define TN_ALERT_DECRYPT_ERROR 51
#define TN_ALERT_PROTOCOL_VERSION 70
#define TN_ALERT_UNSUPPORTED_EXTENSION 110
#define TN_ALERT_UNKNOWN_PSK_IDENTITY 115

/* The result that stands for an alert, to compare with: `result == TN_ALERT_RESULT(TN_ALERT_DECODE_ERROR)`. */
#define TN_ALERT_RESULT(alert) (-1000 - (alert))

/* Whether the call was accepted. */
static inline bool tn_is_count(int32_t result)
{
    return result >= 0;
}

/* Whether it was refused to the host, with one of TN_R1 to TN_R10. */
static inline bool tn_is_host_refusal(int32_t result)
{
    return result < 0 && result > -1000;
}

/* Whether it was refused to the peer, with an alert. */
static inline bool tn_is_alert(int32_t result)
{
    return result <= -1000;
}

/* The alert's number, as it goes over the wire, of a result for which tn_is_alert holds. */
static inline uint8_t tn_alert_number(int32_t result)
{
    return (uint8_t)((-1000 - result) & 0xff);
}

/* ==== Numbers of the protocol ================================================================================================================ */

/* The cipher suites, in the order in which the client lists them and the server chooses. Key block, cut by the host as RFC 5246 section 6.3 says: client's and
 * server's MAC keys, then client's and server's cipher keys. */
#define TN_SUITE_PSK_AES_128_CBC_SHA256 0x00AE /* 96 bytes: 32, 32, 16, 16 */
#define TN_SUITE_PSK_AES_128_CBC_SHA 0x008C    /* 72 bytes: 20, 20, 16, 16 */
#define TN_SUITE_PSK_NULL_SHA256 0x00B0        /* 64 bytes: 32, 32 */

/* What tn_start and tn_record_start do about an identity that is not listed. */
#define TN_RULE_NONE 0 /* none named: hide */
#define TN_RULE_TELL 1 /* alert 115 at once */
#define TN_RULE_HIDE 2 /* go on with the stand-in key, alert 51 at the Finished, or at the first protected record */

/* What tn_phase and tn_record_phase answer. */
#define TN_PHASE_CLOSED 0
#define TN_PHASE_CLIENT_HELLO 1        /* awaits it */
#define TN_PHASE_CLIENT_KEY_EXCHANGE 2 /* awaits it */
#define TN_PHASE_CHANGE_OF_CIPHER 3    /* awaits it */
#define TN_PHASE_FINISHED 4            /* awaits it */
#define TN_PHASE_COMPLETE 5

/* What tn_client_phase answers. */
#define TN_CLIENT_PHASE_CLOSED 0
#define TN_CLIENT_PHASE_SERVER_HELLO 1        /* awaits it */
#define TN_CLIENT_PHASE_SERVER_KEY_EXCHANGE 2 /* awaits it or, where the server has no hint, ServerHelloDone */
#define TN_CLIENT_PHASE_SERVER_HELLO_DONE 3   /* awaits it */
#define TN_CLIENT_PHASE_CHANGE_OF_CIPHER 4    /* awaits it */
#define TN_CLIENT_PHASE_FINISHED 5            /* awaits it */
#define TN_CLIENT_PHASE_COMPLETE 6

/* The content types of records (RFC 5246 section 6.2.1). */
#define TN_TYPE_CHANGE_OF_CIPHER 20
#define TN_TYPE_ALERT 21
#define TN_TYPE_HANDSHAKE 22
#define TN_TYPE_APPLICATION_DATA 23

/* tn_prf's labels, which stand in the library as text. */
#define TN_LABEL_MASTER_SECRET 0
#define TN_LABEL_KEY_EXPANSION 1
#define TN_LABEL_CLIENT_FINISHED 2
#define TN_LABEL_SERVER_FINISHED 3

/* tn_finished's sides. */
#define TN_SIDE_CLIENT 0
#define TN_SIDE_SERVER 1

/* In a ClientHello or ServerHello that was accepted the random stands at 6, and the session id at 39. */
#define TN_HELLO_RANDOM_AT 6
#define TN_HELLO_SESSION_ID_AT 39

/* ==== What a master secret costs ============================================================================================================= */

/*
 * `blocks` tells how many 64-byte blocks went through SHA-256's compression function while the master secret was derived. tn_message, tn_client_message,
 * tn_take_record and tn_master write it exactly where they write the master secret, and leave it as it was everywhere else.
 *
 * A master secret takes four HMACs (RFC 5246 section 5: A(1), the first 32 bytes, A(2) and the other 16), each of which starts afresh: it counts the blocks of
 * its two digests, their padding among them, and before these the blocks of the premaster secret's own digest where that has over 64 bytes.
 *
 *   pre-shared key      premaster secret       blocks
 *   1 to 30 bytes       6 to 64 bytes          19
 *   31 to 57            66 to 118              27
 *   58 to 64            120 to 132             31
 *
 * tn_master takes other premaster secrets too: up to 64 bytes give 19, and n bytes above that 19 + 4 * ((n + 72) / 64), without the division's remainder.
 * The number is for a battery's budget: what a master secret costs is `blocks` times the measured time of one block.
 *
 * FOR THE HOST ALONE. The key's length shows in the number: it never goes on the wire. No answer, alert or refusal depends on it. Where hide applies it is
 * 27 after an identity that is not listed, by the 32 bytes of the stand-in key, and another number after a listed one whose key has under 31 or over 57
 * bytes: a log that shows the number shows that too.
 */

/* ==== The server ============================================================================================================================= */

/*
 * For a host with a record layer of its own. A connection is TN_CONNECTION_SIZE bytes of the host's, which the calls read and write whole. Their meaning is
 * the library's own; no alignment is needed.
 *
 *   - Cleared bytes are a closed connection, and so are bytes whose first three name no phase, rule or flag: they are answered with TN_R4. Other bytes that
 *     no call has written stand for some connection, and get its answers.
 *     A connection that a call closed is not all zeros: ask tn_phase, and do not compare bytes.
 *   - Bytes may be moved and copied between calls. They hold secrets until the connection is complete or closed; then they hold no secret and no trace of
 *     the client. A host that drops a connection earlier clears them.
 *
 * The way of a login, for which tn_table_list has made the list of the key table, once when the table was read:
 *
 *   tn_start                                               phase 1
 *   ClientHello            tn_message, send its answer      phase 2
 *   ClientKeyExchange      tn_message, keep the master      phase 3    tn_key_block makes the keys of both directions
 *   a change of cipher     tn_change_of_cipher              phase 4    from here on records of the client are protected
 *   Finished               tn_message                       phase 5    send a change of cipher, then its answer under the server's keys
 *
 * An alert of the client goes to tn_alert whenever it comes before phase 5. Records after phase 5, alerts among them, are the host's alone.
 *
 * WHICH SUITE, WHICH GATE. tn_suite tells the suite in phases 2 to 4, for tn_key_block and the records. The identity the host reads from the
 * ClientKeyExchange, with tn_read_client_key_exchange before tn_message is called, in phase 2: afterwards a refused connection is closed, and the name is
 * wanted most where it was refused. It is what the client says, of any bytes, and nobody's until phase 5.
 *
 * The randoms of tn_key_block are the bytes that were lent to tn_start and, of the ClientHello, TN_RANDOM_SIZE bytes from TN_HELLO_RANDOM_AT on.
 *
 * THE FIRST PROTECTED RECORD. Under an unlisted identity, or with a wrong key, the client's Finished does not even decrypt, and tn_message never sees it.
 * The host then sends alert 51 (decrypt_error), clears the connection and closes the transport; in later records a bad MAC is alert 20, as usual. With 20
 * for the first one the handshake would still fail, but with another alert than where the library judges.
 */

/*
 * Starts a connection.
 *
 *   random     TN_RANDOM_SIZE bytes that no other connection was or will be started with
 *   hint       0 to TN_HINT_LIMIT bytes of UTF-8, sent to each client; none: no ServerKeyExchange is sent
 *   stand_in   TN_STAND_IN_SIZE bytes that nobody else knows, drawn once when the host starts: the key of unlisted identities where hide applies
 *   rule       TN_RULE_NONE, TN_RULE_TELL or TN_RULE_HIDE
 *
 *   0          `connection` awaits a ClientHello
 *   TN_R3      another length, a hint that is not UTF-8, or another rule; `connection` as it was
 */
int32_t tn_start(uint8_t connection[TN_CONNECTION_SIZE], const uint8_t *random, size_t random_len, const uint8_t *hint, size_t hint_len,
                 const uint8_t *stand_in, size_t stand_in_len, uint8_t rule);

/*
 * Hands over one handshake message, header included, without its record. A refused message is not added to the transcript.
 *
 *   table      the key table ("The key table" says its form), read where a ClientKeyExchange comes
 *   starts     the table's list, as tn_table_list made it: the first `count` numbers, the others do not matter; read with the table
 *   out        room for the answer: TN_FLIGHT_SIZE bytes are always enough
 *
 *   result                 when                                            out                                 master, blocks    connection
 *   46, or 52 + hint_len   ClientHello accepted                            ServerHello, ServerKeyExchange      as they were      phase 2
 *                                                                          where there is a hint, and
 *                                                                          ServerHelloDone
 *   0                      ClientKeyExchange accepted                      as it was                           master secret,    phase 3
 *                                                                                                              its blocks
 *   16                     Finished accepted                               the server's Finished               as they were      phase 5, complete
 *   TN_R1                  all is right, and out is shorter than that      as it was                           as they were      as it was
 *   TN_R2                  a ClientKeyExchange, table not well formed      as it was                           as they were      as it was
 *   TN_R4                  the connection is complete or closed            as it was                           as they were      as it was
 *   TN_R10                 a ClientKeyExchange, list not the table's       as it was                           as they were      as it was
 *   an alert               10, 40, 47, 50, 51, 70, 115 as listed above     as it was                           as they were      closed
 *
 * After TN_R1, TN_R2 or TN_R10 the connection still awaits the same message, and the call may be made again with more room, a better table or its list.
 *
 * Order of the tests: TN_R4; fewer than 4 bytes 50; another type than the one awaited 10; the length in the header not that of the rest 50; over
 * TN_MESSAGE_LIMIT bytes 50; TN_R2; TN_R10; the body's; TN_R1. So a header that promises too much can be handed over alone, and is refused with 10 or 50.
 *
 * Where hide applies the master secret after an unlisted identity comes from the stand-in key, in 27 blocks. It is for the records only.
 */
int32_t tn_message(uint8_t connection[TN_CONNECTION_SIZE], const uint8_t *table, size_t table_len, const uint32_t *starts, size_t starts_len, size_t count,
                   const uint8_t *message, size_t message_len, uint8_t *out, size_t out_len, uint8_t master[TN_MASTER_SIZE], uint64_t *blocks);

/*
 * A change of cipher came from the client.
 *
 *   0                      it was awaited; the connection awaits a Finished
 *   TN_R4                  the connection is complete or closed, and stays as it was
 *   alert 10               it was not awaited; the connection is closed
 */
int32_t tn_change_of_cipher(uint8_t connection[TN_CONNECTION_SIZE]);

/*
 * An alert came from the client.
 *
 *   0                      level 2, or description 0 (close_notify): the connection is closed, and nothing is to be sent.
 *                          Another description with level 1: a warning, and the connection stays as it was. tn_phase tells the two apart.
 *   TN_R4                  the connection is complete or closed, and stays as it was
 *   alert 47               a level other than 1 and 2; the connection is closed
 */
int32_t tn_alert(uint8_t connection[TN_CONNECTION_SIZE], uint8_t level, uint8_t description);

/* What the connection awaits, or how it ended: one of the TN_PHASE_ numbers. TN_PHASE_CLOSED also for cleared bytes. */
int32_t tn_phase(const uint8_t connection[TN_CONNECTION_SIZE]);

/* The suite that the ClientHello led to, as tn_key_block takes it: from the accepted hello on; 0 before it, and when the connection is complete or closed. */
int32_t tn_suite(const uint8_t connection[TN_CONNECTION_SIZE]);

/* ==== Record connections ===================================================================================================================== */

/*
 * For a host without a record layer. A record connection takes the bytes off the socket, one whole record a call, and gives the bytes for it: several
 * messages in a record, one message over several, the change of cipher, alerts and the protection of records (RFC 5246 section 6) are the library's.
 *
 * WHICH KIND. A record connection offers TN_SUITE_PSK_NULL_SHA256, 0x00B0, alone: INTEGRITY WITHOUT SECRECY. Nobody can change, reorder or repeat what passes,
 * and everybody on the way can read it. Where it must not be read take tn_start, a record layer with a cipher, and the other two suites; where it may be,
 * this kind leaves the host the least to do wrong. The two kinds do not mix: tn_message, tn_change_of_cipher, tn_alert, tn_phase and tn_suite are for
 * the bytes of tn_start, the calls of this section for those of tn_record_start.
 *
 * WHAT THE HOST LENDS. Of each connection
 *
 *   - TN_RECORD_CONNECTION_SIZE bytes, the connection: read and written whole, without a meaning for the host, movable, of any alignment. Cleared bytes are a
 *     closed connection, and so are those of which the library knows that no call wrote them; other bytes that no call has written stand for some
 *     connection, and get its answers. Nothing of a connection is compared by bytes: ask tn_record_phase.
 *   - `memory`, for what came of a message that is not finished: THE SAME BYTES AT EACH tn_take_record, which nobody else writes to in between. Memory with
 *     other bytes counts as if the client had sent those. TN_RECORD_MEMORY bytes are always enough; with less, TN_R1 comes where they are too few. Only
 *     when a connection is new, complete or closed may the memory be another's.
 *
 * The way of a session, for which tn_table_list has made the list of the key table, once when the table was read:
 *
 *   tn_record_start                       phase 1
 *   for each record of the client         read TN_RECORD_HEADER_SIZE bytes, then as many as the last two of them say (the first is the high one);
 *                                         hand all of it to tn_take_record
 *     a count                             send so many bytes of `out`; where told[1] is 1 the client's data are told[3] bytes of the record, from told[2] on;
 *                                         then ask tn_record_phase: 0, the client has closed, and the host closes the transport;
 *                                         5, the handshake is complete: the client knows the key of the identity that it named
 *     an alert                            tn_closing_alert, send its bytes, close the transport
 *     TN_R1, TN_R2, TN_R9, TN_R10         as said at tn_take_record
 *   data for the client                   tn_send_data in phase 5, send its bytes
 *   the end                               tn_send_close, send its bytes, close the transport
 *
 * Send what a call gave before the bytes of the next one: the sequence numbers count them in this order. A record that is lost or sent twice ends the
 * session at the client.
 *
 * WHICH GATE. No call tells the identity. It stands in the ClientKeyExchange, which nothing hides: a host that wants the name keeps the handshake bytes of
 * the client's records (tn_read_record) from the end of the ClientHello (tn_message_end) until told[0] is 1, and reads them with
 * tn_read_client_key_exchange. It is what the client says, of any bytes, and nobody's until phase 5.
 *
 * A RECORD THAT IS TOO LONG. No record over TN_RECORD_LIMIT bytes is accepted, so a buffer of that size will do: of a record whose header says more, hand over
 * what has room, or the header alone, and get alert 50, not whole. Alert 22 comes where all of it is handed over, up to 65,540 bytes. Both close.
 *
 * SECRETS. The connection's bytes hold keys until it is closed, in phase 5 too; closed, they hold no secret and no trace of the client, but the record of the
 * alert that closed it. A host that clears keys clears the TN_RECORD_CONNECTION_SIZE bytes when it drops a connection, `master` where told[0] was 1, and
 * its stack after each call, tn_take_record's deeper than the others' (see "Clearing the stack"). `memory` holds no more than what the client sent.
 */

/*
 * Starts a record connection. The arguments are those of tn_start.
 *
 *   0          `connection` awaits a ClientHello
 *   TN_R3      another length, a hint that is not UTF-8, or another rule; `connection` as it was
 */
int32_t tn_record_start(uint8_t connection[TN_RECORD_CONNECTION_SIZE], const uint8_t *random, size_t random_len, const uint8_t *hint, size_t hint_len,
                        const uint8_t *stand_in, size_t stand_in_len, uint8_t rule);

/*
 * Takes one whole record of the client, header included.
 *
 *   table      the key table, read where a ClientKeyExchange is finished
 *   starts     the table's list, as tn_table_list made it: the first `count` numbers, the others do not matter; read with the table
 *   received   the record
 *   memory     the connection's memory, see above
 *   out        room for the answer: TN_RECORD_ANSWER bytes are enough on a connection that calls have made; on other bytes an answer has at most 336
 *
 *   result                 when                                    out                  memory             master, blocks     told             connection
 *   56, or 67 + hint_len   a ClientHello was finished              ServerHello,         the part of a      master secret,     {0, 0, 0, 0}, or  phase 2,
 *                                                                  ServerKeyExchange    next message at    its blocks,        {1, 0, 0, 0}      or 3
 *                                                                  where there is a     the front, else    where a            with a master
 *                                                                  hint, and            as it was          ClientKeyExchange  secret
 *                                                                  ServerHelloDone                         was finished too
 *   59                     the client's Finished was right         change of cipher,    as it was          as they were       {0, 0, 0, 0}     phase 5
 *                                                                  and the server's
 *                                                                  Finished, protected
 *   0                      a ClientKeyExchange was finished        as it was            as above           master secret,     {1, 0, 0, 0}     phase 3
 *                                                                                                          its blocks
 *   0                      a part of a message                     as it was            all that came      as they were       {0, 0, 0, 0}     same phase
 *                                                                                       of it at the front
 *   0                      the awaited change of cipher            as it was            as it was          as they were       {0, 0, 0, 0}     phase 4
 *   0                      a warning other than close_notify       as it was            as it was          as they were       {0, 0, 0, 0}     same phase
 *   0                      close_notify, or a fatal alert          as it was            as it was          as they were       {0, 0, 0, 0}     closed, nothing
 *                                                                                                                                              is to be sent
 *   0                      application data, n bytes or none       as it was            as it was          as they were       {0, 1, 5, n}     phase 5
 *   TN_R1                  all is right, and out is shorter than   as it was            as it was          as they were       as it was        as it was
 *                          the answers of the whole record, or
 *                          memory than what is to be held
 *   TN_R2                  a ClientKeyExchange was finished, and   as it was            as it was          as they were       as it was        as it was
 *                          the table is not well formed
 *   TN_R4                  the connection is closed                as it was            as it was          as they were       as it was        as it was
 *   TN_R9                  2^64 - 1 records were taken             as it was            as it was          as they were       as it was        as it was
 *   TN_R10                 a ClientKeyExchange was finished, and   as it was            as it was          as they were       as it was        as it was
 *                          the list is not the table's
 *   an alert               10, 20, 22, 40, 47, 50, 51, 70, 115     as it was            as it was          as they were       as it was        closed, with the
 *                                                                                                                                              alert's record
 *
 * What is held stands at the front of the memory; the rest of the memory is as it was. Each message of the answer has a record of its own.
 *
 * After TN_R1, TN_R2 or TN_R10 the record counts as not come, with all its messages: the call may be made again with more room, more memory (the same bytes
 * at its front), a better table or its list. After TN_R9 nothing can be taken any more: tn_send_close, and a new connection.
 *
 * Order of the tests: TN_R4; TN_R9; bytes that are not one whole record 50; an unknown content type 10; a fragment over 16,384 bytes, under protection 32
 * more, 22; a wrong MAC, also under 32 bytes of fragment, 20, but 51 in the first protected record, and there 51 with any MAC where the identity is not
 * listed; application data before phase 5, handshake bytes in phase 5, a change of cipher there or amid an unfinished message 10; an empty handshake
 * fragment, an alert that is not of two bytes, a change of cipher that is not the one byte 01 50; a change of cipher in another phase than 3 10; an alert's
 * level 47; each message in turn; TN_R1. Of a message the type (10) and the limit of TN_MESSAGE_LIMIT bytes (50) are judged as soon as its four bytes of
 * header are in, the rest as at tn_message when all of it is. The record's version is not judged, and the MAC covers the one that came.
 *
 * Where hide applies the master secret after an unlisted identity comes from the stand-in key, in 27 blocks; the connection never gets to phase 5.
 */
int32_t tn_take_record(uint8_t connection[TN_RECORD_CONNECTION_SIZE], const uint8_t *table, size_t table_len, const uint32_t *starts, size_t starts_len,
                       size_t count, const uint8_t *received, size_t received_len, uint8_t *memory, size_t memory_len, uint8_t *out, size_t out_len,
                       uint8_t master[TN_MASTER_SIZE], uint32_t told[4], uint64_t *blocks);

/*
 * Application data for the client, as one record: at most TN_RECORD_CONTENT_LIMIT bytes, or none.
 *
 *   result                 when                                            out                connection
 *   37 + content_len       sent                                            the record         one more record sent
 *   TN_R4                  the connection is closed                        as it was          as it was
 *   TN_R9                  2^64 - 1 records were sent                      as it was          as it was
 *   TN_R5                  before phase 5, or too many bytes               as it was          as it was
 *   TN_R1                  out is shorter than the record                  as it was          as it was
 *
 * The tests stand in this order.
 */
int32_t tn_send_data(uint8_t connection[TN_RECORD_CONNECTION_SIZE], const uint8_t *content, size_t content_len, uint8_t *out, size_t out_len);

/*
 * A close_notify for the client, as one record, in any phase; the connection is closed with it. TN_CLOSING_ALERT_SIZE bytes are always enough.
 *
 *   result                 when                                            out                connection
 *   7, in phase 5 39       sent                                            the record         closed
 *   TN_R4                  the connection is closed                        as it was          as it was
 *   TN_R9                  2^64 - 1 records were sent                      as it was          as it was
 *   TN_R1                  out is shorter than the record                  as it was          as it was
 *
 * The tests stand in this order.
 */
int32_t tn_send_close(uint8_t connection[TN_RECORD_CONNECTION_SIZE], uint8_t *out, size_t out_len);

/*
 * The record of the alert that closed the connection, to be sent after tn_take_record gave an alert. It changes nothing, and may be asked for again.
 *
 *   result                 when                                            out
 *   7, in phase 5 39       an alert closed the connection                  the record
 *   0                      anything else: there is none to be sent         as it was
 *   TN_R1                  out is shorter than the record                  as it was
 */
int32_t tn_closing_alert(const uint8_t connection[TN_RECORD_CONNECTION_SIZE], uint8_t *out, size_t out_len);

/* What the connection awaits, or how it ended: one of the TN_PHASE_ numbers. TN_PHASE_CLOSED also for cleared bytes. */
int32_t tn_record_phase(const uint8_t connection[TN_RECORD_CONNECTION_SIZE]);

/* ==== The client ============================================================================================================================= */

/*
 * For a gate with a record layer of its own. A client's connection is TN_CLIENT_SIZE bytes of the host's, which the calls of this section, and no others, read
 * and write whole. Their meaning is the library's own; no alignment is needed.
 *
 *   - Cleared bytes are a closed connection, and so are bytes of which the first names no phase: they are answered with TN_R4. Other bytes that no call has
 *     written stand for some connection, and get its answers. A connection that a call closed is not all zeros: ask tn_client_phase, and do not compare bytes.
 *   - Bytes may be moved and copied between calls. They hold the identity and secrets, the pre-shared key from tn_client_start on, until the connection is
 *     complete or closed; then they hold no secret and no trace of either end. A host that drops a connection earlier clears them.
 *
 * The way of a gate's login:
 *
 *   tn_client_start        send its ClientHello                 phase 1
 *   ServerHello            tn_client_message                    phase 2    keep its random for tn_key_block
 *   ServerKeyExchange      tn_client_message                    phase 3    it comes where the server has a hint; else phase 2 goes on to phase 4
 *   ServerHelloDone        tn_client_message, keep the master   phase 4    tn_key_block makes the keys of both directions; send the answer as said below
 *   a change of cipher     tn_client_change_of_cipher           phase 5    from here on records of the server are protected
 *   Finished               tn_client_message                    phase 6    nothing is to be sent: the server knows the key, and data may pass
 *
 * An alert of the server goes to tn_client_alert whenever it comes before phase 6. Records after phase 6, alerts among them, are the host's alone.
 *
 * WHERE TO CUT. The answer to ServerHelloDone is two messages, and the host's change of cipher goes between them. Of its n bytes send the first
 * n - TN_FINISHED_SIZE, the ClientKeyExchange, without protection; then a change of cipher; then the last TN_FINISHED_SIZE, the Finished, as the first record
 * under the client's keys. An alert that a call gives goes to the server, without protection before that change of cipher and under the client's keys behind it.
 *
 * KEYS. The randoms of tn_key_block are, of the ServerHello, TN_RANDOM_SIZE bytes from TN_HELLO_RANDOM_AT on, and the bytes that were lent to
 * tn_client_start; the suite is tn_client_suite's. A server may choose any of the three that the ClientHello lists, TN_SUITE_PSK_NULL_SHA256 among them, which
 * hides nothing: a host whose data must not be read asks tn_client_suite in phase 2, and drops the connection there. `master` and the key block are the
 * host's to clear.
 *
 * THE FIRST PROTECTED RECORD. The server's Finished comes in it, and where it does not open tn_client_message never sees it. The host then sends alert 51
 * (decrypt_error), as the library does for a wrong Finished, clears the connection and closes the transport; in later records a bad MAC is alert 20, as usual.
 * Where the two ends have different keys it does not come so far: the server judges first, and its alert comes in place of its change of cipher.
 *
 * WHO ANSWERS. Until phase 6 nobody has shown that he knows the key, and whatever came may be anybody's: send no data sooner, and believe no hint.
 */

/*
 * Starts a client's connection and gives its ClientHello: version 0x0303, the random, no session id, the three suites in their order, null compression, no
 * extension block.
 *
 *   random     TN_RANDOM_SIZE bytes that no other connection was or will be started with
 *   identity   the gate's name in the server's key table, of such bytes as one may have there: "The key table" says which
 *   key        its pre-shared key, 1 to TN_PSK_LIMIT bytes; the bytes themselves and not their hex digits
 *   out        room for the ClientHello, TN_CLIENT_HELLO_SIZE bytes
 *
 *   49         the ClientHello is at the front of `out`, and `client` awaits a ServerHello
 *   TN_R3      another length, or an identity that no table may have; `client` and `out` as they were
 *   TN_R1      `out` is shorter than the ClientHello; `client` and `out` as they were
 *
 * The tests stand in this order.
 */
int32_t tn_client_start(uint8_t client[TN_CLIENT_SIZE], const uint8_t *random, size_t random_len, const uint8_t *identity, size_t identity_len,
                        const uint8_t *key, size_t key_len, uint8_t *out, size_t out_len);

/*
 * Hands over one handshake message of the server, header included, without its record. A refused message is not added to the transcript.
 *
 *   out        room for the answer to ServerHelloDone: TN_CLIENT_FLIGHT_SIZE bytes are always enough
 *
 *   result                 when                                            out                                 master, blocks    client
 *   0                      ServerHello accepted                            as it was                           as they were      phase 2
 *   0                      ServerKeyExchange accepted                      as it was                           as they were      phase 3
 *   22 + identity_len      ServerHelloDone accepted                        ClientKeyExchange, and the          master secret,    phase 4
 *                                                                          client's Finished                   its blocks
 *   0                      Finished accepted                               as it was                           as they were      phase 6, complete
 *   TN_R1                  all is right, and out is shorter than that      as it was                           as they were      as it was
 *   TN_R4                  the connection is complete or closed            as it was                           as they were      as it was
 *   an alert               10, 47, 50, 51, 70, 110 as listed above         as it was                           as they were      closed
 *
 * After TN_R1 the connection still awaits the same message, and the call may be made again with more room.
 *
 * Order of the tests: TN_R4; fewer than 4 bytes 50; another type than is awaited 10; the length in the header not that of the rest 50; over TN_MESSAGE_LIMIT
 * bytes 50; the body's; TN_R1. So a header that promises too much can be handed over alone, and is refused with 10 or 50. A HelloRequest and a NewSessionTicket
 * are never awaited, nor is a second ServerKeyExchange.
 *
 * Of a ServerHello: the layout 50; a suite that is none of the three 47; a version other than 0x0303 70 with 0x008C, and 47 with the other two; a compression
 * other than 0 47; any extension 110. An empty extension block passes, and the session id is not judged. Of a ServerKeyExchange the layout alone is judged: the
 * hint may be any bytes, and none of it matters (RFC 4279 section 5.2). tn_read_server_key_exchange reads it for a host that wants to show it.
 */
int32_t tn_client_message(uint8_t client[TN_CLIENT_SIZE], const uint8_t *message, size_t message_len, uint8_t *out, size_t out_len,
                          uint8_t master[TN_MASTER_SIZE], uint64_t *blocks);

/* A change of cipher came from the server, or an alert. The results are those of tn_change_of_cipher and tn_alert; tn_client_phase tells a warning from an
 * end. */
int32_t tn_client_change_of_cipher(uint8_t client[TN_CLIENT_SIZE]);
int32_t tn_client_alert(uint8_t client[TN_CLIENT_SIZE], uint8_t level, uint8_t description);

/* What the connection awaits, or how it ended: one of the TN_CLIENT_PHASE_ numbers. TN_CLIENT_PHASE_CLOSED also for cleared bytes. */
int32_t tn_client_phase(const uint8_t client[TN_CLIENT_SIZE]);

/* The suite that the server chose, as tn_key_block takes it: from the accepted ServerHello on; 0 before it, and when the connection is complete or closed. */
int32_t tn_client_suite(const uint8_t client[TN_CLIENT_SIZE]);

/* ==== Secrets ================================================================================================================================ */

/*
 * Each writes its value at the front of `out` and returns the value's length. Each tests TN_R5 first, as said at the function, and then TN_R1: `out` is
 * shorter than the value. Refused, `out` stays as it was, and tn_master's `blocks` too.
 */

/* SHA-256 (FIPS 180-4), 32 bytes. TN_R5: over 2^61 - 1 bytes. */
int32_t tn_sha256(const uint8_t *message, size_t message_len, uint8_t *out, size_t out_len);

/* HMAC-SHA-256 (RFC 2104), 32 bytes. TN_R5: a key over 2^61 - 1 bytes, or a message over 64 fewer. */
int32_t tn_hmac(const uint8_t *key, size_t key_len, const uint8_t *message, size_t message_len, uint8_t *out, size_t out_len);

/*
 * n bytes of the PRF of TLS 1.2 (RFC 5246 section 5, P_SHA256), which serves all three suites.
 * TN_R5: a label that is none of TN_LABEL_.., secret or seed over TN_PRF_INPUT_LIMIT bytes, n over TN_PRF_LIMIT.
 */
int32_t tn_prf(const uint8_t *secret, size_t secret_len, uint8_t label, const uint8_t *seed, size_t seed_len, size_t n, uint8_t *out, size_t out_len);

/* The premaster secret of a pre-shared key (RFC 4279 section 2), 4 + 2 * psk_len bytes. TN_R5: no key, or over TN_PSK_LIMIT bytes. */
int32_t tn_premaster(const uint8_t *psk, size_t psk_len, uint8_t *out, size_t out_len);

/* The master secret, TN_MASTER_SIZE bytes, from the premaster secret and the two hellos' randoms (RFC 5246 section 8.1), and its blocks.
 * TN_R5: a random of other than 32 bytes, or a premaster secret over TN_PRF_INPUT_LIMIT. */
int32_t tn_master(const uint8_t *premaster, size_t premaster_len, const uint8_t *client, size_t client_len, const uint8_t *server, size_t server_len,
                  uint8_t *out, size_t out_len, uint64_t *blocks);

/* The key block without IVs (RFC 5246 section 6.3), as long as tn_key_block_length says. Mind the order of the randoms: server, then client.
 * TN_R5: a master secret of other than 48 bytes, a random of other than 32, or a suite that is none of ours. */
int32_t tn_key_block(const uint8_t *master, size_t master_len, const uint8_t *server, size_t server_len, const uint8_t *client, size_t client_len,
                     uint16_t suite, uint8_t *out, size_t out_len);

/* 96, 72 or 64 for the three suites, 0 for another. */
int32_t tn_key_block_length(uint16_t suite);

/* The verify_data of a Finished (RFC 5246 section 7.4.9), 12 bytes; `hash` is SHA-256 of all handshake messages before it.
 * TN_R5: a side that is none of TN_SIDE_.., a master secret of other than 48 bytes, or a hash of other than 32. */
int32_t tn_finished(uint8_t side, const uint8_t *master, size_t master_len, const uint8_t *hash, size_t hash_len, uint8_t *out, size_t out_len);

/* ==== Messages: writing ====================================================================================================================== */

/*
 * Each writes one whole message, or one extension, at the front of `out` and returns its length. TN_R5 comes first: a value that the layout forbids, or a
 * message over TN_MESSAGE_LIMIT bytes. Then TN_R1: `out` is shorter. Refused, `out` stays as it was.
 */

/*
 * ClientHello. TN_R5: version over 65,535; a random of other than 32 bytes; a session id over 32; suites of an odd length, fewer than 2 bytes or over 65,535;
 * no method or over 255; a block that is no sequence of extensions or has one type twice. The extensions' data may be any bytes.
 * Without `present` there is no extension block, and `block` is not looked at; with it and no bytes there is an empty one. These are different messages.
 */
int32_t tn_write_client_hello(uint32_t version, const uint8_t *random, size_t random_len, const uint8_t *session_id, size_t session_id_len,
                              const uint8_t *suites, size_t suites_len, const uint8_t *methods, size_t methods_len, bool present, const uint8_t *block,
                              size_t block_len, uint8_t *out, size_t out_len);

/* ServerHello. TN_R5: as above where it applies, and a suite over 65,535. */
int32_t tn_write_server_hello(uint32_t version, const uint8_t *random, size_t random_len, const uint8_t *session_id, size_t session_id_len, uint32_t suite,
                              uint8_t compression, bool present, const uint8_t *block, size_t block_len, uint8_t *out, size_t out_len);

/* ServerKeyExchange with a hint, and ClientKeyExchange with an identity. TN_R5: over 16,378 bytes. */
int32_t tn_write_server_key_exchange(const uint8_t *hint, size_t hint_len, uint8_t *out, size_t out_len);
int32_t tn_write_client_key_exchange(const uint8_t *identity, size_t identity_len, uint8_t *out, size_t out_len);

/* ServerHelloDone, 4 bytes. */
int32_t tn_write_server_hello_done(uint8_t *out, size_t out_len);

/* Finished, 16 bytes. TN_R5: verify_data of other than 12 bytes. */
int32_t tn_write_finished(const uint8_t *verify_data, size_t verify_data_len, uint8_t *out, size_t out_len);

/* NewSessionTicket. TN_R5: a ticket over 16,374 bytes. */
int32_t tn_write_new_session_ticket(uint32_t lifetime_hint, const uint8_t *ticket, size_t ticket_len, uint8_t *out, size_t out_len);

/* One extension, to be put in a block: type and data with a 2-byte length. TN_R5: a type or a length over 65,535. */
int32_t tn_write_extension(uint32_t kind, const uint8_t *contents, size_t contents_len, uint8_t *out, size_t out_len);

/* A SessionTicket extension, type 35 (RFC 5077 section 3.2): its data is the ticket itself, and an empty ticket gives `00 23 00 00`. TN_R5: a ticket over
 * 65,535 bytes. */
int32_t tn_write_ticket_extension(const uint8_t *ticket, size_t ticket_len, uint8_t *out, size_t out_len);

/* ==== Messages: reading ====================================================================================================================== */

/*
 * Each says where the fields of one whole message stand. 0: all of `fields` was written. Alert 50: the layout is wrong, or it is another message's type;
 * `fields` stays as it was. A start counts from the first byte of what was handed over; nothing is copied.
 */

/*
 * ClientHello: fields[0] version, [1] length of the session id (it stands at 39), [2] and [3] start and length of the suites, [4] and [5] of the compression
 * methods, [6] whether there is an extension block (0 or 1), [7] and [8] start and length of what is in it (0 and 0 without one). The random stands at 6.
 */
int32_t tn_read_client_hello(const uint8_t *message, size_t message_len, uint32_t fields[9]);

/* ServerHello: fields[0] version, [1] length of the session id, [2] suite, [3] compression, [4] whether there is a block, [5] and [6] its start and length. */
int32_t tn_read_server_hello(const uint8_t *message, size_t message_len, uint32_t fields[7]);

/* ServerKeyExchange and ClientKeyExchange: start and length of hint and identity. Finished: of the verify_data. */
int32_t tn_read_server_key_exchange(const uint8_t *message, size_t message_len, uint32_t fields[2]);
int32_t tn_read_client_key_exchange(const uint8_t *message, size_t message_len, uint32_t fields[2]);
int32_t tn_read_finished(const uint8_t *message, size_t message_len, uint32_t fields[2]);

/* ServerHelloDone, which has no fields. */
int32_t tn_read_server_hello_done(const uint8_t *message, size_t message_len);

/* NewSessionTicket: lifetime hint, start and length of the ticket. */
int32_t tn_read_new_session_ticket(const uint8_t *message, size_t message_len, uint32_t fields[3]);

/*
 * The extension that starts at `at` of a block: alert 50 where the block has over 65,535 bytes, wherever `at` is; else 1 and fields[0] its type, [1] and [2]
 * start and length of its data; 0 at the block's end or past it; alert 50 where the extension is cut short. Without a 1 `fields` stays as it was. To go
 * through a block begin at 0, and go on at fields[1] + fields[2]. The data of a SessionTicket extension, type 35, is the ticket itself.
 */
int32_t tn_next_extension(const uint8_t *block, size_t block_len, size_t at, uint32_t fields[3]);

/* ==== Records: layout and protection ========================================================================================================= */

/*
 * What the record connections are made of, for a host that wants it alone. None of it knows a connection or counts records: the caller gives the number.
 * A record (RFC 5246 section 6.2.1) is a type, a version of 2 bytes, a length of 2 bytes and a fragment of so many. The fragment is the content, and
 * under TN_SUITE_PSK_NULL_SHA256 (section 6.2.3.1) behind it HMAC-SHA-256, with the direction's MAC key, of the record's number in 8 bytes, type, version,
 * the content's own length in 2 bytes, and the content.
 */

/*
 * The header of a whole record whose protection may add so many bytes to TN_RECORD_CONTENT_LIMIT: 0 without, TN_RECORD_MAC_SIZE with 0x00B0, more with another.
 * The version is not judged.
 *
 *   0          fields[0] the type, [1] the version, [2] the fragment's length; the fragment stands at TN_RECORD_HEADER_SIZE
 *   an alert   50 not one whole record, 10 a type that is none of TN_TYPE_.., 22 a longer fragment, in this order; `fields` as it was
 */
int32_t tn_read_record(const uint8_t *received, size_t received_len, size_t added, uint32_t fields[3]);

/*
 * A record with this content at the front of `out`, with the version 0x0303: its length, 5 more than the content's, and with a MAC 37 more. Each tests TN_R5
 * first, a type that is none of TN_TYPE_.. or over TN_RECORD_CONTENT_LIMIT bytes, and then TN_R1, `out` is shorter. Refused, `out` stays as it was.
 *
 *   tn_write_record   without protection
 *   tn_seal_record    with a MAC under this key and number
 */
int32_t tn_write_record(uint8_t kind, const uint8_t *content, size_t content_len, uint8_t *out, size_t out_len);
int32_t tn_seal_record(const uint8_t key[TN_RECORD_MAC_SIZE], uint64_t sequence, uint8_t kind, const uint8_t *content, size_t content_len, uint8_t *out,
                       size_t out_len);

/*
 * Whether a record came unchanged under this key and number.
 *
 *   a count    so many bytes from TN_RECORD_HEADER_SIZE on are content; the type is the record's first byte
 *   an alert   50, 10 and 22 as from tn_read_record with TN_RECORD_MAC_SIZE, then 20 a wrong MAC, or fewer than 32 bytes of fragment
 */
int32_t tn_open_record(const uint8_t key[TN_RECORD_MAC_SIZE], uint64_t sequence, const uint8_t *received, size_t received_len);

/* Where a handshake message with this header ends, counted from the header's first byte: 4 and the length that it states. 4 to 2^24 + 3. */
int32_t tn_message_end(const uint8_t header[4]);

/* ==== The key table ========================================================================================================================== */

/*
 * The text of a psk.passwd file: lines `identity:key`, each ended by one byte 0A, the last one too. An identity has 1 to 128 bytes of UTF-8 without control
 * characters and colons; a key has 1 to 64 bytes as pairs of hex digits. At most TN_TABLE_LINES lines and TN_TABLE_LIMIT bytes; no identity twice. No bytes
 * at all are a table without gates.
 *
 * THE LIST. Beside its table a host keeps the list of its lines' starts: where each line starts, counted in bytes from the table's first one, in order, and
 * how many lines there are. With it a lookup goes straight to each line, without searching for the end of the one before. `a:00` 0A `gate7:abcd` 0A has the
 * list 0, 5 and the count 2; a table without gates has the count 0. The list is the first `count` numbers of the memory that is lent for it, and what stands
 * behind them does not matter.
 *
 *   a table is read      tn_table_list makes its list, and tests the table: TN_TABLE_LINES numbers are always enough
 *   it is edited         tn_table_add, tn_table_replace and tn_table_retire keep the list true
 *   gates log in         tn_message and tn_take_record are given both, and test both
 *
 * A list that is not exactly the table's, in its numbers or their count, is TN_R10 there and at an edit, directly behind TN_R2. Making it again mends that.
 */

/* 0 where the table is well formed, else TN_R2. */
int32_t tn_table_test(const uint8_t *table, size_t table_len);

/*
 * Makes the table's list.
 *
 *   a count    the table's lines; so many numbers were written at the front of `starts`, and the rest of it is as it was
 *   TN_R2      the table is not well formed
 *   TN_R1      `starts` has room for fewer numbers than the table has lines
 *
 * The tests stand in this order. Refused, `starts` stays as it was.
 */
int32_t tn_table_list(const uint8_t *table, size_t table_len, uint32_t *starts, size_t starts_len);

/* The identity's key at the front of `out`, and its length, 1 to 64. TN_R10: `count` is past starts_len. Alert 115: not listed. TN_R1: `out` is shorter than
 * the key. The tests stand in this order.
 * Neither table nor list is tested further. Any numbers may be given: of the first `count`, in their order, the first one decides at which the identity and a
 * colon stand, without a byte 0A. The key's digits go from there to the next 0A, or to the table's end; where they are no valid key the answer is 115,
 * whatever stands at later numbers. At a number past the table stands nothing. */
int32_t tn_table_lookup(const uint8_t *table, size_t table_len, const uint32_t *starts, size_t starts_len, size_t count, const uint8_t *identity,
                        size_t identity_len, uint8_t *out, size_t out_len);

/*
 * Edits of a table and its list where they stand: the table's bytes are the first `length` of the lent `memory`, the list's numbers the first `*count` of
 * the lent `starts`. Each gives the length of the edited table, which stands at the front of the memory then; the bytes behind it are as they were, whatever
 * they hold. Every other line keeps its bytes and its place in the order. `starts` and `*count` are then the edited table's list, and the numbers behind it
 * are as they were: after a retire that is the old last one.
 *
 *   tn_table_add       adds the line of the identity and the key, as the last one
 *   tn_table_replace   gives the identity that key, in its line's place
 *   tn_table_retire    takes the identity's line out
 *
 * A key is handed over as its bytes, 1 to TN_PSK_LIMIT, and stands in the table in lower-case hex.
 *
 * A SHORTER TABLE LEAVES KEYS BEHIND IT. After a retire, or a replace by a shorter key, the bytes between the new end and the old one still hold what stood
 * there: the end of the old table, keys among it. Clear them before the memory goes to anybody else, and write no more than the new length to a file.
 *
 * Order of the tests:
 *
 *   TN_R2    the first `length` bytes are no well-formed table (a last line without its 0A too), or `length` is past memory_len
 *   TN_R10   the first `*count` numbers are not exactly that table's list, or `*count` is past starts_len
 *   TN_R5    an identity that no table may have, listed or not; a key of no bytes or over TN_PSK_LIMIT
 *   TN_R6    add: the identity is listed already
 *   TN_R7    replace, retire: the identity is not listed
 *   TN_R8    the edited table would have more than TN_TABLE_LINES lines or TN_TABLE_LIMIT bytes
 *   TN_R1    the memory is shorter than the edited table, or `starts` has room for fewer numbers than it has lines
 *
 * TN_TABLE_LIMIT bytes and TN_TABLE_LINES numbers are always enough. An added line takes identity_len + 2 * key_len + 2 bytes and a number.
 */
int32_t tn_table_add(uint8_t *memory, size_t memory_len, size_t length, uint32_t *starts, size_t starts_len, size_t *count, const uint8_t *identity,
                     size_t identity_len, const uint8_t *key, size_t key_len);
int32_t tn_table_replace(uint8_t *memory, size_t memory_len, size_t length, uint32_t *starts, size_t starts_len, size_t *count, const uint8_t *identity,
                         size_t identity_len, const uint8_t *key, size_t key_len);
int32_t tn_table_retire(uint8_t *memory, size_t memory_len, size_t length, uint32_t *starts, size_t starts_len, size_t *count, const uint8_t *identity,
                        size_t identity_len);

/* 1 where the bytes are valid UTF-8 (RFC 3629), else 0. */
int32_t tn_valid_utf8(const uint8_t *bytes, size_t bytes_len);

/* ==== Clearing the stack ===================================================================================================================== */

/*
 * The library leaves in lent memory what is said at each call, and clears nothing else. What a call has computed with stays on the stack below its caller's
 * frame until later calls overwrite it: the pre-shared key, the premaster and the master secret after tn_message or tn_client_message, and so on for every
 * call that is given a connection, a table, a key or a secret. Not a byte of it is on the heap or in global memory.
 *
 * A host that wants no key to outlive its use clears that part of the stack by tn_clear_stack(TN_STACK_LIMIT) after such a call, in the function that made
 * the call or in one above it, with more depth for the frames between; and clears its own copies. gateway/wipe.c and gateway/connection.c show it.
 *
 * Both limits are measured, not proved (`make bench`, bench/frames). TN_STACK_LIMIT is for all calls but one: the deepest of them, tn_client_message
 * with a ServerHelloDone, reaches less than 13,000 bytes below its caller. TN_RECORD_STACK_LIMIT is for tn_take_record, which has room on the stack to join a
 * message that came in several records, and reaches less than 41,000; on a closed connection, too, it touches most of that.
 */
#define TN_STACK_LIMIT 16384
#define TN_RECORD_STACK_LIMIT 49152

/* Registers may hold a part of a key too, and a later call may put them on the stack, as the dynamic linker does at the first call of a function. */
#ifdef __has_attribute
#if __has_attribute(zero_call_used_regs) /* GCC from 11 on, clang from 15 on */
#define TN_CLEARS_REGISTERS __attribute__((zero_call_used_regs("all")))
#endif
#endif
#ifndef TN_CLEARS_REGISTERS
#define TN_CLEARS_REGISTERS
#endif

/* The wide registers, in which memcpy copies and of which the attribute above clears the low halves of the first sixteen alone. Only from a function that is
 * not inlined: a call may change them all. */
static inline __attribute__((unused, always_inline)) void tn_clear_wide_registers(void)
{
#ifdef __x86_64__
#define TN_CLEAR_ZMM(n) "vpxord %zmm" #n ", %zmm" #n ", %zmm" #n "\n\t"
    if (__builtin_cpu_supports("avx"))
        __asm__ __volatile__("vzeroall");
    if (__builtin_cpu_supports("avx512f"))
        __asm__ __volatile__(TN_CLEAR_ZMM(16) TN_CLEAR_ZMM(17) TN_CLEAR_ZMM(18) TN_CLEAR_ZMM(19) TN_CLEAR_ZMM(20) TN_CLEAR_ZMM(21) TN_CLEAR_ZMM(22) TN_CLEAR_ZMM(23)
            TN_CLEAR_ZMM(24) TN_CLEAR_ZMM(25) TN_CLEAR_ZMM(26) TN_CLEAR_ZMM(27) TN_CLEAR_ZMM(28) TN_CLEAR_ZMM(29) TN_CLEAR_ZMM(30) TN_CLEAR_ZMM(31));
#undef TN_CLEAR_ZMM
#endif
}

/* Overwrites so many bytes of the stack below the caller's frame and, where compiler and machine let it, the registers that a call may change. The bytes must
 * be there: a thread's stack may be small. */
static __attribute__((noinline, unused)) TN_CLEARS_REGISTERS void tn_clear_stack(size_t depth)
{
    void *space = __builtin_alloca(depth);
    __builtin_memset(space, 0, depth);
    __asm__ __volatile__("" : : "r"(space) : "memory"); /* the bytes count as read, so that the compiler keeps the line above */
    tn_clear_wide_registers();
}

#ifdef __cplusplus
}
#endif

#endif
