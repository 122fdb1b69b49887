/* Sessions under PSK-NULL-SHA256. */
#include "session.h"

#include <string.h>

#include "measure.h"
#include "peers.h"
#include "records.h"

enum { EXTENSIONS = 48 /* bytes of the hello's block: a hello of 95 bytes, as common clients send */, COMPLETED = 59 /* the last answer */ };
enum { CHANGE_RECORD = TN_RECORD_HEADER_SIZE + 1, SEALED_FINISHED = TN_RECORD_HEADER_SIZE + TN_FINISHED_SIZE + TN_RECORD_MAC_SIZE };
enum { ALERTED = TN_PHASE_COMPLETE + 1, HOLDING, STATES }; /* behind the phases: closed by an alert, and with a part of a hello in the memory */

struct record {
    uint8_t bytes[RECORD_LIMIT];
    size_t size;
};

static const uint8_t zeros[TN_STAND_IN_SIZE];
static uint8_t content[TN_RECORD_CONTENT_LIMIT];

/* The server's */
static uint8_t connection[TN_RECORD_CONNECTION_SIZE], memory[TN_RECORD_MEMORY], out[TN_RECORD_LIMIT], master[TN_MASTER_SIZE];
static uint32_t told[4];
static uint64_t blocks;
static uint8_t saved[STATES][TN_RECORD_CONNECTION_SIZE]; /* the connection in each state */

/* The client's */
static struct login login, large; /* the second has a hello of 16 KiB, which comes in two records */
static struct protection unprotected, writing, reading;
static struct record hello, key_exchange, change, finished, data, bad, first, rest;

static void put(struct record *r, struct protection *p, enum record_type type, const uint8_t *bytes, size_t n)
{
    r->size = record_seal(p, type, bytes, n, r->bytes, sizeof r->bytes);
    must(r->size > 0, "a record can't be made");
}

static int32_t take(const struct record *r)
{
    const struct gates *g = &peer_gates;
    return tn_take_record(connection, g->text, g->size, g->starts, TN_TABLE_LINES, g->count, r->bytes, r->size, memory, sizeof memory, out, TN_RECORD_ANSWER,
                          master, told, &blocks);
}

/* ---- a login */

static int start(const uint8_t random[TN_RANDOM_SIZE])
{
    return tn_record_start(connection, random, TN_RANDOM_SIZE, zeros, 0, zeros, sizeof zeros, TN_RULE_TELL) == 0;
}

static int records_open(struct login *l)
{
    int32_t n = start(l->random) ? take(&hello) : 0;
    l->flight_len = n > 0 ? (size_t)n : 0;
    return n > 0;
}

/* The client's Finished and its record. */
static int finish(struct login *l)
{
    uint8_t secret[TN_MASTER_SIZE], keys[TN_KEY_BLOCK_LIMIT];
    login_finish(l, peer_key, PEER_KEY_SIZE);
    (void)login_master(l, peer_key, PEER_KEY_SIZE, secret);
    int32_t n = tn_key_block(secret, sizeof secret, l->random, sizeof l->random, l->hello + TN_HELLO_RANDOM_AT, TN_RANDOM_SIZE, l->suite, keys, sizeof keys);
    must(n > 0 && protection_cut(suite_of(l->suite), keys, (size_t)n, &writing, &reading), "no keys");
    put(&finished, &writing, RECORD_HANDSHAKE, l->finished, sizeof l->finished);
    return 1;
}

/* The same, where the server's flight came in records. */
static int records_finish(struct login *l)
{
    size_t size = l->flight_len, at = 0;
    l->flight_len = 0;
    while (at < size) {
        size_t n = (size_t)out[at + 3] << 8 | out[at + 4];
        memcpy(l->flight + l->flight_len, out + at + TN_RECORD_HEADER_SIZE, n);
        l->flight_len += n;
        at += TN_RECORD_HEADER_SIZE + n;
    }
    return finish(l);
}

static int records_close(struct login *l)
{
    (void)l;
    return take(&key_exchange) == 0 && take(&change) == 0 && take(&finished) == COMPLETED;
}

static int records_agree(struct login *l)
{
    size_t at, n;
    if (record_open(&reading, out + CHANGE_RECORD, SEALED_FINISHED, &at, &n) != RECORD_OPENED || n != sizeof l->finished)
        return 0;
    memcpy(l->answer, out + CHANGE_RECORD + at, n);
    memcpy(l->master, master, sizeof master);
    l->blocks = blocks;
    return login_agrees(l, peer_key, PEER_KEY_SIZE);
}

static int messages_close(struct login *l)
{
    return login_close(l) && tn_open_record(l->keys, 0, finished.bytes, finished.size) == TN_FINISHED_SIZE
           && tn_seal_record(l->keys + TN_RECORD_MAC_SIZE, 0, RECORD_HANDSHAKE, l->answer, TN_FINISHED_SIZE, out, sizeof out) == SEALED_FINISHED;
}

static int libcrypto_close(struct login *l)
{
    struct protection client, server;
    size_t at, n;
    return login_close(l) && protection_cut(suite_of(l->suite), l->keys, 2 * TN_RECORD_MAC_SIZE, &client, &server)
           && record_open(&client, finished.bytes, finished.size, &at, &n) == RECORD_OPENED
           && record_seal(&server, RECORD_HANDSHAKE, l->answer, TN_FINISHED_SIZE, out, sizeof out) == SEALED_FINISHED;
}

const struct course session_by_records = {{login_hello_set, records_open, records_finish, records_close, records_agree}};
const struct course session_by_messages = {{login_hello_set, ours_open, finish, messages_close, ours_agrees}};
const struct course session_by_libcrypto = {{login_hello_set, ours_open, finish, libcrypto_close, ours_agrees}};

/* ---- every call by itself */

static void ready(int state)
{
    memcpy(connection, saved[state], sizeof connection);
}

static int32_t call_start(void)
{
    return start(login.random) - 1;
}

static int32_t call_hello(void)
{
    return take(&hello);
}

static int32_t call_key_exchange(void)
{
    return take(&key_exchange);
}

static int32_t call_change(void)
{
    return take(&change);
}

static int32_t call_finished(void)
{
    return take(&finished);
}

static int32_t call_take_data(void)
{
    return take(&data);
}

static int32_t call_take_bad(void)
{
    return take(&bad) == TN_ALERT_RESULT(TN_ALERT_BAD_RECORD_MAC) ? 0 : -1;
}

static int32_t call_take_rest(void)
{
    return take(&rest);
}

static int32_t call_send_data(void)
{
    return tn_send_data(connection, content, sizeof content, out, sizeof out);
}

static int32_t call_send_close(void)
{
    return tn_send_close(connection, out, sizeof out);
}

static int32_t call_closing_alert(void)
{
    return tn_closing_alert(connection, out, sizeof out) - TN_CLOSING_ALERT_SIZE;
}

static int32_t call_phase(void)
{
    return tn_record_phase(connection) - TN_PHASE_COMPLETE;
}

static int32_t call_seal(void)
{
    return tn_seal_record(writing.mac_key, 0, RECORD_APPLICATION_DATA, content, sizeof content, out, sizeof out);
}

static int32_t call_open(void)
{
    return tn_open_record(writing.mac_key, 1, data.bytes, data.size);
}

static int32_t call_write(void)
{
    return tn_write_record(RECORD_APPLICATION_DATA, content, sizeof content, out, sizeof out);
}

static int32_t call_read(void)
{
    uint32_t fields[3];
    return tn_read_record(data.bytes, data.size, TN_RECORD_MAC_SIZE, fields);
}

static int32_t call_message_end(void)
{
    return tn_message_end(login.hello);
}

struct part session_parts[SESSION_PARTS] = {
    [SESSION_START] = {"tn_record_start", call_start, TN_PHASE_CLOSED, ready},
    [SESSION_HELLO] = {"tn_take_record, ClientHello", call_hello, TN_PHASE_CLIENT_HELLO, ready},
    [SESSION_KEY_EXCHANGE] = {"tn_take_record, ClientKeyExchange", call_key_exchange, TN_PHASE_CLIENT_KEY_EXCHANGE, ready},
    [SESSION_CHANGE] = {"tn_take_record, change of cipher", call_change, TN_PHASE_CHANGE_OF_CIPHER, ready},
    [SESSION_FINISHED] = {"tn_take_record, Finished", call_finished, TN_PHASE_FINISHED, ready},
    [SESSION_TAKE_DATA] = {"tn_take_record, application data", call_take_data, TN_PHASE_COMPLETE, ready},
    [SESSION_TAKE_BAD] = {"tn_take_record, a wrong MAC", call_take_bad, TN_PHASE_COMPLETE, ready},
    [SESSION_TAKE_REST] = {"tn_take_record, last byte of a ClientHello", call_take_rest, HOLDING, ready},
    [SESSION_SEND_DATA] = {"tn_send_data", call_send_data, TN_PHASE_COMPLETE, ready},
    [SESSION_SEND_CLOSE] = {"tn_send_close", call_send_close, TN_PHASE_COMPLETE, ready},
    [SESSION_CLOSING_ALERT] = {"tn_closing_alert", call_closing_alert, ALERTED, ready},
    [SESSION_PHASE] = {"tn_record_phase", call_phase, TN_PHASE_COMPLETE, ready},
    [SESSION_SEAL] = {"tn_seal_record", call_seal, TN_PHASE_CLOSED, ready},
    [SESSION_OPEN] = {"tn_open_record", call_open, TN_PHASE_CLOSED, ready},
    [SESSION_WRITE] = {"tn_write_record", call_write, TN_PHASE_CLOSED, ready},
    [SESSION_READ] = {"tn_read_record", call_read, TN_PHASE_CLOSED, ready},
    [SESSION_MESSAGE_END] = {"tn_message_end", call_message_end, TN_PHASE_CLOSED, ready},
};

/* ---- */

static void make_messages(void)
{
    static const uint8_t one = 1;
    login_plain_hello(&login, TN_SUITE_PSK_NULL_SHA256, EXTENSIONS, 1);
    login_plain_hello(&large, TN_SUITE_PSK_NULL_SHA256, TN_MESSAGE_LIMIT - EXTENSIONS, 1);
    login_name(&login, PEER_IDENTITY, &peer_gates);
    put(&hello, &unprotected, RECORD_HANDSHAKE, login.hello, login.hello_len);
    put(&key_exchange, &unprotected, RECORD_HANDSHAKE, login.key_exchange, login.key_exchange_len);
    put(&change, &unprotected, RECORD_CHANGE_CIPHER_SPEC, &one, 1);
    put(&first, &unprotected, RECORD_HANDSHAKE, large.hello, large.hello_len - 1);
    put(&rest, &unprotected, RECORD_HANDSHAKE, large.hello + large.hello_len - 1, 1);
}

/* Makes the part's call and keeps the connection that comes of it. */
static void reach(enum session_part part, int state)
{
    must(session_parts[part].call() >= 0, "a call on records fails");
    memcpy(saved[state], connection, sizeof connection);
}

struct login *session_prepare(void)
{
    must(records_start(), "no cryptography");
    for (size_t i = 0; i < sizeof content; i++)
        content[i] = (uint8_t)(i * 7 + i / 256);
    make_messages();
    (void)login_sample(&login, &session_by_records, TN_SIDE_SERVER);
    put(&data, &writing, RECORD_APPLICATION_DATA, content, sizeof content);
    bad = data;
    bad.bytes[bad.size - 1] ^= 1;
    for (int part = SESSION_START; part <= SESSION_FINISHED; part++)
        reach((enum session_part)part, part + 1);
    reach(SESSION_TAKE_BAD, ALERTED);
    must(start(login.random) && take(&first) == 0, "a part of a hello is refused");
    memcpy(saved[HOLDING], connection, sizeof connection);
    return &login;
}

const uint8_t *session_mac(void)
{
    return data.bytes + data.size - TN_RECORD_MAC_SIZE;
}

const uint8_t *session_key(void)
{
    return writing.mac_key;
}

void session_mac_input(uint8_t bytes[SESSION_MAC_INPUT])
{
    const uint8_t front[] = {0, 0, 0, 0, 0, 0, 0, 1, RECORD_APPLICATION_DATA, 3, 3, TN_RECORD_CONTENT_LIMIT >> 8, TN_RECORD_CONTENT_LIMIT & 0xff};
    memcpy(bytes, front, sizeof front);
    memcpy(bytes + sizeof front, content, sizeof content);
}
