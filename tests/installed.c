/*
 * A first program over the installed library, valid as C and as C++: document 01's worked bytes (V1 to V12) through the C interface, edits of its key
 * table and the list beside it, a session on a record connection, a gate's login to the library's own server, how many blocks a master secret takes, and the
 * way that the three kinds of results are told apart. Run by tests/installed.
 */
#include <stdio.h>
#include <stdlib.h>
#include <string.h>
#include <turretnail.h>

static int failures;

static void expect(const char *name, bool holds)
{
    if (holds)
        return;
    failures++;
    fprintf(stderr, "tests/installed.c: %s\n", name);
}

static const uint8_t *bytes(const char *text)
{
    return (const uint8_t *)text;
}

/* Whether n bytes were written, those of the text, and the byte behind them is as it was. */
static bool wrote(int32_t result, const uint8_t *out, const char *text, size_t n)
{
    return result == (int32_t)n && memcmp(out, text, n) == 0 && out[n] == 0xEE;
}

static void secrets(void)
{
    uint8_t out[224];
    memset(out, 0xEE, sizeof out);
    expect("V1", wrote(tn_premaster(bytes("\xAB\xCD"), 2, out, sizeof out), out, "\x00\x02\x00\x00\x00\x02\xAB\xCD", 8));
    memset(out, 0xEE, sizeof out);
    expect("V2", tn_premaster(out, 1, out + 80, 6) == 6 && tn_premaster(out, 64, out + 80, 132) == 132 && tn_premaster(out, 0, out + 80, 144) == TN_R5
                     && tn_premaster(out, 65, out + 80, 144) == TN_R5);
    expect("R1", tn_premaster(out, 1, out + 80, 5) == TN_R1);
    memset(out, 0xEE, sizeof out);
    expect("SHA-256 of abc",
           wrote(tn_sha256(bytes("abc"), 3, out, sizeof out), out,
                 "\xBA\x78\x16\xBF\x8F\x01\xCF\xEA\x41\x41\x40\xDE\x5D\xAE\x22\x23\xB0\x03\x61\xA3\x96\x17\x7A\x9C\xB4\x10\xFF\x61\xF2\x00\x15\xAD", 32));
    expect("key block lengths", tn_key_block_length(TN_SUITE_PSK_AES_128_CBC_SHA256) == 96 && tn_key_block_length(TN_SUITE_PSK_AES_128_CBC_SHA) == 72
                                    && tn_key_block_length(TN_SUITE_PSK_NULL_SHA256) == 64 && tn_key_block_length(0x00AF) == 0);
}

/* How many blocks a master secret takes from a key of so many bytes: the header's table. */
static uint64_t blocks_of(size_t key_len)
{
    uint8_t key[TN_PSK_LIMIT] = {1}, premaster[TN_PREMASTER_LIMIT], random[TN_RANDOM_SIZE] = {1}, master[TN_MASTER_SIZE];
    uint64_t blocks = 7;
    size_t n = (size_t)tn_premaster(key, key_len, premaster, sizeof premaster);
    expect("no room, no blocks", tn_master(premaster, n, random, 32, random, 32, master, TN_MASTER_SIZE - 1, &blocks) == TN_R1 && blocks == 7);
    expect("a master secret", tn_master(premaster, n, random, 32, random, 32, master, sizeof master, &blocks) == TN_MASTER_SIZE);
    return blocks;
}

static void block_counts(void)
{
    expect("19 blocks", blocks_of(1) == 19 && blocks_of(30) == 19);
    expect("27 blocks", blocks_of(31) == 27 && blocks_of(57) == 27);
    expect("31 blocks", blocks_of(58) == 31 && blocks_of(TN_PSK_LIMIT) == 31);
}

static void messages(void)
{
    uint8_t out[64];
    uint32_t fields[2] = {7, 7};
    memset(out, 0xEE, sizeof out);
    expect("V3", wrote(tn_write_client_key_exchange(bytes("gate7"), 5, out, sizeof out), out, "\x10\x00\x00\x07\x00\x05gate7", 11));
    expect("reading V3", tn_read_client_key_exchange(out, 11, fields) == 0 && fields[0] == 6 && fields[1] == 5);
    memset(out, 0xEE, sizeof out);
    expect("V4", wrote(tn_write_client_key_exchange(bytes(""), 0, out, sizeof out), out, "\x10\x00\x00\x02\x00\x00", 6));
    expect("reading V4", tn_read_client_key_exchange(out, 6, fields) == 0 && fields[0] == 6 && fields[1] == 0);
    int32_t result = tn_read_client_key_exchange(out, 5, fields);
    expect("alert 50", tn_is_alert(result) && !tn_is_host_refusal(result) && !tn_is_count(result) && tn_alert_number(result) == TN_ALERT_DECODE_ERROR);
    expect("alert 50 writes nothing", fields[0] == 6 && fields[1] == 0);
    memset(out, 0xEE, sizeof out);
    expect("V5", wrote(tn_write_server_key_exchange(bytes("barn"), 4, out, sizeof out), out, "\x0C\x00\x00\x06\x00\x04" "barn", 10));
    memset(out, 0xEE, sizeof out);
    expect("V6", wrote(tn_write_server_hello_done(out, sizeof out), out, "\x0E\x00\x00\x00", 4));
    memset(out, 0xEE, sizeof out);
    expect("V8", wrote(tn_write_new_session_ticket(3600, bytes("\xAA\xBB"), 2, out, sizeof out), out, "\x04\x00\x00\x08\x00\x00\x0E\x10\x00\x02\xAA\xBB", 12));
}

/* The list of V9's table: one line, which starts at 0. */
static const uint32_t first[1] = {0};

static void table(void)
{
    uint8_t out[8];
    const uint8_t *text = bytes("gate7:abcd\n");
    const int32_t unlisted = TN_ALERT_RESULT(TN_ALERT_UNKNOWN_PSK_IDENTITY);
    memset(out, 0xEE, sizeof out);
    expect("V9", tn_table_test(text, 11) == 0 && wrote(tn_table_lookup(text, 11, first, 1, 1, bytes("gate7"), 5, out, sizeof out), out, "\xAB\xCD", 2));
    expect("V9, not listed", tn_table_lookup(text, 11, first, 1, 1, bytes("gate"), 4, out, sizeof out) == unlisted
                                 && tn_table_lookup(text, 11, first, 1, 1, bytes("gate71"), 6, out, sizeof out) == unlisted);
    expect("V10", tn_table_test(text, 10) == TN_R2 && tn_table_test(bytes("gate7:abc\n"), 10) == TN_R2);
    expect("V11", tn_valid_utf8(bytes("\xC0\x80"), 2) == 0 && tn_valid_utf8(bytes("\xED\xA0\x80"), 3) == 0 && tn_valid_utf8(bytes("\xF4\x90\x80\x80"), 4) == 0
                      && tn_valid_utf8(bytes("\xF4\x8F\xBF\xBF"), 4) == 1);
}

/* The header's example of a list, and lookups by it. */
static void list(void)
{
    uint8_t out[8];
    uint32_t starts[3] = {7, 7, 7};
    const uint8_t *text = bytes("a:00\ngate7:abcd\n"), *name = bytes("gate7");
    memset(out, 0xEE, sizeof out);
    expect("a list, R2", tn_table_list(text, 15, starts, 0) == TN_R2);
    expect("a list, R1", tn_table_list(text, 16, starts, 1) == TN_R1 && starts[0] == 7);
    expect("a list", tn_table_list(text, 16, starts, 3) == 2 && starts[0] == 0 && starts[1] == 5 && starts[2] == 7);
    expect("the list of no lines", tn_table_list(text, 0, starts, 0) == 0);
    expect("lookup, R10", tn_table_lookup(text, 16, starts, 3, 4, name, 5, out, sizeof out) == TN_R10 && out[0] == 0xEE);
    expect("lookup by one start", tn_table_lookup(text, 16, starts, 3, 1, name, 5, out, sizeof out) == TN_ALERT_RESULT(TN_ALERT_UNKNOWN_PSK_IDENTITY));
    expect("lookup, R1", tn_table_lookup(text, 16, starts, 3, 2, name, 5, out, 1) == TN_R1);
    expect("lookup by both", wrote(tn_table_lookup(text, 16, starts, 3, 2, name, 5, out, sizeof out), out, "\xAB\xCD", 2));
}

/* V9's table, and a list of it in memory for two numbers. */
struct edited {
    uint8_t memory[32];
    uint32_t starts[2];
    size_t count;
};

static int32_t add_gate8(struct edited *e, size_t memory_len, size_t length, size_t starts_len)
{
    return tn_table_add(e->memory, memory_len, length, e->starts, starts_len, &e->count, bytes("gate8"), 5, bytes("\xAB\xCD"), 2);
}

static int32_t replace(struct edited *e, size_t length, const char *name, const char *key, size_t key_len)
{
    return tn_table_replace(e->memory, sizeof e->memory, length, e->starts, 2, &e->count, bytes(name), 5, bytes(key), key_len);
}

static int32_t retire(struct edited *e, size_t length, const char *name)
{
    return tn_table_retire(e->memory, sizeof e->memory, length, e->starts, 2, &e->count, bytes(name), 5);
}

static bool listed(const struct edited *e, size_t count, uint32_t one, uint32_t two)
{
    return e->count == count && e->starts[0] == one && e->starts[1] == two;
}

/* V9's table with a second gate and without it again. */
static void edits(void)
{
    struct edited e;
    memset(&e, 0xEE, sizeof e);
    memcpy(e.memory, "gate7:abcd\n", 11);
    e.starts[0] = 0;
    e.starts[1] = 99;
    e.count = 1;
    expect("add, R1", add_gate8(&e, 21, 11, 2) == TN_R1 && add_gate8(&e, sizeof e.memory, 11, 1) == TN_R1 && listed(&e, 1, 0, 99));
    expect("add", wrote(add_gate8(&e, sizeof e.memory, 11, 2), e.memory, "gate7:abcd\ngate8:abcd\n", 22) && listed(&e, 2, 0, 11));
    expect("add, R6", add_gate8(&e, sizeof e.memory, 22, 2) == TN_R6);
    expect("replace", wrote(replace(&e, 22, "gate7", "\x0A\x1B\x2C", 3), e.memory, "gate7:0a1b2c\ngate8:abcd\n", 24) && listed(&e, 2, 0, 13));
    expect("replace, R7", replace(&e, 24, "gate9", "\xAB\xCD", 2) == TN_R7);
    expect("the table again", replace(&e, 24, "gate7", "\xAB\xCD", 2) == 22 && listed(&e, 2, 0, 11) && retire(&e, 22, "gate8") == 11);
    expect("what stays behind it", memcmp(e.memory, "gate7:abcd\ngate8:abcd\nd\n", 24) == 0 && e.memory[24] == 0xEE && listed(&e, 1, 0, 11));
    expect("retire, R2", retire(&e, 10, "gate7") == TN_R2);
    expect("retire, R5", retire(&e, 11, "gate:") == TN_R5);
    e.starts[0] = 1;
    expect("retire, R10", retire(&e, 11, "gate:") == TN_R10 && tn_is_host_refusal(TN_R10) && !tn_is_alert(TN_R10));
}

/* V7 and V12: the smallest ClientHello of a version, and the server's answer to it. */
static int32_t hello(uint32_t version, uint8_t *answer)
{
    uint8_t connection[TN_CONNECTION_SIZE], message[45], master[TN_MASTER_SIZE], random[TN_RANDOM_SIZE] = {1};
    uint64_t blocks = 7;
    int32_t n = tn_write_client_hello(version, random, sizeof random, random, 0, bytes("\x00\xB0"), 2, bytes("\x00"), 1, false, random, 0, message,
                                      sizeof message);
    expect("V7", n == 45 && memcmp(message, "\x01\x00\x00\x29", 4) == 0);
    expect("start", tn_start(connection, random, sizeof random, random, 0, random, sizeof random, TN_RULE_NONE) == 0);
    expect("phase 1", tn_phase(connection) == TN_PHASE_CLIENT_HELLO);
    expect("no suite yet", tn_suite(connection) == 0);
    expect("another rule is R3", tn_start(connection, random, sizeof random, random, 0, random, sizeof random, 3) == TN_R3);
    int32_t result = tn_message(connection, bytes(""), 0, first, 0, 0, message, sizeof message, answer, TN_FLIGHT_SIZE, master, &blocks);
    expect("no blocks of a hello", blocks == 7);
    expect("phase 2 or closed", tn_phase(connection) == (tn_is_count(result) ? TN_PHASE_CLIENT_KEY_EXCHANGE : TN_PHASE_CLOSED));
    expect("the suite told", tn_suite(connection) == (tn_is_count(result) ? TN_SUITE_PSK_NULL_SHA256 : 0));
    expect("a change of cipher here", tn_change_of_cipher(connection) == (tn_is_count(result) ? TN_ALERT_RESULT(TN_ALERT_UNEXPECTED_MESSAGE) : TN_R4));
    expect("an alert to what is closed", tn_alert(connection, 2, 40) == TN_R4);
    return result;
}

/* The suite is read from exactly the first message of the answer, whose length is in its header. */
static bool suite_is_found(const uint8_t *answer, size_t n)
{
    uint32_t fields[7];
    size_t first = 4 + ((size_t)answer[1] << 16 | (size_t)answer[2] << 8 | answer[3]);
    return first < n && tn_read_server_hello(answer, n, fields) == TN_ALERT_RESULT(TN_ALERT_DECODE_ERROR) && tn_read_server_hello(answer, first, fields) == 0
           && fields[2] == TN_SUITE_PSK_NULL_SHA256;
}

/* A record connection, and what its client keeps: the handshake's messages, the two MAC keys, and how many records it has sealed. */
struct session {
    uint8_t connection[TN_RECORD_CONNECTION_SIZE], memory[TN_RECORD_MEMORY], out[TN_RECORD_ANSWER], master[TN_MASTER_SIZE];
    uint32_t told[4];
    uint8_t transcript[200], keys[64];
    size_t transcript_len;
    uint64_t sealed, blocks;
};

static void add(struct session *s, const uint8_t *message, size_t n)
{
    memcpy(s->transcript + s->transcript_len, message, n);
    s->transcript_len += n;
}

/* With so many of the list's one number. */
static int32_t take_by(struct session *s, size_t count, const uint8_t *record, int32_t n)
{
    return tn_take_record(s->connection, bytes("gate7:abcd\n"), 11, first, 1, count, record, (size_t)n, s->memory, sizeof s->memory, s->out, sizeof s->out,
                          s->master, s->told, &s->blocks);
}

static int32_t take(struct session *s, const uint8_t *record, int32_t n)
{
    return take_by(s, 1, record, n);
}

static int32_t take_plain(struct session *s, uint8_t kind, const uint8_t *content, size_t n)
{
    uint8_t record[64];
    return take(s, record, tn_write_record(kind, content, n, record, sizeof record));
}

static int32_t take_sealed(struct session *s, uint8_t kind, const uint8_t *content, size_t n)
{
    uint8_t record[64];
    return take(s, record, tn_seal_record(s->keys, s->sealed++, kind, content, n, record, sizeof record));
}

/* Hello, key exchange in two records, change of cipher and Finished. */
static void record_login(struct session *s)
{
    uint8_t random[TN_RANDOM_SIZE] = {1}, message[48], record[16], hash[TN_HASH_SIZE], value[TN_VERIFY_DATA_SIZE];
    uint32_t fields[3];
    expect("a record connection", tn_record_start(s->connection, random, sizeof random, random, 0, random, sizeof random, TN_RULE_HIDE) == 0
                                      && tn_record_phase(s->connection) == TN_PHASE_CLIENT_HELLO);
    tn_write_client_hello(0x0303, random, sizeof random, random, 0, bytes("\x00\xB0"), 2, bytes("\x00"), 1, false, random, 0, message, sizeof message);
    add(s, message, 45);
    expect("a hello in a record", take_plain(s, TN_TYPE_HANDSHAKE, message, 45) == 56);
    expect("the first record of the answer", tn_read_record(s->out, 47, 0, fields) == 0 && fields[0] == TN_TYPE_HANDSHAKE && fields[1] == 0x0303
                                                 && fields[2] == 42 && tn_message_end(s->out + 5) == 42);
    add(s, s->out + 5, 42);
    add(s, s->out + 52, 4);
    tn_write_client_key_exchange(bytes("gate7"), 5, message, sizeof message);
    add(s, message, 11);
    expect("a part of a message", take_plain(s, TN_TYPE_HANDSHAKE, message, 6) == 0 && s->told[0] == 0 && memcmp(s->memory, message, 6) == 0);
    expect("the rest of it, R10", take_by(s, 0, record, tn_write_record(TN_TYPE_HANDSHAKE, message + 6, 5, record, sizeof record)) == TN_R10);
    expect("no blocks yet", s->blocks == 0);
    expect("the rest of it", take_plain(s, TN_TYPE_HANDSHAKE, message + 6, 5) == 0 && s->told[0] == 1 && s->blocks == 19);
    tn_key_block(s->master, sizeof s->master, random, sizeof random, random, sizeof random, TN_SUITE_PSK_NULL_SHA256, s->keys, sizeof s->keys);
    expect("data too soon", tn_send_data(s->connection, bytes("cow"), 3, s->out, sizeof s->out) == TN_R5);
    expect("a change of cipher", take_plain(s, TN_TYPE_CHANGE_OF_CIPHER, bytes("\x01"), 1) == 0);
    tn_sha256(s->transcript, s->transcript_len, hash, sizeof hash);
    tn_finished(TN_SIDE_CLIENT, s->master, sizeof s->master, hash, sizeof hash, value, sizeof value);
    tn_write_finished(value, sizeof value, message, sizeof message);
    expect("a Finished", take_sealed(s, TN_TYPE_HANDSHAKE, message, TN_FINISHED_SIZE) == 59 && tn_record_phase(s->connection) == TN_PHASE_COMPLETE);
    expect("the server's Finished", tn_open_record(s->keys + 32, 0, s->out + 6, 53) == TN_FINISHED_SIZE);
}

/* Data both ways, and a record that comes twice. */
static void records(void)
{
    static struct session s;
    record_login(&s);
    expect("data from the client", take_sealed(&s, TN_TYPE_APPLICATION_DATA, bytes("cow 212"), 7) == 0 && s.told[1] == 1 && s.told[2] == 5 && s.told[3] == 7);
    expect("data for the client", tn_send_data(s.connection, bytes("cow"), 3, s.out, sizeof s.out) == 40 && tn_open_record(s.keys + 32, 1, s.out, 40) == 3);
    s.sealed--;
    int32_t result = take_sealed(&s, TN_TYPE_APPLICATION_DATA, bytes("cow 212"), 7);
    expect("the same again", result == TN_ALERT_RESULT(TN_ALERT_BAD_RECORD_MAC) && tn_record_phase(s.connection) == TN_PHASE_CLOSED);
    expect("the alert for it", tn_closing_alert(s.connection, s.out, sizeof s.out) == TN_CLOSING_ALERT_SIZE && tn_open_record(s.keys + 32, 2, s.out, 39) == 2
                                   && s.out[6] == TN_ALERT_BAD_RECORD_MAC);
    expect("nothing more", tn_send_close(s.connection, s.out, sizeof s.out) == TN_R4 && tn_is_host_refusal(TN_R9) && !tn_is_alert(TN_R9));
    tn_clear_stack(TN_RECORD_STACK_LIMIT);
}

/* A gate and its server, the answer of each that is on the way to the other, and what each has of the keys. */
struct ends {
    uint8_t client[TN_CLIENT_SIZE], server[TN_CONNECTION_SIZE], answer[TN_CLIENT_FLIGHT_SIZE], flight[TN_FLIGHT_SIZE];
    uint8_t client_master[TN_MASTER_SIZE], server_master[TN_MASTER_SIZE];
    uint64_t client_blocks, server_blocks;
};

static int32_t start_client(struct ends *e, const char *key, size_t key_len, size_t out_len)
{
    uint8_t random[TN_RANDOM_SIZE] = {1};
    return tn_client_start(e->client, random, sizeof random, bytes("gate7"), 5, bytes(key), key_len, e->answer, out_len);
}

static int32_t to_server(struct ends *e, const uint8_t *message, size_t n)
{
    return tn_message(e->server, bytes("gate7:abcd\n"), 11, first, 1, 1, message, n, e->flight, sizeof e->flight, e->server_master,
                      &e->server_blocks);
}

static int32_t to_client(struct ends *e, const uint8_t *message, size_t n)
{
    return tn_client_message(e->client, message, n, e->answer, sizeof e->answer, e->client_master, &e->client_blocks);
}

/* Each end's messages and change of cipher to the other, as the host would pass them on: the answer to ServerHelloDone is cut before its Finished. */
static void gate_login(struct ends *e)
{
    uint8_t random[TN_RANDOM_SIZE] = {2};
    expect("a client, R3", start_client(e, "", 0, sizeof e->answer) == TN_R3 && start_client(e, "\xAB\xCD", 2, TN_CLIENT_HELLO_SIZE - 1) == TN_R1);
    expect("no client was made", tn_client_phase(e->client) == TN_CLIENT_PHASE_CLOSED);
    expect("a client", start_client(e, "\xAB\xCD", 2, sizeof e->answer) == TN_CLIENT_HELLO_SIZE && tn_client_phase(e->client) == TN_CLIENT_PHASE_SERVER_HELLO);
    expect("its suites", memcmp(e->answer + TN_HELLO_SESSION_ID_AT - 1, "\x00\x00\x06\x00\xAE\x00\x8C\x00\xB0\x01\x00", 11) == 0);
    expect("its server", tn_start(e->server, random, sizeof random, bytes("barn"), 4, random, sizeof random, TN_RULE_HIDE) == 0);
    expect("ClientHello", to_server(e, e->answer, TN_CLIENT_HELLO_SIZE) == 56);
    expect("ServerHello", to_client(e, e->flight, 42) == 0 && tn_client_suite(e->client) == TN_SUITE_PSK_AES_128_CBC_SHA256);
    expect("ServerKeyExchange", to_client(e, e->flight + 42, 10) == 0 && tn_client_phase(e->client) == TN_CLIENT_PHASE_SERVER_HELLO_DONE);
    expect("ServerHelloDone", to_client(e, e->flight + 52, 4) == 27 && tn_client_phase(e->client) == TN_CLIENT_PHASE_CHANGE_OF_CIPHER);
    expect("ClientKeyExchange", to_server(e, e->answer, 27 - TN_FINISHED_SIZE) == 0);
    expect("the client's change of cipher", tn_change_of_cipher(e->server) == 0);
    expect("the client's Finished", to_server(e, e->answer + 27 - TN_FINISHED_SIZE, TN_FINISHED_SIZE) == TN_FINISHED_SIZE);
    expect("a warning", tn_client_alert(e->client, 1, 90) == 0);
    expect("the server's change of cipher", tn_client_change_of_cipher(e->client) == 0 && tn_client_phase(e->client) == TN_CLIENT_PHASE_FINISHED);
    expect("the server's Finished", to_client(e, e->flight, TN_FINISHED_SIZE) == 0);
    expect("both complete", tn_client_phase(e->client) == TN_CLIENT_PHASE_COMPLETE && tn_phase(e->server) == TN_PHASE_COMPLETE);
    expect("no suite any more", tn_client_suite(e->client) == 0 && tn_client_alert(e->client, 1, 90) == TN_R4);
}

/* The masters are equal, and an extension is refused. */
static void gate(void)
{
    static struct ends e;
    uint8_t message[48], random[TN_RANDOM_SIZE] = {2};
    const int32_t unsupported = TN_ALERT_RESULT(TN_ALERT_UNSUPPORTED_EXTENSION);
    e.server_master[0] = (uint8_t)~e.client_master[0]; /* so that they differ until both are written */
    gate_login(&e);
    expect("equal masters", memcmp(e.client_master, e.server_master, TN_MASTER_SIZE) == 0);
    expect("equal numbers of blocks", e.client_blocks == 19 && e.server_blocks == 19);
    start_client(&e, "\xAB\xCD", 2, sizeof e.answer);
    int32_t n = tn_write_server_hello(0x0303, random, sizeof random, random, 0, TN_SUITE_PSK_NULL_SHA256, 0, true, bytes("\x00\x23\x00\x00"), 4, message,
                                      sizeof message);
    expect("an extension", n == 48 && to_client(&e, message, 48) == unsupported && tn_client_phase(e.client) == TN_CLIENT_PHASE_CLOSED);
    tn_clear_stack(TN_STACK_LIMIT);
}

int main(void)
{
    uint8_t answer[TN_FLIGHT_SIZE];
    secrets();
    block_counts();
    tn_clear_stack(TN_STACK_LIMIT);
    messages();
    table();
    list();
    edits();
    tn_clear_stack(TN_STACK_LIMIT);
    expect("V12, 0x0302", hello(0x0302, answer) == TN_ALERT_RESULT(TN_ALERT_PROTOCOL_VERSION));
    expect("V12, 0x0304", hello(0x0304, answer) == 46 && answer[4] == 3 && answer[5] == 3);
    expect("the suite", suite_is_found(answer, 46));
    records();
    gate();
    expect("the version", strlen(TN_VERSION) >= 3);
    if (failures == 0)
        printf("tests/installed.c: all as expected\n");
    return failures != 0;
}
