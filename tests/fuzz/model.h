/*
 * The library's functions a second time, written from document 01, the requests for the table's edits, for its list, for records and for the client, and the
 * RFCs alone, over libcrypto.
 * Nothing here was taken from the library; each gives what the export of its name has to come to, the test of the room (R1) left out where it says "answer".
 */
#ifndef MODEL_H
#define MODEL_H

#include "lent.h"
#include "turretnail.h"

/* ---- secrets (model_secrets.c) */

void model_sha256(struct bytes message, struct answer *a);
void model_hmac(struct bytes key, struct bytes message, struct answer *a);
uint64_t model_prf(struct bytes secret, uint8_t label, struct bytes seed, size_t n, struct answer *a); /* the blocks of its digests, 0 where refused */
void model_premaster(struct bytes psk, struct answer *a);
uint64_t model_master(struct bytes premaster, struct bytes client, struct bytes server, struct answer *a); /* and here */
uint64_t model_blocks(struct bytes psk); /* of a master secret from this key and any randoms, 0 where there is none */
void model_key_block(struct bytes master, struct bytes server, struct bytes client, uint16_t suite, struct answer *a);
void model_finished(uint8_t side, struct bytes master, struct bytes hash, struct answer *a);
int32_t model_key_block_length(uint16_t suite);

/* ---- layouts (model_layouts.c) */

/* The fields of a hello; suites and methods are the client's, suite and compression the server's. */
struct hello {
    uint32_t version;
    struct bytes random, session_id, suites, methods;
    uint32_t suite;
    uint8_t compression;
    bool present;
    struct bytes block;
};

/* The bytes of these fields, also where no layout allows them; false where they are too many. */
bool compose_client_hello(const struct hello *h, struct answer *a);
bool compose_server_hello(const struct hello *h, struct answer *a);
void compose_message(uint8_t type, struct bytes body, struct answer *a);

void model_write_client_hello(const struct hello *h, struct answer *a);
void model_write_server_hello(const struct hello *h, struct answer *a);
void model_write_key_exchange(uint8_t type, struct bytes contents, struct answer *a); /* 12 with a hint, 16 with an identity */
void model_write_server_hello_done(struct answer *a);
void model_write_finished(struct bytes verify_data, struct answer *a);
void model_write_new_session_ticket(uint32_t lifetime_hint, struct bytes ticket, struct answer *a);
void model_write_extension(uint32_t kind, struct bytes contents, struct answer *a);
void model_write_ticket_extension(struct bytes ticket, struct answer *a);

/* Whether the layout is right; then the fields are written. */
bool model_read_client_hello(struct bytes message, uint32_t fields[9]);
bool model_read_server_hello(struct bytes message, uint32_t fields[7]);
bool model_read_key_exchange(uint8_t type, struct bytes message, uint32_t fields[2]);
bool model_read_server_hello_done(struct bytes message);
bool model_read_finished(struct bytes message, uint32_t fields[2]);
bool model_read_new_session_ticket(struct bytes message, uint32_t fields[3]);
int32_t model_next_extension(struct bytes block, size_t at, uint32_t fields[3]);

/* ---- the key table (model_table.c) */

#define STARTS_LIMIT 300 /* more than a table may have lines */

/* A list of line starts in memory for n numbers, of which the first `count` are the list; a count past the memory may be given too. */
struct starts {
    uint32_t at[STARTS_LIMIT];
    size_t n, count;
};

/* A key table and the list that is given beside it. */
struct keys {
    struct bytes text;
    struct starts list;
};

bool model_utf8(struct bytes text);
bool model_identity(struct bytes text); /* whether a table may have it */
bool model_table_test(struct bytes table);
bool model_list(struct bytes table, struct starts *list); /* the table's own, in memory for just so many numbers; false: R2 */
int32_t model_keys(const struct keys *keys);              /* R2, R10, or 0 where the list is the table's */
void model_lookup(const struct keys *keys, struct bytes identity, struct answer *a);

enum edit { ADD, REPLACE, RETIRE };

/* What an edit comes to: the edited table, R1 where it is the list's room, and the list's memory and count then. */
struct edited {
    struct answer table;
    struct starts list;
};

/* Of the table that is the first `length` bytes of the memory. To retire an identity takes no key: any may be given. */
void model_edit(struct bytes memory, size_t length, const struct starts *list, enum edit kind, struct bytes identity, struct bytes key, struct edited *e);

/* ---- what both ends of a handshake have (model_ends.c) */

#define TRANSCRIPT_LIMIT 40000

/* The handshake's messages so far. */
struct messages {
    uint8_t bytes[TRANSCRIPT_LIMIT];
    size_t n;
};

void model_add(struct messages *so_far, struct bytes message);
void model_verify_data(const struct messages *so_far, const uint8_t master[48], uint8_t side, struct answer *a); /* of a Finished behind them */
int32_t model_header(struct bytes message, int awaited, int other);              /* 0, or what its tests give where one of two types is awaited */
int32_t model_received_alert(int32_t *phase, uint8_t level, uint8_t description); /* where the connection is not over */

/* ---- the server (model_server.c) */

struct server {
    int32_t phase;
    uint8_t random[32], hint[128], stand_in[32];
    size_t hint_n;
    bool hides;
    bool null_only; /* of our suites 0x00B0 alone is offered */
    uint8_t client[32], master[48];
    uint64_t blocks; /* of the master secret */
    uint32_t suite;
    bool listed;
    struct messages messages;
};

int32_t model_start(struct server *s, struct bytes random, struct bytes hint, struct bytes stand_in, uint8_t rule);
void model_message(struct server *s, const struct keys *keys, struct bytes message, size_t room, struct answer *a); /* R1 included */
int32_t model_change(struct server *s);
int32_t model_alert(struct server *s, uint8_t level, uint8_t description);
int32_t model_suite(const struct server *s);
int model_awaited(const struct server *s); /* the type of the message that is awaited, none where a change of cipher is */

/* The blocks of the master secret that a ClientKeyExchange hands over, whatever the connection is; 0 where it hands over none. */
uint64_t model_exchange_blocks(const struct keys *keys, struct bytes message);

/* ---- the client (model_client.c) */

enum { CLIENT_SUITE = 3, CLIENT_FIELDS = 309 }; /* in a client's connection: where the suite stands, and how many bytes are in front of the transcript */

struct client {
    int32_t phase;
    uint8_t random[32], identity[128], key[64];
    size_t identity_n, key_n;
    uint8_t server[32], master[48];
    uint64_t blocks; /* of the master secret */
    uint32_t suite;
    struct messages messages;
};

void model_client_start(struct client *c, struct bytes random, struct bytes identity, struct bytes key, size_t room, struct answer *a); /* R1 included */
void model_client_message(struct client *c, struct bytes message, size_t room, struct answer *a);                                      /* and here */
int32_t model_client_change(struct client *c);
int32_t model_client_alert(struct client *c, uint8_t level, uint8_t description);
int32_t model_client_suite(const struct client *c);
void model_client_save(const struct client *c, uint8_t fields[CLIENT_FIELDS]);
void model_client_restore(struct client *c, const uint8_t fields[CLIENT_FIELDS]); /* whatever the bytes are; the messages stay */

/* ---- records (model_records.c) */

enum { CHANGE = 20, ALERT = 21, HANDSHAKE = 22, DATA = 23 }; /* content types */

#define CONTENT_LIMIT 16384
#define LAST_NUMBER UINT64_MAX

/* One direction of a connection: whether its records are protected, how many there were, and the MAC's key. */
struct direction {
    bool protected;
    uint64_t number;
    uint8_t key[32];
};

/* The record of this type, version and content in that direction, whatever type and length are. */
void compose_record(const struct direction *d, uint8_t type, uint32_t version, struct bytes content, struct answer *a);

void model_write_record(uint8_t type, struct bytes content, struct answer *a);
void model_seal_record(const uint8_t key[32], uint64_t number, uint8_t type, struct bytes content, struct answer *a);
int32_t model_read_record(struct bytes record, size_t added, uint32_t fields[3]);
int32_t model_open_record(const uint8_t key[32], uint64_t number, struct bytes record);
int32_t model_message_end(const uint8_t header[4]);

/* A record connection. What came of an unfinished message is here, not in lent memory. */
struct record_model {
    struct server server;
    struct direction reading, writing;
    uint8_t held[CONTENT_LIMIT];
    size_t held_n;
    uint8_t alert[39]; /* the record of the alert that closed it */
    size_t alert_n;
};

/* What a record comes to: the records to be sent, and the numbers that are told where it was accepted. */
struct taken {
    struct answer answer;
    uint32_t told[4];
};

int32_t model_record_start(struct record_model *m, struct bytes random, struct bytes hint, struct bytes stand_in, uint8_t rule);
void model_take(struct record_model *m, const struct keys *keys, struct bytes record, size_t memory, size_t room, struct taken *t); /* R1 too, as below */
void model_send(struct record_model *m, struct bytes content, size_t room, struct answer *a);
void model_close(struct record_model *m, size_t room, struct answer *a);
void model_closing_alert(const struct record_model *m, struct answer *a); /* R1 left out */

#endif
