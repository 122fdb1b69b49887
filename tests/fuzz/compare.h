/* Each export against its model, on bytes that are given (by the fuzz target) or drawn (by the differential test). */
#ifndef COMPARE_H
#define COMPARE_H

#include "model.h"

/* ---- drawn bytes (drawn.c); each slot holds one piece, until it is drawn again */

/* the slots of `damaged`, of whole messages and of records; 0 to 4 hold a hello's fields, 7 a line's text */
enum { DAMAGED = 8, MESSAGE = 9, CONTENT = 10, RECORD = 11 };

struct bytes drawn(size_t slot, size_t n);
struct bytes clean_text(size_t slot, size_t n);               /* of UTF-8 */
struct bytes drawn_text(size_t slot, size_t n);               /* the same, now and then damaged */
struct bytes plain_text(size_t slot, size_t n);               /* of small letters */
struct bytes drawn_block(size_t slot, size_t most);           /* extensions, now and then damaged */
struct bytes drawn_hello(struct hello *h, bool of_client);    /* fields and the whole message, allowed or not */
struct bytes drawn_login(void);                               /* mostly a hello that the server accepts */
struct bytes drawn_server_hello(void);                        /* and one that the client accepts */
struct bytes drawn_table(size_t slot);
struct bytes drawn_identity(size_t slot, struct bytes table); /* mostly one that the table has */
struct starts starts_in(struct bytes text, size_t more);      /* of its lines, in memory for so many numbers more */
void damage_list(struct starts *l, size_t size);              /* of a table of so many bytes, in one of several ways; now and then it stays its list */
struct keys keys_of(struct bytes text);                       /* with its own list */
struct keys drawn_keys(size_t slot);                          /* mostly with its own list */
const struct keys *keys_of_call(const struct keys *own);      /* mostly these, until it is called again */
size_t key_in_line(size_t size);                              /* how long a key may be in a line of 8 to 258 bytes, its 0A among them */
struct bytes damaged(struct bytes b);                         /* a copy, changed in a few places; its length may be another */
struct bytes copied(size_t slot, struct bytes b);
void damage_connection(uint8_t *c, const uint8_t *other, size_t n); /* in one of several ways, of which one takes bytes of the other */
size_t drawn_room(int32_t said);                              /* mostly enough, often one short */

/* What a connection is started with. */
struct settings {
    struct bytes random, hint, stand_in;
    uint8_t rule;
};

struct settings drawn_settings(void); /* now and then such as are refused */

/* A well-formed table of so many lines and bytes, fewer if lines can't be that long. Line `odd` has the identity ODD and a key of odd_key bytes. */
#define ODD "odd"
struct bytes full_table(size_t slot, size_t lines, size_t size, size_t odd, size_t odd_key);

/* ---- one call each, compared */

void compare_readers(struct bytes message);
void compare_extensions(struct bytes block);
void compare_table(const struct keys *keys, struct bytes identity);
void compare_utf8(struct bytes text);
void compare_record(const uint8_t key[32], uint64_t number, struct bytes record); /* read with and without protection, and opened */

/* ---- a table and its list in memory, and edits of them */

#define MEMORY_LIMIT 70000

struct memory {
    uint8_t bytes[MEMORY_LIMIT];
    size_t n, length; /* the table is the first `length` bytes; a length past the memory may be given too */
    struct starts list;
};

/* The text in memory of n bytes, as much of it as has room there, with drawn bytes behind it; the table is the whole text, and the list is this one. */
void memory_set(struct memory *m, struct bytes text, size_t n, const struct starts *list);

/* One edit, compared; memory and list are as the call left them, and what the call gave comes back. */
int32_t memory_edit(struct memory *m, enum edit kind, struct bytes identity, struct bytes key);

/* ---- an end of a handshake */

/* A message, and what is lent with it; a client takes no keys. */
struct coming {
    const struct keys *keys;
    struct bytes message;
    size_t room;
};

/* The calls that either end has, by its names. A phase of 0 is closed; the one before `complete` awaits a Finished. */
struct end {
    const char *message_name, *change_name, *alert_name, *phase_name, *suite_name;
    int32_t (*message)(struct lent *c, const struct keys *keys, struct lent *m, struct lent *out, struct lent *master, struct lent *blocks); /* may lend more */
    int32_t (*change)(uint8_t *);
    int32_t (*alert)(uint8_t *, uint8_t, uint8_t);
    int32_t (*phase)(const uint8_t *);
    int32_t (*suite)(const uint8_t *);
    size_t size;
    int32_t complete;
    bool (*is_result)(int32_t result);                             /* of a message, on any bytes */
    bool (*hands_master)(int32_t result);                          /* of a message that was accepted */
    uint64_t (*blocks)(const uint8_t *connection, const struct coming *m); /* of the master secret that is handed over then */
    void (*expect_over)(const uint8_t *connection, int32_t phase); /* closed or complete by a call, it has no trace of its peer */
};

extern const struct end server_end, client_end;

/* What comes beside messages: a change of cipher, or an alert. */
struct signal {
    bool change;
    uint8_t level, description;
};

int32_t told(const char *name, int32_t (*call)(const uint8_t *), struct bytes connection); /* by a call that only reads a connection of any kind */
void settle_connection(struct lent *c, int32_t result, bool stays); /* before `finish`: it has its own bytes after an R number, and where it stays */

/* After `finish`: the bytes are kept for the next call, and their phase and suite looked at. */
void keep_connection(const struct end *e, uint8_t *connection, const struct lent *c, int32_t result, int32_t phase, int32_t suite);

/* One call, and what it leaves. */
void compare_signal(const struct end *e, uint8_t *connection, struct signal s, int32_t said, int32_t phase, int32_t suite);

/* Whether something else than a message comes next: a change of cipher mostly where it is awaited, otherwise once in so many times. */
bool drawn_signal(size_t wildness, bool change_awaited, struct signal *s);

/* Bytes of any kind as a connection: one call of each kind, of which no more is known than the header says. */
void probe(const struct end *e, const uint8_t *connection, const struct coming *m);
void probe_damaged(const struct end *e, const uint8_t *connection, const uint8_t *other, const struct coming *m); /* as damage_connection does it */
void probe_flipped(const struct end *e, const uint8_t *connection, size_t bit, const struct coming *m);           /* that bit changed */

/* ---- a server's connection and its model */

struct pair {
    uint8_t connection[TN_CONNECTION_SIZE];
    struct server model;
};

void pair_start(struct pair *p, struct bytes random, struct bytes hint, struct bytes stand_in, uint8_t rule);
struct bytes pair_message(struct pair *p, const struct keys *keys, struct bytes message, size_t room); /* the answer, until the next one */
void pair_signal(struct pair *p, struct signal s);

/* ---- a client's connection and its model */

struct client_pair {
    uint8_t connection[TN_CLIENT_SIZE];
    struct client model;
    bool forged; /* no call wrote it: what else than its answers is known of it is left open */
};

/* What a client is started with. */
struct gate {
    struct bytes random, identity, key;
};

struct bytes client_start(struct client_pair *p, struct gate g, size_t room); /* the ClientHello, until the next answer */
struct bytes client_message(struct client_pair *p, struct bytes message, size_t room);
void client_signal(struct client_pair *p, struct signal s);

/* The connection with other bytes in front of its transcript, which no call need have written: one call of each kind, as the model has it. */
void client_probe_forged(const struct client_pair *p, const uint8_t fields[CLIENT_FIELDS], struct bytes message, size_t room);

/* ---- a record connection and its model */

struct record_pair {
    uint8_t connection[TN_RECORD_CONNECTION_SIZE];
    struct record_model model;
};

void record_start(struct record_pair *p, struct settings s);
void record_take(struct record_pair *p, const struct keys *keys, struct bytes record, size_t memory, size_t room); /* memory for what is held at least */
void record_send(struct record_pair *p, struct bytes content, size_t room);
void record_close(struct record_pair *p, size_t room);
void record_renumber(struct record_pair *p, bool sending, uint64_t number); /* as if so many records had been sent or taken */

/* Bytes of any kind as a record connection, and any memory: as `probe`. */
void record_probe(const uint8_t connection[TN_RECORD_CONNECTION_SIZE], const struct keys *keys, struct bytes record, struct bytes memory, size_t room);

/* The same with another byte for a `protected`, and with another count of held bytes. */
void record_probe_unwritten(const uint8_t connection[TN_RECORD_CONNECTION_SIZE], const struct keys *keys, struct bytes record, struct bytes memory,
                            size_t room);

/* ---- one round of drawn calls each */

void secrets_round(void);
void layouts_round(void);
void table_round(void);
void edits_round(void);
void server_round(void);
void client_round(void);
void records_round(void);

/* ---- sweeps, the same in every run */

void every_suite(void);
void every_premaster(void);
void every_long_message(void);
void every_character(void);
void every_odd_table(void);
void every_edit(void);
void every_list(void);
void every_alert(void);
void every_bit(void);
void every_key(void);
void every_content(void);
void every_cut(void);
void every_record_bit(void);
void every_record_room(void);
void every_record_key(void);
void every_number(void);
void every_server_hello(void);
void every_client_message(void);
void every_client_byte(void);
void every_client_room(void);

#endif
