/*
 * The fuzz target. The input is a series of calls on three connections, one of either kind of the server's and a client's, each a byte that names it and its
 * arguments; the models go along, and every message, record and table goes to the readers too. The library is built without the fuzzer's instrumentation: it
 * is the models' branches, which are the papers', that lead it.
 *
 *   0 VECTOR2                                  the key table from here on, with its own list
 *   1 RULE VECTOR1 VECTOR1 VECTOR1             start with random, hint and stand-in key
 *   2 ROOM VECTOR2                             a message
 *   3                                          a change of cipher
 *   4 LEVEL DESCRIPTION                        an alert
 *   5 ROOM PLACE BITS                          the right Finished, those bits of it changed
 *   6 PLACE PLACE VECTOR1                      the last message again, on a copy of the connection with these bytes at a place
 *   7 VECTOR2                                  an extension block
 *   8 KIND ROOM MORE VECTOR1 VECTOR1           an edit by identity and key, add, replace or retire: in memory of ROOM bytes beyond the table, whose
 *                                              length is given as MORE than it is (a signed byte); where accepted, the key table from here on
 *   9 RULE VECTOR1 VECTOR1 VECTOR1             start of the record connection, as 1; the calls from here on are on it
 *   10 ROOM VECTOR2                            a record
 *   11 ROOM MEMORY TYPE VECTOR2                a record with this content, as a client would protect it; memory of 64 times MEMORY bytes beyond what is held
 *   12 ROOM PLACE BITS CUT                     the right Finished, those bits of it changed, in two records, of which the first has CUT bytes of it
 *   13 ROOM VECTOR2                            data to send, in ROOM bytes more than it has
 *   14 ROOM                                    a close_notify
 *   15 PLACE PLACE VECTOR1                     the last record again, on a copy of the connection with these bytes at a place
 *   16 SIDE BACK                               a direction's number, so many before the last: SIDE 0 what is taken, 1 what is sent
 *   17 ROOM COUNT PLACE BY                     another list from here on: the table's own in memory for ROOM numbers more, its count COUNT more, and the
 *                                              number at PLACE moved BY so much (the last and the second are signed bytes)
 *   18 ROOM VECTOR1 VECTOR1 VECTOR1            start of the client, with random, identity and key
 *   19 ROOM VECTOR2                            a message for the client
 *   20                                         a change of cipher for it
 *   21 LEVEL DESCRIPTION                       an alert for it
 *   22 PLACE BITS                              the server's right Finished for it, those bits changed
 *   23 PLACE PLACE VECTOR1                     its last message again, on a copy of its connection with these bytes at a place
 *   24 ROOM                                    the next message that the server of 1 has to send, to the client
 *   25 ROOM                                    the next one that the client has to send, to that server
 *
 * VECTORn: a length of n bytes and so many bytes, or what there is left of the input. Built without libFuzzer it runs on files or on standard input.
 */
#include "compare.h"

#include <stdio.h>
#include <stdlib.h>
#include <string.h>

#define INPUT_LIMIT 60000u

int LLVMFuzzerTestOneInput(const uint8_t *data, size_t size);

/* The last answer of one end, and how much of it was handed to the other. */
struct way {
    uint8_t bytes[TN_FLIGHT_SIZE];
    size_t n, taken;
};

struct series {
    struct bytes rest, message;
    struct keys keys;
    struct pair pair;
    struct client_pair client;
    struct bytes client_message; /* the last one */
    struct way to_client, to_server;
    struct memory memory; /* of the table, once it was edited */
    struct record_pair records;
    struct bytes record;
};

/* ---- the input */

static uint8_t next_byte(struct series *s)
{
    if (s->rest.n == 0)
        return 0;
    s->rest.n--;
    return *s->rest.at++;
}

static struct bytes next_vector(struct series *s, size_t width)
{
    size_t n = next_byte(s);
    if (width == 2)
        n = n << 8 | next_byte(s);
    struct bytes b = {s->rest.at, n < s->rest.n ? n : s->rest.n};
    s->rest.at += b.n;
    s->rest.n -= b.n;
    return b;
}

/* ---- what the two ends send each other */

static void put_on(struct way *w, struct bytes answer)
{
    if (answer.n == 0)
        return;
    memcpy(w->bytes, answer.at, answer.n);
    w->n = answer.n;
    w->taken = 0;
}

static struct bytes take_from(struct way *w)
{
    const uint8_t *at = w->bytes + w->taken;
    struct bytes message = {at, w->taken < w->n ? (size_t)model_message_end(at) : 0};
    w->taken += message.n;
    return message;
}

static void give_server(struct series *s, struct bytes message, size_t room)
{
    put_on(&s->to_client, pair_message(&s->pair, &s->keys, message, room));
}

static void give_client(struct series *s, struct bytes message, size_t room)
{
    s->client_message = message;
    put_on(&s->to_server, client_message(&s->client, message, room));
}

/* ---- the calls */

static void do_start(struct series *s)
{
    uint8_t rule = next_byte(s);
    struct bytes random = next_vector(s, 1), hint = next_vector(s, 1), stand_in = next_vector(s, 1);
    compare_utf8(hint);
    pair_start(&s->pair, random, hint, stand_in, rule);
}

static void do_record_start(struct series *s)
{
    struct settings with = {.rule = next_byte(s)};
    with.random = next_vector(s, 1);
    with.hint = next_vector(s, 1);
    with.stand_in = next_vector(s, 1);
    record_start(&s->records, with);
}

static void do_message(struct series *s)
{
    size_t room = next_byte(s);
    s->message = next_vector(s, 2);
    compare_readers(s->message);
    give_server(s, s->message, room);
    if (s->message.n >= 6) { /* what would be a ClientKeyExchange's identity */
        struct bytes identity = {s->message.at + 6, s->message.n - 6};
        compare_table(&s->keys, identity);
        compare_utf8(identity);
    }
}

/* The right Finished of a side, bits of it changed as the input says. */
static struct bytes next_finished(struct series *s, const struct messages *so_far, const uint8_t master[48], uint8_t side)
{
    static struct answer value, message;
    size_t place = next_byte(s) % 12;
    model_verify_data(so_far, master, side, &value);
    value.bytes[place] ^= next_byte(s);
    compose_message(20, (struct bytes){value.bytes, 12}, &message);
    return (struct bytes){message.bytes, (size_t)message.said};
}

static void do_finished(struct series *s)
{
    size_t room = next_byte(s);
    give_server(s, next_finished(s, &s->pair.model.messages, s->pair.model.master, TN_SIDE_CLIENT), room);
}

/* A copy of n bytes, with those of the input at a place. */
static void next_damage(struct series *s, uint8_t *copy, const uint8_t *bytes, size_t n)
{
    size_t place = ((size_t)next_byte(s) << 8 | next_byte(s)) % n;
    struct bytes over = next_vector(s, 1);
    memcpy(copy, bytes, n);
    memcpy(copy + place, over.at, over.n < n - place ? over.n : n - place);
}

static void do_probe(struct series *s)
{
    uint8_t connection[TN_CONNECTION_SIZE];
    struct coming m = {&s->keys, s->message, TN_FLIGHT_SIZE};
    next_damage(s, connection, s->pair.connection, sizeof connection);
    probe(&server_end, connection, &m);
}

static void take_record(struct series *s, struct bytes record, size_t memory, size_t room)
{
    const struct direction *d = &s->records.model.reading;
    s->record = record;
    compare_record(d->key, d->number, record);
    record_take(&s->records, &s->keys, record, memory, room);
}

/* A record that a client would send; it stays for do_record_probe. */
static void take_content(struct series *s, uint8_t type, struct bytes content, size_t memory, size_t room)
{
    static struct answer record;
    if (content.n > 65535 - 32)
        return;
    compose_record(&s->records.model.reading, type, 0x0303, content, &record);
    take_record(s, (struct bytes){record.bytes, (size_t)record.said}, memory, room);
}

static void do_record(struct series *s)
{
    size_t room = next_byte(s);
    take_record(s, next_vector(s, 2), TN_RECORD_MEMORY, room);
}

static void do_content(struct series *s)
{
    size_t room = next_byte(s), memory = s->records.model.held_n + 64u * next_byte(s);
    uint8_t type = next_byte(s);
    take_content(s, type, next_vector(s, 2), memory, room);
}

static void do_record_finished(struct series *s)
{
    size_t room = next_byte(s);
    const struct server *model = &s->records.model.server;
    struct bytes message = next_finished(s, &model->messages, model->master, TN_SIDE_CLIENT);
    size_t cut = next_byte(s) % message.n;
    if (cut > 0)
        take_content(s, HANDSHAKE, (struct bytes){message.at, cut}, TN_RECORD_MEMORY, room);
    take_content(s, HANDSHAKE, (struct bytes){message.at + cut, message.n - cut}, TN_RECORD_MEMORY, room);
}

static void do_record_probe(struct series *s)
{
    static uint8_t memory[1000];
    uint8_t connection[TN_RECORD_CONNECTION_SIZE];
    const struct record_model *m = &s->records.model;
    struct bytes held = {memory, sizeof memory};
    next_damage(s, connection, s->records.connection, sizeof connection);
    memcpy(memory, m->held, m->held_n < sizeof memory ? m->held_n : sizeof memory);
    record_probe(connection, &s->keys, s->record, held, TN_RECORD_ANSWER);
    record_probe_unwritten(connection, &s->keys, s->record, held, TN_RECORD_ANSWER);
}

static void do_record_call(struct series *s, uint8_t which)
{
    size_t room = which == 13 || which == 14 ? next_byte(s) : 0;
    switch (which) {
    case 9: do_record_start(s); break;
    case 10: do_record(s); break;
    case 11: do_content(s); break;
    case 12: do_record_finished(s); break;
    case 13: {
        struct bytes content = next_vector(s, 2);
        record_send(&s->records, content, content.n + room);
        break;
    }
    case 14: record_close(&s->records, room); break;
    case 15: do_record_probe(s); break;
    default: {
        bool sending = next_byte(s) % 2;
        record_renumber(&s->records, sending, LAST_NUMBER - next_byte(s));
    }
    }
}

static void do_client_start(struct series *s)
{
    size_t room = next_byte(s);
    struct gate g = {.random = next_vector(s, 1)};
    g.identity = next_vector(s, 1);
    g.key = next_vector(s, 1);
    compare_utf8(g.identity);
    put_on(&s->to_server, client_start(&s->client, g, room));
}

static void do_client_message(struct series *s)
{
    size_t room = next_byte(s);
    struct bytes message = next_vector(s, 2);
    compare_readers(message);
    give_client(s, message, room);
}

static void do_client_probe(struct series *s)
{
    uint8_t connection[TN_CLIENT_SIZE];
    struct coming m = {NULL, s->client_message, TN_CLIENT_FLIGHT_SIZE};
    next_damage(s, connection, s->client.connection, sizeof connection);
    probe(&client_end, connection, &m);
    client_probe_forged(&s->client, connection, m.message, m.room);
}

/* Two bytes of the input. */
static struct signal next_alert(struct series *s)
{
    uint8_t level = next_byte(s);
    return (struct signal){false, level, next_byte(s)};
}

static void do_client_call(struct series *s, uint8_t which)
{
    size_t room = which >= 24 ? next_byte(s) : 0;
    const struct client *model = &s->client.model;
    switch (which) {
    case 18: do_client_start(s); break;
    case 19: do_client_message(s); break;
    case 20: client_signal(&s->client, (struct signal){.change = true}); break;
    case 21: client_signal(&s->client, next_alert(s)); break;
    case 22: give_client(s, next_finished(s, &model->messages, model->master, TN_SIDE_SERVER), 0); break;
    case 23: do_client_probe(s); break;
    case 24: give_client(s, take_from(&s->to_client), room); break;
    default: give_server(s, take_from(&s->to_server), room);
    }
}

/* A byte that may stand for fewer. */
static size_t next_signed(struct series *s)
{
    size_t more = next_byte(s);
    return more < 128 ? more : more - 256;
}

static void do_edit(struct series *s)
{
    enum edit kind = (enum edit)(next_byte(s) % 3);
    size_t room = next_byte(s), more = next_signed(s);
    struct bytes identity = next_vector(s, 1), key = next_vector(s, 1);
    memory_set(&s->memory, s->keys.text, s->keys.text.n + room, &s->keys.list);
    s->memory.length += more;
    if (memory_edit(&s->memory, kind, identity, key) >= 0)
        s->keys = (struct keys){{s->memory.bytes, s->memory.length}, s->memory.list};
    compare_table(&s->keys, identity);
}

static void do_table(struct series *s)
{
    struct bytes text = next_vector(s, 2);
    s->keys = (struct keys){text, starts_in(text, TN_TABLE_LINES)};
    compare_table(&s->keys, s->message);
}

static void do_list(struct series *s)
{
    struct starts *l = &s->keys.list;
    *l = starts_in(s->keys.text, next_byte(s));
    l->count += next_signed(s);
    size_t place = next_byte(s), by = next_signed(s);
    l->at[place] += (uint32_t)by;
    compare_table(&s->keys, s->message);
}

static void do_call(struct series *s)
{
    uint8_t which = next_byte(s) % 26;
    if (which >= 18) {
        do_client_call(s, which);
        return;
    }
    switch (which) {
    case 0: do_table(s); break;
    case 1: do_start(s); break;
    case 2: do_message(s); break;
    case 3: pair_signal(&s->pair, (struct signal){.change = true}); break;
    case 4: pair_signal(&s->pair, next_alert(s)); break;
    case 5: do_finished(s); break;
    case 6: do_probe(s); break;
    case 7: compare_extensions(next_vector(s, 2)); break;
    case 8: do_edit(s); break;
    case 17: do_list(s); break;
    default: do_record_call(s, which);
    }
}

int LLVMFuzzerTestOneInput(const uint8_t *data, size_t size)
{
    static struct series s;
    static const uint8_t nothing;
    uint64_t seed = size;
    if (size > INPUT_LIMIT)
        return 0;
    for (size_t i = 0; i < size && i < 64; i++)
        seed = seed * 31 + data[i];
    run_seed = seed;
    draw_from(seed); /* where lent memory lies, and what it holds */
    memset(&s, 0, sizeof s);
    s.keys.text = s.message = s.record = s.client_message = (struct bytes){&nothing, 0};
    s.rest = size > 0 ? (struct bytes){data, size} : s.message;
    while (s.rest.n > 0)
        do_call(&s);
    return 0;
}

#ifndef LIBFUZZER
static void run(FILE *f, const char *name)
{
    static uint8_t input[INPUT_LIMIT + 1];
    size_t n = fread(input, 1, sizeof input, f);
    run_again = name;
    LLVMFuzzerTestOneInput(input, n);
}

int main(int count, char **files)
{
    if (count < 2)
        run(stdin, "standard input");
    for (int i = 1; i < count; i++) {
        FILE *f = fopen(files[i], "rb");
        if (!f) {
            perror(files[i]);
            return 1;
        }
        run(f, files[i]);
        fclose(f);
    }
    printf("fuzz target: %d inputs, %lu calls: all as the models\n", count < 2 ? 1 : count - 1, calls_made());
    return 0;
}
#endif
