/*
 * A login's ClientKeyExchange call against tables of 1, 16, 64 and 256 lines, with the identity in the first line, in the last, or in none under both rules.
 * The call tests the whole table and its list, finds the key and makes the master secret. Lines have a 5-byte identity and a 16-byte key; one more table has
 * the longest.
 */
#include <stdio.h>
#include <string.h>

#include "cases.h"
#include "login.h"
#include "measure.h"

enum { SAMPLES = 5, TABLES = 5, FULL = 3, PLACES = 4, TOLD = 3, LONG_IDENTITY = 125, NAME = 96 };

#define GROWTH_AIM 4.2 /* times the time for four times the lines */
#define FULL_AIM 4.0   /* times the time with 256 lines, to that with one */

struct table {
    const char *name;
    size_t lines, identity_len, key_len, size;
    char text[TN_TABLE_LIMIT];
    struct gates gates;
};

/* Ready for the ClientKeyExchange; each sample works on a copy. */
struct attempt {
    struct login login;
    int32_t wanted;
    char name[NAME];
};

static struct table tables[TABLES] = {
    {.name = "1 line", .lines = 1, .identity_len = 5, .key_len = 16},
    {.name = "16 lines", .lines = 16, .identity_len = 5, .key_len = 16},
    {.name = "64 lines", .lines = 64, .identity_len = 5, .key_len = 16},
    {.name = "256 lines", .lines = 256, .identity_len = 5, .key_len = 16},
    {.name = "256 lines of 255 bytes", .lines = 256, .identity_len = LONG_IDENTITY, .key_len = TN_PSK_LIMIT},
};

static struct attempt attempts[TABLES][PLACES];

/* The identity of a line: digits behind zeros, so that long ones differ only at their end. */
static void identity_of(const struct table *t, size_t line, char *out)
{
    snprintf(out, LONG_IDENTITY + 1, "%0*zu", (int)t->identity_len, line);
}

static void fill(struct table *t)
{
    for (size_t line = 0; line < t->lines; line++) {
        identity_of(t, line, t->text + t->size);
        t->size += t->identity_len;
        t->text[t->size++] = ':';
        memset(t->text + t->size, 'a', 2 * t->key_len);
        t->size += 2 * t->key_len;
        t->text[t->size++] = '\n';
    }
    gates_set(&t->gates, t->text, t->size);
}

static double sample_login(void *state)
{
    const struct attempt *a = state;
    const struct gates *g = a->login.gates;
    uint8_t connection[TN_CONNECTION_SIZE], out[TN_FLIGHT_SIZE], master[TN_MASTER_SIZE];
    uint64_t blocks;
    memcpy(connection, a->login.connection, sizeof connection);
    double from = now();
    int32_t result = tn_message(connection, g->text, g->size, g->starts, TN_TABLE_LINES, g->count, a->login.key_exchange, a->login.key_exchange_len, out,
                                sizeof out, master, &blocks);
    double taken = now() - from;
    must(result == a->wanted, "the login has another outcome");
    return taken;
}

static void prepare(struct attempt *a, const struct table *t, const char *place, size_t line, uint8_t rule)
{
    char identity[LONG_IDENTITY + 1];
    int listed = line < t->lines;
    identity_of(t, line, identity);
    login_plain_hello(&a->login, TN_SUITE_PSK_AES_128_CBC_SHA256, 0, 0);
    login_name(&a->login, identity, &t->gates);
    must(login_open(&a->login, rule), "the server refuses the hello");
    a->wanted = listed || rule == TN_RULE_HIDE ? 0 : TN_ALERT_RESULT(TN_ALERT_UNKNOWN_PSK_IDENTITY);
    snprintf(a->name, sizeof a->name, "%s, %s", t->name, place);
}

static void prepare_all(struct table *t, struct attempt places[PLACES])
{
    fill(t);
    prepare(&places[0], t, "identity first", 0, TN_RULE_HIDE);
    prepare(&places[1], t, "identity last", t->lines - 1, TN_RULE_HIDE);
    prepare(&places[2], t, "identity absent, rule hide", t->lines, TN_RULE_HIDE);
    prepare(&places[TOLD], t, "identity absent, rule tell", t->lines, TN_RULE_TELL);
}

/* A line's end: how the time has grown since the table before, and of a full table since the one of a line. Under tell an absent identity makes no secrets,
 * so that its time is the table's alone, and has no aim of the second kind. */
static void print_since(const struct subject subjects[TABLES * PLACES], size_t t, size_t place)
{
    const struct subject *s = &subjects[t * PLACES + place];
    print_growth(s, s - PLACES, (double)tables[t].size, (double)tables[t - 1].size);
    if (tables[t].lines == 4 * tables[t - 1].lines)
        print_aim(s, s - PLACES, GROWTH_AIM);
    if (t != FULL)
        return;
    print_ratio("to 1 line", s, &subjects[place]);
    if (place != TOLD)
        print_aim(s, &subjects[place], FULL_AIM);
}

void bench_logins(void)
{
    static struct subject subjects[TABLES * PLACES];
    for (size_t i = 0; i < TABLES; i++)
        prepare_all(&tables[i], attempts[i]);
    for (size_t i = 0; i < TABLES * PLACES; i++) {
        struct attempt *a = &attempts[i / PLACES][i % PLACES];
        subjects[i] = (struct subject){.name = a->name, .sample = sample_login, .state = a};
    }
    heading("A login's ClientKeyExchange call, microseconds");
    measure(subjects, TABLES * PLACES, SAMPLES);
    for (size_t i = 0; i < TABLES * PLACES; i++) {
        print_time(&subjects[i], 1000, "us");
        if (i >= PLACES)
            print_since(subjects, i / PLACES, i % PLACES);
        printf("\n");
    }
}
