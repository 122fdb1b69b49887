/*
 * What the list of line starts is for. A lookup alone in a full table, against one in plain C that searches for each line's end, as the library did before it
 * had a list; and whole handshakes with a table of one line and with a full one, against GnuTLS's server, which reads its psk.passwd file at each of them.
 * Identities have 5 bytes and keys 16; the one that is looked for stands last.
 */
#include <stdio.h>
#include <stdlib.h>
#include <string.h>
#include <unistd.h>

#include "cases.h"
#include "login.h"
#include "measure.h"
#include "peers.h"

enum { SAMPLES = 7, LOOKUPS = 64 /* in a sample, since one is short for the clock */, IDENTITY = sizeof PEER_IDENTITY - 1 };
enum { ONE, FULL, TABLES };

#define ABSENT_IDENTITY "gat--"

static const size_t lines_of[TABLES] = {[ONE] = 1, [FULL] = TN_TABLE_LINES};
static char texts[TABLES][TN_TABLE_LIMIT];
static struct gates gates[TABLES];

/* The last line is the peers' own. The others have its key, and identities that differ from its own in the last two bytes, two hex digits. */
static void fill(size_t t)
{
    char identity[IDENTITY + 1];
    size_t size = 0, others = 0;
    for (unsigned i = 0; others < lines_of[t] - 1; i++) {
        snprintf(identity, sizeof identity, "gat%02x", i & 0xff);
        if (strcmp(identity, PEER_IDENTITY) == 0)
            continue;
        size += (size_t)sprintf(texts[t] + size, "%s%s", identity, PEER_TABLE + IDENTITY);
        others++;
    }
    size += (size_t)sprintf(texts[t] + size, "%s", PEER_TABLE);
    gates_set(&gates[t], texts[t], size);
    must(gates[t].count == lines_of[t], "the table has other lines");
}

/* ---- the lookup alone */

static int32_t by_list(const uint8_t *identity, uint8_t out[TN_PSK_LIMIT])
{
    const struct gates *g = &gates[FULL];
    return tn_table_lookup(g->text, g->size, g->starts, TN_TABLE_LINES, g->count, identity, IDENTITY, out, TN_PSK_LIMIT);
}

static int value_of(uint8_t digit)
{
    return digit <= '9' ? digit - '0' : (digit | 32) - 'a' + 10;
}

/* The key of a line that is known to be well formed. */
static int32_t decoded(const uint8_t *digits, size_t n, uint8_t out[TN_PSK_LIMIT])
{
    for (size_t i = 0; i < n / 2; i++)
        out[i] = (uint8_t)(value_of(digits[2 * i]) << 4 | value_of(digits[2 * i + 1]));
    return (int32_t)(n / 2);
}

static int32_t by_line_ends(const uint8_t *identity, uint8_t out[TN_PSK_LIMIT])
{
    const struct gates *g = &gates[FULL];
    for (size_t at = 0, end; at < g->size; at = end + 1) {
        for (end = at; g->text[end] != '\n';)
            end++;
        if (end - at > IDENTITY && memcmp(g->text + at, identity, IDENTITY) == 0 && g->text[at + IDENTITY] == ':')
            return decoded(g->text + at + IDENTITY + 1, end - at - IDENTITY - 1, out);
    }
    return TN_ALERT_RESULT(TN_ALERT_UNKNOWN_PSK_IDENTITY);
}

/* One kind of lookup, and what it is to find. */
struct search {
    int32_t (*look_up)(const uint8_t *identity, uint8_t out[TN_PSK_LIMIT]);
    const char *identity;
    int32_t wanted;
};

static double sample_search(void *state)
{
    const struct search *s = state;
    uint8_t out[TN_PSK_LIMIT];
    int good = 1;
    double from = now();
    for (size_t i = 0; i < LOOKUPS; i++)
        good &= s->look_up((const uint8_t *)s->identity, out) == s->wanted;
    double taken = now() - from;
    must(good && (s->wanted < 0 || memcmp(out, peer_key, PEER_KEY_SIZE) == 0), "a lookup finds something else");
    return taken / LOOKUPS;
}

static void compare_lookups(void)
{
    enum { LAST, LAST_BY_ENDS, ABSENT, ABSENT_BY_ENDS, SUBJECTS };
    static struct search searches[SUBJECTS] = {
        [LAST] = {by_list, PEER_IDENTITY, PEER_KEY_SIZE},
        [LAST_BY_ENDS] = {by_line_ends, PEER_IDENTITY, PEER_KEY_SIZE},
        [ABSENT] = {by_list, ABSENT_IDENTITY, TN_ALERT_RESULT(TN_ALERT_UNKNOWN_PSK_IDENTITY)},
        [ABSENT_BY_ENDS] = {by_line_ends, ABSENT_IDENTITY, TN_ALERT_RESULT(TN_ALERT_UNKNOWN_PSK_IDENTITY)},
    };
    static const char *const names[SUBJECTS] = {"tn_table_lookup, identity last", "  by line ends, plain C", "tn_table_lookup, identity absent",
                                                "  by line ends, plain C"};
    static struct subject subjects[SUBJECTS];
    for (size_t i = 0; i < SUBJECTS; i++)
        subjects[i] = (struct subject){.name = names[i], .sample = sample_search, .state = &searches[i]};
    heading("A lookup alone, 256 lines, microseconds");
    measure(subjects, SUBJECTS, SAMPLES);
    for (size_t i = 0; i < SUBJECTS; i++) {
        print_time(&subjects[i], 1000, "us");
        if (i == LAST_BY_ENDS || i == ABSENT_BY_ENDS)
            print_ratio("tn_table_lookup / this", &subjects[i - 1], &subjects[i]);
        printf("\n");
    }
}

/* ---- whole handshakes */

/* GnuTLS's keys from a file with the table, whose name is made from the pattern. */
static void *write_file(size_t t, char *name)
{
    int fd = mkstemp(name);
    must(fd >= 0 && write(fd, texts[t], gates[t].size) == (ssize_t)gates[t].size && close(fd) == 0, "a file of keys can't be written");
    return gnutls_keys_of(name);
}

static void compare_handshakes(void)
{
    enum { OURS, GNUTLS = OURS + TABLES, SUBJECTS = GNUTLS + TABLES };
    static struct login logins[TABLES];
    static struct pair pairs[TABLES];
    static char files[TABLES][32] = {"/tmp/bench-psk-XXXXXX", "/tmp/bench-psk-XXXXXX"};
    static struct subject subjects[SUBJECTS] = {
        {.name = "ours, 1 line"}, {.name = "ours, 256 lines"}, {.name = "GnuTLS, a file of 1 line"}, {.name = "GnuTLS, a file of 256 lines"},
    };
    for (size_t t = 0; t < TABLES; t++) {
        ours_prepare(&logins[t], &gates[t]);
        subjects[OURS + t].sample = sample_ours_login;
        subjects[OURS + t].state = &logins[t];
        pairs[t] = (struct pair){.client = &gnutls_client, .server = &gnutls_server, .counted = TN_SIDE_SERVER, .keys = write_file(t, files[t])};
        subjects[GNUTLS + t].sample = sample_pair;
        subjects[GNUTLS + t].state = &pairs[t];
    }
    heading("The server's time for a handshake by the last of so many lines, microseconds");
    measure(subjects, SUBJECTS, SAMPLES);
    for (size_t i = 0; i < SUBJECTS; i++) {
        print_time(&subjects[i], 1000, "us");
        if (i >= GNUTLS)
            print_ratio("ours / this", &subjects[i - GNUTLS], &subjects[i]);
        if (i % TABLES == FULL)
            print_ratio("to 1 line", &subjects[i], &subjects[i - FULL]);
        printf("\n");
    }
    for (size_t t = 0; t < TABLES; t++)
        unlink(files[t]);
}

void bench_tables(void)
{
    start_openssl();
    start_gnutls();
    for (size_t t = 0; t < TABLES; t++)
        fill(t);
    compare_lookups();
    compare_handshakes();
}
