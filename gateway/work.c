/*
 * The work on a ClientKeyExchange, evened out. How long it may take is measured: the median of some logins whose name takes as long to be compared with the
 * table's as any, by the library and by the gateway, times a margin for a machine that has become crowded since, longer keys and colder caches.
 */
#include "work.h"

#include <stdlib.h>
#include <string.h>
#include <time.h>

#include "clock.h"
#include "settings.h"

enum { TRIES = 15, MARGIN = 5 };

static int64_t allowed; /* nanoseconds */

/* One record with this message. */
static void hand(struct connection *c, const struct settings *settings, const uint8_t *message, size_t n)
{
    const uint8_t header[RECORD_HEADER] = {RECORD_HANDSHAKE, 3, 3, (uint8_t)(n >> 8), (uint8_t)n};
    memcpy(c->channel.in, header, sizeof header);
    memcpy(c->channel.in + sizeof header, message, n);
    (void)connection_received(c, settings, sizeof header + n);
}

/* The gateway waits between logins, and others use the processor and its caches meanwhile. */
static void leave_processor(void)
{
    const struct timespec rest = {0, 500000};
    (void)nanosleep(&rest, NULL);
}

/* The table's last name with another last byte, one that is no UTF-8: listed nowhere, and as long in being compared as the last. Its length. */
static size_t unlisted_name(const struct settings *settings, uint8_t name[TN_IDENTITY_LIMIT])
{
    const uint8_t *line = settings->table + (settings->lines > 0 ? settings->starts[settings->lines - 1] : 0);
    size_t n = 0;
    while (settings->lines > 0 && line[n] != ':')
        n++;
    memcpy(name, line, n);
    n = n > 0 ? n : 1;
    name[n - 1] = 0xff;
    return n;
}

static int by_size(const void *a, const void *b)
{
    int64_t x = *(const int64_t *)a, y = *(const int64_t *)b;
    return (x > y) - (x < y);
}

void work_measure(const struct settings *settings)
{
    static struct connection trial;
    static const uint8_t random[TN_RANDOM_SIZE], suites[] = {0x00, 0xAE, 0x00, 0xB0}, methods[] = {0};
    uint8_t hello[64], exchange[6 + TN_IDENTITY_LIMIT], name[TN_IDENTITY_LIMIT];
    int64_t taken[TRIES];
    int32_t hello_len = tn_write_client_hello(0x0303, random, sizeof random, random, 0, suites, sizeof suites, methods, sizeof methods, false, random, 0,
                                              hello, sizeof hello);
    int32_t exchange_len = tn_write_client_key_exchange(name, unlisted_name(settings, name), exchange, sizeof exchange);
    for (size_t i = 0; i < TRIES; i++) {
        if (!connection_start(&trial, settings) || !tn_is_count(hello_len) || !tn_is_count(exchange_len))
            return;
        hand(&trial, settings, hello, (size_t)hello_len);
        leave_processor();
        int64_t from = nanoseconds();
        hand(&trial, settings, exchange, (size_t)exchange_len);
        trial.unlisted = !table_lists(settings, trial.identity, trial.identity_len);
        taken[i] = nanoseconds() - from;
    }
    connection_clear(&trial);
    qsort(taken, TRIES, sizeof taken[0], by_size);
    allowed = MARGIN * taken[TRIES / 2];
}

void work_even_out(int64_t came)
{
    while (nanoseconds() - came < allowed)
        continue;
}
