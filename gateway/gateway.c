/*
 * The gateway: a TLS 1.2 server with pre-shared keys over the library, one poll loop for all its clients. It takes clients in, reads the table and
 * waits for events, time and signals; client.c serves a client, places.c says who goes where there are too many.
 */
#include <errno.h>
#include <openssl/crypto.h>
#include <poll.h>
#include <signal.h>
#include <stdio.h>
#include <stdlib.h>
#include <string.h>
#include <sys/select.h>
#include <unistd.h>

#include "client.h"
#include "clock.h"
#include "entropy.h"
#include "listener.h"
#include "log.h"
#include "report.h"
#include "settings.h"
#include "table.h"
#include "wipe.h"
#include "work.h"

enum {
    ARRIVALS = 32,   /* clients that are taken in before the others get their turn */
    TROUBLE_MS = 100 /* rest after the system has refused a call */
};

struct settings settings;
struct options options;
static unsigned long accepted_in_all;
static int64_t accept_from; /* no sooner, after trouble */
static volatile sig_atomic_t stop_asked, reload_asked;

/* ---- clients that come */

/* Sees to it that there is a place for a client of this origin, and that this origin has not too many. */
static struct slot *find_room(const struct origin *origin, const char *address)
{
    static struct pace full, crowded;
    if (places_of_origin(origin) >= options.per_address) {
        if (pace_allows(&crowded, 1))
            log_line("%s: its address has %lu unfinished handshakes, the most allowed: the oldest goes", address, options.per_address);
        client_end_at_once(place_to_go(origin), OUTCOME_MADE_ROOM);
    }
    if (!place_free()) {
        struct slot *goes = place_to_go(NULL);
        if (!goes->connection.ended && pace_allows(&full, 1))
            log_line("all %zu places are taken: the oldest unfinished handshake goes", places);
        client_end_at_once(goes, OUTCOME_MADE_ROOM);
    }
    return place_free();
}

/* What the system has refused is said, at most once a second, and not asked again at once. */
static void trouble(const char *call, const char *error)
{
    static struct pace said;
    if (pace_allows(&said, 1))
        log_line("%s: %s", call, error);
}

static void welcome(int fd, const struct sockaddr_storage *from)
{
    char address[sizeof slots->address];
    struct origin origin = address_origin(from);
    address_text(from, address, sizeof address);
    struct slot *s = find_room(&origin, address);
    accepted_in_all++;
    if (!connection_start(&s->connection, &settings)) {
        trouble(address, "no connection could be started");
        close(fd);
        return;
    }
    s->fd = fd;
    s->said_all = s->login_reported = s->later_reported = false;
    s->turn = places_turn();
    s->lines = 0;
    s->rest = (struct rest){0};
    s->origin = origin;
    s->deadline = milliseconds() + 1000 * (int64_t)options.handshake_seconds;
    memcpy(s->address, address, sizeof address);
    client_serve(s, POLLIN); /* its hello has often come along, and then it is not silent */
}

/* Whether a client that comes now can have a place. */
static bool accepting(void)
{
    return milliseconds() >= accept_from && (options.once == 0 || accepted_in_all < options.once) && (place_free() || place_to_go(NULL));
}

static void take_in(int listener)
{
    for (int i = 0; i < ARRIVALS && accepting(); i++) {
        struct sockaddr_storage from;
        int error, fd = listener_accept(listener, &from, &error);
        if (fd >= 0) {
            welcome(fd, &from);
            continue;
        }
        if (error != 0) {
            trouble("accept", strerror(error));
            accept_from = milliseconds() + TROUBLE_MS;
        }
        return;
    }
}

/* ---- the table */

/* What is odd about a table that is well formed. */
static void warn(const struct table *table)
{
    const char *says[TABLE_WARNINGS];
    size_t n = table_warnings(table, says);
    for (size_t i = 0; i < n; i++)
        log_line("warning: %s %s", options.table, says[i]);
}

/* Whoever logged in by a line that the new table has not loses its connection. A login that is between naming its gate and its end was judged by the old
 * table, and ends whatever the name is, so that it can't be learned from that which names are listed. */
static void retire(const struct table *fresh)
{
    for (size_t i = 0; i < places; i++) {
        struct connection *c = &slots[i].connection;
        if (slots[i].fd < 0 || c->ended || !c->identity_known)
            continue;
        if (c->login_outcome == OUTCOME_NONE || !table_keeps(&settings, fresh, c->identity, c->identity_len))
            client_end(&slots[i], OUTCOME_RETIRED);
    }
}

/* Reads the table, at the start or again; false where it can't be used. */
static bool take_table(bool again)
{
    static struct table fresh;
    char why[TABLE_SENTENCE];
    if (!table_read(&fresh, options.table, again, why)) {
        if (again)
            log_line("%s: %s; the old table stays", options.table, why);
        else
            fprintf(stderr, "gateway: %s: %s\n", options.table, why);
        return false;
    }
    warn(&fresh);
    if (again)
        retire(&fresh);
    table_use(&settings, &fresh);
    if (settings_hide(&settings))
        work_measure(&settings);
    if (again)
        log_line("%s read again, gates: %zu", options.table, settings.lines);
    return true;
}

/* ---- the loop */

static void on_signal(int number)
{
    if (number == SIGHUP)
        reload_asked = 1;
    else
        stop_asked = 1;
}

/* Signals come only while ppoll waits; *waiting is the mask for that. */
static void take_signals(sigset_t *waiting)
{
    static const int numbers[] = {SIGINT, SIGTERM, SIGHUP};
    sigset_t blocked;
    sigemptyset(&blocked);
    for (size_t i = 0; i < sizeof numbers / sizeof numbers[0]; i++) {
        struct sigaction action = {.sa_handler = on_signal};
        sigaction(numbers[i], &action, NULL);
        sigaddset(&blocked, numbers[i]);
    }
    sigprocmask(SIG_BLOCK, &blocked, waiting);
    for (size_t i = 0; i < sizeof numbers / sizeof numbers[0]; i++)
        sigdelset(waiting, numbers[i]);
}

/* What is polled: the listener, the log, then the clients, and whose each of these is. */
static struct pollfd *polled;
static struct slot **whose;
enum { LISTENER, LOG, FIRST_CLIENT };

/* The sooner of two times to wait, of which -1 is none. */
static int64_t sooner(int64_t a, int64_t b)
{
    return a < 0 || (b >= 0 && b < a) ? b : a;
}

static int64_t in_nanoseconds(int64_t ms)
{
    return ms < 0 ? ms : ms * 1000000;
}

/* Fills the list; its length, and the time in nanoseconds until there is something to do without an event, or -1. A client that rests has no events. */
static size_t prepare(int listener, int64_t *wait)
{
    int64_t now = milliseconds();
    size_t n = FIRST_CLIENT;
    *wait = in_nanoseconds(sooner(report_rest(false), accept_from > now ? accept_from - now : -1));
    polled[LISTENER] = (struct pollfd){.fd = accepting() ? listener : -1, .events = POLLIN};
    polled[LOG] = (struct pollfd){.fd = log_waits_for(), .events = POLLOUT};
    for (size_t i = 0; i < places; i++) {
        if (slots[i].fd < 0)
            continue;
        int64_t rest = rest_left(&slots[i].rest);
        whose[n] = &slots[i];
        polled[n++] = (struct pollfd){.fd = rest > 0 ? -1 : slots[i].fd, .events = client_events(&slots[i])};
        *wait = sooner(*wait, rest > 0 ? rest : in_nanoseconds(slots[i].deadline > now ? slots[i].deadline - now : 0));
    }
    return n;
}

/* Those for whom something has come or can go, then those whose time is over. */
static void serve_clients(size_t n, int woken)
{
    for (size_t i = FIRST_CLIENT; woken > 0 && i < n; i++)
        if (polled[i].revents && whose[i]->fd == polled[i].fd)
            client_serve(whose[i], polled[i].revents);
    int64_t now = milliseconds();
    for (size_t i = 0; i < places; i++)
        if (slots[i].fd >= 0 && slots[i].deadline <= now)
            client_end(&slots[i], OUTCOME_TIME_OUT);
}

static void turn(int listener, const sigset_t *waiting)
{
    int64_t wait;
    size_t n = prepare(listener, &wait);
    struct timespec limit = {.tv_sec = (time_t)(wait / 1000000000), .tv_nsec = (long)(wait % 1000000000)};
    int woken = ppoll(polled, n, wait < 0 ? NULL : &limit, waiting);
    if (woken < 0 && errno != EINTR) {
        const struct timespec rest = {.tv_nsec = TROUBLE_MS * 1000000L};
        trouble("ppoll", strerror(errno));
        (void)pselect(0, NULL, NULL, NULL, &rest, waiting); /* signals come here too */
    }
    log_flush();
    serve_clients(n, woken);
    if (woken > 0 && polled[LISTENER].revents)
        take_in(listener);
    if (reload_asked) {
        reload_asked = 0;
        (void)take_table(true);
        wipe_stack(); /* after the table's test, and where the signal's frame has kept registers */
    }
}

/* Until a signal, or until the connections that were asked for are over; then all that are left are closed. */
static void run(int listener, const sigset_t *waiting)
{
    while (!stop_asked && (options.once == 0 || accepted_in_all < options.once || places_in_use() > 0))
        turn(listener, waiting);
    for (size_t i = 0; i < places; i++)
        if (slots[i].fd >= 0)
            client_end_at_once(&slots[i], OUTCOME_STOPPED);
    (void)report_rest(true);
}

/* Places, and what belongs to them. */
static bool make_places(void)
{
    if (!places_allowed(options.clients))
        return false;
    polled = calloc(FIRST_CLIENT + options.clients, sizeof *polled);
    whose = calloc(FIRST_CLIENT + options.clients, sizeof(struct slot *));
    if (polled && whose && places_make(options.clients))
        return true;
    fprintf(stderr, "gateway: no memory for %lu clients\n", options.clients);
    return false;
}

/* What can be tested before the first client comes: places, randomness, libcrypto, table, and by a trial start the hint. */
static bool ready(void)
{
    settings.hint = options.hint;
    settings.rule = options.rule;
    settings.proved = options.proved_records;
    if (!make_places())
        return false;
    if (!records_start() || !entropy_fill(settings.stand_in, sizeof settings.stand_in)) {
        fprintf(stderr, "gateway: no cryptography or no randomness\n");
        return false;
    }
    if (!take_table(false))
        return false;
    struct connection *trial = &slots[0].connection;
    bool started = connection_start(trial, &settings);
    connection_clear(trial);
    if (!started)
        fprintf(stderr, "gateway: --hint: not UTF-8, or more than %d bytes; --help lists the options\n", TN_HINT_LIMIT);
    return started;
}

static void announce(int listener)
{
    static const char *const rules[] = {"hide, since none was named", "tell", "hide"};
    const char *meaning = settings_hide(&settings) ? "unknown gates are not told apart from wrong keys; --rule tell while fitting"
                                                   : "unknown gates are told so, and so is anybody who tries names; --rule hide after fitting";
    const char *records = settings.proved ? " records: proved, PSK-NULL-SHA256 alone (INTEGRITY WITHOUT SECRECY: everybody on the way can read what passes),"
                                          : "";
    struct sockaddr_storage at = {0};
    socklen_t size = sizeof at;
    char text[INET6_ADDRSTRLEN + 10];
    getsockname(listener, (struct sockaddr *)&at, &size);
    address_text(&at, text, sizeof text);
    log_line("listening on %s,%s rule: %s (%s), places: %zu, gates in %s: %zu", text, records, rules[options.rule], meaning, places, options.table,
             settings.lines);
}

int main(int count, char **words)
{
    log_start();
    enum reading reading = options_read(&options, count, words);
    if (reading != OPTIONS_READ)
        return reading == OPTIONS_HELP ? 0 : 2;
    if (!forbid_dumps()) {
        fprintf(stderr, "gateway: core dumps can't be forbidden: %s\n", strerror(errno));
        return 1;
    }
    int listener = ready() ? listener_open(&options) : -1;
    if (listener >= 0) {
        sigset_t waiting;
        take_signals(&waiting);
        announce(listener);
        run(listener, &waiting);
        close(listener);
    }
    records_stop();
    OPENSSL_cleanse(&settings, sizeof settings);
    log_finish();
    free(whose);
    free(polled);
    free(slots);
    return listener >= 0 ? 0 : 1;
}
