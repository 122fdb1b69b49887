/* A client over its socket: bytes, deadlines, lines in the log. */
#include "client.h"

#include <errno.h>
#include <poll.h>
#include <sys/socket.h>
#include <unistd.h>

#include "clock.h"
#include "log.h"
#include "report.h"
#include "settings.h"
#include "work.h"

enum {
    LINGER_MS = 1000, /* for what was said last, and for the client to close */
    TURNS = 16        /* reads of one client before the others get theirs */
};

/* A gate has just logged in: where it has too many connections now, the oldest goes. */
static void logged_in(struct slot *s)
{
    static struct pace full;
    struct slot *oldest;
    s->turn = places_turn();
    if (places_of_gate(s, &oldest) > options.per_gate)
        client_end(oldest, OUTCOME_REPLACED);
    if (!place_free() && !place_to_go(NULL) && pace_allows(&full, 1))
        log_line("all %zu places are taken by gates that are logged in: whoever comes now waits", places);
}

/* Logs what has become of the login, and of the connection after it where that is worth a line. */
static void tell(struct slot *s)
{
    const struct connection *c = &s->connection;
    if (!s->login_reported && c->login_outcome != OUTCOME_NONE) {
        s->login_reported = true;
        report(s->address, c, c->login_outcome, options.blocks, (unsigned)options.failed_lines);
        if (c->login_outcome == OUTCOME_COMPLETE)
            logged_in(s);
    }
    if (!s->later_reported && c->later_outcome != OUTCOME_NONE) {
        s->later_reported = true;
        if (c->later_outcome != OUTCOME_STOPPED)
            report(s->address, c, c->later_outcome, options.blocks, (unsigned)options.failed_lines);
    }
}

/* Closes before it tells: the time of the line depends on the table. */
static void drop(struct slot *s)
{
    connection_lost(&s->connection);
    close(s->fd);
    tell(s);
    connection_clear(&s->connection);
    s->fd = -1;
}

/* Sends what there is to send; false where the transport is broken. */
static bool send_some(struct slot *s)
{
    struct connection *c = &s->connection;
    while (c->channel.out_at < c->channel.out_end) {
        ssize_t n = send(s->fd, c->channel.out + c->channel.out_at, c->channel.out_end - c->channel.out_at, MSG_NOSIGNAL);
        if (n < 0)
            return errno == EAGAIN || errno == EWOULDBLOCK || errno == EINTR;
        connection_sent(c, (size_t)n);
    }
    return true;
}

/* Under the rule hide, after a ClientKeyExchange that came then: what the line will say of it is found now, the loop stays with it as long as with any other,
 * and the connection rests. */
static void hide(struct slot *s, int64_t came)
{
    struct connection *c = &s->connection;
    if (!c->judged || !settings_hide(&settings))
        return;
    c->judged = false;
    c->unlisted = c->identity_len > sizeof c->identity || !table_lists(&settings, c->identity, c->identity_len);
    if (options.hide_ms == 0)
        return;
    work_even_out(came);
    s->rest.until = rest_end(came, nanoseconds(), 1000000 * (int64_t)options.hide_ms);
}

/* Reads what there is, for some turns; false where the client is gone and nothing is left to be sent. */
static bool receive_some(struct slot *s)
{
    struct connection *c = &s->connection;
    for (int turn = 0; turn < TURNS; turn++) {
        size_t wanted = connection_wants(c);
        if (wanted == 0)
            return true;
        ssize_t n = recv(s->fd, c->channel.in + c->channel.in_len, wanted, 0);
        if (n < 0)
            return errno == EAGAIN || errno == EWOULDBLOCK || errno == EINTR;
        if (n == 0) {
            connection_lost(c);
            return c->channel.out_at < c->channel.out_end;
        }
        int64_t came = nanoseconds();
        (void)connection_received(c, &settings, (size_t)n);
        hide(s, came);
        if (rest_left(&s->rest) > 0)
            return true;
        if (!send_some(s))
            return false;
    }
    return true;
}

/* Drops what still comes after all was said; false once the client has closed its side too. A close with unread bytes would take our last alert along. */
static bool discard(const struct slot *s)
{
    uint8_t dropped[4096];
    ssize_t n = recv(s->fd, dropped, sizeof dropped, 0);
    return n > 0 || (n < 0 && (errno == EAGAIN || errno == EWOULDBLOCK || errno == EINTR));
}

/* A completed login has a new deadline, and each enrolment line puts it off: other records may come from a client that only holds its place. */
static void put_off(struct slot *s)
{
    if (!place_logged_in(s) || (s->login_reported && s->connection.lines == s->lines))
        return;
    s->lines = s->connection.lines;
    s->deadline = milliseconds() + 1000 * (int64_t)options.idle_seconds;
}

/* What is to be closed, done or said after bytes have come and gone; said last, since the time of the line depends on the table. */
static void wind_up(struct slot *s)
{
    struct connection *c = &s->connection;
    put_off(s);
    if (c->ended && c->channel.out_at == c->channel.out_end && !s->said_all) {
        s->said_all = true;
        s->deadline = milliseconds() + LINGER_MS;
        shutdown(s->fd, SHUT_WR);
    }
    tell(s);
}

void client_serve(struct slot *s, short events)
{
    struct connection *c = &s->connection;
    bool was_over = c->ended;
    if (rest_left(&s->rest) > 0)
        return;
    bool here = send_some(s);
    if (here && s->said_all)
        here = discard(s);
    else if (here && (events & (POLLIN | POLLHUP | POLLERR)) && !c->ended)
        here = receive_some(s);
    if (!here) {
        drop(s);
        return;
    }
    if (rest_left(&s->rest) > 0)
        return;
    wind_up(s);
    if (c->ended && !was_over && !s->said_all)
        s->deadline = milliseconds() + LINGER_MS;
}

void client_end(struct slot *s, enum outcome why)
{
    if (s->connection.ended) {
        drop(s);
        return;
    }
    connection_close(&s->connection, why);
    s->deadline = milliseconds() + LINGER_MS;
    client_serve(s, 0);
}

void client_end_at_once(struct slot *s, enum outcome why)
{
    connection_close(&s->connection, why);
    (void)send_some(s);
    drop(s);
}

short client_events(const struct slot *s)
{
    const struct connection *c = &s->connection;
    short events = 0;
    if (s->said_all || connection_wants(c) > 0)
        events |= POLLIN;
    if (c->channel.out_at < c->channel.out_end)
        events |= POLLOUT;
    return events;
}
