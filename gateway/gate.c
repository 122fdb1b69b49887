/*
 * The gate: logs in at a gateway over the library's client, sends the lines that enrol cows and prints the answers. A line is sent when the one before was
 * answered, so that what was printed is what was enrolled, however it ends. Here are the key, the socket, the lines and what is said; gate_session.c has the
 * login and the records.
 */
#include <errno.h>
#include <inttypes.h>
#include <openssl/crypto.h>
#include <poll.h>
#include <signal.h>
#include <stdio.h>
#include <string.h>
#include <sys/socket.h>
#include <unistd.h>

#include "alerts.h"
#include "clock.h"
#include "dial.h"
#include "enrolment.h"
#include "gate_options.h"
#include "gate_session.h"
#include "records.h"
#include "streams.h"
#include "table.h"
#include "wipe.h"

enum {
    LINGER_MS = 1000, /* for the gateway to close too */
    FOREVER = 0,      /* seconds: without a limit */
    TURNS = 64        /* reads before the time is looked at */
};

/* Lines of standard input. */
struct input {
    uint8_t bytes[LINE_LIMIT + 2]; /* one line with CR and LF; what came behind it */
    size_t n;
    bool ready, over;
};

static struct gate_options options;
static struct session session;
static struct input input;
static int fd = -1;
static int broken;           /* the transport's error, where it has one */
static unsigned long number; /* of the line that is sent or awaited */
static uint8_t line[LINE_LIMIT];
static size_t line_len;

/* ---- the key */

/* The name that was given, or the table's only one; NULL after a line on standard error. */
static const uint8_t *find_name(const struct table *table, const char *file, size_t *n)
{
    const uint8_t *first = table->bytes;
    if (options.identity) {
        *n = strlen(options.identity);
        return (const uint8_t *)options.identity;
    }
    if (table->lines == 1) {
        *n = (size_t)((const uint8_t *)memchr(first, ':', table->n) - first);
        return first;
    }
    if (table->lines == 0)
        (void)say(UNLISTED, "%s lists no gate", file);
    else
        (void)say(UNLISTED, "%s lists %zu gates: name one with --identity", file, table->lines);
    return NULL;
}

/* Starts the session with the key that the table has for the gate. */
static int start_with(const struct table *table, const char *file)
{
    uint8_t key[TN_PSK_LIMIT];
    size_t n;
    const uint8_t *name = find_name(table, file, &n);
    if (!name)
        return UNLISTED;
    int32_t size = tn_table_lookup(table->bytes, table->n, table->starts, TN_TABLE_LINES, table->lines, name, n, key, sizeof key);
    if (!tn_is_count(size))
        return say(UNLISTED, "%s does not list \"%s\"", file, options.identity);
    bool started = session_start(&session, name, n, key, (size_t)size);
    OPENSSL_cleanse(key, sizeof key);
    return started ? DONE : say(FAILED, "no session could be started: no randomness, or no cryptography");
}

/* The library keeps the key from here on, as long as the login needs it. The frame is below run's, and so among those that are cleared. */
static __attribute__((noinline)) int take_key(void)
{
    static struct table table;
    char why[TABLE_SENTENCE];
    const char *file = strcmp(options.keys, "-") == 0 ? "/dev/stdin" : options.keys, *says[TABLE_WARNINGS];
    if (!table_read(&table, file, false, why))
        return say(BAD_KEYS, "%s: %s", file, why);
    size_t warnings = table_warnings(&table, says);
    for (size_t i = 0; i < warnings; i++)
        (void)say(DONE, "warning: %s %s", file, says[i]);
    int status = start_with(&table, file);
    OPENSSL_cleanse(&table, sizeof table);
    return status;
}

/* ---- bytes over the socket */

/* Sends what there is to send, as far as it goes at once. Where the gateway is gone the rest is dropped: what it has said before can still be read. */
static void send_some(void)
{
    struct channel *c = &session.channel;
    while (c->out_at < c->out_end) {
        ssize_t n = send(fd, c->out + c->out_at, c->out_end - c->out_at, MSG_NOSIGNAL);
        if (n < 0 && (errno == EAGAIN || errno == EWOULDBLOCK || errno == EINTR))
            return;
        (void)channel_sent(c, n < 0 ? c->out_end - c->out_at : (size_t)n);
    }
}

/* Reads what there is, for some turns; false where the gateway is gone. */
static bool receive_some(void)
{
    size_t wanted;
    for (int turn = 0; turn < TURNS && (wanted = session_wants(&session)) > 0; turn++) {
        ssize_t n = recv(fd, session.channel.in + session.channel.in_len, wanted, 0);
        if (n < 0 && (errno == EAGAIN || errno == EWOULDBLOCK || errno == EINTR))
            return true;
        broken = n < 0 ? errno : 0;
        if (n <= 0)
            return false;
        session_received(&session, (size_t)n);
    }
    return true;
}

/* What is waited for. */
enum goal { LOGIN, ANSWER, INPUT };

/* How the waiting ended. */
enum came { REACHED, OVER, GONE, LATE };

/* An answer that has come counts, whatever came behind it. */
static bool reached(enum goal goal)
{
    switch (goal) {
    case LOGIN: return session.complete && !session.ended && session.channel.out_at == session.channel.out_end;
    case ANSWER: return !session.awaiting;
    default: return input.ready && !session.ended;
    }
}

/* Waits for the gateway and, for the goal INPUT, for standard input, until then; REACHED where something may have come, or how it ends. */
static enum came wait_until(enum goal goal, int64_t until)
{
    bool sending = session.channel.out_at < session.channel.out_end;
    struct pollfd polled[2] = {{.fd = fd, .events = (short)(POLLIN | (sending ? POLLOUT : 0))}, {.fd = goal == INPUT ? STDIN_FILENO : -1, .events = POLLIN}};
    int64_t left = until == FOREVER ? -1 : until - milliseconds();
    if (until != FOREVER && left <= 0)
        return LATE;
    int n = poll(polled, 2, (int)left);
    input.ready = n > 0 && polled[1].revents != 0;
    if (n >= 0 || errno == EINTR)
        return REACHED;
    broken = errno;
    return GONE;
}

/* Moves bytes until the goal is reached, so many seconds at most. */
static enum came await(enum goal goal, unsigned seconds)
{
    int64_t until = seconds == FOREVER ? FOREVER : milliseconds() + 1000 * (int64_t)seconds;
    for (;;) {
        bool here = receive_some();
        send_some();
        if (reached(goal))
            return REACHED;
        if (session.ended)
            return OVER;
        enum came how = here ? wait_until(goal, until) : GONE;
        if (how != REACHED)
            return how;
    }
}

/* Sends what is left, and drops what still comes until the gateway has closed too, for at most a second: a close with unread bytes would take our last alert
 * along. */
static void take_leave(void)
{
    uint8_t dropped[4096];
    int64_t until = milliseconds() + LINGER_MS;
    ssize_t n = 1;
    send_some();
    (void)shutdown(fd, SHUT_WR);
    for (int64_t left; n != 0 && (left = until - milliseconds()) > 0;) {
        struct pollfd ready = {.fd = fd, .events = POLLIN};
        if (poll(&ready, 1, (int)left) <= 0)
            continue;
        n = recv(fd, dropped, sizeof dropped, 0);
        if (n < 0 && errno != EAGAIN && errno != EINTR)
            return;
    }
}

/* ---- what is said of a failure */

/* What was going on. */
static void add_place(char *text, size_t size, enum goal goal)
{
    if (goal == LOGIN)
        snprintf(text, size, "login");
    else
        snprintf(text, size, "%s %lu", goal == INPUT ? "before line" : "line", number);
}

static int say_ending(const char *place)
{
    const char *name = alert_name(session.alert), *space = name[0] ? " " : "";
    unsigned alert = session.alert;
    switch (session.ending) {
    case ENDING_ALERT_RECEIVED:
        return say(WAS_TOLD, "%s: %s: the gateway sent alert %u%s%s", options.server, place, alert, space, name);
    case ENDING_CLOSED:
        return say(LOST, "%s: %s: the gateway closed the connection", options.server, place);
    default:
        return say(session.ending == ENDING_UNOPENED ? NOT_OPENED : HAS_TOLD, "%s: %s: sent alert %u%s%s: %s", options.server, place, alert, space, name,
                   session.why);
    }
}

/* The goal was not reached. */
static int failed(enum came how, enum goal goal, unsigned seconds)
{
    char place[40];
    add_place(place, sizeof place, goal);
    if (how == OVER) {
        int status = say_ending(place);
        take_leave();
        return status;
    }
    if (how == GONE)
        return say(LOST, "%s: %s: the connection broke: %s", options.server, place, broken ? strerror(broken) : "closed without close_notify");
    session_close(&session);
    send_some();
    return say(TIME_OUT, "%s: %s: time-out after %u s", options.server, place, seconds);
}

/* What the login cost, where that was asked for; also where it failed after the master secret was derived. */
static void tell_blocks(void)
{
    if (options.blocks && session.blocks > 0)
        (void)say(DONE, "%s: login: %" PRIu64 " blocks", options.server, session.blocks);
}

static int wait_for(enum goal goal, unsigned seconds)
{
    enum came how = await(goal, seconds);
    if (goal == LOGIN)
        tell_blocks();
    return how == REACHED ? DONE : failed(how, goal, seconds);
}

/* ---- the lines */

/* Ends the session from our side; gives the status. */
static int finish(int status)
{
    session_close(&session);
    take_leave();
    return status;
}

static int too_long(void)
{
    return finish(say(MISUSED, "line %lu has over %d bytes, which no gateway takes; it and what follows was not sent", number, LINE_LIMIT));
}

/* Takes the first n bytes of what was read as the line, without a CR at its end, and drops `end` more. */
static void cut_line(size_t n, size_t end)
{
    line_len = n > 0 && input.bytes[n - 1] == '\r' ? n - 1 : n;
    memcpy(line, input.bytes, line_len < sizeof line ? line_len : sizeof line);
    input.n -= n + end;
    memmove(input.bytes, input.bytes + n + end, input.n);
}

/* Waits for more of standard input, and reads it. */
static int read_more(void)
{
    int status = wait_for(INPUT, FOREVER);
    if (status != DONE)
        return status;
    input.ready = false;
    ssize_t n = read(STDIN_FILENO, input.bytes + input.n, sizeof input.bytes - input.n);
    if (n < 0 && errno != EINTR && errno != EAGAIN)
        return finish(say(FAILED, "standard input can't be read: %s", strerror(errno)));
    input.over = n == 0;
    input.n += n > 0 ? (size_t)n : 0;
    return DONE;
}

/* The next line of standard input that is not empty; *more is false where there is none. The last one may lack its line end. */
static int next_input(bool *more)
{
    for (;;) {
        const uint8_t *end = memchr(input.bytes, '\n', input.n);
        if (end || (input.over && input.n > 0)) {
            cut_line(end ? (size_t)(end - input.bytes) : input.n, end ? 1 : 0);
            if (line_len > 0)
                return line_len <= LINE_LIMIT ? DONE : too_long();
            number++;
            continue;
        }
        *more = !input.over;
        if (input.over)
            return DONE;
        int status = input.n == sizeof input.bytes ? too_long() : read_more();
        if (status != DONE)
            return status;
    }
}

/* The next line, as next_input. */
static int next_line(bool *more)
{
    number++;
    if (options.count == 0)
        return next_input(more);
    *more = number <= (unsigned long)options.count;
    if (*more) {
        line_len = strlen(options.lines[number - 1]);
        memcpy(line, options.lines[number - 1], line_len);
    }
    return DONE;
}

/* Sends the line and prints its answer. Where the gateway has closed behind the answer, that matters to the next line only. */
static int enrol(void)
{
    if (session.ended)
        return failed(OVER, ANSWER, 0);
    if (!session_say(&session, line, line_len))
        return finish(say(FAILED, "%s: line %lu: no randomness, or no cryptography", options.server, number));
    int status = wait_for(ANSWER, options.answer_seconds);
    if (status != DONE)
        return status;
    session.answer[session.answer_len] = '\n';
    if (!write_whole(STDOUT_FILENO, session.answer, session.answer_len + 1))
        return finish(say(FAILED, "standard output can't be written: %s; line %lu was answered", strerror(errno), number));
    return session.ended && session.ending != ENDING_CLOSED ? failed(OVER, ANSWER, 0) : DONE;
}

static int converse(void)
{
    bool more = true;
    int status = wait_for(LOGIN, options.handshake_seconds);
    while (status == DONE && more) {
        status = next_line(&more);
        if (status == DONE && more)
            status = enrol();
    }
    return status == DONE ? finish(DONE) : status;
}

/* ---- the program */

static int connect_to(void)
{
    const char *why = "";
    switch (dial(options.host, options.port, options.connect_seconds, &fd, &why)) {
    case DIAL_CONNECTED: return DONE;
    case DIAL_NOT_FOUND: return say(NOT_FOUND, "%s: not found: %s", options.server, why);
    case DIAL_TIME_OUT: return say(TIME_OUT, "%s: no connection: time-out after %u s", options.server, options.connect_seconds);
    default: return say(NO_ANSWER, "%s: no connection: %s", options.server, why);
    }
}

static int run(void)
{
    int status = take_key();
    wipe_stack();
    if (status == DONE)
        status = connect_to();
    if (status == DONE)
        status = converse();
    session_clear(&session);
    if (fd >= 0)
        close(fd);
    return status;
}

int main(int count, char **words)
{
    if (!hold_streams())
        return say(FAILED, "/dev/null can't be opened: %s", strerror(errno));
    enum reading reading = gate_options_read(&options, count, words);
    if (reading != OPTIONS_READ)
        return reading == OPTIONS_HELP ? DONE : MISUSED;
    if (!forbid_dumps())
        return say(FAILED, "core dumps can't be forbidden: %s", strerror(errno));
    if (!records_start())
        return say(FAILED, "no cryptography: libcrypto gives no AES-128-CBC or no HMAC");
    signal(SIGPIPE, SIG_IGN); /* what can't be printed is told by the call */
    int status = run();
    records_stop();
    return status;
}
