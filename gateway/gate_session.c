/*
 * The gate's session with a gateway, apart from its socket.
 *
 * Beside the alerts on records, which channel.h has: application data before completion, or such as no line has asked for, is 10, and so is a handshake
 * message after completion. Only a HelloRequest is passed over then, as RFC 5246 section 7.4.1.1 allows a client that does not want another handshake. An
 * answer that is too long is 50.
 */
#include "gate_session.h"

#include <openssl/crypto.h>
#include <string.h>

#include "alerts.h"
#include "enrolment.h"
#include "entropy.h"
#include "wipe.h"

enum { HELLO_REQUEST = 0 };

/* ---- ending */

static void conclude(struct session *s, enum ending how, uint8_t alert, const char *why)
{
    s->ending = how;
    s->alert = alert;
    s->why = why;
    s->ended = true;
}

static void send_alert(struct session *s, uint8_t level, uint8_t description)
{
    const uint8_t content[2] = {level, description};
    (void)channel_queue(&s->channel, RECORD_ALERT, content, sizeof content);
}

/* Ends the session with a fatal alert. */
static void refuse(struct session *s, uint8_t alert, const char *why)
{
    send_alert(s, LEVEL_FATAL, alert);
    conclude(s, ENDING_ALERT_SENT, alert, why);
}

/* Why the library's client gives an alert. */
static const char *reason(uint8_t alert)
{
    switch (alert) {
    case TN_ALERT_UNEXPECTED_MESSAGE: return "a message that has no place here";
    case TN_ALERT_ILLEGAL_PARAMETER: return "it chose a suite, version or compression that was not offered";
    case TN_ALERT_DECODE_ERROR: return "a message of another form";
    case TN_ALERT_DECRYPT_ERROR: return "its Finished is not the one that our key gives";
    case TN_ALERT_PROTOCOL_VERSION: return "it has no TLS 1.2";
    case TN_ALERT_UNSUPPORTED_EXTENSION: return "an extension, and none was asked for";
    default: return "it was refused";
    }
}

static const char own_fault[] = "a fault of our own: libcrypto or the library failed";

/* What the library refused; an R number is our own fault. */
static void refuse_result(struct session *s, int32_t result)
{
    if (tn_is_alert(result))
        refuse(s, tn_alert_number(result), reason(tn_alert_number(result)));
    else
        refuse(s, ALERT_INTERNAL_ERROR, own_fault);
}

/* ---- no key outlives its use */

/* The last step of each public function that may have handled keys, of which the work stands in a function that is not inlined: its frame is then among those
 * that are cleared. A session that is over needs no key. */
static void leave(struct session *s)
{
    if (s->ended) {
        OPENSSL_cleanse(s->login, sizeof s->login);
        channel_forget(&s->channel);
    }
    wipe_stack();
}

void session_clear(struct session *s)
{
    OPENSSL_cleanse(s, sizeof *s);
    records_forget();
    wipe_stack();
}

/* ---- handshake messages */

static __attribute__((noinline)) bool start(struct session *s, const uint8_t *identity, size_t identity_len, const uint8_t *key, size_t key_len)
{
    uint8_t hello[TN_CLIENT_HELLO_SIZE];
    if (!entropy_fill(s->client_random, sizeof s->client_random))
        return false;
    int32_t n = tn_client_start(s->login, s->client_random, sizeof s->client_random, identity, identity_len, key, key_len, hello, sizeof hello);
    return tn_is_count(n) && channel_queue(&s->channel, RECORD_HANDSHAKE, hello, (size_t)n);
}

bool session_start(struct session *s, const uint8_t *identity, size_t identity_len, const uint8_t *key, size_t key_len)
{
    session_clear(s);
    bool started = start(s, identity, identity_len, key, key_len);
    leave(s);
    return started;
}

/* The ServerHello was accepted. */
static bool take_hello(struct session *s)
{
    s->suite = suite_of((uint32_t)tn_client_suite(s->login));
    memcpy(s->server_random, s->channel.message + TN_HELLO_RANDOM_AT, sizeof s->server_random);
    return s->suite != NULL;
}

/* The ServerHelloDone was accepted: n bytes are our ClientKeyExchange and our Finished, with a change of cipher between them. */
static bool finish(struct session *s, const uint8_t *flight, size_t n, const uint8_t *master)
{
    size_t exchange = n - TN_FINISHED_SIZE;
    return channel_queue(&s->channel, RECORD_HANDSHAKE, flight, exchange)
           && channel_keys(&s->channel, TN_SIDE_CLIENT, s->suite, master, s->client_random, s->server_random) && channel_change_writing(&s->channel)
           && channel_queue(&s->channel, RECORD_HANDSHAKE, flight + exchange, TN_FINISHED_SIZE);
}

/* What an accepted message asks of us, by the phase that it led to. */
static bool accepted(struct session *s, const uint8_t *flight, size_t n, const uint8_t *master)
{
    switch (tn_client_phase(s->login)) {
    case TN_CLIENT_PHASE_SERVER_KEY_EXCHANGE: return take_hello(s);
    case TN_CLIENT_PHASE_SERVER_HELLO_DONE: return true;
    case TN_CLIENT_PHASE_CHANGE_OF_CIPHER: return finish(s, flight, n, master);
    case TN_CLIENT_PHASE_COMPLETE: return s->complete = true;
    default: return false;
    }
}

/* Hands over the message that is whole. */
static void hand_over(struct session *s)
{
    uint8_t flight[TN_CLIENT_FLIGHT_SIZE], master[TN_MASTER_SIZE];
    int32_t result = tn_client_message(s->login, s->channel.message, s->channel.message_len, flight, sizeof flight, master, &s->blocks);
    if (!tn_is_count(result))
        refuse_result(s, result);
    else if (!accepted(s, flight, (size_t)result, master))
        refuse(s, ALERT_INTERNAL_ERROR, own_fault);
    OPENSSL_cleanse(master, sizeof master);
}

/* A message after completion. */
static void message_later(struct session *s)
{
    if (s->channel.message[0] != HELLO_REQUEST || s->channel.message_len != MESSAGE_HEADER)
        refuse(s, TN_ALERT_UNEXPECTED_MESSAGE, "a handshake message after the login");
}

/* A record may hold several messages, and a message may come in several records. */
static void handshake_bytes(struct session *s, const uint8_t *bytes, size_t n)
{
    while (n > 0 && !s->ended) {
        size_t taken = channel_join(&s->channel, bytes, n);
        bytes += taken;
        n -= taken;
        if (!channel_joined(&s->channel))
            continue;
        (s->complete ? message_later : hand_over)(s);
        s->channel.message_len = 0;
    }
}

/* ---- the other kinds of records */

static void change_of_cipher(struct session *s, const struct arrival *a)
{
    uint8_t fault = channel_change_fault(&s->channel, s->complete, a);
    int32_t result = fault != 0 ? TN_ALERT_RESULT(fault) : tn_client_change_of_cipher(s->login);
    if (result == 0)
        channel_change_reading(&s->channel);
    else
        refuse_result(s, result);
}

/* The gateway's close_notify is answered with ours; every other alert that closes is its last word. */
static void closed_by(struct session *s, uint8_t description)
{
    if (description == ALERT_CLOSE_NOTIFY)
        send_alert(s, LEVEL_WARNING, ALERT_CLOSE_NOTIFY);
    conclude(s, description == ALERT_CLOSE_NOTIFY ? ENDING_CLOSED : ENDING_ALERT_RECEIVED, description, NULL);
}

/* An alert after completion is ours to judge, by the same rules. */
static void alert_received(struct session *s, uint8_t level, uint8_t description)
{
    bool known = level == LEVEL_WARNING || level == LEVEL_FATAL;
    bool closes = level == LEVEL_FATAL || description == ALERT_CLOSE_NOTIFY;
    if (!s->complete) {
        known = tn_client_alert(s->login, level, description) == 0;
        closes = tn_client_phase(s->login) == TN_CLIENT_PHASE_CLOSED;
    }
    if (!known)
        refuse(s, TN_ALERT_ILLEGAL_PARAMETER, "an alert of a level that does not exist");
    else if (closes)
        closed_by(s, description);
}

/* Bytes of an answer. With its line end it is whole, and nothing was asked beyond it. */
static void answer_bytes(struct session *s, const uint8_t *bytes, size_t n)
{
    for (size_t i = 0; i < n && !s->ended; i++) {
        if (!s->awaiting)
            refuse(s, TN_ALERT_UNEXPECTED_MESSAGE, "data that nobody asked for");
        else if (bytes[i] == '\n')
            s->awaiting = false;
        else if (s->answer_len < ANSWER_LIMIT)
            s->answer[s->answer_len++] = bytes[i];
        else
            refuse(s, TN_ALERT_DECODE_ERROR, "an answer of over 1024 bytes");
    }
}

/* ---- records */

static void refuse_record(struct session *s, const struct arrival *a)
{
    const char *key = "its first protected record does not open, so it has another key than ours";
    const char *way = "a record does not open, so it was changed on the way";
    if (a->unopened)
        refuse(s, a->alert, a->alert == TN_ALERT_DECRYPT_ERROR ? key : way);
    else
        refuse(s, a->alert, a->alert == ALERT_INTERNAL_ERROR ? own_fault : "a record of another form");
    if (a->unopened)
        s->ending = ENDING_UNOPENED;
}

static __attribute__((noinline)) void take(struct session *s, size_t n)
{
    struct arrival a;
    if (!channel_received(&s->channel, n, &a))
        return;
    if (a.alert != 0)
        refuse_record(s, &a);
    else if (a.type == RECORD_HANDSHAKE)
        handshake_bytes(s, a.content, a.n);
    else if (a.type == RECORD_CHANGE_CIPHER_SPEC)
        change_of_cipher(s, &a);
    else if (a.type == RECORD_ALERT)
        alert_received(s, a.content[0], a.content[1]);
    else if (!s->complete)
        refuse(s, TN_ALERT_UNEXPECTED_MESSAGE, "data before the login is complete");
    else
        answer_bytes(s, a.content, a.n);
}

size_t session_wants(const struct session *s)
{
    return s->ended ? 0 : channel_record_size(&s->channel) - s->channel.in_len;
}

void session_received(struct session *s, size_t n)
{
    take(s, n);
    leave(s);
}

/* ---- what we say */

static __attribute__((noinline)) bool say(struct session *s, const uint8_t *line, size_t n)
{
    uint8_t text[LINE_LIMIT + 1];
    if (!s->complete || s->ended)
        return false;
    memcpy(text, line, n);
    text[n] = '\n';
    s->answer_len = 0;
    s->awaiting = true;
    return channel_queue(&s->channel, RECORD_APPLICATION_DATA, text, n + 1);
}

bool session_say(struct session *s, const uint8_t *line, size_t n)
{
    bool said = say(s, line, n);
    leave(s);
    return said;
}

static __attribute__((noinline)) void say_goodbye(struct session *s)
{
    send_alert(s, LEVEL_WARNING, ALERT_CLOSE_NOTIFY);
    conclude(s, ENDING_OURS, ALERT_CLOSE_NOTIFY, NULL);
}

void session_close(struct session *s)
{
    if (s->ended)
        return;
    say_goodbye(s);
    leave(s);
}
