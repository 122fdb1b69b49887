/*
 * One client of the gateway, apart from its socket.
 *
 * Beside the alerts on records, which channel.h has: application data before completion and handshake bytes after it are 10.
 */
#include "connection.h"

#include <openssl/crypto.h>
#include <string.h>

#include "alerts.h"
#include "entropy.h"
#include "wipe.h"

enum {
    ANSWERS_SIZE = 2048, /* answers to lines that go into one record */
    ALERT_RESERVE = 128  /* room in the channel's `out` that is kept for a last alert */
};

static const char answer_front[] = "enrolled ";
enum { ANSWER_FRONT = sizeof answer_front - 1, ANSWER_LIMIT = ANSWER_FRONT + LINE_LIMIT + 1 };

static bool complete(const struct connection *c)
{
    return c->login_outcome == OUTCOME_COMPLETE;
}

/* ---- ending and sending */

static void conclude(struct connection *c, enum outcome how, uint8_t alert)
{
    if (c->login_outcome == OUTCOME_NONE)
        c->login_outcome = how;
    else
        c->later_outcome = how;
    c->alert = alert;
    c->ended = true;
}

/* The room behind what is to be sent, where the library writes the records. */
static uint8_t *out_end(struct connection *c, size_t *room)
{
    *room = sizeof c->channel.out - c->channel.out_end;
    return c->channel.out + c->channel.out_end;
}

/* So many bytes were written there; false where there are none. */
static bool queued(struct connection *c, int32_t size)
{
    c->channel.out_end += size > 0 ? (size_t)size : 0;
    return size > 0;
}

/* Where the library writes the records, of the host's own there are application data and close_notify alone, and that stands for every alert. */
static bool queue(struct connection *c, enum record_type type, const uint8_t *content, size_t n)
{
    size_t room;
    uint8_t *out = out_end(c, &room);
    if (!c->proved)
        return channel_queue(&c->channel, type, content, n);
    return queued(c, type == RECORD_APPLICATION_DATA ? tn_send_data(c->login, content, n, out, room) : tn_send_close(c->login, out, room));
}

/* Ends the connection with a fatal alert. */
static void refuse(struct connection *c, uint8_t alert)
{
    const uint8_t content[2] = {LEVEL_FATAL, alert};
    (void)queue(c, RECORD_ALERT, content, sizeof content);
    conclude(c, c->proved ? OUTCOME_CLOSED_FOR : OUTCOME_ALERT_SENT, alert);
}

/* What the library refused: an alert is the client's; an R number is our own fault, since the settings were tested. */
static void refuse_result(struct connection *c, int32_t result)
{
    refuse(c, tn_is_alert(result) ? tn_alert_number(result) : ALERT_INTERNAL_ERROR);
}

static __attribute__((noinline)) void say_goodbye(struct connection *c, enum outcome why)
{
    const uint8_t content[2] = {LEVEL_WARNING, ALERT_CLOSE_NOTIFY};
    (void)queue(c, RECORD_ALERT, content, sizeof content);
    conclude(c, why, 0);
}

/* ---- no key outlives its use */

/* The last step of each public function that may have handled keys, of which the work stands in a function that is not inlined: its frame is then among those
 * that are cleared. A connection that is over needs no key, also while its last alert is still to be sent. */
static void leave(struct connection *c)
{
    if (c->ended) {
        OPENSSL_cleanse(c->login, sizeof c->login);
        channel_forget(&c->channel);
    }
    wipe_stack();
}

void connection_close(struct connection *c, enum outcome why)
{
    if (c->ended)
        return;
    say_goodbye(c, why);
    leave(c);
}

void connection_lost(struct connection *c)
{
    if (!c->ended)
        conclude(c, OUTCOME_CLOSED, 0);
    leave(c);
}

void connection_clear(struct connection *c)
{
    OPENSSL_cleanse(c, offsetof(struct connection, memory));
    records_forget();
    wipe_stack();
}

bool connection_start(struct connection *c, const struct settings *settings)
{
    connection_clear(c);
    if (!entropy_fill(c->server_random, sizeof c->server_random))
        return false;
    c->proved = settings->proved;
    int32_t result = (c->proved ? tn_record_start : tn_start)(c->login, c->server_random, sizeof c->server_random, (const uint8_t *)settings->hint,
                                                              strlen(settings->hint), settings->stand_in, sizeof settings->stand_in, settings->rule);
    leave(c);
    return result == 0;
}

/* ---- handshake messages */

/* The hello was accepted. */
static bool take_hello(struct connection *c)
{
    c->suite = suite_of((uint32_t)tn_suite(c->login));
    memcpy(c->client_random, c->channel.message + TN_HELLO_RANDOM_AT, sizeof c->client_random);
    return c->suite != NULL;
}

/* The Finished was accepted: our change of cipher, and from then on our keys. */
static bool finish(struct connection *c, const uint8_t *finished, size_t n)
{
    if (!channel_change_writing(&c->channel) || !queue(c, RECORD_HANDSHAKE, finished, n))
        return false;
    c->login_outcome = OUTCOME_COMPLETE;
    return true;
}

/* What an accepted message asks of us, by the phase that it led to. */
static bool accepted(struct connection *c, const uint8_t *answer, size_t n, const uint8_t *master)
{
    switch (tn_phase(c->login)) {
    case TN_PHASE_CLIENT_KEY_EXCHANGE:
        return take_hello(c) && queue(c, RECORD_HANDSHAKE, answer, n);
    case TN_PHASE_CHANGE_OF_CIPHER:
        return channel_keys(&c->channel, TN_SIDE_SERVER, c->suite, master, c->client_random, c->server_random);
    case TN_PHASE_COMPLETE:
        return finish(c, answer, n);
    default:
        return false;
    }
}

/* Keeps the identity for the gateway's line, also where it is refused. Only the second message may be a ClientKeyExchange. */
static void note_identity(struct connection *c)
{
    uint32_t fields[2];
    if (++c->messages != 2)
        return;
    c->judged = true;
    if (tn_read_client_key_exchange(c->channel.message, c->channel.message_len, fields) != 0)
        return;
    c->identity_known = true;
    c->identity_len = fields[1];
    memcpy(c->identity, c->channel.message + fields[0], fields[1] < sizeof c->identity ? fields[1] : sizeof c->identity);
}

/* Hands over the message that is whole. */
static void hand_over(struct connection *c, const struct settings *settings)
{
    uint8_t answer[TN_FLIGHT_SIZE], master[TN_MASTER_SIZE];
    int32_t result = tn_message(c->login, settings->table, settings->table_len, settings->starts, TN_TABLE_LINES, settings->lines, c->channel.message,
                                c->channel.message_len, answer, sizeof answer, master, &c->blocks);
    if (!tn_is_count(result))
        refuse_result(c, result);
    else if (!accepted(c, answer, (size_t)result, master))
        refuse(c, ALERT_INTERNAL_ERROR);
    OPENSSL_cleanse(master, sizeof master);
}

/* A record may hold several messages, and a message may come in several records. */
static void handshake_bytes(struct connection *c, const struct settings *settings, const uint8_t *bytes, size_t n)
{
    while (n > 0 && !c->ended) {
        if (complete(c)) {
            refuse(c, TN_ALERT_UNEXPECTED_MESSAGE);
            return;
        }
        size_t taken = channel_join(&c->channel, bytes, n);
        bytes += taken;
        n -= taken;
        if (!channel_joined(&c->channel))
            continue;
        note_identity(c);
        if (!c->proved)
            hand_over(c, settings);
        c->channel.message_len = 0;
    }
}

/* ---- the other kinds of records */

static void change_of_cipher(struct connection *c, const struct arrival *a)
{
    uint8_t fault = channel_change_fault(&c->channel, complete(c), a);
    int32_t result = fault != 0 ? TN_ALERT_RESULT(fault) : tn_change_of_cipher(c->login);
    if (result == 0)
        channel_change_reading(&c->channel);
    else
        refuse_result(c, result);
}

/* An alert after completion is ours to judge, by the same rules. */
static void alert_later(struct connection *c, uint8_t level, uint8_t description)
{
    if (level != LEVEL_WARNING && level != LEVEL_FATAL)
        refuse(c, TN_ALERT_ILLEGAL_PARAMETER);
    else if (description == ALERT_CLOSE_NOTIFY)
        say_goodbye(c, OUTCOME_NONE);
    else if (level == LEVEL_FATAL)
        conclude(c, OUTCOME_ALERT_RECEIVED, description);
}

static void alert_received(struct connection *c, uint8_t level, uint8_t description)
{
    if (complete(c)) {
        alert_later(c, level, description);
        return;
    }
    int32_t result = tn_alert(c->login, level, description);
    if (result != 0)
        refuse_result(c, result);
    else if (tn_phase(c->login) == TN_PHASE_CLOSED)
        conclude(c, description == ALERT_CLOSE_NOTIFY ? OUTCOME_CLOSED : OUTCOME_ALERT_RECEIVED, description);
}

/* ---- enrolment lines */

/* The answer to the line that has just ended, at `answer`; its length. An empty line enrols nobody. */
static size_t line_answer(struct connection *c, uint8_t *answer)
{
    size_t length = c->line_len;
    c->line_len = 0;
    c->lines++;
    if (length > 0 && c->line[length - 1] == '\r')
        length--;
    if (length == 0)
        return 0;
    memcpy(answer, answer_front, ANSWER_FRONT);
    memcpy(answer + ANSWER_FRONT, c->line, length);
    answer[ANSWER_FRONT + length] = '\n';
    return ANSWER_FRONT + length + 1;
}

/* Answers as many lines as one record takes; false at a line that is too long. */
static bool answer_some(struct connection *c)
{
    uint8_t answers[ANSWERS_SIZE];
    size_t n = 0;
    bool fits = true;
    while (c->lines_at < c->lines_end && n + ANSWER_LIMIT <= sizeof answers && fits) {
        uint8_t byte = c->channel.in[c->lines_at++];
        if (byte == '\n')
            n += line_answer(c, answers + n);
        else if (c->line_len < LINE_LIMIT || (c->line_len == LINE_LIMIT && byte == '\r'))
            c->line[c->line_len++] = byte;
        else
            fits = false;
    }
    if (n > 0 && !queue(c, RECORD_APPLICATION_DATA, answers, n))
        refuse(c, ALERT_INTERNAL_ERROR);
    return fits;
}

/* Answers lines until all that came are, or there is no room to answer more before something is sent. */
static __attribute__((noinline)) void answer_lines(struct connection *c)
{
    while (c->lines_at < c->lines_end && !c->ended && c->channel.out_end + ANSWERS_SIZE + RECORD_SEAL_OVERHEAD + ALERT_RESERVE <= OUT_SIZE)
        if (!answer_some(c) && !c->ended)
            refuse(c, TN_ALERT_DECODE_ERROR);
}

/* ---- records */

static void record_came(struct connection *c, const struct settings *settings, const struct arrival *a)
{
    if (a->alert != 0) {
        refuse(c, a->alert);
        return;
    }
    switch (a->type) {
    case RECORD_HANDSHAKE:
        handshake_bytes(c, settings, a->content, a->n);
        break;
    case RECORD_CHANGE_CIPHER_SPEC:
        change_of_cipher(c, a);
        break;
    case RECORD_ALERT:
        alert_received(c, a->content[0], a->content[1]);
        break;
    default:
        if (!complete(c)) {
            refuse(c, TN_ALERT_UNEXPECTED_MESSAGE);
            return;
        }
        c->lines_at = (size_t)(a->content - c->channel.in);
        c->lines_end = c->lines_at + a->n;
        answer_lines(c);
    }
}

/* ---- records that the library reads */

/* No call of the library tells who logs in, so the messages that may hold the name are joined here too, and used for nothing else. */
static void overhear(struct connection *c, const struct settings *settings, size_t n)
{
    int32_t phase = tn_record_phase(c->login);
    bool unprotected = phase == TN_PHASE_CLIENT_HELLO || phase == TN_PHASE_CLIENT_KEY_EXCHANGE;
    if (unprotected && c->channel.in[0] == RECORD_HANDSHAKE && n > RECORD_HEADER)
        handshake_bytes(c, settings, c->channel.in + RECORD_HEADER, n - RECORD_HEADER);
}

/* What an accepted record asks of us beside its answer. Only an alert of the client closes the connection so; its number is the content's second byte. */
static void proved_record_accepted(struct connection *c, const uint32_t told[4])
{
    int32_t phase = tn_record_phase(c->login);
    uint8_t description = c->channel.in[RECORD_HEADER + 1];
    if (phase == TN_PHASE_CLOSED && description != ALERT_CLOSE_NOTIFY) {
        conclude(c, OUTCOME_ALERT_RECEIVED, description);
    } else if (phase == TN_PHASE_CLOSED) {
        conclude(c, complete(c) ? OUTCOME_NONE : OUTCOME_CLOSED, 0);
    } else if (phase > TN_PHASE_CLIENT_HELLO) {
        c->suite = suite_of(TN_SUITE_PSK_NULL_SHA256);
        if (phase == TN_PHASE_COMPLETE)
            c->login_outcome = OUTCOME_COMPLETE;
        c->lines_at = told[2];
        c->lines_end = told[2] + told[3];
        answer_lines(c);
    }
}

static void proved_record_came(struct connection *c, const struct settings *settings)
{
    uint8_t master[TN_MASTER_SIZE];
    uint32_t told[4];
    size_t n = c->channel.in_len, room;
    uint8_t *out = out_end(c, &room);
    c->channel.in_len = 0;
    overhear(c, settings, n);
    int32_t result = tn_take_record(c->login, settings->table, settings->table_len, settings->starts, TN_TABLE_LINES, settings->lines, c->channel.in, n,
                                    c->memory, sizeof c->memory, out, room, master, told, &c->blocks);
    OPENSSL_cleanse(master, sizeof master);
    if (tn_is_alert(result)) {
        (void)queued(c, tn_closing_alert(c->login, out, room));
        conclude(c, OUTCOME_ALERT_SENT, tn_alert_number(result));
    } else if (tn_is_host_refusal(result)) {
        refuse(c, ALERT_INTERNAL_ERROR);
    } else {
        (void)queued(c, result);
        proved_record_accepted(c, told);
    }
}

/* The length of the record that is coming. More than the library takes counts as the header alone, which it refuses. */
static size_t proved_record_size(const struct connection *c)
{
    size_t size = channel_record_size(&c->channel);
    return size > TN_RECORD_LIMIT ? RECORD_HEADER : size;
}

/* So many bytes came; true where they ended a record. */
static bool proved_received(struct connection *c, const struct settings *settings, size_t n)
{
    c->channel.in_len += n;
    if (c->channel.in_len < RECORD_HEADER || c->channel.in_len < proved_record_size(c))
        return false;
    proved_record_came(c, settings);
    return true;
}

/* ---- bytes */

size_t connection_wants(const struct connection *c)
{
    if (c->ended || c->lines_at < c->lines_end)
        return 0;
    return (c->proved ? proved_record_size(c) : channel_record_size(&c->channel)) - c->channel.in_len;
}

/* As connection_received. */
static __attribute__((noinline)) bool take(struct connection *c, const struct settings *settings, size_t n)
{
    struct arrival a;
    if (c->proved)
        return proved_received(c, settings, n);
    if (!channel_received(&c->channel, n, &a))
        return false;
    record_came(c, settings, &a);
    return true;
}

bool connection_received(struct connection *c, const struct settings *settings, size_t n)
{
    bool record = take(c, settings, n);
    if (record)
        leave(c);
    return record;
}

void connection_sent(struct connection *c, size_t n)
{
    if (!channel_sent(&c->channel, n) || c->lines_at == c->lines_end)
        return;
    answer_lines(c);
    leave(c);
}
