/* The records of one connection, of either side. */
#include "channel.h"

#include <openssl/crypto.h>
#include <string.h>

#include "alerts.h"

/* ---- what is sent */

bool channel_queue(struct channel *c, enum record_type type, const uint8_t *content, size_t n)
{
    size_t size = record_seal(&c->writing, type, content, n, c->out + c->out_end, sizeof c->out - c->out_end);
    c->out_end += size;
    return size > 0;
}

bool channel_sent(struct channel *c, size_t n)
{
    c->out_at += n;
    if (c->out_at < c->out_end)
        return false;
    c->out_at = c->out_end = 0;
    return true;
}

/* ---- keys */

bool channel_keys(struct channel *c, uint8_t side, const struct suite *suite, const uint8_t master[TN_MASTER_SIZE],
                  const uint8_t client_random[TN_RANDOM_SIZE], const uint8_t server_random[TN_RANDOM_SIZE])
{
    uint8_t block[TN_KEY_BLOCK_LIMIT];
    bool client = side == TN_SIDE_CLIENT;
    int32_t n = tn_key_block(master, TN_MASTER_SIZE, server_random, TN_RANDOM_SIZE, client_random, TN_RANDOM_SIZE, suite->number, block, sizeof block);
    bool cut = tn_is_count(n)
               && protection_cut(suite, block, (size_t)n, client ? &c->next_writing : &c->next_reading, client ? &c->next_reading : &c->next_writing);
    OPENSSL_cleanse(block, sizeof block);
    return cut;
}

bool channel_change_writing(struct channel *c)
{
    const uint8_t change[1] = {1};
    if (!channel_queue(c, RECORD_CHANGE_CIPHER_SPEC, change, sizeof change))
        return false;
    c->writing = c->next_writing;
    OPENSSL_cleanse(&c->next_writing, sizeof c->next_writing);
    return true;
}

void channel_change_reading(struct channel *c)
{
    c->reading = c->next_reading;
    OPENSSL_cleanse(&c->next_reading, sizeof c->next_reading);
}

void channel_forget(struct channel *c)
{
    OPENSSL_cleanse(&c->reading, sizeof c->reading);
    OPENSSL_cleanse(&c->writing, sizeof c->writing);
    OPENSSL_cleanse(&c->next_reading, sizeof c->next_reading);
    OPENSSL_cleanse(&c->next_writing, sizeof c->next_writing);
    records_forget();
}

/* ---- records that come */

size_t channel_record_size(const struct channel *c)
{
    return RECORD_HEADER + (c->in_len < RECORD_HEADER ? 0 : (size_t)c->in[3] << 8 | c->in[4]);
}

/* The alert for a header that is refused, or 0. */
static uint8_t header_fault(const struct channel *c)
{
    if (!record_type_known(c->in[0]))
        return TN_ALERT_UNEXPECTED_MESSAGE;
    return channel_record_size(c) - RECORD_HEADER > record_fragment_limit(&c->reading) ? TN_ALERT_RECORD_OVERFLOW : 0;
}

/* The alert for a record that did not open. Of the first protected one it is the key that is wrong: RFC 4279 section 2 has decrypt_error for that, as the
 * library has. */
static uint8_t opening_fault(const struct channel *c, enum record_verdict verdict)
{
    if (verdict == RECORD_TOO_LONG)
        return TN_ALERT_RECORD_OVERFLOW;
    if (verdict == RECORD_FAILED)
        return ALERT_INTERNAL_ERROR;
    return c->reading.sequence == 0 ? TN_ALERT_DECRYPT_ERROR : TN_ALERT_BAD_RECORD_MAC;
}

/* Whether the content is too short, or too long, for its type. */
static bool misshapen(const struct arrival *a)
{
    return (a->type == RECORD_HANDSHAKE && a->n == 0) || (a->type == RECORD_ALERT && a->n != 2);
}

static void open_record(struct channel *c, struct arrival *a)
{
    size_t start;
    enum record_verdict verdict = record_open(&c->reading, c->in, c->in_len, &start, &a->n);
    c->in_len = 0;
    a->type = c->in[0];
    a->content = c->in + start;
    a->unopened = verdict == RECORD_BAD;
    if (verdict != RECORD_OPENED)
        a->alert = opening_fault(c, verdict);
    else if (misshapen(a))
        a->alert = TN_ALERT_DECODE_ERROR;
}

bool channel_received(struct channel *c, size_t n, struct arrival *a)
{
    bool header = c->in_len < RECORD_HEADER;
    *a = (struct arrival){.alert = 0};
    c->in_len += n;
    if (c->in_len < RECORD_HEADER)
        return false;
    if (header)
        a->alert = header_fault(c);
    if (a->alert == 0 && c->in_len < channel_record_size(c))
        return false;
    if (a->alert == 0)
        open_record(c, a);
    return true;
}

/* ---- handshake messages */

/* Its length: the header's first, then as the header says. More than the library takes counts as the header alone. */
static size_t message_size(const struct channel *c)
{
    if (c->message_len < MESSAGE_HEADER)
        return MESSAGE_HEADER;
    size_t size = (size_t)tn_message_end(c->message);
    return size > sizeof c->message ? MESSAGE_HEADER : size;
}

size_t channel_join(struct channel *c, const uint8_t *bytes, size_t n)
{
    size_t missing = message_size(c) - c->message_len;
    size_t taken = missing < n ? missing : n;
    memcpy(c->message + c->message_len, bytes, taken);
    c->message_len += taken;
    return taken;
}

bool channel_joined(const struct channel *c)
{
    return c->message_len >= MESSAGE_HEADER && c->message_len >= message_size(c);
}

/* ---- changes of cipher */

uint8_t channel_change_fault(const struct channel *c, bool complete, const struct arrival *a)
{
    if (complete || c->message_len > 0)
        return TN_ALERT_UNEXPECTED_MESSAGE;
    return a->n == 1 && a->content[0] == 1 ? 0 : TN_ALERT_DECODE_ERROR;
}
