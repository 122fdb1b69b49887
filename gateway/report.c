/* The gateway's lines on connections: address, gate, suite, outcome. */
#include "report.h"

#include <inttypes.h>
#include <stdarg.h>
#include <stdio.h>

#include "alerts.h"
#include "clock.h"
#include "log.h"

/* Its name; 115 is unknown_psk_identity, in the station's word. */
static const char *name_of(uint8_t alert)
{
    return alert == TN_ALERT_UNKNOWN_PSK_IDENTITY ? "unknown gate" : alert_name(alert);
}

/* The character at p, whose bytes are valid UTF-8; *size its length. */
static uint32_t character(const uint8_t *p, size_t *size)
{
    *size = p[0] < 0x80 ? 1 : p[0] < 0xe0 ? 2 : p[0] < 0xf0 ? 3 : 4;
    uint32_t value = *size == 1 ? p[0] : p[0] & (0x7fu >> *size);
    for (size_t i = 1; i < *size; i++)
        value = value << 6 | (p[i] & 0x3f);
    return value;
}

/* Whether a terminal shows the character as a character: no control, no quote or backslash, no format or direction mark. */
static bool plain(uint32_t v)
{
    bool control = v < 0x20 || (v >= 0x7f && v < 0xa0) || v == 0xad;
    bool mark = (v >= 0x200b && v <= 0x200f) || (v >= 0x2028 && v <= 0x202e) || (v >= 0x2060 && v <= 0x206f) || v == 0x61c || v == 0xfeff;
    bool odd = (v >= 0xe000 && v <= 0xf8ff) || (v >= 0xfff0 && v <= 0xffff) || v >= 0xe0000;
    return !control && !mark && !odd && v != '"' && v != '\\';
}

static bool printable(const uint8_t *bytes, size_t n)
{
    if (n == 0 || tn_valid_utf8(bytes, n) != 1)
        return false;
    for (size_t at = 0, size; at < n; at += size)
        if (!plain(character(bytes + at, &size)))
            return false;
    return true;
}

/* A line that is being made. */
struct line {
    char text[LOG_LINE_LIMIT];
    size_t n;
};

static void add(struct line *line, const char *format, ...) __attribute__((format(printf, 2, 3)));

static void add(struct line *line, const char *format, ...)
{
    va_list words;
    va_start(words, format);
    int n = vsnprintf(line->text + line->n, sizeof line->text - line->n, format, words);
    va_end(words);
    line->n += n < 0 ? 0 : (size_t)n < sizeof line->text - line->n ? (size_t)n : sizeof line->text - line->n - 1;
}

/* As text in quotes where all of it is kept and can be shown, else its length and the first bytes in hex. */
static void add_identity(struct line *line, const struct connection *c)
{
    size_t n = c->identity_len;
    if (!c->identity_known) {
        add(line, "-");
    } else if (n <= sizeof c->identity && printable(c->identity, n)) {
        add(line, "\"%.*s\"", (int)n, (const char *)c->identity);
    } else {
        add(line, "of %zu bytes 0x", n);
        for (size_t i = 0; i < n && i < 16; i++)
            add(line, "%02x", c->identity[i]);
        if (n > 16)
            add(line, "..");
    }
}

static void add_alert(struct line *line, const char *front, uint8_t alert)
{
    const char *name = name_of(alert);
    add(line, "%s %u%s%s", front, (unsigned)alert, name[0] ? " " : "", name);
}

/* Under hide the client can't tell a name that is not listed from a wrong key; whoever reads the log may, however the login ended. */
static bool hidden(const struct connection *c)
{
    return c->identity_known && c->unlisted;
}

static void add_outcome(struct line *line, const struct connection *c, enum outcome outcome, bool blocks)
{
    bool later = outcome != c->login_outcome;
    if (later)
        add(line, "after completion ");
    switch (outcome) {
    case OUTCOME_COMPLETE: add(line, "complete"); break;
    case OUTCOME_ALERT_SENT: add_alert(line, "alert", c->alert); break;
    case OUTCOME_CLOSED_FOR: add_alert(line, "close_notify in place of alert", c->alert); break;
    case OUTCOME_ALERT_RECEIVED: add_alert(line, "client sent alert", c->alert); break;
    case OUTCOME_TIME_OUT: add(line, "time-out"); break;
    case OUTCOME_STOPPED: add(line, "stopped"); break;
    case OUTCOME_MADE_ROOM: add(line, "made room for another client"); break;
    case OUTCOME_REPLACED: add(line, "made room for newer logins of this gate"); break;
    case OUTCOME_RETIRED: add(line, later ? "retired by the new table" : "ended by the new table"); break;
    default: add(line, later ? "closed without close_notify" : "closed"); break;
    }
    if (blocks && !later && c->blocks > 0)
        add(line, ", %" PRIu64 " blocks", c->blocks);
    if (hidden(c))
        add(line, ", unknown gate");
}

static struct pace failed;

int64_t report_rest(bool at_once)
{
    if (failed.held_back == 0)
        return -1;
    int64_t left = failed.begun + 1000 - milliseconds();
    if (left > 0 && !at_once)
        return left;
    log_line("%lu more logins failed", failed.held_back);
    failed.held_back = 0;
    return -1;
}

void report(const char *address, const struct connection *c, enum outcome outcome, bool blocks, unsigned most)
{
    struct line line = {.n = 0};
    report_rest(false);
    if (c->login_outcome != OUTCOME_COMPLETE && !pace_allows(&failed, most))
        return;
    add(&line, "%s gate ", address);
    add_identity(&line, c);
    add(&line, " suite %s: ", c->suite ? c->suite->name : "-");
    add_outcome(&line, c, outcome, blocks);
    log_line("%s", line.text);
}
