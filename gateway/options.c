/* The gateway's command line. */
#include "options.h"

#include <stddef.h>
#include <string.h>

#include "streams.h"
#include "turretnail.h"

const char program_name[] = "gateway";

static const char help[] =
    "usage: gateway --table FILE [OPTION..]\n"
    "\n"
    "A TLS 1.2 server with pre-shared keys that answers each line X of a gate with 'enrolled X'.\n"
    "\n"
    "  --table FILE             the gates: lines 'identity:key', key in hex (read again on SIGHUP)\n"
    "  --address ADDRESS        where to listen, IPv4 or IPv6 (default 127.0.0.1)\n"
    "  --port NUMBER            default 4433; 0: any free one\n"
    "  --hint TEXT              identity hint for the gates, up to 128 bytes (default none)\n"
    "  --rule hide|tell         an unknown gate is refused like a wrong key (alert 51; the default),\n"
    "                           or told so (alert 115), for use while fitting\n"
    "  --hide-delay MS          under hide a login ends so long after its key exchange came, whatever\n"
    "                           the table and the key (default 5); 0: as soon as it can\n"
    "  --records libcrypto|proved\n"
    "                           who makes the records: libcrypto, for all three suites (the default),\n"
    "                           or the proved library, for PSK-NULL-SHA256 alone: INTEGRITY WITHOUT\n"
    "                           SECRECY, everybody on the way can read what passes\n"
    "  --handshake-timeout SEC  for a whole handshake (default 10)\n"
    "  --idle-timeout SEC       without a line, after the handshake (default 300)\n"
    "  --clients N              at a time (default 512); when all places are taken the oldest\n"
    "                           unfinished handshake goes\n"
    "  --per-address N          unfinished handshakes of one address, then its oldest goes\n"
    "                           (default half the clients)\n"
    "  --per-gate N             connections of one gate, then its oldest goes (default 8)\n"
    "  --failed-lines N         lines a second on logins that failed; more are counted (default 20)\n"
    "  --blocks                 a login's line says how many blocks of 64 bytes SHA-256 compressed to\n"
    "                           derive the master secret, for a battery budget; the key's length shows\n"
    "                           in it\n"
    "  --once N                 stop after N connections\n"
    "  --version                its version\n"
    "  -h, --help               this text\n"
    "\n"
    "SIGINT or SIGTERM stops it.\n";

enum { ADDRESS = 1000, PORT, TABLE, HINT, RULE, RECORDS, HIDE_DELAY, ONCE, HANDSHAKE, IDLE, CLIENTS, PER_ADDRESS, PER_GATE, FAILED_LINES, BLOCKS };

static const struct option names[] = {
    {"address", required_argument, NULL, ADDRESS},
    {"port", required_argument, NULL, PORT},
    {"table", required_argument, NULL, TABLE},
    {"hint", required_argument, NULL, HINT},
    {"rule", required_argument, NULL, RULE},
    {"records", required_argument, NULL, RECORDS},
    {"hide-delay", required_argument, NULL, HIDE_DELAY},
    {"once", required_argument, NULL, ONCE},
    {"handshake-timeout", required_argument, NULL, HANDSHAKE},
    {"idle-timeout", required_argument, NULL, IDLE},
    {"clients", required_argument, NULL, CLIENTS},
    {"per-address", required_argument, NULL, PER_ADDRESS},
    {"per-gate", required_argument, NULL, PER_GATE},
    {"failed-lines", required_argument, NULL, FAILED_LINES},
    {"blocks", no_argument, NULL, BLOCKS},
    {"version", no_argument, NULL, ARGUMENT_VERSION},
    {"help", no_argument, NULL, ARGUMENT_HELP},
    {NULL, 0, NULL, 0},
};

static bool rule(const char *text, uint8_t *value)
{
    if (strcmp(text, "tell") == 0)
        *value = TN_RULE_TELL;
    else if (strcmp(text, "hide") == 0)
        *value = TN_RULE_HIDE;
    else
        return argument_wrong("--rule: '%s' is neither tell nor hide", text);
    return true;
}

static bool records(const char *text, bool *proved)
{
    *proved = strcmp(text, "proved") == 0;
    return *proved || strcmp(text, "libcrypto") == 0 || argument_wrong("--records: '%s' is neither libcrypto nor proved", text);
}

static bool port(const char *text, uint16_t *value)
{
    unsigned long n;
    if (!argument_number("port", text, 0, 65535, &n))
        return false;
    *value = (uint16_t)n;
    return true;
}

/* One option with its argument. */
static bool take(void *options, int which, const char *text)
{
    struct options *o = options;
    switch (which) {
    case ADDRESS: o->address = text; return true;
    case TABLE: o->table = text; return true;
    case HINT: o->hint = text; return true;
    case BLOCKS: o->blocks = true; return true;
    case PORT: return port(text, &o->port);
    case RULE: return rule(text, &o->rule);
    case RECORDS: return records(text, &o->proved_records);
    case ONCE: return argument_number("once", text, 1, 1000000000, &o->once);
    case HANDSHAKE: return argument_seconds("handshake-timeout", text, &o->handshake_seconds);
    case IDLE: return argument_seconds("idle-timeout", text, &o->idle_seconds);
    case CLIENTS: return argument_number("clients", text, 1, 16384, &o->clients);
    case PER_ADDRESS: return argument_number("per-address", text, 1, 16384, &o->per_address);
    case HIDE_DELAY: return argument_number("hide-delay", text, 0, 1000, &o->hide_ms);
    case PER_GATE: return argument_number("per-gate", text, 1, 16384, &o->per_gate);
    case FAILED_LINES: return argument_number("failed-lines", text, 0, 1000000, &o->failed_lines);
    default: return false;
    }
}

/* Whether all that is needed was given, and nothing else. */
static bool whole(struct options *o, int count, char **words)
{
    if (optind < count)
        return argument_wrong("'%s' is no option", words[optind]);
    if (!o->table)
        return argument_wrong("which gates? Give --table FILE");
    if (o->per_address == 0)
        o->per_address = (o->clients + 1) / 2;
    return true;
}

enum reading options_read(struct options *o, int count, char **words)
{
    *o = (struct options){.address = "127.0.0.1", .port = 4433, .hint = "", .rule = TN_RULE_NONE, .hide_ms = 5, .handshake_seconds = 10,
                          .idle_seconds = 300, .clients = 512, .per_gate = 8, .failed_lines = 20};
    enum reading reading = arguments_read(count, words, names, help, take, o);
    return reading != OPTIONS_READ || whole(o, count, words) ? reading : OPTIONS_WRONG;
}
