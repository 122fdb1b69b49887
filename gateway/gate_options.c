/*
 * The gate's command line. No option takes a key, since other users of the machine can see a command line: a key comes from a file, from standard input where
 * that has no lines to give, or from another file descriptor of a shell's (/dev/fd/3).
 */
#include "gate_options.h"

#include <stdio.h>
#include <string.h>

#include "enrolment.h"
#include "streams.h"

const char program_name[] = "gate";

static const char help[] =
    "usage: gate --keys FILE [--identity NAME] [OPTION..] HOST:PORT [LINE..]\n"
    "\n"
    "Logs in at a gateway as one of its gates, over TLS 1.2 with a pre-shared key, sends each LINE,\n"
    "as 'cow 212', and prints its answer, as 'enrolled cow 212', before the next one is sent. Without\n"
    "a LINE those of standard input are sent; empty ones are passed over.\n"
    "\n"
    "  --keys FILE              lines 'identity:key', key in hex, as the gateway's table has them;\n"
    "                           '-': standard input, where LINEs are given. A key is never an argument:\n"
    "                           other users of this machine could see it\n"
    "  --identity NAME          which of them; may be left out where the file has only one\n"
    "  --connect-timeout SEC    for connecting (default 10)\n"
    "  --handshake-timeout SEC  for the whole login (default 10)\n"
    "  --answer-timeout SEC     for the answer to a line (default 10)\n"
    "  --blocks                 a line on standard error says how many blocks of 64 bytes SHA-256\n"
    "                           compressed to derive the master secret, for a battery budget; the\n"
    "                           key's length shows in it\n"
    "  --version                its version\n"
    "  -h, --help               this text\n"
    "\n"
    "HOST is a name, an IPv4 address, or an IPv6 address in brackets.\n"
    "\n"
    "Exit status; a line on standard error says more:\n"
    "  0   each line was answered\n"
    "  1   the system refuses something: randomness, standard input or output\n"
    "  2   the command line is wrong, or a line has over 256 bytes\n"
    "  3   FILE can't be read, or is not well formed\n"
    "  4   FILE does not list NAME, or several names and none was given\n"
    "  5   HOST is not found\n"
    "  6   no connection to HOST:PORT\n"
    "  7   time-out\n"
    "  8   the gateway sent an alert\n"
    "  9   what the gateway sent was refused, with an alert\n"
    "  10  a record of the gateway did not open: another key, or it was changed on the way\n"
    "  11  the gateway closed the connection too early\n";

enum { KEYS = 1000, IDENTITY, CONNECT, HANDSHAKE, ANSWER, BLOCKS };

static const struct option names[] = {
    {"keys", required_argument, NULL, KEYS},
    {"identity", required_argument, NULL, IDENTITY},
    {"connect-timeout", required_argument, NULL, CONNECT},
    {"handshake-timeout", required_argument, NULL, HANDSHAKE},
    {"answer-timeout", required_argument, NULL, ANSWER},
    {"blocks", no_argument, NULL, BLOCKS},
    {"version", no_argument, NULL, ARGUMENT_VERSION},
    {"help", no_argument, NULL, ARGUMENT_HELP},
    {NULL, 0, NULL, 0},
};

/* One option with its argument. */
static bool take(void *options, int which, const char *text)
{
    struct gate_options *o = options;
    switch (which) {
    case KEYS: o->keys = text; return true;
    case IDENTITY: o->identity = text; return true;
    case BLOCKS: o->blocks = true; return true;
    case CONNECT: return argument_seconds("connect-timeout", text, &o->connect_seconds);
    case HANDSHAKE: return argument_seconds("handshake-timeout", text, &o->handshake_seconds);
    case ANSWER: return argument_seconds("answer-timeout", text, &o->answer_seconds);
    default: return false;
    }
}

/* Cuts HOST:PORT, or [HOST]:PORT. */
static bool cut(struct gate_options *o)
{
    const char *host = o->server, *colon = strrchr(host, ':');
    unsigned long number;
    if (!colon)
        return argument_wrong("'%s' has no port: give HOST:PORT", o->server);
    size_t n = (size_t)(colon - host);
    bool bracketed = n >= 2 && host[0] == '[' && host[n - 1] == ']';
    if (!bracketed && memchr(host, ':', n))
        return argument_wrong("'%s': an IPv6 address goes in brackets: give [HOST]:PORT", o->server);
    host += bracketed ? 1 : 0;
    n -= bracketed ? 2 : 0;
    if (n == 0 || n >= sizeof o->host)
        return argument_wrong("'%s' has no host, or one that is too long: give HOST:PORT", o->server);
    if (!decimal_number(colon + 1, 1, 65535, &number))
        return argument_wrong("'%s': the port is no number from 1 to 65535", o->server);
    memcpy(o->host, host, n);
    snprintf(o->port, sizeof o->port, "%lu", number);
    return true;
}

/* Whether each LINE can be one; an empty one would never be answered. */
static bool lines_fit(const struct gate_options *o)
{
    for (int i = 0; i < o->count; i++) {
        if (o->lines[i][0] == '\0' || strcmp(o->lines[i], "\r") == 0 || strchr(o->lines[i], '\n'))
            return argument_wrong("LINE %d is empty or more than one line", i + 1);
        if (strlen(o->lines[i]) > LINE_LIMIT)
            return argument_wrong("LINE %d has over %d bytes, which no gateway takes", i + 1, LINE_LIMIT);
    }
    return true;
}

/* Whether all that is needed was given, in the form that it needs. */
static bool whole(struct gate_options *o, int count, char **words)
{
    if (!o->keys)
        return argument_wrong("which key? Give --keys FILE");
    if (optind == count)
        return argument_wrong("which gateway? Give HOST:PORT");
    o->server = words[optind];
    o->lines = words + optind + 1;
    o->count = count - optind - 1;
    if (o->count == 0 && strcmp(o->keys, "-") == 0)
        return argument_wrong("--keys -: standard input can't give both the key and the lines");
    return cut(o) && lines_fit(o);
}

enum reading gate_options_read(struct gate_options *o, int count, char **words)
{
    *o = (struct gate_options){.connect_seconds = 10, .handshake_seconds = 10, .answer_seconds = 10};
    enum reading reading = arguments_read(count, words, names, help, take, o);
    return reading != OPTIONS_READ || whole(o, count, words) ? reading : OPTIONS_WRONG;
}
