/* The gateway's connection and the gate's session of gateway/, without their sockets. */
#include <string.h>

#include "connection.h"
#include "gate_session.h"
#include "measure.h"
#include "peers.h"

static struct settings settings;
static struct connection connection;
static struct session session;

void start_gateway(void)
{
    must(records_start(), "the gateway's records");
    settings.hint = "";
    settings.rule = TN_RULE_TELL;
    settings.table_len = strlen(PEER_TABLE);
    memcpy(settings.table, PEER_TABLE, settings.table_len);
    settings.lines = (size_t)tn_table_list(settings.table, settings.table_len, settings.starts, TN_TABLE_LINES);
}

void stop_gateway(void)
{
    records_stop();
}

/* What has come for the channel, of so many bytes that are wanted; how many. */
static size_t take(const struct end *e, struct channel *c, size_t wanted)
{
    return wire_take(e->in, c->in + c->in_len, wanted);
}

/* Hands over what is to be sent; how many bytes. */
static size_t put(const struct end *e, const struct channel *c)
{
    return wire_put(e->out, c->out + c->out_at, c->out_end - c->out_at);
}

static void open_connection(struct end *e)
{
    e->connection = &connection;
    must(connection_start(&connection, &settings), "the gateway's connection");
}

static int serve(struct end *e)
{
    for (size_t n; (n = take(e, &connection.channel, connection_wants(&connection))) > 0;)
        (void)connection_received(&connection, &settings, n);
    connection_sent(&connection, put(e, &connection.channel));
    return connection.login_outcome == OUTCOME_COMPLETE;
}

static void close_connection(struct end *e)
{
    (void)e;
    connection_clear(&connection);
}

static void open_session(struct end *e)
{
    e->connection = &session;
    must(session_start(&session, (const uint8_t *)PEER_IDENTITY, strlen(PEER_IDENTITY), peer_key, PEER_KEY_SIZE), "the gate's session");
}

static int log_in(struct end *e)
{
    for (size_t n; (n = take(e, &session.channel, session_wants(&session))) > 0;)
        session_received(&session, n);
    (void)channel_sent(&session.channel, put(e, &session.channel));
    return session.complete;
}

static void close_session(struct end *e)
{
    (void)e;
    must(session.suite->number == TN_SUITE_PSK_AES_128_CBC_SHA256, "the gate's suite is another");
    session_clear(&session);
}

const struct kind gateway_server = {open_connection, serve, close_connection, "the gateway's handshake fails"};
const struct kind gate_client = {open_session, log_in, close_session, "the gate's handshake fails"};
