#!/usr/bin/env python3
"""Whether the differential test finds faults: planted.py LIBRARY.

Each fault is planted in a copy of a model, or in what the test does with lent memory in the library's
stead; then the test has to fail and to print the seed. Where model and library differ it does not
matter which of the two has the fault.
"""
import concurrent.futures
import os
import pathlib
import subprocess
import sys
import tempfile

ROUNDS = "4000"
HERE = pathlib.Path(__file__).resolve().parent
FLAGS = "-std=c11 -D_GNU_SOURCE -g -O1 -fsanitize=address,undefined -fno-sanitize-recover=all".split()
INCLUDES = [f"-I{HERE}", f"-I{HERE.parent.parent / 'include'}"]

# the places where a message has just been handed over: of either end on damaged bytes, to a server, to a client
PROBE_MADE = "    expect_result_of_message(e, result, m->room);\n    size_t written"
MESSAGE_MADE = "message_lent(c, keys, m, out, master, blocks);\n    settle_connection(c, result, false);\n"
CLIENT_MADE = "message_lent(c, NULL, m, out, master, blocks);\n    settle_connection(c, result, false);\n"

# the places where a client has just been started, in client.c, and where its model begins with a message
CLIENT_STARTED = "k->bytes, k->n, out->bytes, out->n);\n"
CLIENT_BEGUN = "    a->said = over(c) ? TN_R4 : model_header("

# the places in table.c where an edit has just been made, and a list
EDIT_MADE = "    settle(result, l, &wanted.table);\n"
LIST_MADE = "    if (said > 0 && (size_t)said > room)\n"

# the places in model_table.c where an edit has had the tests of table and list, and where table and list are put together
EDIT_BEGUN = "    if (*said != 0)\n        return;\n"
PUT_TOGETHER = "        put_together(&list, e);\n"

# the places in records.c where tn_take_record has just been called, on a connection and on bytes that no call has written
RECORD_MADE = "out, master, numbers, blocks);\n    settle_connection(c, result, false);\n"
RECORD_PROBED = "    expect_result_of_record(result, room);\n    memset"

# the place in secrets.c where tn_master has just been called
MASTER_MADE = "out->bytes, out->n, number_of(blocks));\n"

# the calls that give a number of blocks: where each has just been made, and when it has handed over a master secret, accepted a hello and a Finished
COUNTING = {
    "tn_message": ("server.c", MESSAGE_MADE, "result == 0", "result >= 46", "result == 16"),
    "tn_client_message": ("client.c", CLIENT_MADE, "result > 0", "result == 0 && m->bytes[0] == 2", "result == 0 && m->bytes[0] == 20"),
    "tn_take_record": ("records.c", RECORD_MADE, "result >= 0 && taken.told[0]", "result >= 56 && result != 59 && !taken.told[0]", "result == 59"),
    "tn_master": ("secrets.c", MASTER_MADE, "result > 0", "false", "false"),
}

# where the models have just counted: whether it is for that call, the number, and how many bytes the premaster secret has
SERVER_COUNTED, CLIENT_COUNTED = "    memcpy(s->master, a->bytes, 48);\n", "        memcpy(c->master, a->bytes, 48);\n"
MASTER_COUNTED = "    uint64_t counted = model_master(premaster, client, server, &wanted);\n"
COUNTED = {
    "tn_message": ("model_server.c", SERVER_COUNTED, "!s->null_only", "s->blocks", "(uint64_t)premaster.said"),
    "tn_client_message": ("model_client.c", CLIENT_COUNTED, "true", "c->blocks", "(uint64_t)premaster.said"),
    "tn_take_record": ("model_server.c", SERVER_COUNTED, "s->null_only", "s->blocks", "(uint64_t)premaster.said"),
    "tn_master": ("secrets.c", MASTER_COUNTED, "counted > 0", "counted", "premaster.n"),
}

# the number of the key in a table's first line
FIRST_KEY = """= ({
            const uint8_t *end = memchr(keys->text.at, ':', keys->text.n);
            model_lookup(keys, (struct bytes){keys->text.at, (size_t)(end - keys->text.at)}, &key);
            model_blocks((struct bytes){key.bytes, (size_t)key.said});
        })"""

# the connections that are damaged, where a call on one has just been made: in which it has handed over a master secret
DAMAGED = {
    "a server": ("ends.c", PROBE_MADE, "e == &server_end", "result == 0"),
    "a client": ("ends.c", PROBE_MADE, "e == &client_end", "result > 0"),
    "a record connection": ("records.c", RECORD_PROBED, "true", "result >= 0 && numbers_of(numbers)[0]"),
}

# how the readers of the two hellos end, and where the block's place stands among the fields
CLIENT_HELLO, SERVER_HELLO = ("eat_extensions(&e, fields + 6)", 7), ("!e.bad && session_id.n <= 32 && eat_extensions(&e, fields + 4)", 5)

# RFC 4507's form of a ticket extension: a length of its own in front of the ticket
OLD_FORM = "data.n >= 2 && data.at[0] * 256u + data.at[1] == data.n - 2"


def ticket_refused(name, hello, data):
    """A fault in a hello's reader: it refuses a SessionTicket extension with such data."""
    good, at = hello
    return name, "model_layouts.c", f"    return {good};\n", f"""
    if (!({good}))
        return false;
    for (struct eating x = {{{{message.at + fields[{at}], fields[{at + 1}]}}, 0, false}}; !at_end(&x);) {{
        bool ticket = eat_number(&x, 2) == 35;
        struct bytes data = eat_vector(&x, 2);
        if (ticket && ({data}))
            return false;
    }}
    return true;
"""


def edit_made(name, lines):
    """A fault of what the library might do with memory that is lent to an edit."""
    return name, "table.c", EDIT_MADE, f"    {lines}\n{EDIT_MADE}"


def list_kept(name, lines):
    """A fault in the list that an edit leaves."""
    return name, "model_table.c", PUT_TOGETHER, f"{PUT_TOGETHER}        {lines}\n"


def record_made(name, line):
    """A fault of what the library might do with memory that is lent to tn_take_record."""
    return name, "records.c", RECORD_MADE, f"{RECORD_MADE}    {line}\n"


def client_made(name, line):
    """A fault of what the library might do with memory that is lent to tn_client_message."""
    return name, "client.c", CLIENT_MADE, f"{CLIENT_MADE}    {line}\n"


def client_started(name, line):
    """And to tn_client_start."""
    return name, "client.c", CLIENT_STARTED, f"{CLIENT_STARTED}    {line}\n"


def client_ignores(name, kind, phase):
    """A fault in the client: it takes no notice of such a message in that phase."""
    tested = f"m.n > 3 && m.at[0] == {kind} && c->phase == TN_CLIENT_PHASE_{phase}"
    return name, "model_client.c", CLIENT_BEGUN, f"    a->said = 0;\n    if ({tested})\n        return;\n{CLIENT_BEGUN}"


def counts(name, when, what, *calls):
    """A fault of what the library might do with the number of blocks, of each of these calls or of all four; `*number` is what was lent for it."""
    faults = []
    for call in calls or COUNTING:
        file, place, handed, hello, finished = COUNTING[call]
        line = f"    if ({when})\n        {what};\n".format(handed=handed, hello=hello, finished=finished)
        faults.append((f"{name}: {call}", file, place, f"{place}    uint64_t *number = number_of(blocks);\n{line}"))
    return faults


def counts_wrong(name, when, what, *calls):
    """A fault in how the blocks are counted, of each of these calls or of all four: what becomes of the number where a premaster secret has such `n` bytes."""
    faults = []
    for call in calls or COUNTED:
        file, place, of_call, number, n = COUNTED[call]
        faults.append((f"{name}: {call}", file, place, f"{place}    const uint64_t n = {n};\n    if ({of_call} && ({when}))\n        {number} {what};\n"))
    return faults


def counts_on_damaged(name, when, what):
    """A fault of what the library might do with the number of blocks on bytes that no call has written, of each kind of connection."""
    faults = []
    for kind, (file, place, of_kind, handed) in DAMAGED.items():
        line = f"    if ({of_kind} && ({when.format(handed=handed)}))\n        {what};\n"
        faults.append((f"{name}: {kind} that is damaged", file, place, line + place))
    return faults


PLANTED = [
    # secrets
    ("randoms swapped in the master secret", "model_secrets.c", "LABEL_MASTER_SECRET, client, server", "LABEL_MASTER_SECRET, server, client"),
    ("randoms swapped in the key block", "model_secrets.c", "LABEL_KEY_EXPANSION, server, client", "LABEL_KEY_EXPANSION, client, server"),
    ("a PRF of 255 bytes at most", "model_secrets.c", "n > 256", "n > 255"),
    ("a seed of 65,537 bytes", "model_secrets.c", "seed.n > 65536", "seed.n > 65537"),
    ("no zeros in the premaster secret", "model_secrets.c", "memset(a->bytes, 0, 4 + psk.n)", "memset(a->bytes, 1, 4 + psk.n)"),
    ("a key of 65 bytes", "model_secrets.c", "psk.n > 64", "psk.n > 65"),
    ("the client's label for the server's Finished", "model_secrets.c",
     "side == 0 ? TN_LABEL_CLIENT_FINISHED : TN_LABEL_SERVER",
     "side <= 1 ? TN_LABEL_CLIENT_FINISHED : TN_LABEL_SERVER"),
    ("labels exchanged", "model_secrets.c", '{"master secret", "key expansion",', '{"key expansion", "master secret",'),
    ("sides exchanged", "model_secrets.c", "side == 0 ? TN_LABEL_CLIENT", "side == 1 ? TN_LABEL_CLIENT"),
    # how many blocks they take
    ("a padding without the message's length", "model_secrets.c", "message.n + 1 + 8;", "message.n + 1;"),
    ("a block more behind a padding that fills one", "model_secrets.c", "(padded % 64 > 0);", "1;"),
    ("the blocks of a key's digest left out", "model_secrets.c", "blocks += digest(key, filled);", "digest(key, filled);"),
    ("the blocks of an inner digest left out", "model_secrets.c", "    blocks += digest((struct bytes){inner,", "    digest((struct bytes){inner,"),
    ("the blocks of an outer digest left out", "model_secrets.c", "    blocks += digest((struct bytes){outer,", "    digest((struct bytes){outer,"),
    ("the blocks of A(2) left out", "model_secrets.c", "blocks += mac(secret, before, part);", "blocks += mac(secret, before, part) * (done == 0);"),
    ("the blocks of the second part left out", "model_secrets.c", "blocks += mac(secret, (struct bytes){joined, 32 + seed.n}, part);",
     "blocks += mac(secret, (struct bytes){joined, 32 + seed.n}, part) * (done == 0);"),
    *counts_wrong("a long premaster secret's own digest not counted", "n > 64", "-= 4 * ((n + 72) / 64)"),
    *counts_wrong("it is counted once and not at each HMAC", "n > 64", "-= 3 * ((n + 72) / 64)"),
    *counts_wrong("it is counted without its padding's second block", "n > 64 && n % 64 > 55", "-= 4"),
    *counts_wrong("it is counted with a second block that its padding has not", "n > 64 && (n % 64 == 54 || n % 64 == 55)", "+= 4"),
    *counts_wrong("64 bytes of premaster secret counted as a longer one", "n == 64", "+= 8"),
    *counts_wrong("66 bytes of premaster secret counted as a shorter one", "n == 66", "-= 8"),
    *counts_wrong("the stand-in key's number for each identity where hide applies", "s->hides", "= 27", "tn_message", "tn_take_record"),
    *counts_wrong("no blocks for an identity that is not listed", "!s->listed", "= 0", "tn_message", "tn_take_record"),
    *counts_wrong("the first key's number for an identity that is not listed", "!s->listed && keys->text.n > 0", FIRST_KEY, "tn_message", "tn_take_record"),
    # layouts
    ("version and suite of a ServerHello exchanged", "model_layouts.c",
     "fields[2] = eat_number(&e, 2);",
     "fields[2] = fields[0], fields[0] = eat_number(&e, 2);"),
    ("the ticket extension's number", "model_layouts.c", "model_write_extension(35, ticket, a);", "model_write_extension(36, ticket, a);"),
    ("a ticket extension with the ticket's own length in it", "model_layouts.c",
     "    model_write_extension(35, ticket, a);\n",
     "    struct growing g = {a, 0, false};\n    put_number(&g, 2, 35);\n    put_number(&g, 2, ticket.n + 2);\n    put_vector(&g, 2, ticket);\n"
     "    a->said = g.full || ticket.n > 65533 ? TN_R5 : (int32_t)g.n;\n"),
    ("a ticket extension of 65,533 bytes at most", "model_layouts.c",
     "    model_write_extension(35, ticket, a);\n",
     "    model_write_extension(35, ticket, a);\n    if (ticket.n > 65533)\n        a->said = TN_R5;\n"),
    ("suites of an odd length", "model_layouts.c", " || suites.n % 2 != 0 ||", " ||"),
    ("no suite", "model_layouts.c", "suites.n < 2 ||", ""),
    ("no method", "model_layouts.c", "methods.n < 1)", "false)"),
    ("a session id of 33 bytes read", "model_layouts.c", "e.bad || session_id.n > 32", "e.bad || session_id.n > 33"),
    ("a session id of 33 bytes written", "model_layouts.c", "h->session_id.n > 32", "h->session_id.n > 33"),
    ("one type twice", "model_layouts.c", " && !seen[type]", ""),
    ("1,000 extensions at most", "model_layouts.c",
     "    while (good && !at_end(&e)) {\n",
     "    size_t count = 0;\n    while (good && !at_end(&e) && (good = ++count <= 1000)) {\n"),
    ("two tickets", "model_layouts.c", "!seen[type]", "(type == 35 || !seen[type])"),
    ticket_refused("a ticket's own length asked for in a ClientHello", CLIENT_HELLO, f"!({OLD_FORM})"),
    ticket_refused("a ticket's own length asked for in a ServerHello", SERVER_HELLO, f"!({OLD_FORM})"),
    ticket_refused("a ticket's own length refused in a ClientHello", CLIENT_HELLO, OLD_FORM),
    ticket_refused("no data for a ticket refused in a ClientHello", CLIENT_HELLO, "data.n == 0"),
    ticket_refused("a ticket of 1 byte refused in a ClientHello", CLIENT_HELLO, "data.n == 1"),
    ("an empty block as none", "model_layouts.c", "    fields[0] = 1;\n", "    fields[0] = block.n > 0;\n"),
    ("bytes after a body", "model_layouts.c",
     "place(message, eat(&e, 12), fields);\n    return at_end(&e);",
     "place(message, eat(&e, 12), fields);\n    return !e.bad;"),
    ("a message of 16,385 bytes read", "model_layouts.c", "message.n > 16384}", "message.n > 16385}"),
    ("a message of 16,385 bytes written", "model_layouts.c", "g->n > 16384", "g->n > 16385"),
    ("the end of a block as cut short", "model_layouts.c", "if (at >= block.n)", "if (at > block.n)"),
    # table
    ("a surrogate", "model_table.c", "{{0xed, 0xed}, {0x80, 0x9f}, 3}", "{{0xed, 0xed}, {0x80, 0xbf}, 3}"),
    ("an overlong character", "model_table.c", "{{0xe0, 0xe0}, {0xa0, 0xbf}, 3}", "{{0xe0, 0xe0}, {0x80, 0xbf}, 3}"),
    ("a character past the last", "model_table.c", "{{0xf4, 0xf4}, {0x80, 0x8f}, 4}", "{{0xf4, 0xf4}, {0x80, 0x90}, 4}"),
    ("255 lines at most", "model_table.c", "n == 256 ||", "n == 255 ||"),
    ("a table of 65,537 bytes", "model_table.c", "table.n > 65536", "table.n > 65537"),
    ("an identity twice", "model_table.c", "if (place_of(list, l.identity) < list->n)", "if (false)"),
    ("an identity of 129 bytes", "model_table.c", "|| !model_identity(l.identity) ||", "|| (l.identity.n != 129 && !model_identity(l.identity)) ||"),
    ("a key of 65 bytes in the table", "model_table.c", "text.n <= 128 && text.n % 2", "text.n <= 130 && text.n % 2"),
    ("7F in an identity", "model_table.c", " && text.at[i] != 0x7f", ""),
    ("no 0A at the end", "model_table.c", "!take_line(&table, &l.text)", "(take_line(&table, &l.text), false)"),
    ("lookup past the first line that matches", "model_table.c",
     "if (!is_key(key))\n            return;",
     "if (!is_key(key))\n            continue;"),
    ("lookup of a prefix", "model_table.c", "line.n <= identity.n || line.at[identity.n] != ':' ||", "line.n <= identity.n ||"),
    # its list
    ("a start one too far", "model_table.c", "(list->lines[i].text.at - table.at)", "(list->lines[i].text.at - table.at + (i > 0))"),
    ("R10 before R2", "model_table.c",
     "    if (!take_apart(table, list))\n        return TN_R2;\n",
     "    if (given->count > given->n)\n        return TN_R10;\n    if (!take_apart(table, list))\n        return TN_R2;\n"),
    ("a list of the first lines alone", "model_table.c",
     "given->count == own->count && memcmp(given->at, own->at, own->count *",
     "given->count <= own->count && memcmp(given->at, own->at, given->count *"),
    ("a list that goes on behind the lines", "model_table.c", "given->count == own->count &&", "given->count >= own->count &&"),
    ("a list's last number not compared", "model_table.c",
     "own->at, own->count * sizeof",
     "own->at, (own->count - (own->count > 0)) * sizeof"),
    ("a list's first number not compared", "model_table.c",
     "memcmp(given->at, own->at, own->count * sizeof own->at[0]) == 0",
     "(own->count == 0 || memcmp(given->at + 1, own->at + 1, (own->count - 1) * sizeof own->at[0]) == 0)"),
    ("a list compared in 16 bits", "model_table.c",
     "    return given->count <= given->n && given->count == own->count && memcmp(given->at, own->at, own->count * sizeof own->at[0]) == 0;\n",
     "    bool good = given->count <= given->n && given->count == own->count;\n    for (size_t i = 0; good && i < own->count; i++)\n"
     "        good = (uint16_t)given->at[i] == (uint16_t)own->at[i];\n    return good;\n"),
    ("a count past the list's memory believed", "model_table.c", "given->count <= given->n && ", ""),
    ("a count past the list's memory believed by lookup", "model_table.c", "keys->list.count <= keys->list.n;", "keys->list.count <= STARTS_LIMIT;"),
    ("115 for a count past the list's memory", "model_table.c", "within ? TN_ALERT_RESULT(115) : TN_R10", "TN_ALERT_RESULT(115)"),
    ("lookup by all that the list's memory has", "model_table.c", "within && k < keys->list.count;", "within && k < keys->list.n;"),
    ("lookup without the last start", "model_table.c", "within && k < keys->list.count;", "within && k + 1 < keys->list.count;"),
    ("lookup by the last start that matches", "model_table.c",
     "        a->said = (int32_t)(key.n / 2);\n        return;\n",
     "        a->said = (int32_t)(key.n / 2);\n"),
    ("lookup over a line's end", "model_table.c",
     "keys->list.at[k]);\n",
     "keys->list.at[k]);\n        size_t end = keys->list.at[k] + identity.n;\n"
     "        if (end < keys->text.n)\n            line.n = identity.n + line_at(keys->text, end).n;\n"),
    ("a start past the table taken as its front", "model_table.c", ": (struct bytes){table.at, 0};", ": table;"),
    # edits of the table
    ("a key in upper case", "model_table.c", '"%02x"', '"%02X"'),
    ("an added line in front", "model_table.c",
     "case ADD: list->lines[list->n++].text = text; break;",
     "case ADD: memmove(list->lines + 1, list->lines, list->n++ * sizeof *list->lines); list->lines[0].text = text; break;"),
    ("a replaced line at the end", "model_table.c",
     "case REPLACE: list->lines[place].text = text; break;",
     "case REPLACE: change_list(list, RETIRE, place, text); change_list(list, ADD, 0, text); break;"),
    ("the old key's tail after a shorter one", "model_table.c",
     "case REPLACE: list->lines[place].text = text; break;",
     "case REPLACE:\n        for (struct bytes old = list->lines[place].text; text.n < old.n; text.n++)\n"
     "            ((uint8_t *)text.at)[text.n] = old.at[text.n];\n        list->lines[place].text = text;\n        break;"),
    ("the line before the named one retired", "model_table.c", "for (list->n--; place", "for (list->n--, place -= place > 0; place"),
    ("the end of a retired line left behind", "model_table.c", "for (list->n--; place < list->n;", "for (list->lines[place].text.n = 0; false;"),
    ("R6 after R8", "model_table.c", "kind == ADD && place < list.n)", "kind == ADD && place < list.n && list.n < 256)"),
    ("R1 before R8", "model_table.c", "*said = TN_R8", "*said = (size_t)*said > memory.n ? TN_R1 : TN_R8"),
    ("R5 before R2", "model_table.c", EDIT_BEGUN, "    if (*said == TN_R2 && (!model_identity(identity) || bad_key))\n        *said = TN_R5;\n" + EDIT_BEGUN),
    ("R6 before R5", "model_table.c", "|| bad_key) {", "|| (bad_key && !(kind == ADD && place < list.n))) {"),
    ("R7 before R5", "model_table.c", "|| bad_key) {", "|| (bad_key && !(kind == REPLACE && place == list.n))) {"),
    ("R7 for a bad identity", "model_table.c", "!model_identity(identity) ||", "(kind != RETIRE && !model_identity(identity)) ||"),
    ("257 lines after an edit", "model_table.c", "list.n > 256 ||", "list.n > 257 ||"),
    ("255 lines after an edit at most", "model_table.c", "list.n > 256 ||", "list.n > 255 ||"),
    ("65,537 bytes after an edit", "model_table.c", "*said > 65536)", "*said > 65537)"),
    ("65,535 bytes after an edit at most", "model_table.c", "*said > 65536)", "*said > 65535)"),
    ("65,537 bytes after a replaced key", "model_table.c", "*said > 65536)", "*said > (kind == REPLACE ? 65537 : 65536))"),
    ("a length past the memory as the memory's", "model_table.c",
     "*said = length > memory.n ? TN_R2 : ",
     "length = length < memory.n ? length : memory.n;\n    *said = "),
    ("a length one past the memory", "model_table.c", "length > memory.n ? TN_R2", "(length == memory.n + 1 ? --length : length) > memory.n ? TN_R2"),
    ("the memory's bytes for the table's", "model_table.c", "(struct bytes){memory.at, length}, given", "(struct bytes){memory.at, memory.n}, given"),
    ("a new key of 65 bytes", "model_table.c", "key.n > 64)", "key.n > 65)"),
    ("a new key of 63 bytes at most", "model_table.c", "key.n > 64)", "key.n > 63)"),
    ("a new key of no bytes", "model_table.c", "(key.n < 1 ||", "("),
    # and of its list
    ("R10 after R5", "model_table.c", EDIT_BEGUN, "    if (*said == TN_R10 && (!model_identity(identity) || bad_key))\n        *said = TN_R5;\n" + EDIT_BEGUN),
    ("R10 after R6", "model_table.c",
     EDIT_BEGUN,
     "    if (*said == TN_R10 && kind == ADD && !bad_key && place_of(&list, identity) < list.n)\n        *said = TN_R6;\n" + EDIT_BEGUN),
    ("R10 after R7", "model_table.c",
     EDIT_BEGUN,
     "    if (*said == TN_R10 && kind == RETIRE && model_identity(identity) && place_of(&list, identity) == list.n)\n        *said = TN_R7;\n" + EDIT_BEGUN),
    ("R10 left out of an edit", "model_table.c", EDIT_BEGUN, "    *said = *said == TN_R10 ? 0 : *said;\n" + EDIT_BEGUN),
    ("R1 for the table's memory alone", "model_table.c", "        else if (list.n > given->n)\n            *said = TN_R1;\n", ""),
    ("R1 for a list that is just full", "model_table.c", "else if (list.n > given->n)", "else if (list.n >= given->n)"),
    ("R1 for the list before R8", "model_table.c", "*said = TN_R8", "*said = list.n > given->n ? TN_R1 : TN_R8"),
    list_kept("an added line's start left out", "if (kind == ADD && list.n <= given->n)\n            e->list.at[list.n - 1] = given->at[list.n - 1];"),
    list_kept("an added line's start at its end", "if (kind == ADD)\n            e->list.at[list.n - 1] = (uint32_t)e->table.said;"),
    list_kept("a replaced key that moves no start", "if (kind == REPLACE)\n            e->list = *given;"),
    list_kept("a replaced key that moves its own line's start",
              "if (kind == REPLACE && e->table.said != (int32_t)length)\n            e->list.at[place] += (uint32_t)e->table.said - (uint32_t)length;"),
    list_kept("starts moved by a retired line without its 0A", "for (size_t i = place; kind == RETIRE && i < list.n; i++)\n            e->list.at[i]++;"),
    list_kept("starts that a retired line does not move",
              "for (size_t i = place; kind == RETIRE && i < list.n; i++)\n            e->list.at[i] = given->at[i + 1];"),
    list_kept("a retired line that is counted", "if (kind == RETIRE)\n            e->list.count++;"),
    list_kept("a count that an added line leaves", "if (kind == ADD)\n            e->list.count = given->count;"),
    list_kept("the old last start cleared", "if (kind == RETIRE)\n            e->list.at[list.n] = 0;"),
    # server
    ("51 for an identity that is not listed", "model_server.c", "closing(s, 115)", "closing(s, 51)"),
    ("a Finished right under the stand-in key", "model_server.c", "!s->listed || memcmp", "memcmp"),
    ("R1 before 51", "model_server.c",
     "    model_verify_data(&s->messages, s->master, TN_SIDE_CLIENT, a);\n",
     "    if (room < 16) {\n        a->said = TN_R1;\n        return;\n    }\n    model_verify_data(&s->messages, s->master, TN_SIDE_CLIENT, a);\n"),
    ("an empty ServerKeyExchange", "model_server.c", "if (s->hint_n > 0)", "if (true)"),
    ("the flight not in the transcript", "model_server.c", "        model_add(&s->messages, (struct bytes){a->bytes, (size_t)a->said});\n", ""),
    ("the server's Finished without the client's", "model_server.c", "    model_add(&s->messages, m);\n    model_verify_data", "    model_verify_data"),
    ("a suite told of a connection that is over", "model_server.c", "return over(s) ? 0 : ", "return "),
    ("another order of suites", "model_server.c", "{0x00AE, 0x008C, 0x00B0}", "{0x008C, 0x00AE, 0x00B0}"),
    ("TLS 1.1", "model_server.c", "f[0] < 0x0303", "f[0] < 0x0302"),
    ("40 before 47", "model_server.c", "else if (!memchr(m.at + f[4], 0, f[5]))", "else if (suite != 0 && !memchr(m.at + f[4], 0, f[5]))"),
    ("R2 after the layout", "model_server.c",
     "    a->said = model_keys(keys);\n",
     "    a->said = model_keys(keys);\n    if (a->said == TN_R2 && !model_read_key_exchange(16, m, f))\n        a->said = 0;\n"),
    ("R10 after the layout", "model_server.c",
     "    a->said = model_keys(keys);\n",
     "    a->said = model_keys(keys);\n    if (a->said == TN_R10 && !model_read_key_exchange(16, m, f))\n        a->said = 0;\n"),
    ("R10 left out of a login", "model_server.c", "    a->said = model_keys(keys);\n", "    a->said = model_keys(keys) == TN_R2 ? TN_R2 : 0;\n"),
    ("R10 that closes", "model_server.c",
     "    a->said = model_keys(keys);\n",
     "    a->said = model_keys(keys);\n    if (a->said == TN_R10)\n        closing(s, 50);\n"),
    ("a list that is looked at before it is needed", "model_server.c",
     "over(s) ? TN_R4 : model_header(",
     "over(s) ? TN_R4 : model_keys(keys) == TN_R10 ? TN_R10 : model_header("),
    ("another identity's key by a list with two starts exchanged", "model_server.c",
     "    model_lookup(keys, (struct bytes){m.at + f[0], f[1]}, &key);\n    s->listed",
     "    struct keys other = *keys;\n    if (other.list.count > 1)\n        other.list.at[0] = other.list.at[1];\n"
     "    model_lookup(&other, (struct bytes){m.at + f[0], f[1]}, &key);\n    s->listed"),
    ("50 before 10", "model_ends.c", "if (m.at[0] != awaited &&", "if (m.n >= 6 && m.at[0] != awaited &&"),
    ("rules exchanged", "model_server.c", "rule != TN_RULE_TELL", "rule != TN_RULE_HIDE"),
    ("no rule tells", "model_server.c", "rule != TN_RULE_TELL", "rule == TN_RULE_HIDE"),
    ("a hint of 129 bytes", "model_server.c", "hint.n > 128 ||", "hint.n > 129 ||"),
    ("a hint that is not UTF-8", "model_server.c", "|| !model_utf8(hint)", ""),
    ("a fourth rule", "model_server.c", "rule > 2", "rule > 3"),
    ("a warning that closes", "model_ends.c", "if (!known || level == 2 || description == 0)", "if (true)"),
    ("a change of cipher at any time", "model_server.c", "s->phase != TN_PHASE_CHANGE_OF_CIPHER", "false"),
    # client: its start
    ("an identity of 129 bytes given to a client", "model_client.c", "!model_identity(identity) ||", "(identity.n != 129 && !model_identity(identity)) ||"),
    ("an identity of no bytes given to a client", "model_client.c", "!model_identity(identity) ||", "(identity.n > 0 && !model_identity(identity)) ||"),
    ("a colon in a client's identity", "model_client.c",
     "!model_identity(identity) ||",
     "(!model_identity(identity) && !memchr(identity.at, ':', identity.n)) ||"),
    ("a client's key of 65 bytes", "model_client.c", "key.n > 64)", "key.n > 65)"),
    ("a client's key of no bytes", "model_client.c", "|| key.n < 1 ||", "||"),
    ("a client's random of 33 bytes", "model_client.c", "random.n != 32 ||", "random.n < 32 ||"),
    ("R3 after R1", "model_client.c", "    a->said = TN_R3;\n", "    a->said = room < 49 ? TN_R1 : TN_R3;\n"),
    ("a ClientHello in 48 bytes", "model_client.c", "if ((size_t)a->said > room)", "if ((size_t)a->said > room + 1)"),
    ("a ClientHello with an empty extension block", "model_client.c", ".methods = {&null, 1}};", ".methods = {&null, 1}, .present = true};"),
    ("suites offered in another order", "model_client.c", "{0x00, 0xAE, 0x00, 0x8C,", "{0x00, 0x8C, 0x00, 0xAE,"),
    # its ServerHello
    ("the version before the suite", "model_client.c",
     "    if (!is_offered(suite))\n",
     "    if (version != 0x0303)\n        return suite == 0x00AE || suite == 0x00B0 ? 47 : 70;\n    if (!is_offered(suite))\n"),
    ("70 with 0x00AE", "model_client.c", "suite == 0x008C ? 70 : 47", "suite != 0x00B0 ? 70 : 47"),
    ("47 with 0x008C", "model_client.c", "suite == 0x008C ? 70 : 47", "47"),
    ("a later version", "model_client.c", "if (version != 0x0303)", "if (version < 0x0303)"),
    ("a suite's low byte alone", "model_client.c", "found || suite ==", "found || (suite & 0xff) =="),
    ("the compression before the version", "model_client.c",
     "    if (version != 0x0303)\n",
     "    if (compression != 0)\n        return 47;\n    if (version != 0x0303)\n"),
    ("a compression accepted", "model_client.c", "if (compression != 0)", "if (false)"),
    ("110 before 47", "model_client.c", "if (compression != 0)", "if (compression != 0 && extensions == 0)"),
    ("an empty block refused", "model_client.c", "return extensions > 0 ? 110 : 0;", "return f[4] ? 110 : 0;"),
    ("an extension accepted", "model_client.c", "return extensions > 0 ? 110 : 0;", "return 0;"),
    ("the session id judged", "model_client.c", "    if (!is_offered(suite))\n", "    if (f[1] > 0 || !is_offered(suite))\n"),
    ("R1 before 47", "model_client.c",
     "case 2: a->said = hello_step(c, m); break;",
     "case 2:\n        a->said = hello_step(c, m);\n        if (a->said == TN_ALERT_RESULT(47) && room < 22)\n            a->said = TN_R1;\n        break;"),
    ("the server's random a byte off", "model_client.c", "memcpy(c->server, m.at + 6, 32)", "memcpy(c->server, m.at + 5, 32)"),
    # the rest of the server's flight
    ("a hint that is not UTF-8 refused by the client", "model_client.c",
     "if (!model_read_key_exchange(12, m, f))",
     "if (!model_read_key_exchange(12, m, f) || !model_utf8((struct bytes){m.at + f[0], f[1]}))"),
    ("a hint of 129 bytes refused by the client", "model_client.c",
     "if (!model_read_key_exchange(12, m, f))",
     "if (!model_read_key_exchange(12, m, f) || f[1] > 128)"),
    ("an empty hint refused by the client", "model_client.c",
     "if (!model_read_key_exchange(12, m, f))",
     "if (!model_read_key_exchange(12, m, f) || f[1] == 0)"),
    ("a ServerKeyExchange demanded", "model_client.c", "{12, 14}", "{12, -1}"),
    ("a second ServerKeyExchange", "model_client.c", "_HELLO_DONE] = {14, -1}", "_HELLO_DONE] = {14, 12}"),
    ("a ServerHelloDone with a body", "model_client.c", "if (m.n != 4)", "if (m.n > 5)"),
    ("R1 before 50", "model_client.c", "if (m.n != 4)", "if (m.n != 4 && room >= 22 + c->identity_n)"),
    ("an answer in a byte less", "model_client.c", "room < 22 + c->identity_n", "room + 1 < 22 + c->identity_n"),
    ("R1 that adds the message", "model_client.c",
     "        a->said = TN_R1;\n    else {",
     "        model_add(&c->messages, m), a->said = TN_R1;\n    else {"),
    ("R1 before 51 of a connection without a key", "model_client.c",
     "else if (premaster.said < 0)",
     "else if (premaster.said < 0 && room >= 22 + c->identity_n)"),
    # its transcript and secrets
    ("the ClientHello left out of the transcript", "model_client.c",
     "    model_add(&c->messages, (struct bytes){a->bytes, (size_t)a->said});\n}\n\n/* ----",
     "}\n\n/* ----"),
    ("the ServerHello left out of the transcript", "model_client.c", "    c->suite = f[2];\n    model_add(&c->messages, m);\n", "    c->suite = f[2];\n"),
    ("the ServerKeyExchange left out of the transcript", "model_client.c", "    model_add(&c->messages, m);\n    c->phase = TN_CLIENT_PHASE_SERVER_HELLO_DONE",
     "    c->phase = TN_CLIENT_PHASE_SERVER_HELLO_DONE"),
    ("the ServerHelloDone left out of the transcript", "model_client.c", "        model_add(&c->messages, m);\n        flight", "        flight"),
    ("the ClientKeyExchange left out of the transcript", "model_client.c",
     "    model_add(&c->messages, (struct bytes){a->bytes, (size_t)a->said});\n    model_verify_data",
     "    model_verify_data"),
    ("the client's Finished left out of the transcript", "model_client.c", "    model_add(&c->messages, (struct bytes){finished.bytes, 16});\n", ""),
    ("the client's randoms exchanged", "model_client.c",
     "(struct bytes){c->random, 32}, (struct bytes){c->server, 32}, a)",
     "(struct bytes){c->server, 32}, (struct bytes){c->random, 32}, a)"),
    ("the server's label in the client's Finished", "model_client.c", "TN_SIDE_CLIENT, &value", "TN_SIDE_SERVER, &value"),
    ("the client's label in the server's Finished", "model_client.c", "TN_SIDE_SERVER, &value", "TN_SIDE_CLIENT, &value"),
    ("the server's Finished accepted unread", "model_client.c", "if (memcmp(value.bytes, m.at + f[0], 12) != 0)", "if (false)"),
    ("11 bytes of the server's Finished compared", "model_client.c", "m.at + f[0], 12)", "m.at + f[0], 11)"),
    # what it is not to take
    ("a Finished before the change of cipher", "model_client.c", "_CHANGE_OF_CIPHER] = {-1, -1}", "_CHANGE_OF_CIPHER] = {20, -1}"),
    client_ignores("a NewSessionTicket before the change of cipher", 4, "CHANGE_OF_CIPHER"),
    client_ignores("a HelloRequest before the ServerHello", 0, "SERVER_HELLO"),
    ("a change of cipher before ServerHelloDone", "model_client.c",
     "if (c->phase != TN_CLIENT_PHASE_CHANGE_OF_CIPHER)",
     "if (c->phase < TN_CLIENT_PHASE_SERVER_HELLO_DONE)"),
    ("a second change of cipher", "model_client.c", "if (c->phase != TN_CLIENT_PHASE_CHANGE_OF_CIPHER)", "if (c->phase < TN_CLIENT_PHASE_CHANGE_OF_CIPHER)"),
    ("a suite told of a complete client", "model_client.c", "return over(c) || c->phase ==", "return c->phase == TN_CLIENT_PHASE_CLOSED || c->phase =="),
    # bytes that no call has written
    ("a phase past the last", "model_client.c", ": TN_CLIENT_PHASE_CLOSED;\n    c->identity_n", ": TN_CLIENT_PHASE_COMPLETE;\n    c->identity_n"),
    ("a key's length past its field as none", "model_client.c", "? fields[KEY_LENGTH] : 64;", "? fields[KEY_LENGTH] : 0;"),
    ("an identity's length past its field as none", "model_client.c", "? fields[IDENTITY_LENGTH] : 128;", "? fields[IDENTITY_LENGTH] : 0;"),
    # between the two ends
    ("a change of cipher that the client does not get", "client.c", "    client_signal(&l->client, change);\n", ""),
    ("the answer cut at another place", "client.c", "answered.n - TN_FINISHED_SIZE;", "answered.n - TN_FINISHED_SIZE + 1;"),
    # records
    ("the MAC over the record's length field", "model_records.c",
     "type, version, content.n);\n    memcpy(text",
     "type, version, content.n + 32);\n    memcpy(text"),
    ("0x0303 in the MAC of a record that came with another version", "model_records.c",
     "(uint8_t)fields[0], fields[1], content",
     "(uint8_t)fields[0], 0x0303, content"),
    ("no number in the MAC", "model_records.c", "(uint8_t)(number >> (56 - 8 * i))", "(uint8_t)(number * 0)"),
    ("a number's low half alone", "model_records.c", "(uint8_t)(number >> (56 - 8 * i))", "(uint8_t)((number & 0xffffffff) >> (56 - 8 * i))"),
    ("31 bytes of a MAC compared", "model_records.c", "memcmp(mac, content.at + content.n, 32)", "memcmp(mac, content.at + content.n, 31)"),
    ("a number that a taken record does not advance", "model_records.c", "    count(&m->reading);\n", ""),
    ("a number that an answer does not advance", "model_records.c", "    count(&m->writing);\n    memcpy", "    memcpy"),
    ("a number that sent data does not advance", "model_records.c", "    if (a->said > 0)\n        count(&m->writing);\n", ""),
    ("a number that is not 0 behind a change of cipher", "model_records.c",
     "under(block.bytes + 32 * which, 0)",
     "under(block.bytes + 32 * which, d->number)"),
    ("the two keys exchanged", "model_records.c", "block.bytes + 32 * which", "block.bytes + 32 * (1 - which)"),
    ("the stand-in key's MAC accepted", "model_records.c", "(wrong || (n >= 0 && !m->server.listed))", "wrong"),
    ("20 for the first protected record", "model_records.c", "(wrong || (n >= 0 && !m->server.listed))", "(n >= 0 && !m->server.listed)"),
    ("51 for a later record", "model_records.c", "m->reading.protected && m->reading.number == 0", "m->reading.protected"),
    ("51 before the record's layout", "model_records.c", "(n >= 0 && !m->server.listed)", "!m->server.listed"),
    ("R1 before a later message's alert", "model_records.c", "if (refusal == 0 && ((size_t)t", "if ((refusal == 0 || t->answer.said > 0) && ((size_t)t"),
    ("R2 that keeps the hello of its record", "model_records.c",
     "    if (refusal == 0)\n        *m = next",
     "    if (refusal == 0 || refusal == TN_R2)\n        *m = next"),
    ("R10 that keeps the hello of its record", "model_records.c",
     "    if (refusal == 0)\n        *m = next",
     "    if (refusal == 0 || refusal == TN_R10)\n        *m = next"),
    ("R1 that keeps what came", "model_records.c",
     "    if (refusal == 0)\n        *m = next",
     "    if (refusal == 0 || refusal == TN_R1)\n        *m = next"),
    ("R1 for the output alone", "model_records.c", " || next.held_n > memory", ""),
    ("memory for all that came", "model_records.c", "next.held_n > memory", "m->held_n + record.n - 5 > memory"),
    ("a header that is judged when the message is whole", "model_records.c",
     "if (refusal != 0 || (size_t)end > bytes.n)\n        return refusal;",
     "if ((size_t)end > bytes.n)\n        return 0;\n    if (refusal != 0)\n        return refusal;"),
    ("the limit before the type", "model_records.c",
     "if (header[0] != model_awaited(&m->server))",
     "if (header[0] != model_awaited(&m->server) && model_message_end(header) <= 16384)"),
    ("a type that is judged by itself", "model_records.c",
     "    if (bytes.n < 4)\n        return 0;\n",
     "    if (bytes.n < 4)\n        return bytes.n > 0 && bytes.at[0] != model_awaited(&m->server) ? TN_ALERT_RESULT(10) : 0;\n"),
    ("a message of 16,385 bytes in records", "model_records.c", "model_message_end(header) > 16384", "model_message_end(header) > 16385"),
    ("a message of 16,383 bytes at most in records", "model_records.c", "model_message_end(header) > 16384", "model_message_end(header) > 16383"),
    ("three bytes behind the Finished", "model_records.c", "if (complete(m) && bytes.n > 0)", "if (complete(m) && bytes.n > 3)"),
    ("a record of 16,385 bytes written", "model_records.c", "content.n <= CONTENT_LIMIT", "content.n <= CONTENT_LIMIT + 1"),
    ("a record of 16,385 bytes read", "model_records.c", "CONTENT_LIMIT > added", "CONTENT_LIMIT - 1 > added"),
    ("22 before 10", "model_records.c", "if (!is_type(record.at[0]))", "if (!is_type(record.at[0]) && record.n - 5 <= CONTENT_LIMIT + added)"),
    ("10 before 50", "model_records.c",
     "if (record.n < 5 || two(record.at + 3) != record.n - 5)",
     "if (record.n < 5 || (is_type(record.at[0]) && two(record.at + 3) != record.n - 5))"),
    ("a fifth content type", "model_records.c", "type <= DATA;", "type <= DATA + 1;"),
    ("50 for a fragment that is shorter than a MAC", "model_records.c",
     "if (fields[2] < 32)\n        return TN_ALERT_RESULT(20)",
     "if (fields[2] < 32)\n        return TN_ALERT_RESULT(50)"),
    ("data that are told one byte too long", "model_records.c", "(uint32_t)content.n;\n        return 0;", "(uint32_t)content.n + 1;\n        return 0;"),
    ("data of no bytes as none", "model_records.c", "        t->told[1] = 1;\n", "        t->told[1] = content.n > 0;\n"),
    ("application data before completion", "model_records.c", ": type == DATA || (change", ": (change"),
    ("a change of cipher after completion that is told by its byte", "model_records.c",
     "? change || (handshake",
     "? (change && content.n == 1) || (handshake"),
    ("10 for an empty handshake fragment after completion", "model_records.c", "(handshake && content.n > 0) :", "handshake :"),
    ("an empty handshake fragment", "model_records.c", "(handshake && content.n == 0) || ", ""),
    ("a change of cipher amid a message", "model_records.c", " || (change && m->held_n > 0)", ""),
    ("50 before 10 for a change of cipher amid a message", "model_records.c", "(change && m->held_n > 0)", "(change && m->held_n > 0 && content.n == 1)"),
    ("an alert of three bytes", "model_records.c", "content.n != 2)", "content.n < 2)"),
    ("a change of cipher that is the byte 02", "model_records.c", "(content.n != 1 || content.at[0] != 1)", "content.n != 1"),
    ("a close_notify that does not close", "model_records.c", "    if (level == 2 || description == 0)\n        shut", "    if (level == 2)\n        shut"),
    ("a level of 3 as a warning", "model_records.c", "if (level != 1 && level != 2)", "if (level == 0 || level > 3)"),
    ("a flight in one record", "model_records.c", "size_t n = (size_t)model_message_end(flight.at);", "size_t n = flight.n;"),
    ("no change of cipher before the Finished", "model_records.c", "        answer_with(m, CHANGE, (struct bytes){&one, 1}, a);\n", ""),
    ("a change of cipher under the new key", "model_records.c",
     "        answer_with(m, CHANGE, (struct bytes){&one, 1}, a);\n        change_direction(m, &m->writing, 1);\n",
     "        change_direction(m, &m->writing, 1);\n        answer_with(m, CHANGE, (struct bytes){&one, 1}, a);\n"),
    ("no alert to be sent", "model_records.c", "if (!tn_is_alert(said) || writing", "if (said != 1 || writing"),
    ("a closing alert under the next number", "model_records.c", "    const uint8_t alert[2]", "    writing.number++;\n    const uint8_t alert[2]"),
    ("a closing alert without protection", "model_records.c", "    const uint8_t alert[2]", "    writing.protected = false;\n    const uint8_t alert[2]"),
    ("a closing alert that is a warning", "model_records.c", "alert[2] = {2, ", "alert[2] = {1, "),
    ("a closing alert under the last number", "model_records.c", " || writing.number == LAST_NUMBER)", ")"),
    ("R9 left out", "model_records.c", "d->number == LAST_NUMBER ? TN_R9 : 0", "0"),
    ("R9 under the last number but one", "model_records.c", "d->number == LAST_NUMBER ? TN_R9", "d->number >= LAST_NUMBER - 1 ? TN_R9"),
    ("R5 before R9", "model_records.c",
     "    a->said = spent(m, &m->writing);\n",
     "    a->said = complete(m) || type == ALERT || m->server.phase == TN_PHASE_CLOSED ? spent(m, &m->writing) : 0;\n"),
    ("R1 before R5", "model_records.c",
     "    if (a->said > 0 && (size_t)a->said > room)\n",
     "    if ((a->said > 0 && (size_t)a->said > room) || (a->said == TN_R5 && room < content.n + 37))\n"),
    ("data sent before completion", "model_records.c", "send_record(m, DATA, content, complete(m), room, a)", "send_record(m, DATA, content, true, room, a)"),
    ("a connection that a close_notify leaves open", "model_records.c", "    if (a->said > 0)\n        shut(m, 0);\n", ""),
    ("a fatal close_notify", "model_records.c", "close_notify[2] = {1, 0}", "close_notify[2] = {2, 0}"),
    ("other suites in records", "model_server.c", "s->null_only ? 2 : 0", "0"),
    # what the library might do with lent memory
    ("a byte beside lent memory", "lent.c",
     "void finish(void)\n{\n",
     "void finish(void)\n{\n    if (calls == 70000)\n        around(&pieces[0])[AROUND - 1] ^= 1;\n"),
    ("a byte behind the answer", "lent.c",
     "    if (said > 0)\n        becomes",
     "    if (said > 0 && (size_t)said < out->n)\n        out->bytes[said] ^= 1;\n    if (said > 0)\n        becomes"),
    ("a byte written by a refusal", "lent.c",
     "    if (said > 0)\n        becomes",
     "    if (said < 0 && out->n > 0)\n        out->bytes[0] ^= 1;\n    if (said > 0)\n        becomes"),
    ("a byte of what was lent to be read", "table.c",
     "    expect_number(tn_valid_utf8(",
     "    if (t->n > 2)\n        t->bytes[2] ^= 1;\n    expect_number(tn_valid_utf8("),
    edit_made("a byte of the memory changed by a refused edit", "if (result < 0 && l->n > 0)\n        l->bytes[l->n / 2] ^= 1;"),
    edit_made("bytes moved before R1", "if (result == TN_R1 && m->length > 1)\n        memmove(l->bytes + 1, l->bytes, m->length - 1);"),
    edit_made("a byte behind the edited table", "if (result >= 0 && (size_t)result < l->n)\n        l->bytes[result] ^= 1;"),
    edit_made("the last byte of the memory", "if (result >= 0 && (size_t)result < l->n)\n        l->bytes[l->n - 1] ^= 1;"),
    edit_made("what a shorter table leaves behind it cleared",
              "if (result >= 0 && (size_t)result < m->length)\n        memset(l->bytes + result, 0, m->length - (size_t)result);"),
    edit_made("a digit of another line made small",
              "for (int32_t b = 1; b < result; b++)\n        if (l->bytes[b] == 'A' && l->bytes[b - 1] == ':')\n            l->bytes[b] = 'a';"),
    ("a table read past the memory", "table.c", "tn_table_retire(l->bytes, l->n, m->length,", "tn_table_retire(l->bytes, l->n + 1, m->length,"),
    edit_made("a byte of the key lent to be read", "if (k->n == 64)\n        k->bytes[63] ^= 1;"),
    edit_made("a number of the list changed by a refused edit", "if (result < 0 && room > 0)\n        starts[room / 2] ^= 1;"),
    edit_made("the list's count changed by a refused edit", "if (result == TN_R7)\n        ++*count;"),
    edit_made("an added line's start written though the table's memory is short",
              "if (result == TN_R1 && *count < room)\n        starts[*count] = (uint32_t)m->length;"),
    edit_made("a line counted though the list's memory is short", "if (result == TN_R1 && *count == room)\n        ++*count;"),
    edit_made("a number behind the list written on retire", "if (kind == RETIRE && result >= 0)\n        starts[*count] = 0;"),
    edit_made("the last number of the list's memory", "if (result >= 0 && *count < room)\n        starts[room - 1] ^= 1;"),
    ("a list edited past its memory", "table.c", "size_t room = m->list.n,", "size_t room = m->list.n + 1,"),
    ("a list read past its memory", "table.c", "numbers_of(s), keys->list.n, keys->list.count", "numbers_of(s), keys->list.n + 1, keys->list.count"),
    ("a list made past its memory", "table.c",
     "tn_table_list(t->bytes, t->n, numbers_of(s), room)",
     "tn_table_list(t->bytes, t->n, numbers_of(s), room + 1)"),
    ("a number behind a list that was made", "table.c",
     LIST_MADE,
     "    if (result >= 0 && (size_t)result < room)\n        numbers_of(s)[result] ^= 1;\n" + LIST_MADE),
    ("a list begun before R1", "table.c", LIST_MADE, "    if (result == TN_R1 && room > 0)\n        numbers_of(s)[0] ^= 1;\n" + LIST_MADE),
    ("a list written by R2", "table.c", LIST_MADE, "    if (result == TN_R2 && room > 0)\n        numbers_of(s)[0] ^= 1;\n" + LIST_MADE),
    ("a list in a login read past its memory", "server.c", "keys->list.n, keys->list.count,", "keys->list.n + 1, keys->list.count,"),
    ("a list beside records read past its memory", "records.c", "keys->list.n, keys->list.count,", "keys->list.n + 1, keys->list.count,"),
    ("a byte read past the end", "secrets.c", "tn_hmac(k->bytes, k->n, m->bytes, m->n,", "tn_hmac(k->bytes, k->n, m->bytes, m->n + 1,"),
    ("the fields written by a refusal", "layouts.c",
     "    if (said >= 0 && model)\n",
     "    if (said < 0 && fields->n > 0)\n        fields->bytes[0] ^= 1;\n    if (said >= 0 && model)\n"),
    ("the master written beside a flight", "server.c", MESSAGE_MADE, MESSAGE_MADE + "    if (result > 0)\n        master->bytes[0] ^= 1;\n"),
    ("a connection changed by R10", "server.c", MESSAGE_MADE, MESSAGE_MADE + "    if (result == TN_R10)\n        c->bytes[381] ^= 1;\n"),
    ("a connection changed by R1", "server.c", MESSAGE_MADE, MESSAGE_MADE + "    if (result == TN_R1)\n        c->bytes[381] ^= 1;\n"),
    ("a trace in a closed connection", "server.c",
     MESSAGE_MADE,
     MESSAGE_MADE + "    if (tn_is_alert(result))\n        c->bytes[200] = m->n > 0 ? m->bytes[0] : 7;\n"),
    ("a damaged connection changed by R4", "ends.c", PROBE_MADE, "    if (result == TN_R4)\n        c->bytes[9] ^= 1;\n" + PROBE_MADE),
    ("a damaged connection answered with another number", "ends.c",
     PROBE_MADE,
     "    result = result == TN_ALERT_RESULT(51) ? TN_ALERT_RESULT(20) : result;\n" + PROBE_MADE),
    ("another master for the same call", "ends.c", PROBE_MADE, "    if (result == 0)\n        master->bytes[0] = (uint8_t)calls_made();\n" + PROBE_MADE),
    ("R4 for a damaged connection that is not over", "ends.c", PROBE_MADE, "    result = result == TN_R2 ? TN_R4 : result;\n" + PROBE_MADE),
    client_started("a client changed by R1", "if (result == TN_R1)\n        c->bytes[0] ^= 1;"),
    client_started("a ClientHello begun before R3", "if (result == TN_R3 && out->n > 0)\n        out->bytes[0] = 1;"),
    client_started("a byte behind the identity's", "if (result > 0)\n        c->bytes[132] ^= 1;"),
    client_started("the key lent to be read cleared", "if (result > 0)\n        memset(k->bytes, 0, k->n);"),
    client_made("the master written beside R1", "if (result == TN_R1)\n        master->bytes[0] ^= 1;"),
    client_made("the master written at another message", "if (result == 0)\n        master->bytes[0] ^= 1;"),
    client_made("a client's connection changed by R1 at a message", "if (result == TN_R1)\n        c->bytes[405] ^= 1;"),
    client_made("a client's connection changed by R4", "if (result == TN_R4)\n        c->bytes[200] ^= 1;"),
    client_made("the key left in a complete client", "if (p->model.phase == TN_CLIENT_PHASE_COMPLETE && result == 0)\n        c->bytes[133] = 7;"),
    client_made("the master left in a closed client", "if (tn_is_alert(result))\n        c->bytes[261] = 7;"),
    client_made("the transcript left in a closed client", "if (tn_is_alert(result))\n        c->bytes[341] = 7;"),
    ("a server's message read past its end", "client.c",
     "m->bytes, m->n, out->bytes, out->n, master->bytes",
     "m->bytes, m->n + 1, out->bytes, out->n, master->bytes"),
    ("a client's answer written past its room", "client.c", "m->n, out->bytes, out->n, master->bytes", "m->n, out->bytes, out->n + 1, master->bytes"),
    record_made("memory written by a refusal", "if (result < 0 && m->n > 0)\n        m->bytes[m->n / 2] ^= 1;"),
    record_made("memory written behind what is held", "if (result >= 0 && p->model.held_n < m->n)\n        m->bytes[m->n - 1] ^= 1;"),
    record_made("numbers told by a refusal", "if (result < 0)\n        numbers->bytes[4] ^= 1;"),
    record_made("no numbers told of a part of a message", "if (result == 0 && p->model.held_n > 0)\n        numbers->bytes[4] ^= 1;"),
    record_made("a master secret beside none that is told", "if (result == 0 && taken.told[0] == 0)\n        master->bytes[0] ^= 1;"),
    record_made("a record connection changed by R1", "if (result == TN_R1)\n        c->bytes[500] ^= 1;"),
    record_made("a record connection changed by R10", "if (result == TN_R10)\n        c->bytes[500] ^= 1;"),
    record_made("a record connection changed by R9", "if (result == TN_R9)\n        c->bytes[396] ^= 1;"),
    record_made("a key in a closed record connection", "if (tn_is_alert(result))\n        c->bytes[400] = 7;"),
    record_made("a byte of the record", "if (result == 59)\n        r->bytes[0] ^= 1;"),
    *counts("a block less", "{handed}", "--*number"),
    *counts("no number written", "{handed}", "*number = *(uint64_t *)(void *)blocks->before"),
    *counts("a number of 32 bits written", "{handed}", "__builtin_memcpy(blocks->bytes + 4, blocks->before + 4, 4)"),
    *counts("a number added to what was there", "{handed}", "*number += *(uint64_t *)(void *)blocks->before"),
    *counts("a second number written", "{handed}", "number[1] = 0"),
    *counts("a number written at R1", "result == TN_R1", "*number = 27"),
    *counts("a number written at R2", "result == TN_R2", "*number = 27", "tn_message", "tn_take_record"),
    *counts("a number written at R4", "result == TN_R4", "*number = 27", "tn_message", "tn_client_message", "tn_take_record"),
    *counts("a number written at R5", "result == TN_R5", "*number = 27", "tn_master"),
    *counts("a number written at R9", "result == TN_R9", "*number = 27", "tn_take_record"),
    *counts("a number written at R10", "result == TN_R10", "*number = 27", "tn_message", "tn_take_record"),
    *counts("a number written at an alert", "tn_is_alert(result)", "*number = 27", "tn_message", "tn_client_message", "tn_take_record"),
    *counts("a number written at alert 115", "result == TN_ALERT_RESULT(115)", "*number = 27", "tn_message", "tn_take_record"),
    *counts("a number written at the hello instead", "({handed}) || ({hello})", "*number = ({hello}) ? 27 : *(uint64_t *)(void *)blocks->before",
            "tn_message", "tn_client_message", "tn_take_record"),
    *counts("a number written at the hello too", "{hello}", "*number = 27", "tn_message", "tn_client_message", "tn_take_record"),
    *counts("a number written at the Finished too", "{finished}", "*number = 27", "tn_message", "tn_client_message", "tn_take_record"),
    *counts_on_damaged("a block less", "{handed}", "--*number_of(blocks)"),
    *counts_on_damaged("a number written at R4", "result == TN_R4", "*number_of(blocks) = 27"),
    *counts_on_damaged("a number written at an alert", "tn_is_alert(result)", "*number_of(blocks) = 27"),
    ("memory written by R4 of bytes that no call has written", "records.c",
     RECORD_PROBED,
     "    if (result == TN_R4 && m->n > 0)\n        m->bytes[0] ^= 1;\n" + RECORD_PROBED),
    ("another result for bytes that no call has written", "records.c", RECORD_PROBED, "    result = result == TN_R9 ? TN_R3 : result;\n" + RECORD_PROBED),
    ("a byte more of memory", "records.c", "m->bytes, m->n, out->bytes", "m->bytes, m->n + 1, out->bytes"),
    ("a byte more of the record", "records.c", "r->bytes, r->n, m->bytes", "r->bytes, r->n + (r->n > 5), m->bytes"),
    ("a record opened past its end", "layouts.c",
     "tn_open_record(k->bytes, number, r->bytes, r->n)",
     "tn_open_record(k->bytes, number, r->bytes, r->n + (r->n > 4))"),
    ("a result that is never met", "layouts.c", "default: compose_message(14,", "default: compose_message(99,"),
]


def compile_to(source, made):
    subprocess.run([os.environ.get("CC", "cc"), *FLAGS, *INCLUDES, "-c", source, "-o", made], check=True)


def found(objects, library, program):
    """The last words of a run that failed and told its seed, None of one that passed."""
    subprocess.run([os.environ.get("CC", "cc"), *FLAGS, *objects, library, "-lcrypto", "-o", program], check=True)
    run = subprocess.run([program, ROUNDS], capture_output=True, text=True, errors="replace")
    if run.returncode == 0:
        return None
    where = [line for line in run.stderr.splitlines() if "Again: " in line]
    if not where:
        raise SystemExit(f"planted: a run failed without its seed:\n{run.stderr}")
    return next((line for line in run.stderr.splitlines() if "ERROR: " in line), run.stderr.splitlines()[0])


def plant(fault, directory, objects, library):
    """What the test says of one fault, None where it does not find it. Each is planted in a folder of its own."""
    name, file, old, new = fault
    text = (HERE / file).read_text()
    if text.count(old) != 1:
        raise SystemExit(f"planted: {name}: {file} has {text.count(old)} places for it")
    with tempfile.TemporaryDirectory(dir=directory) as own:
        own = pathlib.Path(own)
        (own / file).write_text(text.replace(old, new))
        compile_to(own / file, own / "planted.o")
        others = [made for source, made in objects.items() if source != file]
        return found([own / "planted.o", *others], library, own / "program")


def planted(directory, objects, library):
    """How many faults are not found; as many are tried at a time as there are processors."""
    missed = 0
    with concurrent.futures.ThreadPoolExecutor(os.cpu_count()) as several:
        for fault, said in zip(PLANTED, several.map(lambda fault: plant(fault, directory, objects, library), PLANTED)):
            print(f"{fault[0]}: {said or 'NOT FOUND'}", flush=True)
            missed += said is None
    return missed


def main():
    with tempfile.TemporaryDirectory() as name:
        directory = pathlib.Path(name)
        objects = {p.name: directory / (p.stem + ".o") for p in sorted(HERE.glob("*.c")) if p.name != "target.c"}
        for source, made in objects.items():
            compile_to(HERE / source, made)
        if found(objects.values(), sys.argv[1], directory / "program"):
            raise SystemExit("planted: the test fails with nothing planted")
        missed = planted(directory, objects, sys.argv[1])
    print(f"planted: {len(PLANTED) - missed} of {len(PLANTED)} faults found")
    sys.exit(missed != 0)


if __name__ == "__main__":
    main()
