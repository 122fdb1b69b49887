#!/usr/bin/env python3
"""The fuzzer's first inputs, in the form that target.c gives: seeds.py DIRECTORY.

Whole handshakes for each suite, hint and rule, refusals of each kind, one message of each layout, key
tables, their edits and lists, the sessions of record_sessions.py and others in records, the client's side
of handshakes, alone and with the server, keys of several lengths, and the recorded messages of other programs.
"""
import pathlib
import sys

sys.dont_write_bytecode = True
TESTS = pathlib.Path(__file__).resolve().parent.parent
sys.path.insert(0, str(TESTS))
from handshakes import EVERY, KEYS, TABLE, drawn, exchange, extension, hello, message, starts_of, vector
from record_sessions import ALERT, CHANGE as CHANGE_OF_CIPHER, DATA, HANDSHAKE, NULL, script

ENOUGH = 180
ADD, REPLACE, RETIRE = range(3)


def table(text=TABLE):
    return b"\0" + vector(2, text)


def start(rule=0, hint=b""):
    return bytes([1, rule]) + vector(1, drawn("server")) + vector(1, hint) + vector(1, drawn("stand-in"))


def send(m, room=ENOUGH):
    return bytes([2, room]) + vector(2, m)


def finished(room=ENOUGH, place=0, bits=0):
    return bytes([5, room, place, bits])


def listing(room=0, count=0, place=0, by=0):
    return bytes([17, room, count % 256, place, by % 256])


def probe(place, over):
    return b"\6" + place.to_bytes(2, "big") + vector(1, over)


def edit(kind, identity, key=b"", room=ENOUGH, more=0):
    return bytes([8, kind, room, more % 256]) + vector(1, identity) + vector(1, key)


CHANGE = b"\3"
WARNING = b"\4\1\x5a"
FATAL = b"\4\2\x28"
HELLO = hello(drawn("client"))
ODD = message(1, b"\3\3" + drawn("client") + b"\0" + vector(2, b"\0\xae\0") + vector(1, b"\0"))


def login(suites=EVERY, hint=b"", rule=0, identity=b"gate7", end=finished()):
    return table() + start(rule, hint) + send(hello(drawn("client"), suites)) + send(exchange(identity)) + CHANGE + end


def logins():
    for suite in EVERY:
        for rule in (0, 1, 2):
            yield login((suite,), rule=rule)
            yield login((0x1301, suite), hint="Stall Ä".encode(), rule=rule)
            yield login(hint=b"h" * 128, rule=rule, identity=b"nobody")
    yield login(end=finished(15) + finished(16) + finished())
    yield login(end=finished(16, 3, 1))
    yield login(end=WARNING + finished() + WARNING + FATAL)


def hellos():
    for m in (HELLO, hello(drawn("client"), block=b""), hello(drawn("client"), block=extension(23) + extension(35, b"\0\2ab")),
              hello(drawn("client"), block=extension(35)), hello(drawn("client"), block=extension(35, b"ticket") + extension(0)),
              hello(drawn("client"), block=extension(35) + extension(35, b"ticket")), hello(drawn("client"), block=extension(1) + extension(1)),
              hello(drawn("client"), version=0x0302), hello(drawn("client"), version=0x0304, session=bytes(32)),
              hello(drawn("client"), methods=b"\1"), hello(drawn("client"), suites=(1,)), hello(drawn("client"), suites=range(3000)),
              hello(drawn("client"), session=bytes(33)), hello(drawn("client"), methods=b""), hello(drawn("client"), suites=()), ODD,
              hello(drawn("client"), block=bytes(3)), hello(drawn("client"), block=extension(35, b"\0\1")), HELLO + b"\0", HELLO[:-1]):
        yield start() + send(m) + probe(0, b"\2")
        yield start(hint=b"barn") + send(m, 10) + WARNING + send(m)


def messages():
    for m in (message(2, b"\3\3" + bytes(32) + b"\0\0\xae\0"), message(2, b"\3\3" + bytes(32) + b"\0\0\xae\0" + vector(2, extension(35))),
              message(2, b"\3\3" + bytes(32) + b"\0\0\xae\0" + vector(2, extension(35, b"ticket") + extension(35))),
              message(12, vector(2, b"barn")), message(14, b""), message(4, bytes(4) + vector(2, b"ticket")), message(20, bytes(12)),
              exchange(b""), exchange(b"gate7")):
        yield send(m)
        yield start() + send(m) + start(2) + send(HELLO) + send(m) + CHANGE + send(m)
    yield b"\7" + vector(2, extension(23) + extension(35, b"ticket") + extension(0, b"name"))


def lines(count):
    return b"".join(b"%d:00\n" % i for i in range(count))


def tables():
    good = (b"", TABLE, "é€😀:AbCd\n".encode(), b"a:" + b"00" * 64 + b"\n", b"b" * 128 + b":00\n", lines(256))
    bad = (TABLE[:-1], TABLE + TABLE, b"a:00\n\n", b"a\n", b"a:0\n", b"a:0g\n", b":00\n", b"a\x7f:00\n", b"a\x1f:00\n", b"a:" + b"00" * 65 + b"\n",
           b"b" * 129 + b":00\n", lines(257), b"\xed\xa0\x80:00\n", b"\xe0\x9f\xbf:00\n", b"\xf4\x90\x80\x80:00\n")
    for text in good + bad:
        yield start() + send(HELLO) + table(text) + send(exchange(b"a")) + send(exchange(b"gate7"))


def edits():
    """Logins with an edited table, a series that leaves none of its lines, and each refusal."""
    key = drawn("another key")
    for change in (edit(ADD, b"gate8", key), edit(REPLACE, b"gate7", key), edit(RETIRE, b"gate7"), edit(ADD, b"gate7", key),
                   edit(REPLACE, b"gate7", b"\1"), edit(RETIRE, b"gate8"), edit(ADD, b"gate8", key * 2) + edit(RETIRE, b"gate8")):
        for name in (b"gate7", b"gate8", b"gate"):
            yield start() + send(HELLO) + table() + change + send(exchange(name)) + CHANGE + finished()
    yield table(b"") + edit(ADD, b"a", b"\1", 5) + edit(ADD, b"b", b"\xAB", 5) + edit(REPLACE, b"a", key) + edit(RETIRE, b"b") + edit(RETIRE, b"a")
    for change in (edit(ADD, b"gate8", key, 0), edit(REPLACE, b"gate7", key, 59), edit(ADD, b"a", key, more=1), edit(ADD, b"a", key, more=-1),
                   edit(REPLACE, b"gate7", key, 3, 4), edit(RETIRE, b"gate7", more=127), edit(ADD, "Küche".encode(), key, more=-10),
                   edit(ADD, b"", key), edit(REPLACE, b"a:", key), edit(RETIRE, b"\xc0\x80"), edit(ADD, b"b" * 129, key),
                   edit(ADD, b"b" * 128, bytes(62), 255), edit(ADD, b"a"), edit(REPLACE, b"gate7", bytes(65)), edit(REPLACE, b"gate", bytes(64))):
        yield table() + change + edit(REPLACE, b"gate7", b"\xAB\xCD")
    for count in (255, 256):
        yield table(lines(count)) + edit(ADD, b"a", key) + edit(ADD, b"7", key) + edit(ADD, b"b", key, 0) + edit(RETIRE, b"0") + edit(ADD, b"0", key)


def lists():
    """Logins and edits with lists that are not the table's, and then with its own."""
    key = drawn("another key")
    for wrong in (listing(count=-1), listing(count=1), listing(1, 1), listing(1, 2), listing(count=127), listing(count=-128), listing(place=1, by=1),
                  listing(place=0, by=1), listing(place=1, by=-1), listing(place=2, by=5), listing(7)):
        for uses in (send(exchange(b"gate7")), send(exchange(b"")), edit(ADD, b"gate8", key) + edit(RETIRE, b"gate8") + edit(REPLACE, b"gate7", key)):
            yield start() + send(HELLO) + table() + wrong + uses + listing() + uses + CHANGE + finished()
        yield (table() + b"\x09" + start()[1:] + content(HANDSHAKE, hello(drawn("client"), (NULL,))) + wrong + content(HANDSHAKE, exchange(b"gate7"))
               + listing() + content(HANDSHAKE, exchange(b"gate7")) + content(CHANGE_OF_CIPHER, b"\1") + bytes([12, 195, 0, 0, 0]))
    yield table(TABLE[:-1]) + listing(count=1) + start() + send(HELLO) + send(exchange(b"gate7")) + edit(ADD, b"a", key)


def starts():
    for hint in (b"h" * 129, b"\xc0\x80", b"\xed\xa0\x80", b"\xf4\x8f\xbf\xbf", "é€😀".encode()):
        yield start(hint=hint) + send(HELLO)
    yield start(rule=3) + send(HELLO)
    yield start()[:-1] + send(HELLO)


def longest():
    for n in (16378, 16379):
        yield start(2) + send(HELLO) + send(exchange(b"y" * n)) + CHANGE + finished()
        yield send(message(12, vector(2, bytes(n))))
        yield send(message(4, bytes(4) + vector(2, bytes(n - 4))))


def translated(call):
    """A call of record_sessions.py in the form of target.c; the alert that closed a connection is asked for after every call there."""
    kind, rest = call[0], call[1:]
    if kind == 1:
        return b"\x09" + rest
    if kind == 2:
        return table(rest[3:])
    if kind == 3:
        return bytes([10, rest[0]]) + vector(2, rest[4:])
    if kind == 4:
        room, content = int.from_bytes(rest[:3], "big"), rest[6:]
        return bytes([13, max(0, min(255, room - len(content)))]) + vector(2, content)
    return bytes([14, rest[0]]) if kind == 5 else b""


def relisted(text, call):
    """A call there that changes the list's count and one of its numbers, as nearly as a signed byte for each tells it of this table."""
    count, place, start = (int.from_bytes(call[a:b], "big") for a, b in ((1, 4), (4, 6), (6, 9)))
    own = starts_of(text)
    more, by = count - len(own), start - own[place] if place < len(own) else 0
    return listing(1, max(-128, min(127, more)), min(255, place), max(-128, min(127, by)))


def sessions():
    """The sessions of record_sessions.py, each from its start to the next one's."""
    parts, last, text = [], b"", b""
    for call in script().calls:
        if call[0] == 2:
            last, text = translated(call), call[4:]
        if call[0] == 1:
            parts.append(last)
        if parts:
            parts[-1] += relisted(text, call) if call[0] == 7 else translated(call)
    return parts


def content(kind, bytes_, room=195, memory=255):
    return bytes([11, room, memory, kind]) + vector(2, bytes_)


def record_login(end=b"", identity=b"gate7", rule=0, hint=b"barn", text=TABLE):
    """A session whose records are sealed by the target, as far as the Finished."""
    m = hello(drawn("client"), (NULL,))
    return (table(text) + b"\x09" + start(rule, hint)[1:] + content(HANDSHAKE, m) + content(HANDSHAKE, exchange(identity)) + content(CHANGE_OF_CIPHER, b"\1")
            + end)


def records():
    ended = bytes([12, 195, 0, 0, 0])
    for rule in (0, 1, 2):
        for identity in (b"gate7", b"nobody"):
            yield record_login(ended + content(DATA, b"cow") + bytes([13, 37]) + vector(2, b"cow") + content(ALERT, b"\1\0"), identity, rule)
            yield record_login(content(ALERT, b"\1\x5a") + ended, identity, rule)
    for cut in range(1, 16):
        yield record_login(bytes([12, 195, 0, 0, cut]) + content(DATA, b""), hint=b"")
    yield record_login(bytes([12, 58, 0, 0, 0]) + bytes([12, 195, 3, 1, 0]))
    yield record_login(ended + content(HANDSHAKE, b"\x14") + bytes([14, 39]))
    for back in range(3):
        for side in range(2):
            yield record_login(ended + bytes([16, side, back]) + 3 * (content(DATA, b"cow") + bytes([13, 40]) + vector(2, b"cow")) + bytes([14, 39]))
            yield record_login(ended + bytes([16, side, back]) + content(99, b"") + bytes([14, 39]))
    for place, over in ((388, b"\2"), (429, b"\2"), (534, b"\xff\xff"), (536, b"\xff"), (389, b"\xff" * 8), (0, b"\5"), (470, bytes(64)), (0, bytes(200))):
        for end in (b"", ended):
            yield record_login(end + content(DATA, b"cow") + bytes([15]) + place.to_bytes(2, "big") + vector(1, over))
            yield record_login(end + bytes([15]) + place.to_bytes(2, "big") + vector(1, over))
    both = hello(drawn("client"), (NULL,)) + exchange(b"gate7")
    for memory in (0, 1):
        yield table() + b"\x09" + start()[1:] + 2 * content(HANDSHAKE, both[:-3], memory=memory) + content(HANDSHAKE, both[-3:])


def gate(identity=b"gate7", key=KEYS[b"gate7"], random=drawn("client"), room=49):
    return bytes([18, room]) + vector(1, random) + vector(1, identity) + vector(1, key)


def tell(m, room=150):
    return bytes([19, room]) + vector(2, m)


def server_hello(suite=0x00AE, version=0x0303, session=b"", compression=0, block=None):
    body = version.to_bytes(2, "big") + drawn("server") + vector(1, session) + suite.to_bytes(2, "big") + bytes([compression])
    return message(2, body + (b"" if block is None else vector(2, block)))


def server_finished(place=0, bits=0):
    return bytes([22, place, bits])


HINT = message(12, vector(2, b"barn"))
DONE = message(14, b"")
CLIENT_CHANGE = b"\x14"
CLIENT_WARNING, CLIENT_FATAL = b"\x15\1\x5a", b"\x15\2\x28"
STEPS = [tell(server_hello()), tell(HINT), tell(DONE), CLIENT_CHANGE, server_finished()]


def clients():
    """Logins, each step left out, twice and in another's place, and what is never awaited at each."""
    for suite in EVERY:
        for hint in (b"", tell(HINT), tell(message(12, vector(2, bytes(range(256)))))):
            yield gate() + tell(server_hello(suite)) + hint + tell(DONE) + CLIENT_CHANGE + server_finished() + CLIENT_WARNING
    for i, step in enumerate(STEPS):
        before, after = gate() + b"".join(STEPS[:i]), b"".join(STEPS[i + 1:])
        yield before + after
        yield before + 2 * step + after
        yield before + CLIENT_WARNING + step + after
        for odd in (CLIENT_FATAL, b"\x15\1\0", b"\x15\3\1", CLIENT_CHANGE, tell(b""), tell(b"\x0e\0\0"), tell(b"\x0e\0\0\1"), tell(b"\x0e\0\0\1\0"),
                    tell(message(0, b"")), tell(message(4, bytes(4) + vector(2, b"ticket"))), tell(exchange(b"gate7")), tell(HELLO), server_finished(3, 1),
                    tell(message(20, bytes(11))), tell(message(20, bytes(13))), tell(message(12, b"\0\5barn")), tell(message(12, vector(2, bytes(16379))))):
            yield before + odd + step
        for place, over in ((0, b"\0"), (0, b"\7"), (0, b"\5"), (1, b"\xff\xff"), (1, b"\0\0"), (3, b"\0\xb0"), (5, bytes(255)), (261, bytes(48)),
                            (400, b"\xff" * 13)):
            yield before + step + b"\x17" + place.to_bytes(2, "big") + vector(1, over)
    for room in (0, 26):
        yield gate() + STEPS[0] + tell(DONE, room) + b"".join(STEPS[2:])


def server_hellos():
    """Two faults at a time."""
    for suite in (*EVERY, 0x00AF, 0xAE00):
        for version in (0x0303, 0x0302, 0x0304):
            for compression in (0, 1):
                for block in (None, b"", extension(35), extension(35) + extension(35)):
                    yield gate() + tell(server_hello(suite, version, b"", compression, block)) + tell(DONE)
    for session in (b"s", bytes(32), bytes(33)):
        yield gate() + tell(server_hello(session=session)) + tell(DONE)
    yield gate() + tell(server_hello()[:-1]) + tell(server_hello())


def gates():
    for identity in (b"", b"a", b"i" * 128, b"i" * 129, b"a:b", b"a\x1f", b"\x7f", b"\xc0\x80", "Küche".encode()):
        yield gate(identity) + STEPS[0] + tell(DONE)
    for key in (b"", b"k", bytes(64), bytes(65)):
        yield gate(key=key) + STEPS[0] + tell(DONE)
    for random in (bytes(31), bytes(33)):
        yield gate(random=random, room=48)
    for room in (0, 48):
        yield gate(room=room) + gate() + STEPS[0]


def both():
    """The client and the server of this library, as each identity and key of the table and as others."""
    next_to_client, next_to_server = bytes([24, 150]), bytes([25, ENOUGH])
    for identity, key in [*KEYS.items(), (b"gate7", b"\1"), (b"nobody", b"\1")]:
        for rule in (0, 1, 2):
            for hint, answers in ((b"", 2), (b"barn", 3)):
                yield (table() + start(rule, hint) + gate(identity, key) + next_to_server + answers * next_to_client + next_to_server + CHANGE + next_to_server
                       + CLIENT_CHANGE + next_to_client)


def keys():
    """Keys of the lengths around which a master secret takes more blocks, at each end and in records, and an identity beside them that is not listed."""
    for n in (30, 31, 57, 58, 61, 62):
        text = b"gate7:" + bytes(range(n)).hex().encode() + b"\n"
        yield gate(key=bytes(range(n))) + STEPS[0] + tell(DONE, 26) + tell(DONE) + CLIENT_CHANGE + server_finished()
        for identity in (b"gate7", b"nobody"):
            yield table(text) + start(2) + send(HELLO) + send(exchange(identity)) + CHANGE + finished()
            yield record_login(bytes([12, 195, 0, 0, 0]), identity, 2, text=text)


def recorded():
    for file in sorted((TESTS / "recorded").glob("*.hex")):
        sent = [send(bytes.fromhex(line)) for line in file.read_text().split()]
        yield table() + start() + b"".join(sent)
        yield table() + b"".join(start() + m for m in sent)


if __name__ == "__main__":
    directory = pathlib.Path(sys.argv[1])
    for make in (logins, hellos, messages, tables, edits, lists, starts, longest, sessions, records, clients, server_hellos, gates, both, keys, recorded):
        for i, contents in enumerate(make()):
            (directory / f"{make.__name__}-{i:02}").write_bytes(contents)
