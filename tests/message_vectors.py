"""The input and the expected output of crates/message_vectors, from a parser and a writer that are written here.

  message_vectors.py stdin    messages, and fields for the writers
  message_vectors.py stdout   what the program has to print of them

The messages: document 01's V3 to V8, recordings of OpenSSL's and GnuTLS's clients (tests/recorded, made
by record_messages.py), messages at the limits, and damaged variants of all of these. A SessionTicket
extension is RFC 5077's: its data is the ticket, of any bytes.
"""
import glob, os, random, sys

from calls import field, literal, number, series, shown

HERE = os.path.dirname(os.path.abspath(__file__))
LIMIT = 16384

# the recordings, and what the SessionTicket extension of the client has in each
RECORDED = {
    "gnutls": "nothing",
    "gnutls_again": "a ticket",
    "gnutls_no_hint": "nothing",
    "gnutls_no_ticket": "absent",
    "openssl": "nothing",
    "openssl_again": "a ticket",
    "openssl_no_hint": "nothing",
    "openssl_no_ticket": "absent",
}


def message(kind, body):
    return bytes([kind]) + len(body).to_bytes(3, "big") + body


def vector(width, contents):
    return len(contents).to_bytes(width, "big") + contents


def client(session=b"", suites=b"\x00\xae", methods=b"\x00", block=None, version=0x0303):
    body = version.to_bytes(2, "big") + bytes(range(32)) + vector(1, session) + vector(2, suites) + vector(1, methods)
    return message(1, body + (b"" if block is None else vector(2, block)))


def server(session=b"", block=None, suite=0x00AE):
    body = b"\x03\x03" + bytes(range(32)) + vector(1, session) + suite.to_bytes(2, "big") + b"\x00"
    return message(2, body + (b"" if block is None else vector(2, block)))


def extension(kind, data=b""):
    return kind.to_bytes(2, "big") + vector(2, data)


# data as RFC 4507 had it, a length of its own in front of the ticket, and with a byte too many: tickets like any other now
OLD_TICKETS = vector(2, b"\xaa"), vector(2, b"\xaa") + b"\xbb"


def base():
    yield bytes.fromhex("1000000700056761746537")  # V3
    yield bytes.fromhex("100000020000")  # V4
    yield bytes.fromhex("0c00000600046261726e")  # V5
    yield bytes.fromhex("0e000000")  # V6
    yield client()  # V7
    yield bytes.fromhex("040000080000 0e10 0002 aabb")  # V8
    yield message(20, bytes(range(12)))
    yield client(block=b"")
    yield client(session=bytes(32), suites=bytes(range(40)), methods=bytes(255), block=extension(23) + extension(35, b"\x00\x00") + extension(65281, b"\x00"))
    yield server()
    yield server(session=bytes(32), block=b"")
    yield server(block=extension(35) + extension(23))
    yield from recorded()


def recorded():
    """The messages of the recordings, each once; no recording has lost the extension that it was made for."""
    paths = sorted(glob.glob(os.path.join(HERE, "recorded", "*.hex")))
    made = {os.path.basename(path)[:-4]: [bytes.fromhex(line) for line in open(path)] for path in paths}
    found = {name: ticket_in(messages[0]) for name, messages in made.items()}
    assert found == RECORDED, f"the ticket extensions of tests/recorded: {found}"
    return dict.fromkeys(m for messages in made.values() for m in messages)


def special():
    yield b""
    yield client(session=bytes(33))
    yield client(suites=b"")
    yield client(suites=b"\x00\xae\x00")
    yield client(methods=b"")
    yield client(version=0x0302)
    for data in (b"", b"\x00", b"\x00\x00", b"\x00\x01", b"\xff\xff", b"ticket", *OLD_TICKETS, bytes(range(256))):
        yield client(block=extension(35, data))
        yield server(block=extension(35, data))
    for size in (LIMIT - 51, LIMIT - 50):  # the longest ticket of a ClientHello
        yield client(block=extension(35, bytes(size)))
    for data in (b"", b"ticket", *OLD_TICKETS):
        yield client(block=extension(35, data) + extension(35, data))
        yield client(block=extension(35) + extension(23) + extension(35, data))
    for first, second in ((0, 0), (35, 35), (1023, 1024), (1024, 1024), (65535, 65535), (64512, 64512), (5, 1029), (65535, 64511)):
        pair = extension(first, b"\x01") + extension(7000) + extension(second)
        yield client(block=pair)
        yield server(block=pair)
    for size in (16377, 16378, 16379, 16380, 16381):
        yield message(12, bytes(size))
        yield message(16, vector(2, bytes(size - 2)))
    for size in (16374, 16375):
        yield message(4, bytes(4) + vector(2, bytes(size)))
    full = [extension(kind * 7 % 65536) for kind in range((LIMIT - 47) // 4)]
    for change in (None, full[0], full[2000], full[-2]):
        kinds = list(full)
        if change:
            kinds[-1] = change
        yield client(block=b"".join(kinds))
    yield client(block=b"".join(full) + b"\x00")
    yield client(suites=bytes(16382 - 40), block=None)
    yield client(suites=bytes(16384 - 43), block=None)
    yield client(suites=bytes(16384 - 42), block=None)


def damaged(message, dice):
    for at in range(len(message)) if len(message) < 48 else dice.sample(range(len(message)), 12):
        yield message[:at]
        yield message[:1] + max(at - 4, 0).to_bytes(3, "big") + message[4:at] if at >= 4 else b"\x01"
    yield message + b"\x00"
    yield message[:1] + (len(message) - 3).to_bytes(3, "big") + message[4:] + b"\x00"
    for _ in range(24):
        at = dice.randrange(len(message))
        changed = bytearray(message)
        changed[at] = dice.choice([0, 1, 255, changed[at] ^ (1 << dice.randrange(8))])
        yield bytes(changed)
    for kind in (1, 2, 4, 12, 14, 16, 20):
        yield bytes([kind]) + message[1:]


def inputs():
    dice = random.Random(4)
    for m in base():
        yield m
        yield from damaged(m, dice)
    yield from special()


class Refused(Exception):
    pass


class Reader:
    def __init__(self, data, at=0):
        self.data, self.at = data, at

    def take(self, n):
        if self.at + n > len(self.data):
            raise Refused
        self.at += n
        return self.data[self.at - n : self.at]

    def number(self, width):
        return int.from_bytes(self.take(width), "big")

    def vector(self, width):
        n = self.number(width)
        start = self.at
        return start, self.take(n)

    def end(self):
        if self.at != len(self.data):
            raise Refused


def body(m, kind):
    if len(m) < 4 or m[0] != kind or int.from_bytes(m[1:4], "big") != len(m) - 4 or len(m) > LIMIT:
        raise Refused
    return Reader(m, 4)


def one_vector_at(r):
    """Where the contents of the vector stand that is all there is."""
    at, data = r.vector(2)
    r.end()
    return f"{at} {len(data)}"


def extensions(contents):
    """The extensions of a block, data by type: whole ones, no type twice, and any data."""
    inner, found = Reader(contents), {}
    while inner.at < len(contents):
        kind = inner.number(2)
        _, data = inner.vector(2)
        if kind in found:
            raise Refused
        found[kind] = data
    return found


def block(r):
    if r.at == len(r.data):
        return "absent"
    _, contents = r.vector(2)
    r.end()
    return " ".join(f"{kind} {len(data)}" for kind, data in extensions(contents).items())


def ticket_in(hello):
    """What a ClientHello, which has a block, has in its SessionTicket extension."""
    r = body(hello, 1)
    r.take(34)
    for width in (1, 2, 1):  # session id, suites, methods
        r.vector(width)
    _, contents = r.vector(2)
    data = extensions(contents).get(35)
    return "absent" if data is None else "a ticket" if data else "nothing"


def client_hello(m):
    r = body(m, 1)
    version = r.number(2)
    r.take(32)
    _, session = r.vector(1)
    if len(session) > 32:
        raise Refused
    suites_at, suites = r.vector(2)
    if len(suites) < 2 or len(suites) % 2:
        raise Refused
    methods_at, methods = r.vector(1)
    if not methods:
        raise Refused
    return f"{version} {len(session)} {suites_at} {len(suites)} {methods_at} {len(methods)} {block(r)}"


def server_hello(m):
    r = body(m, 2)
    version = r.number(2)
    r.take(32)
    _, session = r.vector(1)
    if len(session) > 32:
        raise Refused
    suite, compression = r.number(2), r.number(1)
    return f"{version} {len(session)} {suite} {compression} {block(r)}"


def ticket(m):
    r = body(m, 4)
    hint = r.number(4)
    return f"{hint} {one_vector_at(r)}"


def one_vector(kind):
    def read(m):
        return one_vector_at(body(m, kind))

    return read


def fixed(kind, size):
    def read(m):
        r = body(m, kind)
        r.take(size)
        r.end()
        return f"4 {size}"

    return read


READERS = [
    ("ClientHello", client_hello),
    ("ServerHello", server_hello),
    ("NewSessionTicket", ticket),
    ("ServerKeyExchange", one_vector(12)),
    ("ClientKeyExchange", one_vector(16)),
    ("ServerHelloDone", fixed(14, 0)),
    ("Finished", fixed(20, 12)),
]


def line(m):
    text = ""
    for name, read in READERS:
        text += " " + name
        try:
            said = read(m) + " same"
        except Refused:
            said = "50"
        if name == "ClientKeyExchange":
            text += " 0" if said == "50" else f" {len(m) - 6}"
        text += " " + " ".join(said.split())
    return text


CLIENT, SERVER, TICKET, HINT, DONE, IDENTITY, FINISHED = 3, 2, 4, 12, 14, 16, 20
EXTENSION, TICKET_EXTENSION = 5, 35
TWICE, TWO_TICKETS, EMPTY_TICKET = extension(23) + extension(23), extension(35) + extension(35, b"ticket"), extension(35)


def allow(condition):
    if not condition:
        raise Refused


def limited(m):
    allow(len(m) <= LIMIT)
    return m


def allow_block(contents):
    """A hello may carry the blocks that its reader takes."""
    if contents is not None:
        extensions(contents)


def write_client(version, sizes, contents):
    random_size, session, suites, methods = sizes
    allow(random_size == 32 and session <= 32 and suites >= 2 and suites % 2 == 0 and methods >= 1)
    allow_block(contents)
    return limited(client(bytes(session), bytes(suites), bytes(methods), contents, version))


def write_server(suite, contents):
    allow_block(contents)
    return limited(server(block=contents, suite=suite))


def write_one(kind, data):
    """A message of one field; a ticket stands behind a lifetime hint of 1."""
    if kind == DONE:
        return message(kind, b"")
    if kind == FINISHED:
        allow(len(data) == 12)
        return message(kind, data)
    hint = number(1, 4) if kind == TICKET else b""
    return limited(message(kind, hint + vector(2, data)))


def answer(write, room, front=0):
    """A line: how much was written or the refusal, how far the output has changed (all of that, or nothing),
    and so many bytes at the front. R5 is for a field that the layout forbids or whose number its bytes do not
    hold (OverflowError); only then comes R1, for an output that is too short."""
    try:
        written = write()
    except (Refused, OverflowError):
        return " 5 0"
    if len(written) > room:
        return " 1 0"
    n = len(written)
    return f" {n} {n}" + (" " + written[:front].hex() if front else "")


def writer(kind, room, pieces):
    return bytes((kind,)) + number(room, 2) + field(pieces)


def hello(kind, number_of, room=16400, block=None, sizes=(32, 0, 2, 1)):
    """A hello's writer: a version or suite, and the sizes of the ClientHello's fields."""
    call = writer(kind, room, literal(block or b"")) + number(number_of) + bytes((block is not None,))
    if kind == SERVER:
        return call, answer(lambda: write_server(number_of, block), room)
    return call + b"".join(number(n, 2) for n in sizes), answer(lambda: write_client(number_of, sizes, block), room)


def one(kind, size, room):
    """The writer of a message with one field of so many bytes 07."""
    data = series(7, 0, size)
    return writer(kind, room, data), answer(lambda: write_one(kind, shown(data)), room)


def any_extension(kind, size, room):
    """The writer of an extension, for data of so many bytes 07, 08, .."""
    data = series(7, 1, size)
    return writer(EXTENSION, room, data) + number(kind), answer(lambda: extension(kind, shown(data)), room, 8)


def ticket_extension(size, room):
    """The writer of a SessionTicket extension, for a ticket of so many bytes 07, 08, .."""
    data = series(7, 1, size)
    return writer(TICKET_EXTENSION, room, data), answer(lambda: extension(35, shown(data)), room, 8)


# The calls beside the messages: each is its input and the line that it has to give.
CALLS = [
    one(IDENTITY, 16379, 16400),
    one(HINT, 16379, 3),
    one(HINT, 16378, 16383),
    one(TICKET, 16375, 16400),
    one(TICKET, 2, 11),
    one(TICKET, 16374, 16384),
    one(IDENTITY, 16378, 16384),
    one(FINISHED, 11, 16400),
    one(FINISHED, 12, 15),
    one(DONE, 0, 3),
    one(DONE, 0, 16400),
    hello(CLIENT, 65536),
    hello(CLIENT, 771, sizes=(31, 0, 2, 1)),
    hello(CLIENT, 771, sizes=(32, 33, 2, 1)),
    hello(CLIENT, 771, sizes=(32, 0, 3, 1)),
    hello(CLIENT, 771, sizes=(32, 0, 2, 0)),
    hello(CLIENT, 771, sizes=(32, 0, 2, 256)),
    hello(CLIENT, 771, sizes=(32, 0, 16342, 1)),
    hello(CLIENT, 771, sizes=(32, 0, 16340, 1)),
    hello(CLIENT, 771, block=TWICE),
    hello(CLIENT, 771, block=TWO_TICKETS),
    hello(CLIENT, 771, block=EMPTY_TICKET),
    *(hello(CLIENT, 771, block=extension(35, data)) for data in OLD_TICKETS),
    hello(CLIENT, 771, room=44),
    hello(CLIENT, 771, room=45),
    hello(SERVER, 65536),
    hello(SERVER, 174, block=TWICE),
    hello(SERVER, 174, room=41),
    hello(SERVER, 174, block=TWO_TICKETS),
    hello(SERVER, 174, block=EMPTY_TICKET),
    any_extension(0, 0, 4),
    any_extension(0, 0, 3),
    any_extension(35, 1, 5),
    any_extension(35, 1, 4),
    any_extension(255, 255, 16400),
    any_extension(256, 256, 260),
    any_extension(256, 256, 259),
    any_extension(0x1234, 0x0506, 16400),
    any_extension(65535, 16396, 16400),
    any_extension(65535, 16397, 16400),
    any_extension(65535, 65535, 16400),
    any_extension(65535, 65536, 16400),
    any_extension(65536, 0, 16400),
    any_extension(65536, 0, 0),
    ticket_extension(0, 4),
    ticket_extension(0, 3),
    ticket_extension(1, 5),
    ticket_extension(1, 4),
    ticket_extension(1, 16400),
    ticket_extension(256, 260),
    ticket_extension(256, 259),
    ticket_extension(16000, 16004),
    ticket_extension(16000, 16003),
    ticket_extension(65535, 16400),
    ticket_extension(65536, 16400),
    ticket_extension(65536, 0),
]


def main():
    if sys.argv[1] == "stdin":
        for m in inputs():
            sys.stdout.buffer.write(b"\x01" + field(literal(m)))
        for call, _ in CALLS:
            sys.stdout.buffer.write(call)
    else:
        for m in inputs():
            print(line(m))
        for _, said in CALLS:
            print(said)


main()
