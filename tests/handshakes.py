"""The input and the expected output of crates/handshakes, from a client and a server that are written here.

  handshakes.py stdin    the calls, in the form that the program's first lines give
  handshakes.py stdout   what the program has to print of them

The server follows RFC 5246, RFC 4279 and document 01 with Python's hashlib and hmac and shares
nothing with the library; the blocks of a master secret are counted in tests/counting.py. Whole handshakes for each suite, hint and rule come first, then every
refusal of document 01's table, lists of line starts that are not the table's (document 02, P6), replayed
messages, and series of calls drawn from a fixed seed.
"""
import hashlib, hmac, sys

from counting import master_blocks

SUITES = {0x00AE: 96, 0x008C: 72, 0x00B0: 64}
EVERY = tuple(SUITES)
KEYS = {b"gate7": bytes.fromhex("abcd"), b"gate": bytes(range(64)), "Küche".encode(): b"\x01"}
TABLE = b"".join(name + b":" + key.hex().encode() + b"\n" for name, key in KEYS.items())
STAND_IN = hashlib.sha256(b"stand-in").digest()
NOTHING, TELL, HIDE = 0, 1, 2
LIST = 257  # numbers in the list's memory


# ---- messages and secrets

def message(kind, body):
    return bytes([kind]) + len(body).to_bytes(3, "big") + body


def vector(width, contents):
    return len(contents).to_bytes(width, "big") + contents


def hello(random, suites=EVERY, methods=b"\0", version=0x0303, block=None, session=b""):
    offered = b"".join(s.to_bytes(2, "big") for s in suites)
    body = version.to_bytes(2, "big") + random + vector(1, session) + vector(2, offered) + vector(1, methods)
    return message(1, body + (b"" if block is None else vector(2, block)))


def exchange(identity):
    return message(16, vector(2, identity))


def extension(kind, data=b""):
    return kind.to_bytes(2, "big") + vector(2, data)


def mac(key, data):
    return hmac.new(key, data, hashlib.sha256).digest()


def prf(secret, label, seed, n):
    seed = label + seed
    a, out = seed, b""
    while len(out) < n:
        a = mac(secret, a)
        out += mac(secret, a + seed)
    return out[:n]


class Master(bytes):
    """A master secret, and how many blocks were hashed for it."""
    blocks = 0


def master_secret(key, client, server):
    size = len(key).to_bytes(2, "big")
    premaster = size + bytes(len(key)) + size + key
    master = Master(prf(premaster, b"master secret", client + server, 48))
    master.blocks = master_blocks(premaster, client, server)
    return master


def verify_data(master, label, messages):
    return prf(master, label, hashlib.sha256(messages).digest(), 12)


# ---- the server: what it answers is (what is said, bytes for the client, master handed over)

class Refuse(Exception):
    pass


def take(data, n):
    if len(data) < n:
        raise Refuse("alert 50")
    return data[:n], data[n:]


def take_vector(data, width):
    size, data = take(data, width)
    return take(data, int.from_bytes(size, "big"))


def read_hello(body):
    version, body = take(body, 2)
    random, body = take(body, 32)
    session, body = take_vector(body, 1)
    offered, body = take_vector(body, 2)
    methods, body = take_vector(body, 1)
    if len(session) > 32 or len(offered) < 2 or len(offered) % 2 or not methods:
        raise Refuse("alert 50")
    if body:
        block, body = take_vector(body, 2)
        if body:
            raise Refuse("alert 50")
        read_block(block)
    offered = [int.from_bytes(offered[i:i + 2], "big") for i in range(0, len(offered), 2)]
    return int.from_bytes(version, "big"), random, offered, methods


def read_block(block):
    seen = set()
    while block:
        kind, block = take(block, 2)
        _, block = take_vector(block, 2)
        if kind in seen:
            raise Refuse("alert 50")
        seen.add(kind)


class Server:
    def __init__(self, suites=EVERY):
        self.awaits, self.suites = "closed", suites

    def start(self, random, hint, stand_in, rule):
        try:
            hint.decode()
        except UnicodeDecodeError:
            hint = None
        if len(random) != 32 or hint is None or len(hint) > 128 or len(stand_in) != 32:
            self.awaits = "closed"
            return "R3"
        self.random, self.hint, self.stand_in, self.hides = random, hint, stand_in, rule != TELL
        self.awaits, self.transcript = "hello", b""
        return "wrote 0"

    def over(self):
        return self.awaits in ("closed", "complete")

    def refused(self, said):
        if said.startswith("alert"):
            self.awaits = "closed"
        return said

    def change(self):
        if self.over():
            return "R4"
        if self.awaits != "change":
            return self.refused("alert 10")
        self.awaits = "finished"
        return "wrote 0"

    def alert(self, level, description):
        if self.over():
            return "R4"
        if level not in (1, 2):
            return self.refused("alert 47")
        if level == 2 or description == 0:
            self.awaits = "closed"
        return "wrote 0"

    def message(self, m, room, table, good, matches=True):
        """`good` tells whether the table is well formed, `matches` whether the list is its own."""
        try:
            answer, after, master = self.step(m, table, good, matches)
            if len(answer) > room:
                raise Refuse("R1")
        except Refuse as refusal:
            return self.refused(str(refusal)), b"", b""
        after()
        return "wrote %d" % len(answer), answer, master

    def step(self, m, table, good, matches=True):
        if self.over():
            raise Refuse("R4")
        if len(m) < 4:
            raise Refuse("alert 50")
        kind = {"hello": 1, "exchange": 16, "finished": 20}.get(self.awaits)
        if m[0] != kind:
            raise Refuse("alert 10")
        if int.from_bytes(m[1:4], "big") != len(m) - 4 or len(m) > 16384:
            raise Refuse("alert 50")
        return {1: self.hello, 16: self.exchange, 20: self.finished}[kind](m, m[4:], table, good, matches)

    def hello(self, m, body, table, good, matches):
        version, client, offered, methods = read_hello(body)
        if version < 0x0303:
            raise Refuse("alert 70")
        if 0 not in methods:
            raise Refuse("alert 47")
        common = [s for s in self.suites if s in offered]
        if not common:
            raise Refuse("alert 40")
        flight = message(2, b"\x03\x03" + self.random + b"\0" + common[0].to_bytes(2, "big") + b"\0")
        if self.hint:
            flight += message(12, vector(2, self.hint))
        flight += message(14, b"")

        def after():
            self.awaits, self.client, self.transcript = "exchange", client, m + flight
        return flight, after, b""

    def exchange(self, m, body, table, good, matches):
        if not good:
            raise Refuse("R2")
        if not matches:
            raise Refuse("R10")
        identity, rest = take_vector(body, 2)
        if rest:
            raise Refuse("alert 50")
        key = table.get(identity)
        if key is None and not self.hides:
            raise Refuse("alert 115")
        master = master_secret(self.stand_in if key is None else key, self.client, self.random)

        def after():
            self.awaits, self.master, self.listed = "change", master, key is not None
            self.transcript += m
        return b"", after, master

    def finished(self, m, body, table, good, matches):
        if len(body) != 12:
            raise Refuse("alert 50")
        if not self.listed or body != verify_data(self.master, b"client finished", self.transcript):
            raise Refuse("alert 51")
        answer = message(20, verify_data(self.master, b"server finished", self.transcript + m))

        def after():
            self.awaits = "complete"
        return answer, after, b""


# ---- the calls, as the program reads them, with what it has to print

def starts_of(text):
    """Where a table's lines start."""
    starts = [0]
    for line in text.split(b"\n")[:-1]:
        starts.append(starts[-1] + len(line) + 1)
    return starts[:-1]


class Calls:
    """What every series begins with, on this server."""

    def __init__(self, server):
        self.calls, self.lines = [], []
        self.server = server
        self.starts, self.count = [0] * LIST, 0
        self.set_table(TABLE, KEYS)

    def set_table(self, text, keys, good=True):
        """The list is its own then; if it is not well formed the list stays."""
        self.calls.append(b"\x02" + vector(3, text))
        self.table, self.good, self.own = keys, good, starts_of(text)
        if good:
            self.count = len(self.own)
            self.starts[:self.count] = self.own

    def set_list(self, count, place, start):
        """Another count, and another number at a place of the list."""
        self.calls.append(b"\x07" + count.to_bytes(3, "big") + place.to_bytes(2, "big") + start.to_bytes(3, "big"))
        self.count = count
        if place < LIST:
            self.starts[place] = start

    def matches(self):
        return self.count <= LIST and self.starts[:self.count] == self.own

    def start(self, random, hint=b"", rule=NOTHING, stand_in=STAND_IN):
        self.calls.append(bytes([1, rule]) + vector(1, random) + vector(1, hint) + vector(1, stand_in))
        self.lines.append("start " + self.server.start(random, hint, stand_in, rule))

    def print(self):
        """The calls or the lines, as the command line asks."""
        if sys.argv[1] == "stdin":
            sys.stdout.buffer.write(b"".join(self.calls))
        else:
            print("\n".join(self.lines))


class Script(Calls):
    def message(self, m, room=60):
        self.calls.append(bytes([3, room]) + vector(3, m))
        said, answer, master = self.server.message(m, room, self.table, self.good, self.matches())
        line = "message " + said + " " + (answer + b"\xee" * (room - len(answer))).hex()
        self.lines.append(line + (f" blocks {master.blocks} master {master.hex()}" if master else ""))
        if master:
            self.last = master
        return said

    def change(self):
        self.calls.append(b"\x04")
        self.lines.append("change " + self.server.change())

    def alert(self, level, description):
        self.calls.append(bytes([5, level, description]))
        self.lines.append("alert " + self.server.alert(level, description))

    def key_block(self, suite, server, client):
        self.calls.append(b"\x06" + suite.to_bytes(2, "big") + server + client)
        n = SUITES.get(suite)
        said = "wrote %d" % n if n else "R5"
        block = prf(self.last, b"key expansion", server + client, n) if n else b""
        self.lines.append("keys " + said + " " + (block + bytes(96 - len(block))).hex())

    def finished(self, label=b"client finished"):
        return message(20, verify_data(self.server.master, label, self.server.transcript))


def drawn(name, n=32):
    return hashlib.shake_256(name.encode()).digest(n)


def whole(s, name, suites=EVERY, hint=b"", rule=NOTHING, identity=b"gate7", block=None):
    """A handshake as far as the server's Finished, with calls on the finished connection after it."""
    server, client = drawn("server " + name), drawn("client " + name)
    s.start(server, hint, rule)
    s.message(hello(client, suites, block=block), 60 if len(hint) <= 8 else 181)
    s.message(exchange(identity))
    s.key_block([x for x in SUITES if x in suites][0], server, client)
    s.change()
    s.message(s.finished())
    s.message(hello(client))
    s.change()
    s.alert(1, 90)


def handshakes(s):
    for suites in [(x,) for x in EVERY] + [(0x00B0, 0x1301, 0x008C), (0x00B0, 0x00AE)]:
        for hint in (b"", b"barn", "Stall Ä".encode(), bytes(range(65, 91)) * 4 + bytes(24)):
            for rule in (NOTHING, TELL, HIDE):
                whole(s, "%r %r %d" % (suites, hint, rule), suites, hint, rule)
    for identity in KEYS:
        whole(s, repr(identity), identity=identity)
    for block in (b"", extension(35), extension(23) + extension(35, b"ticket")):
        whole(s, repr(block), block=block)


def unlisted(s):
    for rule in (NOTHING, TELL, HIDE):
        for identity in (b"gate71", b"", b"gat", b"x" * 129, b"a:b", b"\xff"):
            for room in (16, 0):
                s.start(drawn("unlisted"), rule=rule)
                s.message(hello(drawn("client")))
                if s.message(exchange(identity)).startswith("wrote"):
                    s.change()
                    s.message(s.finished(), room)  # right under the stand-in key
                s.message(message(20, bytes(12)))
    at(s, 1)
    s.message(exchange(b"y" * 16378))  # the longest


def at(s, place, rule=HIDE, name="at"):
    """A connection that awaits a hello (0), a key exchange (1), a change of cipher (2) or a Finished (3)."""
    s.start(drawn("server " + name), b"barn", rule)
    if place > 0:
        s.message(hello(drawn("client " + name)))
    if place > 1:
        s.message(exchange(b"gate7"))
    if place > 2:
        s.change()


def settings(s):
    for random, hint, stand_in in (
        (bytes(31), b"", STAND_IN), (bytes(33), b"", STAND_IN), (b"", b"", b""), (bytes(32), bytes(129), STAND_IN),
        (bytes(32), b"\xc0\x80", STAND_IN), (bytes(32), b"\xed\xa0\x80", STAND_IN), (bytes(32), b"\xf4\x90\x80\x80", STAND_IN),
        (bytes(32), b"ok", bytes(31)), (bytes(32), b"ok", bytes(33)), (bytes(32), b"\xf4\x8f\xbf\xbf", STAND_IN)):
        s.start(random, hint, stand_in=stand_in)
        s.message(hello(bytes(32)))
        s.change()


def headers(s):
    for place in range(4):
        for m in (b"", b"\x01", b"\x10\0\0", b"\0\0\0\0", message(11, b""), message(1, b""), message(16, b""), message(20, b""),
                  b"\x01\0\0\x01", b"\x10\0\0\x01", b"\x14\0\0\x0d" + bytes(12), b"\x14\0\0\x0b" + bytes(12),
                  message((1, 16, 0, 20)[place], bytes(16381)), message(20, bytes(11)), message(20, bytes(13))):
            at(s, place)
            s.message(m)
            s.message(m[:20])
        at(s, place)
        s.change()
        s.change()


def hellos(s):
    random = drawn("hellos")
    for m in (hello(random, methods=b"\x01"), hello(random, methods=b"\x01\x00"), hello(random, suites=(0x1301, 0xC0A8)), hello(random, suites=()),
              hello(random, version=0x0302), hello(random, version=0x0304), hello(random, version=0x02FF), hello(random, methods=b""),
              hello(random, block=b""), hello(random, block=extension(23) + extension(35, b"\0\0")), hello(random, block=extension(35)),
              hello(random, block=extension(35, b"\0\x01")), hello(random, block=extension(23) + extension(10) + extension(23)),
              hello(random, block=extension(35, b"ticket")), hello(random, block=extension(35, b"\0\x06ticket") + extension(23)),
              hello(random, block=extension(35) + extension(35)),
              hello(random, block=extension(35, b"ticket") + extension(23) + extension(35, b"\0\0")),
              hello(random, session=bytes(32)), hello(random, session=bytes(33)), hello(random) + b"\0",
              hello(random, version=0x0302, methods=b"\x01", suites=(1,)), hello(random, methods=b"\x01", suites=(1,)),
              hello(random, suites=(0xAE00, 0x8C00, 0xB000)), hello(random, block=b"".join(extension(1000 + i) for i in range(1500)))):
        at(s, 0)
        s.message(m)
        s.message(exchange(b"gate7"))


def rooms(s):
    for hint, size in ((b"", 46), (b"b", 53), (b"barn", 56), (b"h" * 128, 180)):
        s.start(drawn("rooms"), hint)
        for room in (0, size - 1, size):
            s.message(hello(drawn("client")), room)
        s.message(exchange(b"gate"), 0)
        s.change()
        right = s.finished()
        for m, room in ((right, 0), (right, 15), (right, 16)):
            s.message(m, room)
    for room in (0, 15, 16):  # a wrong Finished is 51 whatever the room
        at(s, 3)
        s.message(message(20, bytes(12)), room)
    for i in range(12):  # and each byte counts
        at(s, 3)
        m = bytearray(s.finished())
        m[4 + i] ^= 1
        s.message(bytes(m))


def tables(s):
    for text in (TABLE[:-1], b"gate7:abc\n", TABLE + b"gate7:00\n", b"\n", b"gate7\n", b"gate7:\n", b":00\n", b"g" * 129 + b":00\n",
                 b"".join(b"%d:00\n" % i for i in range(257)), b"x" * 65537, b"\xc0\x80:00\n", b"gate7:ab\r\n"):
        at(s, 1)
        s.set_table(text, {}, good=False)
        for m in (exchange(b"gate7"), message(16, b"\0")):
            s.message(m)
        s.message(b"\x10\0\0\x01")  # the tests on the header come before R2
        at(s, 1)
        s.message(exchange(b"gate7"))
        s.set_table(TABLE, KEYS)
        s.message(exchange(b"gate7"))
        s.change()
        s.message(s.finished())
    s.set_table(b"", {})
    at(s, 1)
    s.message(exchange(b"gate7"))
    s.change()
    s.message(s.finished())
    many = {b"gate%d" % i: bytes([i]) for i in range(256)}
    s.set_table(b"".join(name + b":" + key.hex().upper().encode() + b"\n" for name, key in many.items()), many)
    for name in (b"gate0", b"gate255", b"gate256"):
        at(s, 1)
        s.message(exchange(name))
        s.change()
        s.message(s.finished())
    s.set_table(TABLE, KEYS)


def wrong_lists(own):
    """Lists that are not `own`, a count and a number at a place, and what makes each right again."""
    count, last = len(own), len(own) - 1
    for wrong in sorted({count - 1, count + 1, 0, LIST, LIST + 1, 0xFFFFFF}):
        yield (wrong, 0, own[0]), (count, 0, own[0])
    for place in sorted({0, last}):
        for more in (1, 0x100, 0x10000):
            yield (count, place, own[place] + more), (count, place, own[place])
    if last:
        yield (count, last, own[last] - 1), (count, last, own[last])
        yield (count, last, own[last - 1]), (count, last, own[last])
    yield (count + 1, count, own[last]), (count, LIST, 0)


def lists(s):
    """Lists that are not the table's: R10, and the same connection completes with the right one."""
    one, many = {b"gate7": KEYS[b"gate7"]}, {b"gate%d" % i: bytes([i]) for i in range(256)}
    for keys in (KEYS, one, many):
        text = b"".join(name + b":" + key.hex().encode() + b"\n" for name, key in keys.items())
        for wrong, right in wrong_lists(starts_of(text)):
            s.set_table(text, keys)
            s.set_list(*wrong)
            at(s, 1, HIDE)  # a hello needs no list
            for m in (exchange(b"gate7"), exchange(b"gate7"), exchange(b"nobody"), message(16, b"\0")):
                s.message(m)
            s.set_list(*right)
            s.message(exchange(b"gate7"), 0)
            s.set_list(*wrong)  # nor do a change of cipher and a Finished
            s.change()
            s.message(s.finished())
            s.message(exchange(b"gate7"))  # R4 comes before R10
    s.set_table(TABLE, KEYS)
    for m in (b"\x10\0\0\x01", b"\x10\0", message(20, bytes(12)), hello(drawn("client"))):  # and so do the tests on the header
        at(s, 1)
        s.set_list(2, 0, 0)
        s.message(m)
        s.message(exchange(b"gate7"))
    for rule in (NOTHING, TELL, HIDE):  # an unlisted identity, told or hidden, comes after R10
        s.set_table(TABLE, KEYS)
        at(s, 1, rule)
        s.set_list(3, 2, 0)
        s.message(exchange(b"nobody"))
        s.set_table(TABLE, KEYS)
        s.message(exchange(b"nobody"))
    for bad in (TABLE[:-1], b"\n", TABLE + b"gate7:00\n", b"gate7:abc\n"):  # table and list both bad: R2; then one of them, then none
        for wrong, right in (((2, 0, 0), (3, 0, 0)), ((4, 3, len(TABLE)), (3, 0, 0)), ((LIST + 1, 0, 0), (3, 0, 0)), ((3, 0, 1), (3, 0, 0))):
            at(s, 1)
            s.set_table(bad, {}, good=False)
            s.set_list(*wrong)
            s.message(exchange(b"gate7"))
            s.set_list(*right)
            s.message(exchange(b"gate7"))
            s.set_table(TABLE, KEYS)
            s.set_list(*wrong)
            s.message(exchange(b"gate7"))
            s.set_list(*right)
            s.message(exchange(b"gate7"))
            s.change()
            s.message(s.finished())
    at(s, 1)
    s.set_table(TABLE, KEYS)
    s.set_list(3, 1, starts_of(TABLE)[2])  # two numbers exchanged, in two calls
    s.set_list(3, 2, starts_of(TABLE)[1])
    s.message(exchange(b"gate7"))
    at(s, 1)
    s.set_table(b"", {})  # a table of no bytes has no starts, whatever stands in the memory
    s.set_list(1, 0, 0)
    s.message(exchange(b"gate7"))
    s.set_list(0, 0, 7)
    s.message(exchange(b"gate7"))
    s.change()
    s.message(s.finished())
    s.set_table(TABLE, KEYS)


def alerts(s):
    for place in range(4):
        for level, description in ((1, 90), (1, 255), (1, 0), (2, 40), (2, 0), (0, 0), (3, 90), (255, 255)):
            at(s, place)
            s.alert(level, description)
            s.alert(1, 41)
            s.message(hello(drawn("alerts")))
    at(s, 0)
    for place in range(4):  # a handshake with warnings at every place completes
        s.alert(1, 90)
        [lambda: s.message(hello(drawn("client"))), lambda: s.message(exchange(b"gate7")), s.change, lambda: s.message(s.finished())][place]()


def replays(s):
    server, client = drawn("server old"), drawn("client old")
    for random in (server, server, drawn("server new")):  # the second as after the old server's reboot
        s.start(random)
        recorded = [hello(client), exchange(b"gate7")]
        for m in recorded:
            s.message(m)
        s.change()
        if random == server:
            old = s.finished()
        s.message(old)
        s.message(old)
    at(s, 1)
    s.message(hello(client))  # a second hello
    at(s, 2)
    s.message(exchange(b"gate7"))  # a second key exchange
    at(s, 3)
    s.message(s.finished(b"server finished"))
    s.key_block(0x1301, server, client)


def series(s, count):
    """Calls in any order: each draw is a byte of a stream with a fixed seed."""
    stream = iter(drawn("series", 60 * count))
    for i in range(count):
        at(s, next(stream) % 4, rule=next(stream) % 3, name="series %d" % i)
        for _ in range(6):
            pick, more = next(stream) % 10, next(stream)
            awaited = {"hello": hello(drawn("c%d" % i)), "exchange": exchange([b"gate7", b"gate", b"nobody"][more % 3])}
            if pick < 4:
                m = bytearray(s.finished() if s.server.awaits == "finished" else awaited.get(s.server.awaits, b"\x14\0\0\0"))
                if pick == 0:
                    m[more % len(m)] ^= 1 << more % 8
                s.message(bytes(m), (0, 15, 16, 55, 56, 60, 60, 60)[next(stream) % 8])
            elif pick < 7:
                s.change()
            elif pick < 8:
                s.alert(1, more)
            elif pick < 9:
                s.alert(more % 4, next(stream) % 2)
            else:
                s.message(drawn("m%d" % more, more % 50))


def script():
    s = Script(Server())
    for part in (handshakes, unlisted, settings, headers, hellos, rooms, tables, lists, alerts, replays):
        part(s)
    series(s, 200)
    return s


if __name__ == "__main__":
    script().print()
