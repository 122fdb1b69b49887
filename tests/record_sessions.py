"""The input and the expected output of crates/record_sessions, from a client and a record layer that are written here.

  record_sessions.py stdin    the calls, in the form that the program's first lines give
  record_sessions.py stdout   what the program has to print of them

The record layer follows RFC 5246, section 6, and document 02's P5 over the server of tests/handshakes.py; neither shares
anything with the library. Whole sessions come first, however their bytes are cut into records, then each refusal of P5's
list at each place, tables that are not well formed and lists of line starts that are not the table's (P6), then a session
that OpenSSL's client had (tests/recorded/openssl-null-records.txt), and series drawn from a fixed seed.
"""
import copy, hashlib, os

from handshakes import HIDE, KEYS, NOTHING, STAND_IN, TABLE, TELL, Calls, Refuse, Server
from handshakes import drawn, exchange, hello, mac, master_secret, message, prf, starts_of, vector, verify_data, wrong_lists

CHANGE, ALERT, HANDSHAKE, DATA = 20, 21, 22, 23
LIMIT = 16384
NULL = 0x00B0
MEMORY = 16384
RECORDED = os.path.join(os.path.dirname(os.path.abspath(__file__)), "recorded", "openssl-null-records.txt")


# ---- records

class State:
    """One direction of a connection."""

    def __init__(self, key=None):
        self.key, self.number = key, 0

    def tag(self, front, content):
        return mac(self.key, self.number.to_bytes(8, "big") + front + len(content).to_bytes(2, "big") + content)

    def seal(self, kind, content, version=b"\x03\x03"):
        front = bytes([kind]) + version
        fragment = content if self.key is None else content + self.tag(front, content)
        self.number += 1
        return front + vector(2, fragment)

    def open(self, record):
        """Type and content; the number is not counted yet."""
        if len(record) < 5 or int.from_bytes(record[3:5], "big") != len(record) - 5:
            raise Refuse("alert 50")
        kind, fragment = record[0], record[5:]
        if kind not in (CHANGE, ALERT, HANDSHAKE, DATA):
            raise Refuse("alert 10")
        if len(fragment) > LIMIT + (0 if self.key is None else 32):
            raise Refuse("alert 22")
        if self.key is None:
            return kind, fragment
        if len(fragment) < 32 or fragment[-32:] != self.tag(record[:3], fragment[:-32]):
            raise Refuse("alert 51" if self.number == 0 else "alert 20")
        return kind, fragment[:-32]


def messages_of(flight):
    while flight:
        size = 4 + int.from_bytes(flight[1:4], "big")
        yield flight[:size]
        flight = flight[size:]


class RecordServer:
    def __init__(self):
        self.memory = b"\xee" * MEMORY
        self.close()

    def close(self, alert=b""):
        self.server, self.reading, self.writing, self.held, self.alert = Server((NULL,)), State(), State(), b"", alert
        self.keys = None

    def start(self, *settings):
        self.close()
        return self.server.start(*settings)

    def refused(self, said):
        if said.startswith("alert"):
            self.close(self.writing.seal(ALERT, bytes([2, int(said[6:])])))
        return said, b"", b"", None

    def take(self, record, room, table, good, matches=True):
        """What is said, the answer, the master secret handed over, application data."""
        if self.server.awaits == "closed":
            return "R4", b"", b"", None
        try:
            done = self.judge(record, table, good, matches)
            if len(done["answer"]) > room:
                raise Refuse("R1")
        except Refuse as refusal:
            return self.refused(str(refusal))
        if done.get("over"):
            self.close()
        else:
            self.server, self.reading, self.writing, self.held, self.keys = (done[x] for x in ("server", "reading", "writing", "held", "keys"))
            self.memory = self.held + self.memory[len(self.held):]
        return "wrote %d" % len(done["answer"]), done["answer"], done["master"], done["data"]

    def judge(self, record, table, good, matches):
        kind, content = self.reading.open(record)
        if self.reading.key is not None and self.reading.number == 0 and not self.server.listed:
            raise Refuse("alert 51")
        complete = self.server.awaits == "complete"
        if kind == DATA and not complete or kind == HANDSHAKE and complete and content or kind == CHANGE and (complete or self.held):
            raise Refuse("alert 10")
        if kind == HANDSHAKE and not content or kind == ALERT and len(content) != 2 or kind == CHANGE and content != b"\x01":
            raise Refuse("alert 50")
        done = {"server": copy.copy(self.server), "reading": copy.copy(self.reading), "writing": copy.copy(self.writing), "held": self.held,
                "keys": self.keys, "answer": b"", "master": b"", "data": content if kind == DATA else None}
        done["reading"].number += 1
        if kind == HANDSHAKE:
            self.handshake(done, content, table, good, matches)
        elif kind == CHANGE:
            said = done["server"].change()
            if said != "wrote 0":
                raise Refuse(said)
            done["reading"] = State(self.keys[0])
        elif kind == ALERT:
            if content[0] not in (1, 2):
                raise Refuse("alert 47")
            done["over"] = content[0] == 2 or content[1] == 0
        return done

    def handshake(self, done, content, table, good, matches):
        stream, server = self.held + content, done["server"]
        while True:
            if server.awaits == "complete" and stream:
                raise Refuse("alert 10")
            if len(stream) < 4:
                break
            if stream[0] != {"hello": 1, "exchange": 16, "finished": 20}.get(server.awaits):
                raise Refuse("alert 10")
            size = 4 + int.from_bytes(stream[1:4], "big")
            if size > LIMIT:
                raise Refuse("alert 50")
            if len(stream) < size:
                break
            flight, after, master = server.step(stream[:size], table, good, matches)
            after()
            stream = stream[size:]
            if master:
                block = prf(master, b"key expansion", server.random + server.client, 64)
                done["master"], done["keys"] = master, (block[:32], block[32:])
            if server.awaits == "complete":
                done["answer"] += done["writing"].seal(CHANGE, b"\x01")
                done["writing"] = State(done["keys"][1])
            for m in messages_of(flight):
                done["answer"] += done["writing"].seal(HANDSHAKE, m)
        done["held"] = stream

    def send(self, content, room):
        if self.server.awaits == "closed":
            return "R4", b""
        if self.server.awaits != "complete" or len(content) > LIMIT:
            return "R5", b""
        return self.sent(DATA, content, room)

    def sent(self, kind, content, room):
        writing = copy.copy(self.writing)
        answer = writing.seal(kind, content)
        if len(answer) > room:
            return "R1", b""
        self.writing = writing
        return "wrote %d" % len(answer), answer

    def close_notify(self, room):
        if self.server.awaits == "closed":
            return "R4", b""
        said, answer = self.sent(ALERT, b"\x01\0", room)
        if answer:
            self.close()
        return said, answer


# ---- the calls, as the program reads them, with what it has to print

def shown(out):
    """Bytes as the program prints them: of long ones the first eight of their SHA-256."""
    return out.hex() if len(out) < 256 else hashlib.sha256(out).hexdigest()[:16]


class Script(Calls):
    def line(self, name, said, answer, room, *more):
        self.lines.append(" ".join([name, said, shown(answer + b"\xee" * (room - len(answer)))] + list(more)))

    def take(self, record, room=72):
        self.calls.append(bytes([3, room]) + vector(3, record))
        said, answer, master, data = self.server.take(record, room, self.table, self.good, self.matches())
        more = [shown(self.server.memory)]
        more += ["data " + shown(data)] if data is not None else []
        more += [f"blocks {master.blocks} master {master.hex()}"] if master else []
        self.line("record", said, answer, room, *more)
        return said

    def send(self, content, room=None):
        room = len(content) + 37 if room is None else room
        self.calls.append(b"\x04" + room.to_bytes(3, "big") + vector(3, content))
        self.line("send", *self.server.send(content, room), room)

    def close(self, room=39):
        self.calls.append(bytes([5, room]))
        self.line("close", *self.server.close_notify(room), room)

    def alert(self, room=39):
        self.calls.append(bytes([6, room]))
        fits = len(self.server.alert) <= room
        answer = self.server.alert if fits else b""
        self.line("alert", "wrote %d" % len(answer) if fits else "R1", answer, room)


class Client:
    """Makes the client's records of a session; `s` is the script that has them taken."""

    def __init__(self, s, name, identity=b"gate7", rule=NOTHING, hint=b"barn", key=None):
        self.s, self.identity, self.random = s, identity, drawn("client " + name)
        self.key = KEYS.get(identity, STAND_IN) if key is None else key
        self.state = State()
        s.start(drawn("server " + name), hint, rule)

    def hello(self):
        return hello(self.random, (NULL,))

    def exchange(self):
        return exchange(self.identity)

    def take(self, kind, content, **more):
        """The record counts for the client unless it is refused to the host."""
        state = copy.copy(self.state)
        said = self.s.take(self.state.seal(kind, content), **more)
        if said.startswith("R"):
            self.state = state
        return said

    def cut(self, content, *sizes, kind=HANDSHAKE):
        """Records with the content in parts of these sizes, the last one with the rest."""
        for n in sizes:
            if content:
                self.take(kind, content[:n])
            content = content[n:]
        if content:
            self.take(kind, content)

    def change(self):
        """The client's change of cipher, and its key from then on where the server took it."""
        if self.take(CHANGE, b"\x01") == "wrote 0":
            random = self.s.server.server.random
            self.secret = master_secret(self.key, self.random, random)
            self.state = State(prf(self.secret, b"key expansion", random + self.random, 64)[:32])

    def finished(self):
        return message(20, verify_data(self.secret, b"client finished", self.s.server.server.transcript))

    def until(self, place):
        """As far as the client's change of cipher (3), its key exchange (2), its hello (1), nothing (0), or completion (4)."""
        if place > 0:
            self.take(HANDSHAKE, self.hello())
        if place > 1:
            self.take(HANDSHAKE, self.exchange())
        if place > 2:
            self.change()
        if place > 3:
            self.take(HANDSHAKE, self.finished())
        return self


def ends(s):
    """What is left to be sent, and that the connection stays closed."""
    s.alert()
    s.take(State().seal(ALERT, b"\x01\x5a"), 0)
    s.send(b"", 0)
    s.close(0)


def sessions(s):
    for rule in (NOTHING, TELL, HIDE):
        for hint in (b"", b"barn", b"h" * 128):
            for identity in KEYS:
                c = Client(s, "whole %d %r %r" % (rule, hint, identity), identity, rule, hint)
                c.take(HANDSHAKE, c.hello(), room=200)
                c.take(HANDSHAKE, c.exchange())
                c.change()
                c.take(HANDSHAKE, c.finished())
                c.take(DATA, b"cow 212\n")
                s.send(b"enrolled cow 212\n")
                c.take(DATA, b"")
                s.send(b"")
                c.take(ALERT, b"\x01\0")
                ends(s)


def cuttings(s):
    for name, sizes in (("bytes", [1] * 60), ("threes", [3] * 20), ("header", [4]), ("almost", [44]), ("two and", [2, 3, 5, 7, 11, 13])):
        c = Client(s, "cut " + name)
        c.cut(c.hello(), *sizes)
        c.cut(c.exchange(), *sizes)
        c.change()
        c.cut(c.finished(), *sizes)
        c.cut(b"cow 212\n", *sizes, kind=DATA)
        s.close()
    for extra in range(12):  # hello and key exchange in one record, the cut anywhere in the second, and bytes behind it
        c = Client(s, "joined %d" % extra)
        both = c.hello() + c.exchange()
        c.cut(both, len(both) - extra)
        c.change()
        c.take(HANDSHAKE, c.finished())
        c.take(DATA, b"x" * extra)
    for behind in (b"\x14", b"\x14\0", b"\x14\0\0", b"\x14\0\0\x0c", b"\x10\0\0\x02\0\0", b"\x01" + bytes(44)):
        c = Client(s, "behind")
        c.take(HANDSHAKE, c.hello() + c.exchange() + behind)
        c.change()
        ends(s)
        c = Client(s, "behind finished").until(3)
        c.take(HANDSHAKE, c.finished() + behind)
        ends(s)
        c = Client(s, "behind a wrong finished").until(3)
        c.take(HANDSHAKE, message(20, bytes(12)) + behind)
        ends(s)
    c = Client(s, "long")  # the longest hello, over two records, and one that says it is a byte longer
    block = b"".join(b"\x40" + bytes([i]) + vector(2, bytes(1000)) for i in range(16))
    fields = b"\x03\x03" + c.random + b"\0" + b"\0\x02\0\xb0" + b"\x01\0"
    block += b"\x41\0" + vector(2, bytes(LIMIT - 4 - len(fields) - 2 - len(block) - 4))
    m = message(1, fields + vector(2, block))
    assert len(m) == LIMIT
    c.cut(m, LIMIT - 1)
    c.take(HANDSHAKE, c.exchange())
    c.change()
    c.take(HANDSHAKE, c.finished())
    c = Client(s, "longer")
    c.take(HANDSHAKE, b"\x01" + (LIMIT - 3).to_bytes(3, "big"))
    ends(s)


def early(s):
    """Type and limit as soon as four bytes are in, and not before."""
    for place, head in ((0, b"\x02\0\0\x10"), (0, b"\x01\0\x3f\xfd"), (0, b"\x01\0\x3f\xfc"), (0, b"\x10\xff\xff\xff"), (1, b"\x01\0\0\x10"),
                        (1, b"\x10\xff\0\0"), (2, b"\x14\0\0\x0c"), (2, b"\x10\0\0\x02"), (3, b"\x14\0\0\x0b"), (3, b"\x14\0\x40\0"), (3, b"\x01\0\0\0")):
        for known in (3, 4):
            c = Client(s, "early").until(place)
            c.cut(head[:known], 1, 1)
            c.take(HANDSHAKE, head[known:] or bytes(11))
            ends(s)
    c = Client(s, "wrong type waits").until(2)
    c.take(HANDSHAKE, b"\xff\xff\xff")
    c.change()
    ends(s)


def bad_records(s):
    for place in range(5):
        for bad in (b"", b"\x16", b"\x16\x03\x03\0", b"\x16\x03\x03\0\x01", b"\x16\x03\x03\0\0\0", b"\x16\x03\x03\x40\x01" + bytes(9), b"\x63\x03\x03\0\0",
                    b"\x18\x03\x03\0\x01\0", b"\x13\x03\x03\0\x02", b"\x17\x03\x03\0\0", b"\x16\x03\x03\0\0", b"\x14\x03\x03\0\x01\x02", b"\x14\x03\x03\0\x02\x01\x01",
                    b"\x15\x03\x03\0\x01\x01", b"\x15\x03\x03\0\x04\x01\x5a\x01\x5a", b"\x16\x03\x03\0\x20" + bytes(32)):
            Client(s, "bad").until(place)
            s.take(bad)
            ends(s)
        for kind, content in ((DATA, b"x"), (HANDSHAKE, b""), (HANDSHAKE, b"\x01"), (CHANGE, b"\x01"), (CHANGE, b""), (CHANGE, b"\x02"), (CHANGE, b"\x01\x01"), (ALERT, b""),
                              (ALERT, b"\x01"), (ALERT, b"\x01\x5a\0"), (ALERT, b"\0\0"), (ALERT, b"\x03\x5a"), (ALERT, b"\x02\x28"), (ALERT, b"\x01\0"), (ALERT, b"\x01\x5a")):
            c = Client(s, "kinds").until(place)
            c.take(kind, content)
            ends(s)
            if place in (0, 2, 3):
                c = Client(s, "amid").until(place)
                c.take(HANDSHAKE, b"\x14" if place == 3 else b"\x01")
                c.take(kind, content)
                c.take(ALERT, b"\x01\x5a")
                s.alert()


def long_records(s):
    for place in (0, 4):
        for n in (LIMIT, LIMIT + 1, LIMIT + 32, LIMIT + 33):  # as fragments, with no MAC that is right
            Client(s, "long fragment").until(place)
            s.take(bytes([DATA if n % 2 else HANDSHAKE]) + b"\x03\x03" + vector(2, bytes(n)))
            ends(s)
        for n in (LIMIT, LIMIT + 1):
            c = Client(s, "long content").until(place)
            c.take(DATA, bytes(n))
            ends(s)
    Client(s, "the type comes before the length").until(0)
    s.take(b"\x18\x03\x03" + vector(2, bytes(LIMIT + 1)))
    ends(s)


def macs(s):
    for place in (3, 4):
        for i in list(range(5)) + [8, 20, 21, 40, 52]:  # each tampered byte, of a record that is otherwise right
            c = Client(s, "tampered").until(place)
            record = bytearray(c.state.seal(HANDSHAKE if place == 3 else DATA, c.finished() if place == 3 else bytes(16)))
            record[i] ^= 1
            s.take(bytes(record))
            ends(s)
        for version in (b"\x03\0", b"\0\0", b"\xff\xff"):  # the version that came is the one that the MAC covers
            c = Client(s, "version").until(place)
            s.take(c.state.seal(HANDSHAKE if place == 3 else DATA, c.finished() if place == 3 else b"cow", version))
            s.close()
        for number in (1, 2, 2 ** 63):
            c = Client(s, "number").until(place)
            c.state.number += number
            c.take(HANDSHAKE if place == 3 else DATA, c.finished() if place == 3 else b"cow")
            ends(s)
        c = Client(s, "under a mac").until(place)
        s.take(b"\x16\x03\x03\0\x1f" + bytes(31))
        ends(s)
    c = Client(s, "warnings count").until(3)
    for _ in range(3):
        c.take(ALERT, b"\x01\x5a")
    c.cut(c.finished(), 5)
    c.take(ALERT, b"\x01\x5a")
    s.take(c.state.seal(DATA, b"again")[:-1] + b"\0")
    ends(s)
    for rule in (NOTHING, HIDE, TELL):  # the stand-in key's MAC and Finished are right, and are refused
        for identity in (b"nobody", b"", b"gate71"):
            for warning in (False, True):
                c = Client(s, "unlisted", identity, rule)
                c.take(HANDSHAKE, c.hello())
                if c.take(HANDSHAKE, c.exchange()) == "wrote 0":
                    c.change()
                    c.take(*((ALERT, b"\x01\x5a") if warning else (HANDSHAKE, c.finished())))
                ends(s)
    c = Client(s, "wrong key", key=b"\x77")
    c.until(3)
    c.take(HANDSHAKE, c.finished())
    ends(s)
    c = Client(s, "wrong value").until(3)
    c.take(HANDSHAKE, message(20, bytes(12)))
    ends(s)


def rooms(s):
    for hint, size in ((b"", 56), (b"barn", 71), (b"h" * 128, 195)):
        c = Client(s, "rooms %r" % hint, hint=hint)
        for room in (0, size - 1, size):
            c.take(HANDSHAKE, c.hello(), room=room)
        c.take(HANDSHAKE, c.exchange(), room=0)
        c.change()
        c.take(HANDSHAKE, c.finished()[:7], room=0)
        for room in (0, 58):
            c.take(HANDSHAKE, c.finished()[7:], room=room)
        wrong = copy.copy(c.state)
        c.take(HANDSHAKE, c.finished()[7:], room=59)
        for n in (0, 1, LIMIT, LIMIT + 1) if hint else (2,):
            for room in (n + 36, n + 37, n + 40):
                s.send(b"d" * n, room)
        for room in (38, 39):
            s.close(room)
        c = Client(s, "rooms, all in one %r" % hint, hint=hint)
        for room in (size - 1, size):  # R1 leaves the hello of its record too
            c.take(HANDSHAKE, c.hello() + c.exchange(), room=room)
    for m in (exchange(b"gate7")[:-1] + b"8", b"\x10\0\0\x02\0\x01", b"\x14\0\0\0"):  # a later message's alert comes before R1
        for rule in (TELL, HIDE):
            c = Client(s, "later alert", rule=rule)
            c.take(HANDSHAKE, c.hello() + m, room=0)
            ends(s)
    c = Client(s, "first again").until(3)  # after an R1 the first protected record is again the first
    c.take(HANDSHAKE, c.finished(), room=58)
    c.state.number = 7
    c.take(HANDSHAKE, c.finished())
    ends(s)
    for place in range(4):  # sooner than completion, whatever the length
        Client(s, "sooner").until(place)
        for content in (b"", b"x") + (bytes(LIMIT + 1),) * (place == 3):
            s.send(content)
        for room in (6, 7, 39):
            s.close(room)


def tables(s):
    s.set_table(TABLE[:-1], {}, good=False)
    for rest in (0, 1, 5):  # R2 leaves the hello of its record, and the part of the message before
        c = Client(s, "bad table %d" % rest)
        both = c.hello() + c.exchange()
        if rest:
            c.take(HANDSHAKE, both[:len(both) - rest])
        for _ in range(2):
            c.take(HANDSHAKE, both[len(both) - rest:] if rest else both)
        s.set_table(TABLE, KEYS)
        c.take(HANDSHAKE, both[len(both) - rest:] if rest else both)
        c.change()
        c.take(HANDSHAKE, c.finished())
        s.set_table(TABLE[:-1], {}, good=False)
    s.set_table(TABLE, KEYS)


def lists(s):
    own = starts_of(TABLE)
    for i, (wrong, right) in enumerate(wrong_lists(own)):
        s.set_table(TABLE, KEYS)
        for rest in (0, 1, 5):  # R10 leaves the hello of its record, and the part of the message before
            c = Client(s, "wrong list %d, %d" % (i, rest), rule=HIDE)
            both = c.hello() + c.exchange()
            s.set_list(*wrong)
            if rest:
                c.take(HANDSHAKE, both[:len(both) - rest])
            for room in (72, 0):
                c.take(HANDSHAKE, both[len(both) - rest:] if rest else both, room=room)
            s.set_list(*right)
            c.take(HANDSHAKE, both[len(both) - rest:] if rest else both)
            s.set_list(*wrong)  # nothing but a key exchange needs it
            c.change()
            c.take(HANDSHAKE, c.finished())
            c.take(DATA, b"cow 212\n")
            s.send(b"enrolled cow 212\n")
    for m in (exchange(b"nobody"), b"\x10\0\0\x01\0", exchange(b"gate7") + b"\x14\0\0\0"):  # R10 comes before the body's tests and later messages
        for rule in (TELL, HIDE):
            s.set_table(TABLE, KEYS)
            c = Client(s, "wrong list, others", rule=rule).until(1)
            s.set_list(2, 0, 0)
            c.take(HANDSHAKE, m)
            s.set_list(3, 0, 0)
            c.take(HANDSHAKE, m)
            ends(s)
    for m in (b"\x14\0\0\x0c", b"\x10\xff\xff\xff", b"\x01\0\0\0"):  # what is judged of a header comes before it
        s.set_table(TABLE, KEYS)
        c = Client(s, "wrong list, header").until(1)
        s.set_list(4, 3, len(TABLE))
        c.take(HANDSHAKE, m)
        ends(s)
    for wrong, right in (((2, 0, 0), (3, 0, 0)), ((3, 1, 1), (3, 1, own[1])), ((0xFFFFFF, 0, 0), (3, 0, 0))):  # table and list both bad: R2
        c = Client(s, "both bad").until(1)
        s.set_table(TABLE[:-1], {}, good=False)
        s.set_list(*wrong)
        c.take(HANDSHAKE, c.exchange())
        s.set_table(TABLE, KEYS)
        s.set_list(*wrong)
        c.take(HANDSHAKE, c.exchange())
        s.set_list(*right)
        c.take(HANDSHAKE, c.exchange())
        c.change()
        c.take(HANDSHAKE, c.finished())
    s.set_table(TABLE, KEYS)


def recorded(s):
    """A session of `openssl s_client` with TLS_PSK_WITH_NULL_SHA256: settings, then its records as they came."""
    fields = dict(line.split(" ", 1) for line in open(RECORDED, encoding="ascii").read().splitlines() if not line.startswith(("#", "record ")))
    s.start(bytes.fromhex(fields["random"]), fields["hint"].encode(), HIDE)
    for line in open(RECORDED, encoding="ascii"):
        if line.startswith("record "):
            s.take(bytes.fromhex(line[7:]))
    ends(s)


def series(s, count):
    """Calls in any order: each draw is a byte of a stream with a fixed seed."""
    stream = iter(drawn("record series", 80 * count))
    for i in range(count):
        place = next(stream) % 5
        c = Client(s, "series %d" % i, [b"gate7", b"gate", b"nobody"][next(stream) % 3], next(stream) % 3)
        try:
            c.until(place)
        except (AttributeError, TypeError):  # an unlisted identity is over before
            pass
        for _ in range(8):
            pick, more = next(stream) % 10, next(stream)
            awaits = s.server.server.awaits
            if pick < 5:
                m = {"hello": c.hello(), "exchange": c.exchange(), "complete": b"cow"}.get(awaits, b"\x14\0\0\0")
                if awaits == "finished" and getattr(c, "secret", b""):
                    m = c.finished()
                m = m[len(s.server.held):] or m
                n = 1 + more % len(m)
                c.take(DATA if awaits == "complete" else HANDSHAKE, m[:n] if pick < 3 else m, room=(0, 58, 59, 70, 71, 72, 72, 72)[next(stream) % 8])
            elif pick == 5:
                c.change() if awaits == "change" else c.take(CHANGE, b"\x01")
            elif pick == 6:
                c.take(ALERT, bytes([1 + more % 40 // 39, 90]))
            elif pick == 7:
                s.send(b"x" * more)
            elif pick == 8:
                c.take(more % 5 + 19, drawn("content %d" % more, more % 9))
            else:
                record = bytearray(c.state.seal(HANDSHAKE, b"\x01"))
                record[more % len(record)] ^= 1 << more % 8
                s.take(bytes(record))
        s.alert(more % 45)


def script():
    s = Script(RecordServer())
    for part in (sessions, cuttings, early, bad_records, long_records, macs, rooms, tables, lists, recorded):
        part(s)
    series(s, 120)
    return s


if __name__ == "__main__":
    script().print()
