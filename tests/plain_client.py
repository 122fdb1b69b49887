"""A TLS 1.2 client with a pre-shared key for the one suite that needs no cipher, TLS_PSK_WITH_NULL_SHA256, in Python's own hashlib and hmac. It sends whatever
a test wants, whole or in pieces, in any order."""
import hashlib
import hmac
import os
import socket
import threading

CHANGE, ALERT, HANDSHAKE, DATA = 20, 21, 22, 23
SUITE = 0x00B0


class Way(threading.local):
    """Of the two ways in which the gateway makes records, the one that the case in this thread is about."""
    options = ()
    answers_close = True  # it answers a close_notify with its own


WAY = Way()


def mac(key, text):
    return hmac.new(key, text, hashlib.sha256).digest()


def prf(secret, label, seed, n):
    out, a = b"", label + seed
    while len(out) < n:
        a = mac(secret, a)
        out += mac(secret, a + label + seed)
    return out[:n]


def message(kind, body):
    return bytes([kind]) + len(body).to_bytes(3, "big") + body


def record(kind, fragment):
    return bytes([kind, 3, 3]) + len(fragment).to_bytes(2, "big") + fragment


class Client:
    def __init__(self, port, identity=b"gate7", key=b"", timeout=10):
        self.socket = socket.create_connection(("127.0.0.1", port), timeout=timeout)
        self.identity, self.key = identity, key
        self.transcript = b""
        self.writing = self.reading = None  # MAC key and sequence number
        self.random = os.urandom(32)

    # ---- records

    def sealed(self, kind, content):
        """The bytes of a record with this content."""
        if self.writing:
            key, number = self.writing
            head = bytes([kind, 3, 3]) + len(content).to_bytes(2, "big")
            content += mac(key, number.to_bytes(8, "big") + head + content)
            self.writing = (key, number + 1)
        return record(kind, content)

    def send(self, kind, content, piece=16384):
        """Sends the content in records of at most so many bytes."""
        pieces = [content[i : i + piece] for i in range(0, len(content), piece)] or [b""]
        self.socket.sendall(b"".join(self.sealed(kind, p) for p in pieces))

    def exactly(self, n):
        data = b""
        while len(data) < n:
            more = self.socket.recv(n - len(data))
            if not more:
                raise EOFError
            data += more
        return data

    def receive(self):
        """The type and content of the next record; its MAC is tested."""
        head = self.exactly(5)
        fragment = self.exactly(int.from_bytes(head[3:], "big"))
        if self.reading:
            key, number = self.reading
            content, value = fragment[:-32], fragment[-32:]
            text = number.to_bytes(8, "big") + head[:3] + len(content).to_bytes(2, "big") + content
            assert value == mac(key, text), "the server's MAC is wrong"
            self.reading = (key, number + 1)
            fragment = content
        return head[0], fragment

    def alert(self):
        """The alert that comes next, as (level, description), with the end of the stream behind it."""
        kind, content = self.receive()
        assert kind == ALERT and len(content) == 2, (kind, content)
        assert self.socket.recv(1) == b"", "bytes after an alert"
        return tuple(content)

    # ---- the handshake

    def hello(self, version=b"\x03\x03", suites=(SUITE,), methods=b"\0", block=None):
        listed = b"".join(s.to_bytes(2, "big") for s in suites)
        body = version + self.random + b"\0" + len(listed).to_bytes(2, "big") + listed + bytes([len(methods)]) + methods
        if block is not None:
            body += len(block).to_bytes(2, "big") + block
        return message(1, body)

    def said(self, text):
        """Counts messages in the transcript."""
        self.transcript += text
        return text

    def flight(self):
        """Takes the server's messages up to ServerHelloDone."""
        joined = b""
        while not joined.endswith(message(14, b"")):
            kind, content = self.receive()
            assert kind == HANDSHAKE, (kind, content)
            joined += content
        self.said(joined)
        assert joined[:6] == b"\x02\0\0\x26\x03\x03" and joined[38:42] == b"\0" + SUITE.to_bytes(2, "big") + b"\0"
        size = len(self.key).to_bytes(2, "big")
        randoms = self.random, joined[6:38]
        self.master = prf(size + bytes(len(self.key)) + size + self.key, b"master secret", randoms[0] + randoms[1], 48)
        block = prf(self.master, b"key expansion", randoms[1] + randoms[0], 64)
        self.next_writing, self.next_reading = (block[:32], 0), (block[32:], 0)

    def key_exchange(self):
        return message(16, len(self.identity).to_bytes(2, "big") + self.identity)

    def finished(self):
        return message(20, prf(self.master, b"client finished", hashlib.sha256(self.transcript).digest(), 12))

    def change(self):
        self.send(CHANGE, b"\x01")
        self.writing = self.next_writing

    def finish(self):
        """Takes the server's change of cipher and Finished."""
        assert self.receive() == (CHANGE, b"\x01")
        self.reading = self.next_reading
        value = prf(self.master, b"server finished", hashlib.sha256(self.transcript).digest(), 12)
        assert self.receive() == (HANDSHAKE, message(20, value)), "the server's Finished is wrong"

    def handshake(self, piece=16384, block=None):
        """A whole handshake, in records of at most so many bytes."""
        self.send(HANDSHAKE, self.said(self.hello(block=block)), piece)
        self.flight()
        self.send(HANDSHAKE, self.said(self.key_exchange()), piece)
        self.change()
        self.send(HANDSHAKE, self.said(self.finished()), piece)
        self.finish()
        return self

    def enrol(self, lines, piece=16384):
        """Sends lines and takes their answers."""
        self.send(DATA, b"".join(line + b"\n" for line in lines), piece)
        wanted, got = b"".join(b"enrolled " + line + b"\n" for line in lines), b""
        while len(got) < len(wanted):
            kind, content = self.receive()
            assert kind == DATA, (kind, content)
            got += content
        assert got == wanted, "other answers than the lines'"

    def bye(self):
        """close_notify both ways, or the client's and the end of the stream."""
        self.send(ALERT, b"\x01\x00")
        assert self.alert() == (1, 0) if WAY.answers_close else self.socket.recv(1) == b""
        self.socket.close()
