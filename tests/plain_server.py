"""The other side of plain_client.py: a TLS 1.2 server with a pre-shared key for TLS_PSK_WITH_NULL_SHA256, in Python's own hashlib and hmac. It takes what a
right client sends and nothing else, and sends whatever a test wants, whole or in pieces, in any order."""
import contextlib
import hashlib
import os
import socket

from plain_client import CHANGE, HANDSHAKE, SUITE, Client, message, prf

OFFERED = bytes.fromhex("00ae008c00b0")  # the suites that the gate lists
REQUEST = message(0, b"")  # HelloRequest
DONE = message(14, b"")


@contextlib.contextmanager
def listening(timeout, address="127.0.0.1", family=socket.AF_INET):
    with socket.socket(family) as listener:
        listener.settimeout(timeout)
        listener.bind((address, 0))
        listener.listen()
        yield listener


class Server(Client):
    """One client's connection; what records and the transcript are made of is the client's."""

    def __init__(self, connection, key, timeout):
        self.socket, self.key = connection, key
        self.socket.settimeout(timeout)
        self.transcript = b""
        self.writing = self.reading = None
        self.random = os.urandom(32)

    # ---- what is sent

    def hello(self, version=b"\x03\x03", suite=SUITE, session=b"", method=0, block=None):
        body = version + self.random + bytes([len(session)]) + session + suite.to_bytes(2, "big") + bytes([method])
        if block is not None:
            body += len(block).to_bytes(2, "big") + block
        return message(2, body)

    def key_exchange(self, hint=b"barn"):
        return message(12, len(hint).to_bytes(2, "big") + hint)

    def verify_data(self, label):
        return prf(self.master, label, hashlib.sha256(self.transcript).digest(), 12)

    def finished(self):
        return message(20, self.verify_data(b"server finished"))

    # ---- what comes

    def hear_hello(self):
        """Takes the ClientHello, which is of one form: 49 bytes, no session, no extension block."""
        kind, text = self.receive()
        wanted = b"\x01\0\0\x2d\x03\x03" + text[6:38] + b"\0\0\x06" + OFFERED + b"\x01\0"
        assert (kind, text) == (HANDSHAKE, wanted), (kind, text)
        self.said(text)

    def derive(self):
        hello = self.transcript[6:38]
        size = len(self.key).to_bytes(2, "big")
        self.master = prf(size + bytes(len(self.key)) + size + self.key, b"master secret", hello + self.random, 48)
        block = prf(self.master, b"key expansion", self.random + hello, 64)
        self.next_reading, self.next_writing = (block[:32], 0), (block[32:], 0)

    def hear_finish(self, identity=b"gate7"):
        """Takes ClientKeyExchange, change of cipher and Finished, each in a record of its own and right."""
        self.derive()
        exchange = message(16, len(identity).to_bytes(2, "big") + identity)
        got = self.receive()
        assert got == (HANDSHAKE, exchange), got
        self.said(exchange)
        assert self.receive() == (CHANGE, b"\x01")
        self.reading = self.next_reading
        wanted = message(20, self.verify_data(b"client finished"))
        assert self.receive() == (HANDSHAKE, wanted), "the client's Finished is wrong"
        self.said(wanted)

    # ---- the way of a login

    def greet(self, flight=None, piece=16384, **fields):
        """Takes the ClientHello and sends ServerHello and ServerHelloDone, or the flight that is given, in records of at most so many bytes."""
        self.hear_hello()
        self.send(HANDSHAKE, self.said(self.hello(**fields) + DONE if flight is None else flight), piece)

    def login(self, flight=None, piece=16384, **fields):
        """A whole handshake."""
        self.greet(flight, piece, **fields)
        self.hear_finish()
        self.change()
        self.send(HANDSHAKE, self.finished(), piece)
        return self
