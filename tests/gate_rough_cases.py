"""Cases of the gate with a server of our own, which breaks rules: another suite, extensions, wrong order, a wrong Finished, bad MACs, odd fragments, silence,
floods. Each asserts both ends: the alert that the server is sent, and the gate's exit status, answers and line."""
import contextlib
import os
import re
import socket
import struct
import time

from gate_harness import HAS_TOLD, LOST, NAMES, NOT_OPENED, RAW, TIME_OUT, WAS_TOLD, Gate, Run, answer, at, enrolled, keys, said
from harness import LIMIT, case
from plain_client import ALERT, CHANGE, DATA, HANDSHAKE, message, record
from plain_server import DONE, REQUEST, Server, listening


@contextlib.contextmanager
def met(*lines, options=(), **more):
    """A gate that has connected to a server of ours: the server's side, with the run and its port."""
    with keys() as file, listening(LIMIT) as listener:
        port = listener.getsockname()[1]
        run = Gate("--keys", file, *options, at(port), *(lines or ["cow 1", "cow 2"]), **more)
        try:
            s = Server(listener.accept()[0], RAW, LIMIT)
            s.run, s.port = run, port
            yield s
            s.socket.close()
        finally:
            run.process.kill()
            run.process.communicate()


def refuses(s, alert, why, place="login", status=HAS_TOLD, out=""):
    """The gate sends this alert and closes, and says why."""
    got = s.alert()
    assert got == (2, alert), got
    s.socket.close()
    said(s.run.end(), status, s.port, f"{place}: sent alert {alert} {NAMES[alert]}: {why}", out)


CHOSE = "it chose a suite, version or compression that was not offered"
FORM = "a message of another form"
PLACELESS = "a message that has no place here"
EXTENSION = "an extension, and none was asked for"
RENEGOTIATION = bytes.fromhex("ff01000100")
HELLOS = [  # fields of a ServerHello, and what comes of it
    ({"suite": 0x002F}, 47, CHOSE), ({"suite": 0x00A8}, 47, CHOSE), ({"suite": 0x00FF}, 47, CHOSE), ({"suite": 0x002F, "version": b"\x03\x02"}, 47, CHOSE),
    ({"suite": 0x00AE, "version": b"\x03\x02"}, 47, CHOSE), ({"suite": 0x00B0, "version": b"\x03\x04"}, 47, CHOSE),
    ({"suite": 0x008C, "version": b"\x03\x02"}, 70, "it has no TLS 1.2"), ({"suite": 0x008C, "version": b"\x03\x01", "method": 1}, 70, "it has no TLS 1.2"),
    ({"method": 1}, 47, CHOSE), ({"method": 1, "block": RENEGOTIATION}, 47, CHOSE), ({"block": RENEGOTIATION}, 110, EXTENSION),
    ({"block": bytes.fromhex("00230000")}, 110, EXTENSION), ({"block": 2 * RENEGOTIATION}, 50, FORM), ({"block": RENEGOTIATION[:-1]}, 50, FORM),
    ({"session": bytes(33)}, 50, FORM),
]


@case("gate: a ServerHello with another suite, version, compression, with an extension, or of another form")
def hellos():
    for fields, alert, why in HELLOS:
        with met() as s:
            s.greet(**fields)
            refuses(s, alert, why)


@case("gate: what may stand in a server's messages: an empty block, a session id, a hint of any bytes")
def accepted():
    for fields, hint in [({"block": b""}, None), ({"session": bytes(range(32))}, None), ({}, b""), ({}, b"\xff\0\n" * 100), ({"block": b""}, b"h" * 16000)]:
        with met("cow 1") as s:
            flight = s.hello(**fields) + (b"" if hint is None else s.key_exchange(hint)) + DONE
            s.login(flight)
            answer(s, b"cow 1")
            assert s.receive() == (ALERT, b"\x01\0")
            s.socket.close()
            assert s.run.end() == Run(0, enrolled("cow 1"), "")


@case("gate: messages out of their place, or of another form")
def order():
    for flight, alert, why in [
        (lambda s: s.hello() + s.key_exchange() + s.key_exchange() + DONE, 10, PLACELESS), (lambda s: s.hello() + s.hello(), 10, PLACELESS),
        (lambda s: s.key_exchange(), 10, PLACELESS), (lambda s: DONE, 10, PLACELESS), (lambda s: REQUEST, 10, PLACELESS),
        (lambda s: s.hello() + message(11, b"\0\0\0") + DONE, 10, PLACELESS), (lambda s: s.hello() + message(4, b"\0\0\0\0\0\0"), 10, PLACELESS),
        (lambda s: s.hello() + message(20, bytes(12)), 10, PLACELESS), (lambda s: s.hello() + message(14, b"\0"), 50, FORM),
        (lambda s: s.hello() + message(12, b"\0\x05barn"), 50, FORM), (lambda s: b"\x02\0\x40\0" + bytes(16384), 50, FORM),
        (lambda s: s.hello()[:-1], None, None),
    ]:
        with met() as s:
            s.hear_hello()
            s.send(HANDSHAKE, flight(s))
            if alert:
                refuses(s, alert, why)
            else:
                s.socket.close()
                said(s.run.end(), LOST, s.port, "login: the connection broke: closed without close_notify")


def ready(s):
    """Up to where the gate awaits the change of cipher."""
    s.greet()
    s.hear_finish()


@case("gate: the end of the login: a Finished that is wrong, of another form or too early, a change of cipher of another form or in another place")
def finish():
    for last, alert, why in [
        (lambda s: (s.change(), s.send(HANDSHAKE, message(20, bytes(12)))), 51, "its Finished is not the one that our key gives"),
        (lambda s: (s.change(), s.send(HANDSHAKE, message(20, s.verify_data(b"client finished")))), 51, "its Finished is not the one that our key gives"),
        (lambda s: (s.change(), s.send(HANDSHAKE, message(20, bytes(11)))), 50, FORM),
        (lambda s: (s.change(), s.send(HANDSHAKE, REQUEST)), 10, PLACELESS),
        (lambda s: (s.change(), s.change()), 10, PLACELESS),
        (lambda s: s.send(HANDSHAKE, s.finished()), 10, PLACELESS),
        (lambda s: s.send(CHANGE, b"\x02"), 50, FORM), (lambda s: s.send(CHANGE, b"\x01\x01"), 50, FORM), (lambda s: s.send(CHANGE, b""), 50, FORM),
        (lambda s: (s.send(HANDSHAKE, b"\x14"), s.change()), 10, PLACELESS),
        (lambda s: s.send(DATA, b"enrolled cow 1\n"), 10, "data before the login is complete"),
        (lambda s: s.send(DATA, b""), 10, "data before the login is complete"),
    ]:
        with met() as s:
            ready(s)
            last(s)
            refuses(s, alert, why)
    with met() as s:
        s.hear_hello()
        s.send(CHANGE, b"\x01")
        refuses(s, 10, PLACELESS)


@case("gate: records that do not open: alert 51 for the first, 20 for a later one")
def unopened():
    def broken(s, kind, content):
        sealed = s.sealed(kind, content)
        s.socket.sendall(sealed[:-1] + bytes([sealed[-1] ^ 1]))

    with met() as s:
        ready(s)
        s.change()
        broken(s, HANDSHAKE, s.finished())
        refuses(s, 51, "its first protected record does not open, so it has another key than ours", status=NOT_OPENED)
    with met() as s:
        ready(s)
        s.change()
        s.socket.sendall(record(HANDSHAKE, s.finished()))  # not protected at all
        refuses(s, 51, "its first protected record does not open, so it has another key than ours", status=NOT_OPENED)
    with met() as s:
        s.login()
        assert s.receive() == (DATA, b"cow 1\n")
        broken(s, DATA, b"enrolled cow 1\n")
        refuses(s, 20, "a record does not open, so it was changed on the way", "line 1", NOT_OPENED)
    with met() as s:
        s.login()
        answer(s, b"cow 1")
        assert s.receive() == (DATA, b"cow 2\n")
        s.writing = (s.writing[0], 1)  # the same number again
        s.send(DATA, b"enrolled cow 2\n")
        refuses(s, 20, "a record does not open, so it was changed on the way", "line 2", NOT_OPENED, enrolled("cow 1"))


@case("gate: garbage, and records of another form")
def garbage():
    other = "a record of another form"
    for data, alert in [(b"HTTP/1.1 400 Bad Request\r\n\r\n", 10), (bytes(100), 10), (b"\x16\x03\x03\xff\xff" + bytes(70000), 22),
                        (b"\x16\x03\x03\x40\x01", 22), (record(HANDSHAKE, b""), 50), (record(ALERT, b"\x02"), 50), (record(ALERT, b"\x02\x28\x02\x28"), 50)]:
        with met() as s:
            s.hear_hello()
            with contextlib.suppress(ConnectionError):
                s.socket.sendall(data)
            refuses(s, alert, other)
    for i in range(10):
        with met(options=["--handshake-timeout", 1]) as s:
            s.hear_hello()
            s.socket.sendall(bytes([20 + i % 4]) + os.urandom(2) + b"\x00\x40" + os.urandom(600))
            s.socket.shutdown(socket.SHUT_WR)
            run = s.run.end()
            assert run.status in (WAS_TOLD, HAS_TOLD, LOST, TIME_OUT) and re.fullmatch(r"gate: [^\n]*: login: [^\n]+\n", run.err), run


@case("gate: alerts before and after completion: fatal, close_notify, a warning, a level that does not exist")
def alerts():
    for level, alert, told in [(2, 40, "alert 40 handshake_failure"), (2, 115, "alert 115 unknown_psk_identity"), (2, 200, "alert 200"), (2, 0, None),
                               (1, 0, None)]:
        for complete in (False, True):
            with met() as s:
                (s.login if complete else s.hear_hello)()
                if complete:
                    answer(s, b"cow 1")
                    assert s.receive() == (DATA, b"cow 2\n")
                s.send(ALERT, bytes([level, alert]))
                place, out = ("line 2", enrolled("cow 1")) if complete else ("login", "")
                if told:
                    assert s.socket.recv(1) == b""
                    said(s.run.end(), WAS_TOLD, s.port, f"{place}: the gateway sent {told}", out)
                else:
                    assert s.alert() == (1, 0)  # its own close_notify
                    said(s.run.end(), LOST, s.port, f"{place}: the gateway closed the connection", out)
    for complete in (False, True):
        with met("cow 1") as s:
            (s.login if complete else s.hear_hello)()
            if complete:
                assert s.receive() == (DATA, b"cow 1\n")
            s.send(ALERT, b"\x03\x28")
            refuses(s, 47, "an alert of a level that does not exist", "line 1" if complete else "login")
    with met("cow 1") as s:
        s.hear_hello()
        s.send(ALERT, b"\x01\x5a")
        s.send(HANDSHAKE, s.said(s.hello()))
        s.send(ALERT, b"\x01\x5a")
        s.send(HANDSHAKE, s.said(DONE))
        s.hear_finish()
        s.change()
        s.send(HANDSHAKE, s.finished())
        s.send(ALERT, b"\x01\x64")
        answer(s, b"cow 1")
        assert s.receive() == (ALERT, b"\x01\0")
        s.socket.close()
        assert s.run.end() == Run(0, enrolled("cow 1"), "")


def reset(s):
    s.socket.setsockopt(socket.SOL_SOCKET, socket.SO_LINGER, struct.pack("ii", 1, 0))
    s.socket.close()


@case("gate: a server that closes or resets early, at every step")
def gone():
    def answered(s):
        s.login()
        answer(s, b"cow 1")
        s.receive()

    for step, place, out in [(Server.hear_hello, "login", ""), (ready, "login", ""), (lambda s: (s.login(), s.receive()), "line 1", ""),
                             (answered, "line 2", enrolled("cow 1"))]:
        for leave, why in [(lambda s: s.socket.shutdown(socket.SHUT_RDWR), "closed without close_notify"), (reset, "Connection reset by peer")]:
            with met() as s:
                step(s)
                leave(s)
                run = s.run.end()
                both = [f"gate: {at(s.port)}: {place}: the connection broke: {w}\n" for w in {why, "Connection reset by peer"}]
                assert run.status == LOST and run.out == out and run.err in both, run


@case("gate: a server that says nothing, or a byte at a time, or does not answer: time-out, with close_notify")
def silence():
    with met(options=["--handshake-timeout", 1]) as s:
        begun = time.monotonic()
        s.hear_hello()
        assert s.alert() == (1, 0) and 0.9 < time.monotonic() - begun < LIMIT
        said(s.run.end(), TIME_OUT, s.port, "login: time-out after 1 s")
    with met(options=["--handshake-timeout", 1]) as s:
        s.hear_hello()
        with contextlib.suppress(ConnectionError):
            for byte in record(HANDSHAKE, s.hello()) * 3:
                s.socket.sendall(bytes([byte]))
                if s.run.process.poll() is not None:
                    break
                time.sleep(0.05)
        said(s.run.end(), TIME_OUT, s.port, "login: time-out after 1 s")
    with met(options=["--answer-timeout", 1]) as s:
        s.login()
        answer(s, b"cow 1")
        assert s.receive() == (DATA, b"cow 2\n")
        s.send(DATA, b"enrolled cow")
        s.send(ALERT, b"\x01\x5a")
        assert s.alert() == (1, 0)
        said(s.run.end(), TIME_OUT, s.port, "line 2: time-out after 1 s", enrolled("cow 1"))


@case("gate: a server that sends without end, and nothing that counts: time-out")
def flood():
    def pour(s, some):
        begun = time.monotonic()
        with contextlib.suppress(OSError):
            while s.run.process.poll() is None and time.monotonic() - begun < LIMIT:
                s.socket.sendall(some())
        assert time.monotonic() - begun < LIMIT / 2, "it does not look at the time"

    with met(options=["--handshake-timeout", 1]) as s:
        s.hear_hello()
        warnings = record(ALERT, b"\x01\x5a") * 20000  # faster than the gate reads
        pour(s, lambda: warnings)
        said(s.run.end(), TIME_OUT, s.port, "login: time-out after 1 s")
    for kind, content in [(HANDSHAKE, REQUEST), (DATA, b"")]:
        with met(options=["--answer-timeout", 1]) as s:
            s.login()
            assert s.receive() == (DATA, b"cow 1\n")
            pour(s, lambda: b"".join(s.sealed(kind, content) for _ in range(1000)))
            said(s.run.end(), TIME_OUT, s.port, "line 1: time-out after 1 s")


@case("gate: records in pieces and together: one byte a record, several messages in one, bytes one at a time, answers in parts, empty data records")
def pieces():
    for piece in (1, 3, 16384):
        with met("cow 1") as s:
            s.login(s.hello() + s.key_exchange() + DONE if piece > 1 else None, piece)
            answer(s, b"cow 1", b"")
            for part in (b"enrolled", b"", b" cow 1", b"\n"):
                s.send(DATA, part)
            s.send(DATA, b"")
            assert s.receive() == (ALERT, b"\x01\0")
            s.socket.close()
            assert s.run.end() == Run(0, enrolled("cow 1"), "")
    with met("cow 1") as s:
        s.hear_hello()
        s.socket.setsockopt(socket.IPPROTO_TCP, socket.TCP_NODELAY, 1)
        for byte in record(HANDSHAKE, s.said(s.hello() + DONE)):
            s.socket.sendall(bytes([byte]))
        s.hear_finish()
        change = s.sealed(CHANGE, b"\x01")
        s.writing = s.next_writing
        s.socket.sendall(change + s.sealed(HANDSHAKE, s.finished() + REQUEST))  # in one write, and a HelloRequest behind the Finished
        answer(s, b"cow 1")
        assert s.receive() == (ALERT, b"\x01\0")
        s.socket.close()
        assert s.run.end() == Run(0, enrolled("cow 1"), "")


@case("gate: after the login a HelloRequest is passed over; another handshake message, a change of cipher, and data that nobody asked for are refused")
def later():
    with met("cow 1") as s:
        s.login()
        s.send(HANDSHAKE, REQUEST)
        s.send(HANDSHAKE, REQUEST * 3, 5)
        answer(s, b"cow 1")
        assert s.receive() == (ALERT, b"\x01\0")
        s.socket.close()
        assert s.run.end() == Run(0, enrolled("cow 1"), "")
    for kind, text, alert, why in [
        (HANDSHAKE, message(0, b"\0"), 10, "a handshake message after the login"),
        (HANDSHAKE, message(2, bytes(38)), 10, "a handshake message after the login"),
        (HANDSHAKE, b"\xff\xff\xff\xff", 10, "a handshake message after the login"), (HANDSHAKE, b"", 50, "a record of another form"),
        (CHANGE, b"\x01", 10, PLACELESS), (DATA, b"enrolled cow 1\nenrolled cow 2\n", 10, "data that nobody asked for"),
        (DATA, b"x" * 1025, 50, "an answer of over 1024 bytes"),
    ]:
        with met("cow 1") as s:
            s.login()
            assert s.receive() == (DATA, b"cow 1\n")
            s.send(kind, text)
            refuses(s, alert, why, "line 1", out=enrolled("cow 1") if text.startswith(b"enrolled cow 1\n") else "")
    with met("cow 1") as s:
        s.login()
        answer(s, b"cow 1", b"z" * 1024 + b"\n")
        assert s.receive() == (ALERT, b"\x01\0")
        s.socket.close()
        assert s.run.end() == Run(0, "z" * 1024 + "\n", "")


@case("gate: an answer counts that the server sent before it closed, and the next line is not sent")
def last_word():
    for end in (b"\x01\0", b"\x02\x50", None):
        for lines in ([b"cow 1"], [b"cow 1", b"cow 2"]):
            with met(*(line.decode() for line in lines)) as s:
                s.login()
                assert s.receive() == (DATA, b"cow 1\n")
                s.socket.sendall(s.sealed(DATA, b"enrolled cow 1\n") + (s.sealed(ALERT, end) if end else b""))
                s.socket.shutdown(socket.SHUT_WR)
                with contextlib.suppress(EOFError, ConnectionError):
                    while True:
                        kind, content = s.receive()
                        assert kind == ALERT or (end is None and (kind, content) == (DATA, b"cow 2\n")), (kind, content)
                run = s.run.end()
                assert run.out == enrolled("cow 1"), run
                if end == b"\x02\x50":
                    said(run, WAS_TOLD, s.port, "line 1: the gateway sent alert 80 internal_error", run.out)
                elif len(lines) == 1:
                    assert run == Run(0, run.out, ""), run
                elif end:
                    said(run, LOST, s.port, "line 2: the gateway closed the connection", run.out)
                else:
                    said(run, LOST, s.port, "line 2: the connection broke: closed without close_notify", run.out)


@case("gate: it takes its leave with close_notify, and does not wait for long where the server does not close")
def leave():
    with met("cow 1") as s:
        s.login()
        answer(s, b"cow 1")
        assert s.alert() == (1, 0)  # and the end of the stream at once
        begun = time.monotonic()
        assert s.run.process.wait(LIMIT) == 0 and 0.3 < time.monotonic() - begun < LIMIT
        assert s.run.end() == Run(0, enrolled("cow 1"), "")
