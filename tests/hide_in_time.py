#!/usr/bin/env python3
"""Measures over loopback what the time tells of a gate under the rule hide: whether its name is listed.

    tests/hide_in_time.py GATEWAY

Logins with a wrong key, of a gate that is listed and of one that is not, come in pairs, in a drawn order. Whoever wants to tell them apart guesses of each pair
that the slower one is not listed; by chance half of the guesses are right. Three times are tried: until the alert, until the connection is closed, and until
another connection is answered that spoke at the same moment. Without the delay the guesses must be good, so that the test is seen to work; with it they must
not.
"""
import contextlib
import os
import pathlib
import random
import socket
import tempfile
import time

from harness import LIMIT, Gateway, proved_records
from plain_client import ALERT, CHANGE, HANDSHAKE, WAY, Client, message, record

PAIRS = 256
HALF = PAIRS / 2
SIGMA = PAIRS**0.5 / 2  # of the number of right guesses, where they are chance
GOOD = HALF + 4 * SIGMA  # chance has as many in one round of 30,000
SUSPECT = 2.6 * SIGMA  # chance is as far from the half in one round of 100, and three times running on one side in one series of five millions
ROUNDS = 3
GATES = 256
FLIGHT = 46  # bytes of the server's answer to a hello, two messages, beside the headers of its records
KEY = os.urandom(16)  # of the first gate


def name(number):
    """Names as long as they may be, which differ at their end."""
    return (b"gate %03d" % number).rjust(128, b"x")


LISTED, UNLISTED = name(0), name(GATES)


@contextlib.contextmanager
def hiding(*options):
    """A gateway that is given no rule, so that hide applies, with as many gates as there may be."""
    with tempfile.TemporaryDirectory() as folder:
        table = pathlib.Path(folder) / "gates.psk"
        table.write_bytes(b"".join(name(i) + b":" + (os.urandom(16) if i else KEY).hex().encode() + b"\n" for i in range(GATES)))
        table.chmod(0o600)
        g = Gateway("--table", table, *options)
        try:
            yield g
            g.stop()
        finally:
            g.process.kill()


def greeted(g, identity):
    """A client that the server has answered."""
    c = Client(g.port, identity=identity, timeout=LIMIT)
    c.send(HANDSHAKE, c.hello())
    answered(c)
    return c


def answered(c):
    """The library puts each message in a record of its own, the gateway both in one."""
    c.exactly(FLIGHT + (10 if WAY.options else 5))


# ---- the populations

def wrong_end(c):
    """The key exchange and all that follows it, under a wrong key."""
    return record(HANDSHAKE, c.key_exchange()) + record(CHANGE, b"\x01") + record(HANDSHAKE, os.urandom(48))


def wrong_login(g, identity):
    """Nanoseconds from the key exchange to the alert and to the end."""
    c = greeted(g, identity)
    data = wrong_end(c)
    begun = time.perf_counter_ns()
    c.socket.sendall(data)
    alert = c.exactly(7)
    alerted = time.perf_counter_ns()
    assert c.socket.recv(1) == b""
    closed = time.perf_counter_ns()
    c.socket.close()
    assert alert == record(ALERT, b"\x02\x33"), alert
    return alerted - begun, closed - begun


def beside(g, identity):
    """Nanoseconds from the key exchange of one client to the answer that another gets to its hello."""
    c, other = greeted(g, identity), Client(g.port, timeout=LIMIT)
    data, hello = wrong_end(c), record(HANDSHAKE, other.hello())
    time.sleep(0.0005)  # until the gateway waits for both
    begun = time.perf_counter_ns()
    c.socket.sendall(data)
    other.socket.sendall(hello)
    answered(other)
    taken = time.perf_counter_ns() - begun
    c.socket.close()
    other.socket.close()
    return (taken,)


WAYS = "alert, end and another's answer"


def guesses(g):
    """Right guesses of one round, by each of the three times."""
    right = [0, 0, 0]
    for _ in range(PAIRS):
        times = {LISTED: (), UNLISTED: ()}
        for measure in (wrong_login, beside):
            for identity in random.sample([LISTED, UNLISTED], 2):
                times[identity] += measure(g, identity)
        for i, (listed, unlisted) in enumerate(zip(times[LISTED], times[UNLISTED])):
            right[i] += 1 if unlisted > listed else 0.5 if unlisted == listed else 0
    return right


def told(rounds):
    """Whether by one of the times all rounds point the same way."""
    return any(all(n > HALF + SUSPECT for n in by) or all(n < HALF - SUSPECT for n in by) for by in zip(*rounds))


def without_delay():
    with hiding("--hide-delay", 0) as g:
        rounds = [guesses(g)]
        while min(rounds[-1]) < GOOD and len(rounds) < ROUNDS:
            rounds.append(guesses(g))
        assert min(rounds[-1]) >= GOOD, f"without the delay the two are not told apart either; right guesses of {PAIRS} by {WAYS}: {rounds}"
        return rounds


def with_delay():
    with hiding() as g:
        rounds = [guesses(g)]
        while told(rounds) and len(rounds) < ROUNDS:
            rounds.append(guesses(g))
        assert not told(rounds), f"right guesses of {PAIRS} by {WAYS}: {rounds}"
        return rounds


# ---- everything that ends a login waits for the tick

def milliseconds_of(g, identity, say):
    """From the key exchange to what the server does next. `say` gives what is sent, and whether the client then closes its side."""
    c = Client(g.port, identity=identity, key=KEY, timeout=LIMIT)
    c.send(HANDSHAKE, c.said(c.hello()))
    c.flight()
    data, closes = say(c)
    begun = time.perf_counter_ns()
    c.socket.sendall(data)
    if closes:
        c.socket.shutdown(socket.SHUT_WR)
    answer = c.socket.recv(1000)
    taken = (time.perf_counter_ns() - begun) / 1e6
    c.socket.close()
    return taken, answer


def right(c):
    data = c.sealed(HANDSHAKE, c.said(c.key_exchange())) + c.sealed(CHANGE, b"\x01")
    c.writing = c.next_writing
    return data + c.sealed(HANDSHAKE, c.finished()), False


def wrong_key(c):
    return wrong_end(c), False


def wrong_layout(c):
    return record(HANDSHAKE, message(16, b"\x00")), False


def no_change(c):
    return record(HANDSHAKE, c.key_exchange() + message(20, bytes(12))), False


def gone(c):
    return record(HANDSHAKE, c.key_exchange()), True


def ends():
    cases = [(LISTED, right, record(CHANGE, b"\x01")), (LISTED, wrong_key, record(ALERT, b"\x02\x33")), (UNLISTED, wrong_key, record(ALERT, b"\x02\x33")),
             (LISTED, wrong_layout, record(ALERT, b"\x02\x32")), (UNLISTED, no_change, record(ALERT, b"\x02\x0a")), (LISTED, gone, b""), (UNLISTED, gone, b"")]
    with hiding("--hide-delay", 40) as g:
        for identity, say, front in cases:
            taken, answer = milliseconds_of(g, identity, say)
            assert answer.startswith(front) and bool(answer) == bool(front), (say.__name__, answer)
            assert taken >= 40, f"{say.__name__}: after {taken:.1f} ms"
    with hiding("--hide-delay", 0) as g:
        fastest = min(milliseconds_of(g, LISTED, wrong_key)[0] for _ in range(20))
        assert fastest < 40, f"{fastest:.1f} ms without a delay"


def both(records):
    """With the delay and without it, for one of the two ways in which records are made."""
    begun = time.monotonic()
    ends()
    apart, hidden = without_delay()[-1], with_delay()[-1]
    shown = ["%g, %g and %g" % tuple(right) for right in (hidden, apart)]
    print(f"tests/hide_in_time: {records} records: right guesses of {PAIRS} by {WAYS}: {shown[0]}; without the delay {shown[1]}"
          f" ({time.monotonic() - begun:.0f} s)")


def main():
    both("libcrypto's")
    with proved_records():
        both("proved")


main()
