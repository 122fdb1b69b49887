#!/usr/bin/env python3
"""Looks for known keys in the memory of the gateway and of the gate, from outside: no key may outlive its use.

    tests/keys_in_memory.py GATEWAY CARELESS GATE CARELESS_GATE

In GATEWAY nothing may be left after a session, after a failed login and after a gate was retired. CARELESS is the same program without what clears the stack
(tests/no_wipe.c): there keys have to be found, so that the test is seen to work. GATE is looked at while it waits, since it ends with its session;
CARELESS_GATE clears nothing at all.

Neither lets anybody look into it, so its memory is opened at exec, before its first instruction, by the parent that traces it. That takes no privilege.
"""
import contextlib
import ctypes
import os
import pathlib
import re
import resource
import secrets
import signal
import subprocess
import sys
import tempfile
import time

from harness import GATEWAY, LIMIT, Gateway, proved_records, until
from plain_client import ALERT, DATA, HANDSHAKE, Client, message, prf
from plain_server import Server, listening

CARELESS, GATE, CARELESS_GATE = sys.argv[2:5]
PIECE = 8  # so many bytes of a secret in a row count as found, from every fourth place on
TRACE_ME, DETACH = 0, 17  # of ptrace
DROP, SYS_PTRACE = 24, 19  # PR_CAPBSET_DROP of prctl, and the capability
LIBC = ctypes.CDLL(None, use_errno=True)
LIBC.ptrace.argtypes = [ctypes.c_long, ctypes.c_long, ctypes.c_void_p, ctypes.c_void_p]
LIBC.ptrace.restype = ctypes.c_long


# ---- a program whose memory is read

def traced():
    LIBC.ptrace(TRACE_ME, 0, None, None)


def watch(process):
    """The process stands at its exec: opens its memory and lets it go."""
    _, status = os.waitpid(process.pid, 0)
    assert os.WIFSTOPPED(status), f"the program can't be traced: status {status}"
    process.memory = os.open(f"/proc/{process.pid}/mem", os.O_RDONLY | os.O_CLOEXEC)
    process.maps = open(f"/proc/{process.pid}/maps")
    LIBC.ptrace(DETACH, process.pid, None, None)


@contextlib.contextmanager
def watched(program, *options):
    g = Gateway("--clients", 8, *options, program=program, preexec_fn=traced, started=watch)
    try:
        yield g
        g.stop()
    finally:
        g.process.kill()
        os.close(g.process.memory)
        g.process.maps.close()


def snapshot(g):
    """All bytes of its writable memory, without blocks of zeros."""
    blocks, zeros = [], bytes(1 << 14)
    g.process.maps.seek(0)
    for line in g.process.maps:
        place, rights, *_ = line.split()
        if not rights.startswith("rw"):
            continue
        at, end = (int(x, 16) for x in place.split("-"))
        while at < end:
            block = os.pread(g.process.memory, min(len(zeros), end - at), at)
            assert block, f"memory at {at:x} can't be read"
            at += len(block)
            if block != zeros[: len(block)]:
                blocks.append(block)
    return b"".join(blocks)


def found(g, known):
    """The names of the secrets of which a piece stands in its memory."""
    memory = snapshot(g)
    return {name for name, value in known.items() if any(value[i : i + PIECE] in memory for i in range(0, len(value) - PIECE + 1, 4))}


def left(g, known, allowed=frozenset()):
    """What is found beside what may be, after all the time that it may take to see that a client is gone or a table new."""
    end = time.monotonic() + LIMIT
    while (names := found(g, known) - allowed) and time.monotonic() < end:
        time.sleep(0.05)
    return names


# ---- logins

class Table:
    """Gates with keys of 16, 32 and 64 bytes, in a file."""

    def __init__(self, folder):
        self.file = pathlib.Path(folder) / "gates.psk"
        self.keys = {f"gate{8 * n}": secrets.token_bytes(n) for n in (16, 32, 64)}
        self.write(self.keys)

    def write(self, names):
        self.file.write_text("".join(f"{name}:{self.keys[name].hex()}\n" for name in names))
        self.file.chmod(0o600)


def secrets_of(key, master, block):
    """What the gateway may have known in a login, by name. The premaster secret ends in the raw key."""
    known = {"raw key": key, "master secret": master}
    sizes = [32, 32] if len(block) == 64 else [len(block) // 2 - 16] * 2 + [16, 16]
    names = ["client's MAC key", "server's MAC key", "client's cipher key", "server's cipher key"]
    for name, size in zip(names, sizes):
        known[name], block = block[:size], block[size:]
    return known


KEYS_IN_USE = {"client's MAC key", "server's MAC key"}


def named(g, name, key):
    """A client that has sent its ClientKeyExchange, and what the gateway knows of it."""
    c = Client(g.port, identity=name.encode(), key=key, timeout=LIMIT)
    c.send(HANDSHAKE, c.said(c.hello()))
    c.flight()
    c.send(HANDSHAKE, c.said(c.key_exchange()))
    return c, secrets_of(key, c.master, c.next_writing[0] + c.next_reading[0])


def session(g, name, key):
    """A whole session; what the gateway knew, and what is found amid the login, in the session and when the client sees its end."""
    c, known = named(g, name, key)
    until(lambda: "master secret" in found(g, known), "the master secret amid a login")
    time.sleep(0.1)  # it may be in the midst of it
    amid = found(g, known)
    c.change()
    c.send(HANDSHAKE, c.said(c.finished()))
    c.finish()
    c.enrol([b"cow 212"])
    during = found(g, known)
    c.bye()
    return amid, during, found(g, known)


def failed_login(g, name, key, how):
    """A login that fails. What is found when the client sees the alert, and still has its end open; or some time after it is gone."""
    c, known = named(g, name, key)
    if how == "gone":
        c.socket.close()
        return left(g, known)
    c.change()
    text = c.finished()
    if how == "wrong MAC":
        c.writing = (bytes(32), 0)
    else:
        text = text[:-1] + bytes([text[-1] ^ 1])
    c.send(HANDSHAKE, text)
    assert c.alert() == (2, 51)
    names = found(g, known)
    c.socket.close()
    return names


def cbc_session(g, suite, name, key):
    """A session of OpenSSL's client, which tells the master secret and the server's random."""
    with tempfile.TemporaryDirectory() as folder:
        log = pathlib.Path(folder) / "log"
        words = ["openssl", "s_client", "-connect", f"127.0.0.1:{g.port}", "-tls1_2", "-legacy_server_connect", "-psk_identity", name, "-psk",
                 key.hex(), "-cipher", f"{suite}:@SECLEVEL=0", "-msg", "-keylogfile", log]
        done = subprocess.run(words, input=b"", capture_output=True, timeout=LIMIT)
        client, master = (bytes.fromhex(x) for x in log.read_text().split()[-2:])
    hello = re.search(r"ServerHello\n((?: +[0-9a-f ]+\n)+)", done.stdout.decode(errors="replace"))
    server = bytes.fromhex(hello[1].replace("\n", " "))[6:38]
    premaster = (len(key).to_bytes(2, "big") + bytes(len(key))) + len(key).to_bytes(2, "big") + key
    assert master == prf(premaster, b"master secret", client + server, 48), "another master secret than the client's"
    return secrets_of(key, master, prf(master, b"key expansion", server + client, 96 if suite.endswith("256") else 72))


# ---- the cases

def retire(g, table, names):
    """A table with these gates alone is read."""
    table.write(names)
    g.process.send_signal(signal.SIGHUP)
    until(lambda: f"read again, gates: {len(names)}\n" in g.text, "the new table")


CBC = ("PSK-AES128-CBC-SHA256", "PSK-AES128-CBC-SHA")


def careful(*rule, suites=CBC):
    """Amid a login the master secret is kept, in a session the keys of its records, and after it nothing."""
    with tempfile.TemporaryDirectory() as folder:
        table = Table(folder)
        with watched(GATEWAY, "--table", table.file, *rule) as g:
            for name, key in table.keys.items():
                found_then = session(g, name, key)
                assert found_then == (KEYS_IN_USE | {"master secret"}, KEYS_IN_USE, set()), f"amid, in and after a session of {name}: {found_then}"
                for how in ("wrong MAC", "wrong Finished", "gone"):
                    assert not (names := failed_login(g, name, key, how)), f"after a failed login of {name}, {how}: {names}"
            for suite in suites:
                assert not (names := left(g, cbc_session(g, suite, "gate128", table.keys["gate128"]))), f"after a session with {suite}: {names}"
            text = {f"{name}'s line": key.hex().encode() for name, key in table.keys.items()}
            raw = {f"{name}'s raw key": key for name, key in table.keys.items()}
            assert found(g, text | raw) == set(text), found(g, text | raw)
            retire(g, table, ["gate256"])
            assert not (names := left(g, text | raw, {"gate256's line"})), f"after gates were retired: {names}"
            assert found(g, text) == {"gate256's line"}, "the table in use is not found"


def careless(expected):
    """The same test finds these secrets where the stack is not cleared. Under tell: the trial logins that hide makes at a new table overwrite them. Of the
    longest key, since a later call may go over all of a short one."""
    with tempfile.TemporaryDirectory() as folder:
        table = Table(folder)
        with watched(CARELESS, "--table", table.file, "--rule", "tell") as g:
            key = table.keys["gate512"]
            _, _, after = session(g, "gate512", key)
            assert after, "a careless gateway leaves nothing behind after a session"
            names = failed_login(g, "gate512", key, "wrong MAC")
            assert expected <= names, names
            retire(g, table, ["gate256"])
            assert expected & {"raw key"} <= found(g, {"raw key": key}), "a retired gate's key is not found"
            return after | names


def plain_user():
    """Root is not to look into other processes either."""
    LIBC.prctl(DROP, SYS_PTRACE, 0, 0, 0)


def closed(pid):
    """Whether a process of the same user is kept from this one's memory, and whether it makes no core dump."""
    opened = subprocess.run(["dd", f"if=/proc/{pid}/mem", "count=0"], capture_output=True, text=True, preexec_fn=plain_user)
    assert opened.returncode == 0 or "Permission denied" in opened.stderr, opened.stderr
    return opened.returncode != 0, resource.prlimit(pid, resource.RLIMIT_CORE) == (0, 0)


def closed_to_others(program):
    """The same of a gateway."""
    g = Gateway(program=program, preexec_fn=plain_user)
    found_then = closed(g.process.pid)
    g.stop()
    return found_then


# ---- the gate

class Gate:
    """The gate, logging in as gate7 with this key, whose memory is read, or which is only run."""

    def __init__(self, program, key, port, folder, **more):
        file = pathlib.Path(folder) / "gate.psk"
        file.write_text(f"gate7:{key.hex()}\n")
        file.chmod(0o600)
        self.process = subprocess.Popen([program, "--keys", file, f"127.0.0.1:{port}"], stdin=subprocess.PIPE, stdout=subprocess.PIPE,
                                        stderr=subprocess.DEVNULL, **more)

    def enrol(self):
        self.process.stdin.write(b"cow 1\n")
        self.process.stdin.flush()

    def end(self):
        self.process.kill()
        self.process.wait(LIMIT)
        self.process.stdin.close()
        self.process.stdout.close()


@contextlib.contextmanager
def gate_and_server(program, key, watched=True):
    """A gate and the server of ours that it has connected to."""
    with tempfile.TemporaryDirectory() as folder, listening(LIMIT) as listener:
        g = Gate(program, key, listener.getsockname()[1], folder, preexec_fn=traced if watched else plain_user)
        if watched:
            watch(g.process)
        try:
            yield g, Server(listener.accept()[0], key, LIMIT)
        finally:
            g.end()
            if watched:
                os.close(g.process.memory)
                g.process.maps.close()


def gate_login(g, s, key):
    """Up to where the gate awaits the server's change of cipher; what is found while it awaits a ServerHello, and then, and what it knows. What it has sent
    it sent after clearing."""
    first = {"raw key": key, "line": key.hex().encode()}
    s.hear_hello()
    waiting = found(g, first)
    s.send(HANDSHAKE, s.said(s.hello() + message(14, b"")))
    s.hear_finish()
    known = {**secrets_of(key, s.master, s.next_reading[0] + s.next_writing[0]), "line": first["line"]}
    return waiting, found(g, known), known


def gate_session(program, key):
    """What is found amid a login, in the session when a line was answered, and when it has taken its leave and waits for the server to close."""
    with gate_and_server(program, key) as (g, s):
        waiting, amid, known = gate_login(g, s, key)
        s.change()
        s.send(HANDSHAKE, s.finished())
        g.enrol()
        assert s.receive() == (DATA, b"cow 1\n")
        s.send(DATA, b"enrolled cow 1\n")
        assert g.process.stdout.readline() == b"enrolled cow 1\n"
        during = found(g, known)
        g.process.stdin.close()
        assert s.receive() == (ALERT, b"\x01\0")
        return waiting, amid, during, found(g, known)


def gate_failure(program, key, wrong):
    """What is found when the gate has refused the server's Finished, whose value or MAC is wrong, and waits for the server to close."""
    with gate_and_server(program, key) as (g, s):
        known = gate_login(g, s, key)[2]
        s.change()
        if wrong == "MAC":
            s.writing = (bytes(32), 0)
        s.send(HANDSHAKE, s.finished() if wrong == "MAC" else message(20, bytes(12)))
        assert s.receive() == (ALERT, b"\x02\x33")
        return found(g, known)


def careful_gate():
    """While it logs in the library keeps what it needs, in a session its records' keys are kept, and after it nothing."""
    for n in (16, 32, 64):
        key = secrets.token_bytes(n)
        waiting, amid, *rest = gate_session(GATE, key)
        assert waiting == {"raw key"} and KEYS_IN_USE | {"master secret"} <= amid <= KEYS_IN_USE | {"master secret", "raw key"}, (waiting, amid)
        assert rest == [KEYS_IN_USE, set()], f"in and after a session of the gate: {rest}"
        for wrong in ("MAC", "value"):
            assert not (names := gate_failure(GATE, key, wrong)), f"after a login of the gate with a wrong {wrong}: {names}"


def careless_gate():
    """The same test finds secrets where nothing is cleared."""
    key = secrets.token_bytes(16)
    *_, during, after = gate_session(CARELESS_GATE, key)
    for when, names in {"in a session": during, "after it": after, "after a failed login": gate_failure(CARELESS_GATE, key, "value")}.items():
        assert KEYS_IN_USE | {"line"} <= names, f"of a careless gate there is {when}: {names}"
    return after


def gate_closed(program):
    """As closed_to_others, of a gate that waits for its server."""
    with gate_and_server(program, secrets.token_bytes(16), watched=False) as (g, s):
        s.hear_hello()
        return closed(g.process.pid)


def main():
    begun = time.monotonic()
    careful()
    careful("--rule", "tell")
    seen = careless({"raw key", "master secret"})
    with proved_records():
        careful(suites=())
        seen |= careless({"master secret"} | KEYS_IN_USE)  # the call that is given the raw key goes on to these, over the place where it stood
    assert closed_to_others(GATEWAY) == (True, True), "its memory can be dumped"
    assert closed_to_others(CARELESS)[0] is False, "a gateway that forbids nothing is closed to others too"
    careful_gate()
    kept = careless_gate()
    assert gate_closed(GATE) == (True, True), "the gate's memory can be dumped"
    assert gate_closed(CARELESS_GATE)[0] is False, "a gate that forbids nothing is closed to others too"
    print(f"tests/keys_in_memory: no key outlives its use; without the clearing there are in the gateway {', '.join(sorted(seen))}; in the gate "
          f"{', '.join(sorted(kept))} ({time.monotonic() - begun:.0f} s)")


main()
