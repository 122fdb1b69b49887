"""Cases of a gateway that somebody wants to stop: crowds of clients, a gate that takes all places, a log that nobody reads, a system without open files. And of
gates that a new table retires."""
import contextlib
import datetime
import fcntl
import os
import pathlib
import pty
import re
import resource
import signal
import socket
import statistics
import subprocess
import sys
import tempfile
import threading
import time
import types

from harness import FAST_GATEWAY, GATEWAY, KEYS, LIMIT, STAMP, TABLE, Gateway, Program, case, gateway, until
from plain_client import ALERT, DATA, HANDSHAKE, Client

NULL = "PSK-NULL-SHA256"
SOON = 3  # seconds, for what must not wait for a time-out; the shortest of those is 10


def client(g, gate="gate7", timeout=LIMIT):
    c = Client(g.port, identity=gate.encode(), key=bytes.fromhex(KEYS[gate]), timeout=timeout)
    c.socket.setsockopt(socket.IPPROTO_TCP, socket.TCP_NODELAY, 1)
    return c


def login(g, gate="gate7"):
    """A login that has to succeed soon."""
    begun = time.monotonic()
    c = client(g, gate).handshake()
    assert time.monotonic() - begun < SOON, f"the login took {time.monotonic() - begun:.1f} seconds"
    return c


def greeted(g, gate="gate7"):
    """A client that has sent its hello and got the answer."""
    c = client(g, gate)
    c.send(HANDSHAKE, c.said(c.hello()))
    c.flight()
    return c


def go_on(c):
    """The rest of its handshake."""
    c.send(HANDSHAKE, c.said(c.key_exchange()))
    c.change()
    c.send(HANDSHAKE, c.said(c.finished()))
    c.finish()


def silent_clients(g, n, source="127.0.0.1"):
    """n connections that say nothing."""
    return [socket.create_connection(("127.0.0.1", g.port), LIMIT, (source, 0)) for _ in range(n)]


def closed(s):
    """Whether this side has been told that the connection is over, at once or soon."""
    s.settimeout(SOON)
    try:
        return s.recv(100) in (b"", b"\x15\x03\x03\x00\x02\x01\x00")
    except ConnectionError:
        return True
    except TimeoutError:
        return False


def still_open(s):
    s.setblocking(False)
    try:
        s.recv(100)
        return False
    except BlockingIOError:
        return True


def rest(g):
    """The lines that have come and were not looked at, without their times."""
    text, g.seen = g.text[g.seen :], len(g.text)
    return [re.sub(STAMP, "", line) for line in text.splitlines()]


def processor_seconds(g):
    fields = pathlib.Path(f"/proc/{g.process.pid}/stat").read_text().rpartition(")")[2].split()
    return (int(fields[11]) + int(fields[12])) / os.sysconf("SC_CLK_TCK")


# ---- nobody is locked out

@case("sixty-four silent clients on sixty-four places: the next is served at once, and the oldest of them goes")
def crowd():
    with gateway("--clients", 64, "--per-address", 100) as g:
        silent = silent_clients(g, 64)
        c = login(g)
        assert closed(silent[0]) and all(still_open(s) for s in silent[1:])
        assert g.next_line() == "all 64 places are taken: the oldest unfinished handshake goes"
        g.line("made room for another client")
        g.line("complete", "gate7", NULL)
        c.bye()
        for s in silent:
            s.close()
        until(lambda: sum(": closed\n" in line + "\n" for line in g.text.splitlines()) + counted(g.text) == 63, "all lines")
        g.seen = len(g.text)


def counted(text):
    """How many failed logins the log has only counted."""
    return sum(int(n) for n in re.findall(r"(\d+) more logins failed", text))


@case("among many silent clients one that has sent its hello stays, among many of those one that is silent, and a gate that is logged in always")
def who_goes():
    with gateway("--clients", 4, "--per-address", 100) as g:
        done = login(g)
        amid = greeted(g)
        silent = silent_clients(g, 2)
        more = silent_clients(g, 2)
        assert closed(silent[0]) and closed(silent[1]) and all(still_open(s) for s in more)
        go_on(amid)
        for c in (done, amid):
            c.enrol([b"cow 1"])
        for s in silent + more:
            s.close()
        for c in (done, amid):
            c.bye()
        until(lambda: len(re.findall(": closed\n", g.text)) == 2, "all lines")
        lines = rest(g)
        assert sum("made room for another client" in line for line in lines) == 2, lines
        assert sum("all 4 places are taken" in line for line in lines) == 1, lines  # at most one a second
    with gateway("--clients", 4, "--per-address", 100) as g:
        one, many = silent_clients(g, 1), [greeted(g) for _ in range(6)]
        assert still_open(one[0])
        assert [still_open(c.socket) for c in many] == [False] * 3 + [True] * 3
        for s in (*one, *(c.socket for c in many)):
            s.close()
        until(lambda: len(re.findall(": closed\n", g.text)) == 4, "all lines")
        rest(g)


@case("one address has too many unfinished handshakes: its own oldest goes, and others keep theirs")
def one_address():
    with gateway("--clients", 8, "--per-address", 3) as g:
        others = silent_clients(g, 2)
        crowd_there = silent_clients(g, 5, "127.0.0.2")
        assert closed(crowd_there[0]) and closed(crowd_there[1]) and all(still_open(s) for s in crowd_there[2:] + others)
        login(g).bye()
        for s in others + crowd_there:
            s.close()
        until(lambda: len(re.findall(": closed\n", g.text)) == 5, "all lines")
        lines = rest(g)
        assert sum(bool(re.fullmatch(r"127\.0\.0\.2:\d+: its address has 3 unfinished handshakes, the most allowed: the oldest goes", line))
                   for line in lines) == 1, lines
        assert sum(bool(re.fullmatch(r"127\.0\.0\.2:\d+ gate - suite -: made room for another client", line)) for line in lines) == 2, lines


@case("sixty-four connections of one gate on sixty-four places: its oldest go with close_notify, and another gate logs in")
def one_gate():
    with gateway("--clients", 64) as g:
        many = [login(g) for _ in range(64)]
        for c in many[:-8]:
            assert c.alert() == (1, 0)
            c.socket.close()
        login(g, "gate8").bye()
        for c in many[-8:]:
            c.enrol([b"cow 1"])
            c.bye()
        until(lambda: g.text.count("complete\n") == 65, "all lines")
        lines = rest(g)
        assert sum(line.endswith(f'gate "gate7" suite {NULL}: after completion made room for newer logins of this gate') for line in lines) == 56, lines
        assert len(lines) == 65 + 56, lines


@case("gates that are logged in have all places: the gateway says so, and who comes waits until one leaves")
def all_logged_in():
    with gateway("--clients", 2, "--per-gate", 2) as g:
        first, second = login(g), login(g)
        for _ in range(2):
            g.line("complete", "gate7", NULL)
        assert g.next_line() == "all 2 places are taken by gates that are logged in: whoever comes now waits"
        third = client(g, "gate8")
        third.send(HANDSHAKE, third.said(third.hello()))
        time.sleep(0.3)
        assert still_open(third.socket)
        third.socket.settimeout(LIMIT)
        first.bye()
        third.flight()
        third.socket.close()
        g.line("closed", None, NULL)
        second.enrol([b"cow 1"])
        second.bye()


@case("empty records, warnings and half a line are no sign of life; a line is, an empty one too")
def signs_of_life():
    with gateway("--idle-timeout", 1) as g:
        for kind, content in ((DATA, b""), (ALERT, b"\x01\x64"), (DATA, b"x")):
            c, begun = login(g), time.monotonic()
            g.line("complete", "gate7", NULL)
            c.socket.settimeout(0.2)
            while time.monotonic() - begun < LIMIT:
                try:
                    assert c.alert() == (1, 0)
                    break
                except TimeoutError:
                    c.send(kind, content)
            assert 0.9 < time.monotonic() - begun < SOON
            c.socket.close()
            g.line("after completion time-out", "gate7", NULL)
        c = login(g)
        for line in (b"", b"cow 1", b"") * 2:
            time.sleep(0.4)
            c.enrol([line]) if line else c.send(DATA, b"\n")
        c.bye()
        g.line("complete", "gate7", NULL)


@case("an honest login beside 1,000 silent clients that come again at once takes under 0.2 seconds", alone=True)
def beside_a_crowd():
    with gateway(program=FAST_GATEWAY) as g:
        crowd_outside = Program([sys.executable, pathlib.Path(__file__).with_name("crowd.py"), g.port, 1000])
        until(lambda: "here" in crowd_outside.text and "its address has" in g.text, "the crowd")
        took = []
        for _ in range(15):
            begun = time.monotonic()
            c = client(g).handshake()
            took.append(time.monotonic() - begun)
            c.bye()
            time.sleep(0.1)
        crowd_outside.process.stdin.close()
        assert crowd_outside.end() == 0
        came = int(crowd_outside.text.split()[1])
        assert came > 1500, f"the crowd came only {came} times"
        median, longest = (1000 * f(took) for f in (statistics.median, max))
        print(f"an honest login beside 1,000 silent clients: median {median:.0f} ms, longest {longest:.0f} ms; they came {came} times")
        assert statistics.median(took) < 0.2, took
        until(lambda: g.text.count(": complete\n") == 15, "all lines")
        time.sleep(1.2)  # the last count of failed logins
        g.seen = len(g.text)


# ---- open files

@case("too few open files for the clients: refused at the start in one sentence; a low limit that may be raised is")
def open_files():
    def limited(soft, hard):
        return lambda: resource.setrlimit(resource.RLIMIT_NOFILE, (soft, hard))

    bad = Program([GATEWAY, "--port", 0, "--table", TABLE], preexec_fn=limited(64, 64))
    assert bad.end() == 1 and bad.text.startswith("gateway: 512 clients need 528 open files and 64 are allowed: ") and bad.text.count("\n") == 1, bad.text
    with gateway(preexec_fn=limited(64, 1024)) as g:
        silent = silent_clients(g, 100)
        login(g).bye()
        g.line("complete", "gate7", NULL)
        for s in silent:
            s.close()
        until(lambda: g.text.count(": closed\n") + counted(g.text) == 100, "all lines")
        g.seen = len(g.text)
    with gateway("--clients", 40, preexec_fn=limited(64, 64)) as g:
        login(g).bye()
        g.line("complete", "gate7", NULL)


def held_at(g, files, said):
    """Lowers the gateway's limit of open files while it runs: it says what the system refuses, at most once a second, and does not spin."""
    before = resource.prlimit(g.process.pid, resource.RLIMIT_NOFILE)
    resource.prlimit(g.process.pid, resource.RLIMIT_NOFILE, (files, before[1]))
    waiting = socket.create_connection(("127.0.0.1", g.port), LIMIT)
    begun = time.monotonic()
    until(lambda: said in g.text, said)
    used = processor_seconds(g)
    time.sleep(1.5)
    assert processor_seconds(g) - used < 0.5, "it spins"
    assert g.text.count(said) <= time.monotonic() - begun + 2, g.text
    resource.prlimit(g.process.pid, resource.RLIMIT_NOFILE, before)
    return waiting


@case("an error of accept or ppoll is said, at most once a second, and neither spins nor holds SIGTERM up")
def system_errors():
    # the search for leaks opens files, of which there are none at the end
    g = Gateway("--handshake-timeout", 60, env={**os.environ, "ASAN_OPTIONS": "detect_leaks=0"})
    there = [greeted(g) for _ in range(8)]
    # standard input, output and error, the listener and these eight have the numbers below 12; eight, the listener and the log are polled
    first = held_at(g, 12, "accept: Too many open files")
    login(g).bye()
    second = held_at(g, 8, "ppoll: Invalid argument")
    login(g).bye()
    resource.prlimit(g.process.pid, resource.RLIMIT_NOFILE, (4, 4))
    begun = time.monotonic()
    g.stop()
    assert time.monotonic() - begun < SOON
    for s in (first, second, *(c.socket for c in there)):
        s.close()


# ---- a new table

@case("a new table: a gate that it retires, or gives another key, loses its connections with a line; others keep theirs")
def retired():
    with tempfile.TemporaryDirectory() as folder:
        table = pathlib.Path(folder) / "gates.psk"
        table.write_text("".join(f"{name}:{key}\n" for name, key in KEYS.items()))
        table.chmod(0o600)
        with gateway("--table", table) as g:
            there = {name: [login(g, name), login(g, name)] for name in KEYS}
            amid, early = greeted(g), greeted(g, "barn-office")
            amid.send(HANDSHAKE, amid.said(amid.key_exchange()))
            until(lambda: g.text.count(": complete\n") == 6, "six logins")
            time.sleep(0.2)
            rest(g)
            table.write_text(f"gate8:{KEYS['gate8'][:-2]}00\nbarn-office:{KEYS['barn-office'].lower()}\n")
            g.process.send_signal(signal.SIGHUP)
            until(lambda: "read again" in g.text, "the new table")
            lines = rest(g)
            for name in ("gate7", "gate8"):
                assert sum(line.endswith(f'gate "{name}" suite {NULL}: after completion retired by the new table') for line in lines) == 2, lines
                for c in there[name]:
                    assert c.alert() == (1, 0)
                    c.socket.close()
            assert lines[-1] == f"{table} read again, gates: 2" and len(lines) == 6, lines
            assert sum(line.endswith(f'gate "gate7" suite {NULL}: ended by the new table') for line in lines) == 1, lines
            assert amid.alert() == (1, 0)
            amid.socket.close()
            go_on(early)
            g.line("complete", "barn-office", NULL)
            for c in (*there["barn-office"], early):
                c.enrol([b"cow 1"])
                c.bye()


# ---- the log

def free_port():
    with socket.create_server(("127.0.0.1", 0)) as found:
        return found.getsockname()[1]


def answers(port):
    with contextlib.suppress(ConnectionError), socket.create_connection(("127.0.0.1", port), LIMIT):
        return True


def unread(output):
    """A gateway whose standard output is this."""
    port = free_port()
    words = [GATEWAY, "--port", str(port), "--table", TABLE, "--failed-lines", "1000000"]
    g = types.SimpleNamespace(process=subprocess.Popen(words, stdout=output, stderr=subprocess.PIPE), port=port)
    until(lambda: answers(port), "the gateway")
    return g


def fill(g, lines):
    """So many connections that end with a line each."""
    for _ in range(lines):
        socket.create_connection(("127.0.0.1", g.port), LIMIT).close()


def ends_by_sigterm(g):
    begun = time.monotonic()
    g.process.send_signal(signal.SIGTERM)
    _, errors = g.process.communicate(timeout=LIMIT)
    assert g.process.returncode == 0 and not errors and time.monotonic() - begun < SOON, (g.process.returncode, errors)


@case("nobody reads the log, a pipe: logins go on, SIGTERM ends it, and the pipe itself is left as it was")
def unread_pipe():
    reading, writing = os.pipe()
    g = unread(writing)
    fill(g, 2500)
    login(g).bye()
    assert not fcntl.fcntl(writing, fcntl.F_GETFL) & os.O_NONBLOCK
    ends_by_sigterm(g)
    os.close(reading)
    os.close(writing)


@case("a log that is read late: every line is there, or counted")
def late_reader():
    reading, writing = os.pipe()
    fcntl.fcntl(writing, fcntl.F_SETPIPE_SZ, 4096)
    g = unread(writing)
    fill(g, 2000)
    login(g).bye()
    os.close(writing)
    text = []
    reader = threading.Thread(target=lambda: text.extend(iter(lambda: os.read(reading, 65536), b"")), daemon=True)
    reader.start()
    until(lambda: b"dropped" in b"".join(text), "the count")
    login(g, "gate8").bye()
    ends_by_sigterm(g)
    reader.join(LIMIT)
    os.close(reading)
    lines = b"".join(text).decode().splitlines()
    assert all(re.match(STAMP, line) for line in lines), lines
    dropped = sum(int(n) for n in re.findall(r"Z (\d+) lines of this log were dropped, since nobody read them in time", "\n".join(lines)))
    notices = sum("dropped" in line for line in lines)
    # the warning where others can read the sample table, listening, the first connection, then those of this case
    wanted = bool(TABLE.stat().st_mode & 0o044) + 2 + 2000 + 2
    assert dropped > 500 and len(lines) - notices + dropped == wanted, (len(lines), dropped, notices)
    assert lines[-1].endswith(f'gate "gate8" suite {NULL}: complete'), lines[-1]


@case("a log whose reader is gone, one that is closed, and a terminal that nobody reads: logins go on, and SIGTERM ends it")
def other_outputs():
    reading, writing = os.pipe()
    g = unread(writing)
    os.close(reading)
    os.close(writing)
    fill(g, 50)
    login(g).bye()
    ends_by_sigterm(g)
    outside, inside = pty.openpty()
    g = unread(inside)
    fill(g, 1500)
    login(g).bye()
    ends_by_sigterm(g)
    os.close(outside)
    os.close(inside)
    near, far = socket.socketpair()
    g = unread(near)
    fill(g, 2500)
    login(g).bye()
    ends_by_sigterm(g)
    near.close()
    far.close()
    port = free_port()
    closed_output = Program(["sh", "-c", 'exec "$@" >&- <&-', "sh", GATEWAY, "--port", port, "--table", TABLE, "--once", 1])
    until(lambda: answers(port), "the gateway")
    assert closed_output.end() == 0


@case("of logins that fail twenty lines a second are logged, and the others counted")
def failed_lines():
    with gateway() as g:
        begun = time.monotonic()
        fill(g, 300)
        seconds = time.monotonic() - begun
        login(g).bye()
        until(lambda: g.text.count(": closed\n") + counted(g.text) == 300, "lines and counts that make 300")
        logged = g.text.count(": closed\n")
        assert 20 <= logged <= 20 * (seconds + 2), (logged, seconds)
        assert g.text.count(": complete\n") == 1
        g.seen = len(g.text)


@case("each line has the time, in UTC")
def times():
    with gateway() as g:
        login(g).bye()
        g.line("complete", "gate7", NULL)
        stamps = [datetime.datetime.strptime(line.split()[0], "%Y-%m-%dT%H:%M:%S.%fZ") for line in g.text.splitlines()]
        now = datetime.datetime.now(datetime.timezone.utc).replace(tzinfo=None)
        assert all(abs((now - s).total_seconds()) < LIMIT for s in stamps) and stamps == sorted(stamps), g.text


@case("an alert of the client is named")
def names():
    with gateway() as g:
        for number, name in ((0x2a, "42 bad_certificate"), (0x56, "86 inappropriate_fallback"), (0x71, "113 bad_certificate_status_response"), (0xc8, "200")):
            c = client(g)
            c.send(ALERT, bytes([2, number]))
            g.line(f"client sent alert {name}")
            c.socket.close()
