"""Cases of the gate as it is used: at our own gateway, at OpenSSL's, GnuTLS's and mbed TLS's servers, and where the command line, the key or the network is
wrong. Each asserts both ends: the gate's exit status, answers and line, and what the server says."""
import contextlib
import os
import pathlib
import random
import re
import shlex
import socket
import tempfile
import time

from gate_harness import (BAD_KEYS, FAILED, LOST, MBEDTLS_SERVER, MISUSED, NAMES, NO_ANSWER, NOT_FOUND, RAW, TIME_OUT, UNLISTED, WAS_TOLD, Gate, Run, answer,
                          at, enrolled, gate, keys, login, said)
from harness import KEY, KEYS, LIMIT, TABLE, Program, case, gateway, until
from newcomer_cases import ROOT, VERSION, made
from plain_client import ALERT, message
from plain_server import Server, listening

WRONG = "00112233445566778899aabbccddeefe"


# ---- our gateway

def gateway_cases(hint, rule, proved):
    """Good identity, unknown identity and wrong key at one gateway."""
    suite = "PSK-NULL-SHA256" if proved else "PSK-AES128-CBC-SHA256"
    options = [*(["--hint", hint] if hint else []), *(["--rule", rule] if rule else []), *(["--records", "proved"] if proved else [])]
    title = f"gate: our gateway, {suite} {'hint' if hint else 'no hint'} {rule or 'no rule named'}"

    @case(f"{title}: good identity")
    def good():
        with gateway(*options) as g:
            assert login(g.port, "gate7", KEY, "cow 212", "x" * 256, "cow 213") == Run(0, enrolled("cow 212", "x" * 256, "cow 213"), "")
            g.line("complete", "gate7", suite)

    @case(f"{title}: unknown identity")
    def unknown():
        with gateway(*options) as g:
            alert = 115 if rule == "tell" else 51
            said(login(g.port, "gate9", KEY, "cow 212"), WAS_TOLD, g.port, f"login: the gateway sent alert {alert} {NAMES[alert]}")
            g.line("alert 115 unknown gate" if rule == "tell" else "alert 51 decrypt_error, unknown gate", "gate9", suite)

    @case(f"{title}: wrong key")
    def wrong():
        with gateway(*options) as g:
            said(login(g.port, "gate7", WRONG, "cow 212"), WAS_TOLD, g.port, "login: the gateway sent alert 51 decrypt_error")
            g.line("alert 51 decrypt_error", "gate7", suite)


for h in ("", "barn", "h" * 128):
    for r in ("tell", "hide"):
        for p in (False, True):
            gateway_cases(h, r, p)
gateway_cases("", None, False)


@case("gate: README's line and make enrol")
def readme():
    line = re.search(r"^    build/gate (--keys .*)$", (ROOT / "README.md").read_text(), re.M)[1]
    warning = "gate: warning: gateway/gates.psk has keys and can be read by others than its owner: chmod 600\n" if TABLE.stat().st_mode & 0o44 else ""
    with gateway() as g:
        run = gate(*shlex.split(line.replace("4433", str(g.port))), cwd=ROOT)
        assert run == Run(0, enrolled("cow 212"), warning), run
        text, _ = made(ROOT, "enrol", f"SERVER={at(g.port)}", path=os.environ["PATH"]).communicate(timeout=LIMIT)
        assert text == warning + enrolled("cow 212"), text
        for _ in range(2):
            g.line("complete", "gate7", "PSK-AES128-CBC-SHA256")


@case("gate: the sample table's gates, keys of 1 and of 64 bytes, and an identity of 128 bytes that is not ASCII")
def odd_keys():
    long = "kälte " + "é" * 60 + "x"
    table = {**KEYS, "one": "5C", long: "a7" * 64}
    with keys("".join(f"{name}:{key}\n" for name, key in table.items())) as file, gateway("--table", file) as g:
        for name in table:
            assert gate("--keys", file, "--identity", name, at(g.port), f"cow of {name}") == Run(0, enrolled(f"cow of {name}"), "")
            g.line("complete", name, "PSK-AES128-CBC-SHA256")


@case("gate: IPv6 and a name")
def addresses():
    with keys() as file:
        with gateway() as g:
            assert gate("--keys", file, f"localhost:{g.port}", "cow 1") == Run(0, enrolled("cow 1"), "")
            g.line("complete", "gate7", "PSK-AES128-CBC-SHA256")
        here = pathlib.Path("/proc/net/if_inet6")
        if not here.exists() or "00000000000000000000000000000001" not in here.read_text():
            return
        with listening(LIMIT, "::1", socket.AF_INET6) as listener:
            g = Gate("--keys", file, f"[::1]:{listener.getsockname()[1]}", "cow 1")
            s = Server(listener.accept()[0], RAW, LIMIT).login()
            answer(s, b"cow 1")
            assert s.receive() == (ALERT, b"\x01\0")
            s.socket.close()
            assert g.end() == Run(0, enrolled("cow 1"), "")


# ---- lines

@case("gate: lines of standard input: empty ones are passed over, CR is dropped, the last may lack its end; no line at all is a login")
def standard_input():
    long = "y" * 256
    with gateway() as g:
        for given, lines in [(f"cow 1\n\n\r\ncow 2\r\n{long}\r\n{long}\ncow 3".encode(), ["cow 1", "cow 2", long, long, "cow 3"]), (b"", []), (b"\n\n", []),
                             (b"\r", []), (b"a\n" * 400, ["a"] * 400)]:
            assert login(g.port, "gate7", KEY, given=given) == Run(0, enrolled(*lines), ""), given[:40]
            g.line("complete", "gate7", "PSK-AES128-CBC-SHA256")


@case("gate: a line of over 256 bytes is not sent, and those before it were")
def too_long():
    told = "has over 256 bytes, which no gateway takes; it and what follows was not sent\n"
    with gateway() as g:
        for rest in (b"x" * 257 + b"\n", b"x" * 257 + b"\r\nb\n", b"x" * 70000, b"x" * 256 + b"\rx\n", b"x" * 257):
            run = login(g.port, "gate7", KEY, given=b"cow 1\n\n" + rest)
            assert run == Run(MISUSED, enrolled("cow 1"), f"gate: line 3 {told}"), run
            g.line("complete", "gate7", "PSK-AES128-CBC-SHA256")


@case("gate: an answer is printed before the next line is read, and a gateway that goes away meanwhile is noticed")
def in_turn():
    with keys() as file, gateway("--idle-timeout", 1) as g:
        run = Gate("--keys", file, at(g.port))
        for i in range(3):
            run.process.stdin.write(b"cow %d\n" % i)
            run.process.stdin.flush()
            assert run.process.stdout.readline() == b"enrolled cow %d\n" % i
        run.process.wait(LIMIT)
        said(run.end(), LOST, g.port, "before line 4: the gateway closed the connection")
        g.line("complete", "gate7", "PSK-AES128-CBC-SHA256")
        g.line("after completion time-out", "gate7", "PSK-AES128-CBC-SHA256")


@case("gate: standard output that can't be written, standard input that can't be read")
def streams():
    with keys() as file, gateway() as g:
        with open("/dev/full", "wb") as full:
            run = gate("--keys", file, at(g.port), "cow 1", "cow 2", stdout=full)
        assert run == Run(FAILED, "", "gate: standard output can't be written: No space left on device; line 1 was answered\n"), run
        reading, writing = os.pipe()
        os.close(reading)
        run = gate("--keys", file, at(g.port), "cow 1", "cow 2", stdout=writing)
        os.close(writing)
        assert run == Run(FAILED, "", "gate: standard output can't be written: Broken pipe; line 1 was answered\n"), run
        folder = os.open("/", os.O_RDONLY)
        run = gate("--keys", file, at(g.port), stdin=folder)
        os.close(folder)
        assert run == Run(FAILED, "", "gate: standard input can't be read: Is a directory\n"), run
        run = gate("--keys", file, at(g.port), preexec_fn=lambda: os.close(0), stdin=None)  # nothing can take its place
        assert run == Run(0, "", ""), run
        for _ in range(4):
            g.line("complete", "gate7", "PSK-AES128-CBC-SHA256")


# ---- the command line and the key

@case("gate: -h, --help with every exit status, --version; what is wrong with a command line is said in one line")
def command_line():
    for word in ("-h", "--help"):
        run = gate(word)
        assert run.status == 0 and run.out.startswith("usage: gate --keys FILE") and run.err == "", run
        assert re.findall(r"^  (\d+)  ", run.out, re.M) == [str(n) for n in range(12)], run.out
    assert gate("--version") == Run(0, f"gate of turretnail {VERSION}\n", "")
    with keys() as file:
        good = ["--keys", file]
        for words, named in [([], "--keys FILE"), (["a:1"], "--keys FILE"), (good, "HOST:PORT"), ([*good, "--nonsense"], "--nonsense"), ([*good, "-x"], "-x"),
                             ([*good, "--keys"], "--keys"), ([*good, "barn"], "barn"), ([*good, "barn:"], "barn:"), ([*good, "barn:x"], "barn:x"),
                             ([*good, "barn:0"], "barn:0"), ([*good, "barn:65536"], "barn:65536"), ([*good, ":1"], ":1"), ([*good, "[]:1"], "[]:1"),
                             ([*good, "::1:4433"], "[HOST]:PORT"), ([*good, "b" * 256 + ":1"], "too long"), ([*good, "barn:1", ""], "LINE 1"),
                             ([*good, "barn:1", "a", "\r"], "LINE 2"), ([*good, "barn:1", "a\nb"], "LINE 1"), ([*good, "barn:1", "x" * 257], "LINE 1"),
                             ([*good, "--answer-timeout", "0", "barn:1"], "--answer-timeout"),
                             ([*good, "--connect-timeout", "x", "barn:1"], "--connect-timeout"),
                             ([*good, "--handshake-timeout", "86401", "barn:1"], "--handshake-timeout"), (["--keys", "-", "barn:1"], "--keys -")]:
            run = gate(*words)
            assert run.status == MISUSED and run.out == "", (words, run)
            assert re.fullmatch(rf"gate: [^\n]*{re.escape(named)}[^\n]*; --help lists the options\n", run.err), (words, run)


@case("gate: the file with the key: missing, not well formed, without the name, with several; readable by others; from standard input")
def key_files():
    with tempfile.TemporaryDirectory() as folder:
        absent = pathlib.Path(folder) / "absent"
        assert gate("--keys", absent, at(1), "cow 1") == Run(BAD_KEYS, "", f"gate: {absent}: No such file or directory\n")
    for text, told in [(b"gate7:0g\n", "line 1 of the key table has a character in its key that is no hex digit"),
                       (b"gate7:00\ngate8:00", "the last line of the key table has no line end"),
                       (b"g:" + b"0" * 70000, "the key table has more than 65536 bytes")]:
        with keys(text) as file:
            assert gate("--keys", file, at(1), "cow 1") == Run(BAD_KEYS, "", f"gate: {file}: {told}\n")
    with keys(TABLE.read_bytes()) as file:
        assert gate("--keys", file, at(1), "cow 1") == Run(UNLISTED, "", f"gate: {file} lists 3 gates: name one with --identity\n")
        for name in ("gate9", "gate", "gate71", "", "gate7:00", "gate7\n", "g" * 129):
            run = gate("--keys", file, "--identity", name, at(1), "cow 1")
            assert run == Run(UNLISTED, "", f'gate: {file} does not list "{name}"\n'), run
    with keys(b"") as file:
        assert gate("--keys", file, at(1), "cow 1") == Run(UNLISTED, "", f"gate: {file} lists no gate\n")
    with gateway() as g:
        with keys(mode=0o644) as file:
            run = gate("--keys", file, at(g.port), "cow 1")
            assert run == Run(0, enrolled("cow 1"), f"gate: warning: {file} has keys and can be read by others than its owner: chmod 600\n"), run
        assert gate("--keys", "-", "--identity", "gate7", at(g.port), "cow 1", given=TABLE.read_bytes()) == Run(0, enrolled("cow 1"), "")
        for _ in range(2):
            g.line("complete", "gate7", "PSK-AES128-CBC-SHA256")


@case("gate: a host that is not found, a port where nobody listens, one where nobody answers")
def no_connection():
    host = "a" * 64 + ":4433"  # no name may have so long a part: nobody is asked
    with keys() as file:
        run = gate("--keys", file, host, "cow 1")
        assert run.status == NOT_FOUND and re.fullmatch(rf"gate: {host}: not found: [^\n]+\n", run.err), run
        with socket.socket() as s:
            s.bind(("127.0.0.1", 0))  # taken, and nobody listens
            said(gate("--keys", file, at(s.getsockname()[1]), "cow 1"), NO_ANSWER, s.getsockname()[1], "no connection: Connection refused")
            s.listen(0)
            port = s.getsockname()[1]
            with contextlib.ExitStack() as full:
                for _ in range(4):  # more than wait to be accepted: the next gets no answer at all
                    c = full.enter_context(socket.socket())
                    c.setblocking(False)
                    c.connect_ex(("127.0.0.1", port))
                time.sleep(0.1)
                said(gate("--keys", file, "--connect-timeout", 1, at(port), "cow 1"), TIME_OUT, port, "no connection: time-out after 1 s")


# ---- stock servers

SUITES = {  # in GnuTLS's and mbed TLS's words
    "PSK-AES128-CBC-SHA256": ("+AES-128-CBC:+SHA256", "TLS-PSK-WITH-AES-128-CBC-SHA256"),
    "PSK-AES128-CBC-SHA": ("+AES-128-CBC:+SHA1", "TLS-PSK-WITH-AES-128-CBC-SHA"),
    "PSK-NULL-SHA256": ("+NULL:+SHA256", "TLS-PSK-WITH-NULL-SHA256"),  # which Debian's mbed TLS does not have
}


@contextlib.contextmanager
def running(words, ready):
    """A server; it is killed in the end, where it has not ended by itself."""
    server = Program(words)
    try:
        until(lambda: server.over() or re.search(ready, server.text, re.M), f"the server; it printed {server.text}")
        server.port = re.search(ready, server.text, re.M)[1]
        yield server
    finally:
        server.process.kill()
        server.end()


def openssl(suite, hint):
    """It takes one connection, answers each line with the line reversed, and whatever name comes it only warns."""
    words = ["openssl", "s_server", "-accept", "127.0.0.1:0", "-naccept", 1, "-nocert", "-psk", KEY, "-psk_identity", "gate7", "-tls1_2", "-cipher",
             f"{suite}:@SECLEVEL=0", "-rev", "-msg", *(["-psk_hint", hint] if hint else [])]
    return running(words, r"^ACCEPT .*:(\d+)$")


def openssl_hint(server):
    """The ServerKeyExchange that it says to have sent."""
    found = re.search(r"^>>> .*, ServerKeyExchange\n((?: +[0-9a-f ]+\n)+)", server.text, re.M)
    return found and bytes.fromhex("".join(found[1].split()))


def openssl_cases(suite, hint):
    title = f"gate: OpenSSL's server, {suite} {'hint' if hint else 'no hint'}"

    def run(identity, key, outcome, warned):
        with openssl(suite, hint) as server:
            run = login(server.port, identity, key, "cow 212", "cow 213")
            server.process.wait(LIMIT)
            server.reader.join(LIMIT)
        assert openssl_hint(server) == (hint and message(12, b"\0" + bytes([len(hint)]) + hint.encode()) or None), server.text
        assert ("PSK warning: client identity not what we expected (got 'gate9' expected 'gate7')" in server.text) == warned, server.text
        if outcome:
            said(run, WAS_TOLD, server.port, f"login: the gateway sent alert {outcome} {NAMES[outcome]}")
            assert "CONNECTION FAILURE" in server.text and "decryption failed or bad record mac" in server.text, server.text
        else:
            assert run == Run(0, "212 woc\n312 woc\n", ""), run
            assert f"Ciphersuite: {suite}\n" in server.text and "CONNECTION CLOSED" in server.text and "warning close_notify" in server.text, server.text

    case(f"{title}: good identity")(lambda: run("gate7", KEY, None, False))
    case(f"{title}: unknown identity, of which it only warns")(lambda: run("gate9", KEY, None, True))
    case(f"{title}: wrong key")(lambda: run("gate7", WRONG, 20, False))


def free_port():
    """A port that nobody has, and that the system gives to nobody who asks for any."""
    while True:
        port = random.randrange(20000, 32000)
        with socket.socket() as s, contextlib.suppress(OSError):
            s.bind(("127.0.0.1", port))
            return port


def gnutls(suite, hint):
    """It gives each line back."""
    port = free_port()
    words = ["gnutls-serv", "-d", 4, "--echo", "--pskpasswd", TABLE, "-p", port, *(["--pskhint", hint] if hint else []), "--priority",
             f"NORMAL:-VERS-ALL:+VERS-TLS1.2:-KX-ALL:+PSK:-CIPHER-ALL:-MAC-ALL:{SUITES[suite][0]}"]
    return running(words, rf"listening on IPv4 .* port ({port})\.\.\.done")


def gnutls_cases(suite, hint):
    title = f"gate: GnuTLS's server, {suite} {'hint' if hint else 'no hint'}"

    def run(identity, key, outcome):
        with gnutls(suite, hint) as server:
            run = login(server.port, identity, key, "cow 212", "cow 213")
            until(lambda: "Error in handshake" in server.text if outcome else server.text.count("Processing 8 bytes") == 2, "its lines")
        sent = f"SERVER KEY EXCHANGE was queued [{6 + len(hint)} bytes]" if hint else ""
        assert sent in server.text and ("SERVER KEY EXCHANGE was queued" in server.text) == bool(hint), server.text
        if outcome:
            said(run, WAS_TOLD, server.port, f"login: the gateway sent alert {outcome} {NAMES[outcome]}")
            assert "Error in handshake: Decryption has failed." in server.text and "PSK authentication" not in server.text, server.text
        else:
            assert run == Run(0, "cow 212\ncow 213\n", ""), run
            cipher, mac = SUITES[suite][0].replace("+", "").split(":")
            assert f"-(PSK)-({cipher})-({mac})\n" in server.text and f"PSK authentication. Connected as '{identity}'\n" in server.text, server.text

    case(f"{title}: good identity")(lambda: run("gate7", KEY, None))
    case(f"{title}: unknown identity, which it takes for a wrong key")(lambda: run("gate9", KEY, 20))
    case(f"{title}: wrong key")(lambda: run("gate7", WRONG, 20))


def mbedtls_case(suite, identity, key, outcome, end, name):
    @case(f"gate: mbed TLS's server, {suite}: {name}")
    def run():
        words = [MBEDTLS_SERVER, SUITES[suite][1], "gate7", KEY]
        with running(words, r"^port (\d+)$") as server:
            run = login(server.port, identity, key, "cow 212", "cow 213")
            status = server.process.wait(LIMIT)
            server.reader.join(LIMIT)
        assert status == (1 if outcome else 0) and re.fullmatch(rf"port {server.port}\n{end}", server.text), server.text
        if outcome:
            said(run, WAS_TOLD, server.port, f"login: the gateway sent alert {outcome} {NAMES[outcome]}")
        else:
            assert run == Run(0, enrolled("cow 212", "cow 213"), ""), run


for s in SUITES:
    for h in ("", "barn"):
        openssl_cases(s, h)
        gnutls_cases(s, h)
    if s != "PSK-NULL-SHA256":
        mbedtls_case(s, "gate7", KEY, None, f"suite {SUITES[s][1]}\ncow 212\ncow 213\nclosed\n", "good identity")
        mbedtls_case(s, "gate9", KEY, 115, "the handshake failed: -0x6c80\n", "unknown identity")
        mbedtls_case(s, "gate7", WRONG, 20, "the handshake failed: -0x7180\n", "wrong key")
mbedtls_case("PSK-NULL-SHA256", "gate7", KEY, 40, "the handshake failed: -0x(7380|6e00)\n", "a suite that it does not have")


@case("gate: a server without any of its suites, and one without TLS 1.2: the alert is told by its name")
def nothing_common():
    with openssl("PSK-AES256-CBC-SHA", "") as server:
        said(login(server.port, "gate7", KEY), WAS_TOLD, server.port, "login: the gateway sent alert 40 handshake_failure")
        server.process.wait(LIMIT)
        server.reader.join(LIMIT)
        assert "no shared cipher" in server.text, server.text
    words = ["openssl", "s_server", "-accept", "127.0.0.1:0", "-naccept", 1, "-nocert", "-psk", KEY, "-tls1_3", "-rev"]
    with running(words, r"^ACCEPT .*:(\d+)$") as server:
        said(login(server.port, "gate7", KEY), WAS_TOLD, server.port, "login: the gateway sent alert 70 protocol_version")
        server.process.wait(LIMIT)
        server.reader.join(LIMIT)
        assert "unsupported protocol" in server.text, server.text
