"""Cases of the gateway with a client of our own, which breaks rules: garbage, silence, wrong order, bad MACs, odd fragments, crowds. And of its start and its
end."""
import contextlib
import os
import pathlib
import signal
import socket
import struct
import tempfile
import threading
import time

from harness import GATEWAY, KEY, LIMIT, NAMES, TABLE, Gateway, Program, case, gateway
from plain_client import ALERT, CHANGE, DATA, HANDSHAKE, Client, message, record

NULL = "PSK-NULL-SHA256"


def plain(g, **more):
    return Client(g.port, key=bytes.fromhex(KEY), timeout=LIMIT, **more)


def fatal(g, client, alert, gate=None, suite=None, front=""):
    """The client gets a fatal alert, and the gateway says so."""
    assert client.alert() == (2, alert)
    client.socket.close()
    g.line(f"{front}alert {alert} {NAMES[alert]}", gate, suite)


@case("garbage")
def garbage():
    with gateway() as g:
        for data, alert in [(b"GET / HTTP/1.1\r\n\r\n", 10), (bytes(100), 10), (b"\xff" * 50000, 10), (b"\x16\x03\x01\xff\xff" + bytes(70000), 22),
                            (record(HANDSHAKE, b"\xff" * 300), 10), (record(HANDSHAKE, b"\x01\0\0\x29" + bytes(41)), 50)]:
            c = plain(g)
            with contextlib.suppress(ConnectionError):
                c.socket.sendall(data)
            fatal(g, c, alert)


@case("random bytes")
def noise():
    with gateway("--failed-lines", 40) as g:
        for i in range(40):
            c = plain(g)
            with contextlib.suppress(ConnectionError):
                c.socket.sendall(bytes([20 + i % 4]) + os.urandom(2) + b"\x00\x40" + os.urandom(600))
                c.socket.shutdown(socket.SHUT_WR)
                while c.socket.recv(4096):
                    pass
            c.socket.close()
            g.next_line()


@case("a client that says nothing, and one that stops amid a record: time-out")
def silence():
    with gateway("--handshake-timeout", 1) as g:
        for data in (b"", b"\x16\x03", b"\x16\x03\x01\x00\x40\x01\x02"):
            c, begun = plain(g), time.monotonic()
            c.socket.sendall(data)
            assert c.alert() == (1, 0) and 0.9 < time.monotonic() - begun < LIMIT
            c.socket.close()
            g.line("time-out")


@case("a handshake that goes on by one byte at a time does not last longer for it")
def trickle():
    with gateway("--handshake-timeout", 1) as g:
        c, begun = plain(g), time.monotonic()
        hello = record(HANDSHAKE, c.hello())
        c.socket.settimeout(0.1)
        got = b""
        for byte in hello * 3:
            with contextlib.suppress(ConnectionError):
                c.socket.sendall(bytes([byte]))
            with contextlib.suppress(TimeoutError):
                got = c.socket.recv(100)
                break
        assert got == record(ALERT, b"\x01\0") and time.monotonic() - begun < len(hello) / 10
        c.socket.close()
        g.line("time-out")


@case("no record after the handshake: time-out with close_notify")
def idle():
    with gateway("--idle-timeout", 1, "--handshake-timeout", 30) as g:
        c = plain(g).handshake()
        g.line("complete", "gate7", NULL)
        assert c.alert() == (1, 0)
        c.socket.close()
        g.line("after completion time-out", "gate7", NULL)


@case("a client that goes away before and after its hello: closed")
def gone():
    with gateway() as g:
        plain(g).socket.close()
        g.line("closed")
        c = plain(g)
        c.send(HANDSHAKE, c.said(c.hello()))
        c.flight()
        c.socket.close()
        g.line("closed", None, NULL)
        c = plain(g)
        c.send(ALERT, b"\x01\x00")
        g.line("closed")


def reset(client):
    """Breaks the connection off, with a RST."""
    client.socket.setsockopt(socket.SOL_SOCKET, socket.SO_LINGER, struct.pack("ii", 1, 0))
    client.socket.close()


@case("a client that resets or closes its connection after completion without close_notify, answers unread: a line, and others are served")
def broken_off():
    with gateway() as g:
        for leave in (reset, lambda client: client.socket.close()):
            for sent in (b"", b"cow 1\n", b"c\n" * 30000):
                c = plain(g).handshake()
                g.line("complete", "gate7", NULL)
                c.send(DATA, sent)
                leave(c)
                g.line("after completion closed without close_notify", "gate7", NULL)
        plain(g).handshake().bye()
        g.line("complete", "gate7", NULL)


def send_on(client):
    """Sends lines until the other side closes."""
    with contextlib.suppress(OSError):
        while True:
            client.send(DATA, b"c\n" * 8192)


@case("a client that never reads its answers: time-out")
def never_reads():
    with gateway("--idle-timeout", 1) as g:
        c = plain(g).handshake()
        g.line("complete", "gate7", NULL)
        threading.Thread(target=send_on, args=(c,), daemon=True).start()
        g.line("after completion time-out", "gate7", NULL)
        plain(g).handshake().bye()
        g.line("complete", "gate7", NULL)
        c.socket.close()


@case("alerts of the client")
def alerts():
    with gateway() as g:
        c = plain(g)
        c.send(ALERT, b"\x01\x5a")  # a warning changes nothing
        c.handshake()
        c.send(ALERT, b"\x01\x64")
        c.enrol([b"cow 1"])
        c.bye()
        g.line("complete", "gate7", NULL)
        c = plain(g)
        c.send(ALERT, b"\x02\x5a")
        g.line("client sent alert 90 user_canceled")
        c = plain(g)
        c.send(ALERT, b"\x03\x00")
        fatal(g, c, 47)
        c = plain(g)
        c.send(ALERT, b"\x01")
        fatal(g, c, 50)
        c = plain(g).handshake()
        g.line("complete", "gate7", NULL)
        c.send(ALERT, b"\x02\x14")
        g.line("after completion client sent alert 20 bad_record_mac", "gate7", NULL)
        c = plain(g).handshake()
        g.line("complete", "gate7", NULL)
        c.send(ALERT, b"\x00\x00")
        fatal(g, c, 47, "gate7", NULL, "after completion ")


@case("a record over the limit, in the clear and protected")
def too_long():
    with gateway() as g:
        c = plain(g)
        c.socket.sendall(b"\x16\x03\x01\x40\x01")
        fatal(g, c, 22)
        c = plain(g).handshake()
        g.line("complete", "gate7", NULL)
        c.socket.sendall(b"\x17\x03\x03\x40\x21")
        fatal(g, c, 22, "gate7", NULL, "after completion ")
        c = plain(g).handshake()
        g.line("complete", "gate7", NULL)
        c.enrol([b"x" * 255] * 64)  # 16,384 bytes, the longest record
        c.bye()


@case("a message over 16,384 bytes is refused at its header, of another type with 10")
def long_message():
    with gateway() as g:
        c = plain(g)
        c.send(HANDSHAKE, b"\x01\0\x3f\xfd")
        fatal(g, c, 50)
        c = plain(g)
        c.send(HANDSHAKE, b"\x10\xff\xff\xff")
        fatal(g, c, 10)


@case("a hello of 16,384 bytes over several records")
def longest_message():
    with gateway() as g:
        c = plain(g)
        short = len(c.hello(block=b""))
        c.send(HANDSHAKE, c.said(c.hello(block=b"\xfa\xfa" + (16384 - short - 4).to_bytes(2, "big") + bytes(16384 - short - 4))), 4000)
        c.flight()
        c.send(HANDSHAKE, c.said(c.key_exchange()))
        c.change()
        c.send(HANDSHAKE, c.said(c.finished()))
        c.finish()
        c.bye()
        g.line("complete", "gate7", NULL)


def ticket(data):
    """A SessionTicket extension."""
    return b"\0\x23" + len(data).to_bytes(2, "big") + data


@case("a ticket of any bytes is passed over, with a length of its own in front of it or not; two are alert 50")
def any_ticket():
    with gateway() as g:
        for data in (b"", b"\0", b"\0\0", b"\0\x06ticket", b"ticket", b"\xff" * 16000):
            plain(g).handshake(block=ticket(data)).bye()
            g.line("complete", "gate7", NULL)
        for data in (b"", b"ticket"):
            c = plain(g)
            c.send(HANDSHAKE, c.hello(block=ticket(data) + ticket(b"")))
            fatal(g, c, 50)


@case("messages in records of one byte each")
def one_byte_records():
    with gateway("--hint", "barn") as g:
        c = plain(g).handshake(piece=1)
        c.enrol([b"cow 1", b"cow 2"], piece=1)
        c.bye()
        g.line("complete", "gate7", NULL)


@case("bytes that come one at a time")
def one_byte_segments():
    with gateway() as g:
        c = plain(g)
        c.socket.setsockopt(socket.IPPROTO_TCP, socket.TCP_NODELAY, 1)
        for byte in record(HANDSHAKE, c.said(c.hello())):
            c.socket.sendall(bytes([byte]))
            time.sleep(0.001)
        c.flight()
        c.send(HANDSHAKE, c.said(c.key_exchange()))
        c.change()
        for byte in c.sealed(HANDSHAKE, c.said(c.finished())):
            c.socket.sendall(bytes([byte]))
            time.sleep(0.001)
        c.finish()
        c.bye()
        g.line("complete", "gate7", NULL)


@case("several messages in one record are taken in turn")
def several():
    with gateway() as g:
        c = plain(g)
        c.send(HANDSHAKE, c.hello() + c.key_exchange() + message(20, bytes(12)))
        kind, _ = c.receive()
        assert kind == HANDSHAKE
        fatal(g, c, 10, "gate7", NULL)  # a Finished before the change of cipher


@case("handshake bytes behind the Finished: alert 10 after completion")
def behind_finished():
    with gateway() as g:
        c = plain(g)
        c.send(HANDSHAKE, c.said(c.hello()))
        c.flight()
        c.send(HANDSHAKE, c.said(c.key_exchange()))
        c.change()
        finished = c.finished()
        c.said(finished)
        c.send(HANDSHAKE, finished + b"\x01")
        c.finish()
        g.line("complete", "gate7", NULL)
        fatal(g, c, 10, "gate7", NULL, "after completion ")


@case("changes of cipher out of place, data before completion, empty fragments")
def out_of_place():
    with gateway() as g:
        for kind, content, alert in [(CHANGE, b"\x01", 10), (CHANGE, b"\x02", 50), (CHANGE, b"\x01\x01", 50), (DATA, b"x\n", 10), (HANDSHAKE, b"", 50),
                                     (ALERT, b"", 50)]:
            c = plain(g)
            c.send(kind, content)
            fatal(g, c, alert)
        c = plain(g)
        c.send(HANDSHAKE, c.hello()[:10])
        c.send(CHANGE, b"\x01")  # amid a message
        fatal(g, c, 10)
        c = plain(g)
        c.send(HANDSHAKE, c.said(c.hello()))
        c.flight()
        c.send(HANDSHAKE, c.said(c.key_exchange()) + b"\x14")
        c.send(CHANGE, b"\x01")  # awaited, but amid a message
        fatal(g, c, 10, "gate7", NULL)
        c = plain(g).handshake()
        g.line("complete", "gate7", NULL)
        c.send(CHANGE, b"\x01")
        fatal(g, c, 10, "gate7", NULL, "after completion ")


@case("a Finished in the clear, a wrong one, one under another's key")
def finishes():
    with gateway() as g:
        for spoil in ("clear", "value", "mac", "short"):
            c = plain(g)
            c.send(HANDSHAKE, c.said(c.hello()))
            c.flight()
            c.send(HANDSHAKE, c.said(c.key_exchange()))
            c.change()
            text = c.finished()
            if spoil == "clear":
                c.writing = None
            elif spoil == "value":
                text = text[:-1] + bytes([text[-1] ^ 1])
            elif spoil == "mac":
                c.writing = (bytes(32), 0)
            else:
                text = message(20, text[4:15])
            c.send(HANDSHAKE, text)
            fatal(g, c, 50 if spoil == "short" else 51, "gate7", NULL)


@case("where no rule is named, an unlisted identity is refused as a wrong key is")
def hidden():
    with gateway() as g:
        for identity, shown in [(b"gate9", '"gate9"'), (b"", "of 0 bytes 0x"), (b"\xff\x1b[2J\n", "of 6 bytes 0xff1b5b324a0a"),
                                ("\u202egate7".encode(), "of 8 bytes 0xe280ae6761746537"), (b'g" suite x', "of 10 bytes 0x67222073756974652078"),
                                (b"y" * 16378, "of 16378 bytes 0x" + "79" * 16 + "..")]:
            c = plain(g, identity=identity)
            c.send(HANDSHAKE, c.said(c.hello()))
            c.flight()
            c.send(HANDSHAKE, c.said(c.key_exchange()), 9000)
            c.change()
            c.send(HANDSHAKE, c.said(c.finished()))
            assert c.alert() == (2, 51)
            assert g.next_line().endswith(f" gate {shown} suite {NULL}: alert 51 decrypt_error, unknown gate"), g.text


def silent(client):
    """Nothing comes for a while, and the connection stays."""
    client.socket.settimeout(0.2)
    with contextlib.suppress(TimeoutError):
        raise AssertionError(client.socket.recv(1))
    client.socket.settimeout(LIMIT)


def refused_at_the_end(g, identity, key):
    """All that a client gets, its hello's answer without the random, and the alert at its Finished; after the messages between nothing comes."""
    c = Client(g.port, identity=identity, key=key, timeout=LIMIT)
    c.send(HANDSHAKE, c.said(c.hello()))
    c.flight()
    answer = c.transcript[len(c.hello()):]
    c.send(HANDSHAKE, c.said(c.key_exchange()))
    silent(c)
    c.change()
    silent(c)
    c.send(HANDSHAKE, c.said(c.finished()))
    return answer[:6] + answer[38:], c.alert()


@case("where no rule is named, an unknown name and a wrong key get the same bytes and the same alert, each at the same step")
def told_alike():
    with gateway() as g:
        unknown = refused_at_the_end(g, b"gate9", bytes.fromhex(KEY))
        g.line("alert 51 decrypt_error, unknown gate", "gate9", NULL)
        wrong = refused_at_the_end(g, b"gate7", bytes(16))
        g.line("alert 51 decrypt_error", "gate7", NULL)
        assert unknown == wrong and wrong[1] == (2, 51), (unknown, wrong)


@case("under hide the line of a login that named an unknown gate says so, however the login ended")
def unknown_in_the_log():
    with gateway("--handshake-timeout", 1) as g:
        for end, outcome in [(lambda c: c.send(HANDSHAKE, b"\x14\0\0\x0c" + bytes(12)), "alert 10 unexpected_message"),
                             (lambda c: c.send(ALERT, b"\x02\x28"), "client sent alert 40 handshake_failure"),
                             (lambda c: c.socket.shutdown(socket.SHUT_WR), "closed"), (lambda c: None, "time-out")]:
            for identity, more in [(b"gate9", ", unknown gate"), (b"gate7", "")]:
                c = plain(g, identity=identity)
                c.send(HANDSHAKE, c.said(c.hello()))
                c.flight()
                c.send(HANDSHAKE, c.said(c.key_exchange()))
                end(c)
                g.line(outcome + more, identity.decode(), NULL)
                c.socket.close()


@case("a bad MAC after completion is alert 20")
def bad_mac():
    with gateway() as g:
        c = plain(g).handshake()
        g.line("complete", "gate7", NULL)
        c.enrol([b"cow 1"])
        c.socket.sendall(record(DATA, b"cow 2\n" + bytes(32)))
        fatal(g, c, 20, "gate7", NULL, "after completion ")


@case("a line over 256 bytes: the lines before it are answered, then alert 50")
def long_line():
    with gateway() as g:
        c = plain(g).handshake()
        g.line("complete", "gate7", NULL)
        c.enrol([b"x" * 256])
        c.send(DATA, b"cow 1\n" + b"x" * 257)
        assert c.receive() == (DATA, b"enrolled cow 1\n")
        fatal(g, c, 50, "gate7", NULL, "after completion ")


@case("a client that sends half a million lines and reads later")
def slow_reader():
    with gateway() as g:
        c = plain(g).handshake()
        g.line("complete", "gate7", NULL)
        sender = threading.Thread(target=c.send, args=(DATA, b"c\n" * 500000), daemon=True)
        sender.start()
        time.sleep(0.5)
        got = bytearray()
        while len(got) < 11 * 500000:
            kind, content = c.receive()
            assert kind == DATA
            got += content
        sender.join(LIMIT)
        assert got == b"enrolled c\n" * 500000
        c.bye()


@case("twenty clients at once, step by step")
def twenty():
    with gateway("--per-gate", 20) as g:
        clients = [plain(g) for _ in range(20)]
        for c in clients:
            c.send(HANDSHAKE, c.said(c.hello()))
        for c in reversed(clients):
            c.flight()
        for c in clients:
            c.send(HANDSHAKE, c.said(c.key_exchange()))
            c.change()
        for c in reversed(clients):
            c.send(HANDSHAKE, c.said(c.finished()))
        for c in clients:
            c.finish()
            g.line("complete", "gate7", NULL)
        for turn in range(5):
            for i, c in enumerate(clients):
                c.enrol([b"cow %d" % (100 * turn + i)])
        assert len({c.master for c in clients}) == 20
        for c in clients:
            c.bye()


@case("a stop by SIGTERM and by SIGINT with clients connected: close_notify, status 0")
def stopped():
    for number in (signal.SIGTERM, signal.SIGINT):
        g = Gateway()
        silent, amid, done = plain(g), plain(g), plain(g).handshake()
        g.line("complete", "gate7", NULL)
        amid.send(HANDSHAKE, amid.said(amid.hello()))
        amid.flight()
        rest = g.stop(number)
        assert rest.count(": stopped\n") == 2 and rest.count("\n") == 2, rest
        for c in (silent, amid, done):
            assert c.alert() == (1, 0)
            c.socket.close()


@case("--once N ends by itself")
def once():
    with gateway("--once", 2) as g:
        plain(g).handshake().bye()
        g.line("complete", "gate7", NULL)
        assert not g.over()
        plain(g).handshake().bye()
        g.line("complete", "gate7", NULL)
        assert g.end() == 0


@case("the table is read again on SIGHUP, and a bad one is not taken")
def reload():
    with tempfile.TemporaryDirectory() as folder:
        table = pathlib.Path(folder) / "gates.psk"
        table.write_text(f"gate7:{KEY}\n")
        table.chmod(0o600)
        with gateway("--table", table) as g:
            plain(g).handshake().bye()
            g.line("complete", "gate7", NULL)
            for text, said in [(f"gate8:{KEY}\n", f"{table} read again, gates: 1"),
                               (f"gate7:{KEY}", f"{table}: the last line of the key table has no line end; the old table stays")]:
                table.write_text(text)
                g.process.send_signal(signal.SIGHUP)
                assert g.next_line() == said, g.text
                c = plain(g, identity=b"gate8").handshake()
                c.bye()
                g.line("complete", "gate8", NULL)


@case("no table, a bad hint, a bad address or a bad option is said by name, with status 1 or 2")
def bad_start():
    for words, status, said in [(["--table", "/nowhere.psk"], 1, "/nowhere.psk: No such file"), (["--table", TABLE, "--hint", "h" * 129], 1, "--hint"),
                                (["--table", TABLE, "--hint", b"\xff".decode(errors="surrogateescape")], 1, "--hint"), ([], 2, "--table"),
                                (["--table", TABLE, "--rule", "loud"], 2, "loud"), (["--table", TABLE, "--port", "65536"], 2, "65536"),
                                (["--table", TABLE, "--port", "-1"], 2, "-1"), (["--table", TABLE, "--once", "x"], 2, "'x'"), (["--nonsense"], 2, "nonsense"),
                                (["--table", TABLE, "more"], 2, "more"), (["--table", TABLE, "--address", "barn"], 1, "barn"), (["--help"], 0, "usage")]:
        bad = Program([GATEWAY, *words])
        assert bad.end() == status and said in bad.text and "Sanitizer" not in bad.text, (words, bad.text)
