"""Cases of `--records proved`, where the library makes the records too: each case of the other way in which nothing differs, once more, and what differs."""
import contextlib
import threading

import rough_cases
import siege_cases
from harness import CASES, GATEWAY, LIMIT, NAMES, Program, case, gateway, proved_records
from plain_client import ALERT, CHANGE, DATA, HANDSHAKE, message, record
from rough_cases import NULL, fatal, plain

ALIKE = [
    rough_cases.noise, rough_cases.silence, rough_cases.trickle, rough_cases.idle, rough_cases.gone, rough_cases.broken_off, rough_cases.never_reads,
    rough_cases.alerts, rough_cases.long_message, rough_cases.longest_message, rough_cases.any_ticket, rough_cases.one_byte_records,
    rough_cases.one_byte_segments, rough_cases.out_of_place, rough_cases.finishes, rough_cases.hidden, rough_cases.told_alike,
    rough_cases.unknown_in_the_log, rough_cases.bad_mac, rough_cases.slow_reader, rough_cases.twenty, rough_cases.stopped, rough_cases.once,
    rough_cases.reload, siege_cases.crowd, siege_cases.who_goes, siege_cases.one_address, siege_cases.one_gate, siege_cases.all_logged_in,
    siege_cases.signs_of_life, siege_cases.retired,
]


def proved_case(name):
    def keep(function):
        case(f"proved records: {name}")(proved_records()(function))
        return function
    return keep


for title, run in [*CASES]:
    if run in ALIKE:
        proved_case(title)(run)


# ---- the command line

@proved_case("the first line says that there is integrity without secrecy; the other way's has no such words")
def first_line():
    said = ", records: proved, PSK-NULL-SHA256 alone (INTEGRITY WITHOUT SECRECY: everybody on the way can read what passes), rule: "
    with gateway() as g:
        assert said in g.text.splitlines()[-1], g.text
    with gateway("--records", "libcrypto") as g:  # the later option counts
        assert "records" not in g.text.splitlines()[-1], g.text
    shown = Program([GATEWAY, "--help"])
    assert shown.end() == 0 and "  --records libcrypto|proved\n" in shown.text and "INTEGRITY WITHOUT" in shown.text, shown.text


# ---- messages in records

def up_to_change(c, **more):
    """All that comes before the Finished."""
    c.send(HANDSHAKE, c.said(c.hello(**more)))
    c.flight()
    c.send(HANDSHAKE, c.said(c.key_exchange()))
    c.change()


def finish(c):
    c.send(HANDSHAKE, c.said(c.finished()))
    c.finish()


@proved_case("the two other suites are not offered: alone they are alert 40, before PSK-NULL-SHA256 they are passed over")
def one_suite():
    with gateway() as g:
        c = plain(g)
        c.send(HANDSHAKE, c.hello(suites=(0x00AE, 0x008C)))
        fatal(g, c, 40)
        c = plain(g)
        up_to_change(c, suites=(0x00AE, 0x008C, 0x00B0))
        finish(c)
        c.bye()
        g.line("complete", "gate7", NULL)


@proved_case("each message of the server comes in a record of its own")
def own_records():
    with gateway("--hint", "barn") as g:
        c = plain(g)
        c.send(HANDSHAKE, c.hello())
        got = [c.receive() for _ in range(3)]
        assert [(kind, content[0]) for kind, content in got] == [(HANDSHAKE, 2), (HANDSHAKE, 12), (HANDSHAKE, 14)], got
        assert got[1][1] == message(12, b"\0\x04barn") and got[2][1] == message(14, b""), got
        c.socket.close()
        g.line("closed", None, NULL)


@proved_case("hello and key exchange in one record, and cut at every place between two")
def hello_and_exchange():
    with gateway() as g:
        size = len(plain(g).hello() + plain(g).key_exchange())
        for _ in range(2):
            g.line("closed")
        for cut in (size, *range(1, size)):
            c = plain(g)
            c.send(HANDSHAKE, c.hello() + c.key_exchange(), cut)
            c.said(c.hello())
            c.flight()
            c.said(c.key_exchange())
            c.change()
            finish(c)
            c.enrol([b"cow 212"])
            c.bye()
            g.line("complete", "gate7", NULL)


@proved_case("hello and an unknown gate's key exchange in one record: the name is in the line; tell's alert comes without a hello before it")
def unknown_in_one_record():
    for rule in ("tell", "hide"):
        with gateway("--rule", rule) as g:
            c = plain(g, identity=b"gate9")
            c.send(HANDSHAKE, c.hello() + c.key_exchange())
            if rule == "tell":
                fatal(g, c, 115, "gate9")
                continue
            c.flight()
            c.change()
            c.send(HANDSHAKE, c.finished())
            assert c.alert() == (2, 51)
            g.line("alert 51 decrypt_error, unknown gate", "gate9", NULL)


@proved_case("a Finished before the change of cipher in the record of the hello: the alert alone comes")
def several():
    with gateway() as g:
        c = plain(g)
        c.send(HANDSHAKE, c.hello() + c.key_exchange() + message(20, bytes(12)))
        fatal(g, c, 10, "gate7")


@proved_case("bytes behind the Finished in its record: alert 10, and the login is not complete")
def behind_finished():
    with gateway() as g:
        for behind in (b"\x01", message(1, b""), b"\x14" + bytes(15)):
            c = plain(g)
            up_to_change(c)
            c.send(HANDSHAKE, c.finished() + behind)
            fatal(g, c, 10, "gate7", NULL)


# ---- what is refused

@proved_case("garbage, and records over the limit: at the header where no record may be so long, else when all of it is there")
def garbage():
    with gateway() as g:
        for data, alert in [(bytes(100), 10), (b"\xff" * 50000, 50), (b"\x16\x03\x01\xff\xff" + bytes(70000), 50), (b"\x16\x03\x03\x40\x21", 50),
                            (record(HANDSHAKE, bytes(16385)), 22), (record(HANDSHAKE, bytes(16416)), 22), (record(24, b"x"), 10),
                            (record(HANDSHAKE, b"\xff" * 300), 10), (record(HANDSHAKE, b"\x01\0\0\x29" + bytes(41)), 50)]:
            c = plain(g)
            with contextlib.suppress(ConnectionError):
                c.socket.sendall(data)
            fatal(g, c, alert)
        c = plain(g).handshake()
        g.line("complete", "gate7", NULL)
        c.enrol([b"x" * 255] * 64)  # 16,384 bytes, the longest record
        c.send(DATA, b"\n" * 16385, 16385)
        fatal(g, c, 50, "gate7", NULL, "after completion ")


def spoilt(data, at):
    """With one bit of the byte there turned."""
    at %= len(data)
    return data[:at] + bytes([data[at] ^ 1]) + data[at + 1 :]


def session(c, step, at):
    """A session whose record number `step` has a bit turned at that place; the alert that comes."""
    count = 0

    def send(kind, content):
        nonlocal count
        data = c.sealed(kind, content)
        c.socket.sendall(spoilt(data, at) if count == step else data)
        count += 1
        return count <= step

    if send(HANDSHAKE, c.said(c.hello())):
        c.flight()
        if send(HANDSHAKE, c.said(c.key_exchange())) and send(CHANGE, b"\x01"):
            c.writing = c.next_writing
            if send(HANDSHAKE, c.said(c.finished())):
                c.finish()
                if send(DATA, b"cow 212\n"):
                    assert c.receive() == (DATA, b"enrolled cow 212\n")
                    send(ALERT, b"\x01\0")
    return c.alert()


@proved_case("a record changed on the way, at each step: type, content or MAC")
def changed():
    steps = {(0, 5): 10, (0, -1): 47, (1, 5): 10, (1, 10): 50, (2, 5): 50, (2, 0): 50, (3, 0): 51, (3, 5): 51, (3, 1): 51, (3, -1): 51, (4, 0): 20,
             (4, 1): 20, (4, 5): 20, (4, -1): 20, (5, 0): 20, (5, 6): 20, (5, -1): 20}
    with gateway("--failed-lines", 100) as g:
        for (step, at), alert in steps.items():
            c = plain(g)
            assert session(c, step, at) == (2, alert), (step, at)
            c.socket.close()
            if step > 3:
                g.line("complete", "gate7", NULL)
            g.line(f"{'after completion ' if step > 3 else ''}alert {alert} {NAMES[alert]}", "gate7" if step > 1 else None, NULL if step else None)


@proved_case("a key exchange changed on the way names another gate, and fails as a wrong key does")
def another_name():
    with gateway() as g:
        c = plain(g)
        c.send(HANDSHAKE, c.said(c.hello()))
        c.flight()
        c.socket.sendall(spoilt(c.sealed(HANDSHAKE, c.said(c.key_exchange())), -1))
        c.change()
        c.send(HANDSHAKE, c.finished())
        assert c.alert() == (2, 51)
        g.line("alert 51 decrypt_error, unknown gate", "gate6", NULL)


@proved_case("a record that comes again, one that is left out, and two that change places: alert 20")
def order():
    with gateway() as g:
        for picked in ((0, 0), (1,), (1, 0)):
            c = plain(g).handshake()
            g.line("complete", "gate7", NULL)
            records = [c.sealed(DATA, b"cow 1\n"), c.sealed(DATA, b"cow 2\n")]
            c.socket.sendall(b"".join(records[i] for i in picked))
            if picked == (0, 0):
                assert c.receive() == (DATA, b"enrolled cow 1\n")
            fatal(g, c, 20, "gate7", NULL, "after completion ")


# ---- data

@proved_case("1 MiB both ways, in records of 16,384 bytes and of 1,000")
def much():
    lines = [b"cow %05d " % i + b"x" * 245 for i in range(4096)]
    wanted = b"".join(b"enrolled " + line + b"\n" for line in lines)
    with gateway() as g:
        for piece in (16384, 1000):
            c, got = plain(g).handshake(), b""
            g.line("complete", "gate7", NULL)
            data = b"".join(line + b"\n" for line in lines)
            assert len(data) == 1 << 20
            sender = threading.Thread(target=c.send, args=(DATA, data, piece), daemon=True)
            sender.start()
            while len(got) < len(wanted):
                kind, content = c.receive()
                assert kind == DATA, (kind, content)
                got += content
            sender.join(LIMIT)
            assert got == wanted, "other answers than the lines'"
            c.bye()


@proved_case("a line over 256 bytes: the lines before it are answered, then close_notify, and the line names the alert that is meant")
def long_line():
    with gateway() as g:
        c = plain(g).handshake()
        g.line("complete", "gate7", NULL)
        c.send(DATA, b"cow 1\n" + b"x" * 257)
        assert c.receive() == (DATA, b"enrolled cow 1\n")
        assert c.alert() == (1, 0)
        c.socket.close()
        g.line("after completion close_notify in place of alert 50 decode_error", "gate7", NULL)


@proved_case("close_notify of the client ends the connection in order, before completion and after it, and nothing comes back")
def closed():
    with gateway() as g:
        c = plain(g)
        c.bye()
        g.line("closed")
        c = plain(g).handshake()
        g.line("complete", "gate7", NULL)
        c.bye()
