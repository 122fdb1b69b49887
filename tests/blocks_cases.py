"""Cases of --blocks, the number of blocks that SHA-256 compressed to derive a login's master secret: in the gateway's line, of both ways in which it makes
records, and in the gate's. The keys have the lengths between which the number changes; logins fail before the master secret is derived, and after it."""
import contextlib
import re

from gate_harness import GATE, WAS_TOLD, Run, at, enrolled, gate, keys, said
from gate_rough_cases import CHOSE, met, refuses
from harness import GATEWAY, LIMIT, Program, case, gateway
from plain_client import HANDSHAKE, Client
from proved_cases import proved_case
from rough_cases import NULL, fatal, plain

BLOCKS = {1: 19, 30: 19, 31: 27, 57: 27, 58: 31, 64: 31}  # by the key's length in bytes
TABLE = "".join(f"key{n}:{'a7' * n}\n" for n in BLOCKS)
CBC = "PSK-AES128-CBC-SHA256"


def both_ways(name):
    def keep(function):
        case(f"blocks: {name}")(function)
        proved_case(f"blocks: {name}")(function)
        return function
    return keep


@contextlib.contextmanager
def gateway_of_keys(*options):
    """A gateway whose gates have keys of these lengths."""
    with keys(TABLE) as file, gateway("--table", file, *options) as g:
        yield g


def named(c):
    """It has sent its key exchange."""
    c.send(HANDSHAKE, c.said(c.hello()))
    c.flight()
    c.send(HANDSHAKE, c.said(c.key_exchange()))
    return c


def refused(c):
    """Its Finished is not taken."""
    c.change()
    c.send(HANDSHAKE, c.finished())
    assert c.alert() == (2, 51)
    c.socket.close()


# ---- the gateway's line

@both_ways("keys of 1, 30, 31, 57, 58 and 64 bytes")
def key_lengths():
    with gateway_of_keys("--blocks") as g:
        for n, blocks in BLOCKS.items():
            Client(g.port, identity=f"key{n}".encode(), key=b"\xa7" * n, timeout=LIMIT).handshake().bye()
            g.line(f"complete, {blocks} blocks", f"key{n}", NULL)


@both_ways("under hide an unlisted name has the stand-in key's 27, before the words unknown gate; a wrong key has those of the table's")
def failed():
    with gateway("--blocks") as g:
        refused(named(plain(g, identity=b"gate9")))
        g.line("alert 51 decrypt_error, 27 blocks, unknown gate", "gate9", NULL)
        refused(named(Client(g.port, key=bytes(64), timeout=LIMIT)))
        g.line("alert 51 decrypt_error, 19 blocks", "gate7", NULL)


@both_ways("none where no master secret is derived: an unlisted name under tell, a login that ends at its hello, and before it")
def underived():
    with gateway("--blocks", "--rule", "tell") as g:
        fatal(g, named(plain(g, identity=b"gate9")), 115, "gate9", NULL)
        c = plain(g)
        c.send(HANDSHAKE, c.hello(suites=(0x002F,)))
        fatal(g, c, 40)
        c = plain(g)
        c.send(HANDSHAKE, c.hello())
        c.flight()
        c.socket.close()
        g.line("closed", None, NULL)
        plain(g).socket.close()
        g.line("closed")


@both_ways("a client that goes after its key exchange has them in its line; after completion they are not said again")
def once():
    with gateway("--blocks") as g:
        named(plain(g)).socket.close()
        g.line("closed, 19 blocks", "gate7", NULL)
        c = plain(g).handshake()
        g.line("complete, 19 blocks", "gate7", NULL)
        c.socket.close()
        g.line("after completion closed without close_notify", "gate7", NULL)


@both_ways("the next client in the same place has not the number of the one before")
def cleared():
    with gateway("--blocks", "--clients", 1) as g:
        named(plain(g)).socket.close()
        g.line("closed, 19 blocks", "gate7", NULL)
        c = plain(g)
        c.send(HANDSHAKE, c.hello())
        c.flight()
        c.socket.close()
        g.line("closed", None, NULL)


@both_ways("without the option no line has the word")
def unasked():
    with gateway() as g:
        c = plain(g).handshake()
        g.line("complete", "gate7", NULL)
        c.socket.close()
        g.line("after completion closed without close_notify", "gate7", NULL)
        refused(named(plain(g, identity=b"gate9")))
        g.line("alert 51 decrypt_error, unknown gate", "gate9", NULL)
        named(plain(g)).socket.close()
        g.line("closed", "gate7", NULL)
        assert "block" not in g.text, g.text


class Listener(Client):
    """Keeps the type and length of what it receives."""

    def __init__(self, *words, **more):
        super().__init__(*words, **more)
        self.heard = []

    def receive(self):
        kind, content = super().receive()
        self.heard.append((kind, len(content)))
        return kind, content


@both_ways("what clients get is of the same types and lengths whatever the key, with the option and without it")
def unheard():
    heard = set()
    for options in [(), ("--blocks",)]:
        with gateway_of_keys(*options) as g:
            for n, blocks in BLOCKS.items():
                c = Listener(g.port, identity=f"key{n}".encode(), key=b"\xa7" * n, timeout=LIMIT).handshake()
                c.enrol([b"cow 212"])
                c.bye()
                heard.add(tuple(c.heard))
                g.line(f"complete, {blocks} blocks" if options else "complete", f"key{n}", NULL)
    assert len(heard) == 1, heard


# ---- the gate's line

@case("gate: blocks: keys of 1, 30, 31, 57, 58 and 64 bytes, at either kind of gateway: the numbers of both sides are the same")
def gate_key_lengths():
    for options, suite in [((), CBC), (("--records", "proved"), NULL)]:
        with gateway_of_keys("--blocks", *options) as g, keys(TABLE) as file:
            for n, blocks in BLOCKS.items():
                run = gate("--blocks", "--keys", file, "--identity", f"key{n}", at(g.port), "cow 212")
                assert run == Run(0, enrolled("cow 212"), f"gate: {at(g.port)}: login: {blocks} blocks\n"), run
                g.line(f"complete, {blocks} blocks", f"key{n}", suite)


@case("gate: blocks: each side counts for its own key: a wrong key, and an unlisted name under both rules")
def gate_failed():
    for identity, rule, alert, line in [("gate7", "hide", "51 decrypt_error", "alert 51 decrypt_error, 19 blocks"),
                                        ("gate9", "hide", "51 decrypt_error", "alert 51 decrypt_error, 27 blocks, unknown gate"),
                                        ("gate9", "tell", "115 unknown_psk_identity", "alert 115 unknown gate")]:
        with gateway("--blocks", "--rule", rule) as g, keys(f"{identity}:{'a7' * 64}\n") as file:
            run = gate("--blocks", "--keys", file, at(g.port), "cow 212")
            said(run, WAS_TOLD, g.port, f"login: 31 blocks\ngate: {at(g.port)}: login: the gateway sent alert {alert}")
            g.line(line, identity, CBC)


@case("gate: blocks: none where the login ends before a master secret is derived, and without the option none at all")
def gate_underived():
    with met(options=("--blocks",)) as s:
        s.greet(suite=0x002F)
        refuses(s, 47, CHOSE)
    with gateway("--blocks") as g, keys() as file:
        assert gate("--keys", file, at(g.port), "cow 212") == Run(0, enrolled("cow 212"), "")
        g.line("complete, 19 blocks", "gate7", CBC)


@case("blocks: --help of gateway and gate says what they are; the option takes no value")
def shown():
    for program in (GATEWAY, GATE):
        asked = Program([program, "--help"])
        assert asked.end() == 0, asked.text
        text = re.search(r"^  --blocks  +((?:.|\n {20})*)", asked.text, re.M)[1]
        for part in ("blocks of 64 bytes", "SHA-256", "master secret", "battery budget", "the key's length shows in it"):
            assert part in re.sub(r"\s+", " ", text), (part, text)
        bad = Program([program, "--blocks=19"])
        assert bad.end() == 2 and bad.text.endswith(": '--blocks=19' is not understood; --help lists the options\n"), bad.text
