"""Cases of what a newcomer meets: the command line, a table with a mistake in it, lines as other systems end them, `make run` and `make install`."""
import os
import pathlib
import re
import shutil
import signal
import subprocess
import tempfile

from harness import GATEWAY, KEY, LIMIT, STAMP, TABLE, Program, case, gateway
from plain_client import DATA, Client

ROOT = pathlib.Path(__file__).resolve().parent.parent
NULL = "PSK-NULL-SHA256"
VERSION = re.search(r'#define TN_VERSION "(.*)"', (ROOT / "include/turretnail.h").read_text())[1]


def plain(g):
    return Client(g.port, key=bytes.fromhex(KEY), timeout=LIMIT)


# ---- the command line

@case("-h, --help and --version; an option error names the program, the word and --help, in one line")
def command_line():
    for words, said in [(["-h"], "usage: gateway --table FILE"), (["--help"], "usage: gateway --table FILE"),
                        (["--version"], f"gateway of turretnail {VERSION}\n")]:
        asked = Program([GATEWAY, *words])
        assert asked.end() == 0 and asked.text.startswith(said), asked.text
    for words, named in [(["--nonsense"], "--nonsense"), (["-x"], "-x"), (["-xh"], "-x"), (["--per", "1"], "--per"), (["--port"], "--port"), (["--port", "x"], "--port"), (["--rule", "loud"], "loud"), (["--records", "own"], "own"),
                         (["--clients", "0"], "--clients"), (["--per-gate", "0"], "--per-gate"), (["--per-address", "-1"], "--per-address"),
                         (["--failed-lines", ""], "--failed-lines"), (["--help=me"], "--help=me"), (["more"], "more"), ([], "--table")]:
        bad = Program([GATEWAY, *words])
        assert bad.end() == 2 and re.fullmatch(rf"gateway: [^\n]*{re.escape(named)}[^\n]*; --help lists the options\n", bad.text), (words, bad.text)


@case("the first line names the rule that applies, and says what it means")
def rules():
    hide = "(unknown gates are not told apart from wrong keys; --rule tell while fitting), "
    tell = "(unknown gates are told so, and so is anybody who tries names; --rule hide after fitting), "
    for words, said in [([], f"hide, since none was named {hide}"), (["--rule", "hide"], f"hide {hide}"), (["--rule", "tell"], f"tell {tell}")]:
        with gateway(*words) as g:
            assert f", rule: {said}places: " in g.text, g.text


# ---- the table

FAULTS = [  # a table, and what is said of it
    (b"gate7:00\r\n", "line 1 of the key table ends in CR LF, and a line here ends in LF alone"),
    (b"gate7:00\n\ngate8:00\n", "line 2 of the key table is blank, and each line here is a gate's"),
    (b"gate7:00\n  \ngate8:00\n", "line 2 of the key table is blank, and each line here is a gate's"),
    (b"# the gates of the barn\ngate7:00\n", "line 1 of the key table is a comment, and there are none here"),
    (b"gate7:00\ngate8: 00\n", "line 2 of the key table has a space in its key or beside it"),
    (b"gate7:00 \n", "line 1 of the key table has a space in its key or beside it"),
    (b"gate7:00 11\n", "line 1 of the key table has a space in its key or beside it"),
    (b"gate7:001\n", "line 1 of the key table has an odd number of hex digits in its key"),
    (b"gate7:0g\n", "line 1 of the key table has a character in its key that is no hex digit"),
    (b"gate7 00\n", "line 1 of the key table has no colon between name and key"),
    (b"gate7:\n", "line 1 of the key table has no key behind its colon"),
    (b":00\n", "line 1 of the key table has no name before its colon"),
    (b"gate\t7:00\n", "line 1 of the key table has a control character in its name"),
    (b"gate\xff:00\n", "line 1 of the key table has a name that is not UTF-8"),
    (b"g" * 129 + b":00\n", "line 1 of the key table has a name of more than 128 bytes"),
    (b"gate7:" + b"00" * 65 + b"\n", "line 1 of the key table has a key of more than 64 bytes"),
    (b"gate7:00\ngate8:00\ngate7:11\n", "line 3 of the key table names the gate of line 1 again"),
    (b"gate7:00\ngate8:00", "the last line of the key table has no line end"),
    (b"".join(b"g%d:00\n" % i for i in range(257)), "the key table has more than 256 lines"),
    (b"g:" + b"0" * 70000, "the key table has more than 65536 bytes"),
]


@case("what is wrong with a table's line is said, at the start and on SIGHUP, when the old table stays")
def faults():
    with tempfile.TemporaryDirectory() as folder:
        table = pathlib.Path(folder) / "gates.psk"
        table.write_text(f"gate7:{KEY}\n")
        table.chmod(0o600)
        with gateway("--table", table) as g:
            for text, said in FAULTS:
                table.write_bytes(text)
                bad = Program([GATEWAY, "--port", 0, "--table", table])
                assert bad.end() == 1 and bad.text == f"gateway: {table}: {said}\n", (text[:30], bad.text)
                g.process.send_signal(signal.SIGHUP)
                line = g.next_line()
                assert line == f"{table}: {said}; the old table stays", line
            table.unlink()
            g.process.send_signal(signal.SIGHUP)
            assert g.next_line() == f"{table}: No such file or directory; the old table stays"
            os.mkfifo(table)
            g.process.send_signal(signal.SIGHUP)
            assert g.next_line() == f"{table}: it is no file, and can't be read again; the old table stays"
            plain(g).handshake().bye()
            g.line("complete", "gate7", NULL)


@case("a byte order mark, and a table that others can read, are warned of")
def warnings():
    with tempfile.TemporaryDirectory() as folder:
        table = pathlib.Path(folder) / "gates.psk"
        readable = f"warning: {table} has keys and can be read by others than its owner: chmod 600"
        marked = f"warning: {table} begins with a byte order mark, which counts as part of the first gate's name"
        for mark, mode, wanted in [(b"", 0o600, []), (b"", 0o644, [readable]), (b"", 0o640, [readable]), (b"\xef\xbb\xbf", 0o600, [marked]),
                                   (b"\xef\xbb\xbf", 0o644, [marked, readable])]:
            table.write_bytes(mark + f"gate7:{KEY}\ngate8:{KEY}\n".encode())
            table.chmod(mode)
            with gateway("--table", table) as g:
                assert [re.sub(STAMP, "", line) for line in g.text.splitlines()[:-1]] == wanted, g.text
                g.process.send_signal(signal.SIGHUP)
                assert [g.next_line() for _ in wanted] == wanted and g.next_line() == f"{table} read again, gates: 2"


@case("GnuTLS's psktool writes a table")
def psktool():
    with tempfile.TemporaryDirectory() as folder:
        table = pathlib.Path(folder) / "gates.psk"
        for name in ("gate7", "gate8"):
            assert Program(["psktool", "-u", name, "-p", table]).end() == 0
        key = bytes.fromhex(re.search(r"^gate8:(\w+)$", table.read_text(), re.M)[1])
        with gateway("--table", table) as g:
            Client(g.port, identity=b"gate8", key=key, timeout=LIMIT).handshake().bye()
            g.line("complete", "gate8", NULL)


@case("a table that comes through a pipe, once")
def piped():
    reading, writing = os.pipe()
    os.write(writing, TABLE.read_bytes())
    os.close(writing)
    with gateway("--table", f"/dev/fd/{reading}", pass_fds=[reading]) as g:
        os.close(reading)
        plain(g).handshake().bye()
        g.line("complete", "gate7", NULL)


# ---- enrolment lines

@case("an empty line enrols nobody, and CR before LF is no part of a line")
def lines():
    with gateway() as g:
        c = plain(g).handshake()
        for sent, answer in [(b"\n\r\n\ncow 1\n", b"enrolled cow 1\n"), (b"cow 2\r\n", b"enrolled cow 2\n"), (b"cow\r3\r\r\n", b"enrolled cow\r3\r\n"),
                             (b"x" * 256 + b"\r\n", b"enrolled " + b"x" * 256 + b"\n"), (b"cow 4\r", None), (b"\n", b"enrolled cow 4\n"),
                             (b"\n" * 1000 + b"cow 5\n", b"enrolled cow 5\n")]:
            c.send(DATA, sent)
            assert answer is None or c.receive() == (DATA, answer)
        c.bye()
        g.line("complete", "gate7", NULL)
        for long in (b"x" * 257, b"x" * 256 + b"\rx"):
            c = plain(g).handshake()
            g.line("complete", "gate7", NULL)
            c.send(DATA, long)
            assert c.alert() == (2, 50)
            c.socket.close()
            g.line("after completion alert 50 decode_error", "gate7", NULL)


# ---- make

STAND_IN = """#!/bin/sh
# stands in for rt, whose proofs take minutes
case $1:$PWD in
lib:*/crates/c_interface_c) mkdir -p out; cp "$LIBRARY_OF_TEST" out/libc_interface_c.a ;;
lib:*/crates/*) ;;
*) exit 2 ;;
esac
"""


def copied(folder):
    """A copy of what make needs, without the crates' contents, and a stand-in for rt."""
    copy, tools = pathlib.Path(folder) / "copy", pathlib.Path(folder) / "tools"
    for part in ("gateway", "include", "bench", "tests"):
        shutil.copytree(ROOT / part, copy / part, ignore=shutil.ignore_patterns("__pycache__"))
    for part in ("Makefile", "crates.txt"):
        shutil.copy(ROOT / part, copy / part)
    for crate in crates():
        (copy / "crates" / crate).mkdir(parents=True)
    tools.mkdir()
    (tools / "rt").write_text(STAND_IN)
    (tools / "rt").chmod(0o755)
    return copy, tools


def made(copy, *words, path):
    environment = {k: v for k, v in os.environ.items() if not k.startswith(("MAKE", "MFLAGS"))}
    environment.update(PATH=path, LIBRARY_OF_TEST=str(ROOT / "build/libturretnail.a"))
    return subprocess.Popen(["make", *words], cwd=copy, env=environment, stdin=subprocess.DEVNULL, stdout=subprocess.PIPE, stderr=subprocess.STDOUT, text=True,
                            start_new_session=True)


def crates():
    """What each crate of crates.txt depends on."""
    lines = [line.partition("#")[0].split(":") for line in (ROOT / "crates.txt").read_text().splitlines()]
    return {line[0].split()[0]: line[1].split() for line in lines if len(line) == 2}


def below(name):
    """The crate and all of ours that it depends on."""
    needs = crates()
    return {name}.union(*(below(other) for other in needs[name] if other in needs))


@case("make run says which crate of how many it proves, and the port that it listens on")
def make_run():
    with tempfile.TemporaryDirectory() as folder:
        copy, tools = copied(folder)
        path = f"{tools}:{os.environ['PATH']}"
        for arguments, address in [("--port 0", "127.0.0.1:PORT"), ("--once 1 --port=24433 --address 127.0.0.7", "127.0.0.7:24433")]:
            run = made(copy, "run", f"ARGUMENTS={arguments}", path=path)
            try:
                text = []
                for line in run.stdout:
                    text.append(line)
                    if "listening on" in line:
                        break
                said = "".join(text)
                assert f"  openssl s_client -connect {address} " in said and "listening on " + address.partition("PORT")[0] in said, said
                if arguments == "--port 0":
                    wanted = below("c_interface_c")
                    told = re.findall(rf"^crate (\d+) of {len(wanted)}: (\w+)$", said, re.M)
                    assert [int(n) for n, _ in told] == [*range(1, len(wanted) + 1)] and told[-1][1] == "c_interface_c" and {c for _, c in told} == wanted, said
            finally:
                os.killpg(run.pid, signal.SIGTERM)
                run.communicate(timeout=LIMIT)


@case("without rt, and without packages and root, make run says in one sentence what to do")
def nothing_there():
    with tempfile.TemporaryDirectory() as folder:
        copy, _ = copied(folder)
        few = pathlib.Path(folder) / "few"  # programs that every system has
        few.mkdir()
        for name in ("sh", "bash", "make", "mkdir", "find", "sed", "id", "cat", "dirname", "awk", "grep"):
            (few / name).symlink_to(shutil.which(name))
        (few / "apt-get").symlink_to("/bin/false")
        (few / "id").unlink()
        (few / "id").write_text("#!/bin/sh\necho 1000\n")
        (few / "id").chmod(0o755)
        text, _ = made(copy, "run", path=str(few)).communicate(timeout=LIMIT)
        assert text.startswith("gateway/needs: packages are missing and only root can install them: sudo apt-get install gcc libc6-dev libssl-dev\nmake: "), text
        (few / "apt-get").unlink()
        text, _ = made(copy, "run", path=str(few)).communicate(timeout=LIMIT)
        assert text.startswith("gateway/needs: this machine lacks what Debian has in the packages gcc libc6-dev libssl-dev, and has no apt-get: "), text
        for name in ("cc", "as", "ld"):
            (few / name).symlink_to(shutil.which(name))
        text, _ = made(copy, "run", path=str(few)).communicate(timeout=LIMIT)
        assert text.startswith("gateway/prove: the library is proved by rt of the Rattle toolchain, which is not on the PATH: ") and text.count("\n") == 2, text


@case("make install puts the gateway, the gate and gates in place too, pkg-config has the header's version, and make uninstall leaves nothing")
def installed():
    with tempfile.TemporaryDirectory() as folder:
        there = pathlib.Path(folder) / "there"
        words = [f"PREFIX={there}", "DESTDIR="]
        text, _ = made(ROOT, "install", *words, path=os.environ["PATH"]).communicate(timeout=LIMIT)
        files = {str(f.relative_to(there)) for f in there.rglob("*") if f.is_file()}
        programs = {"bin/turretnail-gateway", "bin/turretnail-gate", "bin/turretnail-gates"}
        assert files == programs | {"include/turretnail.h", "lib/libturretnail.a", "lib/pkgconfig/turretnail.pc"}, (files, text)
        for program in programs:
            asked = Program([there / program, "--version"])
            assert asked.end() == 0 and asked.text == f"{program.partition('-')[2]} of turretnail {VERSION}\n", asked.text
        assert f"Version: {VERSION}\n" in (there / "lib/pkgconfig/turretnail.pc").read_text()
        made(ROOT, "uninstall", *words, path=os.environ["PATH"]).communicate(timeout=LIMIT)
        assert not [f for f in there.rglob("*") if f.is_file()]
