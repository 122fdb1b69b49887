"""Cases of gates as a user runs it: every command, every refusal with its sentence and status, whose the file is then, several who edit at once."""
import concurrent.futures
import contextlib
import errno
import fcntl
import os
import re
import resource
import shutil
import signal
import socket
import struct
import subprocess
import time

from gates_harness import AGAIN, FAULTS, GATES, NOBODY, SAMPLE, SANITIZED, UNCHANGED, case, does, gates, note, refuses, state, table_of
from harness import KEYS, LIMIT, gateway
from newcomer_cases import FAULTS as BAD_TABLES
from newcomer_cases import VERSION
from plain_client import Client

HELP = "; --help shows how it is used"
BAD_NAME = f"no table may have such a name{UNCHANGED}give 1 to 128 bytes of UTF-8 without colons and control characters"
BAD_KEY = f"no table may have such a key{UNCHANGED}give 1 to 64 bytes as 2 to 128 hex digits"
FULL = f"the table is full, it has at most 256 lines and 65,536 bytes{UNCHANGED}retire a gate first"
MEND = "mend that and try again"
EDITS = [("add", "new", "00"), ("replace", "gate7", "00"), ("retire", "gate7")]


# ---- the command line

@case("-h, --help and --version, also behind a table; the help has every command and every status")
def asked():
    for words in (["-h"], ["--help"], ["gates.psk", "-h"], ["gates.psk", "--help"]):
        run = gates(*words)
        assert run.status == 0 and run.err == "" and run.out.startswith("usage: gates TABLE list\n"), run
    for command in ("list", "check", "add", "replace", "retire"):
        assert re.search(rf"^ +{command}  ", run.out, re.M), command
    assert re.findall(r"^  (\d+) +\w", run.out, re.M) == ["0", "1", "2", "12", "15", "16", "17", "18"], run.out
    assert "can be seen by other users of this machine: with '-'" in run.out and all(len(line) <= 100 for line in run.out.splitlines())
    for words in (["--version"], ["gates.psk", "--version"]):
        assert gates(*words) == (0, f"gates of turretnail {VERSION}\n", ""), words


@case("a command line that is wrong: 2, and no word that may be a key is repeated")
def misused():
    with table_of() as table:
        for words, said in [([], "which table? Give TABLE and what to do with it"), ([""], "which table? Give TABLE and what to do with it"),
                            (["--nonsense"], "'--nonsense' is not understood"), (["-x", "list"], "'-x' is not understood"),
                            ([table], f"what is to be done? Give a command behind '{table}'"), ([table, "lists"], "'lists' is no command"),
                            ([table, ""], "'' is no command"), (["list", table], f"'{table}' is no command"), ([table, "add"], "'add' needs a NAME"),
                            ([table, "replace"], "'replace' needs a NAME"), ([table, "retire"], "'retire' needs a NAME"),
                            *[([table, *more], f"'{more[0]}' has too many words behind it, and a NAME with spaces goes in quotes")
                              for more in (["list", "x"], ["check", "x"], ["retire", "gate7", "00"], ["add", "gate", "12", "c0ffee"])]]:
            refuses(table.parent, 2, said + HELP, *words)


# ---- looking

@case("list prints the names, never a key; check counts them")
def looking():
    long = "kälte " + "é" * 60 + "x"
    for text, names in [(SAMPLE, ["gate7", "gate8", "barn-office"]), (b"", []), (b"a b:00\n", ["a b"]),
                        (f"{long}:A7\n-x:00\n".encode(), [long, "-x"])]:
        with table_of(text) as table:
            before = state(table.parent)
            assert gates(table, "list") == (0, "".join(f"{name}\n" for name in names), "")
            assert gates(table, "check") == (0, f"well formed, gates: {len(names)}\n", "")
            assert state(table.parent) == before
    with table_of() as table:
        shown = gates(table, "list").out.lower()
        assert not any(key.lower()[i : i + 6] in shown for key in KEYS.values() for i in range(len(key) - 5)), shown


@case("what can't be printed is said")
def unprintable():
    with table_of() as table, open("/dev/full", "wb") as full:
        for command in ("list", "check"):
            for how in ({"stdout": full, "capture_output": False, "stderr": subprocess.PIPE}, {"preexec_fn": lambda: os.close(1)}):
                run = gates(table, command, **how)
                reason = "No space left on device" if "stdout" in how else "Bad file descriptor"
                assert run == (1, "", f"gates: standard output can't be written: {reason}; {MEND}\n"), run


@case("a table that is not well formed is refused with 12, its file, its line and what is wrong, by every command")
def bad_tables():
    for text, said in BAD_TABLES:
        number = re.match(r"line (\d+) ", said)
        with table_of(text) as table:
            remedy = f"mend line {number[1]} first" if number else f"end it with 'echo >> {table}'" if "no line end" in said else "shorten it first"
            for words in (["list"], ["check"], *EDITS):
                refuses(table.parent, 12, f"{table}: {said}{UNCHANGED}{remedy}", table, *words)
    with table_of(SAMPLE[:-1]) as table:  # as an editor has saved it twice
        unended = f"{table}: the last line of the key table has no line end{UNCHANGED}"
        refuses(table.parent, 12, f"{unended}end it with 'echo >> {table}'", table, *EDITS[0])
        subprocess.run(["sh", "-c", f"echo >> {table}"], check=True)
        assert table.read_bytes() == SAMPLE
        table.write_bytes(SAMPLE[:-2])  # an odd digit: a line end alone does not mend it
        refuses(table.parent, 12, f"{unended}mend line 3 first", table, *EDITS[0])
    with table_of(SAMPLE.replace(b"\n", b"\r\n")) as table:
        said = f"{table}: line 1 of the key table ends in CR LF, and a line here ends in LF alone{UNCHANGED}mend line 1 first"
        refuses(table.parent, 12, said, table, *EDITS[0])


# ---- edits

@case("add, replace and retire: the line, the place, and every other byte as it was")
def edits():
    with table_of() as table:
        seven, eight, office = SAMPLE.splitlines(keepends=True)
        does(table, SAMPLE + b"gate12:c0ffee\n", "add", "gate12", "C0fFEe")
        does(table, seven + b"gate8:00\n" + office + b"gate12:c0ffee\n", "replace", "gate8", "00")
        does(table, seven + b"gate8:" + b"a7" * 64 + b"\n" + office + b"gate12:c0ffee\n", "replace", "gate8", "A7" * 64)
        does(table, seven + office + b"gate12:c0ffee\n", "retire", "gate8")
        does(table, seven + b"barn-office:" + office[12:].lower() + b"gate12:c0ffee\n", "replace", "barn-office", KEYS["barn-office"])
        does(table, seven + b"barn-office:" + office[12:].lower(), "retire", "gate12")
        does(table, b"barn-office:" + office[12:].lower(), "retire", "gate7")
        does(table, b"", "retire", "barn-office")
        assert gates(table, "check") == (0, "well formed, gates: 0\n", "")
        does(table, b"gate1:01\n", "add", "gate1", "01")


@case("names in UTF-8, with spaces, of 128 bytes, or like an option")
def names():
    with table_of(b"") as table:
        text = b""
        for name in ("kälte", "牛舎 4", "-", "--help", "x" * 128, "é" * 64, "gate7 ", "\u0085", "#1"):
            text += name.encode() + b":0a\n"
            does(table, text, "add", name, "0a")
        for name in ("--help", "é" * 64):
            text = text.replace(name.encode() + b":0a\n", name.encode() + b":0b\n")
            does(table, text, "replace", name, "0b")
            text = text.replace(name.encode() + b":0b\n", b"")
            does(table, text, "retire", name)


@case("a name or a key that no table may have is refused with 15, and it is said which of the two")
def bad_words():
    with table_of() as table:
        for name in ("", "a:b", ":", "gate7:", "a\tb", "a\nb", "\x1b[2J", "a\x7f", "x" * 129, "é" * 64 + "x", b"\xff", b"\xc0\x80", b"\xed\xa0\x80",
                     b"caf\xe9"):
            for command, *key in (["add", "00"], ["add"], ["replace", "00"], ["retire"]):
                refuses(table.parent, 15, BAD_NAME, table, command, name, *key)
        for key in ("", "0", "000", "0g", "00" * 65, "00" * 5000, " 00", "00 ", "0x00", "00\n", "--", "é0"):
            for words in (["add", "new"], ["replace", "gate7"]):
                refuses(table.parent, 15, BAD_KEY, table, *words, key)
        for given in (b"", b"\n", b"0\n", b"00\r\n", b" 00\n", b"00" * 65 + b"\n", b"0" * 5000, b"00\x00\n", b"\xff\xff\n"):
            refuses(table.parent, 15, BAD_KEY, table, "add", "new", "-", given=given)
    with table_of(None) as table:  # and no file is made
        refuses(table.parent, 15, BAD_NAME, table, "add", "a:b", "00")
        refuses(table.parent, 15, BAD_KEY, table, "add", "new", "0")


@case("a gate that is listed already: 16; one that is not: 17")
def listed():
    with table_of() as table:
        for name in KEYS:
            refuses(table.parent, 16, f'{table}: "{name}" is listed already{UNCHANGED}replace gives it another key', table, "add", name, "00")
        for name in ("gate9", "gate", "gate77", "GATE7", "barn"):
            for words in (["replace", name, "00"], ["replace", name], ["retire", name]):
                refuses(table.parent, 17, f'{table}: "{name}" is not listed{UNCHANGED}list shows the names', table, *words)


@case("a table of 256 lines is full: 18, until a gate is retired")
def full_of_lines():
    text = b"".join(b"g%d:00\n" % i for i in range(256))
    with table_of(text) as table:
        refuses(table.parent, 18, f"{table}: {FULL}", table, "add", "new", "00")
        does(table, text.replace(b"g255:00", b"g255:ff"), "replace", "g255", "ff")
        does(table, text.replace(b"g255:00\n", b""), "retire", "g255")
        does(table, text.replace(b"g255:00", b"new:00"), "add", "new", "00")


@case("the fullest table, 65,536 bytes: 18, but for edits that make it no longer")
def full_of_bytes():
    text = b"".join(b"%0128d:%s\n" % (i, b"a7" * 64) for i in range(253)) + b"y" * 127 + b":00\n"
    last = b"z" * 127 + b":00\n"
    with table_of(text) as table:
        does(table, text + last, "add", "z" * 127, "00")
        assert table.stat().st_size == 65536
        refuses(table.parent, 18, f"{table}: {FULL}", table, "add", "a", "00")
        refuses(table.parent, 18, f"{table}: {FULL}", table, "replace", "y" * 127, "0000")
        does(table, text + last.replace(b":00", b":ff"), "replace", "z" * 127, "ff")
        does(table, text, "retire", "z" * 127)
        refuses(table.parent, 18, f"{table}: {FULL}", table, "add", "z" * 128, "00")


# ---- keys

@case("a drawn key has 64 hex digits, is the table's, is printed once and alone, and no two are alike")
def drawn():
    with table_of(b"") as table:
        keys = []
        for i in range(12):
            keys.append(does(table, None, "add", f"g{i}"))
        assert table.read_text() == "".join(f"g{i}:{key}" for i, key in enumerate(keys))
        keys += [does(table, None, "replace", "g3") for _ in range(4)]
        assert table.read_text().splitlines()[3] == f"g3:{keys[-1]}".rstrip("\n")
        assert len({*keys}) == len(keys) and all(re.fullmatch(r"[0-9a-f]{64}\n", key) for key in keys), keys


@case("a key from standard input: one line, with or without its end; what follows is left")
def from_input():
    with table_of(b"") as table:
        text = b""
        for i, given in enumerate((b"C0ffee\n", b"00", b"a7" * 64 + b"\n", b"0a\nff\n")):
            text += b"g%d:%s\n" % (i, given.split(b"\n")[0].lower())
            does(table, text, "add", f"g{i}", "-", given=given)
        does(table, text.replace(b"g1:00", b"g1:0b"), "replace", "g1", "-", given=b"0B\n")
        script = '"$0" "$1" add one - && "$0" "$1" add two - && cat'
        run = subprocess.run(["sh", "-c", script, SANITIZED, table], input=b"01\n02\nrest\n", capture_output=True, timeout=LIMIT)
        assert run.returncode == 0 and run.stdout == b"rest\n" and table.read_bytes().endswith(b"one:01\ntwo:02\n"), run
        refuses(table.parent, 15, BAD_KEY, table, "add", "new", "-", preexec_fn=lambda: os.close(0))
        folder = os.open(table.parent, os.O_RDONLY)
        said = f"standard input can't be read: Is a directory{UNCHANGED}give the key there in one line"
        refuses(table.parent, 1, said, table, "add", "new", "-", given=None, stdin=folder)
        os.close(folder)


@case("a key that can't be printed is in the table, and that is said, with 1")
def lost_key():
    reading, writing = socket.socketpair()
    reading.close()
    with table_of() as table, open("/dev/full", "wb") as full, writing:
        for i, (how, reason) in enumerate([({"stdout": full}, "No space left on device"), ({"stdout": writing}, "Broken pipe"),
                                           ({"preexec_fn": lambda: os.close(1)}, "Bad file descriptor")]):
            old = table.read_bytes()
            run = gates(table, "add", f"g{i}", **{"capture_output": False, "stderr": subprocess.PIPE, **how})
            said = f'{table}: the key of "g{i}" is in the table, but can\'t be printed: {reason}; replace draws another'
            assert run == (1, "", f"gates: {said}\n"), run
            assert re.fullmatch(re.escape(old) + rb"g%d:[0-9a-f]{64}\n" % i, table.read_bytes())
        run = gates(table, "replace", "gate7", "00", preexec_fn=lambda: (os.close(1), os.close(2)))
        assert run.status == 0 and b"gate7:00\n" in table.read_bytes(), run  # with nothing to print and nowhere to say it


# ---- the file

def owner(path):
    s = path.lstat()
    return s.st_mode & 0o7777, s.st_uid, s.st_gid


@case("owner, group and mode stay; a new file is its maker's alone, whatever the umask")
def rights():
    for mode in (0o600, 0o640, 0o644, 0o400, 0o664):
        for mask in (0, 0o077, 0o777):
            with table_of(mode=mode) as table:
                if NOBODY:
                    os.chown(table, 1234, 4321)
                wanted = owner(table)
                for words in EDITS:
                    assert gates(table, *words, umask=mask).status == 0 and owner(table) == wanted, (owner(table), wanted)
    for mask in (0, 0o077, 0o777):
        with table_of(None) as table:
            does(table, b"gate1:01\n", "add", "gate1", "01", umask=mask)
            assert owner(table) == (0o600, os.geteuid(), os.getegid())


@case("where the owner can't be kept, the folder not written or the table not read, the old file stays")
def others():
    unwritten = f"the new table can't be made beside it, as gates.psk.gates-new: Permission denied{UNCHANGED}{MEND}"
    if not NOBODY:
        note("edits by somebody else than the table's owner, since only root can run them")
        with table_of() as table:
            table.parent.chmod(0o555)
            refuses(table.parent, 1, f"{table}: {unwritten}", table, *EDITS[0])
            table.parent.chmod(0o755)
        return
    with table_of(mode=0o644) as table:
        folder, program = table.parent, table.parent.parent / f"{table.parent.name}-gates"
        shutil.copy(SANITIZED, program)  # where everybody can run it
        try:
            folder.chmod(0o777)
            for words in EDITS:
                said = f"{table}: its owner and group can't be kept: Operation not permitted{UNCHANGED}try again as its owner or as root"
                refuses(folder, 1, said, table, *words, program=program, **NOBODY)
            os.chown(table, NOBODY["user"], 0)  # the owner is not of its group
            refuses(folder, 1, said, table, *EDITS[0], program=program, **NOBODY)
            folder.chmod(0o755)
            for words in EDITS:
                refuses(folder, 1, f"{table}: {unwritten}", table, *words, program=program, **NOBODY)
            assert gates(table, "check", program=program, **NOBODY) == (0, "well formed, gates: 3\n", "")
            os.chown(table, 0, 0)
            table.chmod(0o600)
            refuses(folder, 1, f"{table}: it can't be read: Permission denied; {MEND}", table, "list", program=program, **NOBODY)
            refuses(folder, 1, f"{table}: it can't be read: Permission denied{UNCHANGED}{MEND}", table, *EDITS[0], program=program, **NOBODY)
            folder.chmod(0o711)
            said = f"{table}: its folder can't be opened: Permission denied{UNCHANGED}{MEND}"
            refuses(folder, 1, said, table, *EDITS[0], program=program, **NOBODY)
            folder.chmod(0o777)
            os.chown(table, NOBODY["user"], NOBODY["group"])
            does(table, SAMPLE + b"new:00\n", *EDITS[0], program=program, **NOBODY)
        finally:
            program.unlink()


def access_list(*entries):
    """An access list as the system keeps it: (tag, rights, id) each."""
    return struct.pack("<I", 2) + b"".join(struct.pack("<HHI", *entry) for entry in entries)


def list_of(path):
    """The file's access list, or None."""
    try:
        return os.getxattr(path, "system.posix_acl_access")
    except OSError as error:
        assert error.errno == errno.ENODATA, error


@case("an access list stays, and one that the folder hands down lets nobody in")
def access_lists():
    none = 0xFFFFFFFF
    mine = access_list((1, 6, none), (2, 4, 1234), (4, 0, none), (16, 4, none), (32, 0, none))
    with table_of() as table:
        try:
            os.setxattr(table, "system.posix_acl_access", mine)
        except OSError as error:
            assert error.errno == errno.EOPNOTSUPP, error
            note(f"access lists, which the disk of {table.parent.parent} has not")
            return
        wanted = owner(table), list_of(table)
        for words in EDITS:
            assert gates(table, *words).status == 0 and (owner(table), list_of(table)) == wanted
    with table_of(mode=0o640) as table:
        os.setxattr(table.parent, "system.posix_acl_default", access_list((1, 7, none), (2, 7, 1234), (4, 7, none), (16, 7, none), (32, 7, none)))
        for words in EDITS:
            assert gates(table, *words).status == 0 and owner(table)[0] == 0o640 and list_of(table) is None
        table.unlink()
        does(table, b"gate1:01\n", "add", "gate1", "01")
        assert owner(table)[0] == 0o600  # which takes all rights from the list


@case("a link is followed and stays, and what it leads to is edited")
def links():
    with table_of() as table:
        there = table.parent / "there"
        there.mkdir()
        real = table.rename(there / "real.psk")
        table.symlink_to("link")
        (table.parent / "link").symlink_to(real)
        for words, wanted in [(EDITS[0], SAMPLE + b"new:00\n"), (["retire", "new"], SAMPLE)]:
            run = gates(table, *words)
            assert run.status == 0 and f" {table}; " in run.err, run
            assert os.readlink(table) == "link" and os.readlink(table.parent / "link") == str(real) and real.read_bytes() == wanted
            assert {*table.parent.iterdir()} == {table, table.parent / "link", there} and [*there.iterdir()] == [real]
        real.unlink()
        for command in ("add", "replace", "retire"):
            said = f"{table}: it is a link to a file that is not there{UNCHANGED}name that file itself"
            refuses(table.parent, 1, said, table, command, "gate7")
        real.symlink_to(table)
        refuses(table.parent, 1, f"{table}: it can't be reached: Too many levels of symbolic links{UNCHANGED}{MEND}", table, *EDITS[0])


@case("what is no regular file, and what is not there")
def no_file():
    with table_of(None) as table:
        folder = table.parent
        for words in (["list"], ["check"]):
            refuses(folder, 1, f"{table}: there is no such file; look at its name, or make it with add", table, *words)
        for words in EDITS[1:]:
            refuses(folder, 1, f"{table}: there is no such file{UNCHANGED}look at its name, or make it with add", table, *words)
        there = folder / "no" / "gates.psk"
        refuses(folder, 1, f"{there}: its folder can't be opened: No such file or directory{UNCHANGED}{MEND}", there, *EDITS[0])
        os.mkfifo(table)
        refuses(folder, 1, f"{table}: it is no regular file; name the table's file itself", table, "list")
        for odd in (table, folder, f"{folder}/", "/dev/null", ".", "/"):
            for words in EDITS:
                refuses(folder, 1, f"{odd}: it is no regular file{UNCHANGED}name the table's file itself", odd, *words)
        table.unlink()
        table.write_bytes(SAMPLE)
        refuses(folder, 1, f"{table}/: it can't be reached: Not a directory{UNCHANGED}{MEND}", f"{table}/", *EDITS[0])


@case("a table that is named without its folder, in the root folder, or by a long name")
def short_names():
    with table_of() as table:
        run = gates("gates.psk", *EDITS[0], cwd=table.parent)
        assert run == (0, "", f'gates: "new" is added to gates.psk{AGAIN}\n') and table.read_bytes() == SAMPLE + b"new:00\n"
        run = gates("other.psk", *EDITS[0], cwd=table.parent)
        assert run.status == 0 and (table.parent / "other.psk").read_bytes() == b"new:00\n"
        root = "/there-is-no-such-table.psk"
        refuses(table.parent, 1, f"{root}: there is no such file{UNCHANGED}look at its name, or make it with add", root, *EDITS[1])
        long = table.parent / ("x" * 246)
        long.write_bytes(SAMPLE)
        refuses(table.parent, 1, f"{long}: its name is too long{UNCHANGED}give it a shorter one", long, *EDITS[0])
        long = long.rename(table.parent / ("x" * 245))
        assert gates(long, *EDITS[0]).status == 0 and long.read_bytes() == SAMPLE + b"new:00\n"
        refuses(table.parent, 1, f"{'x' * 256}: it can't be reached: File name too long{UNCHANGED}{MEND}", "x" * 256, *EDITS[0])


@case("what a killed edit left beside the table goes, a link is not followed, and a folder in the way is named")
def in_the_way():
    with table_of() as table:
        beside, other = table.with_name("gates.psk.gates-new"), table.with_name("other")
        other.write_bytes(b"precious")
        for make in (lambda: beside.write_bytes(b"x" * 70000), lambda: beside.symlink_to(other), lambda: os.mkfifo(beside)):
            make()
            assert gates(table, *EDITS[0]).status == 0 and table.read_bytes() == SAMPLE + b"new:00\n" and not table.is_symlink()
            assert other.read_bytes() == b"precious" and {*table.parent.iterdir()} == {table, other}
            assert gates(table, "retire", "new").status == 0
        beside.mkdir()
        said = f"{table}: the new table can't be made beside it, as gates.psk.gates-new: Is a directory{UNCHANGED}{MEND}"
        refuses(table.parent, 1, said, table, *EDITS[0])


@case("a limit on the size of files is met by a sentence, not by the signal")
def file_size():
    def limit():
        resource.setrlimit(resource.RLIMIT_FSIZE, (len(SAMPLE), resource.RLIM_INFINITY))

    with table_of() as table:
        refuses(table.parent, 1, f"{table}: the new table can't be written: File too large{UNCHANGED}{MEND}", table, *EDITS[0], preexec_fn=limit)


# ---- several at once

@contextlib.contextmanager
def locked(folder):
    """Somebody else edits in the folder."""
    fd = os.open(folder, os.O_RDONLY)
    fcntl.flock(fd, fcntl.LOCK_EX)
    try:
        yield
    finally:
        os.close(fd)


@case("while somebody else has the lock an edit waits, for a bounded time, and looking does not")
def waiting():
    with table_of() as table:
        with locked(table.parent):
            began = time.monotonic()
            for words in EDITS:
                said = f"{table}: others have been editing in its folder for 1 s{UNCHANGED}try again when they are done"
                refuses(table.parent, 1, said, table, *words, program=FAULTS)
            assert 3 <= time.monotonic() - began < LIMIT
            assert gates(table, "list").status == 0 and gates(table, "check").status == 0
            edit = subprocess.Popen([SANITIZED, table, *EDITS[0]], stderr=subprocess.PIPE)
            time.sleep(1.5)  # longer than the time above: this build waits for 10 s
            assert edit.poll() is None and table.read_bytes() == SAMPLE
        _, said = edit.communicate(timeout=LIMIT)
        assert edit.returncode == 0 and said.endswith(f"{AGAIN}\n".encode()) and table.read_bytes() == SAMPLE + b"new:00\n"


WRITERS, ROUNDS = 4, 30


def office(table, number):
    """One office's edits, of its own gates; the lines that are to be left of them."""
    lines = {}
    for i in range(ROUNDS):
        name, program = f"office{number} gate{i}", SANITIZED if i % 5 == 0 else GATES
        assert gates(table, "add", name, f"{i:02x}", program=program).status == 0
        lines[name] = f"{i:02x}"
        if i % 3 == 2:
            assert gates(table, "retire", f"office{number} gate{i - 1}", program=program).status == 0
            del lines[f"office{number} gate{i - 1}"]
        if i % 4 == 3:
            assert gates(table, "replace", name, "ff" * 20, program=program).status == 0
            lines[name] = "ff" * 20
    return lines


@case("four offices that edit at once lose no line, and whoever reads meanwhile meets a whole table")
def offices():
    with table_of(None) as table, concurrent.futures.ThreadPoolExecutor(WRITERS) as pool:
        assert gates(table, "add", "first", "00").status == 0
        working = [pool.submit(office, table, number) for number in range(WRITERS)]
        looks = 0
        while not all(w.done() for w in working):
            run, looks = gates(table, "check", program=GATES), looks + 1
            assert run.status == 0, run
        wanted = {"first": "00"}
        for w in working:
            wanted.update(w.result())
        lines = table.read_text().splitlines()
        assert len(lines) == len(wanted) and dict(line.split(":") for line in lines) == wanted and looks > 10, looks
        assert [*table.parent.iterdir()] == [table]


# ---- with the gateway

@case("a gate that was added can log in after SIGHUP, and one that was retired is out")
def with_gateway():
    with table_of(None) as table:
        does(table, b"gate1:01\n", "add", "gate1", "01")
        with gateway("--table", table) as g:
            key = does(table, None, "add", "gate12")
            g.process.send_signal(signal.SIGHUP)
            assert g.next_line() == f"{table} read again, gates: 2"
            client = Client(g.port, identity=b"gate12", key=bytes.fromhex(key), timeout=LIMIT).handshake()
            g.line("complete", "gate12", "PSK-NULL-SHA256")
            does(table, b"gate1:01\n", "retire", "gate12")
            g.process.send_signal(signal.SIGHUP)
            g.line("after completion retired by the new table", "gate12", "PSK-NULL-SHA256")
            assert g.next_line() == f"{table} read again, gates: 1"
            client.socket.close()


@case("the program needs neither libcrypto nor any other library than C's")
def alone():
    text = subprocess.run(["readelf", "-d", GATES], capture_output=True, text=True, check=True, timeout=LIMIT).stdout
    assert re.findall(r"\(NEEDED\).*\[(.*)\]", text) == ["libc.so.6"], text
