"""Cases of gates killed at every step, with each of its calls failing, on a disk that is full, and of keys in its memory when it ends."""
import ctypes
import errno
import functools
import os
import re
import signal
import subprocess

from gates_harness import CARELESS, FAULTS, GATES, SAMPLE, UNCHANGED, case, gates, note, table_of
from harness import KEYS, LIMIT

LINE = re.escape(SAMPLE) + rb"gate12:[0-9a-f]{64}\n"
BESIDE = "gates.psk.gates-new"
PREPARING = 4  # calls before the command is looked at


# ---- each call

class Edit:
    """A run of the program that is hurt at one of its calls: the table before it, the words, and what the table is when it is done."""

    def __init__(self, words, old, new, given=b"", left=False, drawn=False):
        self.words, self.old, self.given, self.left, self.drawn = words, old, given, left, drawn
        self.new = re.compile(new, re.S)

    def prepared(self):
        return table_of(self.old, mode=0o640)

    def start(self, table, fault=None, **more):
        if self.left:  # by an edit that was killed
            table.with_name(BESIDE).write_bytes(b"x" * 999)
        environment = {**os.environ, **({"GATES_FAULT": fault} if fault else {}), **more.pop("env", {})}
        return gates(table, *self.words, program=FAULTS, given=self.given, env=environment, **more)

    @functools.cached_property
    def calls(self):
        """The names of its calls, where nothing goes wrong."""
        reading, writing = os.pipe()
        with self.prepared() as table, open(reading) as names:
            run = self.start(table, env={"GATES_CALLS": str(writing)}, pass_fds=[writing])
            os.close(writing)
            assert run.status == 0 and self.done(table), run
            return names.read().split()

    def done(self, table):
        return table.exists() and self.new.fullmatch(table.read_bytes()) is not None

    def undone(self, table):
        return table.read_bytes() == self.old if self.old is not None else not table.exists()

    def clean(self, table):
        """Nothing is beside the table that was not there before, and its mode is kept."""
        allowed = {table.name} | ({BESIDE} if self.left and not self.done(table) else set())
        mode = table.stat().st_mode & 0o7777 if table.exists() else None
        return {p.name for p in table.parent.iterdir()} <= allowed and mode in (None, 0o640 if self.old is not None else 0o600)

    def begun_at(self):
        """The number of the call that makes the file beside the table, or finds that there is one."""
        return [k for k, name in enumerate(self.calls, 1) if name == "openat"][1]

    def renamed_at(self):
        """The number of the call that puts the new table in place."""
        assert self.calls.count("renameat") == 1
        return self.calls.index("renameat") + 1


ADD = Edit(["add", "gate12"], SAMPLE, LINE, drawn=True)
EDITS = [ADD, Edit(["add", "gate12"], None, rb"gate12:[0-9a-f]{64}\n", drawn=True),
         Edit(["add", "gate12", "-"], SAMPLE, re.escape(SAMPLE) + b"gate12:c0ff\n", given=b"C0FF\n", left=True),
         Edit(["replace", "gate7", "C0"], SAMPLE, b"gate7:c0\n" + re.escape(SAMPLE.split(b"\n", 1)[1])),
         Edit(["retire", "gate8"], SAMPLE, re.escape(b"".join(line for line in SAMPLE.splitlines(True) if b"gate8" not in line)))]


def every_call():
    """Each edit with the number of each of its calls."""
    return [(edit, k) for edit in EDITS for k in range(1, len(edit.calls) + 1)]


@case("the order of an edit: locked, read, written beside, rights, disk, renamed, disk; the key last")
def order():
    prepared = ["open", "close", "setrlimit", "prctl", "getrandom", "realpath", "open"]
    locked = ["flock", "openat", "fstat", "read", "read"]
    written = ["openat", "write", "fchown", "fgetxattr", "fremovexattr", "fchmod", "fsync", "close", "renameat", "fsync", "close", "close"]
    assert ADD.calls == prepared + locked + written + ["write", "close"], ADD.calls
    assert EDITS[3].calls == [c for c in prepared if c != "getrandom"] + locked + written, EDITS[3].calls
    assert "unlinkat" in EDITS[2].calls and "lstat" in EDITS[1].calls


@case("killed before or after any call: the old table or the new one, and the next edit works and leaves no file beside it")
def killed():
    for edit, k in every_call():
        for when in ("before", "after"):
            with edit.prepared() as table:
                run = edit.start(table, f"{when}:{int(signal.SIGKILL)}:{k}")
                assert run.status == -signal.SIGKILL, (edit.words, k, run)
                renamed = k > edit.renamed_at() or (k == edit.renamed_at() and when == "after")
                assert edit.done(table) if renamed else edit.undone(table), (edit.words, when, k, edit.calls[k - 1])
                before = table.read_bytes() if table.exists() else b""
                run = gates(table, "add", "next", "00", program=GATES)
                assert run.status == 0 and table.read_bytes() == before + b"next:00\n", (edit.words, when, k, run)
                assert [*table.parent.iterdir()] == [table], (edit.words, when, k)


INTERRUPTS = (signal.SIGTERM, signal.SIGINT, signal.SIGHUP, signal.SIGQUIT)


def heard():
    """No interrupt is ignored, as some are where the tests run under nohup or in the background."""
    for number in INTERRUPTS:
        signal.signal(number, signal.SIG_DFL)


@case("interrupted at any call: nothing is done, or all and the key is printed; never a file beside the table")
def interrupted():
    for edit, k in every_call():
        number = INTERRUPTS[k % 4]
        with edit.prepared() as table:
            run = edit.start(table, f"before:{int(number)}:{k}", preexec_fn=heard)
            assert edit.clean(table), (edit.words, k, run)
            if k >= edit.begun_at():
                assert run.status == 0 and edit.done(table) and bool(run.out) == edit.drawn, (edit.words, k, run)
            else:
                assert run.status == -number and edit.undone(table), (edit.words, k, run)


@case("any call fails, for want of space or of a sound disk: the old table and a sentence; after the renaming the new one, and the sentence says so")
def failing():
    for edit, k in every_call():
        for number in (errno.ENOSPC, errno.EIO, errno.EDQUOT):
            with edit.prepared() as table:
                run = edit.start(table, f"fail:{number}:{k}")
                what = edit.words, k, edit.calls[k - 1], run
                assert edit.clean(table), what
                if run.status == 0:  # what was only read need not be closed well; the new file does, before it is renamed
                    assert edit.done(table) and edit.calls[k - 1] in ("close", "lstat") and k != edit.renamed_at() - 1, what
                    continue
                assert run.status == 1 and re.fullmatch(rf"gates: [^\n]*{re.escape(os.strerror(number))}[^\n]*\n", run.err), what
                assert run.out == "" or k == len(edit.calls), what  # the last call is the closing of what the key was printed to
                if k <= edit.renamed_at():
                    assert edit.undone(table) and (UNCHANGED in run.err or k <= PREPARING), what
                else:
                    assert edit.done(table) and UNCHANGED not in run.err and ("replace draws another" in run.err) == edit.drawn, what


@case("the folder can't be written to the disk after the renaming: the sentences")
def not_lasting():
    for edit, remedy in [(ADD, "its key was not printed, replace draws another"), (EDITS[3], "look at the disk, then at the list")]:
        with edit.prepared() as table:
            run = edit.start(table, f"fail:{errno.EIO}:{edit.renamed_at() + 1}")
            said = f"{table}: the new table is in place, but may be lost when the power fails: Input/output error; {remedy}"
            assert run == (1, "", f"gates: {said}\n") and edit.done(table), run


@case("any call that reads or writes is cut short, and goes on")
def short():
    for edit, k in every_call():
        if edit.calls[k - 1] in ("read", "write", "getrandom"):
            with edit.prepared() as table:
                run = edit.start(table, f"short:0:{k}")
                assert run.status == 0 and edit.done(table) and edit.clean(table) and bool(run.out) == edit.drawn, (edit.words, k, run)
                assert not edit.drawn or table.read_text().endswith(f":{run.out}"), run


@case("looking with any call failing: a sentence and 1, or all that was asked for")
def looking():
    for command, wanted in [("list", "gate7\ngate8\nbarn-office\n"), ("check", "well formed, gates: 3\n")]:
        for k in range(1, 20):
            with table_of() as table:
                run = gates(table, command, program=FAULTS, env={**os.environ, "GATES_FAULT": f"fail:{errno.EIO}:{k}"})
                said = re.fullmatch(r"gates: [^\n]*Input/output error[^\n]*\n", run.err)
                assert run == (0, wanted, "") or (run[:2] == (1, "") and said), (command, k, run)
                assert table.read_bytes() == SAMPLE and [*table.parent.iterdir()] == [table]
        assert run.status == 0, "there were more calls than were tried"


# ---- a disk that is full

FULL_DISK = r"""
set -eu
folder=$1 program=$2
try() {  # SIZE INODES BLOCKS: a disk of so many bytes and files, on which another file takes up so many blocks of 4,096 bytes
    mount -t tmpfs -o "size=$1,nr_inodes=$2" none "$folder"
    cat >"$folder/gates.psk" <"$folder.old"
    dd if=/dev/zero of="$folder/rest" bs=4096 count="$3" status=none
    status=0
    "$program" "$folder/gates.psk" add gate12 c0ffee 2>"$folder.said" || status=$?
    cmp "$folder/gates.psk" "$folder.old"
    echo "$status" "$(ls -A "$folder" | tr '\n' ' ')" "$(cat "$folder.said")"
    rm "$folder/rest"
    "$program" "$folder/gates.psk" add gate12 c0ffee 2>"$folder.said"
    tail -n 1 "$folder/gates.psk"
    umount "$folder"
}
try 16k 9 2
try 16k 9 1
try 16k 3 0
"""


@case("a disk that is really full: the old table, a sentence, no file beside it; with more room the same edit is done")
def full_disk():
    alone = ["unshare", "--mount", "--propagation", "private", *([] if os.geteuid() == 0 else ["--map-root-user"])]
    old = b"".join(b"%0100d:%s\n" % (i, b"a7" * 32) for i in range(30))  # of two blocks
    with table_of(None) as table:
        folder = table.parent
        folder.with_name(f"{folder.name}.old").write_bytes(old)
        try:
            if subprocess.run([*alone, "mount", "-t", "tmpfs", "none", folder], capture_output=True, timeout=LIMIT).returncode != 0:
                note("a disk that is really full, since a folder of its own can't be mounted; calls that fail with ENOSPC were tried")
                return
            run = subprocess.run([*alone, "sh", "-c", FULL_DISK, "sh", folder, GATES], capture_output=True, text=True, timeout=LIMIT)
        finally:
            for name in ("old", "said"):
                folder.with_name(f"{folder.name}.{name}").unlink(missing_ok=True)
        written = f"gates: {table}: the new table can't be written: No space left on device{UNCHANGED}mend that and try again"
        made = f"gates: {table}: the new table can't be made beside it, as {BESIDE}: No space left on device{UNCHANGED}mend that and try again"
        assert run.returncode == 0 and run.stdout == "".join(f"1 gates.psk rest  {said}\ngate12:c0ffee\n" for said in (written, written, made)), run


# ---- keys in memory

TRACE_ME, CONTINUE, DETACH, SET_OPTIONS, STOP_AT_EXIT, EXIT_EVENT = 0, 7, 17, 0x4200, 0x40, 6  # of ptrace
LIBC = ctypes.CDLL(None, use_errno=True)
LIBC.ptrace.argtypes = [ctypes.c_long, ctypes.c_long, ctypes.c_void_p, ctypes.c_void_p]
LIBC.ptrace.restype = ctypes.c_long


def memory_at_end(program, table, *words, given=b""):
    """Runs it, and stops it as it ends: all bytes of its writable memory then."""
    process = subprocess.Popen([program, table, *words], stdin=subprocess.PIPE, stdout=subprocess.DEVNULL, stderr=subprocess.DEVNULL,
                               preexec_fn=lambda: LIBC.ptrace(TRACE_ME, 0, None, None))
    process.stdin.write(given)
    process.stdin.close()
    _, status = os.waitpid(process.pid, 0)
    assert os.WIFSTOPPED(status), f"it can't be traced: status {status}"
    LIBC.ptrace(SET_OPTIONS, process.pid, None, STOP_AT_EXIT)
    with open(f"/proc/{process.pid}/maps") as maps, open(f"/proc/{process.pid}/mem", "rb", buffering=0) as memory:
        LIBC.ptrace(CONTINUE, process.pid, None, None)
        _, status = os.waitpid(process.pid, 0)
        assert status >> 8 == signal.SIGTRAP | EXIT_EVENT << 8, f"it did not end: status {status:x}"
        places = [[int(x, 16) for x in line.split()[0].split("-")] for line in maps if line.split()[1].startswith("rw")]
        found = b"".join(os.pread(memory.fileno(), end - at, at) for at, end in places)
    LIBC.ptrace(DETACH, process.pid, None, None)
    assert process.wait(LIMIT) == 0 and found
    return found


def pieces(key):
    """What counts as found: eight bytes of the key in a row, or as many digits of either case."""
    return [key[i : i + 8] for i in range(0, len(key) - 7, 4)] + [key.hex()[i : i + 16].encode() for i in range(0, 2 * len(key) - 15, 8)] \
        + [key.hex().upper()[i : i + 16].encode() for i in range(0, 2 * len(key) - 15, 8)]


@case("when it ends no key is left in its memory, of the table, the command line, standard input or the drawing; without clearing they are")
def keys_in_memory():
    key = os.urandom(32)
    for words, given in [(["list"], b""), (["add", "gate12", key.hex().upper()], b""), (["add", "gate12", "-"], key.hex().encode() + b"\n"),
                         (["add", "gate12"], b""), (["replace", "gate8", key.hex()], b""), (["retire", "gate7"], b"")]:
        for program in (GATES, CARELESS):
            with table_of() as table:
                memory = memory_at_end(program, table, *words, given=given)
                listed = [line.split(":")[1] for line in table.read_text().splitlines()]  # a drawn key among them
                known = {bytes.fromhex(k) for k in (*KEYS.values(), *listed)}
                found = {k for k in known if any(piece in memory for piece in pieces(k))}
                assert not found if program == GATES else found >= {bytes.fromhex(k) for k in listed}, (program, words, found)
