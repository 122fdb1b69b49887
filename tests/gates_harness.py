"""What the tests of gates share: a folder with a table in it, runs of the program as a user makes them, the list of cases. Every wait is bounded."""
import collections
import contextlib
import os
import pathlib
import stat
import subprocess
import sys
import tempfile

from harness import LIMIT, TABLE

# as it is installed; under sanitizers; the same with faults; without what clears keys
GATES, SANITIZED, FAULTS, CARELESS = map(os.path.abspath, sys.argv[2:6])
SAMPLE = TABLE.read_bytes()
NOBODY = {"user": 65534, "group": 65534, "extra_groups": []} if os.geteuid() == 0 else {}
AGAIN = "; the gateway reads the table again on SIGHUP"
UNCHANGED = "; nothing was changed, "
DONE = {"add": "is added to", "replace": "has another key in", "retire": "is taken out of"}

Run = collections.namedtuple("Run", "status out err")
CASES, NOTES = [], []


def case(name):
    def keep(function):
        CASES.append((name, function))
        return function
    return keep


def note(text):
    """Something that this machine does not allow to be tried."""
    NOTES.append(text)


@contextlib.contextmanager
def table_of(text=SAMPLE, mode=0o600):
    """A table in a folder of its own; without a text there is none yet."""
    with tempfile.TemporaryDirectory() as folder:
        table = pathlib.Path(folder) / "gates.psk"
        if text is not None:
            table.write_bytes(text)
            table.chmod(mode)
        yield table


def gates(*words, program=SANITIZED, given=b"", **more):
    """Runs the program with these words; its exit status and what it printed, bytes that are no UTF-8 among them."""
    done = subprocess.run([program, *map(os.fspath, words)], **{"input": given, "capture_output": True, "timeout": LIMIT, **more})
    return Run(done.returncode, os.fsdecode(done.stdout or b""), os.fsdecode(done.stderr or b""))


def state(folder):
    """All that can be seen of a folder's files: whoever has written to one, or put another in its place, has changed it."""
    seen = {}
    for path in sorted(folder.rglob("*")):
        s = path.lstat()
        content = os.readlink(path) if path.is_symlink() else path.read_bytes() if stat.S_ISREG(s.st_mode) else None
        seen[path.relative_to(folder)] = (s.st_mode, s.st_uid, s.st_gid, s.st_ino, s.st_mtime_ns, content)
    return seen


def refuses(folder, status, sentence, *words, **more):
    """One sentence and nothing else comes of it."""
    before, run = state(folder), gates(*words, **more)
    assert run == (status, "", f"gates: {sentence}\n"), (words, run)
    assert state(folder) == before, (words, before, state(folder))


def does(table, wanted, command, name, *key, **more):
    """The edit is done: the sentence, the table's bytes, and no file beside it. What was printed, a drawn key or nothing."""
    run, shown = gates(table, command, name, *key, **more), os.fsdecode(name)
    assert run[::2] == (0, f'gates: "{shown}" {DONE[command]} {table}{AGAIN}\n'), (command, name, run)
    if wanted is not None:
        assert run.out == "" and table.read_bytes() == wanted, (command, name, run, table.read_bytes())
    assert [*table.resolve().parent.iterdir()] == [table.resolve()], "a file was left beside the table"
    return run.out
