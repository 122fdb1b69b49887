"""What the tests of the gate share: files with keys, runs of the gate, what is expected of them."""
import collections
import contextlib
import os
import pathlib
import subprocess
import sys
import tempfile

from harness import KEY, LIMIT
from plain_client import DATA

GATE, MBEDTLS_SERVER = (os.path.abspath(program) for program in sys.argv[4:6])
RAW = bytes.fromhex(KEY)
NAMES = {10: "unexpected_message", 20: "bad_record_mac", 22: "record_overflow", 40: "handshake_failure", 47: "illegal_parameter", 50: "decode_error",
         51: "decrypt_error", 70: "protocol_version", 110: "unsupported_extension", 115: "unknown_psk_identity"}
FAILED, MISUSED, BAD_KEYS, UNLISTED, NOT_FOUND, NO_ANSWER, TIME_OUT, WAS_TOLD, HAS_TOLD, NOT_OPENED, LOST = range(1, 12)  # its exit statuses

Run = collections.namedtuple("Run", "status out err")


@contextlib.contextmanager
def keys(text=f"gate7:{KEY}\n", mode=0o600):
    """A file with keys."""
    with tempfile.TemporaryDirectory() as folder:
        file = pathlib.Path(folder) / "keys.psk"
        file.write_bytes(text if isinstance(text, bytes) else text.encode())
        file.chmod(mode)
        yield file


class Gate:
    """The gate, at work; standard output and error apart."""

    def __init__(self, *words, stdin=subprocess.PIPE, **more):
        self.process = subprocess.Popen([GATE, *map(str, words)], stdin=stdin, **{"stdout": subprocess.PIPE, "stderr": subprocess.PIPE, **more})

    def end(self, given=b""):
        """Gives it this on standard input, and waits for its end."""
        try:
            out, err = self.process.communicate(given if self.process.stdin else None, timeout=LIMIT)
        except subprocess.TimeoutExpired:
            self.process.kill()
            raise AssertionError("the gate did not end") from None
        return Run(self.process.returncode, (out or b"").decode(errors="surrogateescape"), (err or b"").decode(errors="surrogateescape"))


def gate(*words, given=b"", **more):
    return Gate(*words, **more).end(given)


def at(port):
    return f"127.0.0.1:{port}"


def login(port, identity, key, *lines, given=b""):
    """A run as this gate, with a file of its own."""
    with keys(f"{identity}:{key}\n") as file:
        return gate("--keys", file, at(port), *lines, given=given)


def said(run, status, port, text, out=""):
    """It has ended so, with one line."""
    assert run == Run(status, out, f"gate: {at(port)}: {text}\n"), run


def enrolled(*lines):
    return "".join(f"enrolled {line}\n" for line in lines)


def answer(s, line, text=None):
    """Takes this line, and gives its answer, or the text."""
    got = s.receive()
    assert got == (DATA, line + b"\n"), got
    s.send(DATA, b"enrolled " + line + b"\n" if text is None else text)
