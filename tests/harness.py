"""What the gateway's tests share: a gateway under test, programs whose output is read as it comes, and the list of cases. Every wait is bounded."""
import contextlib
import os
import pathlib
import re
import signal
import subprocess
import sys
import threading
import time

from plain_client import WAY, Way

GATEWAY = sys.argv[1]  # under sanitizers
FAST_GATEWAY = sys.argv[3] if len(sys.argv) > 3 else GATEWAY  # as it is installed, where time is measured
TABLE = pathlib.Path(__file__).resolve().parent.parent / "gateway/gates.psk"
KEYS = dict(line.split(":") for line in TABLE.read_text().split())
KEY = KEYS["gate7"]
LIMIT = 20  # seconds, for anything that is waited for
NAMES = {10: "unexpected_message", 20: "bad_record_mac", 22: "record_overflow", 40: "handshake_failure", 47: "illegal_parameter", 50: "decode_error",
         51: "decrypt_error", 70: "protocol_version", 115: "unknown gate"}
STAMP = r"^\d{4}-\d\d-\d\dT\d\d:\d\d:\d\d\.\d{3}Z "  # in front of each line of the gateway


def until(holds, what):
    end = time.monotonic() + LIMIT
    while not holds():
        assert time.monotonic() < end, f"waited {LIMIT} seconds for {what}"
        time.sleep(0.005)


class Program:
    """A program whose output is read as it comes."""

    def __init__(self, words, started=None, **more):
        self.process = subprocess.Popen([str(w) for w in words], stdin=subprocess.PIPE, stdout=subprocess.PIPE, stderr=subprocess.STDOUT, **more)
        if started:
            started(self.process)
        self.text = ""
        self.reader = threading.Thread(target=self.read, daemon=True)
        self.reader.start()

    def read(self):
        for data in iter(lambda: os.read(self.process.stdout.fileno(), 65536), b""):
            self.text += data.decode(errors="replace")

    def over(self):
        return self.process.poll() is not None

    def end(self):
        """Waits for its end; its exit status."""
        try:
            return self.process.wait(LIMIT)
        except subprocess.TimeoutExpired:
            self.process.kill()
            raise AssertionError(f"did not end: {self.text}") from None
        finally:
            self.reader.join(LIMIT)


class Gateway(Program):
    def __init__(self, *options, program=GATEWAY, **more):
        super().__init__([program, "--port", 0, *WAY.options, *(options if "--table" in options else ("--table", TABLE, *options))], **more)
        until(lambda: re.search(r"listening on .*\n", self.text) or self.over(), "the gateway")
        found = re.search(r"listening on \S+:(\d+),", self.text)
        assert found, self.text
        self.port = int(found[1])
        self.seen = self.text.index("\n", found.end()) + 1

    def next_line(self):
        """The next line, without its time."""
        until(lambda: "\n" in self.text[self.seen :], "a line")
        line, _, _ = self.text[self.seen :].partition("\n")
        self.seen += len(line) + 1
        assert re.match(STAMP, line), f"no time in front of '{line}'"
        return re.sub(STAMP, "", line)

    def line(self, outcome, gate=None, suite=None):
        """The next line is of a connection that ended so."""
        line, wanted = self.next_line(), f"""gate {'-' if gate is None else f'"{gate}"'} suite {suite or '-'}: {outcome}"""
        assert re.fullmatch(r"127\.0\.0\.1:\d+ " + re.escape(wanted), line), f"the gateway says '{line}', not '{wanted}'"

    def stop(self, number=signal.SIGTERM):
        """Ends it; nothing was left to be said, and no sanitizer spoke."""
        if number:
            self.process.send_signal(number)
        status = self.end()
        rest = self.text[self.seen :]
        assert status == 0 and "Sanitizer" not in self.text and "runtime error" not in self.text, f"status {status}\n{self.text}"
        return rest


@contextlib.contextmanager
def gateway(*options, **more):
    g = Gateway(*options, **more)
    try:
        yield g
    except BaseException:
        g.process.kill()
        raise
    rest = g.stop() if not g.over() else g.stop(None)
    assert rest == "", f"lines that no case asked for: {rest}"


@contextlib.contextmanager
def proved_records():
    """The gateways and clients that are made in it by this thread are of the way in which the library makes the records."""
    WAY.options, WAY.answers_close = ("--records", "proved"), False
    try:
        yield
    finally:
        WAY.options, WAY.answers_close = Way.options, Way.answers_close


# the cases, (name, function); those that measure time are run alone, after the others
CASES, ALONE = [], []


def case(name, alone=False):
    def keep(function):
        (ALONE if alone else CASES).append((name, function))
        return function
    return keep
