"""am-dispatch as a child process: each line's answer comes before the next line is sent."""
import json
import os
import select
import subprocess
import time
from typing import IO

from .program import Limits, Program, as_bytes
from .report import is_same
from .rows import Json

# What a board shows.
VIEWS = ("summary", "groups", "rows", "tickets", "next_due")
# How many bytes of answers are read at a time.
CHUNK = 1 << 20


class NoAnswer(Exception):
    """The program ended, or doesn't answer."""


class Board:
    """The program, with pipes on both sides."""

    def __init__(self, program: Program, limits: Limits = Limits(), env: dict[str, str] | None = None) -> None:
        self.child = subprocess.Popen([program.path], stdin=subprocess.PIPE, stdout=subprocess.PIPE, stderr=subprocess.PIPE,
                                      env={**os.environ, **(env or {})})
        limits.set(self.child.pid)
        self.rest = b""

    @property
    def input(self) -> IO[bytes]:
        """Its standard input."""
        assert self.child.stdin
        return self.child.stdin

    @property
    def output(self) -> IO[bytes]:
        """Its standard output."""
        assert self.child.stdout
        return self.child.stdout

    def complaint(self) -> bytes:
        """What it printed on standard error, to its end."""
        assert self.child.stderr
        return self.child.stderr.read()

    def read(self, seconds: float = 60) -> bytes:
        """The next line of answers, which has to come soon."""
        end = time.monotonic() + seconds
        while b"\n" not in self.rest:
            if not select.select([self.output], [], [], max(0, end - time.monotonic()))[0]:
                raise NoAnswer(f"no answer in {seconds} s")
            more = os.read(self.output.fileno(), CHUNK)
            if not more:
                raise NoAnswer(f"the output ended, status {self.child.wait()}: {self.complaint()!r}")
            self.rest += more
        line, _, self.rest = self.rest.partition(b"\n")
        return line

    def send(self, text: str | bytes) -> None:
        """Sends bytes as they are."""
        self.input.write(as_bytes(text))
        self.input.flush()

    def ask(self, line: str | bytes) -> bytes:
        """The answer to a line."""
        self.send(as_bytes(line) + b"\n")
        return self.read()

    def reply(self, line: str | bytes) -> Json:
        """The answer to a line, which is JSON."""
        return json.loads(self.ask(line))

    def error(self, line: str | bytes) -> tuple[str, str]:
        """The pointer and the kind of the error that answers a line."""
        answer = self.reply(line)
        is_same([*answer], ["error"], f"the answer to {line[:200]!r}")
        if not answer["error"]["message"]:
            raise NoAnswer(f"an error without a message: {answer}")
        return answer["error"]["pointer"], answer["error"]["kind"]

    def views(self) -> list[bytes]:
        """All that the board shows."""
        return [self.ask(json.dumps({it: {}})) for it in VIEWS]

    def end(self) -> tuple[bytes, int, bytes]:
        """Ends the input, and returns the rest of the output, the status and the complaint."""
        self.input.close()
        rest = self.rest + self.output.read()
        return rest, self.child.wait(timeout=60), self.complaint()

    def ends_well(self) -> None:
        """Ends the input. The status is 0."""
        is_same(self.end()[1], 0, "the status")
