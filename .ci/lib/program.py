"""The programs of the crates: where they are, and how a check runs them. `.ci/lib/program.py CRATE..` proves and builds some."""
import contextlib
import os
import resource
import subprocess
import sys
from functools import cached_property
from pathlib import Path
from typing import NamedTuple

ROOT = Path(__file__).resolve().parents[2]
# (first, since a check has this name too)
sys.path.insert(0, str(ROOT / "tools"))
import programs

# How many lines of a build that failed are shown.
SHOWN = 40


class Limits(NamedTuple):
    """What a run may take: seconds of a processor, and bytes of addresses. None is no limit."""

    seconds: int | None = None
    memory: int | None = None

    def set(self, pid: int) -> None:
        """Sets them for a process that has just begun. (In it, between fork and exec, no thread of this program is at work.)"""
        for kind, most in ((resource.RLIMIT_CPU, self.seconds), (resource.RLIMIT_AS, self.memory)):
            if most is not None:
                with contextlib.suppress(ProcessLookupError):
                    resource.prlimit(pid, kind, (most, most))


class Ran(NamedTuple):
    """How a run ended: its status, and what it printed on each stream."""

    status: int
    out: str
    err: str

    def __str__(self) -> str:
        """All three as a text, for a report: the lines behind `| ` and `! `, as in the rows of runs."""
        lines = [f"| {it}" for it in self.out.splitlines()] + [f"! {it}" for it in self.err.splitlines()]
        return "\n".join([*lines, f"= {self.status}"])


class Cost(NamedTuple):
    """What a run took: its status, seconds of a processor, and KiB of memory."""

    status: int
    seconds: float
    memory: int


def built(crate: str) -> Path:
    """The program of a crate, proved and built, unless one is there that was proved of the present sources. With BUILT=yes it has to
    be there: the gate has just built it."""
    path = ROOT / "crates" / crate / "out" / crate
    if os.environ.get("BUILT") != "yes" and not (os.access(path, os.X_OK) and programs.is_proved(crate, path)):
        kept = programs.place_of(crate)
        such = f", such as {kept.relative_to(ROOT)}" if kept and kept.is_file() else ""
        print(f"{crate}: `rt run` proves and builds it, in minutes or hours; a check also takes the path of a program{such}",
              file=sys.stderr, flush=True)
        with open(ROOT / "crates" / crate / "stdin", "rb") as given:
            ran = subprocess.run(["rt", "run"], cwd=ROOT / "crates" / crate, stdin=given, stdout=subprocess.PIPE,
                                 stderr=subprocess.STDOUT, text=True, errors="backslashreplace", check=False)
        if ran.returncode:
            print("\n".join(ran.stdout.splitlines()[-SHOWN:]))
            sys.exit(f"{crate} isn't built")
    if not os.access(path, os.X_OK):
        sys.exit(f"there is no program of {crate}: {path.relative_to(ROOT)}")
    return path


class Program:
    """A program of a crate: the one that is built, or another that was asked for."""

    def __init__(self, crate: str, path: Path | None = None) -> None:
        self.crate, self.path = crate, path or built(crate)

    @property
    def name(self) -> str:
        """How the program calls itself."""
        return self.crate.replace("_", "-")

    @cached_property
    def is_checked(self) -> bool:
        """Whether it has run-time checks, as `rt try` builds it: then it is slow, and reserves more addresses than any limit. No
        limit is set for it then, and no library comes before its own allocator."""
        return b"__asan_init" in self.path.read_bytes()

    def run(self, *words: str | Path, stdin: str | bytes | Path = b"", stdout: Path | None = None, env: dict[str, str] | None = None,
            limits: Limits = Limits(), timeout: float = 600, cwd: Path = ROOT) -> Ran:
        """Runs it with these words, this standard input (a text, or what has this path), and these variables in addition to the others.
        Its standard output goes to a file, if one is named."""
        opened = [os.open(it, how) for it, how in ((stdin, os.O_RDONLY), (stdout, os.O_WRONLY)) if isinstance(it, Path)]
        try:
            child = subprocess.Popen(
                [self.path, *words], cwd=cwd, env={**os.environ, **(env or {})}, stderr=subprocess.PIPE,
                stdin=opened[0] if isinstance(stdin, Path) else subprocess.PIPE, stdout=opened[-1] if stdout else subprocess.PIPE)
        finally:
            for it in opened:
                os.close(it)
        with child:
            if not self.is_checked:
                limits.set(child.pid)
            try:
                out, err = child.communicate(None if isinstance(stdin, Path) else as_bytes(stdin), timeout=timeout)
            except BaseException:
                child.kill()
                raise
        return Ran(child.returncode, as_text(out or b""), as_text(err))

    def cost(self, *words: str | Path, stdin: Path, stdout: int = subprocess.DEVNULL, stderr: int | None = None) -> Cost:
        """Runs it, and answers what it took."""
        with open(stdin, "rb") as file:
            child = subprocess.Popen([self.path, *words], cwd=ROOT, stdin=file, stdout=stdout, stderr=stderr)
            _, status, used = os.wait4(child.pid, 0)
            child.returncode = os.waitstatus_to_exitcode(status)
        return Cost(child.returncode, used.ru_utime + used.ru_stime, used.ru_maxrss)


def as_bytes(text: str | bytes) -> bytes:
    """A text in UTF-8."""
    return text.encode() if isinstance(text, str) else text


def as_text(printed: bytes) -> str:
    """What a program printed; a byte that is no UTF-8 is written with a backslash."""
    return printed.decode(errors="backslashreplace")


if __name__ == "__main__":
    for crate in sys.argv[1:]:
        print(built(crate))
