"""What a check prints, and how it ends.

A check is a program of parts: `.ci/checks/NAME.py [--write] [PART [CASE..]] [PROGRAM..]`. Without a part it runs all. A CASE is
a piece of the name of cases: no others are reported. A word that is the path of a program, with a slash, is the one to run in
place of the one that is built, for the crate that it is named after. `--write` has each stored output be what the program gives
now; look at it before you keep it.
"""
import difflib
import json
import os
import shlex
import sys
import threading
import traceback
from collections.abc import Callable, Iterable, Mapping
from pathlib import Path

from .program import ROOT, Program

# How many lines around a difference are shown, and how many lines of a difference at most.
AROUND, MOST = 3, 60
# How much of a line is shown.
WIDE = 400


class Differs(Exception):
    """A case gave something else than it had to."""

    def __init__(self, name: str, expected: object, got: object) -> None:
        super().__init__(name)
        self.name, self.expected, self.got = name, expected, got


def is_same(got: object, expected: object, name: str = "") -> None:
    """Raises what a report shows as a difference, unless the two are the same."""
    if got != expected:
        raise Differs(name, expected, got)


def text_of(value: object) -> str:
    """A value as lines, of which those that differ can be seen."""
    if isinstance(value, str):
        return value
    if isinstance(value, bytes):
        return value.decode(errors="backslashreplace")
    if isinstance(value, tuple) and not hasattr(value, "_fields"):
        return "\n".join(map(text_of, value))
    if isinstance(value, (dict, list)):
        return json.dumps(value, indent=1, ensure_ascii=False, default=repr)
    return str(value)


def difference(expected: object, got: object, stored: str, program: str) -> list[str]:
    """The lines of a unified diff, with how many more there are where they are many."""
    one, other = (text_of(it).splitlines() for it in (expected, got))
    lines = [it[:WIDE] + " .." if len(it) > WIDE else it
             for it in difflib.unified_diff(one, other, stored, program, n=AROUND, lineterm="")]
    if not lines:
        return [f"only the line feeds or the kinds differ: {expected!r:.{WIDE}}", f"{got!r:.{WIDE}}"]
    return lines if len(lines) <= MOST else [*lines[:MOST], f".. and {len(lines) - MOST} lines more"]


def path_of(file: Path) -> str:
    """How a report names a file of this repository."""
    return str(file.relative_to(ROOT))


class Report:
    """The cases of a part: what it prints of each, and how many there were."""

    def __init__(self, command: str, part: str, cases: list[str], is_written: bool, asked: list[Path]) -> None:
        built = "BUILT=yes " * (os.environ.get("BUILT") == "yes")
        self.command, self.part, self.cases, self.is_written = built + command, part, cases, is_written
        self.asked = "".join(f" {shlex.quote(str(it))}" for it in asked)
        self.passed, self.failed, self.skipped = 0, 0, 0
        self.lock = threading.Lock()

    def wants(self, name: str) -> bool:
        """Whether a case of this name is asked for."""
        return not self.cases or any(it in name for it in self.cases)

    def concerns(self, subject: str) -> bool:
        """Whether a case can be asked for whose name has this."""
        return not self.cases or any(it in subject or subject in it for it in self.cases)

    def ok(self, name: str) -> None:
        """A case passed."""
        if self.wants(name):
            self.passed += 1
            print(f"ok      {name}", flush=True)

    def can_refuse(self, name: str, program: Program) -> bool:
        """Whether requests of a program for memory can be refused. If not, the case is skipped."""
        if program.is_checked:
            self.skip(name, "the program was built with run-time checks, and has an allocator of its own")
        return not program.is_checked

    def skip(self, name: str, why: str) -> None:
        """A case can't run here."""
        self.skipped += 1
        print(f"skipped {name}: {why}", flush=True)

    def fails(self, name: str, *lines: str) -> None:
        """A case failed: what its lines say, and the command that repeats it."""
        if self.wants(name):
            self.tell(name, lines, [name])

    def stops(self, why: str) -> None:
        """The part didn't end. That is printed whatever cases were chosen."""
        self.tell("a case that didn't end", [why], self.cases)

    def tell(self, name: str, lines: Iterable[str], cases: list[str]) -> None:
        """Prints what failed, and the command that repeats it with these cases."""
        with self.lock:
            self.failed += 1
            again = f"again: {self.command} {shlex.join([self.part, *cases])}{self.asked}"
            print("\n".join([f"differs {name}", *lines, again]), flush=True)

    def differs(self, name: str, expected: object, got: object, stored: str = "expected", program: str = "got") -> None:
        """A case failed: how what it gave differs from what it had to give."""
        self.fails(name, *difference(expected, got, stored, program))

    def same(self, name: str, expected: object, got: object, stored: str = "expected", program: str = "got") -> bool:
        """A case has to give this."""
        if expected == got:
            self.ok(name)
        else:
            self.differs(name, expected, got, stored, program)
        return expected == got

    def row(self, name: str, expected: object, got: object, stored: str = "expected", program: str = "got") -> None:
        """One of many rows has to give this. One that passes is printed only if cases were chosen."""
        if expected != got:
            self.differs(name, expected, got, stored, program)
        elif self.cases:
            self.ok(name)

    def holds(self, name: str, is_right: bool, *why: str) -> bool:
        """Something has to be so; if it isn't, these lines are printed."""
        if is_right:
            self.ok(name)
        else:
            self.fails(name, *why)
        return is_right

    def stored(self, name: str, file: Path, got: str, program: str = "got") -> bool:
        """A case has to give what a file has. With `--write` the file gets what it gave."""
        expected = file.read_text(encoding="utf-8") if file.exists() else ""
        if self.is_written and got != expected:
            file.write_text(got, encoding="utf-8")
            print(f"written {path_of(file)}", flush=True)
            expected = got
        return self.same(name, expected, got, path_of(file), program)

    def case(self, name: str, function: Callable[[], None]) -> None:
        """Runs a case that raises what is wrong. Whatever it raises, the other cases run."""
        if not self.wants(name):
            return
        try:
            function()
        except Differs as it:
            self.fails(name, *([it.name] if it.name else []), *difference(it.expected, it.got, "expected", "got"))
        except Exception as wrong:
            self.fails(name, f"{type(wrong).__name__}: {str(wrong)[:2000]}")
        else:
            self.ok(name)

    def at_least(self, least: int, count: int, what: str) -> None:
        """There have to be so many cases of a kind, unless some were chosen."""
        if count < least and not self.cases:
            self.fails(f"{what}: there are {count}, and at least {least} are wanted")

    def end(self) -> bool:
        """Prints the total. Whether all is well."""
        if not self.passed and not self.failed and not self.skipped:
            self.fails(f"no case {' or '.join(self.cases)}" if self.cases else "no case")
        skipped = f", {self.skipped} skipped" if self.skipped else ""
        print(f"{self.part}: {self.passed} passed, {self.failed} failed{skipped}", flush=True)
        return not self.failed


class Programs:
    """The programs that a check runs, each built when it is first wanted, or the one that was asked for."""

    def __init__(self, asked: list[Path], crates: tuple[str, ...]) -> None:
        self.programs: dict[str, Program] = {}
        for path in asked:
            named = path.name.replace("-", "_")
            crate = named if named in crates else crates[0]
            self.programs[crate] = Program(crate, path.resolve())

    def __getitem__(self, crate: str) -> Program:
        if crate not in self.programs:
            self.programs[crate] = Program(crate)
        return self.programs[crate]


def is_program(word: str) -> bool:
    """Whether a word is the path of a program."""
    return "/" in word and os.path.isfile(word) and os.access(word, os.X_OK)


Part = Callable[[Report, Programs], None]


def main(file: str, parts: Mapping[str, Part], crates: tuple[str, ...], about: str | None) -> None:
    """Runs the parts that the command line asks for, and ends with 1 if a case failed."""
    words = [it for it in sys.argv[1:] if it != "--write"]
    if "--help" in words:
        print(f"{about}\nParts: {', '.join(parts)}. {__doc__}")
        sys.exit(0)
    if unknown := [it for it in words if it.startswith("-")]:
        print(f"{Path(file).name}: unknown word {unknown[0]!r}; --help prints how it is used", file=sys.stderr)
        sys.exit(2)
    paths = [Path(it) for it in words if is_program(it)]
    words = [it for it in words if not is_program(it)]
    for it in words:
        if "/" in it and Path(it).name.replace("-", "_") in crates:
            # (else the program would be proved, which takes an hour)
            sys.exit(f"there is no program {it}")
    if words and words[0] not in parts:
        sys.exit(f"there is no part {words[0]}: {', '.join(parts)}")
    programs, command = Programs(paths, crates), str(Path(file).resolve().relative_to(ROOT))
    chosen = {words[0]: parts[words[0]]} if words else parts
    results = []
    for name, part in chosen.items():
        report = Report(command, name, words[1:], "--write" in sys.argv, paths)
        try:
            part(report, programs)
        except Exception:
            # (the other parts run)
            report.stops(traceback.format_exc())
        results.append(report.end())
    sys.exit(not all(results))
