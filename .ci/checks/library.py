#!/usr/bin/env python3
"""libfentdolmen, as `tools/library` builds it.

- `plays`: the programs of examples/library give the answers of crates/am_dispatch/stdout to the lines of its stdin, byte for byte.
  A language whose compiler isn't there is skipped, but not C and Python.
- `misuse`: .ci/c/library.c: handles that are closed, opened twice and closed twice, NULL, length 0, buffers of each length, a line
  that is too long, and a handle in each of four threads with the stack that the header asks for. Nothing is read or written that
  isn't the caller's, and nothing is lost (valgrind, where it is there).
- `refused`: each allocation fails in turn, while a board is opened and answers lines.
- `declared`: the libraries have the functions that the header declares, and no other names.
"""
import re
import shutil
import subprocess
import sys
import tempfile
from collections.abc import Callable
from functools import cache
from pathlib import Path

sys.path.insert(0, str(Path(__file__).resolve().parent.parent))
from lib import preload, report
from lib.program import ROOT
from lib.report import Programs, Report, is_same

LIBRARY = ROOT / "out/library"
EXAMPLES = ROOT / "examples/library"
LINES = ROOT / "crates/am_dispatch"
VALGRIND = ["valgrind", "-q", "--leak-check=full", "--show-leak-kinds=all", "--error-exitcode=99"]
# How many allocations there are at most until the board has answered.
MOST = 2_000


@cache
def built() -> Path:
    """The folder of the library."""
    ran = subprocess.run([ROOT / "tools/library", "--into", LIBRARY], stdout=subprocess.PIPE, stderr=subprocess.STDOUT, text=True,
                         errors="backslashreplace", check=False)
    if ran.returncode:
        sys.exit(f"{ran.stdout[-4000:]}\nthe library isn't built")
    return LIBRARY


def made(*words: str | Path, at: Path, env: dict[str, str] | None = None) -> None:
    """Runs a compiler."""
    ran = subprocess.run(words, cwd=at, env=env, stdout=subprocess.PIPE, stderr=subprocess.STDOUT, text=True, check=False)
    is_same(ran.returncode, 0, f"{words[0]}: {ran.stdout[-2000:]}")


def in_c(source: Path, at: Path) -> Path:
    """A program in C, compiled with the library."""
    program = at / source.stem
    made("cc", "-std=c11", "-O2", "-g", "-Wall", "-Wextra", "-Werror", "-pthread", source, "-I", built(), built() / "libfentdolmen.a",
         "-o", program, at=at)
    return program


def c(at: Path) -> list[str | Path]:
    return [in_c(EXAMPLES / "play.c", at)]


def checked_c(at: Path) -> list[str | Path]:
    return [*VALGRIND, in_c(EXAMPLES / "play.c", at)]


def shared_c(at: Path) -> list[str | Path]:
    made("cc", "-std=c11", "-O2", EXAMPLES / "play.c", "-I", built(), "-L", built(), "-lfentdolmen", f"-Wl,-rpath,{built()}", "-o",
         at / "play", at=at)
    return [at / "play"]


def python(at: Path) -> list[str | Path]:
    return [sys.executable, EXAMPLES / "fentdolmen.py", built() / "libfentdolmen.so"]


def go(at: Path) -> list[str | Path]:
    shutil.copytree(EXAMPLES / "go", at, dirs_exist_ok=True)
    env = {"PATH": "/usr/local/go/bin:/usr/local/bin:/usr/bin:/bin", "HOME": str(at), "GOFLAGS": "-mod=mod", "GOPROXY": "off",
           "CGO_ENABLED": "1", "CGO_CFLAGS": f"-I{built()}", "CGO_LDFLAGS": str(built() / "libfentdolmen.a")}
    made("go", "build", "-o", "play", ".", at=at, env=env)
    return [at / "play"]


def rust(at: Path) -> list[str | Path]:
    made("rustc", "-O", "--edition=2021", EXAMPLES / "play.rs", "-L", built(), "-l", "static=fentdolmen", "-o", at / "play", at=at)
    return [at / "play"]


# The name of each play, what it needs, and how it is made ready.
Play = Callable[[Path], list[str | Path]]
PLAYS: list[tuple[str, str, Play]] = [
    ("C", "cc", c), ("C with the shared library", "cc", shared_c), ("Python", sys.executable, python), ("Go", "go", go),
    ("Rust", "rustc", rust), ("C under valgrind", "valgrind", checked_c)]


def plays(told: Report, _: Programs) -> None:
    """Each language plays the lines of am-dispatch."""
    lines, answers = (LINES / "stdin").read_bytes(), (LINES / "stdout").read_bytes()
    for name, needed, ready in PLAYS:
        if not shutil.which(needed):
            told.skip(name, f"there is no {needed}")
            continue

        def play(ready: Play = ready) -> None:
            with tempfile.TemporaryDirectory() as folder:
                ran = subprocess.run(ready(Path(folder)), input=lines, capture_output=True, check=False)
            is_same((ran.returncode, ran.stderr.decode(errors="backslashreplace")), (0, ""))
            is_same(ran.stdout.decode(), answers.decode())

        told.case(name, play)


def misuse(told: Report, _: Programs) -> None:
    """What C may do wrong."""
    runs: dict[str, list[str]] = {"alone": [], "under valgrind": VALGRIND}
    with tempfile.TemporaryDirectory() as folder:
        program = in_c(preload.SOURCES / "library.c", Path(folder))
        for name, words in runs.items():
            if words and not shutil.which(words[0]):
                told.skip(name, "there is no valgrind")
                continue
            ran = subprocess.run([*words, program], capture_output=True, text=True, check=False)
            told.same(name, (0, "", ""), (ran.returncode, ran.stdout, ran.stderr[-4000:]))


def refused(told: Report, _: Programs) -> None:
    """Each allocation fails in turn."""
    with tempfile.TemporaryDirectory() as folder:
        program, number = in_c(preload.SOURCES / "library.c", Path(folder)), 0
        for number in range(1, MOST):
            refusal = preload.Refused(number)
            ran = subprocess.run([program, "refused"], env=refusal.env, capture_output=True, text=True, check=False)
            told.row(f"request {number}", (0, ""), (ran.returncode, ran.stderr))
            if not refusal.was:
                break
        told.holds("each allocation failed once", 20 < number < MOST - 1, f"there were {number - 1} requests")


def declared(told: Report, _: Programs) -> None:
    """The functions of the header, and those of the libraries."""
    header = re.findall(r"\b(fentdolmen_\w+)\(", (built() / "fentdolmen.h").read_text())
    for name, words in [("shared", ["nm", "-D", "--defined-only", "libfentdolmen.so"]),
                        ("archive", ["nm", "-g", "--defined-only", "libfentdolmen.a"])]:
        ran = subprocess.run(words, cwd=built(), capture_output=True, text=True, check=True)
        told.same(name, sorted(header), sorted(it.split()[2] for it in ran.stdout.splitlines() if len(it.split()) == 3))


PARTS = {"plays": plays, "misuse": misuse, "refused": refused, "declared": declared}

if __name__ == "__main__":
    report.main(__file__, PARTS, (), __doc__)
