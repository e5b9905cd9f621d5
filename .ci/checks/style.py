#!/usr/bin/env python3
"""The style of the scripts.

- `types`: mypy finds each function typed, as pyproject.toml says.
- `python`: flake8 has nothing to say, as .flake8 says.
- `shell`: nor has shellcheck.
- `lines`: a line of a crate's src/ or specs/ has at most 140 characters, except one that is a text.

The first three are Debian's packages. One that isn't there is skipped; where CI is set it is installed, and fails if it can't be.
"""
import os
import re
import shutil
import subprocess
import sys
from functools import cache
from pathlib import Path

sys.path.insert(0, str(Path(__file__).resolve().parent.parent))
from lib import report
from lib.program import ROOT
from lib.report import Programs, Report

# Where Python is: folders of modules, and programs. The example in examples/live, except replay, is left out.
PYTHON = (".ci/lib", ".ci/checks", ".ci/gate", "tools/programs.py", "tools/completions.py", "tools/timed.py", "examples/pager.py",
          "examples/library/fentdolmen.py")
SCRIPTS = ("rehearse", ".ci/first-answer", "tools/am-dispatch", "tools/am-run", "tools/amtool", "tools/library", "tools/measure",
           "tools/package", "tools/peer-bench", "tools/picture", "examples/live/replay")
# Where programs for a shell are.
PROGRAMS = ("*", ".ci/*", "tools/*")
TOOLS = ("mypy", "flake8", "shellcheck")
# How many characters a line of a crate has at most.
WIDTH = 140
# How many lines of a tool are shown.
SHOWN = 60


@cache
def install() -> str:
    """Installs the tools that aren't there. Returns what was said."""
    missing = [it for it in TOOLS if not shutil.which(it)]
    said = ""
    for words in (["apt-get", "update"], ["apt-get", "install", "-y", "--no-install-recommends", *missing]):
        ran = subprocess.run(words, stdin=subprocess.DEVNULL, stdout=subprocess.PIPE, stderr=subprocess.STDOUT, text=True, check=False,
                             env={**os.environ, "DEBIAN_FRONTEND": "noninteractive"})
        said += ran.stdout
    return said


def run(told: Report, name: str, *words: str) -> None:
    """A tool has nothing to say of the scripts."""
    said = install() if os.environ.get("CI") and not shutil.which(words[0]) else ""
    if not shutil.which(words[0]):
        if os.environ.get("CI"):
            told.fails(name, f"there is no {words[0]}, and it can't be installed:", *said.splitlines()[-SHOWN:])
        else:
            told.skip(name, f"there is no {words[0]}: apt-get install {words[0]}")
        return
    ran = subprocess.run(words, cwd=ROOT, stdout=subprocess.PIPE, stderr=subprocess.STDOUT, text=True, check=False)
    lines = ran.stdout.splitlines()
    told.holds(name, ran.returncode == 0, *lines[:SHOWN], *[f".. and {len(lines) - SHOWN} lines more"] * (len(lines) > SHOWN))


def types(told: Report, _: Programs) -> None:
    """mypy."""
    run(told, "types", "mypy", "--cache-dir", os.devnull, "--scripts-are-modules", *PYTHON, *SCRIPTS)


def python(told: Report, _: Programs) -> None:
    """flake8."""
    run(told, "python", "flake8", *PYTHON, *SCRIPTS)


def is_shell(file: Path) -> bool:
    """Whether a file is a program for a shell."""
    return file.is_file() and os.access(file, os.X_OK) and re.match(rb"#!.*\b(ba)?sh\n", file.read_bytes()[:80]) is not None


def shell(told: Report, _: Programs) -> None:
    """shellcheck."""
    files = [str(it.relative_to(ROOT)) for pattern in PROGRAMS for it in sorted(ROOT.glob(pattern)) if is_shell(it)]
    told.at_least(2, len(files), "programs for a shell")
    run(told, "shell", "shellcheck", *files)


def lines(told: Report, _: Programs) -> None:
    """No line of code and definitions is too wide to be read."""
    files = sorted(it for part in ("src", "specs") for it in ROOT.glob(f"crates/*/{part}/**/*") if it.suffix in (".rt", ".antt"))
    told.at_least(900, len(files), "files of code and definitions")
    wide = [f"{file.relative_to(ROOT)}:{number}: {len(line)} characters, and {WIDTH} are the most"
            for file in files for number, line in enumerate(file.read_text(encoding="utf-8").split("\n"), 1)
            if len(line) > WIDTH and '"' not in line]
    told.holds("lines", not wide, *wide[:SHOWN])


PARTS = {"types": types, "python": python, "shell": shell, "lines": lines}

if __name__ == "__main__":
    report.main(__file__, PARTS, (), __doc__)
