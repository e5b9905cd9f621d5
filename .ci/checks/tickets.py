#!/usr/bin/env python3
"""A ticket can be neither dropped nor copied.

- `tickets`: am_embedded with functions that do so doesn't compile, and the compiler names the causes. The same program without them
  is proved and run by the gate. What is dropped is found later than the rest, so it is tried alone.
"""
import re
import shutil
import subprocess
import sys
import tempfile
from pathlib import Path

sys.path.insert(0, str(Path(__file__).resolve().parent.parent))
from lib import report
from lib.program import ROOT
from lib.report import Programs, Report

DISPATCHER = "crates/am_embedded/src/dispatcher.rt"
LOSES = """
pub fn lose(_ticket: am_board::ticket::Ticket) {}
"""
COPIES = """
pub fn copy(ticket: &am_board::ticket::Ticket) -> am_board::ticket::Ticket {
    *ticket
}
pub fn clone(ticket: &am_board::ticket::Ticket) -> am_board::ticket::Ticket {
    ticket.clone()
}
"""


def tickets(told: Report, _: Programs) -> None:
    """The compiler names each of the causes for the functions at the end of the module."""
    with tempfile.TemporaryDirectory() as folder:
        for name in ("HANDLES", "crates.txt"):
            shutil.copy(ROOT / name, folder)
        shutil.copytree(ROOT / "crates", f"{folder}/crates", ignore=shutil.ignore_patterns("out"))
        source = Path(folder, DISPATCHER)
        before = source.read_text()
        for causes, functions in [(["linear-value-let-go"], LOSES), (["move-out-of-place", "unsupported-method"], COPIES)]:
            if not any(map(told.concerns, causes)):
                continue
            source.write_text(before + functions)
            with open(Path(folder, "crates/am_embedded/stdin"), "rb") as given:
                ran = subprocess.run(["rt", "try"], cwd=Path(folder, "crates/am_embedded"), stdin=given, stdout=subprocess.PIPE,
                                     stderr=subprocess.STDOUT, text=True, errors="backslashreplace", check=False)
            found = sorted({*re.findall(r"error\[([\w-]+)\]", ran.stdout)})
            for cause in causes:
                told.holds(cause, cause in found, f"the compiler names {found}, status {ran.returncode}:", *ran.stdout.splitlines()[:20])


PARTS = {"tickets": tickets}

if __name__ == "__main__":
    report.main(__file__, PARTS, ("am_embedded",), __doc__)
