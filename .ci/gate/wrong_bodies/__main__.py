"""Tries the wrong bodies of crates/*/wrong-bodies/ that nothing keeps as refused: the prover has to refuse each.

    .ci/wrong-bodies               tries all
    .ci/wrong-bodies CRATE..       tries those of these crates alone
    .ci/wrong-bodies --list        prints what would be tried, and tries nothing
    .ci/wrong-bodies --show        prints what the prover says
    .ci/wrong-bodies --anew        tries all, whatever was kept

It takes the libraries that a whole `rt ci`, or `rt check` in the crate's folder, has left in out/. `--beside FILE` begins while
the gate runs, whose output FILE has: it tries a crate once those below are proved (`--after`: once the gate has ended).
"""
import argparse
import os
import re
import shutil
import signal
import subprocess
import sys
import tempfile
import time
from concurrent.futures import FIRST_COMPLETED, Future, ThreadPoolExecutor, wait

from ..kit import ROOT, crates, memory, processors
from .edits import BadEdit, Edit, edits_of
from .sums import Kept, Sums, crates_below
from .trial import Checks, tried

# In GB: what a check takes at most.
CHECK = 4


class Beside:
    """What the output of a gate that runs at the same time says. Without one all is proved."""

    def __init__(self, file: str | None, waits: bool) -> None:
        self.file, self.waits, self.has_ended = file, waits, not file
        self.proved: set[str] = set()

    def look(self) -> None:
        """Reads what the gate has said by now."""
        if self.file and not self.has_ended:
            with open(self.file, encoding="utf-8", errors="replace") as file:
                said = file.read()
            self.proved = set(re.findall(r"^rt: (\w+)(?: proved$| is kept:)", said, re.M))
            self.has_ended = bool(re.search(r"^\d+ passed, \d+ failed", said, re.M))

    def is_ready(self, crate: str, listed: dict[str, list[str]]) -> bool:
        """Whether all below are proved: then the crate can be tried."""
        return self.has_ended or not self.waits and self.proved.issuperset(crates_below(crate, listed))

    def tasks(self) -> int:
        """How many crates are tried at a time: next to the gate half as many as there are processors."""
        most = int(os.environ.get("RT_JOBS") or processors())
        return most if self.has_ended else max(1, most // 2)


class Run:
    """A run of the command: what is wanted, what is kept, and what is left to try."""

    def __init__(self, asked: argparse.Namespace, room: str) -> None:
        self.listed, self.show, self.checks = crates(), asked.show, Checks(room)
        names = [it for it in asked.crates or self.listed if os.path.isdir(f"{ROOT}/crates/{it}/wrong-bodies")]
        self.wanted = [(crate, it) for crate in names for it in edits_of(f"{ROOT}/crates/{crate}/wrong-bodies")]
        now, self.known = Sums(self.listed), Kept(asked.anew)
        self.sums = {(crate, it.name): now.of(crate, it) for crate, it in self.wanted}
        self.left = [it for it in self.wanted if not self.known.here(self.sums[it[0], it[1].name])]
        self.beside = Beside(asked.beside, asked.after)

    def try_all(self) -> list[tuple[bool, str]]:
        """Tries what is left, each crate's when it is ready, those with the most first, and returns their lines."""
        left: dict[str, list[Edit]] = {}
        for crate, edit in self.left:
            left.setdefault(crate, []).append(edit)
        order = sorted(left, key=lambda it: -len(left[it]))
        running: dict[Future[list[tuple[bool, str]]], str] = {}
        lines = []
        with ThreadPoolExecutor(processors()) as pool:
            while order or running:
                self.beside.look()
                for crate in [it for it in order if self.beside.is_ready(it, self.listed)][: self.beside.tasks() - len(running)]:
                    if running and memory() < CHECK:
                        break
                    order.remove(crate)
                    running[pool.submit(tried, crate, left[crate], self.listed, self.sums, self.known, self.checks, self.show)] = crate
                if not running:
                    time.sleep(2)
                    continue
                for done in wait(running, timeout=None if self.beside.has_ended else 5, return_when=FIRST_COMPLETED).done:
                    crate = running.pop(done)
                    for well, line in done.result():
                        lines.append((well, line))
                        print(line if well else f"FAILED {line}\nagain: .ci/wrong-bodies --show {crate}", flush=True)
        return lines

    def list(self) -> int:
        """Prints what is left."""
        for crate, edit in self.left:
            print(f"{crate}/{edit.name}")
        print(f"{len(self.left)} of {len(self.wanted)} wrong bodies are to be tried")
        return 0

    def end(self) -> int:
        """Tries what is left, and answers the status."""
        lines = self.try_all()
        refused = sum(well for well, _ in lines)
        kept, failed = len(self.wanted) - len(self.left), len(lines) - refused
        print(f"{len(self.wanted)} wrong bodies: {refused} refused in this run, {kept} by earlier runs on this machine; {failed} failed")
        return int(failed > 0 or refused + kept != len(self.wanted))


def main() -> int:
    parser = argparse.ArgumentParser(prog=".ci/wrong-bodies", description=__doc__, formatter_class=argparse.RawDescriptionHelpFormatter)
    for flag in ("--show", "--anew", "--list", "--after"):
        parser.add_argument(flag, action="store_true")
    parser.add_argument("--beside", metavar="FILE")
    parser.add_argument("crates", nargs="*")
    asked = parser.parse_args()
    if unknown := sorted(set(asked.crates) - set(crates())):
        parser.error(f"no crate {unknown[0]}; `.ci/wrong-bodies --list` prints what there is to try")
    room = tempfile.mkdtemp(prefix="wrong-bodies-")
    try:
        run = Run(asked, room)

        def stop(*_: object) -> None:
            """Ends the checks that run, and itself at once, before another one begins."""
            run.checks.kill()
            with subprocess.Popen(["rm", "-rf", room], start_new_session=True):
                os._exit(1)

        signal.signal(signal.SIGTERM, stop)
        return run.list() if asked.list else run.end()
    except BadEdit as fault:
        sys.exit(f"BAD EDIT: {fault}")
    finally:
        shutil.rmtree(room, ignore_errors=True)


if __name__ == "__main__":
    sys.exit(main())
