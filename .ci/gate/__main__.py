"""The merge gate: the proofs, the tests and the programs (`rt ci`), the wrong bodies, and the checks that run the
programs, side by side where one needs nothing of the other. CI calls `.ci/run`.

    .ci/run           takes what earlier runs on this machine kept: a proof, or a refusal of a wrong body, is made again
                      only where something that it depends on has changed (a kit without `rt ci --anew` keeps no proof)
    .ci/run --anew    keeps nothing, and proves and tries all
    .ci/run --help    prints this
    .ci/checks/NAME.py [PART]   runs one check; it prints the command to repeat what failed
    .ci/wrong-bodies [CRATE]    tries the wrong bodies of a crate alone

As many tasks run at a time as there are processors and as memory holds. A line gives each part's end and its minutes. The
table at the end gives what each part and each crate cost; the last line counts the parts.
"""
import os
import re
import subprocess
import sys
import tempfile
import time
from concurrent.futures import ThreadPoolExecutor
from typing import IO

from . import kept
from .kit import ROOT, memory, processors
from .meter import Meter

HANDLES = "Handles allowed: Threads, Wait.\n"
# What needs no program, and so comes first.
BEFORE = ["checks/style.py", "checks/pages.py"]
# What runs the programs that `rt ci` leaves in out/, the longest first.
AFTER = [
    "checks/memory.py stories", "checks/memory.py lines", "checks/memory.py scenarios", "checks/am_run.py schedules",
    "checks/rehearse.py outputs", "checks/pictures.py", "checks/tickets.py", "checks/memory.py frugal", "checks/am_run.py scenarios",
    "checks/am_run.py examples", "checks/am_run.py statuses", "checks/am_run.py lengths", "checks/formats.py routes",
    "checks/formats.py hours", "checks/rehearse.py commands", "checks/formats.py yaml", "checks/rejects.py",
    "checks/rehearse.py notices", "checks/rehearse.py dispatchers", "checks/rehearse.py statuses", "checks/rehearse.py schema",
    "checks/patterns.py listed", "checks/dispatch.py", "checks/library.py",
    "checks/live.py", "checks/live_rehearsals.py", "checks/programs.py", "checks/package.py",
    "checks/steps.py", "checks/pages.py quotes",
]
# Whether the kit keeps what it proved; one that doesn't has no word for that, and proves all each time.
KEEPS = "--anew" in subprocess.run(["rt", "help"], capture_output=True, text=True, check=False).stderr
# With at most so many crates to prove, `rt ci` itself decides how many run at a time, and gives each several processors.
FEW = 8
# What runs alone at the end, since its times count.
ALONE = ["checks/hostile.py", "alertmanager"]
# How many lines of what failed are printed again below the table: where only the end of a run is kept, they say why.
SHOWN = 60
# What nearly all others wait for, in this order. Proved first and one after the other, each gets several processors; at the
# same time as others, am_alerts would get one. (am_board needs so much memory that it gets one anyway: it begins with the rest.)
LOW = ("am_alerts", "am_model")
# In GB: what a proof takes at most; and the memory from which on wrong bodies are tried while proofs run.
PROOF, MUCH = 5, 18
STARTED = time.monotonic()


def minutes(since: float = STARTED) -> float:
    """The minutes since then, or since the beginning."""
    return (time.monotonic() - since) / 60


def say(text: str) -> None:
    """Prints a line of the gate's own."""
    print(f"gate: {minutes():5.1f} min: {text}", flush=True)


class Gate:
    """A run of the gate: what failed, and what runs."""

    def __init__(self, anew: bool) -> None:
        self.anew, self.meter = ["--anew"] * anew, Meter()
        self.passed: list[str] = []
        self.failed: list[str] = []
        self.said: dict[str, str] = {}
        self.running: dict[str, subprocess.Popen[str]] = {}
        self.has_much = memory() >= MUCH
        changed = kept.with_above(kept.changed())
        self.low = [it for it in LOW if it in changed] if KEEPS and not anew else []
        if anew or not KEEPS or len(changed) > FEW:
            # (then many wait at a time, and `rt ci` by itself sets up to twice as much memory aside as they take)
            os.environ.setdefault("RT_JOBS", str(max(1, min(processors(), int(memory() / PROOF)))))

    def part(self, words: list[str], name: str, tee: IO[str] | None = None, env: dict[str, str] | None = None) -> str:
        """Runs a part to its end, and answers what it said."""
        since, said = time.monotonic(), []
        with subprocess.Popen(words, cwd=ROOT, env=env, stdin=subprocess.DEVNULL, stdout=subprocess.PIPE, stderr=subprocess.STDOUT,
                              text=True, errors="replace") as ran:
            self.running[name] = ran
            self.meter.count(ran.pid, name)
            for line in ran.stdout or []:
                said.append(line)
                if tee:
                    tee.write(line)
                    tee.flush()
                    print(line, end="", flush=True)
        (self.failed if ran.returncode else self.passed).append(name)
        say(f"{name} {'FAILED' if ran.returncode else 'ok'}, after {minutes(since):.1f} min")
        self.said[name] = "".join(said)
        return self.said[name]

    def checks(self, names: list[str]) -> None:
        """Runs checks side by side, and prints in their order what they said."""
        with ThreadPoolExecutor(processors()) as pool:
            results = pool.map(lambda it: self.part(f".ci/{it}".split(" "), f".ci/{it}"), names)
            for name, said in zip(names, results):
                print(f"== .ci/{name}\n{said}", end="", flush=True)

    def stands(self) -> None:
        """Whether the handles are as they were, and nothing is committed that checks make."""
        with open(f"{ROOT}/HANDLES", encoding="utf-8") as file:
            if file.read() != HANDLES:
                self.failed.append("HANDLES was changed")
        listed = subprocess.run(["git", "ls-files"], cwd=ROOT, capture_output=True, text=True, check=False).stdout
        if re.search(r"(^|/)out/", listed, re.M):
            self.failed.append("out/ is committed")

    def run(self) -> int:
        """Runs all parts, and answers the status of the gate."""
        self.meter.start()
        say(f"{processors()} processors, {memory():.0f} GB free, RT_JOBS={os.environ.get('RT_JOBS', '')}")
        self.stands()
        self.checks(BEFORE)
        if not self.failed:
            self.prove()
        return self.end()

    def prove(self) -> None:
        """Has `rt ci` prove, test and run all, and then the checks run the programs. Wrong bodies are tried meanwhile, those
        of a crate as soon as the crates below it are proved; with few processors or little memory after it. The first answer of
        a fresh clone is tried at its beginning, where the crates that come first leave processors idle, and `fentdolmen` is compiled."""
        is_wide = processors() >= 4 and self.has_much
        with tempfile.NamedTemporaryFile("w", prefix="proofs-") as proofs, ThreadPoolExecutor(3) as pool:
            first = pool.submit(self.part, ["nice", "-n", "5", ".ci/first-answer"], ".ci/first-answer")
            compiled = pool.submit(self.part, ["nice", "-n", "15", ".ci/alertmanager", "--prepare"], ".ci/alertmanager --prepare")
            words = ["nice", "-n", "15", ".ci/wrong-bodies", *self.anew, "--beside", proofs.name, *["--after"] * (not is_wide)]
            tried = pool.submit(self.part, words, ".ci/wrong-bodies")
            self.prove_low()
            self.part(["rt", "ci", *self.anew * KEEPS], "rt ci", proofs.file)
            if "rt ci" in self.failed:
                for name in (".ci/first-answer", ".ci/wrong-bodies", ".ci/alertmanager --prepare"):
                    self.running[name].terminate()
            else:
                os.environ["BUILT"] = "yes"
                # (it installs what checks look for)
                compiled.result()
                self.checks(AFTER)
            for name, said in (("first-answer", first), ("alertmanager --prepare", compiled), ("wrong-bodies", tried)):
                print(f"== .ci/{name}\n{said.result()}", end="", flush=True)
        if "rt ci" not in self.failed:
            for name in ALONE:
                self.checks([name])

    def prove_low(self) -> None:
        """Proves the lowest crates with several processors each, if they are to be proved. It saves time and decides nothing:
        the whole `rt ci` proves again what failed here, and says why."""
        env = {it: os.environ[it] for it in os.environ if it != "RT_JOBS"}
        for low in self.low:
            name = f"rt ci {low}"
            self.part(["rt", "ci", low], name, env=env)
            self.failed = [it for it in self.failed if it != name]

    def end(self) -> int:
        """Prints the costs, the last lines of what failed and the total, and answers the status."""
        self.meter.look()
        self.meter.ended.set()
        print(self.meter.table())
        for it in self.failed:
            lines = [line for line in self.said.get(it, "").splitlines() if not line.startswith("ok ")]
            print(*lines[-SHOWN:], sep="\n")
        for it in self.failed:
            say(f"FAILED: {it}")
        if not self.failed and not self.anew:
            kept.keep()
        say("FAILED" if self.failed else "passed")
        print(f"gate: {len(self.passed)} passed, {len(self.failed)} failed", flush=True)
        return 1 if self.failed else 0


def main(words: list[str]) -> int:
    """Runs the gate, or prints how it is used. A word that it doesn't know is rejected before anything runs."""
    if "--help" in words:
        print(__doc__)
        return 0
    if unknown := [it for it in words if it != "--anew"]:
        print(f"gate: unknown word {unknown[0]!r}; `.ci/run --help` prints how it is used", file=sys.stderr)
        return 2
    return Gate("--anew" in words).run()


if __name__ == "__main__":
    sys.exit(main(sys.argv[1:]))
