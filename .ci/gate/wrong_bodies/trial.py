"""Has the prover check copies of a crate that have wrong bodies, and says which it refuses."""
import os
import re
import shutil
import subprocess
import tempfile
from typing import NamedTuple

from ..kit import KIT, ROOT
from .edits import BadEdit, Edit, put_copies, put_stubs, rounds_of
from .sources import texts_of
from .sums import PARTS, Kept, Sums, crates_below

# What the prover says of a function whose callee is refused, and of one that only a hole leaves open.
WAITS = r"no proof: it calls|not proved; it (stands on|calls)"
STANDS = r"no holes|depends on a hole"
NAMES_ALONE = r"has no field|is not in scope|has no `|was not admitted"


class Line(NamedTuple):
    """Of a wrong body whether it is well, its line, and itself if it is refused by a check that ended as it should."""

    well: bool
    text: str
    refused: Edit | None = None


class Checks:
    """The checks that run, and the folder in which they work."""

    def __init__(self, room: str) -> None:
        self.room = room
        self.running: set[subprocess.Popen[str]] = set()

    def run(self, words: list[str], folder: str) -> tuple[str, int]:
        """What a check says, and its status."""
        with subprocess.Popen(words, cwd=folder, stdin=subprocess.DEVNULL, stdout=subprocess.PIPE, stderr=subprocess.STDOUT,
                              text=True, errors="replace") as ran:
            self.running.add(ran)
            said = ran.communicate()[0]
            self.running.discard(ran)
        return said, ran.returncode

    def kill(self) -> None:
        """Ends those that run."""
        for it in [*self.running]:
            it.kill()


def words_for(name: str, listed: dict[str, list[str]]) -> list[str]:
    """What the prover is given of the crate and its libraries."""
    root = "src/main.rt" if os.path.exists(f"{ROOT}/crates/{name}/src/main.rt") else "src/lib.rt"
    words = ["--crate-name", name, root, "--extern", f"std={KIT}/rlibs/std.rlib", "-L", f"dependency={KIT}/rlibs"]
    for lower in listed[name]:
        folder = f"{ROOT}/crates/{lower}/out/rlib" if lower in listed else f"{KIT}/rlibs"
        words += ["--extern", f"{lower}={folder}/{lower}.rlib"]
    for lower in crates_below(name, listed):
        words += ["-L", f"dependency={ROOT}/crates/{lower}/out/rlib"]
    logic = ["--antt-project", f"{KIT}/rattle/logic/antt-project.json", "--logic-built", f"{KIT}/logic_built"]
    return [*words, *logic, "--links", f"{name}=", "--jobs", "1"]


def verdict_on(crate: str, function: str, said: list[str]) -> tuple[int | None, str]:
    """What the prover says of the function, and at which of its lines."""
    head = f"fn {crate}::{function}: "
    at = next((i for i, it in enumerate(said) if it.startswith(head)), None)
    return (None, "it isn't told of") if at is None else (at, said[at][len(head) :])


def folders_of(edit: Edit) -> tuple[str, str]:
    """The folders of the proof that an edit's function has: one that calls itself, or is in a cycle, has another next to its own."""
    places, cycle = edit.tried.split("::"), edit.turned.split("::")[-1]
    return "/".join(["./proofs", *places, ""]), "/".join(["./proofs", *places[:-1], f"+{cycle}", ""])


def refusal_of(crate: str, edit: Edit, said: list[str]) -> tuple[bool, str]:
    """Whether the function is reported as not proved, and not for names alone that are gone, and what is said of it."""
    at, verdict = verdict_on(crate, edit.tried, said)
    if at is None or not re.match(r"not proved|no proof", verdict):
        return False, verdict
    before = next((i for i in range(at - 1, -1, -1) if said[i].startswith("fn ")), -1)
    told = [it for it in said[before + 1 : at] if re.match(r"note: src/\S+: it is not proved", it)]
    told += [it for it in said if it.startswith(folders_of(edit)) and ": error" in it and not re.search(NAMES_ALONE, it)]
    # (a goal that had an answer has none left that fits)
    told += [verdict] * bool(re.match(r"no proof: expected answers in \S+; `?search`? did not prove", verdict))
    return bool(told), told[0] if told else "a file of its proof names what the edit took away, so no contract was tried"


def is_elsewhere(edits: list[Edit], line: str) -> bool:
    """Whether a line has an error that is in no proof of the functions that the edits turn, and in no stub's."""
    return bool(re.match(r"\./\S+:\d+:\d+: error", line)) and not line.startswith(tuple(it for edit in edits for it in folders_of(edit)))


def waits(crate: str, edit: Edit, said: list[str], over_stubs: bool) -> bool:
    """Whether a check leaves a wrong body open: its function calls another that is refused, or over stubs anything else lacks."""
    if refusal_of(crate, edit, said)[0]:
        # (what its own file of answers is refused for needs no callee)
        return False
    verdict = verdict_on(crate, edit.tried, said)[1]
    return not re.match(STANDS, verdict) if over_stubs else bool(re.match(WAITS, verdict))


class Trial:
    """The checks of a crate: each begins with what the earlier ones left in a folder."""

    def __init__(self, crate: str, listed: dict[str, list[str]], checks: Checks, kept: str, show: bool) -> None:
        self.crate, self.listed, self.checks, self.kept, self.show = crate, listed, checks, kept, show

    def check(self, edits: list[Edit], over_stubs: bool) -> tuple[str, int]:
        """What the prover says of the functions that the edits turn, in a copy of the crate that has them, and its status."""
        folder = f"{ROOT}/crates/{self.crate}"
        texts, before = texts_of(folder), texts_of(folder)
        for edit in edits:
            if not edit.number:
                edit.apply(texts)
        with tempfile.TemporaryDirectory(dir=self.checks.room) as room:
            for part in PARTS:
                if os.path.isdir(f"{folder}/{part}"):
                    shutil.copytree(f"{folder}/{part}", f"{room}/{part}")
            put_copies(self.crate, room, texts, before, edits)
            if over_stubs:
                put_stubs(self.crate, room, texts, edits)
            for path, text in texts.items():
                with open(f"{room}/{path}", "w", encoding="utf-8") as file:
                    file.write(text)
            only = [it for edit in edits for it in ("--only", edit.tried)]
            words = [f"{KIT}/bin/rattle", "check", *words_for(self.crate, self.listed), *only, "--incremental", self.kept]
            return self.checks.run([*words, *["--allow-holes"] * over_stubs], room)

    def lines_of(self, edits: list[Edit], said: list[str], status: int) -> list[Line]:
        """Of each wrong body that a check decides its line."""
        lines = [] if status == 1 else [Line(False, f"{self.crate}: the check ended with status {status}: {' '.join(said)[-300:]}")]
        for edit in edits:
            well, why = refusal_of(self.crate, edit, said)
            text = f"{self.crate}/{edit.name}: {'refused' if well else 'NOT REFUSED'} at {edit.function}: {why[:160]}"
            lines.append(Line(well, text, edit if well and status == 1 else None))
        return lines

    def try_round(self, edits: list[Edit], over_stubs: bool = True) -> list[Line]:
        """Tries wrong bodies in one check, and in a further one those whose functions call others of them, for which a
        proof isn't tried before the callee has one; what stubs don't decide, without them."""
        text, status = self.check(edits, over_stubs)
        if self.show:
            print(text, flush=True)
        said = text.split("\n")
        if all(verdict_on(self.crate, it.tried, said)[0] is None for it in edits):
            # (the front end refuses one of them, and then nothing is said of the others)
            if len(edits) > 1:
                return [line for it in edits for line in self.try_round([it], over_stubs)]
            if over_stubs:
                return self.try_round(edits, False)
            why = next((it for it in said if re.search(r"\berror\b", it)), text.rstrip()[-300:])
            return [Line(False, f"{self.crate}/{edits[0].name}: BAD EDIT: the crate can't be checked with it: {why[:200]}")]
        later = [it for it in edits if waits(self.crate, it, said, over_stubs)]
        if over_stubs and (status != 1 or later == edits or any(is_elsewhere(edits, it) for it in said)):
            return self.try_round(edits, False)
        later = later if later != edits else []
        lines = self.lines_of([it for it in edits if it not in later], said, status)
        return lines + (self.try_round(later, over_stubs) if later else [])


def tried(crate: str, edits: list[Edit], listed: dict[str, list[str]], sums: dict[tuple[str, str], str], known: Kept,
          checks: Checks, show: bool) -> list[tuple[bool, str]]:
    """The lines of a crate's checks. What each refuses is kept, unless a file that the refusal depends on was changed
    meanwhile."""
    lines = []
    with tempfile.TemporaryDirectory(dir=checks.room) as kept:
        before = f"{ROOT}/crates/{crate}/out/incremental"
        if os.path.isdir(before):
            shutil.copytree(before, kept, dirs_exist_ok=True)
        trial = Trial(crate, listed, checks, kept, show)
        for few in rounds_of(edits):
            try:
                found = trial.try_round(few)
            except BadEdit as fault:
                found = [Line(False, f"{crate}: BAD EDIT: {fault}")]
            now = Sums(listed)
            for well, line, edit in found:
                if edit and now.of(crate, edit) == sums[crate, edit.name]:
                    known.keep(sums[crate, edit.name], crate, edit, line)
                lines.append((well, line))
    return lines
