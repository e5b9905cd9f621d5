"""What the pages show is there, as they show it.

- A ```rust block is in the file of crates/ that the text before it links to or names last.
- The commands of a ```sh block run in a folder of links to all that is at the top of the repository, or in `crates/NAME` where the
  line before names it so. `rt run`, `rt try`, am-run, am-rehearse, tools/am-* and ./rehearse are the programs in crates/*/out: with
  BUILT=yes they have to be there, else commands with them are passed over. So are those of PASSED. A ```yaml or ```json block whose line
  before names `NAME.yml` or `NAME.json` is that file.
- A ``` block without a language that comes next under the same heading is what the commands print, on standard output, or on that
  and then on standard error. Another one is lines of a stored output (examples/, crates/*/stdout) or of such a file. A line `..`
  means any lines. What is neither has a language, as ```text. Commands with nothing shown end with status 0.
- A ```json block of a configuration, a scenario or a rehearsal is a stored one, or some of its fields. A ```yaml block that isn't
  a file of its page is lines of a stored one (examples/).
- The first commands of the README are `./rehearse play examples/disk-full.yml` and `rt ci`.

It begins with a made page that has one fault of each kind, to see that it can fail.
"""
import json
import os
import re
import shlex
import shutil
import subprocess
import tempfile
from collections import Counter
from collections.abc import Iterator
from dataclasses import dataclass
from pathlib import Path
from typing import Any

from lib.pages import report
from lib.pages.contracts import ROOT
from lib.pages.prose import pages

PASSED = {r"\brt (?!run|try|version|doc)": "it proves for minutes, or changes the sources", r"\.ci/": "the gate runs it by itself",
          r"valgrind|/usr/bin/time|am_bench|tools/(measure|peer-bench)": "it measures for minutes",
          r"tools/(package|library)|\bcc examples/library|\./play\b": "the gate tries it by itself", r"\bgit ": "it would change the clone"}
TOOLS = ("jq", "yq", "amtool")
FIRST = ["./rehearse play examples/disk-full.yml", "rt ci"]
RUNS = re.compile(r"\brt (?:run|try)\b(?: --(?= ))?")
PROGRAM = re.compile(RUNS.pattern + r"|(?<![\w/])(am-run|am-rehearse|tools/am-\w+|\./rehearse)\b|\bout/\w+")


@dataclass(frozen=True)
class Block:
    """A block of a page: the line and the text before it, the source that the text links to, and whether a heading comes between it
    and the block before."""

    line: int
    kind: str
    text: str
    before: str
    source: str | None
    is_headed: bool


def blocks(page: str) -> Iterator[Block]:
    """The blocks of a page."""
    begun: tuple[int, str] | None = None
    lines: list[str] = []
    before, source, is_headed = "", None, True
    for number, line in enumerate(page.splitlines(), 1):
        if begun and line.strip() == "```":
            yield Block(*begun, "".join(lines), before, source, is_headed)
            begun, is_headed = None, False
        elif begun:
            lines.append(line + "\n")
        elif line.startswith("```"):
            begun, lines = (number, line[3:].strip()), []
        elif line.strip():
            before, is_headed = line, is_headed or line.startswith("#")
            source = (re.findall(r"(?:\]\((?:\.\./)?|`)(crates/[\w/.-]*\.(?:rt|antt))[)`]", line) or [source])[-1]


def with_gaps(shown: str) -> str:
    """The pattern of a text in which a line `..` means any lines."""
    return re.escape(shown).replace(re.escape("..\n"), r"(?:.*\n)*?")


def is_in(shown: str, text: str) -> bool:
    """Whether a block is lines of a text, of which a line `..` leaves out some."""
    return bool(re.search(r"^" + with_gaps(shown), text, re.MULTILINE))


def commands(block: str) -> Iterator[str]:
    """The commands of a block, each whole."""
    command = ""
    for line in block.splitlines():
        command += line + "\n"
        try:
            shlex.split(command, comments=True)
        except ValueError:
            continue
        if not re.search(r"(\\|\||&&|\bdo)$", line) and len(re.findall(r"^for ", command, re.MULTILINE)) <= command.count("done"):
            yield command.strip()
            command = ""
    yield from [command.strip()] if command.strip() else []


def why_passed(command: str) -> str | None:
    """Why a command isn't run, or nothing."""
    if os.environ.get("BUILT") != "yes" and PROGRAM.search(command):
        return "it needs a built program (BUILT=yes)"
    whys = [why for pattern, why in PASSED.items() if re.search(pattern, command)]
    missing = [f"there is no {it} here" for it in TOOLS if re.search(rf"\b{it}\b", command) and not shutil.which(it)]
    return (whys + missing + [None])[0]


class Quotes:
    """What is stored, and what was counted so far."""

    def __init__(self) -> None:
        self.counts: Counter[str] = Counter()
        self.passed: list[str] = []
        self.outputs = [it.read_text() for it in [*ROOT.glob("examples/**/*.txt"), *ROOT.glob("crates/*/stdout")]]
        inputs = [json.loads(it.read_text()) for it in [*ROOT.glob("examples/**/*.json"), ROOT / "crates/am_rehearse/stdin"]]
        self.inputs: list[Any] = inputs + [it["config"] for it in inputs if isinstance(it, dict) and "config" in it]
        self.stories = [it.read_text() for it in ROOT.glob("examples/**/*.yml")]

    def run(self, where: str, block: str, crate: str, shown: str | None, folder: Path) -> Iterator[str]:
        """The faults of the commands of a block that run in a folder or a crate of it, and of what the page shows of them, if it does."""
        printed, complained, is_whole = "", "", True
        for command in commands(block):
            if why := why_passed(command):
                self.passed.append(f"{where}: {command.splitlines()[0]}: {why}")
                is_whole = False
                continue
            self.counts["commands"] += 1
            ran = run_command(command, folder, crate)
            printed += ran.stdout
            complained += ran.stderr
            if ran.returncode and shown is None:
                yield f"{where}: `{command}` ends with status {ran.returncode}: {ran.stderr[-300:]}"
        if shown is not None and is_whole:
            self.counts["outputs of commands"] += 1
            if not any(re.fullmatch(with_gaps(shown), it) for it in (printed, printed + complained)):
                yield report.differs(where, shown, printed + complained, ("the page", "the commands"))

    def faults_of_block(self, block: Block, is_file: bool) -> Iterator[str]:
        """What is wrong with a block that no command prints. It can be a file of its page."""
        kind, text, source = block.kind, block.text, block.source
        if kind == "rust":
            self.counts["pieces of source"] += 1
            yield from [] if source and is_in(text, (ROOT / source).read_text()) else [f"a block that isn't in {source}"]
        elif kind == "json":
            self.counts["JSON blocks"] += 1
            shown = json.loads(text)
            if isinstance(shown, dict) and shown.keys() & {"route", "until", "phases"}:
                stored = any(isinstance(it, dict) and shown.items() <= it.items() for it in self.inputs)
                yield from [] if stored else ["an input that isn't stored"]
        elif kind == "yaml" and not is_file:
            self.counts["YAML blocks"] += 1
            yield from [] if any(is_in(text, it) for it in self.stories) else ["an input that isn't stored"]
        elif kind == "":
            self.counts["stored outputs"] += 1
            sources = [(ROOT / source).read_text()] if source else []
            yield from [] if any(is_in(text, it) for it in self.outputs + sources) else ["an output that isn't stored; or is it ```text?"]

    def faults_of(self, name: str, page: str, folder: Path) -> Iterator[str]:
        """What is wrong with a page, whose commands run in this folder."""
        shell: tuple[str, str, str] | None = None
        for it in [*blocks(page), Block(0, "end", "", "", None, True)]:
            is_shown = bool(shell and it.kind == "" and not it.is_headed)
            if shell:
                yield from self.run(*shell, it.text if is_shown else None, folder)
            shell = (f"{name}:{it.line}", it.text, (re.findall(r"`(crates/\w+)`", it.before) or [""])[-1]) if it.kind == "sh" else None
            files = re.findall(r"`([\w-]+\.(?:yml|json))`", it.before) if it.kind in ("yaml", "json") else []
            for file in files:
                (folder / file).write_text(it.text)
            if not is_shown:
                yield from (f"{name}:{it.line}: {fault}" for fault in self.faults_of_block(it, bool(files)))

    def check(self, name: str, page: str) -> list[str]:
        """The faults of a page."""
        with tempfile.TemporaryDirectory(prefix="quotes-") as made:
            for entry in ROOT.iterdir():
                (Path(made) / entry.name).symlink_to(entry)
            for program in ("run", "rehearse"):
                (Path(made) / f"am-{program}").symlink_to(ROOT / f"crates/am_{program}/out/am_{program}")
            return list(self.faults_of(name, page, Path(made)))


def run_command(command: str, folder: Path, crate: str) -> subprocess.CompletedProcess[str]:
    """Runs a command of a page in a folder, or in a crate of it."""
    # (`timeout` ends all that the command began; its status is 124 then)
    line = ["timeout", "300", "bash", "-o", "pipefail", "-c", RUNS.sub('out/"$(basename "$PWD")"', command)]
    path = {**os.environ, "PATH": f"{folder}:{os.environ['PATH']}"}
    return subprocess.run(line, cwd=folder / crate, env=path, stdin=subprocess.DEVNULL, capture_output=True, text=True, check=False)


def made(kind: str, text: str) -> str:
    """A block of a page."""
    return f"```{kind}\n{text}\n```\n"


# A page whose 1st, 4th, 5th, 7th, 9th and last blocks are wrong.
SELF_TEST = ["# A\n[a](../crates/am_run/src/main.rt)\n" + made("rust", "fn nothing"),
             made("sh", "echo 'a\nb'; echo c"), made("", "a\n..\nc"),
             "`some.json`\n" + made("json", '{"until": "1s"}'), made("sh", "false\ncat some.json"), made("", "nobody printed this"),
             "# B\n" + made("sh", "echo a"), made("", "b"), made("sh", "ls no-such-file"), "`own.yml`\n" + made("yaml", "a: b"),
             "C\n" + made("yaml", "a: b")]


def self_test() -> None:
    """The made page has just its faults."""
    found = [re.findall(r"A:\d+", it)[0] for it in Quotes().check("A", "".join(SELF_TEST))]
    assert found == ["A:3", "A:16", "A:19", "A:27", "A:33", "A:41"], found


def check() -> bool:
    """Checks the pages."""
    self_test()
    quotes = Quotes()
    wrong = [fault for page in pages() for fault in quotes.check(str(page.relative_to(ROOT)), page.read_text())]
    first = [it for block in blocks((ROOT / "README.md").read_text()) if block.kind == "sh" for it in commands(block.text)][:2]
    wrong += [] if first == FIRST else [f"README.md: the first commands are {first}, not {FIRST}"]
    print("".join(f"skipped {it}\n" for it in quotes.passed), end="")
    return report.verdict("quotes", wrong, ", ".join(f"{count} {kind}" for kind, count in quotes.counts.items()))
