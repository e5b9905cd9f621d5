#!/usr/bin/env python3
"""am_patterns reads patterns as Go's regexp does, and what it makes of them matches as they do.

- `listed`: each row of .ci/data/patterns/differences.rows is a pattern of which Go says something else, and what both say.
- `random`: of 100,000 patterns with their texts (.ci/data/patterns/oracle.go makes them, always the same ones) Go accepts and rejects
  the same, with the same words and offending part, and the same texts match. What has a row's reason is counted. It takes half an hour.

Go is Debian's golang-go 1.19, which Alertmanager 0.25 was built with. Without it, or without `rt`, the parts are skipped. The program that
translates and searches is .ci/data/patterns/search.txt, over the crate as it is; `rt try` builds it, which proves nothing.
"""
import os
import re
import shutil
import subprocess
import sys
import tempfile
from collections import Counter
from pathlib import Path

sys.path.insert(0, str(Path(__file__).resolve().parent.parent))
from lib import report
from lib.program import ROOT
from lib.report import Programs, Report

DATA = ROOT / ".ci/data/patterns"
COUNT, SEED = 100_000, 1
# How many differences are shown.
SHOWN = 40
# Characters that Unicode 13.0 has, and of which 18.0 says something else: letters of phonetics have got capitals, and two marks a script.
CHANGED = frozenset(map(chr, [0x19B, *range(0x250, 0x2B0), 0x16FE2, 0x16FE3]))
# How Go's words for a pattern as a whole begin.
WHOLE = "-"


def text_of(word: str) -> str:
    """The text of a hexadecimal word."""
    return bytes.fromhex(word).decode(errors="surrogateescape")


def oracle(folder: Path) -> Path:
    """The program of Go."""
    program = folder / "oracle"
    subprocess.run(["go", "build", "-o", program, DATA / "oracle.go"], check=True, env={**os.environ, "GOFLAGS": "-mod=mod"})
    return program


def said(folder: Path, lines: list[str]) -> list[str]:
    """What the program of the crate says of each line: a pattern and its texts."""
    crates = folder / "crates"
    shutil.rmtree(crates, ignore_errors=True)
    shutil.copytree(ROOT / "crates/am_patterns", crates / "am_patterns", ignore=shutil.ignore_patterns("out"))
    (crates / "try_patterns/src").mkdir(parents=True)
    shutil.copy(DATA / "search.txt", crates / "try_patterns/src/main.rt")
    (folder / "crates.txt").write_text("am_patterns: thiserror\ntry_patterns: am_patterns regex anyhow\n", encoding="utf-8")
    subprocess.run(["git", "init", "-q", folder], check=True)
    ran = subprocess.run(["rt", "try", "--seconds", "3000"], cwd=crates / "try_patterns", input="\n".join(lines) + "\n", text=True,
                         stdout=subprocess.PIPE, stderr=subprocess.PIPE, check=False)
    out = [it for it in ran.stdout.splitlines() if re.match(r"(differs )?(ok|fault|kit|memory)\b", it)]
    if len(out) != len(lines):
        raise ValueError(f"{len(lines)} lines were given, and {len(out)} came back: {ran.stdout[-2000:]} {ran.stderr[-2000:]}")
    return out


def reason(pattern: str, texts: list[str], go: str, own: str) -> str:
    """Why the two may differ, or nothing."""
    if go.startswith("ok ") and own.startswith("ok "):
        if re.search(r"\\x\{D[89A-F]", pattern):
            return "a surrogate"
        differing = [it for it, one, other in zip(texts, go.split(" ")[1], own.split(" ")[2]) if one != other]
        return "Unicode's editions" if all(CHANGED.intersection(it) for it in differing) else ""
    if own.startswith("kit ") and go.startswith("ok "):
        return own.split(" ", 2)[2]
    if "invalid nested repetition operator" in own and re.search(r"[*+?}](\(\?[imsU-]*\)|\\Q\\E)+[*+?{]", pattern):
        return "a repetition is repeated behind flags or an empty quotation"
    return ""


def outcome(pattern: str, go: str, own: str) -> tuple[str, str]:
    """What Go says and what the crate says, in the same words where they agree."""
    if own.startswith("ok "):
        own = "ok " + own.split(" ", 2)[2]
    elif own.startswith("fault "):
        _, start, end, words = own.split(" ", 3)
        part = pattern.encode(errors="surrogateescape")[int(start):int(end)].hex()
        own = f"fault {WHOLE if go.split(' ')[1] == WHOLE else part} {words}"
    return go, own


def random(told: Report, _: Programs) -> None:
    """Patterns that a program makes."""
    if is_skipped(told, "random"):
        return
    with tempfile.TemporaryDirectory() as name:
        made = subprocess.run([oracle(Path(name)), str(COUNT), str(SEED)], text=True, stdout=subprocess.PIPE, check=True)
        rows = [it.split("\t") for it in made.stdout.splitlines()]
        lines = said(Path(name), [it[0] for it in rows])
    reasons: Counter[str] = Counter()
    wrong = []
    for (given, go), own in zip(rows, lines):
        pattern = text_of(given.split(" ")[0])
        one, other = outcome(pattern, go, own)
        if one != other:
            why = reason(pattern, [text_of(it) for it in given.split(" ")[1:]], go, own)
            reasons[why] += 1
            if not why:
                wrong.append(f"{pattern!r}: Go says {one!r}, am_patterns {other!r} of {[text_of(it) for it in given.split(' ')[1:]]!r}")
    for why, count in sorted(reasons.items()):
        print(f"        {count} of {COUNT}: {why or 'other differences'}", flush=True)
    told.holds(f"{COUNT} patterns", not wrong, *wrong[:SHOWN])


def listed(told: Report, _: Programs) -> None:
    """The differences that are known."""
    if is_skipped(told, "listed"):
        return
    file = DATA / "differences.rows"
    stored = file.read_text(encoding="utf-8").splitlines()
    rows = [it.split("\t") for it in stored if it and not it.startswith("#")]
    given = [" ".join(it.encode("ascii").decode("unicode_escape").encode().hex() for it in row[:-2]) for row in rows]
    with tempfile.TemporaryDirectory() as name:
        ran = subprocess.run([oracle(Path(name)), "-"], input="\n".join(given) + "\n", text=True, stdout=subprocess.PIPE, check=True)
        lines = said(Path(name), given)
    for row, words, go, own in zip(rows, given, ran.stdout.splitlines(), lines):
        pattern = text_of(words.split(" ")[0])
        one, other = outcome(pattern, go.split("\t")[1], own)
        told.same(row[0], (row[-2], row[-1]), (plain(one), plain(other)))
    told.at_least(3, len(rows), "differences")


def plain(words: str) -> str:
    """What one says, without the offending part or the translation."""
    return re.sub(r"^(fault|kit) \S+ ", r"\1 ", words)


def is_skipped(told: Report, name: str) -> bool:
    """Whether a tool is missing."""
    missing = [it for it in ("go", "rt") if not shutil.which(it)]
    if missing:
        told.skip(name, f"there is no {missing[0]}")
    return bool(missing)


PARTS = {"listed": listed, "random": random}

if __name__ == "__main__":
    report.main(__file__, PARTS, (), __doc__)
