"""The crates: docs/crates.md is made of crates.txt and of the heads of the crates' sources.

It has what each crate is, by the first sentence of its `//!`, in the sections and the order of crates.txt, where a section begins with
`## TITLE`. The diagram has an arrow from a crate to each crate of this repository that it uses, unless it also uses it through another one.
"""
import re

from lib.pages import report
from lib.pages.contracts import CRATES, ROOT

PAGE = ROOT / "docs" / "crates.md"
MADE = "<!-- Made of crates.txt and the heads of the crates by `.ci/checks/pages.py layers --write`: change these, not this page. -->\n"
HEAD = """
# Crates

For contributors: what each crate is, and who uses whom. [architecture.md](architecture.md) says how they work together.
"""
SECTION = """
## {title}

| Crate | What it is |
|---|---|
"""
DIAGRAM = """
## Who uses whom

An arrow that follows from others isn't drawn:

"""
Uses = dict[str, set[str]]


def uses_of(text: str) -> Uses:
    """What each crate uses of the others, by the lines of crates.txt."""
    rows = [re.findall(r"\w+", line) for line in text.splitlines() if line.strip() and not line.startswith("#")]
    names = {row[0] for row in rows}
    return {row[0]: {*row[1:]} & names for row in rows}


def below(name: str, uses: Uses) -> set[str]:
    """The crates that a crate uses, itself or through others."""
    return {it for used in uses[name] for it in {used} | below(used, uses)}


def sections_of(text: str) -> dict[str, list[str]]:
    """The crates of each section of crates.txt."""
    parts = re.split(r"^## (.+)\n", text, flags=re.MULTILINE)
    return {title: re.findall(r"^\w+(?=[ :])", part, re.MULTILINE) for title, part in zip(parts[1::2], parts[2::2])}


def diagram(uses: Uses) -> str:
    """The diagram of the layers, as Mermaid."""
    direct = {name: used - {it for other in used for it in below(other, uses)} for name, used in uses.items()}
    rows = [f"    {name} --> {' & '.join(sorted(used))}" for name, used in sorted(direct.items()) if used]
    return "\n".join(["```mermaid", "flowchart TD", *rows, "```"])


def first_sentence(source: str) -> str:
    """The first sentence of the `//!` at the head of a source, or nothing."""
    lines = re.search(r"^(?://! .*\n)+", source, re.MULTILINE)
    head = " ".join(re.sub("^//! ", "", lines[0], flags=re.MULTILINE).split()) if lines else ""
    return re.split(r"(?<=\.) (?=[A-Z`])", head)[0]


def head_of(name: str) -> str:
    """What a crate is."""
    files = [CRATES / name / "src" / file for file in ("lib.rt", "main.rt")]
    return next((first_sentence(it.read_text()) for it in files if it.exists()), "")


def check(write: bool) -> bool:
    """Checks the page, or makes it."""
    uses: Uses = {"a": {"b", "c"}, "b": {"c"}, "c": set()}
    assert diagram(uses) == "```mermaid\nflowchart TD\n    a --> b\n    b --> c\n```"
    assert sections_of("# x: y\n\n## A\na: b\nb staticlib:\n\n## B\nc:\n") == {"A": ["a", "b"], "B": ["c"]}
    assert first_sentence("#![a]\n//! One `x.y`\n//! two. Three.\n//!\n//! Four.\n") == "One `x.y` two."
    text = (ROOT / "crates.txt").read_text()
    uses, sections = uses_of(text), sections_of(text)
    says = {name: head_of(name) for name in uses}
    faults = [f"crates/{name}: no sentence in `//!` at its head" for name, said in says.items() if not said]
    faults += [f"crates.txt: {name} is in no section" for name in sorted({*uses}.difference(*sections.values()))]
    faults += [f"crates.txt: no line for {it.name}" for it in sorted(CRATES.iterdir()) if (it / "src").exists() and it.name not in uses]
    tables = [SECTION.format(title=title) + "".join(f"| `{it}` | {says[it]} |\n" for it in names) for title, names in sections.items()]
    made = MADE + HEAD + "".join(tables) + DIAGRAM + diagram(uses) + "\n"
    if write:
        PAGE.write_text(made)
    elif not PAGE.exists() or PAGE.read_text() != made:
        what = "docs/crates.md (`.ci/checks/pages.py layers --write` makes it)"
        faults.append(report.differs(what, PAGE.read_text() if PAGE.exists() else "", made, ("the page", "the crates")))
    return report.verdict("layers", faults, f"{len(uses)} crates")
