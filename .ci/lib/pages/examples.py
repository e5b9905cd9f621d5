"""The list of stories and scenarios in examples/README.md, made of what each says at its head.

A story has the first sentences of the comment at its head, a scenario the first text of its field `why`. A story in JSON alone has no
place for one: SAYS has it. The heads have no word that writers agreed to avoid (`words`), and each example has a sentence.
"""
import json
import re
from pathlib import Path

from lib.pages import report
from lib.pages.contracts import ROOT
from lib.pages.prose import END, ROW
from lib.pages.words import AVOID

PAGE = ROOT / "examples" / "README.md"
MADE = "<!-- Made of the heads of the examples by `.ci/checks/pages.py examples --write`: change these, not this page. -->\n"
HEAD = """# Examples

What each story and scenario shows, as its head says. The gate runs the programs on all of them. Single calls of a
board, with their answers: [am_dispatch/stdin](../crates/am_dispatch/stdin) and [stdout](../crates/am_dispatch/stdout).
"""
# The parts of the page: their headings, what they are for, and their files.
PARTS = [("To copy", "Stories with an `alertmanager.yml` of their own, for `./rehearse play FILE`.", ["examples/*.yml"]),
         ("Incidents", "[incidents.md](../docs/incidents.md) goes through them.", ["examples/incidents/*.yml"]),
         ("Stories", "`NAME.txt` has the timeline, by [the rules](../docs/rules.md). Some are [scenarios](../docs/scenarios.md) too.",
          ["examples/rehearsals/*.yml", "examples/rehearsals/*.json"]),
         ("Scenarios of one rule", "For `tools/am-run < FILE`. `NAME.txt` is the report, or the error. `why` has the calculation.",
          ["examples/details/*.json"])]
# From how many characters on one sentence is enough.
SHORT = 60
SAYS = {"alertmanager-kinds": "Every kind of integration, its position, and its `send_resolved`.",
        "alertmanager-names-of-routes": "The names that routes get.",
        "as-json": "Output as JSON, with dates."}


def comment_of(text: str) -> str:
    """The comment at the head of a text in YAML, up to its first empty line."""
    lines = re.match(r"(?:# .*\n)*", text)
    return re.sub(r"^# ", "", lines[0] if lines else "", flags=re.MULTILINE).strip()


def says(file: Path) -> str:
    """What an example shows, or nothing."""
    if file.suffix == ".yml":
        head = comment_of(file.read_text())
    else:
        head = json.loads(file.read_text()).get("why", [SAYS.get(file.stem, "")])[0]
    ends = [it.end() for it in END.finditer(head) if it.end() >= SHORT]
    return " ".join(head[:ends[0] if ends and file.suffix == ".yml" else None].split()).rstrip(":")


def files_of(patterns: list[str]) -> list[Path]:
    """The files of a part, one for each example."""
    found = {it.stem: it for pattern in reversed(patterns) for it in ROOT.glob(pattern)}
    return [found[name] for name in sorted(found)]


def row(file: Path) -> str:
    """The row of an example."""
    name, scenario = file.relative_to(PAGE.parent), PAGE.parent / f"{file.stem}.json"
    sentence = says(file).replace("|", "\\|")
    also = f", [scenario]({scenario.name})" if file.parent.name == "rehearsals" and scenario.exists() else ""
    return f"| [{file.stem}]({name}){also} | {sentence} |"


def page() -> str:
    """The page."""
    parts = [HEAD]
    for title, about, patterns in PARTS:
        head = [f"## {title}\n", about + "\n", "| Example | It shows |", "|---|---|"]
        parts.append("\n".join([*head, *map(row, files_of(patterns))]) + "\n")
    return MADE + "\n" + "\n".join(parts)


def faults() -> list[str]:
    """What is wrong with the heads."""
    found: list[str] = []
    for file in [it for _, _, patterns in PARTS for it in files_of(patterns)]:
        name, sentence = file.relative_to(ROOT), says(file)
        found += [f"{name}: no sentence at its head"] * (not sentence)
        found += [f"{name}: avoid \"{it[0]}\"" for it in AVOID.finditer(sentence)]
        found += [f"{name}: a row of {len(row(file))} characters"] * (len(row(file)) > ROW)
    return found


def self_test() -> None:
    """A head ends at its empty line, and its first sentence where the next begins."""
    assert comment_of("# A b\n# c. D.\n#\n# e\na: b\n") == "A b\nc. D."
    assert comment_of("a: b\n") == ""


def check(write: bool) -> bool:
    """Checks the page, or makes it anew."""
    self_test()
    found, text = faults(), page()
    if write:
        PAGE.write_text(text)
    elif not PAGE.exists() or PAGE.read_text() != text:
        name = str(PAGE.relative_to(ROOT))
        found.append(report.differs(f"{name} (`.ci/checks/pages.py examples --write` makes it)", PAGE.read_text() if PAGE.exists() else "",
                                    text, (name, "as the heads are")))
    return report.verdict("examples", found, f"{len(re.findall(r'^. .', text, re.MULTILINE))} examples")
