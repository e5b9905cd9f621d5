"""Each page is short, and says one thing at a time.

README.md, the other pages at the top and docs/*.md have no sentence above 25 words and no paragraph above 100, outside blocks of code
and tables, where a code span counts as one word. No row of a table has more than 300 characters, and no other line more than 400. A page
has at most 1,800 words outside blocks of code, or what BUDGETS says. It has no word that writers agreed to avoid (`words`), and no link
to a file or a heading that isn't there.
What a line `**Defined** in .. **Shown** by ..` names is there, and each edit, clause and test that a row on a wrong body names. All pages
together have at most TOTAL bytes.
"""
import re
from collections.abc import Iterator
from pathlib import Path

from lib.pages import report
from lib.pages.contracts import ROOT, spec_of, spread
from lib.pages.words import AVOID

# In words: what a sentence and a paragraph have at most.
SENTENCE, PARAGRAPH = 25, 100
# In words: what a page has at most, and those that have another budget.
BUDGET, BUDGETS = 1800, {"README": 1200, "rules": 2400, "dispatch": 1900}
# In characters: what a row of a table and another line have at most. In bytes: what all pages have.
ROW, LINE, TOTAL = 300, 400, 169_000
# The end of a sentence: behind it begins another, with a capital, a number or the name of a page.
END = re.compile(r"[.!?][\"')\]*]*\s+(?=[\"'(\[*]*(?:[A-Z0-9]|[\w-]+\.md))")
LINK = re.compile(r"\[([^\]]*)\]\(([^)\s]+)\)")
Found = list[tuple[int, str]]


def pages() -> list[Path]:
    """The pages that people write: a made one begins with a comment that says so."""
    files = [*sorted(ROOT.glob("*.md")), *sorted((ROOT / "docs").glob("*.md"))]
    return [it for it in files if not it.read_text().startswith("<!-- Made of")]


def plain(text: str) -> str:
    """The text with a word for each code span, and without comments, with as many lines as before."""
    return re.sub(r"<!--.*?-->|`[^`]+`", lambda m: ("Code" if m[0][0] == "`" else "") + "\n" * m[0].count("\n"), text, flags=re.DOTALL)


def without_blocks(text: str) -> str:
    """The text with an empty line for each line of a block of code."""
    inside, lines = False, []
    for line in text.splitlines():
        fence = line.lstrip().startswith("```")
        lines.append("" if inside or fence else line)
        inside ^= fence
    return "\n".join(lines)


def paragraphs(text: str) -> list[tuple[int, str]]:
    """The paragraphs and items of lists, each with the line that it begins at."""
    found: list[tuple[int, list[str]]] = []
    begun = False
    for number, line in enumerate(plain(without_blocks(text)).splitlines(), 1):
        if not line.strip() or line.startswith(("#", "|")):
            begun = False
        elif begun and not re.match(r"\s*([-*]|\d+\.)\s", line):
            found[-1][1].append(line)
        else:
            found.append((number, [line]))
            begun = True
    return [(number, LINK.sub(r"\1", "\n".join(lines))) for number, lines in found]


def count(text: str) -> int:
    """How many words there are."""
    return sum(any(c.isalnum() for c in word) for word in text.split())


def length(text: str) -> int:
    """How many words a page has outside blocks of code."""
    return count(LINK.sub(r"\1", without_blocks(text)))


def sentences(text: str) -> Iterator[tuple[int, str]]:
    """The sentences, each with its line."""
    for number, paragraph in paragraphs(text):
        at = 0
        for stop in [*[it.end() for it in END.finditer(paragraph)], len(paragraph)]:
            yield number + paragraph[:at].count("\n"), paragraph[at:stop]
            at = stop


def anchor_of(heading: str, seen: set[str]) -> str:
    """The name of a heading, as GitHub makes it behind these, to which it comes."""
    name = re.sub(r"[^\w\- ]", "", LINK.sub(r"\1", heading).strip().lower()).replace(" ", "-")
    again = next(it for it in (name, *(f"{name}-{i}" for i in range(1, 100))) if it not in seen)
    seen.add(again)
    return again


def anchors(text: str) -> set[str]:
    """The names of the headings."""
    seen: set[str] = set()
    for line in without_blocks(text).splitlines():
        if heading := re.match(r"#+ +(.*)", line):
            anchor_of(heading[1], seen)
    return seen


def link_fault(page: Path, text: str, target: str) -> str | None:
    """What is wrong with a link of a page, if anything is."""
    path, _, anchor = target.partition("#")
    if re.match(r"[a-z]+:", target):
        return None
    file = (page.parent / path).resolve() if path else page
    if path and not (file.exists() and file.is_relative_to(ROOT)):
        return f"no file {target}"
    return f"no heading {target}" if anchor and anchor not in anchors(file.read_text() if path else text) else None


def places_of(name: str) -> list[Path]:
    """The files that a code span of a line `**Defined** ..`, `**Rejected** ..` or `**Code** ..` names: a definition, a wrong body, an
    example, a module, or a program of the gate with its part."""
    if re.fullmatch(r"am_\w+/\S+", name.replace(", ", ",")):
        edits = {it: ROOT / f"crates/{it.replace('/', '/wrong-bodies/', 1)}.edit" for it in spread(name)}
        return [edit if edit.exists() else spec_of(it) for it, edit in edits.items()]
    return [ROOT / it for it in spread(name.split()[0])] if "/" in name else [*(ROOT / "examples").rglob(name)]


def named_faults(text: str) -> Found:
    """What lines that say where a rule is defined, shown, broken and decided name, and isn't there. A module alone, such as `plan.rt`, is
    next to the one before it. Nothing in parentheses is a name."""
    found: Found = []
    for number, line in enumerate(text.splitlines(), 1):
        folder, names = ROOT, re.findall(r"`([^`]+)`", re.sub(r" \([^)]*\)", "", line))
        for name in names if line.startswith(("**Defined** in", "**Rejected**", "**Code**")) else []:
            places = [folder / name] if re.fullmatch(r"\w+\.rt", name) else places_of(name)
            found += [(number, f"no {name}")] * (not (places and all(it.exists() for it in places)))
            folder = places[0].parent if places else folder
    return found


def section_of(text: str, anchor: str) -> str:
    """The lines below a heading, up to the next one that isn't below it."""
    seen: set[str] = set()
    lines: list[str] = []
    level = 0
    for line in text.splitlines():
        if heading := re.match(r"(#+) +(.*)", line):
            if level and len(heading[1]) <= level:
                break
            level = level or len(heading[1]) * (anchor_of(heading[2], seen) == anchor)
        lines += [line] * (level > 0)
    return "\n".join(lines)


def edit_faults(own: str, says: str) -> list[str]:
    """The edits that aren't there: `edit in CRATE` of the row's own name, or `edit CRATE/OTHER_NAME`."""
    named = re.findall(r"`(am_\w+)(/(\w+))?`", says) if re.search(r"\bedits? ", says) else []
    edits = [f"crates/{crate}/wrong-bodies/{name or own}.edit" for crate, _, name in named]
    return [f"no {it}" for it in edits if not (ROOT / it).exists()]


def clause_faults(page: Path, says: str) -> list[str]:
    """The clauses that a claim doesn't have: `equation: [CALL](claims/PAGE.md#ANCHOR), CLAUSE`, or `, with CLAUSE`."""
    found = []
    for call, file, anchor, clauses in re.findall(r"equation: \[`([^`]+)`[^\]]*\]\(([\w/-]+\.md)#([\w-]+)\)((?:,(?: with)? `\w+`)*)", says):
        claim = section_of((page.parent / file).read_text(), anchor) if (page.parent / file).exists() else ""
        found += [f"no {call} in {file}#{anchor}"] * (call.split("::")[-1] not in claim)
        found += [f"no clause {it} in {file}#{anchor}" for it in re.findall(r"`(\w+)`", clauses) if f"ensures {it} " not in claim]
    return found


def test_faults(page: Path, says: str) -> list[str]:
    """The test functions that a file doesn't have: ``test: `NAME` in [..](FILE)``."""
    tests = re.findall(r"test: `(\w+)` in \[[^\]]*\]\(([^)]+)\)", says)
    return [f"no test {name} in {file}" for name, file in tests if f"fn {name}(" not in (page.parent / file).read_text()]


def wrong_body_faults(page: Path, text: str) -> Found:
    """What a row `| NAME | a wrong body | what rejects it |` names, and isn't there."""
    found: Found = []
    for number, line in enumerate(text.splitlines(), 1):
        for own, says in re.findall(r"^\| `(\w+)` \|.*\|([^|]*)\|$", line):
            found += [(number, it) for it in [*edit_faults(own, says), *clause_faults(page, says), *test_faults(page, says)]]
    return found


def faults_of(page: Path, text: str) -> Found:
    """The faults of a page, by line."""
    found: Found = [(n, f"a sentence of {count(it)} words") for n, it in sentences(text) if count(it) > SENTENCE]
    found += [(n, f"a paragraph of {count(it)} words") for n, it in paragraphs(text) if count(it) > PARAGRAPH]
    most, words = BUDGETS.get(page.stem, BUDGET), length(text)
    if words > most:
        found.append((len(text.splitlines()), f"{words} words, and at most {most} are planned"))
    for number, line in enumerate(without_blocks(text).splitlines(), 1):
        is_row = line.startswith("|")
        if len(line) > (ROW if is_row else LINE):
            found.append((number, f"a {'row' if is_row else 'line'} of {len(line)} characters"))
    for number, line in enumerate(plain(without_blocks(text)).splitlines(), 1):
        found += [(number, f"avoid \"{it[0]}\"") for it in AVOID.finditer(LINK.sub(r"\1", line))]
        found += [(number, fault) for _, target in LINK.findall(line) if (fault := link_fault(page, text, target))]
    return sorted(found + named_faults(text) + wrong_body_faults(page, text))


def self_test() -> None:
    """Each rule finds its fault in a made text, and only there."""
    page = ROOT / "docs" / "story.md"
    words, code = "Word " + "word " * 24, "`a b c`"
    row = "| " + "word " * 59 + "|\n"
    good = f"# One `two`: three\n\n{words.strip()}. a.md {words.strip()[:-5]}\n\n- {code} {words.strip()[:-5]}\n- {words}\n\n"
    good += f"{row}```\n{words * 9} told\n```\n"
    good += "[a](#one-two-three), [b](../README.md), [c](https://example.org) and `told`.\n"
    bad = {good + words + "word.\n": "a sentence of 26 words", "\n\n" + (words + ".\n") * 5: "a paragraph of 125 words",
           "\n- A.\n" * 1801: "1801 words, and at most 1800 are planned", "So\nhe Told\n": 'avoid "Told"', "[a](#two)": "no heading #two",
           "[`a`](none.md)": "no file none.md", "[a](../../x)": "no file ../../x",
           "[a](story.md#no-such)": "no heading story.md#no-such", "**Defined** in `am_model/{Begin, None}`.": "no am_model/{Begin, None}",
           "**Defined** in `am_model/Begin`. **Shown** by `none.yml`.": "no none.yml",
           "**Code**: `crates/am_board/src/{begin,note}.rt`, `plan.rt` (`what`), `none.rt`.": "no none.rt",
           row.replace("|\n", "word |\n"): "a row of 303 characters",
           "[a](https://example.org/" + "b" * 400 + ")\n": "a line of 425 characters",
           "| `no_such` | a body | edit in `am_desk`; type: `T` |": "no crates/am_desk/wrong-bodies/no_such.edit",
           "| `a` | a body | equation: [`Desk::glance`](claims/desk.md#glances-and-meets), `none` |":
               "no clause none in claims/desk.md#glances-and-meets",
           "| `a` | a body | equation: [`Desk::none`](claims/desk.md#glances-and-meets), with `made` |":
               "no Desk::none in claims/desk.md#glances-and-meets",
           "| `a` | a body | test: `none` in [b](../crates/am_code_tests/src/tests/workers.rt) |":
               "no test none in ../crates/am_code_tests/src/tests/workers.rt"}
    assert not faults_of(page, good), faults_of(page, good)
    for text, fault in bad.items():
        assert [it for _, it in faults_of(page, text)] == [fault], (fault, faults_of(page, text))
    assert faults_of(page, "So\nhe Told\n")[0][0] == 2 and faults_of(page, good + words + "word.\n")[0][0] == 13
    assert anchors("# A b\n## A b\n# A `b`, c\n") == {"a-b", "a-b-1", "a-b-c"}


def measure() -> None:
    """Prints how long each page is."""
    total = 0
    for page in pages():
        text = page.read_text()
        lengths = sorted(count(it) for _, it in sentences(text))
        total += length(text)
        most = BUDGETS.get(page.stem, BUDGET)
        print(f"{page.relative_to(ROOT)}: {len(text.encode())} bytes, {length(text)} words of {most}; "
              f"{len(lengths)} sentences, median {lengths[len(lengths) // 2]}, greatest {lengths[-1]}")
    print(f"all: {sum(len(it.read_bytes()) for it in pages())} bytes, {total} words")


def check() -> bool:
    """Checks the pages."""
    self_test()
    texts = {it: it.read_text() for it in pages()}
    found = [f"{page.relative_to(ROOT)}:{line}: {fault}" for page, text in texts.items() for line, fault in faults_of(page, text)]
    total = sum(len(it.encode()) for it in texts.values())
    found += [f"all pages have {total} bytes, and at most {TOTAL} are planned"] * (total > TOTAL)
    return report.verdict("prose", found, f"{len(texts)} pages, {total} bytes")
