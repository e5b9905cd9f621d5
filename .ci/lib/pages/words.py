"""Words that writers agreed to avoid, because readers don't know what they mean here.

Pages have none of them (`prose`). Nor do comments in crates/, in scripts and in rows of data; and no name in crates/ has one as a part,
but KEPT.
"""
import io
import re
import tokenize
from collections.abc import Iterator
from pathlib import Path

from lib.pages import report
from lib.pages.contracts import CRATES, ROOT

AVOID = re.compile(r"\b(tell|tells|told|telling|may be|stands?|stood|laid|lays flat|so that|(it|this|that) is so|on account of|by reason of"
                   r"|but for|beside|want of|memory (is|was) refused|moments?|manners?|rooms?|(is|are|was|were) played|worked out"
                   r"|rightly|soundly)\b", re.IGNORECASE)
# Names that aren't ours to choose: a function of the kit, a field of Webex receivers, and a field in lines of am-dispatch.
KEPT = re.compile(r'\btells_all_ascii_digits\b|\bhandle_tells\b|\broom_id\b|"moment"|/moment\b')
# Where scripts are, and what they are in. What has no such ending is one if its first line says so.
SCRIPTS = ("alertmanager", "examples", "tools", ".ci")
ENDINGS = (".py", ".go", ".c", ".yml")


def comment_of(line: str) -> tuple[str, str]:
    """A line's code, and its comment with a word for each code span."""
    found = re.search(r"(?:^|\s)(?://[/!]?|--)(?:\s|$)", line)
    code, comment = (line[:found.start()], line[found.end():]) if found else (line, "")
    return code, re.sub(r"`[^`]+`", "Code", comment)


def parts_of(code: str) -> list[str]:
    """The words of the names in code: of snake_case, kebab-case and CamelCase."""
    return [it.lower() for it in re.findall(r"[A-Z]?[a-z]+|[A-Z]+(?![a-z])", code)]


def places_in(file: Path) -> list[tuple[int, str, str]]:
    """Where a file has words to avoid: the line, `comments` or `names`, and the word."""
    found = []
    for number, line in enumerate(file.read_text().splitlines(), 1):
        code, comment = comment_of(line)
        found += [(number, "comments", " ".join(it[0].lower().split())) for it in AVOID.finditer(comment)]
        found += [(number, "names", it) for it in parts_of(KEPT.sub("Kept", code)) if AVOID.fullmatch(it)]
    return found


def sources() -> list[Path]:
    """The sources of all crates."""
    files = [*CRATES.glob("*/src/**/*.rt"), *CRATES.glob("*/specs/**/*.antt"), *CRATES.glob("*/proofs/**/*.antt")]
    return sorted(files)


def scripts() -> list[Path]:
    """The scripts of this repository, without what programs make."""
    files = [it for folder in SCRIPTS for it in sorted((ROOT / folder).rglob("*")) if it.is_file() and "out" not in it.parts]
    return [it for it in files if it.suffix in ENDINGS or not it.suffix and it.read_bytes()[:2] == b"#!"]


def rows() -> list[Path]:
    """The files of rows in which a line behind `#` is a comment."""
    files = [*CRATES.glob("*/stdin"), *(it for it in (ROOT / ".ci" / "data").rglob("*") if it.is_file())]
    return sorted({*files} - {*scripts()})


def remarks(file: Path) -> Iterator[tuple[int, str]]:
    """The lines of comments of a script: in Python also those of texts on several lines, and of one that is alone in its line."""
    text = file.read_text(errors="replace")
    if file.suffix != ".py" and not re.match(r"#!.*python", text):
        found = (re.search(r"(?:^|\s)(?:#|//|/\*)\s(.*)", line) for line in text.splitlines())
        yield from ((number, it[1]) for number, it in enumerate(found, 1) if it)
        return
    for it in tokenize.generate_tokens(io.StringIO(text).readline):
        if it.type == tokenize.COMMENT or it.type == tokenize.STRING and it.string.startswith('"""'):
            yield from enumerate(it.string.splitlines(), it.start[0])


def words_of(file: Path) -> list[tuple[int, str, str]]:
    """Where the comments of a script have words to avoid."""
    return [(number, "comments", " ".join(it[0].lower().split()))
            for number, line in remarks(file) for it in AVOID.finditer(re.sub(r"`[^`]+`", "Code", line))]


def places() -> list[tuple[Path, int, str, str]]:
    """Where there are words to avoid: the file, the line, `comments` or `names`, and the word."""
    found = [(file, *it) for file in sources() for it in places_in(file)]
    # (this file has them all)
    return found + [(file, *it) for file in (*scripts(), *rows()) if file != Path(__file__) for it in words_of(file)]


def self_test() -> None:
    """Comments and names are kept apart, and words are found in both."""
    assert comment_of("let a = b; // it `tells` a moment") == ("let a = b;", "it Code a moment")
    assert comment_of("x--y : Told -- so that") == ("x--y : Told", "so that")
    assert KEPT.sub("Kept", 'members.get("moment")') == "members.get(Kept)"
    assert parts_of("IsTold has_room NO_ROOM no-moment") == ["is", "told", "has", "room", "no", "room", "no", "moment"]
    assert [it[0] for it in AVOID.finditer("a Moment, it may be so that")] == ["Moment", "may be", "so that"]


def check() -> bool:
    """Checks the sources."""
    self_test()
    faults = [f"{file.relative_to(ROOT)}:{line}: avoid \"{word}\" in {kind}" for file, line, kind, word in places()]
    return report.verdict("words", faults, f"{len(sources()) + len(scripts()) + len(rows())} files")
