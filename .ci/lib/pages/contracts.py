"""The public calls of crates/ with their clauses, and the definitions of specs/, each with its place."""
import re
from dataclasses import dataclass, field
from functools import cache
from itertools import product
from pathlib import Path

ROOT = Path(__file__).resolve().parents[3]
CRATES = ROOT / "crates"
# Programs and tests, of which nothing is claimed.
UNCLAIMED = re.compile(r"am_(\w*tests|bench|embedded)")
HEAD = re.compile(r"^(?:impl\b(?:<.*?>(?= ))? (?:[\w<>:', ]+? for )?|pub trait )(\w+).*\{$")
CLAUSE = re.compile(r"^ *(ensures|requires) (\w*) ?\{")


@dataclass(frozen=True)
class Clause:
    """A clause of a contract: what it says, as it is in the source."""

    kind: str
    name: str
    text: str
    line: int


@dataclass(frozen=True)
class Call:
    """A public call: its head without contract, and its clauses."""

    crate: str
    file: Path
    line: int
    head: str
    clauses: tuple[Clause, ...]
    is_law: bool

    def ensures(self) -> dict[str, Clause]:
        """What it promises, by the clauses' names."""
        return {it.name: it for it in self.clauses if it.kind == "ensures"}

    def requires(self) -> list[Clause]:
        """What a caller owes."""
        return [it for it in self.clauses if it.kind == "requires"]


@dataclass(frozen=True)
class Definition:
    """A definition: its text with the comment above it, and without comments."""

    file: Path
    line: int
    text: str
    plain: str = field(repr=False)


def indentation(lines: list[str]) -> int:
    """How many blanks all lines that aren't empty begin with."""
    return min((len(it) - len(it.lstrip()) for it in lines if it.strip()), default=0)


def dedented(lines: list[str]) -> str:
    """The lines without what they are all indented by."""
    blanks = indentation(lines)
    return "\n".join(it[blanks:].rstrip() for it in lines)


def split_contract(lines: list[str], first: int) -> tuple[list[str], tuple[Clause, ...]]:
    """The head of a call without its contract, and the clauses; its first line has this number."""
    starts = [i for i, it in enumerate(lines) if CLAUSE.match(it)]
    if not starts:
        return lines, ()
    clauses = []
    for begin, end in zip(starts, [*starts[1:], len(lines)]):
        kind, name = CLAUSE.match(lines[begin]).groups()  # type: ignore[union-attr]
        body = lines[begin:end]
        while body and body[-1].strip() in ("{", "{}"):
            body = body[:-1]
        clauses.append(Clause(kind, name, dedented([re.sub(r"(\}) \{$|;$", r"\1", it) for it in body]), first + begin))
    return lines[:starts[0]], tuple(clauses)


def last_of(lines: list[str], at: int, blanks: str) -> int:
    """The index of the line at which a call's head and contract end."""
    for i in range(at, len(lines)):
        if re.match(rf"{blanks}[{{}}]|.*(;|\{{|\{{\}})$", lines[i]) and not re.search(r"ensures[^}]*\{$", lines[i]):
            return i
    return len(lines) - 1


def calls_in(file: Path) -> list[tuple[str, str, Call]]:
    """The public calls of a file, each with its type and its name."""
    crate, lines, found = file.relative_to(CRATES).parts[0], file.read_text().splitlines(), []
    owner, of_trait = "", False
    for at, line in enumerate(lines):
        if head := HEAD.match(line):
            owner, of_trait = head[1], "trait " in line or " for " in line
        elif line == "}":
            owner = ""
        elif (call := re.match(r"( *)(pub )?(?:const |extern \"C\" )?fn (\w+)", line)) and (call[2] or (owner and of_trait)):
            last = last_of(lines, at, call[1])
            front, clauses = split_contract(lines[at:last + 1], at + 1)
            is_law = bool(call[2] and not owner and re.fullmatch(r"pub fn \w+(<.*>)?\(\)", line) and lines[last] == "{}")
            found.append((owner, call[3], Call(crate, file, at + 1, dedented(front), clauses, is_law)))
    return found


@cache
def calls() -> dict[tuple[str, str], dict[str, Call]]:
    """The public calls by type and name; of each, by crate."""
    found: dict[tuple[str, str], dict[str, Call]] = {}
    for file in sorted(CRATES.glob("*/src/**/*.rt")):
        if not UNCLAIMED.fullmatch(file.relative_to(CRATES).parts[0]):
            for owner, name, call in calls_in(file):
                found.setdefault((owner, name), {}).setdefault(call.crate, call)
    return found


def laws() -> list[tuple[str, Call]]:
    """The laws: public functions without parameters and with an empty body."""
    return [(name, call) for (_, name), by_crate in calls().items() for call in by_crate.values() if call.is_law]


@cache
def definitions(file: Path) -> dict[str, Definition]:
    """The definitions of a file of specs/, by name."""
    found, at = {}, 1
    for text in file.read_text().split("\n\n"):
        plain = re.sub(r"^\s*--.*$", "", text, flags=re.MULTILINE)
        blank = len(text) - len(text.lstrip("\n"))
        for name in re.findall(r"\bpub (?:record |data )?([\w-]+)", plain.partition("where")[0]):
            found[name] = Definition(file, at + blank, text.strip("\n"), plain)
        at += text.count("\n") + 2
    return found


@cache
def definitions_of(crate: str) -> dict[str, Definition]:
    """All definitions of a crate's specs/, by name."""
    files = sorted((CRATES / crate / "specs").rglob("*.antt"))
    return {name: it for file in files for name, it in definitions(file).items()}


@cache
def scope(file: Path) -> dict[str, Definition]:
    """The definitions that a source can name: those that it imports from specs/, and its own."""
    found = dict(definitions(file)) if file.suffix == ".antt" else {}
    for crate, path, names in re.findall(r"use Rattle\.(am_\w+)\.specs\.([\w.]+)\.\{([^}]*)\}", file.read_text()):
        spec = CRATES / crate / "specs" / f"{path.replace('.', '/')}.antt"
        if spec.exists():
            found.update({it: definitions(spec)[it] for it in re.split(r",\s*", names) if it in definitions(spec)})
    return found


def spread(text: str) -> list[str]:
    """The names that a text with braces means."""
    parts = enumerate(re.split(r"[{}]", text.replace(" ", "")))
    return ["".join(it) for it in product(*[part.split(",") if i % 2 else [part] for i, part in parts])]


def words(text: str) -> set[str]:
    """The names in a text."""
    return set(re.findall(r"[A-Za-z_][\w-]*", text))


def spec_of(path: str) -> Path:
    """The file of definitions that CRATE/FILE is."""
    return CRATES / f"{path.replace('/', '/specs/', 1)}.antt"


def proof_of(path: str) -> Path:
    """The folder or the file of proofs that CRATE/PATH is."""
    folder = CRATES / path.replace("/", "/proofs/", 1)
    return folder if folder.exists() else folder.with_suffix(".antt")


def part_of(statement: str, part: str) -> tuple[str, Definition] | None:
    """What a part of the record that a statement names says, and the record."""
    for file in sorted(CRATES.glob("*/specs/**/*.antt")):
        for name in sorted(definitions(file).keys() & words(statement)):
            if found := re.search(rf"\n(  pub {part} :(?:.|\n    )*)", definitions(file)[name].plain):
                return found[1], definitions(file)[name]
    return None
