"""The claims: docs/claims/GROUP.toml says what is claimed, and docs/claims/GROUP.md is made of it.

A file has a title, `about` (what the group is for) and a list of claims. A claim has

- `title`, and `says`: its sentences. `not_covered`: exceptions, each a sentence;
- `definitions`: `file` is CRATE/FILE for crates/CRATE/specs/FILE.antt, `names` are definitions in it. Each is in the statement of
  one of the claim's clauses, or of a definition that is, in these files or the specs of a crate of its calls;
- `contracts`: `calls` are TYPE::CALL or CALL(), with CRATE:: in front where several crates have it, and with braces for several.
  Each of `clauses` is a clause of each of these calls; CLAUSE.PART is a part of the record that it states. Without it all are meant;
- `proofs`: CRATE/PATH for crates/CRATE/proofs/PATH, a folder or a file. An empty list: the tactics found the proof, and no call has a
  folder of its own.

The page has the sentences, then the clauses and definitions as they are in the sources, and links to what these use. Each law, a
public function without parameters and with an empty body, has a claim.
"""
import re
import tomllib
from collections.abc import Iterator
from dataclasses import dataclass, field, replace
from pathlib import Path
from typing import Any

from lib.pages import report
from lib.pages.contracts import (CRATES, ROOT, Call, Definition, calls, definitions, definitions_of, laws, part_of, proof_of, scope,
                                 spec_of, spread, words)
from lib.pages.prose import SENTENCE, anchor_of, count, plain
from lib.pages.words import AVOID

FOLDER = ROOT / "docs" / "claims"
MADE = "<!-- Made of {name}.toml by `.ci/checks/pages.py claims --write`: change that file, not this one. -->\n"


@dataclass(frozen=True)
class Contract:
    """Calls, and clauses of each of them; all clauses where there are none."""

    calls: tuple[str, ...]
    clauses: tuple[str, ...] = ()


@dataclass(frozen=True)
class Claim:
    """One claim."""

    title: str
    says: tuple[str, ...]
    contracts: tuple[Contract, ...]
    proofs: tuple[str, ...]
    not_covered: tuple[str, ...] = ()
    # Of each file of definitions the names.
    definitions: tuple[tuple[str, tuple[str, ...]], ...] = ()


@dataclass(frozen=True)
class Group:
    """The claims of one page."""

    name: str
    title: str
    about: str
    claims: tuple[Claim, ...]


@dataclass
class Resolved:
    """What a claim is about: each call with the clauses that are meant, and the parts of records."""

    calls: list[tuple[str, Call, tuple[str, ...]]] = field(default_factory=list)
    parts: list[tuple[str, Definition]] = field(default_factory=list)
    # The names in the statements of the clauses that are meant.
    said: set[str] = field(default_factory=set)
    faults: list[str] = field(default_factory=list)


def claim_of(data: dict[str, Any]) -> Claim:
    """A claim of a file. A field that isn't known is a `TypeError`."""
    made = {name: tuple(it) if isinstance(it, list) else it for name, it in data.items()}
    made["contracts"] = tuple(Contract(**{name: tuple(it) for name, it in row.items()}) for row in data["contracts"])
    made["definitions"] = tuple((row["file"], tuple(row["names"])) for row in data.get("definitions", []))
    return Claim(**made)


def groups() -> list[Group]:
    """The groups of docs/claims."""
    found = []
    for file in sorted(FOLDER.glob("*.toml")):
        data = tomllib.loads(file.read_text())
        found.append(Group(file.stem, data["title"], data["about"], tuple(claim_of(it) for it in data["claims"])))
    return found


def find_call(path: str) -> list[tuple[str, Call]]:
    """The calls that a path such as CRATE::TYPE::CALL can mean, each with its crate."""
    *front, name = path.split("::")
    owner = front.pop() if front and front[-1][0].isupper() else ""
    return [(crate, it) for crate, it in calls().get((owner, name), {}).items() if not front or crate == front[0]]


def resolve(claim: Claim) -> Resolved:
    """Looks up a claim's calls and clauses."""
    done = Resolved()
    for contract in claim.contracts:
        meant = []
        for path in [path for span in contract.calls for path in spread(span.removesuffix("()"))]:
            found = find_call(path)
            if len(found) == 1 and found[0][1].ensures():
                meant.append((path, found[0][1]))
            else:
                done.faults.append(f"{path} is in {sorted(it for it, _ in found)}" if len(found) > 1 else f"no call {path} with a contract")
        for path, call in meant:
            resolve_clauses(path, call, contract.clauses, done)
        if not contract.calls:
            done.faults.append("a clause without a call")
    return done


def resolve_clauses(path: str, call: Call, clauses: tuple[str, ...], done: Resolved) -> None:
    """Looks up the clauses of a call that are meant."""
    known, wanted = call.ensures(), clauses or tuple(call.ensures())
    done.calls.append((path, call, tuple(dict.fromkeys(it.partition(".")[0] for it in wanted))))
    for span in wanted:
        name, _, part = span.partition(".")
        if name not in known:
            done.faults.append(f"{path} has no clause {span}")
        elif not part:
            done.said |= words(known[name].text)
        elif (found := part_of(known[name].text, part)) is None:
            done.faults.append(f"{path} has no clause {span}")
        else:
            done.said |= words(found[0])
            done.parts.append(found)


def faults_of(claim: Claim) -> Iterator[str]:
    """What is wrong with a claim."""
    done = resolve(claim)
    yield from done.faults
    known = {name: it.plain for crate in {it.crate for _, it, _ in done.calls} for name, it in definitions_of(crate).items()}
    for path, names in claim.definitions:
        found = definitions(spec_of(path)) if spec_of(path).exists() else {}
        yield from (f"no definition {name} in {spec_of(path).relative_to(ROOT)}" for name in names if name not in found)
        known.update({name: it.plain for name, it in found.items()})
    said = set(done.said)
    while more := {it for name in said & known.keys() for it in words(known[name])} - said:
        said |= more
    yield from (f"{name} isn't in what the clauses say" for _, names in claim.definitions for name in names if name not in said)
    places = [it for span in claim.proofs for it in spread(span)]
    yield from (f"no place of a proof {it}" for it in places if not proof_of(it).exists())
    own = [it for path, call, _ in done.calls for it in own_proofs(path, call)]
    if not places and own:
        yield f"no place of a proof, where there is {own[0].relative_to(ROOT)}"
    if not claim.says or not claim.contracts:
        yield "a claim without a sentence or a contract"
    for sentence in map(plain, claim.says + claim.not_covered):
        yield from (f"avoid \"{it[0]}\"" for it in AVOID.finditer(sentence))
        if count(sentence) > SENTENCE:
            yield f"a sentence of {count(sentence)} words"


def own_proofs(path: str, call: Call) -> list[Path]:
    """The folders of proofs of a call's own."""
    *front, name = path.split("::")
    owner = front[-1] if front and front[-1][0].isupper() else ""
    return [it for it in (CRATES / call.crate / "proofs").rglob(name) if not owner or it.parent.name == owner]


def link(file: Path, line: int | None = None) -> str:
    """A link to a file, or to a line of it, from a page of docs/claims."""
    path = file.relative_to(ROOT)
    return f"[{path}{f':{line}' if line else ''}](../../{path}{f'#L{line}' if line else ''})"


def call_text(path: str, call: Call, clauses: tuple[str, ...]) -> str:
    """A call's head, what a caller owes, and the clauses that are meant, as they are in the source."""
    shown = [it for it in call.clauses if it.kind == "requires" or it.name in clauses]
    lines = [call.head, *["\n".join(f"    {line}" for line in it.text.splitlines()) for it in shown]]
    first = next(it.line for it in shown if it.kind == "ensures")
    return f"`{path}`, {link(call.file, first)}:\n\n```rust\n" + "\n".join(lines) + "\n```\n"


def definition_text(name: str, it: Definition) -> str:
    """A definition as it is in the source."""
    return f"`{name}`, {link(it.file, it.line)}:\n\n```agda\n{it.text}\n```\n"


def used_text(shown: list[tuple[str, Definition]], called: list[tuple[str, Call, tuple[str, ...]]]) -> str:
    """Links to the definitions that what is shown uses, and that aren't shown."""
    texts = [(it.file, it.plain) for _, it in shown]
    texts += [(call.file, it.text) for _, call, names in called for it in call.clauses if it.kind == "requires" or it.name in names]
    used = {name: scope(file)[name] for file, text in texts for name in words(text) & scope(file).keys()}
    left = sorted(((name, it) for name, it in used.items() if it not in dict(shown).values()), key=lambda it: it[0])
    links = [f"[`{name}`](../../{it.file.relative_to(ROOT)}#L{it.line})" for name, it in left]
    return "**Also used:** " + ", ".join(links) + "\n" if links else ""


def claim_text(claim: Claim) -> str:
    """The part of a page for a claim."""
    done = resolve(claim)
    says = "\n".join(claim.says) if len(claim.says) < 3 else "\n".join(f"- {it}" for it in claim.says)
    parts = [f"## {claim.title}\n", says + "\n"]
    if claim.not_covered:
        parts += ["**Not covered:**\n", "\n".join(f"- {it}" for it in claim.not_covered) + "\n"]
    parts += ["**Statement.**\n", *[call_text(*it) for it in done.calls]]
    named = [(name, definitions(spec_of(path))[name]) for path, names in claim.definitions for name in names]
    # A record of which only parts are meant.
    records = [it for it in dict.fromkeys(it for _, it in done.parts) if it not in dict(named).values()]
    named += [(re.findall(r"record ([\w-]+)", it.plain)[0], it) for it in records]
    parts += ["**Definitions.**\n"] * bool(named) + [definition_text(*it) for it in named]
    parts += [it for it in [used_text(named, done.calls)] if it]
    places = [it for span in claim.proofs for it in spread(span)]
    parts.append("**Proof:** " + (", ".join(link(proof_of(it)) for it in places) if places else "the tactics found it.") + "\n")
    return "\n".join(parts)


def page_of(group: Group) -> str:
    """The page of a group."""
    seen: set[str] = set()
    rows = "\n".join(f"- [{it.title}](#{anchor_of(it.title, seen)})" for it in group.claims)
    head = f"# Claims: {group.title}\n\n{group.about} [proofs.md](../proofs.md#reading-a-claim) says how to read a claim.\n\n{rows}\n"
    return "\n".join([MADE.format(name=group.name), head, *map(claim_text, group.claims)])


def self_test() -> None:
    """A claim that is right has no fault, and with one name changed it has one."""
    history = Contract(("Board::history",), ("looks_back.rows",))
    contracts = (Contract(("Board::{insert, begin}",), ("reply",)), history, Contract(("refiring_alerts_stay()",)))
    proofs = ("am_board/board/Board/insert", "am_board/lemmas/{begin, insert}")
    right = Claim("A", ("B.",), contracts, proofs, (), (("am_model/Replay", ("reply",)),))
    assert not list(faults_of(right)), list(faults_of(right))
    wrong = [replace(right, definitions=it) for it in [(("am_model/Replays", ("reply",)),), (("am_model/Replay", ("replies",)),),
                                                       (("am_model/Replay", ("reply", "Within")),)]]
    wrong += [replace(right, contracts=(it,)) for it in [Contract(("Board::{insert, begins}",), ("reply",)), Contract(()),
                                                         Contract(("Board::insert",), ("replies",)), Contract(("refiring_alerts_go()",)),
                                                         replace(history, clauses=("looks_back.lines",)),
                                                         replace(history, clauses=("within",))]]
    wrong += [replace(right, proofs=it) for it in [("am_board/lemma/begin",), ()]] + [replace(right, says=())]
    for claim in wrong:
        assert list(faults_of(claim)), claim


def check(write: bool) -> bool:
    """Checks the claims and their pages, or makes the pages anew."""
    self_test()
    found, faults = groups(), []
    claims = [(group, it) for group in found for it in group.claims]
    faults += [f"docs/claims/{group.name}.toml: {it.title}: {fault}" for group, it in claims for fault in faults_of(it)]
    named = {call for _, it in claims for _, call, _ in resolve(it).calls}
    faults += [f"{it.file.relative_to(ROOT)}:{it.line}: {name} has no claim in docs/claims" for name, it in laws() if it not in named]
    if not faults:
        faults += pages_faults({FOLDER / f"{it.name}.md": page_of(it) for it in found}, write)
    return report.verdict("claims", faults, f"{len(claims)} claims in {len(found)} groups, and {len(laws())} laws")


def pages_faults(pages: dict[Path, str], write: bool) -> Iterator[str]:
    """Which pages aren't as they are made, and pages of no group. Or makes them so."""
    for file in sorted({*FOLDER.glob("*.md"), *pages}):
        text, is_there = pages.get(file), file.exists()
        if write and text is None:
            file.unlink()
        elif write:
            file.write_text(text or "")
        elif text is None:
            yield f"{file.relative_to(ROOT)}: a page of no group"
        elif not is_there or file.read_text() != text:
            name = str(file.relative_to(ROOT))
            yield report.differs(f"{name} (`.ci/checks/pages.py claims --write` makes it)", file.read_text() if is_there else "", text,
                                 (name, "as the claims are"))
