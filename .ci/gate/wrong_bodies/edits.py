"""Wrong bodies: how they are read, which are tried together, and how they come into a copy of their crate."""
import contextlib
import os
import re

from .sources import functions_of, homes_of, texts_of

# How many are tried in one check at most.
MOST = 50
# The files of a proof that no other proof can name.
OF_ONE_PROOF = ("Answers.antt", "Invariants.antt", "Proof.antt")
# The proof of a stub. (A hole's goal is computed and printed: this one's is a variable.)
STUB_PROOF = """use Rattle.{path}.Statement as stated

unproved : {{A : Type 2}} → A
unproved = ?

pub {name}_spec : {{M : Type 1}} → stated.statement M
{name}_spec = unproved
"""


class BadEdit(Exception):
    """The edit can't be tried."""


class Edit:
    """A wrong body of one function."""

    def __init__(self, file: str) -> None:
        """Reads it, and refuses what isn't of the form."""
        self.name = os.path.basename(file)[: -len(".edit")]
        self.function, self.alone = "", False
        self.pairs: list[tuple[str, str, str]] = []
        # which copy of its function it turns, if any, and whether it can turn one
        self.number, self.copies = 0, False
        path = old = ""
        with open(file, encoding="utf-8") as lines:
            for line in lines.read().split("\n"):
                word, _, rest = line.partition(":")
                if word == "fn":
                    self.function = rest.strip()
                elif word == "alone":
                    self.alone = True
                elif word == "file":
                    path = rest.strip()
                elif word == "old":
                    old = rest[1:]
                elif word == "new":
                    self.pairs.append((path, old, rest[1:]))
        # the function, or the cycle of calls that it is in
        self.turned = self.function
        if not self.function or not self.pairs or any(not path or not old for path, old, _ in self.pairs):
            raise BadEdit(f"{file}: it has a line `fn: PATH`, one `file: PATH`, and pairs of `old: TEXT` and `new: TEXT`")

    @property
    def tried(self) -> str:
        """The function that has to be reported: its own, or the copy that it turns."""
        return f"{self.function}_again{self.number}" if self.number else self.function

    def apply(self, texts: dict[str, str]) -> None:
        """Puts its new texts in place of the old ones, each of which is once in its file by then."""
        for path, old, new in self.pairs:
            if path not in texts or texts[path].count(old) != 1:
                raise BadEdit(f"{self.name}: its old text isn't once in {path}")
            texts[path] = texts[path].replace(old, new)

    def meets(self, other: "Edit") -> bool:
        """Whether the two can't be tried in one check: they turn one function of which there is no copy, or two whose bodies
        one proof reads, or one has the other's text."""
        if self.turned == other.turned:
            return self.alone or other.alone or not (self.copies and other.copies)
        pairs = [(one, two) for one in self.pairs for two in other.pairs if one[0] == two[0]]
        overlap = any(one[1] in text or two[1] in one[1:][at] for one, two in pairs for at, text in enumerate(two[1:]))
        return self.alone or other.alone or overlap


def edits_of(folder: str) -> list[Edit]:
    """The wrong bodies of a crate."""
    names = sorted(os.listdir(folder))
    for name in names:
        if not name.endswith(".edit"):
            raise BadEdit(f"{name}: what stands in wrong-bodies/ ends in .edit")
    edits, texts = [Edit(f"{folder}/{name}") for name in names], texts_of(os.path.dirname(folder))
    cycle = r"#\[cycle\((\w+)\)\]\s+(?:#\[.*\]\s+)*(?:pub(?:\(\w+\))? )?fn (\w+)"
    cycles = [it for text in texts.values() for it in re.findall(cycle, text)]
    homes, known = homes_of(texts), {}
    for path, text in texts.items():
        for it in functions_of(path, text, homes):
            known[it.name] = path, "\n".join(text.split("\n")[it.first : it.end + 1])
    for edit in edits:
        # (the proof of a cycle is one for all its functions, so two of them can't be tried together)
        edit.turned = next((cycle for cycle, name in cycles if name == edit.function.split("::")[-1]), edit.function)
        path, text = known.get(edit.function, ("", ""))
        # (a copy of one that calls itself would call the other, and the files of the cycle's proof wouldn't be its own)
        *places, name = edit.function.split("::")
        calls_itself = os.path.isdir("/".join([os.path.dirname(folder), "proofs", *places, f"+{name}"]))
        edit.copies = not calls_itself and all(pair[0] == path and text.count(pair[1]) == 1 for pair in edit.pairs)
    return edits


def rounds_of(edits: list[Edit]) -> list[list[Edit]]:
    """Those together that are tried in one check."""
    rounds: list[list[Edit]] = []
    for edit in sorted(edits, key=lambda it: it.alone):
        fits = (i for i, it in enumerate(rounds) if len(it) < MOST and not any(edit.meets(other) for other in it))
        place = next(fits, len(rounds))
        rounds[place:] = rounds[place:] or [[]]
        edit.number = sum(it.function == edit.function for it in rounds[place])
        rounds[place].append(edit)
    return rounds


def holder_of(function: str) -> str:
    """The function that has the text of this one: of a closure, as `a::fn::f::all`, the one that it is in."""
    names = function.split("::")
    at = names.index("fn") if "fn" in names else None
    return function if at is None else "::".join(names[:at] + names[at + 1 : -1])


def with_stubs(path: str, text: str, homes: dict[str, str | None], turned: set[str]) -> tuple[str, list[str]]:
    """The text of a source with a stub in the place of each function that is known and isn't turned, and their paths."""
    lines, stubs = text.split("\n"), []
    for it in reversed(functions_of(path, text, homes)):
        if it.name != "main" and it.name not in turned:
            stubs.append(it.name)
            depth = len(lines[it.head]) - len(lines[it.head].lstrip(" "))
            lines[it.begin + 1 : it.end] = [" " * depth + "    loop {}"]
    return "\n".join(lines), stubs


def with_holes(text: str) -> str:
    """The text of a module of lemmas, with a hole in the place of each proof. What can be unfolded stays as it is: a
    definition that is an `abbrev` or `unfoldable`, a record, a set of rules. So does what is in a `module _ .. where`."""
    kept: list[str] = []
    name = None
    for part in re.split(r"\n(?=[^\s\])}])", text):
        is_proof = name and re.match(rf"unfolding |{re.escape(name)} ", part)
        if is_proof and kept[-1] != f"{name} = ?\n":
            kept[-1] = kept[-1].rstrip("\n")
            kept.append(f"{name} = ?\n")
        if not is_proof:
            kept.append(part)
            head = re.match(r"(?:pub )?([^\s:]+) : ", part)
            name = head[1] if head else None
    return "\n".join(kept)


def put_copies(crate: str, room: str, texts: dict[str, str], before: dict[str, str], edits: list[Edit]) -> None:
    """Puts behind a function the copies of it that edits turn, each with files of its proof. `before` has the texts that no
    edit has turned."""
    homes = homes_of(before)
    for edit in (it for it in edits if it.number):
        path, names, names_now = edit.pairs[0][0], edit.function.split("::"), edit.tried.split("::")
        found, now = (next(it for it in functions_of(path, text[path], homes) if it.name == edit.function) for text in (before, texts))
        copy = "\n".join(before[path].split("\n")[found.first : found.end + 1])
        for _, old, new in edit.pairs:
            copy = copy.replace(old, new)
        copy = re.sub(rf"\bfn {names[-1]}\b", f"fn {names_now[-1]}", copy, count=1)
        lines = texts[path].split("\n")
        lines[now.end + 1 : now.end + 1] = ["", copy]
        texts[path] = "\n".join(lines)
        copy_proof(crate, room, names, names_now)


def copy_proof(crate: str, room: str, names: list[str], names_now: list[str]) -> None:
    """Gives the function of the second path the files of the proof of the first."""
    proof, proof_now = (f"{room}/proofs/{'/'.join(it)}" for it in (names, names_now))
    for name in OF_ONE_PROOF:
        with contextlib.suppress(FileNotFoundError), open(f"{proof}/{name}", encoding="utf-8") as file:
            os.makedirs(proof_now, exist_ok=True)
            with open(f"{proof_now}/{name}", "w", encoding="utf-8") as to:
                to.write(file.read().replace(f"Rattle.{crate}.proofs.{'.'.join(names)}.", f"Rattle.{crate}.proofs.{'.'.join(names_now)}."))


def put_stubs(crate: str, room: str, texts: dict[str, str], edits: list[Edit]) -> None:
    """Puts stubs in the place of functions that the edits don't turn, and holes in that of their proofs and of lemmas."""
    homes, turned = homes_of(texts), {holder_of(it.tried) for it in edits}
    for path, text in texts_of(room, ("proofs",)).items():
        if os.path.basename(path) not in OF_ONE_PROOF:
            with open(f"{room}/{path}", "w", encoding="utf-8") as file:
                file.write(with_holes(text))
    for path in texts:
        texts[path], stubs = with_stubs(path, texts[path], homes, turned)
        for function in stubs:
            put_stub_proof(crate, room, function.split("::"))


def put_stub_proof(crate: str, room: str, names: list[str]) -> None:
    """Puts a hole in the place of a function's proof."""
    proof = f"{room}/proofs/{'/'.join(names)}"
    os.makedirs(proof, exist_ok=True)
    for name in OF_ONE_PROOF:
        with contextlib.suppress(FileNotFoundError):
            os.remove(f"{proof}/{name}")
    with open(f"{proof}/Proof.antt", "w", encoding="utf-8") as file:
        file.write(STUB_PROOF.format(path=f"{crate}.proofs.{'.'.join(names)}", name=names[-1]))
