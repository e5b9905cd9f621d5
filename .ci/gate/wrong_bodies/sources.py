"""The functions of a crate's sources, and where their proofs are."""
import os
import re
from typing import NamedTuple


class Function(NamedTuple):
    """A function: its path, and the lines of its first tag, of its head, of its body's begin and of its end."""

    name: str
    first: int
    head: int
    begin: int
    end: int


def texts_of(folder: str, parts: tuple[str, ...] = ("src",)) -> dict[str, str]:
    """The files of a crate, by their path in it."""
    found = {}
    for part in parts:
        for at, _, names in os.walk(f"{folder}/{part}"):
            for name in names:
                with open(f"{at}/{name}", encoding="utf-8") as file:
                    found[os.path.relpath(f"{at}/{name}", folder)] = file.read()
    return found


def first_tag(lines: list[str], at: int) -> int:
    """The first line of the tags and comments right before a function's head."""
    while at > 0 and re.match(r" *(#\[|//)", lines[at - 1]):
        at -= 1
    return at


def begin_of(lines: list[str], at: int, depth: str) -> int | None:
    """The line at whose end the body of a function begins, whose head begins at this line and depth; or None."""
    first = at
    while not lines[first].endswith("{") or not (first == at or lines[first] == depth + "{" or lines[first].startswith(depth + ")")):
        first += 1
        if first >= len(lines):
            return None
        line = lines[first]
        if line and not line.startswith((depth + " ", depth + ")")) and line not in (depth + "{", depth + "where"):
            return None
    return first


def body_of(lines: list[str], at: int) -> tuple[int, int] | None:
    """Of a function whose head begins at this line: the lines between which its body is, or None. `rt fmt`, which
    the gate demands, opens a body at the end of its head or alone at the head's depth, and closes it alone at that depth."""
    head = re.match(r"( *)(pub(\([a-z: ]+\))? )?(unsafe )?fn ", lines[at])
    # (one body of a cycle is read by the proof of all)
    if not head or any("#[cycle" in it for it in lines[first_tag(lines, at) : at]):
        return None
    first = begin_of(lines, at, head[1])
    if first is None:
        return None
    last = next((i for i in range(first + 1, len(lines)) if lines[i] == head[1] + "}"), None)
    return None if last is None else (first, last)


def without_bodies(text: str) -> str:
    """The text of a source without the bodies of its functions. What it doesn't know for a body stays."""
    kept: list[str] = []
    lines, at = text.split("\n"), 0
    while at < len(lines):
        found = body_of(lines, at)
        kept += lines[at : found[0] + 1] if found else [lines[at]]
        at = found[1] if found else at + 1
    return "\n".join(kept)


def module_of(path: str) -> str:
    """The place in proofs/ of a source's functions: `proofs/a/b/` of src/a/b.rt."""
    inside = re.sub(r"(^|/)(lib|main|mod)\.rt$|\.rt$", "", path.removeprefix("src/"))
    return f"proofs/{inside}/" if inside else "proofs/"


def owner_of(head: str) -> str | None:
    """The type that an `impl` block without a trait is of, by its head, or None."""
    depth, rest = 0, re.sub(r"^(unsafe )?impl\s*", "", head)
    if rest.startswith("<"):
        for at, sign in enumerate(rest):
            depth += (sign == "<") - (sign == ">" and rest[at - 1] != "-")
            if not depth:
                rest = rest[at + 1 :]
                break
    name = re.match(r"\s*(\w+)", rest)
    return name[1] if name and not re.search(r"\bfor\b", rest) else None


def homes_of(texts: dict[str, str]) -> dict[str, str | None]:
    """The module of each type that the crate defines, where one module alone defines one of that name."""
    homes: dict[str, str | None] = {}
    for path, text in texts.items():
        for name in re.findall(r"^(?:pub(?:\([a-z: ]+\))? )?(?:struct|enum) (\w+)", text, re.M):
            homes[name] = None if name in homes else module_of(path)
    return homes


def place_of(path: str, indent: str, owner: str | None, homes: dict[str, str | None]) -> str | None:
    """The place in proofs/ of a function's own folder, by the source and the indent of its head and by the type whose method it
    is; or None, where that isn't known."""
    if not indent:
        return module_of(path)
    home = homes.get(owner) if owner is not None and len(indent) == 4 else None
    return f"{home}{owner}/" if home else None


def functions_of(path: str, text: str, homes: dict[str, str | None]) -> list[Function]:
    """The functions of a source whose place in proofs/ is known. A method of a trait's `impl`, a `const fn`, a function of a
    cycle of calls and what `body_of` doesn't know aren't among them."""
    found: list[Function] = []
    lines, at, owner = text.split("\n"), 0, None
    while at < len(lines):
        line = lines[at]
        if re.match(r"(unsafe )?impl\b", line):
            end = next(i for i in range(at, len(lines)) if "{" in lines[i])
            owner = owner_of(" ".join(lines[at : end + 1]).partition("{")[0])
        elif line and line[0] not in " }#/":
            owner = None
        head, body = re.match(r"( *)(?:pub(?:\([a-z: ]+\))? )?(?:unsafe )?fn (\w+)", line), body_of(lines, at)
        place = place_of(path, head[1], owner, homes) if head and body else None
        if head and body and place:
            name = f"{place}{head[2]}".removeprefix("proofs/").replace("/", "::")
            found.append(Function(name, first_tag(lines, at), at, *body))
        at = body[1] if body else at + 1
    return found
