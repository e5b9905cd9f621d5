"""Data in files: rows of texts with tabs, changes of a JSON value by its pointers, and runs of commands."""
import json
import re
from collections.abc import Iterator
from pathlib import Path
from typing import Any, NamedTuple

# Any JSON value.
Json = Any


class Rows:
    """A file of rows, each a line. Lines that begin with `#` are comments."""

    def __init__(self, file: Path) -> None:
        self.file = file
        self.lines = file.read_text(encoding="utf-8").split("\n")

    def __iter__(self) -> Iterator[tuple[int, str]]:
        return iter([(at, it) for at, it in enumerate(self.lines) if it and not it.startswith("#")])

    def tabbed(self) -> list[tuple[int, list[str]]]:
        """The rows, each with the place of its line, and cut at its tabs."""
        return [(at, it.split("\t")) for at, it in self]

    def write(self) -> None:
        """Writes the lines as they are by now."""
        self.file.write_text("\n".join(self.lines), encoding="utf-8")


def repeated(text: str) -> str:
    """A text with what `<"a#",*3>` represents: the text in it so many times, with each number from 0 for #."""
    return re.sub(r"<(.+?)\*(\d+)>", lambda it: "".join(it[1].replace("#", str(n)) for n in range(int(it[2]))), text)


def key(value: Json, step: str) -> str | int:
    """What a step of a pointer is in a value."""
    return int(step) if isinstance(value, list) else step


def value_of(verb: str, text: str) -> Json:
    """The value of a change: JSON, or for `many` and `wide` a list or an object of so many, `COUNT ITEM`, with each number for #."""
    if verb not in ("many", "wide"):
        return json.loads(repeated(text)) if text else None
    count, item = text.split(" ", 1)
    items = [json.loads(item.replace("#", str(number))) for number in range(int(count))]
    return items if verb == "many" else {f"a{number}": it for number, it in enumerate(items)}


def changed(whole: Json, words: str) -> Json:
    """The value with a change made: `set /pointer VALUE`, `add /pointer VALUE`, `drop /pointer`, `many` and `wide`."""
    verb, place, text = (words.split(" ", 2) + [""])[:3]
    value = value_of(verb, text)
    steps = [step.replace("~1", "/").replace("~0", "~") for step in repeated(place).split("/")[1:]]
    if not steps:
        return value
    above = whole
    for step in steps[:-1]:
        above = above[key(above, step)]
    if verb == "drop":
        del above[steps[-1]]
    elif verb == "add":
        above[steps[-1]].append(value)
    else:
        above[key(above, steps[-1])] = value
    return whole


class Run(NamedTuple):
    """A run of a command: the comments before it, its command, and the lines of what it gives."""

    comments: list[str]
    command: str
    lines: list[str]

    def text(self, lines: list[str]) -> str:
        """The run with these lines, as a file has it."""
        return "\n".join([*self.comments, *[""] * bool(self.comments), f"$ {self.command}", *lines, "", ""])


def runs_of(text: str) -> list[Run]:
    """The runs of a text: a line `$ COMMAND`, and then what it gives."""
    runs: list[Run] = []
    comments: list[str] = []
    for line in text.splitlines():
        if line.startswith("$ "):
            runs.append(Run(comments, line[2:], []))
            comments = []
        elif line.startswith("#"):
            comments.append(line)
        elif runs and line:
            runs[-1].lines.append(line)
    return runs
