"""The crates as they were in the last run on this machine that passed. They decide how many proofs run at a time, and never a verdict."""
import contextlib
import hashlib
import json
import os

from . import kit
from .kit import ROOT

PASSED = f"{kit.KEPT}/passed.json"


def sum_of(crate: str) -> str:
    """The sum of a crate's files, without its wrong bodies and what checks make."""
    sum = hashlib.sha256()
    for at, folders, files in os.walk(f"{ROOT}/crates/{crate}"):
        folders[:] = sorted({*folders} - {"out", "wrong-bodies"})
        for file in sorted(files):
            with open(f"{at}/{file}", "rb") as read:
                sum.update(repr((os.path.relpath(f"{at}/{file}", ROOT), hashlib.sha256(read.read()).hexdigest())).encode())
    return sum.hexdigest()


def sums() -> dict[str, str]:
    """The sums of all crates."""
    return {name: sum_of(name) for name in sorted(os.listdir(f"{ROOT}/crates"))}


def keep() -> None:
    """This run passed."""
    with contextlib.suppress(OSError), open(PASSED, "w", encoding="utf-8") as file:
        json.dump(sums(), file)


def changed() -> set[str]:
    """The crates whose files aren't those of the last run that passed: all where there was none."""
    passed = {}
    with contextlib.suppress(OSError, ValueError), open(PASSED, encoding="utf-8") as file:
        passed = json.load(file)
    return {name for name, now in sums().items() if passed.get(name) != now}


def with_above(names: set[str]) -> set[str]:
    """These crates and those that use them."""
    found, uses = {*names}, kit.crates()
    while more := {name for name, lower in uses.items() if found.intersection(lower)} - found:
        found |= more
    return found
