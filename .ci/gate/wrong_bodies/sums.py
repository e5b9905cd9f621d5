"""What the refusal of a wrong body depends on, and the refusals that this machine kept."""
import contextlib
import functools
import hashlib
import json
import os
import tempfile

from .. import kit
from ..kit import KIT, ROOT
from .edits import OF_ONE_PROOF, Edit
from .sources import module_of, texts_of, without_bodies

PARTS = ("src", "specs", "proofs")
# Where refusals are kept.
KEPT = os.environ.get("WRONG_BODIES_KEPT") or f"{kit.KEPT}/wrong-bodies"
# The modules that decide what is a refusal.
OWN = ("sources.py", "edits.py", "sums.py", "trial.py")


def crates_below(name: str, listed: dict[str, list[str]]) -> list[str]:
    """The crates of this repository that the crate depends on, each once."""
    found: list[str] = []
    for lower in listed[name]:
        if lower in listed:
            found += [it for it in [*crates_below(lower, listed), lower] if it not in found]
    return found


@functools.cache
def kit_sum() -> str:
    """The sum of the modules that decide, and of the kit: its name, its prover and what its libraries state."""
    sum = hashlib.sha256()
    own = [os.path.join(os.path.dirname(os.path.abspath(__file__)), it) for it in OWN]
    rlibs = [f"{KIT}/rlibs/{it}/format" for it in sorted(os.listdir(f"{KIT}/rlibs"))]
    for path in (*own, f"{KIT}/KIT-ID", f"{KIT}/WHAT", f"{KIT}/bin/rattle", *rlibs):
        with contextlib.suppress(FileNotFoundError), open(path, "rb") as file:
            sum.update(hashlib.sha256(file.read()).digest())
        sum.update(os.path.basename(os.path.dirname(path)).encode())
    return sum.hexdigest()


class Sums:
    """The sum of all that the refusal of a wrong body depends on:

    - the modules that decide what a refusal is, and the kit: its name, its prover and what its libraries state;
    - of each crate of this repository below: the sources without the bodies of functions, specs/, and proofs/ without the
      files of single proofs;
    - the same of the crate itself, with the whole of each source that the wrong body turns or whose function it turns, and
      the files of the proofs of all their functions;
    - the wrong body.

    Not the bodies and proofs of other functions: a function's proof can name neither."""

    def __init__(self, listed: dict[str, list[str]]) -> None:
        self.listed = listed
        self.texts = functools.cache(self.read)
        self.of_library = functools.cache(self.sum_of_library)

    def read(self, crate: str) -> list[tuple[str, str, str | None]]:
        """The files of a crate in their order, each with what counts of it where it is none of those turned."""
        found = []
        for path, text in sorted(texts_of(f"{ROOT}/crates/{crate}", PARTS).items()):
            is_of_one = os.path.basename(path) in OF_ONE_PROOF and path.count("/") > 1 and "+" not in path
            found.append((path, text, without_bodies(text) if path.startswith("src/") else None if is_of_one else text))
        return found

    def sum_of_library(self, crate: str) -> str:
        """The sum of what counts of a crate below."""
        stated = [(path, counts) for path, _, counts in self.texts(crate) if counts is not None]
        return hashlib.sha256(repr((crate, self.listed[crate], stated)).encode()).hexdigest()

    def of(self, crate: str, edit: Edit) -> str:
        """The sum of all that the refusal of a wrong body depends on."""
        names = edit.function.split("::")
        sources = [f"src/{'/'.join(names[:i])}{end}" for i in range(len(names) - 1, 0, -1) for end in (".rt", "/mod.rt")]
        sources = [it for it in sources if os.path.isfile(f"{ROOT}/crates/{crate}/{it}")][:1]
        whole = {*(path for path, _, _ in edit.pairs), *(sources or ("src/lib.rt", "src/main.rt"))}
        modules = tuple(module_of(it) for it in whole)
        own = [(path, text if path in whole or path.startswith(modules) else counts) for path, text, counts in self.texts(crate)]
        below = [self.of_library(it) for it in crates_below(crate, self.listed)]
        told = (kit_sum(), crate, self.listed[crate], below, own, edit.name, edit.function, edit.alone, edit.pairs)
        return hashlib.sha256(repr(told).encode()).hexdigest()


class Kept:
    """The refusals that this machine kept, each by its sum."""

    def __init__(self, anew: bool) -> None:
        self.anew = anew

    def here(self, sum: str) -> bool:
        """Whether it refused exactly that."""
        try:
            with open(f"{KEPT}/{sum}", encoding="utf-8") as file:
                return not self.anew and bool(json.load(file)["sum"] == sum)
        except (OSError, ValueError, KeyError, TypeError):
            return False

    def keep(self, sum: str, crate: str, edit: Edit, why: str) -> None:
        """Keeps it: written apart and then renamed. No other run meets half of it."""
        try:
            os.makedirs(KEPT, 0o700, exist_ok=True)
            with tempfile.NamedTemporaryFile("w", dir=KEPT, delete=False, encoding="utf-8") as file:
                json.dump({"sum": sum, "wrong body": f"{crate}/{edit.name}", "refused": why}, file)
            os.replace(file.name, f"{KEPT}/{sum}")
        except OSError:
            # (then a later run tries it again)
            pass
