#!/usr/bin/env python3
"""Checks the pages: README.md and the others at the top, docs/*.md, and the claims in docs/claims.

- `claims`, `examples`, `layers`: what is made of the sources is as they say, and each law has a claim.
- `prose`: pages are short, and their links lead somewhere. `words`: crates, and comments of scripts and of rows, have no word that
  readers don't know.
- `quotes`: what a page shows is there, and its commands print it. With BUILT=yes it runs the built programs too.

    .ci/checks/pages.py [PART ..]         all parts, or these
    .ci/checks/pages.py claims --write    makes docs/claims/*.md of docs/claims/*.toml and the sources
    .ci/checks/pages.py examples --write  makes examples/README.md of the heads of the examples
    .ci/checks/pages.py layers --write    makes docs/crates.md of crates.txt and the heads of the crates
    .ci/checks/pages.py prose --measure   prints how long each page is
"""
import sys
from collections.abc import Callable
from pathlib import Path

sys.path.insert(0, str(Path(__file__).resolve().parents[1]))
from lib.pages import claims, examples, layers, prose, quotes, words

WRITE = "--write" in sys.argv
PARTS: dict[str, Callable[[], bool]] = {
    "claims": lambda: claims.check(WRITE),
    "examples": lambda: examples.check(WRITE),
    "layers": lambda: layers.check(WRITE),
    "prose": prose.check,
    "quotes": quotes.check,
    "words": words.check,
}


def main() -> None:
    if "--help" in sys.argv:
        print(__doc__)
        return
    wanted = [it for it in sys.argv[1:] if not it.startswith("--")] or list(PARTS)
    unknown = sorted({*wanted, *sys.argv[1:]} - {*PARTS, "--write", "--measure"})
    if unknown:
        sys.exit(f"pages.py: no part {', '.join(unknown)}; there are {', '.join(PARTS)}")
    if "--measure" in sys.argv:
        prose.measure()
    else:
        sys.exit(not all([PARTS[it]() for it in wanted]))


main()
