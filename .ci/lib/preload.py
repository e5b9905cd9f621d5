"""C code of `.ci/c`, compiled for this run: libraries that are loaded before the C library, and programs."""
import atexit
import shutil
import subprocess
import tempfile
from functools import cache
from pathlib import Path

from .program import ROOT

SOURCES = ROOT / ".ci/c"
# A library for which the system has no random numbers.
SEEDLESS = "int getentropy(void *bytes, unsigned long count) { return bytes && count ? -1 : 0; }\n"


@cache
def folder() -> Path:
    """A folder for what is compiled, which goes when the check ends."""
    made = tempfile.mkdtemp(prefix="preload-")
    atexit.register(shutil.rmtree, made, ignore_errors=True)
    return Path(made)


@cache
def program(name: str) -> Path:
    """A program of `.ci/c`."""
    made = folder() / name
    subprocess.run(["cc", "-O2", "-o", made, SOURCES / f"{name}.c"], check=True)
    return made


@cache
def library(name: str) -> Path:
    """A library of `.ci/c`, or `seedless`."""
    made, source = folder() / f"{name}.so", SOURCES / f"{name}.c"
    if name == "seedless":
        source = folder() / "seedless.c"
        source.write_text(SEEDLESS, encoding="utf-8")
    subprocess.run(["cc", "-O2", "-shared", "-fPIC", "-o", made, source], check=True)
    return made


def with_library(name: str, **more: str | Path) -> dict[str, str]:
    """The variables with which a library is loaded, and these."""
    return {"LD_PRELOAD": str(library(name)), **{it: str(value) for it, value in more.items()}}


class Refused:
    """The request for memory of a number is refused, the first being 1; 0 refuses none. `was` says afterwards whether there was one."""

    def __init__(self, number: int) -> None:
        self.file = folder() / f"refused-{number}"
        self.file.unlink(missing_ok=True)
        self.env = with_library("refuse", REFUSE=str(number), REFUSED=self.file)

    @property
    def was(self) -> bool:
        """Whether the request was made, and refused."""
        return self.file.exists()
