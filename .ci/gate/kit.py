"""Where the repository and the kit are, and what this machine has free."""
import os
import re
import subprocess

ROOT = os.path.dirname(os.path.dirname(os.path.dirname(os.path.abspath(__file__))))
KIT = os.path.dirname(subprocess.run(["rt", "doc"], capture_output=True, text=True, check=True).stdout.split()[0])
# What earlier runs on this machine kept.
KEPT = f"{os.path.dirname(KIT)}/rattle-kept"


def memory() -> float:
    """The memory that is free, in GB."""
    with open("/proc/meminfo", encoding="ascii") as file:
        found = re.search(r"MemAvailable:\s+(\d+)", file.read())
    return int(found[1]) / 1e6 if found else 0.0


def processors() -> int:
    """How many processors this process may use."""
    return len(os.sched_getaffinity(0))


def crates() -> dict[str, list[str]]:
    """The crates in the order of crates.txt, each with the libraries that it uses."""
    with open(f"{ROOT}/crates.txt", encoding="utf-8") as file:
        parts = [it.partition(":") for it in file if it.strip() and not it.startswith("#")]
    return {name.split()[0]: rest.split() for name, _, rest in parts}
