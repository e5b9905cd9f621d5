"""How a check of the pages reports: a unified diff for each difference, and the command that repeats it."""
import difflib
import os
import sys

MOST = 60


def differs(what: str, expected: str, got: str, names: tuple[str, str]) -> str:
    """What differs, as a unified diff of at most MOST lines from the text of the first name to that of the second."""
    lines = list(difflib.unified_diff(expected.splitlines(), got.splitlines(), *names, lineterm="", n=3))
    more = [f".. and {len(lines) - MOST} lines more"] if len(lines) > MOST else []
    return "\n".join([f"differs {what}", *lines[:MOST], *more])


def verdict(part: str, faults: list[str], passed: str) -> bool:
    """Prints the faults and the command that repeats the part, or what passed. Whether it passed."""
    if faults:
        built = "BUILT=yes " * (os.environ.get("BUILT") == "yes")
        print("\n".join([*faults, f"FAILED  {part}: {len(faults)} faults", f"again: {built}.ci/checks/pages.py {part}"]))
    else:
        print(f"ok      {part}: {passed}")
    sys.stdout.flush()
    return not faults
