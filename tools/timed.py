"""What programs take: times, memory, instructions and cache misses. tools/measure and tools/peer-bench use it.

A step of am_bench is measured in a process of its own. Its time is the median of some runs, with the least and the greatest.
Instructions and cache misses are those of user code. `perf stat` counts them in a run of the same size, where the machine lets it.
Else callgrind does at a smaller size, with a cache of 1 MB: then a miss is a cache line from beyond that.
"""
import contextlib
import os
import re
import shutil
import subprocess
import sys
import tempfile
from collections.abc import Callable, Iterable, Sequence
from concurrent.futures import ThreadPoolExecutor
from functools import cache
from pathlib import Path
from statistics import median
from typing import NamedTuple

Words = Sequence[str | Path]
STEP = re.compile(r"^(.+): (\d+), each (\d+) ns, of a processor (\d+) ns, all (\d+) us$", re.M)
BEGINS = re.compile(r"^(.+) begins$", re.M)
LONGEST = re.compile(r"^longest (.+): (\d+) ns$", re.M)
# The calls of `open`, which am_bench times in parts, one behind the other.
PARTS = ("begin", "next_due", "note", "finish")
EVENTS = "instructions:u,cache-misses:u"
CALLGRIND = ("valgrind", "--tool=callgrind", "--cache-sim=yes", "--LL=1048576,16,64", "--dump-before=clock_gettime*")


class Ran(NamedTuple):
    """What a program printed on standard error, its processor seconds, and the most memory that it had, in kB."""

    text: str
    seconds: float
    memory: int


class Step(NamedTuple):
    """For how many a step was done, by the wall's clock and of a processor in ns for each, and in us for all."""

    many: int
    wall: int
    each: int
    all: int


class Bench(NamedTuple):
    """What a run of am_bench prints: its steps, the longest calls in ns, and the most memory in kB."""

    steps: dict[str, list[Step]]
    longest: dict[str, int]
    memory: int


class Cost(NamedTuple):
    """Instructions and cache misses, for each."""

    instructions: float
    misses: float

    def __str__(self) -> str:
        return f"{number(self.instructions)}; {number(self.misses)}"


def run(command: Words, stdin: str = "") -> Ran:
    """Runs a program to its end."""
    with tempfile.TemporaryFile("w+") as given, tempfile.TemporaryFile("w+") as told:
        given.write(stdin)
        given.seek(0)
        with subprocess.Popen(command, stdin=given, stdout=subprocess.DEVNULL, stderr=told) as child:
            _, status, usage = os.wait4(child.pid, 0)
            child.returncode = os.waitstatus_to_exitcode(status)
        told.seek(0)
        text = told.read()
    if child.returncode:
        sys.exit(f"{Path(sys.argv[0]).name}: {command} failed on {stdin[:80]}: {text[-300:]}")
    return Ran(text, usage.ru_utime + usage.ru_stime, usage.ru_maxrss)


def steps_of(text: str) -> dict[str, list[Step]]:
    """The steps that am_bench reports."""
    steps: dict[str, list[Step]] = {}
    for step, *numbers in STEP.findall(text):
        steps.setdefault(step, []).append(Step(*map(int, numbers)))
    return steps


def bench(own: Path, line: str) -> Bench:
    """A run of am_bench on a line."""
    ran = run([own], line + "\n")
    longest: dict[str, int] = {}
    for call, time in LONGEST.findall(ran.text):
        longest[call] = max(longest.get(call, 0), int(time))
    return Bench(steps_of(ran.text), longest, ran.memory)


def number(value: float) -> str:
    """A number, with three digits where it is small."""
    return f"{value:,.0f}" if value >= 100 or value == int(value) else f"{value:.3g}"


def span(values: Sequence[float]) -> str:
    """The median, with the least and the greatest value."""
    least, middle, most = number(min(values)), number(median(values)), number(max(values))
    return middle if least == most else f"{middle} ({least}-{most})"


def priced(values: Sequence[float], cost: Cost | None) -> str:
    """The span of values, and a cost if there is one."""
    return f"{span(values)}: {cost}" if cost else span(values)


def table(head: Iterable[str], rows: Iterable[Iterable[str]]) -> None:
    """Prints a table, each row as it comes."""
    heads = list(head)
    print(f"| {' | '.join(heads)} |\n|{'---|' * len(heads)}", flush=True)
    for row in rows:
        print(f"| {' | '.join(row)} |", flush=True)
    print()


@cache
def counter() -> Callable[[Path, str, str], Cost] | None:
    """What counts instructions and cache misses of a step of am_bench here, if anything does."""
    if shutil.which("perf"):
        tried = subprocess.run(["perf", "stat", "-x", ",", "-e", EVENTS, "true"], capture_output=True, text=True, check=False)
        if tried.returncode == 0 and "<not" not in tried.stderr:
            return by_perf
    return by_callgrind if shutil.which("valgrind") else None


def costs(own: Path, wanted: Sequence[tuple[str, str, str]]) -> list[Cost | None]:
    """The costs of steps of am_bench: of each the line at full size, at a smaller size, and the step. Where nothing counts them, None."""
    count = counter()
    if count is None:
        return [None] * len(wanted)
    # (counts don't depend on what else runs)
    with ThreadPoolExecutor(1 if count is by_perf else os.cpu_count()) as pool:
        return list(pool.map(lambda it: by_callgrind(own, it[1], it[2]) if count is by_callgrind or it[2] in PARTS
                             else by_perf(own, it[0], it[2]), wanted))


def by_perf(own: Path, line: str, step: str) -> Cost:
    """The cost of a step by perf stat: it counts from the line that says that the step begins to the one that says what it took."""
    with tempfile.TemporaryDirectory() as folder:
        control, answers, counted = (Path(folder) / it for it in ("control", "answers", "counted"))
        os.mkfifo(control)
        os.mkfifo(answers)
        command: Words = ["perf", "stat", "-x", ",", "-e", EVENTS, "-D", "-1", "-o", counted, "--control", f"fifo:{control},{answers}", own]
        with subprocess.Popen(command, stdin=subprocess.PIPE, stdout=subprocess.DEVNULL, stderr=subprocess.PIPE, text=True) as child:
            assert child.stdin and child.stderr
            child.stdin.write(line + "\n")
            child.stdin.close()
            with open(control, "w", buffering=1) as to, open(answers) as answer:
                text = ""
                for said in child.stderr:
                    text += said
                    if said == f"{step} begins\n" or said.startswith(f"{step}: "):
                        to.write("enable\n" if said.endswith("begins\n") else "disable\n")
                        answer.readline()
        found = [float(it.split(",")[0]) for it in counted.read_text().splitlines() if it and not it.startswith("#")]
    count = sum(it.many for it in steps_of(text)[step])
    return Cost(found[0] / count, found[1] / count)


def whole(command: Words, stdin: str, smaller: str) -> str:
    """The millions of instructions and cache misses of a whole run: by perf stat on this standard input, else by callgrind on a smaller
    one. Where nothing counts them, nothing."""
    with tempfile.TemporaryDirectory() as folder:
        if counter() is by_perf:
            run(["perf", "stat", "-x", ",", "-e", EVENTS, "-o", f"{folder}/counted", *command], stdin)
            cost = Cost(*(float(it.split(",")[0]) for it in Path(f"{folder}/counted").read_text().splitlines() if it and it[0] != "#"))
        elif counter() is by_callgrind:
            run([*CALLGRIND[:-1], f"--callgrind-out-file={folder}/out", *command], smaller)
            cost = counted(Path(f"{folder}/out"))
        else:
            return ""
    return str(Cost(cost.instructions / 1e6, cost.misses / 1e6))


def by_callgrind(own: Path, line: str, step: str) -> Cost:
    """The cost of a step by callgrind."""
    return callgrind(own, line)[step]


@cache
def callgrind(own: Path, line: str) -> dict[str, Cost]:
    """The cost of each step of a line. Callgrind writes what it counted whenever am_bench is about to read a clock, which it does
    twice before each step, or part of one, and twice behind it."""
    with tempfile.TemporaryDirectory() as folder:
        text = run([*CALLGRIND, f"--callgrind-out-file={folder}/out", own], line + "\n").text
        files = sorted(Path(folder).glob("out.*"), key=lambda it: int(it.suffix[1:]))
        parts = [counted(it) for it in files[2::4]]
    steps = steps_of(text)
    begun = BEGINS.findall(text)
    found = [*zip(begun, parts), *((PARTS[i % len(PARTS)], it) for i, it in enumerate(parts[len(begun):]))]
    total: dict[str, Cost] = {}
    for step, part in found:
        before = total.get(step, Cost(0, 0))
        total[step] = Cost(before.instructions + part.instructions, before.misses + part.misses)
    each = {step: sum(it.many for it in steps[step]) for step in total}
    return {step: Cost(it.instructions / each[step], it.misses / each[step]) for step, it in total.items()}


def counted(file: Path) -> Cost:
    """What a file of callgrind has: instructions, and the misses of the last cache. Zeros at the end are left out."""
    numbers: list[int] = []
    with contextlib.suppress(StopIteration):
        numbers = [int(it) for it in next(it for it in file.read_text().splitlines() if it.startswith("totals:")).split()[1:]]
    numbers += [0] * (9 - len(numbers))
    return Cost(numbers[0], sum(numbers[6:]))
