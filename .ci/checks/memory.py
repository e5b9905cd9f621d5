#!/usr/bin/env python3
"""What the programs do where there is no memory.

- `scenarios`, `stories`: each request for memory fails in turn, one in a run. The whole output comes, or status 3 and nothing.
  The threads of a scenario share the count: in another run the same number can be another's request. How many requests there are
  depends a little on the schedule.
- `lines`: the same of the lines of am-dispatch. One that is answered `memory` has changed nothing that the board shows, and asked
  again it has its answer. One that is answered `untold` has been done: the board shows what it shows after the line.
- `frugal`: calls that promise to take no memory ask for none, as am_bench makes them, whether it would be granted or not. Calls
  that take memory are among them, and each kind has to be seen; and so has each way in which a program can ask for memory. Of
  these calls only an insert takes none at times: of an alert that is known and that its group has. Calls that a limit rejects are
  rejected by it where each of their requests is refused.
"""
import contextlib
import json
import re
import subprocess
import sys
from pathlib import Path

sys.path.insert(0, str(Path(__file__).resolve().parent.parent))
from lib import preload, report
from lib.board import Board, NoAnswer
from lib.program import ROOT, Program, Ran
from lib.report import Programs, Report, is_same

DATA, EXAMPLES = ROOT / ".ci/data", ROOT / "examples"
# An instruction that asks the system, behind its address and its bytes.
SYSTEM = re.compile(r"\t(syscall|sysenter|int +\$0x80)\b")
# How many numbers without a request end the search for more, and how many requests there are at least.
GAP, LEAST = 5, 100


# Scenarios and stories.

def refuse_each(told: Report, program: Program, file: Path) -> None:
    """Refuses each request in turn, until there is none of five numbers that follow each other. A run prints all, or says that
    there is no memory and prints nothing."""
    name, wanted = file.name, file.with_suffix(".txt").read_text()
    if not told.concerns(name) or not told.can_refuse(name, program):
        return
    ample = program.run(stdin=file)
    if not told.same(f"{name} with ample memory", ample._replace(status=0, out=wanted), ample):
        return
    complaint, number, last = f"{program.name}: no memory", 0, 0
    while number - last < GAP:
        number += 1
        request = preload.Refused(number)
        ran = program.run(stdin=file, env=request.env)
        last = number if request.was else last
        is_refused = (ran.status, ran.out) == (3, "") and complaint in ran.err.splitlines()
        if (ran.status, ran.out) != (0, wanted) and not is_refused:
            told.differs(name, Ran(3, "", complaint), ran, "no memory", f"with request {number} refused")
            return
    told.holds(f"{name}, each of its requests for memory refused in turn", last > LEAST, f"there are {last}")


def scenarios(told: Report, programs: Programs) -> None:
    """Three scenarios, one with patterns and one with four lanes during a flush."""
    for file in (DATA / "memory/asked-again.json", DATA / "lanes/four-lanes-beside-a-flush.json",
                 EXAMPLES / "routes-and-silence-by-pattern.json"):
        refuse_each(told, programs["am_run"], file)


def stories(told: Report, programs: Programs) -> None:
    """Five stories: one in YAML with an inhibition and expectations, one with dates, a silence and an outage, one of an
    alertmanager.yml, one with time intervals, and one with a restart that keeps the log."""
    for name in ("cluster-down-with-rule.yml", "as-json.json", "alertmanager-services.json", "office-hours.yml",
                 "restart-keeps-the-log.yml"):
        refuse_each(told, programs["am_rehearse"], EXAMPLES / "rehearsals" / name)


# Lines.

def kind_of(answer: bytes) -> str:
    """The kind of an answer that is an error."""
    return str(json.loads(answer)["error"]["kind"]) if answer.startswith(b'{"error"') else ""


def ends(board: Board) -> None:
    """The input ends, and no more answers come."""
    rest, status, complaint = board.end()
    is_same((rest, status), (b"", 0), f"the end: {complaint!r}")


def shown(program: Program, lines: list[bytes], answers: list[bytes]) -> list[list[bytes]]:
    """What the board shows before each line, and after the last."""
    board = Board(program)
    views = [board.views()]
    for line, answer in zip(lines, answers, strict=True):
        is_same(board.ask(line), answer, f"with ample memory: {line!r}")
        views.append(board.views())
    ends(board)
    return views


def insert_again(board: Board, line: bytes, got: bytes, answer: bytes) -> bool:
    """Asks those inserts of a line again that were refused memory. Returns whether each then has an answer of its kind."""
    inserts, made, wanted = (json.loads(it)["inserts"] for it in (line, got, answer))
    refused = [it for it, end in enumerate(made) if end.get("error", {}).get("kind") == "memory"]
    again = board.reply(json.dumps({"inserts": [inserts[it] for it in refused]}))["inserts"]
    for it, end in zip(refused, again, strict=True):
        made[it] = end
    kinds = [[(end.get("error") or {}).get("kind") for end in ends] for ends in (made, wanted)]
    return bool(refused) and kinds[0] == kinds[1]


def first_answer(board: Board, line: bytes) -> bytes:
    """The answer to the first line; nothing if the words of the command line had no memory, with the status for that."""
    try:
        return board.ask(line)
    except (BrokenPipeError, NoAnswer):
        is_same(board.child.wait(), 3, "the status before the first line")
        with contextlib.suppress(BrokenPipeError):
            board.input.close()
        return b""


def ask_all(program: Program, number: int, lines: list[bytes], answers: list[bytes], views: list[list[bytes]]) -> tuple[bool, list[str]]:
    """Asks all lines with the request of this number refused. Returns whether it was, and the kinds of the answers for it."""
    request = preload.Refused(number)
    board, kinds = Board(program, env=request.env), []
    for place, (line, answer) in enumerate(zip(lines, answers, strict=True)):
        where = f"line {place + 1}, with request {number} refused"
        got = board.ask(line) if place else first_answer(board, line)
        if not got and not place:
            return True, []
        kind = kind_of(got) if got != answer else ""
        if kind == "memory":
            is_same(board.views(), views[place], f"{where}: the board has changed")
            got = board.ask(line)
        if got != answer and got.startswith(b'{"inserts"'):
            is_same(insert_again(board, line, got, answer), True, f"{where}: {got[:300]!r}")
            is_same(board.views(), views[place + 1], f"{where}: not all was inserted")
            got, kind = answer, "memory"
        if kind == "untold":
            is_same(board.views(), views[place + 1], f"{where}: the call wasn't made")
            got = answer
        kinds += [kind] if kind else []
        is_same(got, answer, where)
    ends(board)
    return request.was, kinds


def lines(told: Report, programs: Programs) -> None:
    """The lines of .ci/data/memory/board.lines."""
    program = programs["am_dispatch"]
    asked, answers = ((DATA / "memory" / f"board.{it}").read_bytes().splitlines() for it in ("lines", "answers"))
    if told.is_written:
        told.stored("board.answers", DATA / "memory/board.answers", program.run(stdin=DATA / "memory/board.lines").out)
        return

    def each_refused() -> None:
        views, number, last = shown(program, asked, answers), 0, 0
        kinds: list[str] = []
        while number - last < GAP:
            number += 1
            was_refused, more = ask_all(program, number, asked, answers, views)
            last = number if was_refused else last
            kinds += more
        is_same(sorted({*kinds}), ["memory", "untold"], "the kinds of answers")
        print(f"{last} requests for memory, {kinds.count('untold')} answers untold")

    if told.can_refuse("board.lines", program):
        told.case("board.lines, each of its requests for memory refused in turn", each_refused)


# Calls that ask for none.

# A call that was counted: its requests, and its name.
Count = tuple[int, str]


def counted(words: Program | Path) -> tuple[str, list[Count]]:
    """What a program prints whose requests are counted, and the count of each of its calls."""
    counts = preload.folder() / "counts"
    env = preload.with_library("count", COUNTS=counts)
    program = words if isinstance(words, Program) else Program(words.name, words)
    ran = program.run(stdin="requests\n", env=env)
    is_same((ran.status, ran.err), (0, ""), f"{program.name}, whose requests are counted")
    pairs = [it.partition(" ") for it in counts.read_text().splitlines()]
    return ran.out, [(int(number), name) for number, _, name in pairs]


def each_way_is_counted() -> None:
    """Each way to ask is counted, and refused where no memory is to be had."""
    printed, counts = counted(preload.program("probe"))
    is_same(len(counts) > 20, True, "the calls are seen")
    refused = re.findall("^without memory: .* -> (.*)$", printed, re.M)
    is_same((len(refused) >= 10, {*refused}), (True, {"refused"}), printed)
    is_same([name for number, name in counts if (number == 0) != (name == "none")], [], "ways that are counted wrongly")


def printed_by(*words: str | Path) -> list[str]:
    """The lines that a command prints."""
    return subprocess.run(words, capture_output=True, text=True, check=True).stdout.splitlines()


def asks_in_no_other_way(program: Program) -> None:
    """The program asks for memory only by what is counted, and never asks the system by itself."""
    known = {it.split()[-1] for it in printed_by("nm", "-D", "--defined-only", preload.library("count"))}
    names = [it.split()[-1].partition("@")[0] for it in printed_by("nm", "-D", "--undefined-only", program.path)]
    ways = {it for it in names if re.search("alloc|align|map|brk|syscall|dl", it)}
    is_same("malloc" in ways, True, "it has no malloc of its own")
    is_same(sorted(ways - known), [], "ways that aren't counted")
    # (a call of the C library's function `syscall` is counted)
    is_same([it for it in printed_by("objdump", "-d", program.path) if SYSTEM.search(it)], [], "calls of the system")


def faults_of(counts: list[Count]) -> list[str]:
    """What is wrong with the counts of calls."""
    kinds = ("with memory: ", "without memory: ")
    wrong = [f"asks for memory, {number} times: {name}" for number, name in counts if number and not name.startswith(kinds)]
    some = {name: [number for number, it in counts if it == name] for _, name in counts if name.startswith("with memory: ")}
    inserts = {f"with memory: {it}::insert" for it in ("Board", "Desk")}
    wrong += [f"not seen: {name}" for name, numbers in some.items() if not any(numbers)]
    wrong += [f"asks for no memory once: {name}" for name, numbers in some.items() if not all(numbers) and name not in inserts]
    return wrong + [f"asks for memory where the alert is known: {name}" for name in inserts if 0 not in some.get(name, [])]


def calls_are_frugal(program: Program) -> None:
    """Calls ask for memory as they promise."""
    printed, counts = counted(program)
    stored = (ROOT / "crates/am_bench/stdout").read_text()
    is_same(printed, re.split("^flushes ", stored, flags=re.M)[0], "the calls of am_bench")
    is_same(len(counts), len(printed.splitlines()), "calls that are seen")
    is_same(faults_of(counts), [])
    kinds = ["some" if it.startswith("with memory: ") else "short" if it.startswith("without memory: ") else "none" for _, it in counts]
    least = {"none": 50, "some": 10, "short": 6}
    is_same({it: kinds.count(it) for it in least if kinds.count(it) < least[it]}, {}, f"there are fewer calls than {least}")
    print(f"{kinds.count('none')} calls without a request, {kinds.count('some')} with some, {kinds.count('short')} that a limit rejects")


def frugal(told: Report, programs: Programs) -> None:
    """The calls of am_bench."""
    told.case("each way to ask for memory is counted", each_way_is_counted)
    program = programs["am_bench"]
    if told.can_refuse("the calls of am_bench", program):
        told.case("am_bench asks in no other way", lambda: asks_in_no_other_way(program))
        told.case("the calls of am_bench ask for memory as they promise", lambda: calls_are_frugal(program))


PARTS = {"scenarios": scenarios, "stories": stories, "lines": lines, "frugal": frugal}

if __name__ == "__main__":
    report.main(__file__, PARTS, ("am_run", "am_rehearse", "am_dispatch", "am_bench"), __doc__)
