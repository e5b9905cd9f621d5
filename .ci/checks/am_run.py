#!/usr/bin/env python3
"""What am-run does with scenarios.

- `examples`: each scenario of examples/ and examples/details/ has the report in its `.txt`, or is rejected by the line there.
- `scenarios`: each row of .ci/data/refusals/scenario.rows is rejected at its place, and so is each front of its scenario.
- `statuses`: each exit status has its line, also where the system has no random numbers.
- `schedules`: scenarios whose lanes don't disturb each other have one report, whatever the schedule.
- `lengths`: the lists of a configuration can have their greatest lengths, and no longer ones.
"""
import json
import re
import sys
import tempfile
from concurrent.futures import ThreadPoolExecutor
from pathlib import Path

sys.path.insert(0, str(Path(__file__).resolve().parent.parent))
from lib import preload, report
from lib.program import ROOT, Program, Ran
from lib.report import Programs, Report, path_of
from lib.rows import Json, Rows, repeated

EXAMPLES, LANES = ROOT / "examples", ROOT / ".ci/data/lanes"
ROWS = ROOT / ".ci/data/refusals/scenario.rows"
# The longest input in bytes.
MOST = 16_777_216


# Stored reports.

def examples(told: Report, programs: Programs) -> None:
    """Each scenario has the report that is stored for it. Where that is a line of a rejection, it is what standard error has,
    with status 2."""
    scenarios = [*sorted(EXAMPLES.glob("*.json")), *sorted(EXAMPLES.glob("details/*.json"))]
    told.at_least(40, len(scenarios), "scenarios")
    for scenario in filter(lambda it: told.concerns(it.stem), scenarios):
        ran = programs["am_run"].run(stdin=scenario)
        printed, silent = (ran.err, ran.out) if ran.status == 2 else (ran.out, ran.err)
        if ran.status not in (0, 2) or silent:
            told.fails(scenario.stem, "it has a report, or is rejected with status 2 and a line", str(ran))
        else:
            told.stored(scenario.stem, scenario.with_suffix(".txt"), printed, f"am-run, status {ran.status}")


# Rejected scenarios.

def outcome(program: Program, scenario: bytes) -> str:
    """What the program says of a scenario, in the words of a row."""
    ran = program.run(stdin=scenario)
    line = ran.err.rstrip("\n")
    if ran.status == 0 and not line and re.search(r"(^|\n)calls \d+\n$", ran.out):
        return "played"
    if ran.status == 2 and not ran.out:
        return "no JSON" if line == "am-run: scenario refused: not JSON" else line.removeprefix("am-run: scenario refused at ")
    return f"status {ran.status}: {line}"


def with_pairs(scenario: str, pairs: list[str]) -> bytes:
    """The scenario with the second text of each pair in place of the first."""
    for old, new in zip(pairs[::2], pairs[1::2]):
        if old not in scenario:
            raise SystemExit(f"{old} isn't in the scenario of {ROWS.name}")
        scenario = scenario.replace(old, repeated(new), 1)
    return scenario.encode()


def scenarios(told: Report, programs: Programs) -> None:
    """Each row of scenarios has its outcome. What the scenario begins with is no JSON."""
    rows = Rows(ROWS)
    (_, (scenario,)), *rest = rows.tabbed()
    text, program = scenario.encode(), programs["am_run"]
    with ThreadPoolExecutor() as pool:
        got = list(pool.map(lambda it: outcome(program, with_pairs(scenario, it[1][:-1])), rest))
        fronts = list(pool.map(lambda end: outcome(program, text[:end]), range(len(text))))
    for (at, (*pairs, wanted)), found in zip(rest, got):
        if told.is_written:
            rows.lines[at] = "\t".join([*pairs, found])
        else:
            told.row(f"row {at + 1}: {pairs[1][:80]}", wanted, found, f"{path_of(ROWS)}:{at + 1}", "am-run")
    if told.is_written:
        rows.write()
    told.at_least(140, len(rest), "rows")
    told.ok(f"{len(rest)} rows were compared")
    told.same(f"each of {len(text)} fronts of the scenario is no JSON", ["no JSON"] * len(text), fronts)
    told.same("bytes that are no UTF-8", "no JSON", outcome(program, text.replace(b"A", b"\xff")))
    told.same("the scenario as it is", "played", outcome(program, text))


# Exit statuses.

def statuses(told: Report, programs: Programs) -> None:
    """Each exit status has its line on standard error, and nothing on standard output."""
    program, scenario = programs["am_run"], EXAMPLES / "first-notice.json"

    def case(name: str, ran: Ran, status: int, line: str) -> None:
        told.same(name, Ran(status, "", line + "\n"), ran)

    case("an input that isn't readable", program.run(stdin=ROOT), 1, "am-run: input not readable")
    greatest = scenario.read_bytes().ljust(MOST)
    told.same("an input of 16 MiB", Ran(0, scenario.with_suffix(".txt").read_text(), ""), program.run(stdin=greatest))
    case("an input of a byte more", program.run(stdin=greatest + b" "), 1, "am-run: input not readable")
    case("a front", program.run(stdin='{"config":'), 2, "am-run: scenario refused: not JSON")
    case("no configuration", program.run(stdin='{"phases":[]}'), 2, "am-run: scenario refused at /config: missing")
    if told.can_refuse("no memory", program):
        case("no memory", program.run(stdin=scenario, env=preload.Refused(1).env), 3, "am-run: no memory")
    case("a full disk", program.run(stdin=scenario, stdout=Path("/dev/full")), 4, "am-run: output not writable")
    for crate in ("am_run", "am_rehearse", "am_dispatch"):
        ran = programs[crate].run(stdin=scenario, env=preload.with_library("seedless"))
        case(f"{programs[crate].name} without random numbers", ran, 1, f"{programs[crate].name}: no random numbers")


# Schedules.

def fifteen_lanes() -> str:
    """64 alerts in 64 groups; when all are due, each of 15 lanes adds 200 alerts to them, during flushes of eight integrations."""
    def insert(second: int, labels: list[list[str]]) -> Json:
        return {"insert": {"labels": labels, "starts": 1000 * second}}

    first = [insert(0, [["alertname", f"G{group}"]]) for group in range(64)]
    lanes = [[insert(30, [["alertname", f"G{it % 64}"], ["inst", f"{lane}-{it}"]]) for it in range(200)] for lane in range(15)]
    config = {"receivers": [{"name": "team", "integrations": [{"kind": "hook"}] * 8}],
              "route": {"receiver": "team", "group_by": ["alertname"]}}
    phases = [{"at": 0, "lanes": [first]}, {"at": 30000, "flush": True, "lanes": lanes}]
    return json.dumps({"workers": 8, "config": config, "phases": phases})


def counts_of(text: str) -> dict[str, int]:
    """How much of each kind a report of the fifteen lanes has."""
    return {
        "notices": len(re.findall(r"^notice .* delivered attempts=1 ", text, re.M)),
        "rows": len(re.findall(r"^row ", text, re.M)),
        "alerts of lanes": sum(it.count("inst=") for it in re.findall(r"^group .*", text, re.M)),
        "calls": int((re.findall(r"\ncalls (\d+)\n$", text) or [0])[0]),
    }


def schedules(told: Report, programs: Programs) -> None:
    """Four lanes during a flush, a hundred times, have the report that was computed by hand. Fifteen lanes of 200 inserts each,
    during 64 flushes of eight integrations, have one report in twenty runs."""
    program, four = programs["am_run"], LANES / "four-lanes-beside-a-flush.json"
    if told.concerns("four-lanes"):
        if told.is_written:
            told.stored("four-lanes", four.with_suffix(".txt"), program.run(stdin=four).out, "am-run")
        report_of = four.with_suffix(".txt")
        play_often(told, program, "four-lanes", four, Ran(0, report_of.read_text(), ""), path_of(report_of), 100)
    if told.concerns("fifteen-lanes"):
        with tempfile.NamedTemporaryFile("w", suffix=".json") as file:
            file.write(fifteen_lanes())
            file.flush()
            first = program.run(stdin=Path(file.name))
            # 64 inserts, 64 begins and one more that finds nothing, 3,000 inserts, 512 notes and 64 finishes.
            wanted = {"notices": 512, "rows": 512, "alerts of lanes": 3000, "calls": 3705}
            told.same("fifteen-lanes, all its calls", wanted, counts_of(first.out) if first.status == 0 else first)
            play_often(told, program, "fifteen-lanes", Path(file.name), first, "the first run", 20)


def play_often(told: Report, program: Program, name: str, scenario: Path, wanted: Ran, stored: str, often: int) -> None:
    """Plays a scenario so often. Each run has to end so."""
    for number in range(1, often + 1):
        ran = program.run(stdin=scenario)
        if ran != wanted:
            told.differs(name, wanted, ran, stored, f"run {number} of {often}")
            return
    told.ok(f"{name}, {often} times")


# Lists of the greatest lengths.

def lengths(told: Report, programs: Programs) -> None:
    """Configurations with as many receivers, children and inhibition rules as they may have are accepted. Such as have one more,
    or two receivers of one name, are rejected with the configuration as a whole."""
    def team(name: str) -> Json:
        return {"name": name, "integrations": []}

    def child(name: str) -> Json:
        return {"name": name, "receiver": "team"}

    teams, children = ([make(f"x{it}") for it in range(65)] for make in (team, child))
    rules = [{"equal": [f"a{it}"]} for it in range(257)]
    for name, is_accepted, receivers, below, inhibit in [
        ("64 receivers", True, teams[:63], [], []),
        ("65 receivers", False, teams[:64], [], []),
        ("a receiver twice", False, [*teams[:2], teams[1]], [], []),
        ("63 children", True, [], children[:63], []),
        ("64 children", False, [], children[:64], []),
        ("a child twice", False, [], [*children[:2], children[1]], []),
        ("256 rules", True, [], [], rules[:256]),
        ("257 rules", False, [], [], rules),
    ]:
        config = {"receivers": [team("team"), *receivers], "route": {"receiver": "team"}, "children": below, "inhibit": inhibit}
        ran = programs["am_run"].run(stdin=json.dumps({"config": config, "phases": []}))
        wanted = Ran(0, "calls 0\n", "") if is_accepted else Ran(2, "", "am-run: scenario refused at /config: value\n")
        told.same(name, wanted, ran)


PARTS = {"examples": examples, "scenarios": scenarios, "statuses": statuses, "schedules": schedules, "lengths": lengths}

if __name__ == "__main__":
    report.main(__file__, PARTS, ("am_run", "am_rehearse", "am_dispatch"), __doc__)
