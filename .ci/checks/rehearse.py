#!/usr/bin/env python3
"""What am-rehearse does with stories and commands.

- `outputs`: each story of examples/rehearsals/ has its stored output and status, in YAML, in JSON and on standard input; its
  notices alone; and its folded timeline is the full one with one line for each run of flushes.
- `notices`: a story has the notifications of the scenario of its name; stories that differ in one thing differ in these.
- `dispatchers`: a reload or a restart has a line of its own, and no page.
- `commands`: each run of .ci/data/commands.runs has its stored output, lines on standard error and status.
- `statuses`: each exit status has its line on standard error.
- `schema`: each story is as docs/rehearsal.schema.json says.
"""
import json
import os
import re
import signal
import subprocess
import sys
import tempfile
from functools import cache
from pathlib import Path

sys.path.insert(0, str(Path(__file__).resolve().parent.parent))
from lib import preload, report
from lib.program import ROOT, Program, Ran, as_text
from lib.report import Programs, Report, path_of
from lib.rows import Json, runs_of
from lib.stories import PLAY, milliseconds, rehearse

EXAMPLES, REHEARSALS = ROOT / "examples", ROOT / "examples/rehearsals"
RUNS, SCHEMA = ROOT / ".ci/data/commands.runs", ROOT / "docs/rehearsal.schema.json"
# How many lines of what a run says of its end are shown.
SAID = 5


# Stories.

def names() -> list[str]:
    """The names of the stored stories."""
    return sorted({it.stem for it in REHEARSALS.iterdir() if it.suffix in (".json", ".yml")})


def forms(name: str) -> list[Path]:
    """The files of a story, in JSON, in YAML or in both."""
    return [it for it in (REHEARSALS / f"{name}.json", REHEARSALS / f"{name}.yml") if it.exists()]


@cache
def as_json(program: Program, file: Path) -> str:
    """The JSON that the program reads in a file; of a file in JSON it is the file's own."""
    return file.read_text() if file.suffix == ".json" else rehearse(program, "", "json", str(file)).out


def value_of(program: Program, name: str) -> Json:
    """What a story says."""
    return json.loads(as_json(program, forms(name)[0]))


def stored_of(name: str) -> Path:
    """The file with the stored output of a story."""
    return REHEARSALS / f"{name}.txt"


def text_of(name: str) -> str:
    """The stored output of a story."""
    return stored_of(name).read_text(encoding="utf-8")


def status_of(name: str) -> int:
    """The stored status of a story: 0, unless there is a file for it."""
    file = REHEARSALS / f"{name}.status"
    return int(file.read_text()) if file.exists() else 0


def shown(status: int, text: str) -> str:
    """An output with its status, for a report."""
    return f"{text}= {status}\n"


def with_words(ran: Ran, wanted: int) -> str:
    """What a run gave, for a report: where its status isn't this, also the last lines on standard error."""
    said = ran.err.splitlines()[-SAID:] if ran.status != wanted else []
    return shown(ran.status, ran.out) + "".join(f"! {it}\n" for it in said)


# The stored outputs.

def outputs(told: Report, programs: Programs) -> None:
    """Each story has its stored text and status, in each of its forms and as JSON on standard input. `--output notices` prints the
    text's notices alone."""
    program = programs["am_rehearse"]
    for name in filter(told.concerns, names()):
        store(told, program, name)
        status = status_of(name)
        wanted = shown(status, text_of(name))
        for file in forms(name):
            for how, ran in (("", rehearse(program, "", "play", str(file))), (", as JSON", rehearse(program, as_json(program, file)))):
                told.same(file.name + how, wanted, with_words(ran, status), path_of(stored_of(name)), "am-rehearse")
            told.same(f"{file.name}, its value", value_of(program, name), json.loads(as_json(program, file)))
        if value_of(program, name).get("output", "timeline") == "timeline":
            notices_alone(told, program, name)
            folds(told, program, name)
    both = sum(len(forms(it)) == 2 for it in names())
    told.at_least(28, len(names()), "stories")
    told.at_least(5, both, "stories in YAML and in JSON")
    first_run(told, program)


def store(told: Report, program: Program, name: str) -> None:
    """With `--write` a story's output and status are what the program gives now."""
    if told.is_written:
        ran, status = rehearse(program, "", "play", str(forms(name)[0])), REHEARSALS / f"{name}.status"
        told.stored(f"{name}, written", stored_of(name), ran.out)
        status.unlink(missing_ok=True)
        if ran.status:
            status.write_text(f"{ran.status}\n")


def notices_alone(told: Report, program: Program, name: str) -> None:
    """The notices of a story's output, printed alone."""
    file, status, lines = str(forms(name)[-1]), status_of(name), text_of(name).splitlines(keepends=True)
    notices = "".join(it for it in lines if re.match(r"\d\S* +(notice|failed)  ", it))
    delivered = "".join(it for it in lines if re.match(r"\d\S* +notice  ", it))
    own = json.dumps({**value_of(program, name), "output": "notices"})
    for how, wanted, ran in [
        ("notices", notices, rehearse(program, "", "play", file, "--output", "notices")),
        ("delivered notices", delivered, rehearse(program, "", "play", file, "--output", "notices", "--no-failures")),
        ("notices by its own output", notices, rehearse(program, own)),
    ]:
        told.same(f"{name}, {how}", shown(status, wanted), with_words(ran, status), path_of(stored_of(name)), "am-rehearse")


def folded(full: str, objects: list[Json]) -> str:
    """A full timeline, whose lines are these objects too, with one line for each run: flushes of a group that follow each
    other, send nothing and have the same lines."""
    lines = full.splitlines()
    ends: list[str | None] = ["" for _ in objects]
    for flushes in flushes_of(objects).values():
        run: Json = None
        for begun in sorted(flushes):
            flush = flushes[begun]
            texts = None if flush["sends"] else [lines[place].split(maxsplit=1)[1] for place in flush["places"]]
            if run and texts and run["texts"] == texts:
                run["count"], run["until"] = run["count"] + 1, lines[flush["places"][0]].split(maxsplit=1)[0]
                for place, first in zip(flush["places"], run["places"]):
                    ends[place], ends[first] = None, f"; {run['count']} flushes until {run['until']}"
            else:
                run = {"texts": texts, "count": 1, "places": flush["places"]}
    kept = [line + end for line, end in zip(lines, ends) if end is not None]
    return "".join(f"{line}\n" for line in kept + lines[len(objects):])


def flushes_of(objects: list[Json]) -> Json:
    """Of each group its flushes by the time at which they began: whether they send, and the places of their other lines."""
    found: Json = {}
    for place, it in enumerate(objects):
        begun = it["since"] if "since" in it else it["at"]
        of_group = found.setdefault((it["route"], json.dumps(it["group"])), {})
        flush = of_group.setdefault(begun, {"sends": False, "places": []})
        flush["sends"] |= "since" in it
        if "since" not in it:
            flush["places"].append(place)
    return found


# The line on a new dispatcher, between empty lines.
HEAD = re.compile(r"(\n\d\S* +(?:reload |restart) [^\n]*\n\n)")


def folded_parts(full: str, objects: list[Json]) -> str:
    """A full output, in which each dispatcher's timeline has one line for each run."""
    text = ""
    for place, part in enumerate(HEAD.split(full)):
        lines = part.splitlines()
        count = lines.index("") if "" in lines else len(lines)
        text += part if place % 2 else folded(part, objects[:count])
        objects = objects if place % 2 else objects[count:]
    return text + "".join(f"an object without a line: {it}\n" for it in objects)


def folds(told: Report, program: Program, name: str) -> None:
    """The stored text is the full timeline with one line for each run."""
    file = str(forms(name)[-1])
    full, objects = rehearse(program, "", "play", file, "--all"), rehearse(program, "", "play", file, "--output", "json")
    wanted = folded_parts(full.out, [json.loads(it) for it in objects.out.splitlines()])
    told.same(f"{name}, folded", wanted, text_of(name), "the full timeline, folded", path_of(stored_of(name)))


def first_run(told: Report, program: Program) -> None:
    """The first run of the README in YAML, and the program's stored run in JSON, are one story with one output."""
    story, crate = EXAMPLES / "disk-full.yml", ROOT / "crates/am_rehearse"
    told.same("disk-full.yml and the program's stdin", json.loads((crate / "stdin").read_text()), json.loads(as_json(program, story)))
    ran = rehearse(program, "", "play", str(story))
    told.stored("disk-full.yml", crate / "stdout", ran.out)
    told.same("disk-full.yml, its status", 0, ran.status)


# Stories with several dispatchers.

def handovers(story: Json) -> list[str]:
    """Which of `reload` and `restart` come, in the order of their times."""
    items = []
    for word in ("reload", "restart"):
        told = story.get(word, [])
        items += [(milliseconds(it["at"]), word) for it in (told if isinstance(told, list) else [told])]
    return [word for _, word in sorted(items)]


def dispatchers(told: Report, programs: Programs) -> None:
    """A story whose dispatcher is reloaded or restarted has one line on each new dispatcher, in the order of their times, and so has its
    page, whatever its own output."""
    program, count = programs["am_rehearse"], 0
    for name in names():
        story = value_of(program, name)
        if (wanted := handovers(story)) and (REHEARSALS / f"{name}.yml").exists():
            count += 1
            told.same(f"{name}: a line on each new dispatcher", wanted, [it.split()[1] for it in HEAD.findall(text_of(name))])
            for output in ("html", "timeline", "json"):
                ran = rehearse(program, json.dumps({**story, "output": output}), *PLAY, "--output", "html")
                shown = re.findall(r'<p class="c"><span>(\w+)', ran.out)
                told.same(f"{name}: a band for each new dispatcher, in place of {output}", wanted, shown)
    told.at_least(10, count, "stories with several dispatchers")


# The notices of a scenario and of its rehearsal.

LABELS = r'\{(?:[a-zA-Z_0-9]+="(?:[^"\\]|\\.)*",?)*\}'
REPORTED = re.compile(rf"notice \d+ (\w+):({LABELS}) (\w+/\d+) (\w+) attempts=(\d+) firing=\[(.*)\] resolved=\[(.*)\]")
DELIVERED = re.compile(
    rf".{{12}}  notice  (\w+)({LABELS}) -> (\S+ \w+\[\d+\]) delivered(?: after (\d+) attempts since [^ ,]+)?"
    r"(?:, past its deadline [^ ]+, at which Alertmanager cuts it off)?: "
    rf"[^;]*(?:; firing (.*?))?(?:; resolved (.*))?"
)
LOST = re.compile(rf".{{12}}  failed  (\w+)({LABELS}) -> (\S+ \w+\[\d+\]) (\w+) after (\d+) attempts? since .*")
UNSENT = re.compile(rf".{{12}}  quiet   (\w+)({LABELS}) -> (\S+ \w+\[\d+\]): all resolved, which it isn't sent")
# A notification: route, labels, integration, outcome, attempts, alerts that fire and that are resolved.
Notice = tuple[str, str, str, str, int, list[str], list[str]]


def sets(text: str | None) -> list[str]:
    """The label sets in a text."""
    return re.findall(LABELS, text or "")


def reported(text: str) -> list[Notice]:
    """The notices of a scenario's report; of one that failed not what it was to say."""
    notices: list[Notice] = []
    for line in text.splitlines():
        if found := REPORTED.fullmatch(line):
            route, labels, integration, outcome, attempts, firing, resolved = found.groups()
            alerts = (sets(firing), sets(resolved)) if outcome == "delivered" else ([], [])
            notices.append((route, labels, integration, outcome, int(attempts), *alerts))
    return sorted(notices)


def positions(scenario: Json) -> dict[str, str]:
    """What a report calls an integration, by its receiver and name: its kind and its position among all."""
    found = {}
    for receiver in scenario["config"]["receivers"]:
        kinds = [it["kind"] for it in receiver["integrations"]]
        for position, kind in enumerate(kinds):
            found[f"{receiver['name']} {kind}[{kinds[:position].count(kind)}]"] = f"{kind}/{position}"
    return found


def rehearsed(timeline: str, integrations: dict[str, str]) -> list[Notice]:
    """The notices of a rehearsal's timeline, in the same form."""
    notices: list[Notice] = []
    for line in timeline.splitlines():
        if found := DELIVERED.fullmatch(line):
            route, labels, name, attempts, firing, resolved = found.groups()
            notices.append((route, labels, integrations[name], "delivered", int(attempts or 1), sets(firing), sets(resolved)))
        elif found := LOST.fullmatch(line):
            route, labels, name, outcome, attempts = found.groups()
            notices.append((route, labels, integrations[name], outcome, int(attempts), [], []))
        elif found := UNSENT.fullmatch(line):
            notices.append((found[1], found[2], integrations[found[3]], "nothing", 0, [], []))
    return sorted(notices)


def as_lines(notices: list[Notice]) -> str:
    """Notices with a line for each."""
    return "\n".join(map(repr, notices))


def notices(told: Report, programs: Programs) -> None:
    """A scenario and its rehearsal have the same notices. Two rehearsals that differ in an interval or a rule have others."""
    program, scenarios = programs["am_rehearse"], sorted(EXAMPLES.glob("*.txt"))
    told.at_least(9, len(scenarios), "scenarios")
    for scenario in scenarios:
        report_of, integrations = scenario.read_text(), positions(json.loads(scenario.with_suffix(".json").read_text()))
        timeline = rehearsed(text_of(scenario.stem), integrations)
        told.same(scenario.stem, as_lines(reported(report_of)), as_lines(timeline), "am-run", "am-rehearse")
        told.holds(f"{scenario.stem}, its notices are found", bool(reported(report_of)))
    hourly, often = value_of(program, "repeat-of-an-hour"), value_of(program, "repeat-of-an-hour")
    often["config"]["route"]["repeat_interval"] = "5m"
    differ(told, program, "repeat_interval", hourly, often)
    ruled, unruled = value_of(program, "cluster-down-with-rule"), value_of(program, "cluster-down-without-rule")
    differ(told, program, "the rule", ruled, unruled)
    del ruled["config"]["inhibit"]
    told.same("the two of cluster-down differ in the rule alone", ruled, unruled)


def differ(told: Report, program: Program, what: str, one: Json, other: Json) -> None:
    """Two stories have notices, and other ones."""
    rans = [rehearse(program, json.dumps({**it, "expect": [], "output": "notices"})) for it in (one, other)]
    is_right = all(it.status == 0 and it.out for it in rans) and rans[0].out != rans[1].out
    told.holds(f"{what} alone changes the notices", is_right, *map(str, rans))


# Commands.

# How long one may take.
SECONDS = 120


def given(command: str, path: str) -> list[str]:
    """The lines of what a command gives, with programs of this path."""
    with subprocess.Popen(["bash", "-c", command], cwd=ROOT, stdin=subprocess.DEVNULL, stdout=subprocess.PIPE, stderr=subprocess.PIPE,
                          env={**os.environ, "PATH": path}, start_new_session=True) as ran:
        try:
            out, err = ran.communicate(timeout=SECONDS)
        except subprocess.TimeoutExpired:
            os.killpg(ran.pid, signal.SIGKILL)
            return [f"no end in {SECONDS} seconds"]
    return str(Ran(ran.returncode, as_text(out), as_text(err))).splitlines()


def commands(told: Report, programs: Programs) -> None:
    """Each run has its stored output, lines on standard error and status."""
    runs, written = runs_of(RUNS.read_text()), ""
    told.at_least(150, len(runs), "runs")
    with tempfile.TemporaryDirectory() as tools:
        (Path(tools) / "am-rehearse").symlink_to(programs["am_rehearse"].path)
        path = f"{tools}:{os.environ['PATH']}"
        for run in runs:
            got = given(run.command, path) if told.wants(run.command) else run.lines
            written += run.text(got)
            told.same(run.command, "\n".join(got if told.is_written else run.lines), "\n".join(got), path_of(RUNS), "am-rehearse")
    if told.is_written:
        RUNS.write_text(written.removesuffix("\n"), encoding="utf-8")


# Exit statuses.

# Bytes that are no JSON, with the line and the column at which reading them ends.
NO_JSON = [('{"config":', 1, 10), ('{"a":1', 1, 6), ('{\n  "a" 1}', 2, 7), ('{\n  "until" 1}', 2, 11), ("[1,\n2,\n3}", 3, 2),
           ("[1] 2", 1, 5)]
NO_CONFIGURATION = ("<stdin>:1:1: the story has no configuration; add `config` or `alertmanager`, or give one with --config "
                    "(at /config)")
NOT_MET = """<stdin>:10:5: this expectation isn't met (at /expect/1)
<stdin>:16:5: this expectation isn't met (at /expect/2)
<stdin>:17:5: this expectation isn't met (at /expect/3)
<stdin>:18:5: this expectation isn't met (at /expect/4)
am-rehearse: an expectation isn't met"""


def statuses(told: Report, programs: Programs) -> None:
    """Each exit status has its line on standard error, and nothing on standard output."""
    program, story = programs["am_rehearse"], REHEARSALS / "first-notice.json"

    def case(name: str, ran: Ran, status: int, line: str) -> None:
        told.same(f"status {status}: {name}", Ran(status, "", line + "\n"), ran)

    case("a folder", program.run(stdin=ROOT), 1, "<stdin>: not readable, or longer than 64 MiB")
    for text, line, column in NO_JSON:
        case(f"no JSON at {line}:{column}", program.run(stdin=text), 2, f"<stdin>:{line}:{column}: not JSON")
    case("no configuration", program.run(stdin='{"until":"1h"}'), 2, NO_CONFIGURATION)
    if told.can_refuse("no memory", program):
        case("no memory", program.run(stdin=story, env=preload.Refused(1).env), 3, "am-rehearse: no memory")
    case("a full disk", program.run(stdin=story, stdout=Path("/dev/full")), 4, "am-rehearse: output not writable")
    unmet = program.run(stdin=REHEARSALS / "expectations-not-met.json")
    case("expectations that aren't met", unmet._replace(out=""), 5, NOT_MET)


# The schema.

def schema(told: Report, programs: Programs) -> None:
    """Each example is as the schema says, where the module jsonschema is there."""
    try:
        import jsonschema
    except ImportError as missing:
        told.skip("the schema", str(missing))
        return
    said = json.loads(SCHEMA.read_text())
    jsonschema.Draft202012Validator.check_schema(said)
    validator = jsonschema.Draft202012Validator(said)
    for file in sorted([*REHEARSALS.glob("*.json"), *REHEARSALS.glob("*.yml"), *EXAMPLES.glob("*.yml")]):
        value = json.loads(as_json(programs["am_rehearse"], file))
        told.same(f"{file.name}, by the schema", [], [it.message for it in validator.iter_errors(value)])


PARTS = {"outputs": outputs, "notices": notices, "dispatchers": dispatchers, "commands": commands, "statuses": statuses,
         "schema": schema}

if __name__ == "__main__":
    report.main(__file__, PARTS, ("am_rehearse",), __doc__)
