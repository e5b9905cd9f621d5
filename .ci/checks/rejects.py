#!/usr/bin/env python3
"""What am-rehearse rejects of stories and configurations, where, and by which word.

- `rehearsals`, `alertmanager`: each row of .ci/data/refusals/{rehearsal,alertmanager}.rows is rejected by just its lines.
- `settings`: each row of .ci/data/refusals/settings.rows, about what integrations are set to, as well.
- `texts`: of each text of .ci/data/refusals/texts.cases `check` says what is written behind it.
- `amtool`: what Alertmanager's amtool rejects of these rows and texts is never accepted, where it is installed (Debian's package
  prometheus-alertmanager 0.25).
- `matchers`: each text of .ci/data/matchers.rows matches its label set, fails on it, or is rejected.
- `ignored`: what a configuration of Alertmanager's has that changes nothing is said once; of many faults a hundred are printed.
- `limits`: inputs that would take long, or much memory, are rejected at a place or played, within limits.
"""
import json
import re
import shutil
import subprocess
import sys
import tempfile
from collections.abc import Iterator
from concurrent.futures import ThreadPoolExecutor
from pathlib import Path
from typing import NamedTuple

sys.path.insert(0, str(Path(__file__).resolve().parent.parent))
from lib import report
from lib.program import ROOT, Limits, Program, Ran
from lib.report import Programs, Report, path_of
from lib.rows import Json, Rows, changed, repeated
from lib.stories import LIMITS, PLAY, alertmanager_story, config, faults_in, rehearse, story

DATA = ROOT / ".ci/data"


# Rows.

def outcome(ran: Ran) -> str:
    """How a story ends, in the words of a row."""
    if ran.status in (0, 5) and ran.out:
        return "played"
    if (ran.status, ran.out) == (2, "") and ran.err:
        return " | ".join(faults_in(ran.err))
    return str(ran)


class Change(NamedTuple):
    """A row of a table: its place, its changes, the story with them, and how the story has to end."""

    at: int
    words: str
    whole: Json
    wanted: str


def changes_in(rows: Rows) -> Iterator[Change]:
    """The rows of a table, which begins with the story that they change, up to an empty line."""
    end = rows.lines.index("")
    start = "\n".join(it for it in rows.lines[:end] if not it.startswith("#"))
    for at, line in rows:
        if at > end:
            words, wanted = line.rsplit(" -> ", 1)
            whole = json.loads(start)
            for change in words.split(" ; "):
                whole = changed(whole, change)
            yield Change(at, words, whole, repeated(wanted))


def rejected(told: Report, program: Program, table: Path, least: int) -> None:
    """Each row of a table is rejected by just the lines that it says."""
    rows = Rows(table)
    changes = list(changes_in(rows))
    with ThreadPoolExecutor() as pool:
        results = list(pool.map(lambda it: outcome(rehearse(program, json.dumps(it.whole), *PLAY)), changes))
    for (at, words, _, wanted), got in zip(changes, results):
        if told.is_written and wanted != got:
            rows.lines[at] = f"{words} -> {got}"
        else:
            expected, given = wanted.replace(" | ", "\n"), got.replace(" | ", "\n")
            told.row(f"{table.name}:{at + 1}", expected, given, f"{path_of(table)}:{at + 1}", words[:150])
    if told.is_written:
        rows.write()
    told.ok(f"{len(changes)} rows of {table.name} were compared")
    told.at_least(least, len(changes), "rows")


def rehearsals(told: Report, programs: Programs) -> None:
    """Rows that change a story."""
    rejected(told, programs["am_rehearse"], DATA / "refusals/rehearsal.rows", 200)


def alertmanager(told: Report, programs: Programs) -> None:
    """Rows that change an alertmanager.yml."""
    rejected(told, programs["am_rehearse"], DATA / "refusals/alertmanager.rows", 100)


def settings(told: Report, programs: Programs) -> None:
    """Rows that change what integrations and `global` are set to."""
    rejected(told, programs["am_rehearse"], DATA / "refusals/settings.rows", 900)


# Texts.

def texts_in(text: str) -> list[tuple[str, str, str]]:
    """The cases of a file of texts: the name of each, its text, and what is said of it."""
    found = []
    for case in text.split("\n=== ")[1:]:
        heading, _, rest = case.partition("\n")
        body, _, said = f"\n{rest}".rpartition("\n=> ")
        found.append((heading, body[1:] + "\n" * bool(body), said.rstrip("\n")))
    return found


def check_says(program: Program, text: str) -> str:
    """What `check` says of a text: `accepted`, or its faults."""
    ran = program.run("check", "-", "--format", "json", stdin=text, limits=LIMITS)
    if ran.status == 0:
        return "accepted"
    faults = [json.loads(it) for it in ran.err.splitlines()]
    return " | ".join(f"{it.get('line', 0)}:{it.get('column', 0)}: {it['message']}" for it in faults)


def texts(told: Report, programs: Programs) -> None:
    """Each text of .ci/data/refusals/texts.cases is accepted, or rejected in the words that it says."""
    file = DATA / "refusals/texts.cases"
    whole = file.read_text(encoding="utf-8")
    cases = texts_in(whole)
    for heading, text, wanted in cases:
        got = check_says(programs["am_rehearse"], text)
        if told.is_written:
            whole = whole.replace(f"=== {heading}\n{text}=> {wanted}\n", f"=== {heading}\n{text}=> {got}\n")
        else:
            told.same(heading, wanted, got, path_of(file))
    if told.is_written:
        file.write_text(whole, encoding="utf-8")
    told.ok(f"{len(cases)} texts were compared")
    told.at_least(15, len(cases), "texts")


# What amtool rejects.

def amtool_says(file: Path) -> str:
    """What amtool says of a configuration that it rejects; nothing of one that it accepts."""
    ran = subprocess.run(["amtool", "check-config", str(file)], stdout=subprocess.PIPE, stderr=subprocess.STDOUT, text=True,
                         errors="backslashreplace", check=False)
    if ran.returncode == 0:
        return ""
    return (ran.stdout.partition("FAILED: ")[2] or "rejected").splitlines()[0]


# What changes of rows have that only later releases know, or only stories: zones of their own, and intervals that no route names.
NOT_IN_AMTOOL = ("jira_api_url", "tracing", "/inhibit_rules/0/name", "mattermost_configs", "/zones", '"nowhere"')


def amtool(told: Report, programs: Programs) -> None:
    """The program accepts no configuration of a row that amtool rejects. It reads each as a file of its own."""
    if shutil.which("amtool") is None:
        told.skip("what amtool rejects", "it isn't installed")
        return
    tables = [DATA / "refusals" / name for name in ("alertmanager.rows", "settings.rows")]
    with tempfile.TemporaryDirectory() as folder, ThreadPoolExecutor() as pool:
        files = {}
        for table in tables:
            for at, words, whole, wanted in changes_in(Rows(table)):
                if wanted == "played" and not any(it in words for it in NOT_IN_AMTOOL):
                    file = Path(folder) / f"{table.name}-{at}.yml"
                    file.write_text(json.dumps(whole["alertmanager"]), encoding="utf-8")
                    files[f"{table.name}:{at + 1}: {words[:150]}"] = file
        for heading, text, wanted in texts_in((DATA / "refusals/texts.cases").read_text(encoding="utf-8")):
            if wanted == "accepted":
                file = Path(folder) / f"text-{len(files)}.yml"
                file.write_text(text, encoding="utf-8")
                files[heading] = file
        for title, said in zip(files, pool.map(amtool_says, files.values())):
            told.row(title, f"rejected, as amtool says: {said}" if said else "played", "played")
    told.ok(f"{len(files)} configurations that are played were given to amtool")
    told.at_least(300, len(files), "configurations")


# Matchers.

def matcher_outcome(program: Program, text: str, labels: Json) -> str:
    """What a matcher of one text does to a label set: a child route has it, behind which is the root."""
    config = {
        "receivers": [{"name": "team", "integrations": [{"kind": "hook"}]}],
        "route": {"receiver": "team"},
        "children": [{"name": "child", "receiver": "team", "matchers": [text]}],
    }
    whole = {"config": config, "until": "1m", "alerts": [{"labels": labels}], "output": "notices"}
    ran = rehearse(program, json.dumps(whole), *PLAY)
    if (ran.status, ran.out) == (2, "") and faults_in(ran.err) == ["/config/children/0/matchers/0: value"]:
        return "refused"
    found = re.fullmatch(r".{14}notice  (child|root)\{\} -> [^\n]*\n", ran.out) if ran.status == 0 else None
    return {"child": "matches", "root": "fails"}[found[1]] if found else str(ran)


def matchers(told: Report, programs: Programs) -> None:
    """Each text of a table does to its label set what the row says."""
    rows = Rows(DATA / "matchers.rows")
    tabbed = rows.tabbed()
    for at, (text, labels, wanted) in tabbed:
        got = matcher_outcome(programs["am_rehearse"], json.loads(text), json.loads(labels))
        if told.is_written:
            rows.lines[at] = "\t".join([text, labels, got])
        else:
            told.row(f"matchers.rows:{at + 1}", wanted, got, f"{path_of(rows.file)}:{at + 1}", f"{text} on {labels}")
    if told.is_written:
        rows.write()
    told.ok(f"{len(tabbed)} rows of matchers.rows were compared")
    told.at_least(60, len(tabbed), "rows")


# What is ignored of an alertmanager.yml, and how many faults are printed.

# A receiver of mail, with what Alertmanager needs.
MAILED = [{"name": "team", "email_configs": [{"to": "a@example.org", "from": "b@example.org", "smarthost": "localhost:25"}]}]


def ignored(told: Report, programs: Programs) -> None:
    """What a configuration has that changes nothing here is said in one line. Of more than a hundred faults the first hundred are
    printed."""
    program = programs["am_rehearse"]
    cases: list[tuple[Json, str]] = [
        ({}, ""),
        ({"global": {}, "templates": [], "time_intervals": []}, ""),
        ({"global": {"resolve_timeout": "5m"}}, "global"),
        ({"templates": ["x"]}, "templates"),
        ({"time_intervals": [{"name": "x"}]}, "time intervals"),
        ({"mute_time_intervals": [{"name": "x"}]}, "time intervals"),
        ({"receivers": MAILED}, "settings of integrations"),
        ({"global": {"resolve_timeout": "5m"}, "receivers": MAILED}, "global, settings of integrations"),
    ]
    for members, what in cases:
        ran = rehearse(program, json.dumps(alertmanager_story(**members)))
        wanted = Ran(0, "(something)", f"<stdin>: ignored: {what}\n" if what else "")
        told.same(f"ignored of {json.dumps(members)}: {what or 'nothing'}", wanted, ran._replace(out="(something)" if ran.out else ""))
    unknown = {f"x{number:03}": 1 for number in range(101)}
    ran = rehearse(program, json.dumps(alertmanager_story(**unknown)), *PLAY)
    told.same("a hundred faults", " | ".join(f"/alertmanager/x{number:03}: unknown" for number in range(100)), outcome(ran))


# Inputs that would take long, or much memory.

def alerts(count: int) -> Json:
    """So many alerts of 4,096 names."""
    return [{"labels": {"alertname": f"A{n % 4096}", "number": str(n)}} for n in range(count)]


def hostile() -> list[tuple[str, str, int, str]]:
    """Inputs, each with a name, and with the status and the first line that it has to get."""
    no_json = ": text"
    endless = [{"receiver": "team"}]
    wide = alertmanager_story(route={"receiver": "team", "routes": [{}] * 300_000})
    few_known = story(config=config(limits={"names": 65_536}), alerts=alerts(100_000))
    short = config(limits={"history": 1_048_576})
    written: list[tuple[str, Json, int, str]] = [
        ("an end at 10^12", story(until="1000000000000ms"), 2, "/until: value"),
        ("an end at 10^30", story(until=f"{10**30}y"), 2, "/until: value"),
        ("a wait of 10^12", story(maintain="1000000000000ms"), 0, ""),
        ("a wait above it", story(maintain="1000000000001ms"), 2, "/maintain: value"),
        ("100,000 alerts, of which 65,536 are allowed", few_known, 2, "/alerts/65536: full"),
        ("a hundred faults behind 50,000 alerts", story(alerts=alerts(50_000) + [{}] * 100), 2, "/alerts/50000/labels: missing"),
        ("an outage without an end", story(until="366d", outages=endless), 0, ""),
        ("300,000 routes", wide, 2, "/alertmanager/route/routes/16383: value"),
        ("maintenance each millisecond", story(config=short, until="366d", maintain="1ms"), 2, "/until: full"),
    ]
    return [
        ("arrays 100,000 deep", "[" * 100_000, 2, no_json),
        ("arrays 100,000 deep, closed", "[" * 100_000 + "]" * 100_000, 2, no_json),
        ("objects 100,000 deep", '{"config":' * 100_000, 2, no_json),
        ("64 MiB", json.dumps(story()).ljust(67_108_864), 0, ""),
        ("64 MiB and a byte", json.dumps(story()).ljust(67_108_865), 1, "not readable"),
        *((name, json.dumps(value), status, line) for name, value, status, line in written),
    ]


def routes_below(widths: list[int], level: int = 1, **members: Json) -> Json:
    """As many routes side by side as the first number says, below each as many as the next, and so on.
    Each has these members too, and takes an alert that has `x` at its level."""
    return [
        {
            "matchers": [f'level{level}=~"{number}|x"'],
            "routes": routes_below(widths[1:], level + 1, **members),
            **members,
        }
        for number in range(widths[0] if widths else 0)
    ]


def trees(told: Report, program: Program) -> None:
    """The widest tree that is allowed, which finds one route for an alert that each takes, or with `continue` all of the
    lowest level; and one of a route more, which is rejected at the last that there is no capacity for."""
    widest = routes_below([3, 4, 4, 4, 4, 4, 4])
    for name, routes, wanted in [
        ("16,383 routes seven deep", widest, "status 0, 1 notices"),
        ("16,383 routes seven deep, with continue", routes_below([3, 4, 4, 4, 4, 4, 4], **{"continue": True}), "status 0, 12288 notices"),
        ("16,384 routes seven deep", [*widest, {}], "status 2, 0 notices /alertmanager/route/routes/3: value"),
    ]:
        hooks = [{"name": "team", "webhook_configs": [{"url": "http://localhost/"}]}]
        whole = alertmanager_story(route={"receiver": "team", "routes": routes}, receivers=hooks)
        labels = {f"level{level}": "x" for level in range(1, 8)}
        text = json.dumps({**whole, "alerts": [{"labels": labels}], "output": "notices"})
        ran = rehearse(program, text, *PLAY, limits=Limits(1, LIMITS.memory))
        got = " ".join([f"status {ran.status}, {len(ran.out.splitlines())} notices", *faults_in(ran.err)])
        told.same(f"{name}, within a second", wanted, got)


def limits(told: Report, programs: Programs) -> None:
    """Inputs that would take long, or much memory, are rejected at a place or played, within limits."""
    program = programs["am_rehearse"]
    for name, text, status, line in hostile():
        ran = rehearse(program, text, *PLAY)
        lines = faults_in(ran.err) if ran.status == 2 else [ran.err]
        is_right = ran.status == status and line in lines[0] and (ran.out != "") == (status == 0)
        told.holds(name, is_right, f"status {status} and {line or 'an output'} are wanted", str(ran)[:2000])
    trees(told, program)


PARTS = {"rehearsals": rehearsals, "alertmanager": alertmanager, "settings": settings, "texts": texts, "amtool": amtool,
         "matchers": matchers, "ignored": ignored, "limits": limits}

if __name__ == "__main__":
    report.main(__file__, PARTS, ("am_rehearse",), __doc__)
