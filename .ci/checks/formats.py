#!/usr/bin/env python3
"""How am-rehearse reads YAML, routes and times, compared with other readers of the same.

- `yaml`: each case of .ci/data/yaml.cases has its value or its fault; and, where PyYAML is there, no document has another value
  than PyYAML's safe loader gives it with the core schema.
- `routes`: the receivers of label sets are those that Alertmanager's own tool printed when examples/alertmanager/ was made
  (tools/amtool), and each route below a root takes some of them. The command `routes` finds the same. Each file there gives in YAML
  byte for byte what it gives in JSON.
- `hours`: routes are muted at the times at which Alertmanager's own package mutes them. tools/hours/README.md says how the rows
  are made.
"""
import itertools
import json
import random
import re
import sys
import tempfile
from collections.abc import Iterable, Iterator
from itertools import zip_longest
from pathlib import Path

sys.path.insert(0, str(Path(__file__).resolve().parent.parent))
from lib import report
from lib.program import ROOT, Program, Ran
from lib.report import Programs, Report, difference, path_of
from lib.rows import Json, Rows
from lib.yaml_core import Refused, core_loader, has_yaml, is_same, random_text, value_of

EXAMPLES = ROOT / "examples"


# YAML.

CASES = ROOT / ".ci/data/yaml.cases"
SEED = 20261125
GENERATED = 3000
# How many files one run of the program reads.
BATCH = 200
# What represents in a case what an editor doesn't show.
SIGNS = (("␉", "\t"), ("␍", "\r"), ("⌂", "\ufeff"), ("∎\n", ""))
# What the program reads of a text: whether it does, and the value as JSON, or the fault.
Read = tuple[bool, Json]


def read_all(program: Program, texts: list[str]) -> list[Read]:
    """What the program reads of each text."""
    found: list[Read] = []
    with tempfile.TemporaryDirectory() as folder:
        for first in range(0, len(texts), BATCH):
            few = texts[first : first + BATCH]
            files = [Path(folder) / f"{first + at}.yml" for at in range(len(few))]
            for file, text in zip(files, few):
                file.write_bytes(text.encode())
            ran = program.run("json", "--format", "json", *(it.name for it in files), cwd=Path(folder))
            rejected = {it["file"]: it for it in map(json.loads, ran.err.splitlines())}
            values = iter(ran.out.splitlines())
            found += [(False, rejected[it.name]) if it.name in rejected else (True, next(values)) for it in files]
    return found


def said(is_read: bool, got: Json) -> str:
    """What was read, in the words of a case."""
    place = f"{got['line']}:{got['column']}: " if not is_read and "line" in got else ""
    return str(got) if is_read else f"! {place}{got['message']}"


def cases() -> Iterator[tuple[str, str, str]]:
    """The cases: of each its heading, its text, and behind `=> ` what is read of it."""
    parts = re.split(r"^(=== .*\n)", CASES.read_text(encoding="utf-8"), flags=re.M)
    for heading, block in zip(parts[1::2], parts[2::2]):
        written, wanted = block.rsplit("\n=> ", 1) if not block.startswith("=> ") else ("", block[3:])
        yield heading, written + "\n" if written else "", wanted


def meant(written: str) -> str:
    """The text that a case means."""
    for sign, what in SIGNS:
        written = written.replace(sign, what)
    return written


def yaml_cases(told: Report, program: Program) -> None:
    """The stored cases."""
    stored = list(cases())
    text = CASES.read_text(encoding="utf-8").partition("=== ")[0]
    for (heading, written, wanted), (is_read, got) in zip(stored, read_all(program, [meant(it) for _, it, _ in stored])):
        found = said(is_read, got)
        text += heading + written + "=> " + wanted.replace(wanted.strip("\n"), found)
        if not told.is_written:
            told.same(heading.strip("= \n"), wanted.strip("\n"), found, path_of(CASES), "am-rehearse")
    told.at_least(70, len(stored), "cases")
    if told.is_written:
        told.stored("the cases", CASES, text)


def compare(told: Report, program: Program, what: str, texts: list[str]) -> int:
    """Compares what PyYAML reads of texts. Answers how many have one value."""
    loader = core_loader()
    counts = {"equal": 0, "refused by both": 0, "refused by am-rehearse alone": 0}
    for text, (is_read, got) in zip(texts, read_all(program, texts)):
        try:
            theirs = value_of(loader, text)
        except Refused as fault:
            if is_read:
                told.fails(f"{what}: a text is read that PyYAML refuses", text, f"read as {got}, and PyYAML says {fault}")
            counts["refused by both"] += not is_read
            continue
        if not is_read:
            counts["refused by am-rehearse alone"] += 1
        elif is_same(json.loads(got), theirs):
            counts["equal"] += 1
        else:
            told.fails(f"{what}: a text has another value", text, *difference(theirs, json.loads(got), "PyYAML", "am-rehearse"))
    told.ok(f"{len(texts)} {what}: " + ", ".join(f"{count} {name}" for name, count in counts.items()))
    return counts["equal"]


def yaml(told: Report, programs: Programs) -> None:
    """What is read of the stored cases, and of documents that PyYAML reads too."""
    program = programs["am_rehearse"]
    yaml_cases(told, program)
    if not has_yaml():
        told.skip("the comparison with another reader", "there is no PyYAML")
        return
    files = [*EXAMPLES.glob("**/*.yml"), *EXAMPLES.glob("**/*.yaml"), *EXAMPLES.glob("**/*.json")]
    equal = compare(told, program, "stored files", [it.read_text() for it in sorted(files)])
    told.at_least(50, equal, "stored files with one value")
    chance = random.Random(SEED)
    equal = compare(told, program, "generated documents", [random_text(chance) for _ in range(GENERATED)])
    told.at_least(GENERATED // 4 + 1, equal, "generated documents with one value")


# Routes.

CONFIGS = EXAMPLES / "alertmanager"
SETS = 300
# One of so many label sets is looked up by the command `routes` too.
SAMPLE = 10
# What a story needs whose routes are muted by time. The rule is the zone's: no file of zones is needed.
DATED = {"start": "2026-11-24T09:00:00Z", "zones": {"Europe/Berlin": "CET-1CEST,M3.5.0,M10.5.0/3"}}
# A label set, and its receivers.
Row = tuple[dict[str, str], list[str]]


def unmuted(route: Json) -> Json:
    """A route, and those below it, of which none is muted by time."""
    kept = {name: value for name, value in route.items() if not name.endswith("_time_intervals")}
    return {**kept, "routes": [unmuted(it) for it in route.get("routes") or []]}


def rehearsal(config: Json, sets: list[dict[str, str]]) -> Json:
    """A rehearsal in which each label set is an alert from the start, and each receiver is notified."""
    heard = [{"name": receiver["name"], "webhook_configs": [{"url": "http://localhost/"}]} for receiver in config["receivers"]]
    routing = {name: value for name, value in config.items() if name != "inhibit_rules"}
    return {
        "alertmanager": {**routing, "route": unmuted(config["route"]), "receivers": heard},
        "until": "1m",
        "alerts": [{"labels": labels} for labels in sets],
        "output": "json",
    }


def first_notices(text: str) -> list[Json]:
    """The first notices of an output."""
    events = [json.loads(line) for line in text.splitlines()]
    return [event for event in events if event["event"] == "notice" and event["reason"] == "first notice"]


def receivers_of(notices: list[Json]) -> dict[str, list[str]]:
    """For the number of each label set the receivers of the notices that it is in."""
    found: dict[str, list[str]] = {}
    for notice in notices:
        for labels in notice["firing"]:
            found.setdefault(dict(labels)["set"], []).append(notice["receiver"])
    return found


def below(route: Json) -> Iterator[Json]:
    """All routes below one."""
    for child in route.get("routes") or []:
        yield child
        yield from below(child)


def unreached(config: Json, rows: list[Row], notices: list[Json]) -> list[str]:
    """What no label set reaches: receivers of routes below the root, by the stored rows, and, by what was
    notified, how many of these routes."""
    routes = list(below(config["route"]))
    heard = {receiver for _, receivers in rows for receiver in receivers}
    named = {route["receiver"] for route in routes if route.get("receiver")}
    count = len(routes) - len({notice["route"] for notice in notices} - {"root"})
    return [f"receiver {name}" for name in sorted(named - heard)] + ([f"{count} of {len(routes)} routes"] if count else [])


def with_texts(value: Json, wants_texts: bool = False) -> Json:
    """The value with a text for each whole number in `match` and `match_re`, where the program reads YAML as its text."""
    if isinstance(value, dict):
        return {name: with_texts(it, wants_texts or name in ("match", "match_re")) for name, it in value.items()}
    if isinstance(value, list):
        return [with_texts(it, wants_texts) for it in value]
    return str(value) if wants_texts and type(value) is int else value


def printed(program: Program, words: list[str]) -> str:
    """What the program gives with these words, as a text."""
    ran = program.run(*words)
    if words[0] == "json" and ran.status == 0:
        ran = ran._replace(out=json.dumps(with_texts(json.loads(ran.out))))
    return f"{ran.status}{ran.out}{ran.err}"


def in_yaml_as_in_json(program: Program, file: Path, rows: list[Row]) -> Iterator[str]:
    """What differs between a file in YAML and the same in JSON: what they are read as, what `check` and `routes` print, and
    what a story of the label sets gives with each as its configuration."""
    story = json.dumps({**DATED, "until": "6m", "alerts": [{"labels": labels, "to": "5m"} for labels, _ in rows]})
    with tempfile.NamedTemporaryFile("w", suffix=".json") as written:
        written.write(story)
        written.flush()
        for words in (["check", str(file)], ["routes", str(file)], ["json", str(file)], ["play", written.name, "--config", str(file)]):
            in_json = printed(program, words).replace(file.name, file.stem + ".yml")
            in_yaml = printed(program, [it if it != str(file) else str(file.with_suffix(".yml")) for it in words])
            if in_yaml != in_json or not in_json.startswith("0") or in_json == "0":
                pairs = zip_longest(in_yaml.splitlines(), in_json.splitlines())
                ours, theirs = next((it for it in pairs if it[0] != it[1]), (in_yaml, in_json))
                yield f"{words[0]} gives for the YAML {ours!r:.150}, and for the JSON {theirs!r:.150}"


def looked_up(program: Program, file: Path, rows: list[Row]) -> Iterator[str]:
    """What differs where the command `routes` looks a label set up."""
    for labels, wanted in rows[::SAMPLE]:
        words = [f"{name}={value}" for name, value in labels.items()]
        ran = program.run("routes", str(file.with_suffix(".yml")), *words, "--verify", ",".join(wanted))
        if ran.status != 0:
            yield f"routes {labels}: {ran.err.rstrip()}"


def check_config(told: Report, program: Program, file: Path) -> None:
    """The label sets of a file have the receivers that are stored, and reach each of its routes."""
    rows: list[Row] = [json.loads(line) for line in file.with_suffix(".routes").read_text().splitlines()]
    config = json.loads(file.read_text())
    ran = program.run(stdin=json.dumps(rehearsal(config, [labels for labels, _ in rows])))
    if ran.status != 0:
        told.fails(f"{file.name}: it is played", str(ran))
        return
    notices = first_notices(ran.out)
    found = receivers_of(notices)
    wanted = "\n".join(f"{json.dumps(labels)} -> {', '.join(sorted(receivers))}" for labels, receivers in rows)
    got = "\n".join(f"{json.dumps(labels)} -> {', '.join(sorted(found.get(labels['set'], [])))}" for labels, _ in rows)
    told.same(f"{file.name}: receivers of {len(rows)} label sets", wanted, got, path_of(file.with_suffix(".routes")), "am-rehearse")
    told.same(f"{file.name}: label sets", SETS, len(rows))
    told.same(f"{file.name}: what no label set reaches", [], unreached(config, rows, notices))
    told.same(f"{file.name}: in YAML as in JSON", [], [*in_yaml_as_in_json(program, file, rows)])
    told.same(f"{file.name}: looked up", [], [*looked_up(program, file, rows)])


def routes(told: Report, programs: Programs) -> None:
    """Each file of examples/alertmanager/."""
    files = sorted(CONFIGS.glob("*.json"))
    told.same("each file is there in YAML and in JSON", [it.stem for it in files], sorted(it.stem for it in CONFIGS.glob("*.yml")))
    told.at_least(18, len(files), "files")
    for file in filter(lambda it: told.concerns(it.name), files):
        check_config(told, programs["am_rehearse"], file)


# Times at which routes are muted.

HOURS = ROOT / "tools/hours"
# Milliseconds of a day, and how far behind `until` the end of a span is looked for.
DAY = 86_400_000
BEHIND = 366 * DAY
# How often a group is flushed: no part of a day, and so each time of day comes.
INTERVAL = "3h37m"
# How many refused texts are put into one configuration: the program prints a hundred faults at most, and a text may have two.
BAD_TEXTS = 45
KINDS = {"mute": "mute_time_intervals", "active": "active_time_intervals"}
# A row: a zone's rule, an interval, and the spans in which it holds.
Span = tuple[str, Json, list[tuple[int, int]]]


def play(program: Program, story: Json) -> Ran:
    """What the program does with a story."""
    return program.run(stdin=json.dumps(story))


def muted_story(start: str, until: str, rows: list[Span]) -> Json:
    """The rows of one start as a story: each has the routes `mute` and `active` with its number, and these a receiver each."""
    names = [(kind, place) for place in range(len(rows)) for kind in KINDS]
    root = {"receiver": "mute0", "group_by": ["alertname"], "group_wait": "0s", "group_interval": INTERVAL}
    routes = [{"receiver": f"{kind}{place}", KINDS[kind]: [f"row{place}"], "continue": True} for kind, place in names]
    intervals = [{"name": f"row{place}", "time_intervals": [{**interval, "location": f"Zone/{place}"}]}
                 for place, (_, interval, _) in enumerate(rows)]
    return {
        "alertmanager": {
            "time_intervals": intervals,
            "route": {**root, "routes": routes},
            "receivers": [{"name": f"{kind}{place}", "webhook_configs": [{"url": "http://localhost/"}]} for kind, place in names],
        },
        "start": start,
        "zones": {f"Zone/{place}": rule for place, (rule, _, _) in enumerate(rows)},
        "until": until,
        "alerts": [{"labels": {"alertname": "A"}}],
        "output": "json",
    }


def ends(spans: list[tuple[int, int]], horizon: int, at: int) -> dict[str, int | None]:
    """Until when the two routes of a row are muted at a time: each an end, or None."""
    inside = next((to for start, to in spans if start <= at < to), None)
    ahead = next((start for start, _ in spans if start > at), horizon)
    return {"mute": inside, "active": None if inside is not None else ahead}


def check_start(program: Program, start: str, until: str, rows: list[Span]) -> tuple[list[str], int]:
    """What differs between the rows of a start and what the program prints of them; how many flushes were compared."""
    ran = play(program, muted_story(start, until, rows))
    if ran.status != 0:
        return [f"{start}: status {ran.status}: {ran.err.strip()[:300]}"], 0
    horizon = int(until.removesuffix("d")) * DAY + BEHIND
    wrong: list[str] = []
    seen: dict[tuple[str, int], set[int]] = {}
    for event in map(json.loads, ran.out.splitlines()):
        kind, place = re.sub(r"\d", "", event["route"]), int(re.sub(r"\D", "", event["route"]))
        got = event["until"] if event.get("reason") == "route muted" else None
        wanted = ends(rows[place][2], horizon, event["at"])[kind]
        seen.setdefault((kind, place), set()).add(event["at"])
        if got != wanted:
            row = f"{rows[place][0]} {json.dumps(rows[place][1])}"
            wrong.append(f"{start} + {event['at']} ms, {kind} {row}: muted until {got}, Alertmanager until {wanted}")
    flushes: set[int] = set().union(*seen.values())
    names = [(kind, place) for kind in KINDS for place in range(len(rows))]
    wrong += [f"{start}: {kind}{place} isn't flushed each time" for kind, place in names if seen.get((kind, place)) != flushes]
    return wrong, sum(map(len, seen.values()))


def check_texts(program: Program, rows: list[list[str]]) -> list[str]:
    """What differs between the texts and the program: a configuration of those that are read has no fault, and ones of those
    that are refused have exactly these."""
    good, bad = ([json.loads(text) for kind, text in rows if kind == word] for word in ("read", "refused"))
    wrong = []
    batches: Iterable[list[Json]] = [[], *(bad[at : at + BAD_TEXTS] for at in range(0, len(bad), BAD_TEXTS))]
    for refused in batches:
        intervals = [*good, *refused]
        # (a name has 32 intervals at most)
        named = [{"name": f"n{at}", "time_intervals": intervals[at : at + 32]} for at in range(0, len(intervals), 32)]
        routing = {"route": {"receiver": "team"}, "receivers": [{"name": "team"}], "time_intervals": named}
        ran = play(program, {"alertmanager": routing, "until": "1h"})
        places = re.findall(r"\(at /alertmanager/time_intervals/(\d+)/time_intervals/(\d+)/", ran.err)
        found = {int(name) * 32 + int(place) for name, place in places}
        wanted = {at for at in range(len(intervals)) if at >= len(good)}
        if ran.status != (2 if refused else 0) or len(ran.err.splitlines()) < len(found):
            wrong.append(f"texts: status {ran.status}: {ran.err.strip()[:300]}")
        wrong += [f"text {json.dumps(intervals[at])}: read, Alertmanager refuses it" for at in sorted(wanted - found)]
        wrong += [f"text {json.dumps(intervals[at])}: refused, Alertmanager reads it" for at in sorted(found - wanted)]
    return wrong


def hours(told: Report, programs: Programs) -> None:
    """Each row of tools/hours/spans.txt has a start, a zone, an interval and the spans of time in which it holds. The rows of a
    start make one rehearsal: each has two routes, one that the interval mutes and one that is active in it alone. Both are
    flushed every few hours. At each flush that comes while a route is muted, the program has to say so, with the time at
    which that ends: of the first route the end of the span, of the second the begin of the next span. At each other flush
    it must not. Each text of tools/hours/texts.txt is read or refused as Alertmanager does."""
    program, compared = programs["am_rehearse"], 0
    spans = [row for _, row in Rows(HOURS / "spans.txt").tabbed()]
    for (start, until), few in itertools.groupby(spans, key=lambda row: (row[0], row[1])):
        rows = []
        for _, _, rule, interval, text in few:
            pairs = [it.split("-") for it in text.split()]
            rows.append((rule, json.loads(interval), [(int(one), int(other)) for one, other in pairs]))
        wrong, flushes = check_start(program, start, until, rows)
        compared += flushes
        told.same(f"{start}, {until}: {len(rows)} intervals of {path_of(HOURS / 'spans.txt')}", [], wrong)
    told.at_least(50_000, compared, "flushes of muted routes")
    texts = [row for _, row in Rows(HOURS / "texts.txt").tabbed()]
    told.same(f"{len(texts)} texts of {path_of(HOURS / 'texts.txt')}", [], check_texts(program, texts))


PARTS = {"yaml": yaml, "routes": routes, "hours": hours}

if __name__ == "__main__":
    report.main(__file__, PARTS, ("am_rehearse",), __doc__)
