#!/usr/bin/env python3
"""Hostile inputs end within bounds of time and memory.

- `patterns`: hostile patterns, each as the matcher of a child route and of a silence, against an alert whose label has 1,024 times
  `a`: the pattern is rejected at its place, or the report says whether it matched, within ten seconds of a processor and 128 MiB.
- `lists`: lists that are longer than any limit are rejected within ten seconds, and lists of matchers unread: patterns that want
  much memory cost no more than texts.
- `growth`: inputs that would make a flush, a preview or a judgement grow with the square of their size: one of twice the size takes
  at most three times the time and the memory. So do calls while many flushes are open. So do inputs whose labels would collide if
  hashes started from a seed that everybody knows (lib/collisions.py).
- `open`: `begin`, `next_due`, `note` and `finish` take at most twice as long while 20,000 flushes are open as they take with one.
"""
import json
import re
import subprocess
import sys
import tempfile
import time
from collections.abc import Callable
from pathlib import Path
from typing import NamedTuple

sys.path.insert(0, str(Path(__file__).resolve().parent.parent))
from lib import collisions, report
from lib.program import Cost, Limits, Program
from lib.report import Programs, Report
from lib.rows import Json
from lib.stories import HOOK, config

# What takes less time than this counts as this: seconds of a processor.
SHORT = 0.5
# How much more twice the input may take.
MOST = 3
# How much more calls may take while many flushes are open.
EVEN = 2
# How often an input that takes too much is tried: what else the machine does adds time, and takes none away. Two inputs that are
# compared have more tries, with seconds between them: others on the machine seldom slow one of them down in each.
TRIES, PAIRS, PAUSE = 3, 10, 2


# Patterns.

# A name, what becomes of the pattern, and the pattern.
PATTERNS = [
    ("groups that nobody closes", "rejected", "(" * 1024),
    ("classes that nobody closes", "rejected", "[" * 1024),
    ("ten thousand alternatives", "rejected", "a|" * 9999 + "a"),
    ("repeats of repeats", "rejected", "((a{100}){100}){100}"),
    ("a count of four billion", "rejected", "a{4294967295}"),
    ("a thousand letters of Unicode", "rejected", r"\w{1000}"),
    ("groups too deep", "rejected", "(" * 249 + "a" + ")" * 249),
    ("groups as deep as may be", "fails", "(" * 248 + "a" + ")" * 248),
    ("as many alternatives as fit", "fails", "a|" * 511 + "a"),
    ("a star of a star", "fails", "(a*)*b"),
    ("stars of stars of stars", "matches", "(((a*)*)*)*"),
    ("a plus of a plus", "fails", "(a+)+b"),
    ("alternatives that overlap", "fails", "(a|aa|a*)+b"),
    ("perhaps, and then for sure", "matches", "(a?){1024}a{1024}"),
    ("a row of dots", "fails", ".*.*.*.*.*.*.*.*.*.*b"),
    ("ranges of counts", "matches", "[a-z]{1,500}[ab]{1,524}"),
    ("letters of Unicode, counted", "matches", r"\w{1,100}\w{100}.*"),
]


def with_pattern(pattern: str) -> Json:
    """The scenario with a pattern. The alert goes to the child if it matches; if it doesn't, it goes to the root and is silenced."""
    child = {"receiver": "team", "group_by": ["alertname"], "name": "odd", "matchers": [["text", "=~", pattern]]}
    silence = {"silence": {"id": 1, "matchers": [["text", "!~", pattern]], "start": 0, "end": 30001}}
    alert = {"insert": {"labels": [["alertname", "A"], ["text", "a" * 1024]], "starts": 0}}
    return {"config": config(children=[child]), "phases": [{"at": 0, "lanes": [[silence, alert]]}, {"at": 30000, "flush": True}]}


def patterns(told: Report, programs: Programs) -> None:
    """What becomes of each pattern."""
    for name, wanted, pattern in PATTERNS:
        for _ in range(TRIES):
            ran = programs["am_run"].run(stdin=json.dumps(with_pattern(pattern)), limits=Limits(10, 128 << 20))
            if ran.status >= 0:
                break
        got = str(ran)
        if (ran.status, ran.err) == (2, "am-run: scenario refused at /config/children/0/matchers/0: value\n"):
            got = "rejected"
        elif (ran.status, ran.err) == (0, ""):
            got = "matches" if re.search("^notice 1 odd:", ran.out, re.M) else got
            got = "fails" if re.search("^group root:.* flushed=yes", ran.out, re.M) else got
        told.same(name, wanted, got)


# Lists.

TEAM = {"receiver": "team", "group_by": []}
# A list of a scenario's configuration, how many items it gets, and each item.
LISTS: list[tuple[str, int, Json]] = [
    ("receivers", 300_000, {"name": "NAME", "integrations": []}),
    ("children", 150_000, {"name": "NAME", **TEAM, "matchers": [["a", "=", "b"]]}),
    ("inhibit", 150_000, {"source": [["NAME", "=", "b"]], "target": [["a", "=", "b"]], "equal": []}),
]
# The place of a list of matchers in a story, and of what.
MATCHERS = [
    ("patterns of a silence", "/silences/0/matchers"),
    ("patterns of an expectation", "/expect/0/has"),
    ("patterns of a route", "/config/children/0/matchers"),
    ("patterns of an inhibition rule", "/config/inhibit/0/source"),
]
PATTERN, TEXT = 'a=~"[a-z]{1,500}"', 'a="[a-z]{1,5000}"'


def lists(told: Report, programs: Programs) -> None:
    """A scenario with so many items in one list of its configuration is rejected. A story with 100,000 matchers in one list is
    rejected at its place; as patterns, each of which wants much memory, they may take twice what they take as texts."""
    for name, count, item in LISTS:
        items = [json.loads(json.dumps(item).replace("NAME", f"n{number}")) for number in range(count)]
        own = {"receivers": [{"name": "team", "integrations": []}], "route": TEAM, name: items}
        ran = programs["am_run"].run(stdin=json.dumps({"config": own, "phases": []}), limits=Limits(10))
        told.same(f"{count} of {name}", "= 2 am-run: scenario refused at /config: value", f"= {ran.status} {ran.err.strip()}")
    for name, place in MATCHERS:
        unread(told, programs["am_rehearse"], name, place)


def with_matchers(place: str, matcher: str, many: int) -> Json:
    """A story in which the list of matchers at the place has so many."""
    parts: Json = {
        "children": [{"name": "child", "receiver": "team", "matchers": ['a="b"']}],
        "inhibit": [{"source": ['a="b"'], "target": ['a="c"'], "equal": []}],
        "silences": [{"matchers": ['a="b"'], "to": "1m"}],
        "expect": [{"has": ['a="b"']}],
    }
    name, part, member = place.split("/")[-3:]
    parts[name][int(part)][member] = [matcher] * many
    own = {**HOOK, "route": {"receiver": "team"}, "children": parts["children"], "inhibit": parts["inhibit"]}
    return {"config": own, "until": "1m", "alerts": [{"labels": {"a": "b"}}], "silences": parts["silences"], "expect": parts["expect"]}


def unread(told: Report, program: Program, name: str, place: str) -> None:
    """A story with 100,000 matchers at this place is rejected before one is built."""
    for _ in range(TRIES):
        (pattern, said), (text, other) = (rejected(program, place, it) for it in (PATTERN, TEXT))
        is_small = pattern.seconds <= 2 * max(text.seconds, SHORT) and pattern.memory <= 2 * text.memory
        if is_small:
            break
    for how, cost, line in (("as patterns", pattern, said), ("as texts", text, other)):
        told.holds(f"{name}, {how}", cost.status == 2 and place in line, f"status {cost.status}: {line[-300:]}")
    told.holds(f"{name} cost no more than texts", is_small, f"{pattern}", f"{text}")


def rejected(program: Program, place: str, matcher: str) -> tuple[Cost, str]:
    """What a story with 100,000 such matchers at this place costs, and what is said of it."""
    with tempfile.NamedTemporaryFile("w", suffix=".json") as file, tempfile.TemporaryFile() as said:
        json.dump(with_matchers(place, matcher, 100_000), file)
        file.flush()
        cost = program.cost("play", file.name, stdin=Path("/dev/null"), stderr=said.fileno())
        said.seek(0)
        return cost, said.read().decode().strip()


# Growth.

def two_sided(count: int) -> Json:
    """Alerts of one group that both sides of a rule match, and that agree in `equal`."""
    rule = {"source": [["kind", "=", "node"]], "target": [["kind", "=", "node"]], "equal": ["cluster"]}
    labels = [[["cluster", "eu"], ["host", f"h{i}"], ["kind", "node"]] for i in range(count)]
    calls = [{"insert": {"labels": pairs, "starts": 0}} for pairs in labels]
    return {"config": config(["cluster"], inhibit=[rule]), "phases": [{"at": 0, "lanes": [calls]}, {"at": 30000, "flush": True}]}


def silenced(count: int) -> Json:
    """Alerts of one group, flushed eighteen times, and a silence for every sixteenth of them."""
    own = config(["cluster"])
    own["route"]["group_interval"] = "15s"
    alerts = [{"labels": {"cluster": "eu", "host": f"h{i}"}} for i in range(count)]
    silences = [{"matchers": [f'host="h{i * 16}"'], "to": "10m"} for i in range(count // 16)]
    return {"config": own, "until": "5m", "alerts": alerts, "silences": silences}


def expected(count: int) -> Json:
    """The greatest number of expectations, each of alerts by a matcher that none of these many has but the last one."""
    alerts = [{"labels": {"cluster": "eu", "host": f"h{i}"}} for i in range(count)]
    expectations = [{"has": [f'host="h{count - 1}"']} for _ in range(1024)]
    return {"config": config(["cluster"]), "until": "5m", "alerts": alerts, "expect": expectations}


def restarted(count: int) -> Json:
    """A story with 64 equal routes, and a restart that keeps the log: each row goes to the groups of all of them."""
    route = {"receiver": "team", "group_by": ["alertname"], "routes": [{"receiver": "team", "continue": True}] * 64}
    return {
        "alertmanager": {"route": route, "receivers": [{"name": "team", "webhook_configs": [{"url": "http://localhost/"}]}]},
        "until": "30m",
        "alerts": [{"labels": {"alertname": f"A{alert}"}} for alert in range(count)],
        "restart": {"at": "15m", "keeps": "log"},
    }


def opened(count: int) -> Json:
    """Lines: so many groups, whose flushes stay open until all are due again, and as many calls of each kind meanwhile. Every second
    notice succeeds, and is noted then. Later the flushes are finished, the newest first, and all groups are flushed once more."""
    late, numbers = {"now": 100_000_000}, range(1, count + 1)
    inserts = [{"insert": {"now": 0, "labels": {"alertname": f"A{number}"}}} for number in numbers]
    begins = [{"begin": {"now": 30_000}} for _ in numbers]
    outcomes = ["refused", "delivered"]
    reports = [{"report": {"ticket": number, "integration": 0, "outcome": outcomes[number % 2]}} for number in numbers]
    notes = [{"note": {"now": 30_000, "ticket": number, "integration": 0}} for number in numbers if number % 2]
    meanwhile = [call for _ in numbers for call in ({"next_due": {}}, {"begin": late}, {"outlook": late})]
    finishes = [call for number in reversed(numbers) for call in ({"finish": {**late, "ticket": number}}, {"next_due": {}})]
    again = [call for number in numbers for call in ({"begin": late}, {"finish": {**late, "ticket": count + number}})]
    return [{"config": config()}, *inserts, *begins, *reports, *notes, *meanwhile, *finishes, *again]


def loaded(count: int) -> Json:
    """Lines: so many routes, and a row for each that is loaded, the last one first."""
    hook = [{"url": "http://localhost/"}]
    routes = [{"receiver": "team", "matchers": [f'team="{route}"']} for route in range(count)]
    own = {"route": {"receiver": "team", "routes": routes}, "receivers": [{"name": "team", "webhook_configs": hook}]}
    row: Json = {"integration": 0, "kind": "webhook", "moment": 0, "expiry": 10**9, "firing": [{"alertname": "A"}], "resolved": []}
    groups = [{"route": f"team_at_{route}", "labels": {}} for route in reversed(range(count))]
    return [{"alertmanager": own}, *({"load": {"now": 0, "row": {**row, "group": group}}} for group in groups)]


def hung(count: int) -> Json:
    """A story with so many groups whose receiver is down for an hour: each of their flushes is tried up to its deadline."""
    return {
        "alertmanager": {
            "route": {"receiver": "pager", "group_by": ["alertname"]},
            "receivers": [{"name": "pager", "webhook_configs": [{"url": "http://localhost/"}]}],
        },
        "until": "1h",
        "alerts": [{"labels": {"alertname": f"A{alert}"}} for alert in range(count)],
        "outages": [{"receiver": "pager"}],
    }


def flapping(count: int) -> Json:
    """A story in which one alert fires so often, each time for half a minute, next to sixteen that stay."""
    own, spans = config(["cluster"]), [{"from": f"{minute}m", "to": f"{minute}m30s"} for minute in range(count)]
    stay = [{"labels": {"cluster": "eu", "host": f"h{i}"}} for i in range(16)]
    return {"config": own, "until": f"{count}m", "alerts": [{"labels": {"cluster": "eu", "host": "flaps"}, "spans": spans}, *stay]}


def set_again(count: int) -> Json:
    """Lines: so many silences that begin with one matcher. Then each is set again with one of its own, the last one first, and the
    group is flushed after each."""
    numbers = range(1, count + 1)
    alike = [{"silence": {"now": 0, "id": number, "matchers": ['cluster="eu"', f'host="h{number}"'], "ends": 1}} for number in numbers]
    calls: list[Json] = [{"config": config()}, {"insert": {"now": 0, "labels": {"alertname": "A"}}}, *alike]
    for ticket, number in enumerate(reversed(numbers), 1):
        now = {"now": 300_000 * ticket}
        silence = {"id": number, "matchers": [f'host="h{number}"'], "ends": 10**12 + number}
        calls += [{"silence": {**now, **silence}}, {"begin": now}, {"finish": {**now, "ticket": ticket}}]
    return calls


def teams(count: int) -> Json:
    """A story with so many receivers, of which every fifth has a route and an alert."""
    hook = [{"url": "http://localhost/"}]
    routes = [{"receiver": f"team{5 * team}", "matchers": [f'team="{team}"']} for team in range(count // 5)]
    return {
        "alertmanager": {
            "route": {"receiver": "team0", "group_by": ["alertname"], "routes": routes},
            "receivers": [{"name": f"team{team}", "webhook_configs": hook} for team in range(count)],
        },
        "until": "1h",
        "alerts": [{"labels": {"alertname": "A", "team": f"{team}"}} for team in range(count // 5)],
    }


def last_named(count: int) -> Json:
    """A story with so many receivers whose names have one length, and the greatest number of expectations, each of the last one."""
    last = f"team{count - 1:06}"
    return {
        "alertmanager": {
            "route": {"receiver": last, "group_by": ["alertname"]},
            "receivers": [{"name": f"team{team:06}", "webhook_configs": [{"url": "http://localhost/"}]} for team in range(count)],
        },
        "until": "1h",
        "alerts": [{"labels": {"alertname": "A"}}],
        "expect": [{"receiver": last}] * 1024,
    }


def ruled(count: int) -> Json:
    """A story with so many inhibition rules, and 64 alerts, each of which a rule of its own mutes."""
    rules = [{"source_matchers": ['kind="node"'], "target_matchers": [f'host="h{rule}"'], "equal": ["cluster"]} for rule in range(count)]
    return {
        "alertmanager": {
            "route": {"receiver": "team", "group_by": ["cluster"]},
            "receivers": [{"name": "team", "webhook_configs": [{"url": "http://localhost/"}]}],
            "inhibit_rules": rules,
        },
        "until": "1h",
        "alerts": [{"labels": {"cluster": "eu", "kind": "node"}},
                   *({"labels": {"cluster": "eu", "host": f"h{host}"}} for host in range(64))],
    }


MADE = {
    "two-sided": two_sided, "silenced": silenced, "expected": expected, "restarted": restarted, "hung": hung,
    "flapping": flapping, "teams": teams, "last named": last_named, "ruled": ruled,
}
# What makes the lines of an input.
LINES = {"opened": opened, "set again": set_again, "loaded": loaded}
# A name, what makes the input, its size, and the program.
GROWTH = [
    ("sources that both sides of a rule match", "two-sided", 8000, "am_run"),
    ("silences of many alerts", "silenced", 8000, "am_rehearse"),
    ("silences that are set one by one, and again", "set again", 32000, "am_dispatch"),
    ("as many expectations as may be, of many alerts", "expected", 8000, "am_rehearse"),
    ("a restart after which each log row goes to 64 equal routes", "restarted", 32, "am_rehearse"),
    ("an alert that fires again and again", "flapping", 1000, "am_rehearse"),
    ("groups whose flushes stay open", "opened", 8000, "am_dispatch"),
    ("rows of the log, each under a route of its own", "loaded", 8000, "am_dispatch"),
    ("groups whose receiver hangs for an hour", "hung", 2000, "am_rehearse"),
    ("receivers, of which every fifth has a route", "teams", 512, "am_rehearse"),
    ("as many expectations as may be, of the last receiver", "last named", 1024, "am_rehearse"),
    ("inhibition rules, and alerts that they mute", "ruled", 2048, "am_rehearse"),
    ("label sets that would collide", "label sets", 16000, "am_dispatch"),
    ("values of sources that would collide", "sources", 8000, "am_dispatch"),
    ("label sets that would collide for the fixed seed", "label sets, fixed", 16000, "am_dispatch"),
    ("values of sources that would collide for the fixed seed", "sources, fixed", 8000, "am_dispatch"),
    ("a scenario whose label sets would collide", "scenario", 16000, "am_run"),
    ("a scenario whose label sets would collide for the fixed seed", "scenario, fixed", 16000, "am_run"),
    ("a story whose label sets would collide", "story", 16000, "am_rehearse"),
    ("a story whose label sets would collide for the fixed seed", "story, fixed", 16000, "am_rehearse"),
    ("a story whose groups would collide", "story of groups", 2000, "am_rehearse"),
    ("a story whose groups would collide for the fixed seed", "story of groups, fixed", 2000, "am_rehearse"),
]


def lines_of(calls: list[Json]) -> str:
    """The text of lines."""
    return "".join(json.dumps(it) + "\n" for it in calls)


def text_of(made: str, count: int) -> str:
    """The input of a size."""
    if made in LINES:
        return lines_of(LINES[made](count))
    return json.dumps(MADE[made](count)) if made in MADE else collisions.text(made, count)


# How many flushes are open, and how often another group is flushed meanwhile.
OPEN, CYCLES = 20_000, 50_000


def cycles(is_open: bool) -> Json:
    """Lines: so many groups are flushed, and one group again and again, with a notice that succeeds each time. The flushes of the others
    stay open meanwhile, until long after they are due again, or are finished before, and aren't due again. The calls are the same."""
    hook = [{"url": "http://localhost/"}]
    often = {"receiver": "team", "matchers": ['alertname="often"'], "group_interval": "1ms", "repeat_interval": "1ms"}
    times = {"group_wait": "0s", "group_interval": "5m" if is_open else "10000h"}
    root = {"receiver": "team", "group_by": ["alertname"], **times, "routes": [often]}
    own = {"route": root, "receivers": [{"name": "team", "webhook_configs": hook}]}
    names = [f"A{number}" for number in range(OPEN)]
    begins: list[Json] = [{"begin": {"now": 0}} for _ in names]
    finishes: list[Json] = [{"finish": {"now": 0, "ticket": number}} for number in range(1, OPEN + 1)]
    flushes = begins if is_open else [call for pair in zip(begins, finishes) for call in pair]
    lines: list[Json] = [{"alertmanager": own}, *({"insert": {"now": 0, "labels": {"alertname": it}}} for it in names), *flushes]
    lines += [{"insert": {"now": 0, "labels": {"alertname": "often"}}}]
    for number in range(CYCLES):
        now, ticket = {"now": 10**9 + 2 * number}, {"ticket": OPEN + 1 + number}
        report = {"report": {**ticket, "integration": 0, "outcome": "delivered"}}
        lines += [{"begin": now}, {"next_due": {}}, report, {"note": {**now, **ticket, "integration": 0}}, {"finish": {**now, **ticket}}]
    later = [{"finish": {"now": 2 * 10**9, "ticket": number}} for number in range(1, OPEN + 1)]
    return [*lines, *(later if is_open else [])]


class Growth(NamedTuple):
    """How a program ends with an input, seconds of a processor, and KiB."""

    end: str
    seconds: float
    memory: int

    def __str__(self) -> str:
        return f"{self.end}, {self.seconds:.2f} s, {self.memory} KiB"

    def least(self, other: "Growth") -> "Growth":
        """The less of each of two runs that end alike."""
        return Growth(self.end, min(self.seconds, other.seconds), min(self.memory, other.memory)) if self.end == other.end else other


def cost_of(program: Program, text: str) -> Growth:
    """What a program makes of an input."""
    with tempfile.NamedTemporaryFile("w", suffix=".json") as file, tempfile.TemporaryFile() as answers:
        file.write(text)
        file.flush()
        words = ["play", file.name] if program.crate == "am_rehearse" else []
        found = program.cost(*words, stdin=Path(file.name), stdout=answers.fileno(), stderr=subprocess.DEVNULL)
        answers.seek(0)
        has_error = program.crate == "am_dispatch" and any(line.startswith(b'{"error"') for line in answers)
    return Growth("an error" if has_error else f"status {found.status}", found.seconds, found.memory)


def is_linear(once: Growth, twice: Growth) -> bool:
    """Whether a program reads both inputs to their end, and twice the input takes at most so many times as much."""
    ends = once.end == twice.end == "status 0"
    return ends and twice.seconds <= MOST * max(once.seconds, SHORT) and twice.memory <= MOST * once.memory


def growth(told: Report, programs: Programs) -> None:
    """Runs programs on an input of a size and of twice the size."""
    for name, made, size, crate in filter(lambda it: told.concerns(it[0]), GROWTH):
        once, twice = costs_of(programs[crate], (text_of(made, size), text_of(made, 2 * size)), is_linear)
        told.holds(name, is_linear(once, twice), f"{size}: {once}", f"{2 * size}: {twice}")


def costs_of(program: Program, texts: tuple[str, str], is_good: Callable[[Growth, Growth], bool]) -> tuple[Growth, Growth]:
    """What a program makes of two inputs: the least of some runs, as many as it takes until they are good."""
    one, other = (cost_of(program, it) for it in texts)
    for _ in range(PAIRS - 1):
        if is_good(one, other):
            break
        time.sleep(PAUSE)
        one, other = one.least(cost_of(program, texts[0])), other.least(cost_of(program, texts[1]))
    return one, other


def is_even(closed: Growth, opened: Growth) -> bool:
    """Whether a program reads both inputs to their end, and takes about as long for the other."""
    return closed.end == opened.end == "status 0" and opened.seconds <= EVEN * max(closed.seconds, SHORT)


def open_flushes(told: Report, programs: Programs) -> None:
    """Makes the same calls with one open flush and with many."""
    closed, opened = costs_of(programs["am_dispatch"], (lines_of(cycles(False)), lines_of(cycles(True))), is_even)
    told.holds(f"calls while {OPEN} flushes are open", is_even(closed, opened), f"with one: {closed}", f"with {OPEN}: {opened}")


PARTS = {"patterns": patterns, "lists": lists, "growth": growth, "open": open_flushes}

if __name__ == "__main__":
    report.main(__file__, PARTS, ("am_run", "am_rehearse", "am_dispatch"), __doc__)
