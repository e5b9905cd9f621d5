#!/usr/bin/env python3
"""A rehearsal sends what the real Alertmanager sent.

- `rehearsals`: each story of .ci/data/live/stories that a rehearsal can have runs as one, and is compared with what Alertmanager 0.25
  did (.ci/data/live/timelines, from tools/live-compare --store), to the half second. A known difference has to occur.
"""
import collections
import json
import re
import sys
from collections.abc import Iterator
from concurrent.futures import ThreadPoolExecutor
from pathlib import Path
from typing import Any

sys.path.insert(0, str(Path(__file__).resolve().parent.parent))
from lib import live_stories, report
from lib.live_stories import STORIES, TIMELINES, Sent, Step
from lib.program import Program
from lib.report import Programs, Report
from lib.rows import Json

# An attempt of a rehearsal: when, the webhook, the group with what it was sent, and the alerts.
Attempt = tuple[float, str, str, list[str]]

BACK = "what one reload loses of the log, no later one finds"
AGAIN = "after a restart the alerts come again at once"
TIMEOUT = "alerts end when the story says"
DIFFERS = {
    "at most two alerts": "max_alerts is ignored",
    "a reload renames a receiver and the next names it back": BACK,
    "a new alert after a restart": AGAIN,
    "a silence that is deleted after a restart": AGAIN,
    "a restart that keeps nothing": AGAIN,
    "a silence and a restart that keeps nothing": AGAIN,
    "a restart during a notification": AGAIN,
    "no answer until the deadline": "an attempt that lasts longer than the flush isn't cut off",
    "without an end an alert ends by the timeout": TIMEOUT,
    "the timeout begins anew": TIMEOUT,
    "a reload changes the timeout": TIMEOUT,
}


class Unfit(Exception):
    """Why a rehearsal can't have a story."""


def duration(seconds: float) -> str:
    """Seconds as a duration of a story."""
    return f"{round(1000 * float(seconds))}ms"


class Rehearsal:
    """The rehearsal of a story, in which Alertmanager did this."""

    def __init__(self, story: Any, statuses: list[str], lines: list[Sent]) -> None:
        self.story = story
        self.spans: dict[str, list[dict[str, str]]] = {}
        self.silences: dict[str, Json] = {}
        self.changes: dict[str, list[Json]] = {"reload": [], "restart": []}
        if any(not it.startswith("200") for it in statuses):
            raise Unfit("requests that are refused")
        for step in story.steps:
            self.step(step, re.findall(r'(?:[^\s"]|"[^"]*")+', step[2]))
        self.outages = [self.outage(*it) for hook in {line.split()[0] for _, line in lines} for it in self.attempts(hook, lines)]

    def step(self, step: Step, words: list[str]) -> None:
        """Takes over a step of the story."""
        second, verb, asked = step
        if verb in ("fire", "resolve"):
            self.alert(second, verb, words)
        elif verb == "silence":
            self.silence(step, words)
        elif verb == "expire":
            self.expire(words[0], second)
        elif verb in ("reload", "hangup"):
            self.changes["reload"].append({"at": duration(second), "alertmanager": self.story.config("http://receivers", step)})
        elif verb == "restart" and not self.story.changes_of(step):
            self.changes["restart"].append({"at": duration(second), "keeps": "nothing" if asked else "log"})
        elif verb != "end":
            why = {"change": "silences that change", "restart": "restarts with another configuration"}
            raise Unfit(why.get(verb, "times at which it is down"))

    def silence(self, step: Step, words: list[str]) -> None:
        """Sets a silence."""
        second = step[0]
        body = live_stories.request_of(step, 0, {})[2]
        times = {words[i]: float(words[i + 1]) for i in (1, 3) if words[i] in ("from", "for")}
        begins = times.get("from", second)
        names = {(False, True): "=", (False, False): "!=", (True, True): "=~", (True, False): "!~"}
        matchers = [[it["name"], names[it["isRegex"], it["isEqual"]], it["value"]] for it in body["matchers"]]
        self.silences[words[0]] = {"from": duration(begins), "to": duration(begins + times["for"]), "set": duration(second),
                                   "matchers": matchers}

    def expire(self, name: str, second: float) -> None:
        """Deletes a silence."""
        if int(self.silences[name]["from"][:-2]) >= 1000 * second:
            del self.silences[name]
        else:
            self.silences[name]["to"] = min(self.silences[name]["to"], duration(second), key=lambda it: int(it[:-2]))

    def alert(self, second: float, verb: str, words: list[str]) -> None:
        """Begins or ends a span of an alert. A post of an alert that fires already changes nothing."""
        times = {name: float(value) for name, _, value in (it.partition("=") for it in words) if name in ("@starts", "@ends")}
        written = live_stories.alert_of([it for it in words if it[0] != "@"], None, 0)["labels"]
        labels = {name: value for name, value in written.items() if value}
        spans = self.spans.setdefault(json.dumps(labels, sort_keys=True), [])
        if times.get("@starts", 0) < 0:
            raise Unfit("alerts from before the story")
        if verb == "resolve" and spans:
            spans[-1].setdefault("to", duration(second))
        elif "@ends" in times and (spans or "@starts" not in times):
            raise Unfit("ends that change")
        elif not spans or "to" in spans[-1]:
            end = {"to": duration(times["@ends"])} if "@ends" in times else {}
            spans.append({"from": duration(times.get("@starts", second)), **end})

    def attempts(self, hook: str, lines: list[Sent]) -> Iterator[tuple[str, float, int, float]]:
        """How a webhook answered each of its attempts that differs from an answer at once."""
        for attempt, (second, _) in enumerate(sorted(it for it in lines if it[1].split()[0] == hook)):
            how = self.story.answer(hook, attempt)
            if how != (200, 0):
                yield hook, second, how[0], how[1]

    @staticmethod
    def outage(hook: str, second: float, status: int, takes: float) -> Json:
        """The outage in which a webhook answers an attempt so."""
        name, _, place = hook.rpartition("/")
        answer = "done" if status == 200 else "again" if status >= 500 else "never"
        return {"receiver": name, "integration": int(place), "from": duration(max(0, second - 0.25)), "to": duration(second + 0.1),
                "answer": answer, "takes": duration(takes)}

    def text(self) -> str:
        """The story of the rehearsal."""
        alerts = [{"labels": json.loads(labels), "spans": spans} for labels, spans in self.spans.items()]
        changes = {name: items for name, items in self.changes.items() if items}
        return json.dumps({"alertmanager": self.story.config("http://receivers"), "until": duration(self.story.steps[-1][0]),
                           "alerts": alerts, "silences": [*self.silences.values()], "outages": self.outages, **changes})


def attempts_of(program: Program, text: str) -> Iterator[Attempt]:
    """Each attempt of a rehearsal, its alerts in any order."""
    ran = program.run("play", "-", "--output", "json", stdin=text)
    if ran.status:
        raise RuntimeError(ran.err.strip())
    for event in map(json.loads, ran.out.splitlines()):
        if event["event"] in ("notice", "failed"):
            group = ", ".join(f"{name}={json.dumps(value, ensure_ascii=False)}" for name, value in sorted(event["group"].items()))
            alerts = [sign + ",".join(f"{name}={value}" for name, value in sorted(it.items()))
                      for sign, sets in (("+", event["firing"]), ("-", event["resolved"])) for it in sets]
            hook = f"{event['receiver']}/{event['integration'].rpartition('/')[2]} "
            for at in [event["since"], event["at"]][: event["attempts"]]:
                yield at / 1000, hook, f":{{{group}}} {'firing' if event['firing'] else 'resolved'} ", sorted(" ".join(alerts).split())


def is_near(line: Sent, attempt: Attempt) -> bool:
    """Whether a line of a timeline is this attempt."""
    head, found, tail = line[1].partition(attempt[2])
    alerts = sorted(re.sub(r"\([^)]*\)", "", tail).split())
    return bool(found) and head.startswith(attempt[1]) and alerts == attempt[3] and abs(line[0] - attempt[0]) <= live_stories.NEAR + 0.05


def differences(story: Any, program: Program, stored: Json) -> list[str]:
    """What differs in the rehearsal of a story."""
    left, found = [*attempts_of(program, Rehearsal(story, *stored).text())], []
    for line in stored[1]:
        near = [it for it in left if is_near(line, it)]
        if near:
            left.remove(min(near, key=lambda it: float(abs(line[0] - it[0]))))
        else:
            found.append(f"only Alertmanager: {line[0]:g} {line[1]}")
    return found + [f"only the rehearsal: {at:g} {hook}{group}{' '.join(alerts)}" for at, hook, group, alerts in left]


def rehearsals(told: Report, programs: Programs) -> None:
    """Each story that a rehearsal can have."""
    program, unfit, count = programs["am_rehearse"], collections.Counter[str](), 0
    stories, stored = live_stories.read_stories(STORIES), live_stories.read_timelines(TIMELINES)
    with ThreadPoolExecutor(3) as pool:
        tries = {name: pool.submit(differences, it, program, stored[name]) for name, it in stories.items() if told.concerns(name)}
    for name, tried in tries.items():
        try:
            found = tried.result()
        except Unfit as why:
            unfit[str(why)] += 1
            continue
        except (RuntimeError, OSError, ValueError, KeyError) as error:
            found = [f"{type(error).__name__}: {error}"]
        count += 1
        lines = live_stories.as_diff(found, name, "am-rehearse") or [f"no longer differs: {DIFFERS.get(name)}"]
        told.holds(name, bool(found) == (name in DIFFERS), *lines)
    print(f"{count} rehearsals, {len(DIFFERS)} with a known difference. Of the stories {unfit.total()} can't be one: "
          + ", ".join(f"{why} ({number})" for why, number in sorted(unfit.items())))
    told.same("each known difference has its story", [], sorted(DIFFERS.keys() - stories.keys()))
    told.at_least(80, count, "rehearsals")


PARTS = {"rehearsals": rehearsals}

if __name__ == "__main__":
    report.main(__file__, PARTS, ("am_rehearse",), __doc__)
