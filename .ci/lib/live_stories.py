"""Stories: how they are read, played by a clock that doesn't wait, and compared.

`tools/live-compare` plays them against the real Alertmanager too, `.ci/checks/live.py` against what that did. The head of
`.ci/data/live/stories` has their form.
"""
import heapq
import itertools
import json
import re
import sys
import tempfile
from collections.abc import Callable
from datetime import timedelta
from functools import partial
from pathlib import Path
from typing import Any

from .program import ROOT
from .rows import Json

sys.path.insert(0, str(ROOT / "examples/live"))
import live
from live_format import EPOCH, Config, Refused

STORIES, TIMELINES = ROOT / ".ci/data/live/stories", ROOT / ".ci/data/live/timelines"
# A step of a story: its second, its verb, and what it asks for. What a webhook was sent: when, and a line on it. A request: method, path
# and body. What happened in a story: the answers to its requests, and what webhooks were sent.
Step = tuple[float, str, str]
Sent = tuple[float, str]
Request = tuple[str, str, Json]
Timeline = tuple[list[str], list[Sent]]

ROUTE = {"receiver": "team", "group_by": ["alertname"], "group_wait": "1s", "group_interval": "2s", "repeat_interval": "1h"}
# A post and its answer on this machine, in milliseconds; the time at which a played story begins; how far times may differ.
LATENCY, START, NEAR = 2, 1_800_000_000_000, 0.5


class Story:
    """A story: its configuration, how its receivers answer, and its steps, each at its second."""

    def __init__(self, name: str) -> None:
        self.name, self.differs, self.sometimes = name, "", ""
        self.steps: list[Step] = []
        self.settings: dict[str, Json] = {"route": {}, "receivers": {"team": [{}]}, "inhibit": [], "timeout": "5m"}

    def read(self, line: str) -> None:
        """Takes over what a line says."""
        word, _, rest = line.partition(" ")
        if word in ("route", "receivers", "inhibit"):
            self.settings[word] = json.loads(rest)
        elif word == "timeout":
            self.settings[word] = rest
        elif word in ("differs", "sometimes"):
            setattr(self, word, rest)
        else:
            verb, _, asked = rest.strip().partition(" ")
            self.steps.append((float(word), verb, asked))
            self.changes_of(self.steps[-1])

    @staticmethod
    def changes_of(step: Step) -> dict[str, Json]:
        """What a reload or a restart changes of the configuration."""
        _, verb, asked = step
        changes: dict[str, Json] = {}
        if verb in ("reload", "hangup", "restart", "start"):
            changes = json.loads(asked.removeprefix("nothing") or "{}")
        if unknown := {*changes} - {"route", "receivers", "inhibit", "timeout"}:
            raise ValueError(f"a configuration has no {min(unknown)}")
        return changes

    def config(self, url: str, step: Step | None = None) -> dict[str, Json]:
        """The configuration after this step, at first that of the story. Its webhooks are below this URL."""
        settings = dict(self.settings)
        for it in self.steps[:self.steps.index(step) + 1] if step else []:
            settings |= self.changes_of(it)
        hooks = {name: [{"url": f"{url}/{name}/{i}"} | {k: it[k] for k in ("send_resolved", "max_alerts") if k in it}
                        for i, it in enumerate(all)] for name, all in settings["receivers"].items()}
        return {"global": {"resolve_timeout": settings["timeout"]},
                "route": ROUTE | settings["route"], "inhibit_rules": settings["inhibit"],
                "receivers": [{"name": name, "webhook_configs": all} for name, all in hooks.items()]}

    def answer(self, hook: str, attempt: int) -> tuple[int, float]:
        """The status of the answer to an attempt (from 0) at a webhook, and the seconds that it takes."""
        name, _, place = hook.rpartition("/")
        known = [self.settings, *map(self.changes_of, self.steps)]
        how = next(it["receivers"][name][int(place)] for it in known if len(it.get("receivers", {}).get(name, [])) > int(place))
        answers, takes = how.get("answers", [200]), how.get("takes", [0])
        return answers[min(attempt, len(answers) - 1)], takes[min(attempt, len(takes) - 1)]


def read_stories(path: Path) -> dict[str, Story]:
    """The stories of a file, by name. They are separated by empty lines, and begin with `story NAME`."""
    stories: dict[str, Story] = {}
    for number, line in enumerate(Path(path).read_text(encoding="utf-8").splitlines(), 1):
        if not line.strip() or line.startswith("#"):
            continue
        try:
            if line.startswith("story "):
                story = stories.setdefault(line[6:], Story(line[6:]))
            else:
                story.read(line)
        except (ValueError, UnboundLocalError) as error:
            raise SystemExit(f"{path}:{number}: {error}: {line}") from None
    return stories


def time_at(start: int, seconds: float | str) -> str:
    """The time so many seconds after the start."""
    return str((EPOCH + timedelta(milliseconds=start + 1000 * float(seconds))).isoformat(timespec="milliseconds").replace("+00:00", "Z"))


def request_of(step: Step, start: int, names: dict[str, str]) -> Request:
    """The request of a step: method, path and body. `names` has the ids of silences."""
    second, verb, asked = step
    words = re.findall(r'(?:[^\s"]|"[^"]*")+', asked)
    if verb in ("fire", "resolve"):
        return "POST", "/api/v2/alerts", [alert_of(words, second if verb == "resolve" else None, start)]
    if verb == "expire":
        return "DELETE", f"/api/v2/silence/{names.get(words[0], words[0])}", None
    if verb not in ("silence", "change"):
        raise SystemExit(f"no step is named {verb}")
    at = {words[i]: float(words[i + 1]) for i in (1, 3) if words[i] in ("from", "for")}
    matchers = [it.groups() for it in (re.match(r'(\w+)(=~|!=|!~|=)"?(.*?)"?$', word) for word in words[1 + 2 * len(at):]) if it]
    starts = at.get("from", second)
    body = {"startsAt": time_at(start, starts), "endsAt": time_at(start, starts + at["for"]), "createdBy": "live-compare",
            "comment": words[0],
            "matchers": [{"name": name, "value": value, "isRegex": "~" in how, "isEqual": "!" not in how} for name, how, value in matchers]}
    return "POST", "/api/v2/silences", body | ({"id": names.get(words[0], words[0])} if verb == "change" else {})


def alert_of(words: list[str], ends: float | None, start: int) -> dict[str, Json]:
    """An alert: its name, labels, and @starts, @ends (seconds) and @note (its annotation)."""
    alert: dict[str, Json] = {"labels": {"alertname": words[0]} if words else {}, "annotations": {}}
    if ends is not None:
        alert["endsAt"] = time_at(start, ends)
    for name, _, value in (it.partition("=") for it in words[1:]):
        if name in ("@starts", "@ends"):
            alert[f"{name[1:]}At"] = time_at(start, value)
        elif name == "@note":
            alert["annotations"]["summary"] = value
        else:
            alert["labels"][name] = value.strip('"')
    return alert


def line_of(second: float, hook: str, body: Json) -> Sent:
    """What a webhook was sent: when, its group, and its alerts in order, + for firing and - for resolved ones."""
    alerts = [("+" if it["status"] == "firing" else "-") + ",".join(f"{k}={v}" for k, v in sorted(it["labels"].items()))
              + "".join(f"({it})" for it in it["annotations"].values()) for it in body["alerts"]]
    more = f" and {body['truncatedAlerts']} more" if body["truncatedAlerts"] else ""
    return second, f"{hook} {body['groupKey']} {body['status']} {' '.join(alerts)}{more}"


def rounded(line: Sent) -> str:
    """A line to the half second, as it is stored."""
    return f"{round(2 * line[0]) / 2:g} {line[1]}"


def unrounded(text: str) -> Sent:
    """A line as it was stored."""
    second, _, line = text.partition(" ")
    return float(second), line


def differences(real: list[Sent], ours: list[Sent]) -> list[str]:
    """The lines that one side alone has, or at another time. Each webhook's lines are compared in their order."""
    found: list[str] = []
    hooks = sorted({line.split()[0] for _, line in real + ours})
    for hook in hooks:
        one, other = [sorted(it for it in side if it[1].split()[0] == hook) for side in (real, ours)]
        for line in list(one):
            near = [it for it in other if it[1] == line[1] and abs(it[0] - line[0]) <= NEAR + 0.05]
            if near:
                other.remove(min(near, key=lambda it: abs(it[0] - line[0])))
                one.remove(line)
        found += [f"only Alertmanager: {it[0]:.2f} {it[1]}" for it in one] + [f"only ours: {it[0]:.2f} {it[1]}" for it in other]
    return found


def as_diff(found: list[str], name: str, program: str) -> list[str]:
    """Differences of a story as the lines of a diff: `-` is what the real one alone did, `+` what this program alone did."""
    signs = {"only Alertmanager: ": "-", "only ours: ": "+", "only the rehearsal: ": "+"}
    lines = [next((sign + it.removeprefix(head) for head, sign in signs.items() if it.startswith(head)), it) for it in found]
    return [f"--- .ci/data/live/timelines: {name}", f"+++ {program}", *lines] if found else []


class PlayedClock:
    """A clock that goes to the next event at once, and receivers that answer as a story says."""

    def __init__(self, story: Story) -> None:
        self.story, self.time, self.order = story, START, itertools.count()
        self.events: list[tuple[int, int, Callable[[], object]]] = []
        self.lines: list[Sent] = []
        self.attempts: dict[str, int] = {}

    def now(self) -> int:
        """The time in milliseconds since 1970."""
        return self.time

    def at(self, moment: int, action: Callable[[], object]) -> None:
        """Has the action called at this time."""
        heapq.heappush(self.events, (max(moment, self.time), next(self.order), action))

    def post(self, url: str, body: bytes, seconds: float, done: Callable[[int | None], object]) -> Callable[[], None]:
        """Posts, and has `done` called with the status as the story says."""
        hook = "/".join(url.rsplit("/", 2)[1:])
        status, takes = self.story.answer(hook, self.attempts.setdefault(hook, 0))
        self.attempts[hook] += 1
        self.lines.append(line_of((self.time + LATENCY - START) / 1000, hook, json.loads(body)))
        if takes < seconds:
            self.at(self.time + LATENCY + int(1000 * takes), lambda: done(status))
        else:
            self.at(self.time + int(1000 * seconds), lambda: done(None))
        # (an answer to what was cut off is of no use to anybody)
        return lambda: None

    def go(self, moment: int) -> None:
        """Calls what is due until then."""
        while self.events and self.events[0][0] <= moment:
            self.time, _, action = heapq.heappop(self.events)
            action()
        self.time = moment


def play(story: Story, program: str, folder: str | None = None) -> tuple[list[Sent], list[str]]:
    """Plays a story, and returns its lines and the answers to its requests. A folder keeps the history."""
    clock = PlayedClock(story)
    names: dict[str, str] = {}
    statuses: list[str] = []

    def config(step: Step | None = None) -> Any:
        return Config(story.config("http://receivers", step))

    with tempfile.TemporaryDirectory(prefix="live-") as temporary:
        data = Path(folder or temporary)
        core = live.Live(config(), program, clock, data, say=lambda _: None)
        for step in story.steps:
            clock.go(START + int(1000 * step[0]))
            if step[1] in ("restart", "stop"):
                core.close()
                clock.events.clear()
            if step[1] in ("restart", "start"):
                if step[2].startswith("nothing"):
                    (data / "saved.json").unlink()
                core = live.Live(config(step), program, clock, data, say=lambda _: None)
            elif step[1] not in ("end", "stop"):
                answer = ask(core, step, names, partial(config, step))
                # (nothing answers a signal)
                statuses += [answer] if step[1] != "hangup" else []
        core.close()
    return clock.lines, statuses


def ask(core: Any, step: Step, names: dict[str, str], config: Callable[[], Any]) -> str:
    """Makes the request of a step without HTTP, and returns its answer: the status, and whether a changed silence kept its id."""
    try:
        if step[1] in ("reload", "hangup"):
            core.reload(config)
            return "200"
        method, path, body = request_of(step, START, names)
        if path == "/api/v2/alerts":
            core.post_alerts(body)
        elif method == "POST":
            return answer_of(200, core.set_silence(body), names, step)
        else:
            core.expire(path.rpartition("/")[2])
    except Refused as error:
        return str(error.status)
    return "200"


def answer_of(status: int, name: str, names: dict[str, str], step: Step) -> str:
    """The answer to a silence, whose id is kept by its name in the story."""
    known = step[2].split()[0]
    is_same, names[known] = names.get(known) == name, name
    return f"{status}, same id" if is_same else str(status)


def read_timelines(path: Path) -> dict[str, Timeline]:
    """What the real one did, by story: its answers, and its lines."""
    found: dict[str, Timeline] = {}
    for line in Path(path).read_text(encoding="utf-8").splitlines():
        word, _, rest = line.partition(" ")
        if word == "story":
            found[rest] = [], []
        elif word == "answers":
            found[next(reversed(found))][0].extend(rest.split("; ") if rest else [])
        elif word and not word.startswith("#"):
            found[next(reversed(found))][1].append(unrounded(line))
    return found


def write_timelines(path: Path, timelines: dict[str, Timeline]) -> None:
    """Writes what the real one did."""
    text = "# What Alertmanager 0.25 did in each story of the file stories, to the half second. tools/live-compare --store writes it.\n"
    for name, (statuses, lines) in timelines.items():
        text += "\n".join(["", f"story {name}", f"answers {'; '.join(statuses)}", *map(rounded, lines), ""])
    Path(path).write_text(text, encoding="utf-8")
