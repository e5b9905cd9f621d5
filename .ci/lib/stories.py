"""Stories and configurations that several checks make."""
import json
import re
from collections.abc import Iterable

from .program import Limits, Program, Ran
from .rows import Json

# What a run of a story may take.
LIMITS = Limits(20, 600 * 1024 * 1024)
# Words with which a story is read from standard input, and faults are printed as JSON.
PLAY = ("play", "-", "--format", "json")
HOOK = {"receivers": [{"name": "team", "integrations": [{"kind": "hook"}]}]}


def rehearse(program: Program, text: str, *words: str, limits: Limits = LIMITS) -> Ran:
    """How a run with this standard input and these words ends, within limits."""
    return program.run(*words, stdin=text, limits=limits)


def faults_in(lines: str) -> list[str]:
    """The places and kinds of faults that are printed as JSON. A line on settings that are ignored is none."""
    faults = [json.loads(line) for line in lines.splitlines() if ": ignored: " not in line]
    return [f"{it.get('pointer', '')}: {it['kind']}" for it in faults]


def config(group_by: Iterable[str] = ("alertname",), **more: Json) -> Json:
    """A configuration of one route to one webhook, in the words of `config`."""
    return {**HOOK, "route": {"receiver": "team", "group_by": [*group_by]}, **more}


def story(**members: Json) -> Json:
    """A story of one alert and one webhook, with these members."""
    return {"config": config(), "until": "1m", "alerts": [{"labels": {"alertname": "A"}}], **members}


def alertmanager_story(**members: Json) -> Json:
    """A story whose `alertmanager` has these members."""
    own = {"route": {"receiver": "team"}, "receivers": [{"name": "team"}], **members}
    return {"alertmanager": own, "until": "1m", "alerts": [{"labels": {"alertname": "A"}}]}


def milliseconds(text: str) -> int:
    """A duration of hours, minutes and seconds in milliseconds."""
    units = {"h": 3_600_000, "m": 60_000, "s": 1_000, "ms": 1}
    return sum(int(count) * units[unit] for count, unit in re.findall(r"(\d+)(ms|h|m|s)", text))
