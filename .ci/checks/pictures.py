#!/usr/bin/env python3
"""Pages that am-rehearse draws of stories (`play --output html`).

- `stories`: each page of examples/rehearsals/ is well-formed XML, takes nothing from elsewhere and has no script but its own, by the sum in
  its policy. It has exactly one mark for each line of `--output json` on a notification, in the row and the lane of its group, with its
  time, outcome, reason and alerts. Its texts are those of the timeline, and each expectation has its verdict.
- `hostile`: so has the page of a story with hostile label values, and of one with thousands of alerts, whose page has to stay small.
- `mutes`: a list of mutes that several alerts have is on the page once. An alert with a link to it is muted as on a page of its own. A
  page of thousands of such alerts stays small.
- `filters`: `--receiver`, `--group` and `--alert` leave the rows of the groups that they name.
- `shown`: the picture of the README, docs/disk-full.svg, is the one that tools/picture draws of its story.
"""
import base64
import hashlib
import json
import re
import subprocess
import sys
import xml.etree.ElementTree as XML
from collections import Counter
from pathlib import Path
from typing import NamedTuple

sys.path.insert(0, str(Path(__file__).resolve().parent.parent))
from lib import report
from lib.program import ROOT, Program, Ran
from lib.report import Programs, Report
from lib.stories import config

REHEARSALS = ROOT / "examples/rehearsals"
# How many bytes the page of five thousand alerts has at most.
MOST_PAGE = 2_000_000
# The class of a notification's mark, by its reason.
KINDS = {"first notice": "f", "new alert": "n", "all resolved": "r", "newly resolved": "s", "repeat": "p", "log entry expired": "f"}
# Elements and attributes that a page may have; and what it may have of anything else than its own text.
ELEMENTS = set("""html head meta title style body h1 h2 h4 small p b i u em a div span pre ol ul li details summary form input select option
                  label output script""".split())
ATTRIBUTES = set("""lang charset http-equiv content name class style id open start hidden href type placeholder aria-label value
                    data-start""".split())
ELSEWHERE = {"http://www.w3.org/1999/xhtml"}
# Elements and attributes of the picture in the README.
DRAWN = set("svg defs pattern rect path line text g style title".split())
# Characters that a page can't have.
UNFIT = {0xFFFE: 0xFFFD, 0xFFFF: 0xFFFD}
# What labels can have that mustn't come to a browser as it is.
HOSTILE = ["<script>alert(1)</script>", "</title></svg><script src=//evil></script>", "\"><img src=x onerror=alert(1)>", "'\"`", "]]>",
           "<![CDATA[", "<!--", "-->", "&lt;&amp;&#60;script>", "&undefined;", "\x00\x01\x08\x0b\x1b[31m\x7f\x85", "a\nb\r\n\tc",
           "\ufffe\uffff", "\u202eevil", "a\u2066\u200fb", "\u2028", "\U0001f525" * 60, "</pre></style>", "é" * 300, "\\u{3c}script>",
           "08:17:00Z"]
# The line on a notification: when, what it came to, why, and its alerts.
LINE = re.compile(r"(?P<time>(\d\d-\d\d )?[\d:.]+Z?) ((?P<outcome>\w+) after (?P<attempts>\d+) attempts? since (?P<since>[^,]*?)"
                  r"(, past its deadline [^,]*, at which Alertmanager cuts it off)?: )?"
                  r"(?P<reason>first notice|log entry expired at [-\d:. ]+Z?|new alert|all resolved|newly resolved|repeat)"
                  r"(; firing(?P<firing>[^;]*))?(; resolved(?P<resolved>[^;]*))?$")
LABEL = re.compile(r'([a-zA-Z_]\w*)=(?:"((?:[^"\\]|\\.)*)"|([A-Za-z0-9_.:/-]+))')
# A label set, and the lane of a notification: its row, its route and its receiver with the integration.
Labels = frozenset[tuple[str, str]]
Lane = tuple[Labels, str, str]


class Mark(NamedTuple):
    """What a page or a line of JSON says of a notification. A cut list of alerts has those that are left."""
    time: str
    kind: str
    outcome: str
    attempts: int
    reason: str
    firing: frozenset[Labels]
    resolved: frozenset[Labels]


def play(program: Program, story: str | Path, output: str, *options: str) -> Ran:
    """What a story prints. It is a file, or a text."""
    words = ["-"] if isinstance(story, str) else [str(story)]
    ran = program.run("play", *words, "--output", output, *options, stdin=story if isinstance(story, str) else "")
    return ran if output == "html" else ran._replace(out=ran.out.translate(UNFIT))


def name_of(element: XML.Element) -> str:
    """An element's name."""
    return element.tag.rpartition("}")[2]


def classes(element: XML.Element) -> set[str]:
    """An element's classes."""
    return set(element.get("class", "").split())


def children(element: XML.Element, *names: str) -> list[XML.Element]:
    """An element's children of these names."""
    return [it for it in element if name_of(it) in names]


def of_class(page: XML.Element, name: str) -> list[XML.Element]:
    """The elements of a class."""
    return [it for it in page.iter() if name in classes(it)]


def own_text(element: XML.Element) -> str:
    """An element's text, without that of its children."""
    return (element.text or "") + "".join(it.tail or "" for it in element)


def all_text(element: XML.Element) -> str:
    """An element's text, with that of its children."""
    return "".join(element.itertext())


def upright(text: str) -> str:
    """A text as a page has it: the marks that turn the direction of writing are numbers."""
    return re.sub("[\u061c\u200e\u200f\u202a-\u202e\u2066-\u2069]", lambda it: f"\\u{{{ord(it[0]):x}}}", text)


def plain(text: str) -> str:
    """A label's value, whose line of the timeline has this text."""
    escapes = {"n": "\n", '"': '"', "\\": "\\"}
    return re.sub(r"\\(?:u\{([0-9a-f]+)\}|(.))", lambda it: chr(int(it[1], 16)) if it[1] else escapes[it[2]], text)


def labels_in(text: str) -> Labels:
    """The labels that a text lists: a value of plain characters has no quotes."""
    return frozenset((it[1], it[3] or plain(it[2])) for it in LABEL.finditer(text))


def label_set(pairs: dict[str, str]) -> Labels:
    """A label set of a line of JSON, as a page can have it."""
    return frozenset((name, value.translate(UNFIT)) for name, value in pairs.items())


def numbered(listed: str | None, members: list[Labels]) -> frozenset[Labels]:
    """The alerts that a line lists by their numbers in its row. A row of one alert needs no numbers."""
    if listed is None:
        return frozenset()
    found: set[Labels] = set()
    for first, last in re.findall(r"(\d+)(?:-(\d+))?", listed.partition("#")[2]):
        found |= set(members[int(first) - 1:int(last or first)])
    return frozenset(found) if "#" in listed else frozenset(members[:1])


def mark_of(item: XML.Element, members: list[Labels]) -> Mark:
    """What a page says of a notification. Behind the class of its mark there can be those of its position."""
    said = LINE.match(all_text(item).strip())
    if not said:
        return Mark(all_text(item), "not read", "", 0, "", frozenset(), frozenset())
    return Mark(said["time"], item.get("class", "").partition(" ")[0], said["outcome"] or "delivered", int(said["attempts"] or 1),
                said["reason"].partition(" at ")[0], numbered(said["firing"], members), numbered(said["resolved"], members))


def marks(page: XML.Element) -> dict[Lane, list[Mark]]:
    """The marks of notifications, by their lanes."""
    found: dict[Lane, list[Mark]] = {}
    for row in of_class(page, "g"):
        group = labels_in(own_text(children(row, "summary")[0]))
        lists = [*children(row, "ol"), *(it for more in children(row, "details") for it in children(more, "ol"))]
        members = [group | labels_in(item.text or "") for it in lists for item in it]
        for heading, items in zip(children(row, "h4"), children(row, "ul")):
            route, _, receiver = all_text(heading).partition(" → ")
            drawn = [mark_of(it, members) for it in items if "q" not in classes(it)]
            if drawn:
                found.setdefault((group, route, receiver), []).extend(drawn)
    return found


def wanted_marks(lines: str) -> dict[Lane, list[Mark]]:
    """The marks that lines of JSON ask for, by their lanes."""
    wanted: dict[Lane, list[Mark]] = {}
    for line in map(json.loads, filter(None, lines.split("\n"))):
        if line["event"] in ("notice", "failed"):
            reason = line["reason"]
            kind = KINDS.get(reason, "a reason that isn't known") if line["event"] == "notice" else "x"
            firing, resolved = (frozenset(map(label_set, line[it])) for it in ("firing", "resolved"))
            lane = label_set(line["group"]), line["route"], f"{line['receiver']} {line['integration_name']}".translate(UNFIT)
            wanted.setdefault(lane, []).append(Mark(line["time"], kind, line["outcome"], line["attempts"], reason, firing, resolved))
    return wanted


def is_same(wanted: Mark, drawn: Mark) -> bool:
    """Whether a mark says what a line says. Its time can lack the date, and its lists of alerts can be cut."""
    times = wanted.time.replace("T", " ").endswith(drawn.time)
    return times and wanted[1:5] == drawn[1:5] and wanted.firing >= drawn.firing and wanted.resolved >= drawn.resolved and (
        len(wanted.firing) > 40 or len(wanted.resolved) > 40 or wanted[5:] == drawn[5:])


def differences(wanted: dict[Lane, list[Mark]], drawn: dict[Lane, list[Mark]]) -> list[str]:
    """What the marks of a page differ in from those that are wanted."""
    odd = [f"a lane more: {it}" for it in drawn if it not in wanted] + [f"a lane less: {it}" for it in wanted if it not in drawn]
    for lane in wanted.keys() & drawn.keys():
        if len(wanted[lane]) != len(drawn[lane]):
            odd.append(f"{lane}: {len(drawn[lane])} marks, and {len(wanted[lane])} are wanted")
        odd += [f"{lane}: {one} and {other}" for one, other in zip(wanted[lane], drawn[lane]) if not is_same(one, other)]
    return sorted(odd)


def check_page(told: Report, program: Program, name: str, story: str | Path, *options: str) -> str:
    """A story's page is safe, and has what the other outputs have. Returns its text."""
    ran, lines = play(program, story, "html", *options), play(program, story, "json", *options)
    timeline = upright(play(program, story, "timeline", "--all", *options).out)
    try:
        page = XML.fromstring(ran.out)
    except XML.ParseError as fault:
        told.fails(f"{name}: well-formed", str(fault))
        return ran.out
    told.same(f"{name}: status", lines.status, ran.status)
    told.same(f"{name}: safe", [], odd_parts(page, ran.out))
    told.same(f"{name}: notifications", [], differences(wanted_marks(lines.out), marks(page)))
    texts = spread("\n".join(all_text(it) for it in page.iter() if name_of(it) == "pre"))
    known = set(timeline.split("\n")) | {"none", ""} | {re.sub(" +", " ", it) for it in timeline.split("\n")}
    told.same(f"{name}: texts", [], [it for it in texts.split("\n") if it not in known])
    told.same(f"{name}: undelivered", undelivered_in(timeline), undelivered_in(texts))
    verdicts = re.findall(r"^expect \d.*: (?:not )?met$", timeline, re.MULTILINE)
    told.same(f"{name}: verdicts", sorted(verdicts), sorted(re.findall(r"^expect \d.*: (?:not )?met$", texts, re.MULTILINE)))
    return ran.out


def undelivered_in(text: str) -> list[str]:
    """The lines of a text on what integrations missed, sorted."""
    return sorted(it for it in text.split("\n") if it.startswith("undelivered {"))


def spread(text: str) -> str:
    """A text with a line for each alert of which it says something together with others."""
    lines, said = [], ""
    for line in text.split("\n"):
        front = re.fullmatch(r"undelivered, \d+ times(: .*)", line)
        if front:
            said = front[1]
        elif said and line.startswith("  {"):
            lines.append(f"undelivered {line.strip()}{said}")
        else:
            lines.append(line)
            said = ""
    return "\n".join(lines)


def odd_parts(page: XML.Element, text: str) -> list[str]:
    """What a page has that could do something: elements, attributes, links, scripts, characters."""
    scripts = [it for it in page.iter() if name_of(it) == "script"]
    sums = [base64.b64encode(hashlib.sha256((it.text or "").encode()).digest()).decode() for it in scripts]
    policy = next((it.get("content", "") for it in page.iter() if it.get("http-equiv") == "Content-Security-Policy"), "no policy")
    found = {f"a script of the sum {it}" for it in sums if policy != policy_with(it)} | {f"{len(sums)} scripts" for _ in sums[1:]}
    found |= {f"the script takes {kind} for one element" for it in scripts for kind in re.findall(r"All\('\.(\w+)'\)", it.text or "")
              if len({name_of(other) for other in of_class(page, kind)}) > 1}
    found |= {name_of(it) for it in page.iter()} - ELEMENTS
    found |= {attribute for it in page.iter() for attribute in it.attrib} - ATTRIBUTES
    found |= {it.get("href", "") for it in page.iter() if not re.fullmatch(r"#[am]\d+", it.get("href", "#a0"))}
    outside = re.sub(r">[^<]*", ">", text)
    found |= set(re.findall(r"\w+://[^\"\s<]*", outside)) - ELSEWHERE
    found |= set(re.findall(r"(?i)<img|<!--|<!\[|javascript:|@import|url\((?!#)", outside))
    found |= set(re.findall(r"[\x00-\x09\x0b-\x1f\x7f-\x9f\ufffe\uffff]", text))
    return sorted(found | set(re.findall("(?i)<script", text)[1:]))


def policy_with(script_sum: str) -> str:
    """The policy of a page: nothing from elsewhere, and no script but one of this sum."""
    return f"default-src 'none'; style-src 'unsafe-inline'; script-src 'sha256-{script_sum}'"


def hostile_story() -> str:
    """A story whose labels have what a browser would take as its own."""
    own = {"receivers": [{"name": "<b>team</b>", "integrations": [{"kind": "hook"}, {"kind": "mail"}]}],
           "route": {"receiver": "<b>team</b>", "group_by": ["alertname"]}}
    alerts = [{"labels": {"alertname": value, "text": value}, "from": f"{index}s", "to": "9m"} for index, value in enumerate(HOSTILE)]
    unseen = [{"labels": {"alertname": "late", "text": value}, "from": "29m59s"} for value in HOSTILE]
    silences = [{"matchers": ["alertname=~\"(?s).*pre.*\""], "to": "20m"}]
    outages = [{"receiver": "<b>team</b>", "integration": 1, "from": "0s", "to": "20m", "answer": "never"}]
    expect = [{"name": value, "receiver": "<b>team</b>"} for value in ("</pre><script>", "]]>&")]
    return json.dumps({"config": own, "until": "30m", "alerts": alerts + unseen, "silences": silences, "outages": outages,
                       "start": "2026-11-23T08:17:00Z", "expect": expect})


def long_story() -> str:
    """A story with more of everything than is listed at once: a hundred alerts in a group, and another that goes on for a week."""
    alerts = [{"labels": {"alertname": "Many", "instance": f"db-{it}"}, "from": f"{it}m", "to": f"{it + 300}m"} for it in range(100)]
    spans = [{"from": f"{2 * index}h", "to": f"{2 * index + 1}h"} for index in range(80)]
    flapping = {"labels": {"alertname": "Flapping", "instance": "db-1"}, "spans": spans}
    return json.dumps({"config": config(), "until": "7d", "alerts": [*alerts, flapping]})


def large_story(count: int) -> str:
    """A story of so many alerts over twelve hours, each in a group of its own."""
    own = {**config(("alertname", "cluster", "instance", "severity")), "limits": {"groups": 16_384, "flushes": 16_384}}
    alerts = [{"labels": {"alertname": f"Alert{it % 40}", "cluster": f"eu{it % 5}", "instance": f"web-{it}:9100", "severity": "page"},
               "from": f"{it * 37 % 700}m", "to": f"{it * 37 % 700 + 6 + it % 9}m"} for it in range(count)]
    silences = [{"matchers": ["alertname=\"Alert3\""], "from": "1h", "to": "3h"}]
    outages = [{"receiver": "team", "from": "5h", "to": "5h20m"}]
    return json.dumps({"config": own, "until": "12h", "alerts": alerts, "silences": silences, "outages": outages,
                       "start": "2026-11-23T06:00:00Z"})


def muted_story(count: int, kinds: int, *group_by: str) -> str:
    """A story of so many alerts of so many kinds that fire for hours while silences and inhibitions of them come and go."""
    rule = {"source": ["alertname=\"ClusterDown\""], "target": ["severity=\"page\""], "equal": ["cluster"]}
    own = {**config(group_by, inhibit=[rule]), "limits": {"groups": 16_384, "flushes": 16_384}}
    alerts = [{"labels": {"alertname": f"Alert{kind % 40}", "cluster": f"eu{kind % 5}", "instance": f"web-{it}:9100", "severity": "page"},
               "from": f"{kind * 37 % 240}m", "to": f"{kind * 37 % 240 + 420 + kind % 60}m"}
              for it, kind in ((it, it % kinds) for it in range(count))]
    sources = [{"labels": {"alertname": "ClusterDown", "cluster": f"eu{it}", "severity": "critical"},
                "spans": [{"from": f"{60 + 7 * it + 80 * turn}m", "to": f"{90 + 7 * it + 80 * turn}m"} for turn in range(8)]}
               for it in range(5)]
    names = ["|".join(f"Alert{kind}" for kind in range(it, 40, 10)) for it in range(10)]
    silences = [{"matchers": [f"alertname=~\"{names[it]}\""], "from": f"{11 * it + 90 * turn}m", "to": f"{11 * it + 90 * turn + 45}m"}
                for it in range(0, 10, 2) for turn in range(6)]
    return json.dumps({"config": own, "until": "12h", "alerts": alerts + sources, "silences": silences, "start": "2026-11-23T06:00:00Z"})


def shared_mutes(page: XML.Element) -> dict[str, list[str]]:
    """The lists of mutes that a page has once, by the links to them."""
    return {f"#{item.get('id')}": [all_text(it) for it in item] for lists in of_class(page, "k") for item in lists}


def mutes(page: XML.Element) -> dict[Labels, list[str]]:
    """What a page says of the mutes of each alert, where it is or behind a link."""
    found: dict[Labels, list[str]] = {}
    lists = shared_mutes(page)
    for row in of_class(page, "g"):
        group = labels_in(own_text(children(row, "summary")[0]))
        for item in (it for each in row.iter() if name_of(each) == "ol" for it in each):
            own = [all_text(it) for it in children(item, "u")]
            found[group | labels_in(item.text or "")] = own + [it for link in children(item, "a") for it in lists[link.get("href", "")]]
    return found


def stories(told: Report, programs: Programs) -> None:
    """The page of each stored story."""
    files = sorted(it for it in REHEARSALS.iterdir() if it.suffix in (".json", ".yml"))
    told.at_least(30, len(files), "pages")
    for file in filter(lambda it: told.concerns(it.name), files):
        check_page(told, programs["am_rehearse"], file.name, file)


def hostile(told: Report, programs: Programs) -> None:
    """The pages of a story with hostile label values, of a long one, and of one with thousands of alerts."""
    program = programs["am_rehearse"]
    check_page(told, program, "hostile labels", hostile_story())
    check_page(told, program, "a long story", long_story())
    text = check_page(told, program, "five thousand alerts", large_story(5_000))
    told.holds("five thousand alerts: size", len(text.encode()) <= MOST_PAGE, f"{len(text)} bytes, and {MOST_PAGE} are wanted at most")


def muted(told: Report, programs: Programs) -> None:
    """A list of mutes that several alerts have is on the page once. An alert with a link to it is muted as on a page of its own."""
    program, story = programs["am_rehearse"], muted_story(120, 20, "instance")
    page = XML.fromstring(check_page(told, program, "muted alerts", story))
    lists, found = shared_mutes(page), mutes(page)
    linked = Counter(it.get("href", "") for row in of_class(page, "g") for it in row.iter() if it.get("href", "").startswith("#m"))
    told.same("muted alerts: links", sorted(lists), sorted(linked))
    told.at_least(10, len(lists), "lists of mutes")
    told.holds("muted alerts: lists", len({tuple(it) for it in lists.values()}) == len(lists), "a list is there twice")
    told.at_least(4, min(linked.values(), default=0), "alerts with a list")
    some = json.loads(story)
    some["alerts"] = [it for it in some["alerts"] if it["labels"].get("instance") in (None, "web-7:9100", "web-12:9100")]
    alone = mutes(XML.fromstring(play(program, json.dumps(some), "html").out))
    told.same("muted alerts: mutes", alone, {it: found.get(it) for it in alone})
    # (its other outputs have each muted alert at each flush)
    text = play(program, muted_story(5_000, 240, "alertname"), "html").out
    told.same("five thousand muted alerts: safe", [], odd_parts(XML.fromstring(text), text))
    told.holds("five thousand muted alerts: size", len(text.encode()) <= MOST_PAGE, f"{len(text)} bytes, at most {MOST_PAGE} are wanted")


def filters(told: Report, programs: Programs) -> None:
    """A filter leaves the rows of the groups that it names, and no other."""
    alerts = [("--alert", f'alertname="{it}"') for it in ("DatabaseDown", "Nothing")]
    for options in (("--receiver", "on-call"), ("--group", "root"), *alerts):
        check_page(told, programs["am_rehearse"], " ".join(options), ROOT / "examples/incidents/merge.yml", "--config",
                   str(ROOT / "examples/incidents/before.yml"), *options)


def shown_page(told: Report, programs: Programs) -> None:
    """The picture of the README is the one that tools/picture draws of its story, and as safe as a page."""
    name = "disk-full"
    words: list[str | Path] = [ROOT / "tools/picture", "--program", programs["am_rehearse"].path, f"examples/{name}.yml"]
    ran = subprocess.run(words, cwd=ROOT, stdout=subprocess.PIPE, text=True, check=False)
    told.stored(f"docs/{name}.svg", ROOT / f"docs/{name}.svg", ran.stdout)
    drawn = XML.fromstring((ROOT / f"docs/{name}.svg").read_text())
    odd = {name_of(it) for it in drawn.iter()} - DRAWN
    bad = re.findall(r"(?i)script|href|url\((?!#)|@import", ran.stdout)
    told.holds(f"docs/{name}.svg: safe", not odd and not bad, f"{odd} {bad}")


PARTS = {"stories": stories, "hostile": hostile, "mutes": muted, "filters": filters, "shown": shown_page}

if __name__ == "__main__":
    report.main(__file__, PARTS, ("am_rehearse",), __doc__)
