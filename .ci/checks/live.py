#!/usr/bin/env python3
"""examples/live/live.py does what the real Alertmanager did, and examples/live/replay audits what it kept.

- `stories`: each story of .ci/data/live/stories runs on a clock that doesn't wait, and is compared with what Alertmanager 0.25 did
  (.ci/data/live/timelines, from tools/live-compare --store), to the half second. A story with a known difference has to have it.
- `histories`: the history of a story is replayed, and replayed with one reply changed, which has to be found.
- `boards`: what goes over to another board, and what goes by time.
- `real`: one story runs in real time over HTTP, with reloads and a restart; and configurations that can't be followed are
  rejected.
- `hostile`: no request ends it, and none holds up another one for more than seconds; nor does a full disk.
"""
import contextlib
import copy
import http.server
import json
import os
import resource
import signal
import socket
import subprocess
import sys
import tempfile
import threading
import time
import urllib.error
import urllib.request
from collections.abc import Callable
from concurrent.futures import ThreadPoolExecutor
from pathlib import Path
from types import TracebackType
from typing import Any
from unittest import mock

sys.path.insert(0, str(Path(__file__).resolve().parent.parent))
from lib import live_stories, report
from lib.live_stories import STORIES, TIMELINES
from lib.program import ROOT, Program
from lib.report import Programs, Report, is_same
from lib.rows import Json

sys.dont_write_bytecode = True
sys.path.insert(0, str(ROOT / "examples/live"))
import live
import live_carry
import live_format

CONFIG: Json = {
    "route": {"receiver": "team", "group_by": ["alertname"], "group_wait": "300ms", "group_interval": "1s", "repeat_interval": "1h"},
    "receivers": [{"name": "team", "webhook_configs": [{"url": "http://127.0.0.1:1/"}]}],
}


# Stories.

def difference(story: Any, path: str, stored: Json) -> list[str]:
    """What differs in a story from what the real one did."""
    (lines, statuses), (wanted_statuses, wanted) = live_stories.play(story, path), stored
    found: list[str] = live_stories.differences(wanted, lines)
    return found + ([f"statuses {wanted_statuses}, live.py {statuses}"] if statuses != wanted_statuses else [])


def stories(told: Report, programs: Programs) -> None:
    """All stories, some at a time, since most of it is waiting for the board."""
    path = str(programs["am_dispatch"].path)
    played, stored = live_stories.read_stories(STORIES), live_stories.read_timelines(TIMELINES)
    told.same("each story has its timeline", [*played], [*stored])
    told.at_least(120, len(played), "stories")
    with ThreadPoolExecutor(3) as pool:
        tries = {name: pool.submit(difference, it, path, stored[name]) for name, it in played.items() if told.concerns(name)}
        for name, tried in tries.items():
            try:
                found, differs = tried.result(), played[name].differs
            except Exception as error:  # (whatever it is, the other stories run)
                found, differs = [f"{type(error).__name__}: {error}"], ""
            lines = live_stories.as_diff(found, name, "live.py") or [f"no longer differs: {differs}"]
            told.holds(name, bool(found) == bool(differs), *lines)
    known = [it for it in played.values() if it.differs]
    print(f"{len(played)} stories, {len(known)} with a known difference", flush=True)
    told.case("a difference is seen", sees_differences)


def sees_differences() -> None:
    """A line too few, too many, too late or with another alert is seen."""
    lines = [(1.0, "team/0 {}:{} firing +a=1"), (3.0, "team/0 {}:{} firing +a=1"), (1.0, "page/0 {}:{} firing +a=1")]
    is_same(live_stories.differences(lines, lines[::-1]), [])
    for other in (lines[:2], [*lines, lines[1]], [(1.6, lines[0][1]), *lines[1:]], [(1.0, "team/0 {}:{} firing +a=2"), *lines[1:]]):
        is_same(bool(live_stories.differences(lines, other)), True, f"a difference is seen in {other}")


# Histories.

def replay(program: Program, text: str) -> tuple[int, str]:
    """The status of examples/live/replay on a history, and what it prints."""
    with tempfile.NamedTemporaryFile("w", suffix=".jsonl") as file:
        file.write(text)
        file.flush()
        ran = subprocess.run([ROOT / "examples/live/replay", "--board", program.path, file.name], capture_output=True, text=True,
                             timeout=300, check=False)
    return ran.returncode, ran.stdout + ran.stderr


def text_of(lines: list[Json]) -> str:
    """The lines as am-dispatch prints them. The configuration is written by live.py."""
    compact: Json = {"separators": (",", ":"), "ensure_ascii": False}
    return "".join(json.dumps(it, **({} if "alertmanager" in it else compact)) + "\n" for it in lines)


def histories(told: Report, programs: Programs) -> None:
    """Histories that were kept are audited."""
    program = programs["am_dispatch"]

    def replays() -> None:
        for name, boards in (("a reload while one of two webhooks is notified", 2), ("a reload and a restart", 3)):
            with tempfile.TemporaryDirectory() as folder, mock.patch.object(live, "KEPT", 7):
                live_stories.play(live_stories.read_stories(STORIES)[name], str(program.path), folder=folder)
                text = (Path(folder) / "history.jsonl").read_text()
            is_same(len(text.splitlines()) > 5, True, text)
            status, said = replay(program, text)
            is_same((status, said.split(" of ")[1]), (0, f"{boards} boards: each reply is the same\n"), said)
        finds_changes(program, text)

    def rejects() -> None:
        for wrong, why in (("", "is empty"), ('{"taken":[]}', "begins with a configuration"), ("[]", "isn't a history"), ("{", "replay: ")):
            status, said = replay(program, wrong)
            is_same((status, why in said), (1, True), said)

    told.case("the histories of runs with two and three boards, taken every seven calls, are the same anew", replays)
    told.case("what is no history is rejected", rejects)


def finds_changes(program: Program, text: str) -> None:
    """One change of a history is found."""
    lines: list[Json] = [json.loads(it) for it in text.splitlines()]
    changes: list[Callable[[Json], object]] = [
        lambda it: it[1]["taken"][0]["reply"]["inserted"].update(made=2),
        lambda it: it[1]["taken"][0]["call"]["insert"]["labels"].update(x="y"),
        lambda it: it[1]["taken"].pop(0),
    ]
    for change in changes:
        changed = copy.deepcopy(lines)
        change(changed)
        status, said = replay(program, text_of(changed))
        is_same((status, "differ" in said), (1, True), said)
    is_same(text_of(lines), text)


# What goes over to another board, and what goes by time.

def boards(told: Report, programs: Programs) -> None:
    """What live.py does with its boards."""
    path = str(programs["am_dispatch"].path)
    told.case("a log of more groups than a board can have goes over", lambda: carries(path))
    told.case("resolved alerts go after 30 minutes; one that stays for a webhook that refuses it doesn't go over", lambda: cleans(path))


def carries(path: str) -> None:
    """A log of more groups than a board can have goes over."""
    config = live_format.Config(CONFIG | {"route": CONFIG["route"] | {"group_by": ["..."]}})
    sets = [{"alertname": str(number)} for number in range(4100)]
    receiver = CONFIG["route"]["receiver"]
    rows = live_carry.kept([{"group": {"route": "root", "labels": it}, "receiver": receiver, "integration": 0, "firing": [it],
                             "resolved": []} for it in sets], config)
    board = live.Board(path, config.data)
    groups = live_carry.groups_of(board, config.data, rows, 0)
    is_same(board.call("groups", {})[1], [])
    is_same([len(live_carry.taken_over(it, config, groups)) for it in rows], [1] * len(rows))
    board.close()


def cleans(path: str) -> None:
    """Resolved alerts go after 30 minutes; one that stays in its group for a webhook that refuses it doesn't go over to another board."""
    story, time_at = live_stories.Story("a server that refuses what is resolved"), live_format.time_text
    for line in ('receivers {"team":[{"answers":[200,400]}]}', 'route {"group_interval":"1m"}'):
        story.read(line)
    clock, config = live_stories.PlayedClock(story), live_format.Config(story.config("http://receivers"))
    core = live.Live(config, path, clock, say=lambda _: None)
    times = {"startsAt": time_at(live_stories.START), "endsAt": time_at(live_stories.START + 3000)}
    core.post_alerts([{"labels": {"alertname": name}, **times} for name in "AB"])
    core.set_silence({"matchers": [{"name": "alertname", "value": "B", "isRegex": False}], **times, "createdBy": "", "comment": ""})
    for minute, known, grouped in ((29, ["A", "B"], ["A"]), (31, ["A"], ["A"])):
        clock.go(live_stories.START + minute * 60_000)
        is_same(sorted(it["labels"]["alertname"] for it in core.alerts.values()), known)
        is_same([it["labels"]["alertname"] for group in core.call("groups") for it in group["alerts"]], grouped)
    core.reload(lambda: config)
    is_same(core.call("groups"), [])
    core.close()


# In real time.

class Hook(http.server.BaseHTTPRequestHandler):
    """A webhook, which fails the first time. It doesn't answer the first notification of Slow, and waits until that is cut off."""

    bodies: list[Json] = []
    is_cut: list[bool] = []

    def log_message(self, *_: object) -> None:
        """Logs nothing."""

    def do_POST(self) -> None:
        """Takes a notification."""
        self.bodies.append(json.loads(self.rfile.read(int(self.headers["Content-Length"]))))
        slow = {"alertname": "Slow"}
        if self.bodies[-1]["groupLabels"] == slow and [it["groupLabels"] for it in self.bodies].count(slow) == 1:
            self.connection.settimeout(30)
            self.is_cut.append(self.connection.recv(1) == b"")
            return
        self.send_response(503 if len(self.bodies) == 1 else 200)
        self.send_header("Content-Length", "0")
        self.end_headers()


class Process:
    """live.py as a process of its own."""

    def __init__(self, program: Program, folder: Path, config: Json) -> None:
        with socket.socket() as it:
            it.bind(("127.0.0.1", 0))
            self.port: int = it.getsockname()[1]
        self.file = folder / "am.json"
        self.file.write_text(json.dumps(config))
        words: list[str | Path] = [
            sys.executable, ROOT / "examples/live/live.py", f"--config.file={folder}/am.json", f"--storage.path={folder}/data",
            f"--web.listen-address=127.0.0.1:{self.port}", "--board", program.path]
        self.child = subprocess.Popen(words, stdout=subprocess.DEVNULL, stderr=subprocess.PIPE, text=True)

    def __enter__(self) -> "Process":
        return self

    def __exit__(self, *_: type[BaseException] | BaseException | TracebackType | None) -> None:
        """Ends it, whatever went wrong."""
        self.child.kill()
        self.child.wait()
        if self.child.stderr:
            self.child.stderr.close()

    def complaint(self) -> str:
        """What it printed, to its end."""
        return self.child.stderr.read() if self.child.stderr else ""

    def ask(self, method: str, path: str, body: Json = None) -> tuple[int, Json]:
        """The status and the body of the answer to a request."""
        data = body if isinstance(body, bytes) or body is None else json.dumps(body).encode()
        request = urllib.request.Request(f"http://127.0.0.1:{self.port}{path}", data, method=method)
        try:
            with urllib.request.urlopen(request, timeout=60) as answer:
                text = answer.read()
                return answer.status, json.loads(text) if text else None
        except urllib.error.HTTPError as error:
            return error.code, json.loads(error.read())

    def wait(self) -> None:
        """Waits until it is ready."""
        end = time.monotonic() + 60
        while time.monotonic() < end and self.child.poll() is None:
            with contextlib.suppress(OSError):
                self.ask("GET", "/-/ready")
                return
            time.sleep(0.05)
        raise RuntimeError(f"live.py doesn't start: {self.child.poll()}")

    def end(self) -> tuple[int, str]:
        """Its status and what it printed, once it was asked to end."""
        self.child.send_signal(signal.SIGTERM)
        return self.child.wait(timeout=60), self.complaint()


def until(condition: Callable[[], bool]) -> None:
    """Waits until something holds."""
    end = time.monotonic() + 30
    while not condition() and time.monotonic() < end:
        time.sleep(0.05)
    is_same(condition(), True, f"it doesn't come about; the webhook had {json.dumps(Hook.bodies)}")


def sees_first_body() -> None:
    """The retry of a notification has the same body, in Alertmanager's form."""
    body = Hook.bodies[1]
    is_same(body, Hook.bodies[0])
    wanted = {"version": "4", "receiver": "team", "status": "firing", "groupLabels": {"alertname": "A"}, "commonLabels": {"alertname": "A"},
              "commonAnnotations": {"summary": "s"}, "groupKey": '{}:{alertname="A"}', "truncatedAlerts": 0}
    is_same({name: body[name] for name in wanted}, wanted)
    # (the fingerprint is Alertmanager's)
    of_alert = {"status": "firing", "endsAt": "0001-01-01T00:00:00Z", "fingerprint": "d2c6efc389df0927"}
    is_same({name: body["alerts"][0][name] for name in of_alert}, of_alert)


def first_run(process: Process) -> str:
    """An alert whose webhook fails once, and a silence that mutes the next; then what the API shows. Returns the silence's id."""
    alert = {"labels": {"alertname": "A", "x": ""}, "annotations": {"summary": "s"}}
    is_same(process.ask("POST", "/api/v2/alerts", [alert]), (200, None))
    until(lambda: len(Hook.bodies) == 2)
    sees_first_body()
    now = int(time.time() * 1000)
    times = {"startsAt": live_format.time_text(now), "endsAt": live_format.time_text(now + 3_600_000), "createdBy": "me", "comment": "c"}
    matchers = [{"name": "alertname", "value": "B", "isRegex": False, "isEqual": True}]
    status, answer = process.ask("POST", "/api/v2/silences", {"matchers": matchers} | times)
    is_same(status, 200)
    silence = str(answer["silenceID"])
    process.ask("POST", "/api/v2/alerts", [{"labels": {"alertname": "B"}}])
    status, shown = process.ask("GET", "/api/v2/alerts")
    wanted = [({"alertname": name}, [{"name": "team"}]) for name in "AB"]
    is_same((status, [(it["labels"], it["receivers"]) for it in shown]), (200, wanted))
    is_same(process.ask("GET", f"/api/v2/silence/{silence}")[1]["status"], {"state": "active"})
    requests: list[tuple[str, str, Json, int]] = [
        ("POST", "/api/v2/alerts", b"{", 400), ("POST", "/api/v2/alerts", [{"labels": {"1": "x"}}], 400), ("GET", "/x", None, 404),
        ("GET", "/api/v2/alerts?filter=a", None, 400), ("POST", "/api/v2/silences", {}, 400)]
    for method, path, body, code in requests:
        is_same((path, process.ask(method, path, body)[0]), (path, code))
    return silence


def reloads(process: Process, config: Json) -> None:
    """A renamed receiver is notified anew, and a notification in flight is cut off. A file that can't be followed changes nothing."""
    process.ask("POST", "/api/v2/alerts", [{"labels": {"alertname": "Slow"}}])
    until(lambda: len(Hook.bodies) == 3)
    process.file.write_text(json.dumps(config).replace("team", "platform"))
    is_same(process.ask("POST", "/-/reload"), (200, None))
    until(lambda: Hook.is_cut == [True] and len(Hook.bodies) == 5)
    is_same(sorted((it["receiver"], *it["groupLabels"].values()) for it in Hook.bodies[3:]), [("platform", "A"), ("platform", "Slow")])
    for wrong, why in (("{", "failed to reload config: Expecting"), ('{"route":{"receiver":"nobody"}}', "the board rejected alertmanager")):
        process.file.write_text(wrong)
        status, said = process.ask("POST", "/-/reload")
        is_same((status, why in said), (500, True), str(said))
    is_same(process.ask("GET", "/api/v2/alerts")[1][0]["receivers"], [{"name": "platform"}])
    process.file.write_text(json.dumps(config))
    process.child.send_signal(signal.SIGHUP)
    until(lambda: len(Hook.bodies) == 6)
    is_same([(it["receiver"], it["groupLabels"]) for it in Hook.bodies[5:]], [("team", {"alertname": "Slow"})])


def second_run(process: Process, silence: str) -> None:
    """What was notified before isn't notified again, and the silence mutes until it is deleted."""
    is_same([it["id"] for it in process.ask("GET", "/api/v2/silences")[1]], [silence])
    for name in "AB":
        process.ask("POST", "/api/v2/alerts", [{"labels": {"alertname": name}}])
    time.sleep(0.6)
    is_same(process.ask("DELETE", f"/api/v2/silence/{silence}"), (200, None))
    until(lambda: len(Hook.bodies) == 7)
    is_same(Hook.bodies[6]["groupLabels"], {"alertname": "B"})


def real_time(program: Program) -> None:
    """Plays two runs of live.py, one after the other."""
    config, server = copy.deepcopy(CONFIG), http.server.ThreadingHTTPServer(("127.0.0.1", 0), Hook)
    server.daemon_threads = True
    threading.Thread(target=server.serve_forever, daemon=True).start()
    config["receivers"][0]["webhook_configs"][0]["url"] = f"http://127.0.0.1:{server.server_port}/"
    with tempfile.TemporaryDirectory() as folder:
        with Process(program, Path(folder), config) as process:
            process.wait()
            silence = first_run(process)
            is_same(len(Hook.bodies), 2)
            reloads(process, config)
            status, said = process.end()
            is_same((status, "rows of the log taken over" in said), (0, True), said)
        is_same(len(Hook.bodies), 6)
        with Process(program, Path(folder), config) as process:
            process.wait()
            second_run(process, silence)
            is_same(process.end()[0], 0)
        status, said = replay(program, (Path(folder) / "data/history.jsonl").read_text())
        is_same(status, 0, said)
    server.shutdown()


def rejects_configs(program: Program) -> None:
    """A configuration that can't be followed is rejected, with what is wrong."""
    hook = CONFIG["receivers"][0]["webhook_configs"][0]
    wrong: list[tuple[Json, str]] = [
        ({"webhook_configs": [hook | {"http_config": {}}]}, "http_config of a webhook isn't supported"),
        ({"webhook_configs": [{"url": "ftp://x"}]}, "a webhook needs a url"),
        ({"email_configs": [{"to": "a@b.c"}]}, "email_configs isn't supported"),
        ({"name": "other"}, "the board rejected alertmanager"),
        ({"webhook_configs": 5}, "isn't a configuration of Alertmanager"),
    ]
    for receiver, why in wrong:
        with tempfile.TemporaryDirectory() as folder:
            with Process(program, Path(folder), CONFIG | {"receivers": [{"name": "team"} | receiver]}) as process:
                is_same(process.child.wait(timeout=60), 1, "the status")
                said = process.complaint()
        is_same((why in said, "Traceback" in said), (True, False), said)


def real(told: Report, programs: Programs) -> None:
    """live.py as a process."""
    program = programs["am_dispatch"]
    told.case("over HTTP, in real time: a retry, a silence, reloads, and a restart that keeps the silence and the log",
              lambda: real_time(program))
    told.case("a configuration that can't be followed is rejected, with what is wrong", lambda: rejects_configs(program))


# Hostile requests.

ALERTS, SILENCES = "/api/v2/alerts", "/api/v2/silences"
FAR = "9999-12-31T23:59:59-14:00"
# Patterns at which Python's own engine never comes to an end, and some that nobody accepts.
ENDLESS = ["(" * 9 + "a?" + "){100}" * 9, "(" * 9 + "a?" + ")+" * 9 + "b", "a{999999999999}", "(" * 5000, "(", "\\pX", "x" * 1_000_000]


def alert(**fields: Json) -> list[Json]:
    """A request with one alert."""
    return [{"labels": {"alertname": "A"}} | fields]


def silence(pattern: Json) -> Json:
    """A silence of a day by this pattern."""
    times = {"startsAt": live_format.time_text(int(time.time() * 1000)), "endsAt": FAR}
    return {"matchers": [{"name": "a", "value": pattern, "isRegex": True}], "createdBy": "me", "comment": "c"} | times


# The path, the body and the status of a request. What is bytes is sent as it is.
HOSTILE: list[tuple[str, Json, int]] = [
    (ALERTS, b'[{"labels":{"alertname":"\\ud800"}}]', 400), (ALERTS, b'[{"labels":{"\\udfff":"A"}}]', 400),
    (ALERTS, b'[{"labels":{"alertname":"A"},"annotations":{"summary":"\\ud800"}}]', 400),
    (ALERTS, alert(labels={"alertname": "Far"}, startsAt=FAR, endsAt=FAR), 200),
    (ALERTS, alert(labels={"alertname": "Old"}, startsAt="0001-01-01T00:00:00+14:00"), 200),
    (ALERTS, alert(labels={"alertname": "Year"}, endsAt="10000-01-01T00:00:00Z"), 400),
    (ALERTS, b"[" * 100_000, 400), (ALERTS, [None], 400), (ALERTS, [{}] * 100_000, 400), (ALERTS, None, 400),
    (ALERTS, alert(labels=5), 400), (ALERTS, alert(labels={"a": "x" * 2_000_000}), 400),
    (ALERTS, alert(labels={f"a{i}": "x" for i in range(5000)}), 400),
    (ALERTS, b'[{"labels":{"alertname":"A"},"generatorURL":' + b"[" * 900 + b"]" * 900 + b"}]", 400),
    (ALERTS, b'[{"labels":{"alertname":"A"},"startsAt":' + b"9" * 5000 + b"}]", 400), (ALERTS, b"\xff\xfe\x00", 400),
    (SILENCES, None, 400), (SILENCES, [5], 400), (SILENCES, silence(None), 400), (SILENCES, silence(".*"), 400),
    *((SILENCES, silence(it), 400) for it in ENDLESS[2:]), (SILENCES, silence("a+"), 200),
    ("//[", None, 404), ("/%ff", None, 404), (ALERTS + "?filter=%ff", None, 400),
]
# Heads of requests, which have no body that fits.
HEADS = ["Content-Length: -1", "Content-Length: x", f"Content-Length: {10**12}", "Content-Length: " + "9" * 5000]


def asked(process: Process, text: bytes) -> bytes:
    """The first line of the answer to a request as it is."""
    with socket.create_connection(("127.0.0.1", process.port), timeout=60) as link:
        link.sendall(text)
        return link.makefile("rb").readline()


def is_up(process: Process, what: object) -> None:
    """It answers within seconds."""
    began = time.monotonic()
    is_same((what, process.ask("GET", "/-/ready")[0], process.child.poll()), (what, 200, None))
    is_same((what, time.monotonic() - began < 10), (what, True))


def meets_hostile_requests(process: Process) -> None:
    """Each request gets its status, and the next one is answered."""
    for path, body, status in HOSTILE:
        what = f"{path[:60]} {str(body)[:60]}"
        is_same((what, process.ask("POST", path, body)[0]), (what, status))
        is_up(process, what)
    for pattern in ENDLESS[:2]:
        # (the board accepts them: it has no such engine)
        is_same(process.ask("POST", SILENCES, silence(pattern))[0] in (200, 400), True, pattern)
        is_up(process, pattern)
    for head in HEADS:
        line = asked(process, f"POST {ALERTS} HTTP/1.1\r\nHost: x\r\n{head}\r\n\r\n".encode())
        is_same((head[:40], line.split()[1:2]), (head[:40], [b"400"]))
    with contextlib.ExitStack() as stack:
        for _ in range(300):
            link = stack.enter_context(socket.create_connection(("127.0.0.1", process.port), timeout=60))
            link.sendall(f"POST {ALERTS} HTTP/1.1\r\nContent-Length: 9\r\n\r\n[".encode())
        is_up(process, "300 requests that don't end")
    is_same([process.ask("GET", it)[0] for it in (ALERTS, SILENCES)], [200, 200])


def survives(program: Program) -> None:
    """Hostile requests, and then a full disk: a page goes out all the same, and what was kept is the history of a run."""
    config, server = copy.deepcopy(CONFIG), http.server.ThreadingHTTPServer(("127.0.0.1", 0), Hook)
    server.daemon_threads = True
    threading.Thread(target=server.serve_forever, daemon=True).start()
    config["receivers"][0]["webhook_configs"][0]["url"] = f"http://127.0.0.1:{server.server_port}/"
    before = len(Hook.bodies)
    with tempfile.TemporaryDirectory() as folder, Process(program, Path(folder), config) as process:
        process.wait()
        meets_hostile_requests(process)
        resource.prlimit(process.child.pid, resource.RLIMIT_FSIZE, (0, resource.RLIM_INFINITY))
        is_same(process.ask("POST", "/-/reload"), (200, None))
        is_same(process.ask("POST", ALERTS, [{"labels": {"alertname": "Full"}}]), (200, None))
        until(lambda: {"alertname": "Full"} in [it["groupLabels"] for it in Hook.bodies[before:]])
        resource.prlimit(process.child.pid, resource.RLIMIT_FSIZE, (resource.RLIM_INFINITY, resource.RLIM_INFINITY))
        status, said = process.end()
        is_same((status, "the history isn't written" in said, "Traceback" in said), (0, True, False), said)
        status, said = replay(program, (Path(folder) / "data/history.jsonl").read_text())
        is_same(status, 0, said)
    server.shutdown()


def hostile(told: Report, programs: Programs) -> None:
    """live.py as a process."""
    told.case("hostile requests and a full disk end nothing, and a page goes out", lambda: survives(programs["am_dispatch"]))


PARTS = {"stories": stories, "histories": histories, "boards": boards, "real": real, "hostile": hostile}

if __name__ == "__main__":
    os.environ["PYTHONDONTWRITEBYTECODE"] = "1"
    report.main(__file__, PARTS, ("am_dispatch",), __doc__)
