#!/usr/bin/env python3
"""Alertmanager's API for alerts and silences, with webhooks, over am-dispatch. A worked example: nothing here is proved.

    examples/live/live.py --config.file alertmanager.yml [--web.listen-address HOST:PORT] [--storage.path FOLDER]

The board decides who is notified, and when. This program has what the board leaves out: HTTP, the clock, the ids of silences,
annotations, the merging of alerts that overlap, attempts and their waits. It knows webhooks alone, and has no filters. It asks nobody for
a password: don't open it to others than your own machine. The hostile requests of `.ci/checks/live.py` don't end it.

1. It sleeps until `next_due` or a request. Then it calls `begin` until nothing is due.
2. Each notification is sent in a thread. An answer 2xx is `delivered`. After 5xx, or without an answer, it tries again, with the waits of
   docs/rules.md. Other answers are `refused`. At the flush's deadline it is `expired`.
3. It reports each outcome, notes each success at once, and finishes the flush after the last.
4. Every 30 seconds it removes empty groups. Every 15 minutes it calls `maintain` and `forget`, and saves log and silences. Every 10,000
   calls it takes the history.

A reload opens a new board in a new process. Firing alerts go over, resolved ones until their cleaning, and silences that aren't over. A row
of the log needs the receiver's name, a webhook at its position, and an alert of its group. To find the group, live_carry.py inserts the
rows' alerts into the new board, asks it for `groups`, and opens it anew.
"""
import argparse
import http.server
import itertools
import json
import os
import re
import signal
import sys
import threading
import urllib.parse
import uuid
from pathlib import Path

sys.dont_write_bytecode = True
# (programs.py is in tools/ of the repository, and next to this file in a package)
sys.path.append(str(Path(__file__).resolve().parents[2] / "tools"))
import programs
from live_board import Board, BoardError
from live_carry import groups_of, kept, taken_over
from live_clock import RealClock
from live_format import (Config, Refused, can_update, fingerprint, label_key, matcher_lists, merged, message, read_alert, read_config,
                         read_silence, time_text)

# In milliseconds: between two removals of empty groups; between two maintenances; between two cleanings of alerts; how long a silence is
# shown after its end; the first wait after an attempt; the longest.
TICK, MAINTAIN, CLEAN, SHOWN, FIRST_WAIT, LONGEST_WAIT = 30_000, 900_000, 1_800_000, 120 * 3_600_000, 500, 60_000
# How many calls the board keeps before its history is taken, and how many bytes of it wait for a full disk. How many bytes and how many
# alerts a request can have, so nobody waits long for it; how many seconds a client may take for a part of it; how many faults are in its answer.
KEPT, UNWRITTEN, BODY, ALERTS, PATIENCE, FAULTS = 10_000, 64 << 20, 4 << 20, 10_000, 60, 10
# The kinds of errors that say what is wrong with a request, and those that say that a limit is reached.
WRONG = {"json", "length", "missing", "kind", "value", "unknown", "unsupported"}
LIMITS = {"TooManyNames", "TooManyGroups", "TooManySilences", "TooManyOpen", "memory"}


class Sending:
    """A notification of an open flush to one webhook, until it has an outcome."""

    def __init__(self, flush, notice, hook, body):
        self.flush, self.notice, self.hook, self.body = flush, notice, hook, body
        self.wait, self.begun, self.ended, self.cut = FIRST_WAIT, 0, False, None


def insert_line(alert, now):
    return {"now": now, "labels": alert["labels"], "starts": alert["starts"], "ends": alert["ends"]}


def silence_line(silence, now):
    return {"now": now, "id": silence["number"], "starts": silence["starts"], "ends": silence["ends"], "matchers": matcher_lists(silence)}


def append(path, text):
    """Adds a text to a file, whole or not at all."""
    with open(path, "ab", buffering=0) as file:
        end = file.tell()
        try:
            while text:
                text = text[file.write(text):]
        except OSError:
            file.truncate(end)
            raise


class Live:
    """The board, and what it leaves out. `clock` has the time, calls back, and posts; nothing else here waits.

    `folder` has the log and the silences of the last run, and the history."""

    def __init__(self, config, program, clock, folder=None, external="http://localhost:9093", say=print):
        self.program, self.clock, self.folder, self.external, self.say = program, clock, folder, external, say
        self.alerts, self.silences, self.silence_number, self.sendings, self.lost, self.unwritten, self.trial = {}, {}, 0, set(), [], b"", None
        rows = self.load()
        board = Board(program, config.data)
        self.put(board, config, self.hand_over(board, config, rows))
        self.cleans_at = self.clock.now() + CLEAN
        self.clock.at(self.clock.now() + MAINTAIN, self.maintain)

    def answer(self, name, **arguments):
        """Makes a call of the board. The history is taken before the board has to keep too much of it."""
        if self.board.kept >= KEPT:
            self.take_history()
        return self.board.call(name, arguments)

    def call(self, name, **arguments):
        return self.answer(name, **arguments)[1]

    def accept(self, name, **arguments):
        """Makes a call with what a request has. If the board says what is wrong with that, the request is refused."""
        try:
            return self.call(name, **arguments)
        except BoardError as error:
            if error.kind in WRONG:
                raise Refused(str(error)) from None
            raise

    # Alerts.

    def post_alerts(self, posted):
        """Inserts those of these alerts that are valid and for which the board has a place, and says what is wrong with the others."""
        if len(posted) > ALERTS:
            raise Refused(f"{len(posted)} alerts in a request, and there can be {ALERTS}")
        faults, status = [], 400
        try:
            for alert in posted:
                try:
                    self.insert(read_alert(alert, self.clock.now(), self.config.timeout))
                except Refused as error:
                    faults.append(str(error))
                except BoardError as error:
                    if error.kind not in LIMITS:
                        raise
                    faults.append(str(error))
                    status = 503
        finally:
            self.wake()
        if faults:
            raise Refused("; ".join(faults[:FAULTS]), status)

    def insert(self, alert):
        old = self.alerts.get(label_key(alert["labels"]))
        alert = merged(old, alert, self.clock.now()) if old and not old.get("cleaned") else alert
        self.accept("insert", **insert_line(alert, self.clock.now()))
        self.alerts[label_key(alert["labels"])] = alert

    def shown_alerts(self):
        """The alerts that fire, with their receivers. Whether one is muted isn't shown: its state is `unprocessed`."""
        now, receivers = self.clock.now(), {}
        for group in self.call("groups"):
            for alert in group["alerts"]:
                receivers.setdefault(label_key(alert["labels"]), []).append({"name": self.config.routes[group["group"]["route"]][1]})
        return [{"labels": it["labels"], "annotations": it["annotations"], "startsAt": time_text(it["starts"]), "endsAt": time_text(it["ends"]),
                 "updatedAt": time_text(it["updated"]), "generatorURL": it["url"], "fingerprint": fingerprint(it["labels"]),
                 "receivers": receivers.get(key, []), "status": {"state": "unprocessed", "silencedBy": [], "inhibitedBy": []}}
                for key, it in self.alerts.items() if it["ends"] > now]

    # Silences.

    def set_silence(self, posted):
        """Sets a silence, and returns its id: a new one, unless it has one whose change keeps what it mutes."""
        now, old, silence = self.clock.now(), None, read_silence(posted)
        if posted.get("id"):
            old = self.silences.get(str(posted["id"]))
            if old is None:
                raise Refused(f"silence {posted['id']} not found", 404)
        if silence["ends"] < now:
            raise Refused("failed to create silence: end time can't be in the past")
        self.try_silence(silence)
        if old and can_update(old, silence, now):
            self.put_silence(silence | {"id": old["id"], "number": old["number"]})
            return old["id"]
        self.silence_number += 1
        silence |= {"id": str(uuid.uuid4()), "number": self.silence_number, "starts": max(now, silence["starts"])}
        self.put_silence(silence)
        if old:
            self.expire(old["id"])
        return silence["id"]

    def try_silence(self, silence):
        """Refuses a silence whose matchers all match the empty text, or that the board would reject, by a board without alerts: there it
        must not mute a label set that has none of its labels. (Python's own patterns are others, and some take forever.)"""
        names = {it["name"] for it in silence["matchers"]}
        free = next(it for it in (f"free_{n}" for n in itertools.count()) if it not in names)
        try:
            if self.trial is None or self.trial.kept >= KEPT:
                self.close_trial()
                self.trial = Board(self.program, {"route": {"receiver": "none"}, "receivers": [{"name": "none"}]})
            self.trial.call("silence", {"now": 0, "id": 0, "starts": 0, "ends": 1, "matchers": matcher_lists(silence)})
            muted = self.trial.call("status", {"now": 0, "labels": {free: "x"}})[1]["muted"]
        except (BoardError, OSError) as error:
            if getattr(error, "kind", "") not in WRONG:
                self.close_trial()
                raise Refused(str(error), 503) from None
            raise Refused(str(error)) from None
        if muted:
            raise Refused("failed to create silence: at least one matcher must not match the empty string")

    def close_trial(self):
        if self.trial is not None:
            self.trial.close()
            self.trial = None

    def put_silence(self, silence):
        now = self.clock.now()
        self.accept("silence", **silence_line(silence, now))
        self.silences[silence["id"]] = silence | {"updated": now}

    def expire(self, name):
        """Ends a silence now."""
        now, silence = self.clock.now(), self.silences.get(name)
        if silence is None:
            raise Refused(f"silence {name} not found", 404)
        if silence["ends"] > now:
            self.put_silence(silence | {"starts": min(silence["starts"], now), "ends": now})

    def shown_silence(self, silence):
        now = self.clock.now()
        state = "expired" if silence["ends"] <= now else "pending" if silence["starts"] > now else "active"
        return {"id": silence["id"], "status": {"state": state}, "updatedAt": time_text(silence["updated"]), "comment": silence["comment"],
                "createdBy": silence["createdBy"], "startsAt": time_text(silence["starts"]), "endsAt": time_text(silence["ends"]),
                "matchers": silence["matchers"]}

    # Flushes.

    def wake(self):
        """Begins the flushes that are due, and asks to be woken for the next one."""
        try:
            while (begun := self.answer("begin", now=self.clock.now()))[0] != "nothing_due":
                if begun[0] == "flush":
                    self.open_flush(begun[1])
        except BoardError as error:
            if error.kind != "TooManyOpen":
                raise
            # (each finish wakes again)
            return
        now, due = self.clock.now(), self.call("next_due")["at"]
        # (it may have become due since the last begin: then this is called again at once)
        if due is not None and not (self.wakes_at and now < self.wakes_at <= due):
            self.wakes_at = due
            self.clock.at(due, self.wake)

    def open_flush(self, flush):
        """Starts the notifications of a flush, side by side."""
        hooks, flush["left"] = self.config.hooks[flush["receiver"]], len(flush["notices"])
        for notice in flush["notices"]:
            if notice["firing"] or notice["resolved"]:
                hook = hooks[notice["integration"]]
                body = message(flush, notice, hook, self.config.routes[flush["group"]["route"]][0], self.alerts, self.external)
                sending = Sending(flush, notice, hook, json.dumps(body).encode())
                self.sendings.add(sending)
                self.clock.at(flush["deadline"], lambda it=sending: self.settle(it, "expired"))
                self.attempt(sending)
            else:
                self.log(flush, notice)
        if not flush["notices"]:
            self.finish(flush)

    def attempt(self, sending):
        if not sending.ended:
            sending.begun = self.clock.now()
            left = max(1, sending.flush["deadline"] - sending.begun)
            sending.cut = self.clock.post(sending.hook.url, sending.body, left / 1000, lambda status: self.answered(sending, status))

    def answered(self, sending, status):
        """What a webhook answered, or none if it didn't: done, or refused for good, or to be tried again at its time."""
        if sending.ended:
            return
        if status is None or status // 100 == 5:
            at = max(self.clock.now(), sending.begun + sending.wait)
            sending.wait = min(LONGEST_WAIT, sending.wait * 3 // 2)
            if at < sending.flush["deadline"]:
                self.clock.at(at, lambda: self.attempt(sending))
        else:
            self.settle(sending, "delivered" if status // 100 == 2 else "refused")

    def settle(self, sending, outcome, why=""):
        """Reports the outcome of a notification, the first that it has."""
        if not sending.ended:
            sending.ended = True
            self.sendings.remove(sending)
            flush, notice = sending.flush, sending.notice
            if outcome != "delivered":
                self.say(f"live: {why or outcome}: {flush['receiver']}/{notice['integration']} for {flush['group']['labels']}, {sending.hook.url}")
            self.call("report", ticket=flush["ticket"], integration=notice["integration"], outcome=outcome)
            self.log(flush, notice, outcome == "delivered")

    def log(self, flush, notice, succeeded=True):
        """Logs a success at once, and finishes the flush with its last notification."""
        if succeeded:
            self.call("note", now=self.clock.now(), ticket=flush["ticket"], integration=notice["integration"])
        flush["left"] -= 1
        if flush["left"] == 0:
            self.finish(flush)

    def finish(self, flush):
        self.call("finish", now=self.clock.now(), ticket=flush["ticket"])
        self.clock.at(self.clock.now(), self.wake)

    # What lasts.

    def reload(self, read):
        """Has the configuration that `read` returns from now on, on a new board. If that can't be followed, nothing has changed."""
        rows = self.rows()
        try:
            config = read()
            board = Board(self.program, config.data)
            try:
                lost = self.hand_over(board, config, rows)
            except BoardError:
                board.close()
                raise
        except (OSError, ValueError, BoardError) as error:
            raise Refused(f"failed to reload config: {error}", 500) from None
        for sending in [*self.sendings]:
            sending.cut()
            self.settle(sending, "expired", "cut off by a reload")
        self.take_history()
        self.board.close()
        self.put(board, config, lost)
        self.wake()

    def hand_over(self, board, config, rows):
        """Hands a new board the rows of the log that it finds again, the silences and the alerts. Returns the rows that it doesn't find."""
        now, lost = self.clock.now(), []
        groups = groups_of(board, config.data, rows, now)
        for row in rows:
            taken = taken_over(row, config, groups)
            lost += [] if taken else [row]
            for it in taken:
                if board.fails("load", {"now": now, "row": it}, ["Ahead"]):
                    self.say(f"live: a row of the log is of a later time, and left out: {json.dumps(it)}")
        for silence in self.silences.values():
            if silence["ends"] > now:
                board.call("silence", silence_line(silence, now))
        for alert in self.alerts.values():
            if not alert.get("cleaned"):
                board.call("insert", insert_line(alert, now))
        if rows:
            self.say(f"live: {len(rows) - len(lost)} of {len(rows)} rows of the log taken over")
        return lost

    def put(self, board, config, lost):
        """Puts a board in its place. Its history is a run of its own, and its ticks begin now."""
        self.board, self.config, self.lost, self.wakes_at = board, config, lost, None
        self.clock.at(self.clock.now() + TICK, lambda: self.remove_empty_groups(board))
        self.keep(json.dumps({"alertmanager": config.data}).encode() + b"\n")

    def rows(self):
        """The rows of the log, and those that no board since found again: a later configuration may."""
        return kept(self.call("rows"), self.config) + [it for it in self.lost if it["expiry"] > self.clock.now()]

    def remove_empty_groups(self, board):
        """Lets the empty groups of this board go, until another is in its place. An alert that fires again then waits for `group_wait`."""
        if self.board is board:
            now = self.clock.now()
            self.call("remove_empty_groups", now=now)
            self.clock.at(now + TICK, lambda: self.remove_empty_groups(board))

    def maintain(self):
        """Lets go what is over, and saves the rest. Alertmanager cleans its alerts in every second maintenance: a group keeps its copies."""
        now = self.clock.now()
        self.call("maintain", now=now)
        self.call("forget", now=now)
        if now >= self.cleans_at:
            self.cleans_at = now + CLEAN
            grouped = {label_key(alert["labels"]) for group in self.call("groups") for alert in group["alerts"]}
            self.alerts = {key: it if it["ends"] > now else it | {"cleaned": True} for key, it in self.alerts.items() if it["ends"] > now or key in grouped}
        self.silences = {name: it for name, it in self.silences.items() if it["ends"] + SHOWN > now}
        self.save()
        self.clock.at(now + MAINTAIN, self.maintain)

    def take_history(self):
        """Moves the history of the board to the file. Without memory for it, it is tried again a thousand calls later."""
        line = self.board.ask("take_history", {})
        if line.startswith(b'{"error"'):
            self.board.kept = KEPT - 1000
            return self.say(f"live: the history couldn't be taken: {line.decode().strip()}")
        self.board.kept = 0
        return self.keep(line)

    def keep(self, line):
        """Adds a line to the file of the history. A full disk stops no page: what isn't written waits for the next line."""
        if self.folder:
            self.unwritten += line
            try:
                self.folder.mkdir(parents=True, exist_ok=True)
                append(self.folder / "history.jsonl", self.unwritten)
                self.unwritten = b""
            except OSError as error:
                self.say(f"live: the history isn't written: {error}")
                if len(self.unwritten) > UNWRITTEN:
                    self.say(f"live: {len(self.unwritten)} bytes of it are lost")
                    self.unwritten = b""

    def save(self):
        """Writes the log and the silences. The file is whole at any time. A full disk is said, and the next maintenance tries again."""
        if self.folder:
            saved = {"rows": self.rows(), "silences": [*self.silences.values()], "silence_number": self.silence_number}
            try:
                (self.folder / "saved.new").write_text(json.dumps(saved), encoding="utf-8")
                os.replace(self.folder / "saved.new", self.folder / "saved.json")
            except OSError as error:
                self.say(f"live: log and silences aren't saved: {error}")

    def load(self):
        """Reads the silences of the last run, and returns the rows of its log."""
        if not self.folder or not (self.folder / "saved.json").exists():
            return []
        saved = json.loads((self.folder / "saved.json").read_text(encoding="utf-8"))
        self.silence_number, self.silences = saved["silence_number"], {it["id"]: it for it in saved["silences"]}
        return saved["rows"]

    def close(self):
        """Saves all, and ends the board, whose open flushes stay without a further entry in the log."""
        self.save()
        self.take_history()
        self.board.close()
        self.close_trial()


class Server(http.server.ThreadingHTTPServer):
    """A thread for each connection. Many can come at once."""

    request_queue_size = 1024
    daemon_threads = True

    def handle_error(self, request, client_address):
        """A client that goes away isn't a fault."""


class Handler(http.server.BaseHTTPRequestHandler):
    """The API, for one request."""

    live = clock = read = None
    protocol_version, timeout = "HTTP/1.1", PATIENCE

    def log_message(self, *_):
        """Logs nothing of requests that are answered."""

    def answer(self, status, value):
        text = b"" if value is None else json.dumps(value).encode()
        self.send_response(status)
        self.send_header("Content-Type", "application/json")
        self.send_header("Content-Length", str(len(text)))
        self.end_headers()
        self.wfile.write(text)

    def serve(self):
        """Finds the call of the method and the path, makes it under the lock, and answers."""
        try:
            body, asked = self.read_body(), urllib.parse.urlsplit(self.path)
        except (ValueError, RecursionError) as error:
            self.close_connection = True
            return self.answer(400, f"this isn't a request with JSON: {error}")
        with self.clock.changed:
            try:
                status, value = 200, self.respond(self.command, asked, body)
            except Refused as error:
                status, value = error.status, str(error)
            except BoardError as error:
                status, value = 503, str(error)
                if error.kind not in LIMITS:
                    self.clock.end(error)
        return self.answer(status, value)

    def read_body(self):
        """The value of the body. Half of a surrogate pair is no text: neither the board nor a webhook could get it."""
        length = self.headers.get("Content-Length") or "0"
        if not re.fullmatch("[0-9]{1,9}", length) or int(length) > BODY:
            raise ValueError(f"a body has a Content-Length of {BODY} bytes at most, not {length[:20]}")
        text = self.rfile.read(int(length))
        body = json.loads(text) if text else None
        json.dumps(body, ensure_ascii=False).encode()
        return body

    do_GET = do_POST = do_DELETE = serve

    def respond(self, method, asked, body):
        live, path, name = self.live, asked.path, asked.path.rpartition("/")[2]
        if any(value != "true" for _, value in urllib.parse.parse_qsl(asked.query)):
            raise Refused(f"{asked.query}: filters aren't supported")
        if method == "GET" and path in ("/-/ready", "/-/healthy"):
            return "OK"
        if (method, path) == ("POST", "/-/reload"):
            return live.reload(self.read)
        if (method, path) == ("POST", "/api/v2/alerts"):
            return live.post_alerts(body if isinstance(body, list) else [body])
        if (method, path) == ("GET", "/api/v2/alerts"):
            return live.shown_alerts()
        if (method, path) == ("POST", "/api/v2/silences"):
            return {"silenceID": live.set_silence(body)}
        if (method, path) == ("GET", "/api/v2/silences"):
            return [live.shown_silence(it) for it in live.silences.values()]
        if (method, path) == ("DELETE", f"/api/v2/silence/{name}"):
            return live.expire(name)
        if (method, path) == ("GET", f"/api/v2/silence/{name}") and name in live.silences:
            return live.shown_silence(live.silences[name])
        raise Refused(f"{method} {path} isn't here", 404)


def options():
    parser = argparse.ArgumentParser(description=__doc__.splitlines()[0])
    parser.add_argument("--config.file", dest="config", required=True)
    parser.add_argument("--web.listen-address", dest="address", default="127.0.0.1:9093")
    parser.add_argument("--web.external-url", dest="external")
    parser.add_argument("--storage.path", dest="storage", default="data")
    parser.add_argument("--board", help="the program am_dispatch, if it isn't that of this repository or package")
    return parser.parse_args()


def reload(live, clock, read):
    """Reloads by a signal."""
    with clock.changed:
        try:
            clock.guard(lambda: live.reload(read))
        except Refused as error:
            live.say(f"live: {error}")


def on_signal(number, action, *arguments):
    """Has an action done at a signal: in a thread, since the signal may come while this one changes what the lock guards."""
    signal.signal(number, lambda *_: threading.Thread(target=action, args=arguments).start())


def main():
    asked, clock = options(), RealClock()
    board = asked.board or str(programs.ready("am_dispatch", "live"))
    read = lambda: Config(read_config(asked.config))
    host, _, port = asked.address.rpartition(":")
    try:
        server = Server((host, int(port)), Handler)
    except (OSError, ValueError) as error:
        sys.exit(f"live: {asked.address}: {error}")
    try:
        external = asked.external or f"http://{host or 'localhost'}:{port}"
        live = Live(read(), board, clock, Path(asked.storage), external, lambda text: print(text, file=sys.stderr, flush=True))
    except (OSError, ValueError, BoardError, Refused) as error:
        sys.exit(f"live: {asked.config}: {error}")
    Handler.live, Handler.clock, Handler.read = live, clock, staticmethod(read)
    for it in (signal.SIGTERM, signal.SIGINT):
        on_signal(it, clock.end)
    on_signal(signal.SIGHUP, reload, live, clock, read)
    threading.Thread(target=server.serve_forever, daemon=True).start()
    try:
        clock.run()
    finally:
        server.shutdown()
    if clock.failure:
        sys.exit(f"live: {clock.failure}")
    with clock.changed:
        live.close()


if __name__ == "__main__":
    main()
