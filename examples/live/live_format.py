"""Alertmanager's formats, for live.py: the configuration, times, alerts, silences, and the bodies of webhooks."""
import contextlib
import itertools
import json
import re
import subprocess
from datetime import datetime, timedelta, timezone
from pathlib import Path

import programs

UNITS = {"ms": 1, "s": 1000, "m": 60_000, "h": 3_600_000, "d": 86_400_000, "w": 604_800_000, "y": 31_536_000_000}
NEVER = "0001-01-01T00:00:00Z"
EPOCH = datetime(1970, 1, 1, tzinfo=timezone.utc)
# How many labels and how many matchers there can be, and how long a name or a value: the board rejects more, but it would read all of it
# first.
LABELS, MATCHERS, LENGTH = 64, 128, 16_384
# The last time that has a text, in milliseconds.
LAST = (datetime(9999, 12, 31, 23, 59, 59, 999_000, timezone.utc) - EPOCH) // timedelta(milliseconds=1)


class Refused(Exception):
    """A request that isn't accepted, with the status that answers it."""

    def __init__(self, why, status=400):
        super().__init__(why)
        self.status = status


class Hook:
    """A webhook of a receiver, as the configuration has it."""

    def __init__(self, receiver, config):
        if unknown := {*config} - {"url", "send_resolved", "max_alerts"}:
            raise ValueError(f"receiver {receiver}: {min(unknown)} of a webhook isn't supported: url, send_resolved and max_alerts are")
        if not config.get("url", "").startswith(("http://", "https://")):
            raise ValueError(f"receiver {receiver}: a webhook needs a url that begins with http:// or https://")
        self.url, self.most = config["url"], config.get("max_alerts", 0)


class Config:
    """What this program reads of an alertmanager.yml. The board reads the rest, and checks all."""

    def __init__(self, data):
        self.data = data
        try:
            self.hooks = {it["name"]: hooks_of(it) for it in data.get("receivers") or []}
            self.timeout = milliseconds((data.get("global") or {}).get("resolve_timeout", "5m"))
            self.routes = routes_of(data.get("route") or {})
        except (AttributeError, KeyError, TypeError) as error:
            raise ValueError(f"this isn't a configuration of Alertmanager: {type(error).__name__}: {error}") from None


def hooks_of(receiver):
    if others := [it for it in receiver if it.endswith("_configs") and it != "webhook_configs" and receiver[it]]:
        raise ValueError(f"receiver {receiver['name']}: {others[0]} isn't supported: this program sends webhooks alone")
    return [Hook(receiver["name"], it) for it in receiver.get("webhook_configs") or []]


def read_config(path):
    """The value of a configuration, as JSON. YAML is read by am-rehearse where there is one, else by PyYAML where that is there; else
    am-rehearse is built for it."""
    if path.endswith(".json"):
        return json.loads(Path(path).read_text(encoding="utf-8"))
    program, yaml = programs.at_hand("am_rehearse"), None
    if not program:
        with contextlib.suppress(ImportError):
            import yaml
    if not yaml:
        ran = subprocess.run([program or programs.ready("am_rehearse", "live"), "json", path], capture_output=True, text=True, check=False)
        if ran.returncode:
            raise ValueError(ran.stderr.strip())
        return json.loads(ran.stdout)
    try:
        return yaml.safe_load(Path(path).read_text(encoding="utf-8"))
    except yaml.YAMLError as error:
        raise ValueError(str(error)) from None


def milliseconds(text):
    """A duration such as 1h30m."""
    parts = re.findall(r"(\d+)(ms|[smhdwy])", str(text))
    if "".join(map("".join, parts)) != str(text) or not parts:
        raise ValueError(f"{text!r} isn't a duration such as 5m")
    return sum(int(count) * UNITS[unit] for count, unit in parts)


def read_time(text):
    """The milliseconds since 1970 of a time of the API; none for a time that isn't there."""
    if text in (None, "", NEVER):
        return None
    try:
        found = datetime.fromisoformat(text)
    except (TypeError, ValueError):
        raise Refused(f"{text!r} isn't a time such as 2026-11-27T08:00:00Z") from None
    return min(max(0, (found.replace(tzinfo=found.tzinfo or timezone.utc) - EPOCH) // timedelta(milliseconds=1)), LAST)


def time_text(moment):
    return (EPOCH + timedelta(milliseconds=moment)).isoformat(timespec="milliseconds").replace("+00:00", "Z")


# The names of groups, as Alertmanager has them in groupKey.


def matchers_of(route):
    """The matchers of a route in Alertmanager's order, each as name, operator and value."""
    found = [(name, "=", str(value)) for name, value in (route.get("match") or {}).items()]
    found += [(name, "=~", f"^(?:{value})$") for name, value in (route.get("match_re") or {}).items()]
    for text in route.get("matchers") or []:
        for name, operator, quoted, bare in re.findall(r'(\w+)\s*(=~|!~|!=|=)\s*(?:"((?:[^"\\]|\\.)*)"|([^",]*))', text):
            found.append((name, operator, re.sub(r"\\(.)", lambda m: "\n" if m[1] == "n" else m[1], quoted or bare.strip(' {}'))))
    return sorted(found, key=lambda it: (it[0], it[2], it[1]))


def quoted_text(text):
    return '"' + text.replace("\\", "\\\\").replace("\n", "\\n").replace('"', '\\"') + '"'


def routes_of(root):
    """Alertmanager's key and the receiver of each route, by the name that the board gives it: that of its receiver, with its path
    where several routes have that."""
    routes = []

    def walk(route, key, receiver, path):
        receiver = route.get("receiver") or receiver
        key += "{" + ",".join(name + operator + quoted_text(value) for name, operator, value in matchers_of(route)) + "}"
        routes.append((re.sub(rb"^(?=[0-9])|[^a-zA-Z0-9]", b"_", receiver.encode()).decode(), key, receiver, path))
        for place, child in enumerate(route.get("routes") or []):
            walk(child, key + "/", receiver, [*path, place])

    walk(root, "", "", [])
    shared, given = ["root", *(it[0] for it in routes[1:])], {"root": routes[0][1:3]}
    for name, key, receiver, path in routes[1:]:
        wanted = name if shared.count(name) < 2 else f"{name}_at_" + "_".join(map(str, path))
        free = (it for it in itertools.chain([wanted], (f"{wanted}_{n}" for n in itertools.count(2))) if it not in given)
        given[next(free)] = key, receiver
    return given


def label_key(labels):
    return tuple(sorted(labels.items()))


def fingerprint(labels):
    """Alertmanager's number of a label set (FNV-1a)."""
    sum_of = 14695981039346656037
    for byte in b"".join(name.encode() + b"\xff" + value.encode() + b"\xff" for name, value in label_key(labels)):
        sum_of = (sum_of ^ byte) * 1099511628211 % 2**64
    return f"{sum_of:016x}"


def shown_order(alert):
    """The order of the alerts of a notification: by job, by instance, then by all labels."""
    labels = alert["labels"]
    return [("job" not in labels, labels.get("job")), ("instance" not in labels, labels.get("instance")), len(labels), label_key(labels)]


def in_common(sets):
    """The entries that all of these have."""
    return dict(set.intersection(*({*it.items()} for it in sets))) if sets else {}


def message(flush, notice, hook, key, alerts, external):
    """The body of a webhook, in the form of version 4."""
    rows = [("firing", it) for it in notice["firing"]] + [("resolved", it) for it in notice["resolved"]]
    rows = [shown_in_message(status, it, alerts.get(label_key(it["labels"]), {})) for status, it in rows]
    shown = sorted(rows, key=shown_order)[: hook.most or None]
    group = ", ".join(name + "=" + json.dumps(value, ensure_ascii=False) for name, value in label_key(flush["group"]["labels"]))
    return {"version": "4", "receiver": re.sub(r"([\\.+*?()|\[\]{}^$])", r"\\\1", flush["receiver"]), "externalURL": external,
            "status": "firing" if any(it["status"] == "firing" for it in shown) else "resolved", "alerts": shown, "truncatedAlerts": len(rows) - len(shown),
            "groupKey": f"{key}:{{{group}}}", "groupLabels": flush["group"]["labels"],
            "commonLabels": in_common([it["labels"] for it in shown]), "commonAnnotations": in_common([it["annotations"] for it in shown])}


def shown_in_message(status, alert, known):
    ends = NEVER if status == "firing" else time_text(alert["ends"])
    return {"status": status, "labels": alert["labels"], "annotations": known.get("annotations", {}), "startsAt": time_text(alert["starts"]),
            "endsAt": ends, "generatorURL": known.get("url", ""), "fingerprint": fingerprint(alert["labels"])}


def read_alert(posted, now, timeout):
    """An alert that was posted now. Without an end it ends after the timeout, unless it is posted again."""
    if not isinstance(posted, dict):
        raise Refused("an alert is an object")
    starts, ends = read_time(posted.get("startsAt")), read_time(posted.get("endsAt"))
    alert = {"labels": {name: value for name, value in texts(posted, "labels").items() if value != ""}, "timeout": ends is None, "updated": now,
             "annotations": texts(posted, "annotations"), "url": posted.get("generatorURL") or ""}
    if not isinstance(alert["url"], str):
        raise Refused("generatorURL of an alert is a text")
    refuse_large("labels", LABELS, alert["labels"].items())
    # (an alert with an end alone starts there, as Alertmanager has it)
    alert["starts"] = starts if starts is not None else now if ends is None else ends
    alert["ends"] = now + timeout if ends is None else ends
    if alert["ends"] < alert["starts"]:
        raise Refused("start time must be before end time")
    return alert


def texts(posted, name):
    """An object of texts."""
    found = posted.get(name) or {}
    if not isinstance(found, dict) or not all(isinstance(it, str) for it in found.values()):
        raise Refused(f"{name} of an alert are an object of texts")
    return found


def merged(old, new, now):
    """A known alert and the new one as one, if they overlap (types.Alert.Merge)."""
    if not (old["starts"] < new["ends"] < old["ends"] or old["starts"] < new["starts"] < old["ends"]):
        return new
    ends = new["ends"]
    if old["ends"] > ends and (old["ends"] <= now if ends <= now else not old["timeout"]):
        ends = old["ends"]
    return new | {"starts": min(old["starts"], new["starts"]), "ends": ends}


def matcher_lists(silence):
    """The matchers of a silence as the board reads them."""
    operators = {(True, False): "=", (False, False): "!=", (True, True): "=~", (False, True): "!~"}
    return [[it["name"], operators[it["isEqual"], it["isRegex"]], it["value"]] for it in silence["matchers"]]


def refuse_large(what, most, pairs):
    if len(pairs) > most or any(len(it) > LENGTH for pair in pairs for it in pair):
        raise Refused(f"there can be {most} {what}, and a name or a value has at most {LENGTH} bytes")


def text(value):
    if not isinstance(value, str):
        raise TypeError(f"{type(value).__name__} in place of a text")
    return value


def read_silence(posted):
    try:
        matchers = [{"name": text(it["name"]), "value": text(it["value"]), "isRegex": bool(it["isRegex"]), "isEqual": it.get("isEqual") is not False}
                    for it in posted["matchers"]]
        silence = {"matchers": matchers, "starts": read_time(posted["startsAt"]), "ends": read_time(posted["endsAt"]),
                   "createdBy": text(posted["createdBy"]), "comment": text(posted["comment"])}
    except (KeyError, TypeError) as error:
        raise Refused(f"a silence has matchers, startsAt, endsAt, createdBy and comment, a matcher name, value and isRegex: {error}") from None
    refuse_large("matchers", MATCHERS, [(it["name"], it["value"]) for it in matchers])
    if not matchers or silence["starts"] is None or silence["ends"] is None:
        raise Refused("a silence needs a matcher, a start and an end")
    if silence["starts"] > silence["ends"]:
        raise Refused("failed to create silence: start time must be before end time")
    return silence


def can_update(old, new, now):
    """Whether a silence can keep its id (silence.canUpdate). Starts within one second count as the same."""
    if old["matchers"] != new["matchers"] or old["ends"] <= now:
        return False
    return new["starts"] // 1000 == old["starts"] // 1000 and new["ends"] >= now if old["starts"] <= now else new["starts"] >= now
