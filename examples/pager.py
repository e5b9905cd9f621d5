#!/usr/bin/env python3
"""Reads alerts from standard input, one JSON object per line, and pages by mail. docs/dispatch.md has the protocol.

    examples/pager.py [AM-DISPATCH] < ALERTS

- It prints an alert that is rejected to standard error, and goes on. Any other error ends it.
- It sends one mail at a time and doesn't retry: after `refused` the group's next flush does.
- It drops its history. It stores no rows, so a restart notifies again.
- At the end of its input it ends. An alert that waits for a flush isn't sent.
"""
import json
import select
import smtplib
import subprocess
import sys
import time
from email.message import EmailMessage
from typing import Any

CONFIG = {"receivers": [{"name": "ops", "integrations": [{"kind": "mail"}]}],
          "route": {"receiver": "ops", "group_by": ["alertname"], "group_wait": "30s"}}
# How many calls the history keeps before it is taken. How many milliseconds lie between two removals of empty groups, and between two
# maintenances.
HISTORY, TICK, UPKEEP = 10_000, 30_000, 900_000


class Board:
    """A board in a child process."""

    def __init__(self, program: str) -> None:
        self.child = subprocess.Popen([program], stdin=subprocess.PIPE, stdout=subprocess.PIPE)
        self.calls = 0

    def call(self, name: str, **arguments: Any) -> dict[str, Any]:
        """Makes a call, and returns its answer. An error is a `ValueError`."""
        assert self.child.stdin and self.child.stdout
        self.calls += 1
        self.child.stdin.write(json.dumps({name: arguments}).encode() + b"\n")
        self.child.stdin.flush()
        answer: dict[str, Any] = json.loads(self.child.stdout.readline())
        if "error" in answer:
            raise ValueError(f"{name}: {answer['error']}")
        return answer


def now() -> int:
    """The time in milliseconds."""
    return int(time.time() * 1000)


def insert(board: Board, line: bytes) -> None:
    """Inserts the alert of a line."""
    try:
        board.call("insert", now=now(), **json.loads(line))
    except (TypeError, ValueError, RecursionError) as fault:
        print(f"rejected: {line[:80]!r}: {fault}", file=sys.stderr)


def send(flush: dict[str, Any], notice: dict[str, Any]) -> str:
    """Sends a notice, and returns its outcome."""
    mail = EmailMessage()
    mail["From"], mail["To"] = "board@example.org", flush["receiver"] + "@example.org"
    mail["Subject"] = f"{len(notice['firing'])} firing, {len(notice['resolved'])} resolved: {flush['group']['labels']}"
    mail.set_content("\n".join(str(alert["labels"]) for alert in notice["firing"] + notice["resolved"]))
    try:
        with smtplib.SMTP("localhost", timeout=10) as server:
            server.send_message(mail)
        return "delivered"
    except OSError:
        return "refused"


def begin(board: Board) -> None:
    """Flushes the group that is due."""
    flush = board.call("begin", now=now()).get("flush", {"notices": []})
    for notice in flush["notices"]:
        if notice["firing"] or notice["resolved"]:
            board.call("report", ticket=flush["ticket"], integration=notice["integration"], outcome=send(flush, notice))
    if "ticket" in flush:
        board.call("finish", now=now(), ticket=flush["ticket"])


def wake(board: Board, tick: int) -> int:
    """When there is something to do: at the next flush, and at the next tick at the latest."""
    due: int | None = board.call("next_due")["next_due"]["at"]
    return tick if due is None else min(due, tick)


def main() -> None:
    board = Board(sys.argv[1] if len(sys.argv) > 1 else "tools/am-dispatch")
    board.call("config", **CONFIG)
    alerts, tick, upkeep = open(0, "rb", buffering=0), 0, 0
    while True:
        if select.select([alerts], [], [], max(0, wake(board, tick) - now()) / 1000)[0]:
            if not (line := alerts.readline()):
                break
            insert(board, line)
        if wake(board, tick) <= now():
            begin(board)
        if now() >= tick:
            board.call("remove_empty_groups", now=now())
            tick = now() + TICK
        if now() >= upkeep:
            board.call("maintain", now=now())
            board.call("forget", now=now())
            upkeep = now() + UPKEEP
        if board.calls >= HISTORY:
            board.call("take_history")
            board.calls = 0


if __name__ == "__main__":
    main()
