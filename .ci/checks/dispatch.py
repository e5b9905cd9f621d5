#!/usr/bin/env python3
"""am-dispatch as a program drives it: each line's answer comes before the next line is sent, and bad input is answered by a
line, or ends the program with its status.

Lines and answers are those of crates/am_dispatch/stdin and stdout. What is open and logged is asked before and after each rejected
line, and is the same. examples/pager.py pages by mail, with a mail server that this check plays.
"""
import json
import re
import signal
import socketserver
import subprocess
import sys
import tempfile
import threading
import time
from collections.abc import Callable
from pathlib import Path

sys.path.insert(0, str(Path(__file__).resolve().parent.parent))
from lib import report
from lib.board import Board
from lib.program import ROOT, Limits, Program, Ran
from lib.report import Programs, Report, is_same
from lib.rows import Json

CRATE = ROOT / "crates/am_dispatch"
# The longest line in bytes.
MOST = 67_108_864
CONFIG = '{"config":{"receivers":[{"name":"team","integrations":[{"kind":"hook"}]}],"route":{"receiver":"team"}}}'
INSERT = '{"insert":{"now":0,"labels":{"a":"b"}}}'
NOT_READABLE, NOT_WRITABLE = "am-dispatch: input not readable\n", "am-dispatch: output not writable\n"


def run_cases(told: Report, cases: list[Callable[[], None]]) -> None:
    """Runs cases that are named by their first lines."""
    for case in cases:
        told.case((case.__doc__ or "").partition("\n")[0], case)


def is_error(answer: bytes) -> bool:
    """Whether an answer is an error."""
    return answer.startswith(b'{"error"')


# The worked lines.

def worked(told: Report, programs: Programs) -> None:
    """The lines of the crate have their answers."""
    program = programs["am_dispatch"]
    # (a carriage return is a part of its line)
    lines, answers = ((CRATE / name).read_bytes().split(b"\n")[:-1] for name in ("stdin", "stdout"))

    def in_lock_step() -> None:
        """each worked line has its answer before the next is sent"""
        board, rule, last = Board(program), b"", b""
        for number, (line, answer) in enumerate(zip(lines, answers, strict=True), 1):
            # (the comment above has the rule, often in several lines)
            rule = (rule + b"\n" if last[:1] == b"#" else b"") + line if line[:1] == b"#" else rule
            last = line
            where = f"{rule.decode()}\ncrates/am_dispatch/stdin:{number}: {line[:200].decode()}"
            is_same(board.ask(line), answer, f"{where}\nthe answer in crates/am_dispatch/stdout:{number}, and the program's:")
            if not line.startswith(b"#") and line.strip():
                is_same(len(json.loads(answer)), 1, f"members of the answer to line {number}")
        is_same(board.end(), (b"", 0, b""))

    def at_once() -> None:
        """all worked lines at once have the same answers"""
        ran = program.run(stdin=b"\n".join(lines) + b"\n")
        is_same(ran, Ran(0, (b"\n".join(answers) + b"\n").decode(), ""), "crates/am_dispatch/stdout")

    def rejected_lines_change_nothing() -> None:
        """a rejected line changes nothing that the board shows"""
        board, has_board = Board(program), False
        for number, line in enumerate(lines, 1):
            before = board.views() if has_board else []
            answer = board.ask(line)
            if has_board and is_error(answer):
                is_same(board.views(), before, f"crates/am_dispatch/stdin:{number}")
            has_board = has_board or answer.startswith(b'{"opened"')
        board.ends_well()

    run_cases(told, [in_lock_step, at_once, rejected_lines_change_nothing])


def words(told: Report, programs: Programs) -> None:
    """The words of the command line."""
    program = programs["am_dispatch"]

    def help_and_version() -> None:
        """--help says how the program is used, --version which one it is"""
        ran = program.run("--help")
        is_same((ran.status, ran.err), (0, ""))
        is_same("standard input" in ran.out and "docs/dispatch.md" in ran.out, True, ran.out)
        ran = program.run("--version")
        is_same((ran.status, ran.err), (0, ""))
        is_same(bool(re.fullmatch(r"am-dispatch \d+\.\d+\.\d+\n", ran.out)), True, ran.out)

    def unknown_word() -> None:
        """an unknown word is rejected with status 2, and what is accepted is said"""
        for word in ("serve", "--port"):
            ran = program.run(word)
            is_same((ran.status, ran.out), (2, ""))
            is_same(word in ran.err and "--help" in ran.err, True, ran.err)

    run_cases(told, [help_and_version, unknown_word])


# Input that is no line of its kind.

def long_lines_of(program: Program) -> list[Callable[[], None]]:
    """Lines without an end, and such that are too long or too deep."""
    def no_input() -> None:
        """no input: no output, status 0"""
        is_same(program.run(), Ran(0, "", ""))

    def no_line_feed() -> None:
        """the last line needs no line feed"""
        ran = program.run(stdin=CONFIG + '\n{"summary":{}}')
        is_same((ran.out.splitlines()[-1][:11], ran.out[-1:], ran.status), ('{"summary":', "\n", 0))

    def long_lines() -> None:
        """a line of 65 MiB is rejected, and so is one of a byte above 64 MiB; one of 64 MiB isn't"""
        board = Board(program)
        is_same(board.error(b"x" * (65 << 20)), ("", "length"))
        board.ask(CONFIG)
        is_same(board.error(b'{"summary":{}}' + b" " * (MOST - 13)), ("", "length"))
        is_same(board.ask(b'{"summary":{}}' + b" " * (MOST - 14))[:11], b'{"summary":')
        board.ends_well()

    def long_last_line() -> None:
        """a line of 65 MiB without a line feed is rejected too, status 0"""
        ran = program.run(stdin=CONFIG.encode() + b"\n" + b"x" * (65 << 20))
        is_same(('"kind":"length"' in ran.out, ran.out.count("\n"), ran.status), (True, 2, 0))

    def deep() -> None:
        """deep nesting is rejected"""
        board = Board(program)
        board.ask(CONFIG)
        for line in ["[" * 1_000_000, '{"a":' * 100_000, '{"insert":' + "[" * 200 + "]" * 200 + "}"]:
            is_same(board.error(line), ("", "json"), line[:100])
        is_same(board.error('{"insert":' + "[" * 100 + "]" * 100 + "}"), ("/insert", "kind"))
        board.ends_well()

    return [no_input, no_line_feed, long_lines, long_last_line, deep]


# Each call, with arguments that fit, except the ticket.
CALLS: dict[str, Json] = {
    "insert": {"now": 0, "labels": {"a": "b"}}, "silence": {"now": 0, "id": 1, "matchers": ['a="b"'], "ends": 1},
    "begin": {"now": 0}, "report": {"ticket": 1, "integration": 0, "outcome": "delivered"},
    "note": {"now": 0, "ticket": 1, "integration": 0}, "finish": {"now": 0, "ticket": 1}, "maintain": {"now": 0}, "forget": {"now": 0},
    "remove_empty_groups": {"now": 0},
    "take_history": {}, "outlook": {"now": 0}, "status": {"now": 0, "labels": {"a": "b"}}, "next_due": {}, "rows": {}, "groups": {},
    "summary": {}, "tickets": {},
}


def odd_lines_of(program: Program) -> list[Callable[[], None]]:
    """Lines that are no text, calls that come too early, and lines in pieces."""
    def bytes_that_are_no_text() -> None:
        """bytes that are no text in UTF-8 are rejected; a carriage return at the end is a space"""
        board = Board(program)
        for line in [b"\xff\xfe", b'{"summary":{}}\x00', b"\x00", b'{"insert":{"now":0,"labels":{"a":"\xff"}}}', b'"\\ud800"']:
            is_same(board.error(line), ("", "json"), repr(line))
        board.ask(CONFIG + "\r")
        is_same(board.ask('{"next_due":{}}\r'), b'{"next_due":{"at":null}}')
        board.ends_well()

    def no_open_flush() -> None:
        """a ticket that isn't open is rejected, and so is each call before the configuration"""
        board = Board(program)
        for name, arguments in CALLS.items():
            is_same(board.error(json.dumps({name: arguments})), ("", "NoBoard"), name)
        board.ask(CONFIG)
        for name in ("report", "note", "finish"):
            is_same(board.error(json.dumps({name: CALLS[name]})), (f"/{name}/ticket", "NotOpen"), name)
        board.ends_well()

    def pieces() -> None:
        """a line may come in pieces"""
        board = Board(program)
        for at in range(0, len(CONFIG), 7):
            board.send(CONFIG[at : at + 7])
            time.sleep(0.002)
        is_same(board.ask(""), b'{"opened":{"ignored":[],"routes":["root"]}}')

    return [bytes_that_are_no_text, no_open_flush, pieces]


def odd(told: Report, programs: Programs) -> None:
    """Input that is no line of its kind."""
    run_cases(told, [*long_lines_of(programs["am_dispatch"]), *odd_lines_of(programs["am_dispatch"])])


# After a restart.

def logged(program: Program) -> bytes:
    """The answer to `rows` of a process that has sent a notification."""
    old = Board(program)
    for line in [CONFIG, INSERT, '{"begin":{"now":30000}}', '{"report":{"ticket":1,"integration":0,"outcome":"delivered"}}',
                 '{"finish":{"now":31000,"ticket":1}}']:
        is_same(is_error(old.ask(line)), False, line)
    shown = old.ask('{"rows":{}}')
    old.ends_well()
    return shown


def restart(told: Report, programs: Programs) -> None:
    """A new process takes over the log."""
    program = programs["am_dispatch"]

    def goes_on_with_its_log() -> None:
        """a new process that loads the rows of the old one doesn't notify again"""
        shown = logged(program)
        rows = json.loads(shown)["rows"]
        is_same(len(rows), 1)
        new = Board(program)
        new.ask(CONFIG)
        for row in rows:
            is_same(new.ask(json.dumps({"load": {"now": 60000, "row": row}})), b'{"loaded":{"row":"put"}}')
        is_same(new.ask('{"rows":{}}'), shown)
        new.ask('{"insert":{"now":60000,"labels":{"a":"b"}}}')
        quiet = new.reply('{"begin":{"now":90000}}')["quiet"]
        is_same((quiet["removed"], [it["reason"] for it in quiet["reasons"]]), (0, ["nothing new"]))
        new.ends_well()

    def another_receiver() -> None:
        """a new process whose route has another receiver rejects the row, and notifies that receiver"""
        row = json.loads(logged(program))["rows"][0]
        is_same(row["receiver"], "team")
        new = Board(program)
        new.ask(CONFIG.replace("team", "ops"))
        is_same(new.error(json.dumps({"load": {"now": 60000, "row": row}})), ("/load/row", "NoIntegration"))
        is_same(new.ask('{"rows":{}}'), b'{"rows":[]}')
        new.ask('{"insert":{"now":60000,"labels":{"a":"b"}}}')
        is_same(new.reply('{"begin":{"now":90000}}')["flush"]["receiver"], "ops")
        del row["receiver"]
        is_same(new.ask(json.dumps({"load": {"now": 90000, "row": row}})), b'{"loaded":{"row":"put"}}')
        new.ends_well()

    run_cases(told, [goes_on_with_its_log, another_receiver])


# At the limits.

def alert(number: int, more: Json = None) -> str:
    """The line that inserts an alert of its own group."""
    return json.dumps({"insert": {"now": 0, "labels": {"a": f"{number:04}", **(more or {})}}})


def opened(program: Program, made: int, **limits: int) -> Board:
    """A board with so many groups, each with an alert that is due."""
    board = Board(program)
    board.ask(json.dumps({"config": {"receivers": [{"name": "team", "integrations": [{"kind": "hook"}]}],
                                     "route": {"receiver": "team", "group_by": ["a"]}, "limits": limits}}))
    for number in range(1, made + 1):
        is_same(board.reply(alert(number))["inserted"], {"stamp": number, "groups": 1, "made": 1}, f"alert {number}")
    return board


def begin(board: Board, ticket: int) -> None:
    """A flush begins, with this ticket."""
    is_same(board.reply('{"begin":{"now":30000}}')["flush"]["ticket"], ticket)


def full(board: Board, lines: list[tuple[str, str, str]]) -> None:
    """Each of these lines is rejected, and changes nothing."""
    before = board.views()
    for line, pointer, kind in lines:
        is_same(board.error(line), (pointer, kind), line)
    is_same(board.views(), before)


def finish_all(board: Board, tickets: range) -> None:
    """Finishes these flushes, of which nothing was sent."""
    for ticket in tickets:
        is_same(board.ask(json.dumps({"finish": {"now": 30000, "ticket": ticket}})), b'{"finished":{"logged":0,"removed":0,"rows":[]}}')


def summary(board: Board, calls: int, flushes: int) -> None:
    """What the summary of 65 groups has to be."""
    wanted = {"calls": calls, "groups": 65, "alerts": 65, "flushes": flushes, "entries": 0}
    is_same(board.reply('{"summary":{}}'), {"summary": wanted})


def limits(told: Report, programs: Programs) -> None:
    """What the board rejects at its limits."""
    program = programs["am_dispatch"]

    def flushes() -> None:
        """with sixty-four flushes at most, the next begins once one of them is finished"""
        board = opened(program, 65, flushes=64, history=195)
        for ticket in range(1, 65):
            begin(board, ticket)
        full(board, [('{"begin":{"now":30000}}', "/begin", "TooManyOpen")])
        finish_all(board, range(1, 2))
        begin(board, 65)
        full(board, [(alert(66), "/insert", "HistoryFull")])
        finish_all(board, range(2, 66))
        summary(board, 195, 0)
        board.ends_well()

    def capacity() -> None:
        """each open flush keeps the capacity for its finish"""
        board = opened(program, 65, history=193)
        for ticket in range(1, 65):
            begin(board, ticket)
        summary(board, 129, 64)
        full(board, [(alert(66), "/insert", "HistoryFull"), ('{"begin":{"now":30000}}', "/begin", "HistoryFull"),
                     ('{"silence":{"now":0,"id":1,"matchers":["a=b"],"ends":1}}', "/silence", "HistoryFull"),
                     ('{"maintain":{"now":30000}}', "/maintain", "HistoryFull"),
                     ('{"remove_empty_groups":{"now":30000}}', "/remove_empty_groups", "HistoryFull")])
        finish_all(board, range(1, 65))
        full(board, [(alert(66), "/insert", "HistoryFull")])
        summary(board, 193, 0)
        board.ends_well()

    def groups() -> None:
        """with 4,096 groups at most an insert that needs another is rejected, and one for a group that is there isn't"""
        board = opened(program, 4096, groups=4096)
        full(board, [(alert(0), "/insert", "TooManyGroups")])
        is_same(board.ask(alert(1, {"b": "c"})), b'{"inserted":{"stamp":4097,"groups":1,"made":0}}')
        board.ends_well()

    run_cases(told, [flushes, capacity, groups])


# Pipes that break, and little memory.

def pipes(told: Report, programs: Programs) -> None:
    """How the program ends where nobody reads or writes."""
    program = programs["am_dispatch"]

    def nobody_reads() -> None:
        """where nobody reads the answers the program ends with status 4"""
        board = Board(program)
        board.ask(CONFIG)
        board.output.close()
        try:
            for _ in range(100):
                board.send('{"summary":{}}\n')
                time.sleep(0.01)
        except BrokenPipeError:
            pass
        is_same((board.child.wait(timeout=60), board.complaint().decode()), (4, NOT_WRITABLE))

    def nobody_writes() -> None:
        """where the input ends in the middle of a flush the program ends with status 0"""
        board = Board(program)
        board.ask(CONFIG)
        board.ask(INSERT)
        is_same(board.ask('{"begin":{"now":30000}}')[:8], b'{"flush"')
        is_same(board.end(), (b"", 0, b""))

    def unreadable() -> None:
        """an input that isn't readable ends the program with status 1"""
        is_same(program.run(stdin=Path("/")), Ran(1, "", NOT_READABLE))

    def a_full_disk() -> None:
        """an output that takes nothing ends the program with status 4"""
        is_same(program.run(stdin=CONFIG, stdout=Path("/dev/full")), Ran(4, "", NOT_WRITABLE))

    run_cases(told, [nobody_reads, nobody_writes, unreadable, a_full_disk])


def memory(told: Report, programs: Programs) -> None:
    """Lines that want more memory than there is."""
    program, most = programs["am_dispatch"], Limits(memory=256 << 20)

    def many_patterns() -> None:
        """a silence with more than 128 matchers is rejected before a pattern is built"""
        board = Board(program, most)
        board.ask(CONFIG)
        line = {"silence": {"now": 0, "id": 1, "matchers": ["a=~\"(" + "x{1000}|" * 100 + "y)\""] * 15_000, "ends": 1}}
        is_same(board.error(json.dumps(line)), ("/silence/matchers", "value"))
        board.ends_well()

    def value_too_large() -> None:
        """a line for which there is no memory is answered so, and the next as ever"""
        board = Board(program, most)
        board.ask(CONFIG)
        board.ask(INSERT)
        before = board.views()
        is_same(board.error(b'{"insert":[' + b"{}," * 5_000_000 + b"{}]}"), ("", "memory"))
        is_same(board.views(), before)
        board.ends_well()

    if told.can_refuse("lines that want much memory", program):
        run_cases(told, [many_patterns, value_too_large])


# The example program.

class Mail(socketserver.StreamRequestHandler):
    """As much of a mail server as takes a mail."""

    taken: list[str] = []

    def say(self, line: bytes) -> None:
        """Answers a line."""
        self.wfile.write(line + b"\r\n")

    def handle(self) -> None:
        """Takes mails."""
        self.say(b"220 here")
        for line in self.rfile:
            word = line[:4].upper()
            self.say({b"DATA": b"354 go on", b"QUIT": b"221 bye"}.get(word, b"250 ok"))
            if word == b"DATA":
                self.taken.append(b"".join(iter(self.rfile.readline, b".\r\n")).decode())
                self.say(b"250 ok")
            if word == b"QUIT":
                return


# Lines that the example program rejects.
BAD = [b"not JSON", b"[1]", b'{"labels":{}}',
       b'{"now":0,"labels":{"a":"b"}}', b'{"name":1}', b'{"labels":{"a":NaN}}', b"\xff", b"[" * 9_000]


def hurried(port: int) -> str:
    """The text of examples/pager.py, with this mail server, short waits and a small history."""
    source = (ROOT / "examples/pager.py").read_text()
    for old, new in [('SMTP("localhost",', f'SMTP("127.0.0.1", {port},'), ("10_000, 30_000, 900_000", "4, 100, 300"),
                     ('"group_wait": "30s"}', '"group_wait": "1s"}, "limits": {"history": 12}')]:
        is_same(source.count(old), 1, f"how often examples/pager.py has {old}")
        source = source.replace(old, new)
    return source


def pager(told: Report, programs: Programs) -> None:
    """examples/pager.py."""
    program = programs["am_dispatch"]

    def pages_by_mail() -> None:
        """examples/pager.py pages by mail, after bad lines, and takes its history before it is full"""
        with socketserver.ThreadingTCPServer(("127.0.0.1", 0), Mail) as server, tempfile.TemporaryDirectory() as folder:
            threading.Thread(target=server.serve_forever, daemon=True).start()
            (Path(folder) / "pager.py").write_text(hurried(int(server.server_address[1])))
            with subprocess.Popen([sys.executable, "pager.py", str(program.path)], cwd=folder, stdin=subprocess.PIPE,
                                  stdout=subprocess.PIPE, stderr=subprocess.PIPE) as pager:
                assert pager.stdin and pager.stderr
                good = [json.dumps({"labels": {"alertname": "DiskFull", "host": f"db-{it}"}}).encode() for it in range(20)]
                pager.stdin.write(b"\n".join(BAD + good) + b"\n")
                pager.stdin.flush()
                end = time.monotonic() + 60
                while not Mail.taken and time.monotonic() < end and pager.poll() is None:
                    time.sleep(0.1)
                pager.stdin.close()
                status, said = pager.wait(timeout=60), pager.stderr.read().decode()
            server.shutdown()
        is_same((status, [it[:10] for it in said.splitlines()]), (0, ["rejected: "] * len(BAD)), said)
        is_same(len(Mail.taken), 1, "mails")
        is_same([it for it in range(20) if f"'db-{it}'" not in Mail.taken[0]], [], f"hosts that the mail lacks: {Mail.taken[0]}")
        is_same("20 firing" in Mail.taken[0], True, Mail.taken[0])

    run_cases(told, [pages_by_mail])


PARTS = {"worked": worked, "words": words, "odd": odd, "restart": restart, "limits": limits, "pipes": pipes, "memory": memory,
         "pager": pager}

if __name__ == "__main__":
    signal.signal(signal.SIGPIPE, signal.SIG_IGN)
    report.main(__file__, PARTS, ("am_dispatch",), __doc__)
