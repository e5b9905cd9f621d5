"""What the test scripts of this folder share: a running `fentdolmen`, and webhooks that keep what they are sent."""
import atexit
import http.client
import http.server
import json
import os
import signal
import socket
import subprocess
import tempfile
import threading
import time
from pathlib import Path


class Hooks(http.server.ThreadingHTTPServer):
    """Webhooks at any path. `got` has (seconds, path, body). `takes` and `answers` have what they do by path, if it isn't 200 at once."""

    request_queue_size = 1024
    daemon_threads = True

    def handle_error(self, request, client_address):
        """A sender that was killed isn't a fault."""

    def __init__(self):
        super().__init__(("127.0.0.1", 0), Hook)
        self.got, self.takes, self.answers, self.lock = [], {}, {}, threading.Lock()
        threading.Thread(target=self.serve_forever, daemon=True).start()

    def url(self, path):
        return f"http://127.0.0.1:{self.server_port}/{path}"

    def alerts(self, status="firing"):
        """Each alert of each notification with this status: its labels."""
        with self.lock:
            return [it["labels"] for _, _, body in self.got for it in body["alerts"] if it["status"] == status]


class Hook(http.server.BaseHTTPRequestHandler):
    protocol_version = "HTTP/1.1"

    def log_message(self, *_):
        """Logs nothing."""

    def do_POST(self):
        body = json.loads(self.rfile.read(int(self.headers["Content-Length"])))
        with self.server.lock:
            self.server.got.append((time.monotonic(), self.path[1:], body))
        time.sleep(self.server.takes.get(self.path[1:], 0))
        try:
            self.send_response(self.server.answers.get(self.path[1:], 200))
            self.send_header("Content-Length", "0")
            self.end_headers()
        except OSError:
            self.close_connection = True


class Program:
    """A `fentdolmen` with its folder, which can be started again. With `-` for the board it is another program, such as the real one."""

    def __init__(self, program, board, config, folder=None, words=(), environment=None):
        self.folder = Path(folder or tempfile.mkdtemp(prefix="fentdolmen-"))
        self.program, self.board, self.words, self.environment = program, board, list(words), environment or {}
        self.data, self.child, self.port = self.folder / "data", None, free_port()
        self.configure(config)

    def configure(self, config):
        (self.folder / "alertmanager.yml").write_text(json.dumps(config), encoding="utf-8")

    def start(self):
        for _ in range(3):
            if self.run():
                return self
            # (a port that was free can be in use by now)
            if "address already in use" not in self.log()[-500:]:
                break
            self.port = free_port()
        raise SystemExit(f"FAILED: it doesn't start: {self.log()[-3000:]}")

    def run(self):
        """Starts a process, and returns whether it gets ready."""
        words = [self.program, f"--config.file={self.folder}/alertmanager.yml", f"--storage.path={self.data}", "--cluster.listen-address=",
                 f"--web.listen-address=127.0.0.1:{self.port}", *[f"--board={self.board}"] * (self.board != "-"), *self.words]
        with open(self.folder / "log", "ab") as log:
            self.child = subprocess.Popen(words, stdout=log, stderr=log, env={**os.environ, **self.environment})
        atexit.register(self.child.kill)  # (a failed check leaves it running)
        for _ in range(1200):
            if self.child.poll() is not None:
                return False
            if self.get("/-/ready")[0] == 200:
                return True
            time.sleep(0.025)
        return False

    def log(self):
        return (self.folder / "log").read_text(errors="replace")

    def stop(self, how=signal.SIGTERM):
        self.child.send_signal(how)
        self.child.wait(timeout=40)

    def ask(self, method, path, body=None, timeout=30):
        """The status and the text of an answer: 0 if there is none."""
        link = http.client.HTTPConnection("127.0.0.1", self.port, timeout=timeout)
        try:
            data = body if body is None or isinstance(body, bytes) else json.dumps(body).encode()
            link.request(method, path, data, {"Content-Type": "application/json"} if data is not None else {})
            answer = link.getresponse()
            return answer.status, answer.read()
        except (OSError, http.client.HTTPException) as error:
            return 0, str(error).encode()
        finally:
            link.close()

    def get(self, path):
        return self.ask("GET", path)

    def post(self, *alerts):
        """Posts alerts of these label sets, and returns the status."""
        return self.ask("POST", "/api/v2/alerts", [it if "labels" in it else {"labels": it} for it in alerts])[0]

    def metric(self, name):
        """The sum of a metric over its labels, None without one."""
        found = [float(line.rpartition(" ")[2]) for line in self.get("/metrics")[1].decode().splitlines() if line.startswith((name + " ", name + "{"))]
        return sum(found) if found else None

    def board_pid(self):
        """The process of the board."""
        children = Path(f"/proc/{self.child.pid}/task/{self.child.pid}/children")
        own = [int(it) for task in Path(f"/proc/{self.child.pid}/task").iterdir() for it in (task / "children").read_text().split()] \
            if children.exists() else []
        boards = [it for it in own if b"(trial" not in Path(f"/proc/{it}/cmdline").read_bytes()]
        return boards[0] if boards else None


def is_slow(board):
    """Whether a board was built without proofs: then it has checks at run time, and takes many times as long."""
    return b"__asan_init" in Path(board).read_bytes()


def used(pid):
    """The seconds of a processor that a process has used."""
    fields = Path(f"/proc/{pid}/stat").read_text().rpartition(")")[2].split()
    return (int(fields[11]) + int(fields[12])) / os.sysconf("SC_CLK_TCK")


def free_port():
    with socket.socket() as it:
        it.bind(("127.0.0.1", 0))
        return it.getsockname()[1]


def config(receivers, **route):
    """A configuration whose root has the first of these receivers: each a list of URLs by name."""
    usual = {"receiver": next(iter(receivers)), "group_by": ["alertname"], "group_wait": "0s", "group_interval": "1s", "repeat_interval": "1h"}
    return {"route": usual | route, "receivers": [{"name": name, "webhook_configs": [{"url": url} for url in urls]} for name, urls in receivers.items()]}


def hurry():
    """Has this test and what it starts go first on a busy machine, where that is allowed: it needs little, but in time."""
    try:
        os.nice(-10)
    except OSError:
        pass


class Stopwatch:
    """Counts seconds in which this machine is for the test. Where other programs take a share of all processors, as much of a second
    doesn't count, up to nine tenths. So a machine that has nothing else to do shows the most."""

    def __init__(self):
        self.counted, self.last = 0, work()

    def seconds(self):
        passed = time.monotonic() - self.last[0]
        if passed < 0.2:
            return self.counted + passed
        now = work()
        passed, total, busy, own = (after - before for after, before in zip(now, self.last))
        others = max(0, busy - max(0, own))
        self.counted, self.last = self.counted + passed * max(0.1, 1 - others / max(1, total)), now
        return self.counted


def work():
    """The time, and the ticks so far: of all processors, those in which they worked, and those for this process and what it started."""
    ticks = [int(it) for it in Path("/proc/stat").read_text().split("\n", 1)[0].split()[1:9]]
    found = {}
    for it in Path("/proc").glob("[0-9]*/stat"):
        try:
            fields = it.read_text().rpartition(")")[2].split()
            found[int(it.parent.name)] = int(fields[1]), sum(map(int, fields[11:15]))
        except (OSError, ValueError):
            continue  # (it has ended)
    own, new = 0, {os.getpid()}
    while new:
        own += sum(found[it][1] for it in new if it in found)
        new = {it for it, (parent, _) in found.items() if parent in new}
    return time.monotonic(), sum(ticks), sum(ticks) - ticks[3] - ticks[4], own


def wait_for(what, is_so, seconds=20):
    """Waits until something is so, for so many seconds of a machine that has nothing else to do."""
    watch = Stopwatch()
    while watch.seconds() < seconds:
        if is_so():
            return
        time.sleep(0.02)
    raise SystemExit(f"FAILED: {what}, not within {seconds} s")


def check(what, is_so):
    if not is_so:
        raise SystemExit(f"FAILED: {what}")
    print(f"ok      {what}", flush=True)
