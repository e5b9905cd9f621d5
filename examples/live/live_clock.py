"""The time and the attempts of live.py: what is done at its time, and what waits for a webhook."""
import contextlib
import heapq
import http.client
import itertools
import socket
import threading
import time
import urllib.error
import urllib.request

from live_board import BoardError


class Post(urllib.request.HTTPHandler, urllib.request.HTTPSHandler):
    """Posts once, and can be cut off."""

    def __init__(self):
        super().__init__()
        self.connection, self.is_cut = None, False

    def http_open(self, request):
        return self.do_open(lambda host, **more: self.begin(http.client.HTTPConnection(host, **more)), request)

    def https_open(self, request):
        return self.do_open(lambda host, **more: self.begin(http.client.HTTPSConnection(host, **more)), request)

    def begin(self, connection):
        self.connection = connection
        if self.is_cut:
            raise OSError("cut off")
        return connection

    def status(self, url, body, seconds):
        """Posts, and returns the status of the answer, or none where there was none in time."""
        try:
            request = urllib.request.Request(url, body, {"Content-Type": "application/json", "User-Agent": "fentdolmen-live"})
            with urllib.request.build_opener(urllib.request.ProxyHandler({}), self).open(request, timeout=seconds) as answer:
                return answer.status
        except urllib.error.HTTPError as error:
            error.close()
            return error.code
        except (OSError, http.client.HTTPException):
            return None

    def cut(self):
        """Closes the connection. (One that is still being made ends at its timeout.)"""
        self.is_cut, made = True, self.connection and self.connection.sock
        if made:
            with contextlib.suppress(OSError):
                made.shutdown(socket.SHUT_RDWR)


class RealClock:
    """The real time in milliseconds since 1970, which never goes back. Whoever uses what it calls has the lock."""

    def __init__(self):
        self.changed, self.timers, self.order = threading.Condition(threading.RLock()), [], itertools.count()
        self.failure, self.ended = None, False
        self.origin = time.time_ns() // 1_000_000 - time.monotonic_ns() // 1_000_000

    def now(self):
        return self.origin + time.monotonic_ns() // 1_000_000

    def at(self, moment, action):
        """Has the action called at this time."""
        with self.changed:
            heapq.heappush(self.timers, (moment, next(self.order), action))
            self.changed.notify_all()

    def post(self, url, body, seconds, done):
        """Posts in a thread, and hands the status to `done`, or none where there was no answer in time. Returns what cuts it off."""
        post = Post()

        def run():
            status = post.status(url, body, seconds)
            with self.changed:
                if not self.ended:
                    self.guard(lambda: done(status))
        try:
            threading.Thread(target=run, daemon=True).start()
        except RuntimeError:  # (no thread is left: it's as if nobody answered)
            self.at(self.now(), lambda: done(None))
        return post.cut

    def guard(self, action):
        """Calls it. If the board fails, the program ends: what is known here would no longer be true of the board."""
        try:
            action()
        except (BoardError, OSError) as error:
            self.end(error)

    def end(self, failure=None):
        with self.changed:
            self.failure, self.ended = self.failure or failure, True
            self.changed.notify_all()

    def run(self):
        """Calls each action at its time, until the end."""
        with self.changed:
            while not self.ended:
                wait = self.timers[0][0] - self.now() if self.timers else 3_600_000
                if wait > 0:
                    self.changed.wait(wait / 1000)
                else:
                    action = heapq.heappop(self.timers)[2]
                    self.guard(action)
