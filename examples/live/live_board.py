"""The board as a child process, for live.py: am-dispatch behind two pipes (docs/dispatch.md)."""
import contextlib
import json
import subprocess


class BoardError(Exception):
    """A line that the board rejected, or a board that has ended."""

    def __init__(self, call, kind, message):
        super().__init__(f"the board rejected {call}: {kind}: {message}")
        self.kind = kind


class Board:
    """The child process: one line for each call, and one for its answer."""

    def __init__(self, program, opening):
        self.kept = 0
        # (it ends when its input ends, not by the signal that a terminal sends to both. A session of its own would do for that too, but
        # Linux gives each session a share of the processor: then the board waits for it where this program doesn't)
        self.child = subprocess.Popen([program], stdin=subprocess.PIPE, stdout=subprocess.PIPE, process_group=0)
        try:
            self.open(opening)
        except BoardError:
            self.close()
            raise

    def open(self, opening):
        """Opens an empty board with this configuration."""
        self.call("alertmanager", opening)
        self.kept = 0

    def ask(self, name, arguments):
        """The line that answers a call, as it came."""
        try:
            self.child.stdin.write(json.dumps({name: arguments}).encode() + b"\n")
            self.child.stdin.flush()
            line = self.child.stdout.readline()
        except OSError as error:
            raise BoardError(name, "ended", f"{error}; status {self.child.poll()}") from error
        if not line:
            raise BoardError(name, "ended", f"it ended with status {self.child.wait()}")
        return line

    def call(self, name, arguments):
        """What a call answers: its name, such as `inserted`, and its value."""
        (answer, value), = json.loads(self.ask(name, arguments)).items()
        if answer == "error":
            raise BoardError(name, value["kind"], f"{value['message']} (at {value['pointer'] or '/'})")
        self.kept += 1
        return answer, value

    def fails(self, name, arguments, kinds):
        """Makes a call, and returns whether it failed with an error of these kinds."""
        try:
            self.call(name, arguments)
        except BoardError as error:
            if error.kind not in kinds:
                raise
            return True
        return False

    def close(self):
        with contextlib.suppress(OSError):
            self.child.stdin.close()
        self.child.wait()
        self.child.stdout.close()
