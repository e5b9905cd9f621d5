"""What the processes of the gate cost: processor time and the most memory, by part and crate."""
import contextlib
import os
import threading
from typing import NamedTuple

# A part of the gate, and the crate that a process of it works on, if that is known.
Row = tuple[str, str]


class Process(NamedTuple):
    """What the system says of a process: the fields of its stat behind its name, and its words."""

    stat: list[str]
    words: list[str]

    @property
    def parent(self) -> int:
        """The process that began it."""
        return int(self.stat[1])

    @property
    def start(self) -> str:
        """When it began: with its number that is one process alone."""
        return self.stat[19]

    @property
    def seconds(self) -> float:
        """The processor time that it has had."""
        return (int(self.stat[11]) + int(self.stat[12])) / os.sysconf("SC_CLK_TCK")

    @property
    def memory(self) -> float:
        """The memory that it has, in GB."""
        return int(self.stat[21]) * os.sysconf("SC_PAGE_SIZE") / 1e9


def processes() -> dict[int, Process]:
    """All processes, by their numbers."""
    found = {}
    for pid in filter(str.isdigit, os.listdir("/proc")):
        # (it may have ended meanwhile)
        with contextlib.suppress(OSError):
            with open(f"/proc/{pid}/stat", encoding="ascii", errors="replace") as file:
                stat = file.read().rpartition(")")[2].split()
            with open(f"/proc/{pid}/cmdline", encoding="utf-8", errors="replace") as file:
                found[int(pid)] = Process(stat, file.read().split("\0"))
    return found


class Meter(threading.Thread):
    """Looks each second at the processes below this one."""

    def __init__(self) -> None:
        super().__init__(daemon=True)
        self.parts = {os.getpid(): "gate"}
        self.seen: dict[tuple[int, str], tuple[Row, float]] = {}
        self.most: dict[Row, float] = {}
        self.ended = threading.Event()

    def count(self, pid: int, part: str) -> None:
        """Has the process, and all below it, count for a part."""
        self.parts[pid] = part

    def run(self) -> None:
        """Looks until it is ended."""
        while not self.ended.wait(1):
            self.look()

    def look(self) -> None:
        """Takes over what the processes have cost by now."""
        found = processes()
        for pid, process in found.items():
            # (one that has just ended has no words, so what was seen before counts)
            before = self.seen.get((pid, process.start))
            row = before[0] if before and before[0][1] else self.row_of(pid, found)
            if row:
                self.seen[pid, process.start] = row, process.seconds
                self.most[row] = max(self.most.get(row, 0), process.memory)

    def row_of(self, pid: int, found: dict[int, Process]) -> Row | None:
        """The part and the crate that a process counts for, if it is one of the gate's."""
        crate, is_test, at = "", False, pid
        while at not in self.parts:
            if at not in found:
                return None
            words = found[at].words
            if "--crate-name" in words and not crate:
                crate, is_test = words[words.index("--crate-name") + 1], "--test" in words
            at = found[at].parent
        part = self.parts[at]
        return (f"{part}, tests" if is_test else part), crate

    def table(self) -> str:
        """The cost of each part, and of each crate in it."""
        total: dict[Row, float] = {}
        for row, seconds in self.seen.values():
            for key in (row, (row[0], "")) if row[1] else (row,):
                total[key] = total.get(key, 0) + seconds
                self.most[key] = max(self.most.get(key, 0), self.most[row])
        lines = [f"{'part':<36} {'crate':<20} {'processor minutes':>17} {'GB':>5}"]
        for part, crate in sorted(total):
            lines.append(f"{part:<36} {crate:<20} {total[part, crate] / 60:>17.1f} {self.most[part, crate]:>5.1f}")
        lines.append(f"{'all':<57} {sum(seconds for _, seconds in self.seen.values()) / 60:>17.1f}")
        return "\n".join(lines)
