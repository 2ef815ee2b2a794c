"""Reads what the load writes on the console: its rounds, and in each the lines of the kernel's trace."""

import re
from collections import Counter
from dataclasses import dataclass, field

LINE = re.compile(r"\s*.+-(\d+)\s+\[\d+\]\s+\S+\s+(\d+): \w+: (.*)")
KEPT = "entries-in-buffer/entries-written:"
# The sum of a task that ended.
ENDED = -1


@dataclass
class Line:
    """A line of the trace: its place in the order of the lock, who ran as it was written, and its words."""
    at: int
    writer: int
    words: list

    @property
    def kind(self):
        return self.words[0]

    def number(self, at):
        return int(self.words[at])

    def named(self, at):
        """The words from a place on, which are names and values in turn."""
        return dict(zip(self.words[at::2], self.words[at + 1::2]))


@dataclass
class Round:
    """A round of the load: its title, its tasks with sibling and priority, 0 for a fair one; what the kernel had charged
    each as the trace began and after it, in ns; the lines of its trace; whether this says how many lines there were, and
    whether one is lost or cut."""
    title: str
    tasks: dict = field(default_factory=dict)
    sums: dict = field(default_factory=dict)
    lines: list = field(default_factory=list)
    is_counted: bool = False
    has_lost: bool = False

    @property
    def is_whole(self):
        """Whether it is known that the trace has all lines."""
        return self.is_counted and not self.has_lost

    def sums_that_differ(self):
        """The tasks to which the kernel's sums added something else than the trace says. A task that ended has no sum
        any more, and one that was queued as the trace ended may have been charged since."""
        charged, is_queued = Counter(), {}
        for line in self.lines:
            if line.kind == "share":
                charged[line.number(2)] += int(line.named(3)["time"])
            elif line.kind in ("E", "D"):
                is_queued[line.number(2)] = line.kind == "E"
        return [pid for pid, (before, after) in self.sums.items()
                if after != ENDED and not is_queued.get(pid) and after - before != charged[pid]]

    @property
    def siblings(self):
        return int(self.title.split()[5])

    @property
    def shape(self):
        return " ".join(self.title.split()[5:])

    def add(self, text):
        """Takes a line of the trace."""
        match = LINE.match(text)
        if match and not text.startswith("#"):
            self.lines.append(Line(int(match[2]), int(match[1]), match[3].split()))
        elif KEPT in text:
            kept, written = text.split(KEPT)[1].split()[0].split("/")
            self.is_counted = True
            self.has_lost = self.has_lost or kept != written
        elif text and not text.startswith("#"):
            self.has_lost = True


def rounds(path):
    """The rounds of a boot, each after the other."""
    current, is_tracing = None, False
    with open(path, encoding="ascii", errors="replace") as console:
        for text in map(str.rstrip, console):
            if text.startswith("ROUND "):
                current = Round(text)
            elif text.startswith("LOADTASK "):
                pid, sibling, priority, before, after = map(int, text.split()[1:])
                current.tasks[pid] = (sibling, priority)
                current.sums[pid] = (before, after)
            elif text in ("TRACE", "TRACEEND"):
                is_tracing = text == "TRACE"
                if not is_tracing:
                    current.lines.sort(key=lambda line: line.at)
                    yield current
            elif is_tracing:
                current.add(text)
