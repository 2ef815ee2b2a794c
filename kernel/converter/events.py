"""Makes events of a round's lines: enqueues, settings of a cookie, ticks, and whole schedules.

All lines of a core are written under its lock with one global counter, so their order is certain. Two things are looked
at for that: no two lines have one counter, and each line's task number follows from the one of the line before. What
breaks this, or has no counterpart in a scenario, becomes a Break.
"""

from dataclasses import dataclass, field

# Lines that are written outside the lock. Their place in the order does not matter.
OUTSIDE = ("prctl", "try")
# The priorities in a trace are the kernel's: that of a stop task, those from the first fair one on, with the one of the
# nice value 0, and that of idle.
STOP, FAIR, NICE_0, IDLE = -2, 100, 120, 1000
NO_COOKIE = "0"


@dataclass
class Enqueue:
    sibling: int
    pid: int
    cookie: str
    priority: int
    clock: int


@dataclass
class Share:
    """What the kernel charged one task for a sibling, in ns, and whether the task waited for that."""
    sibling: int
    pid: int
    cookie: str
    time: int
    is_waiting: bool


@dataclass
class Charge:
    """A charge for forced idle: the time since the last one or the interval's start, in ns, the core's clock, how many
    siblings were forced idle, for how many a task was chosen, and the shares."""
    time: int
    clock: int
    count: int
    occupation: int
    shares: list = field(default_factory=list)


@dataclass
class Tick:
    """A tick that found forced idle: what the sibling ran, for how long by the kernel's measure, in ns, whether its flag
    was set before and is set now, the core's clock, and what was charged."""
    sibling: int
    pid: int
    was_pending: bool
    is_pending: bool = False
    clock: int = 0
    ran: int = 0
    charge: Charge = None


@dataclass
class Setting:
    """The setting of a task's cookie: the caller, the task and where it is, the two cookies, and the call."""
    caller: int
    sibling: int
    pid: int
    old: str
    new: str
    call: tuple
    is_queued: bool
    is_running: bool


@dataclass
class Schedule:
    """One schedule of the kernel. `before` and `after` have the core, and for each sibling its line. The task of a block
    may have ended, and then it is an exit."""
    sibling: int
    previous: int
    before: dict
    before_siblings: dict = field(default_factory=dict)
    after: dict = None
    after_siblings: dict = field(default_factory=dict)
    firsts: list = field(default_factory=list)
    choices: dict = field(default_factory=dict)
    kind: str = None
    next: int = None
    charge: Charge = None
    is_block: bool = False
    is_exit: bool = False
    is_dropped: bool = False
    woken: set = field(default_factory=set)

    @property
    def clock(self):
        return int(self.after["clock"])


@dataclass
class First:
    """What a selection found first on a sibling."""
    sibling: int
    pid: int
    cookie: str
    priority: int


@dataclass
class Break:
    """Something after which no scenario goes on, and why."""
    why: str


@dataclass
class Note:
    """Something to be counted."""
    what: str


def task_number(line):
    """The task number that a line tells, None where it tells none."""
    match line.kind:
        case "E" | "D":
            return line.number(4)
        case "BEGIN" | "END":
            return int(line.named(3)["task"])
        case "set" | "setdone":
            return int(line.named(3)["seq"])
    return None


class Reading:
    """The state in which the lines of a round are read, in the order of the lock."""

    def __init__(self):
        self.open = {}           # by sibling: the schedule that has begun there and has not ended
        self.current = None      # the schedule to which the next lines belong
        self.siblings = None     # where the next lines of siblings go: before or after it
        self.calls = {}          # by caller: its last call of prctl
        self.setting = None      # the setting of a cookie that has begun
        self.dequeued = None     # sibling and pid of a dequeue, which its schedule has to follow
        self.has_ended = False   # whether that task has ended
        self.tick = None         # the tick that has begun
        self.charge = None       # the charge whose schedule or tick has not ended
        self.counter = None      # the counter of the line before
        self.number = None       # the task number after the line before, where that is known

    def events(self, lines):
        """The events, each with the counter of its last line."""
        for line in lines:
            for event in self.read(line):
                yield line.at, event

    def read(self, line):
        if line.kind in OUTSIDE:
            if line.kind == "prctl":
                self.calls[line.writer] = (line.number(3), line.number(5), line.number(7))
            return
        yield from self.check_order(line)
        if self.dequeued and not (line.kind == "BEGIN" and (line.number(1), line.number(2)) == self.dequeued):
            self.dequeued = None
            yield Break("a dequeue that is no block")
        match line.kind:
            case "set" | "setdone":
                yield from self.set_cookie(line)
            case "E" | "D":
                yield from self.queue(line)
            case "BEGIN":
                yield from self.begin(line)
            case "q" if self.current:
                yield from self.add_sibling(line)
            case "kind" | "first" | "choice" | "END":
                self.go_on(line)
            case "tick" | "ticked":
                yield from self.add_tick(line)
            case "charge" | "share":
                yield from self.add_charge(line)
            case "steal":
                yield Break("a steal")

    def check_order(self, line):
        if line.at == self.counter:
            yield Break("two lines with one counter, the order is not certain")
        self.counter = line.at
        number = task_number(line)
        if number is None:
            return
        is_pick = line.kind == "END" and self.current and self.current.kind != "A"
        touches = 1 if line.kind in ("E", "D") or is_pick else 0
        if self.number is not None and number != (self.number + touches) & 0xffffffff:
            yield Break("the task number jumps, the order is not certain")
        self.number = number

    def set_cookie(self, line):
        if line.kind == "set":
            said = line.named(3)
            self.setting = Setting(line.writer, line.number(1), line.number(2), said["from"], said["to"],
                                   self.calls.get(line.writer), said["queued"] == "1", said["running"] == "1")
        elif self.setting:
            yield self.setting
            self.setting = None

    def queue(self, line):
        """An enqueue or a dequeue. Those inside the setting of a cookie are of the cookie tree alone."""
        if self.setting:
            return
        if line.kind == "D":
            self.dequeued = (line.number(1), line.number(2))
            self.has_ended = line.named(5)["dead"] == "1"
            return
        undecided = [schedule for schedule in self.open.values() if schedule.kind is None]
        for schedule in undecided:
            schedule.woken.add(line.number(2))
        if len(undecided) < len(self.open):
            yield Break("an enqueue inside a pick")
        if undecided:
            yield Note("a wake inside a schedule, put before it")
        said = line.named(5)
        yield Enqueue(line.number(1), line.number(2), line.words[3], int(said["prio"]), int(said["clock"]))

    def begin(self, line):
        for schedule in self.open.values():
            if not schedule.is_dropped:
                schedule.is_dropped = True
                self.number = None
                yield Break("lock dropped inside a schedule")
        is_block = self.dequeued is not None
        self.current = Schedule(line.number(1), line.number(2), line.named(3), is_block=is_block,
                                is_exit=is_block and self.has_ended)
        self.open[self.current.sibling] = self.current
        self.siblings = self.current.before_siblings
        self.dequeued = None

    def add_sibling(self, line):
        """The state of a sibling. With the last one after a schedule this is whole."""
        schedule = self.current
        self.siblings[line.number(1)] = line.named(2)
        if self.siblings is schedule.after_siblings and len(self.siblings) == len(schedule.before_siblings):
            self.open.pop(schedule.sibling, None)
            self.current = None
            if not schedule.is_dropped:
                yield schedule

    def go_on(self, line):
        """A further line of the current schedule. Those of one whose lock was dropped are passed over."""
        schedule = self.current
        if schedule is None or schedule.is_dropped:
            self.current = self.number = self.charge = None
            if line.kind == "END" and line.number(1) in self.open and self.open[line.number(1)].is_dropped:
                del self.open[line.number(1)]
        elif line.kind == "kind":
            schedule.kind = line.words[1]
        elif line.kind == "first":
            said = line.named(3)
            schedule.firsts.append(First(line.number(1), line.number(2), said["cookie"], int(said["prio"])))
        elif line.kind == "choice":
            said = line.named(3)
            schedule.choices[line.number(1)] = (line.number(2), said["idle"] == "1")
        else:
            schedule.next, schedule.after = line.number(2), line.named(3)
            schedule.charge, self.charge = self.charge, None
            self.siblings = schedule.after_siblings

    def add_tick(self, line):
        """The beginning of a tick, or its end."""
        if line.kind == "tick":
            self.tick = Tick(line.number(1), line.number(2), line.named(3)["pending"] == "1")
            return
        tick, self.tick = self.tick, None
        if tick is None or (tick.sibling, tick.pid) != (line.number(1), line.number(2)):
            yield Break("a tick that did not begin")
            return
        said = line.named(3)
        tick.is_pending, tick.clock, tick.ran = said["pending"] == "1", int(said["clock"]), int(said["ran"])
        tick.charge, self.charge = self.charge, None
        yield tick

    def add_charge(self, line):
        """A charge, or one of its shares."""
        if line.kind == "charge":
            if self.charge or not (self.current or self.tick):
                yield Break("a charge of no schedule and no tick")
            said = line.named(1)
            self.charge = Charge(int(said["delta"]), int(said["now"]), int(said["count"]), int(said["occupation"]))
        elif self.charge:
            said = line.named(3)
            self.charge.shares.append(Share(line.number(1), line.number(2), said["cookie"], int(said["time"]),
                                            said["waits"] == "1"))
