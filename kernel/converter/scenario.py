"""A scenario while it is made of a round's events: its task lines, its steps, the entries that the kernel made of them,
and what it charged.

Beside the steps it keeps what the rules have to hold: who is queued where, who runs, and which sibling was asked to
reschedule. At each schedule that is compared with the trace. What does not fit, or has no exact counterpart in a
scenario, ends the scenario.
"""

from collections import Counter
from dataclasses import dataclass, replace

from converter import cover
from converter.charges import Charges
from converter.events import FAIR, NICE_0, NO_COOKIE, STOP
from converter.need import need

KINDS = {"A": "Adopted", "P": "Plain", "S": "Selected"}
MOST_TASKS = 64
CREATE, SHARE_TO = 1, 2
# At most so many ns has one step of the clock. After so many a lone fair task is asked to leave, if a sibling is forced
# idle; in the kernel it is after more than so many, if the load has set its latency.
MOST_ADVANCE = 1_000_000_000
SLICE = 6_000_000
TICK_DIFFERENCE = "the slice of a fair task, which the kernel takes by the sibling's own clock"


@dataclass
class Queued:
    """A queued task: the stamp of its enqueue, and its place in the kernel's cookie tree, which a setting renews."""
    cookie: str
    priority: int
    stamp: int
    place: int


@dataclass
class Mark:
    """A moment at which a scenario may end: how many steps there are, what they cover, what is charged, and how many
    tasks have ended."""
    steps: int
    counts: Counter
    charges: Charges
    ended: int


def policy_of(priority):
    """The policy of a task of the load."""
    return f"fifo:{priority}" if priority else "fair:0"


def in_kernel(priority):
    """The kernel's number for the priority of a task of the load."""
    return 99 - priority if priority else NICE_0


def may_begin(schedule):
    """Whether a scenario may begin behind a schedule: all siblings run idle and are not pending, nothing is queued, the
    core cookie is 0, and nothing can be adopted."""
    core = schedule.after
    if schedule.next != 0 or core["cookie"] != NO_COOKIE or core["count"] != "0":
        return False
    for sibling, state in schedule.after_siblings.items():
        if state["nr"] != "0" or state["off"] != "0":
            return False
        if sibling != schedule.sibling and (state["idle"] != "1" or state["pending"] != "0"):
            return False
        if state["wait"] != "-1" and core["task"] == core["pick"]:
            return False
    return True


class Scenario:
    """`tasks` are those of the load that live. `cookies` has what each task holds, and the caller keeps it so. `clock`
    is the core's as the scenario begins, where its own is 0. `at` is the trace's counter of the next step."""

    def __init__(self, siblings, tasks, cookies, clock, at):
        self.siblings, self.tasks, self.cookies, self.at = siblings, tasks, cookies, at
        self.begun_at = self.clock = clock
        self.lines, self.steps, self.entries, self.places = [], [], [], []
        self.counts, self.charges, self.ended = Counter(), Charges(), []
        self.numbers = {pid: self.add_task(sibling, policy_of(priority)) for pid, (sibling, priority) in tasks.items()}
        self.serials, self.made, self.core_cookie = {NO_COOKIE: 0}, 0, 0
        self.queues = [{} for _ in range(siblings)]
        self.running = [0] * siblings
        self.asked = [False] * siblings
        self.scheduled_at = [clock] * siblings
        self.stamp = 0
        self.difference = None      # the first known difference: the last moment before it, and what it is
        self.make_cookies_again()
        self.begun = len(self.steps)
        self.mark()

    def text(self):
        head = ["coresched 1", f"siblings {self.siblings}", f"limits {MOST_TASKS} 64 1048576"]
        return "\n".join(head + self.lines + [f"step {step}" for step in self.steps] + ["end"]) + "\n"

    def expected(self):
        """What the kernel made: the entries, and what it charged."""
        return self.entries + self.charges.lines(len(self.lines), self.ended)

    def mark(self):
        """Notes that the scenario may end here: an interval that is open begins at the clock, so that the program's
        final drain charges nothing."""
        self.last_mark = Mark(len(self.steps), self.counts.copy(), self.charges.copy(), len(self.ended))

    def cut_back(self, mark):
        """Leaves what stands before a mark."""
        self.counts, self.charges = mark.counts, mark.charges
        del self.steps[mark.steps:], self.entries[mark.steps:], self.places[mark.steps:], self.ended[mark.ended:]

    def note_difference(self, what):
        """Notes a known difference of the next step, if it is the first."""
        self.difference = self.difference or (self.last_mark, what)

    def add_task(self, sibling, policy):
        number = len(self.lines) + 1
        self.lines.append(f"task {number} {number} {number} {sibling} {policy} 1000 1000 1000 1000 1000 1000 0 1 1")
        return number

    def add(self, step, reply):
        self.steps.append(step)
        self.entries.append(f"{step}: {reply}")
        self.places.append(self.at)

    def make_cookies_again(self):
        """Steps that give sleeping tasks the cookies that they hold as the scenario begins."""
        for pid in self.tasks:
            cookie = self.cookies.get(pid, NO_COOKIE)
            if cookie not in self.serials:
                self.create(pid, cookie)
                for other in self.tasks:
                    if other != pid and self.cookies.get(other, NO_COOKIE) == cookie:
                        self.share(pid, other)

    def create(self, pid, cookie):
        self.made += 1
        self.serials[cookie] = self.made
        self.add(f"c0 prctl {self.numbers[pid]} {CREATE} 0 0 0", "0")

    def share(self, caller, pid):
        self.add(f"c0 prctl {self.numbers[caller]} {SHARE_TO} {self.numbers[pid]} 0 0", "0")

    def number_of(self, pid, sibling):
        """The number of a task in the scenario, 0 for idle. A thread of the kernel has one on each sibling."""
        if pid == 0:
            return 0
        number = self.numbers.get(pid if pid in self.tasks else (pid, sibling))
        need(number, "unknown state")
        return number

    def advance(self, clock):
        """Brings the clock to the core's, by one step or more."""
        need(clock >= self.clock, "the clock went back")
        while self.clock < clock:
            time = min(clock - self.clock, MOST_ADVANCE)
            self.clock += time
            self.add(f"c0 advance {time}", f"Now {self.clock - self.begun_at}")
            self.counts["advances"] += 1

    def wake(self, event):
        sibling, pid, priority = event.sibling, event.pid, event.priority
        need(sibling < self.siblings, "unknown state")
        queue = self.queues[sibling]
        need(priority < FAIR or all(other.priority < FAIR for other in queue.values()), "two fair tasks on one sibling")
        if pid in self.tasks:
            need(self.tasks[pid][0] == sibling, "a task moved")
            need(in_kernel(self.tasks[pid][1]) == priority, "a priority changed")
            need(pid not in queue, "unknown state")
            need(self.cookies.get(pid, NO_COOKIE) == event.cookie, "unknown cookie")
        else:
            self.check_thread(event)
        self.advance(event.clock)
        self.stamp += 1
        queue[pid] = Queued(event.cookie, priority, self.stamp, self.stamp)
        if self.running[sibling] == 0:
            self.asked[sibling] = True
        else:
            current = queue[self.running[sibling]].priority
            self.asked[sibling] |= priority < FAIR <= current or priority < current < FAIR
        self.add(f"c0 wake {self.number_of(pid, sibling)}", f"Woken {sibling}")
        self.counts["wakes"] += 1

    def check_thread(self, event):
        """A thread of the kernel becomes a task of the sibling on which it wakes."""
        sibling, pid, priority = event.sibling, event.pid, event.priority
        need(priority == STOP or priority >= FAIR, "a real-time task that is not the load's")
        need(event.cookie == NO_COOKIE, "a cookie of a task that is not the load's")
        if (pid, sibling) not in self.numbers:
            need(len(self.lines) < MOST_TASKS, f"more than {MOST_TASKS} tasks")
            self.numbers[pid, sibling] = self.add_task(sibling, "stop" if priority == STOP else "fair:0")
        self.counts["wakes of the kernel's threads"] += 1

    def set_cookie(self, event):
        caller, pid = event.caller, event.pid
        need(event.sibling < self.siblings, "unknown state")
        queue = self.queues[event.sibling]
        need(pid in self.tasks and caller in self.tasks, "a call of prctl by or on a task that is not the load's")
        need(self.numbers[pid] not in self.ended, "a call of prctl on a task that has ended")
        need(self.cookies.get(pid, NO_COOKIE) == event.old, "unknown cookie")
        need(event.call is not None and event.call[2] == 0, "another call of prctl")
        need(event.is_queued == (pid in queue), "unknown state")
        command, target, _ = event.call
        if command == CREATE:
            need(target == 0 and caller == pid, "another call of prctl")
            need(all(cookie != event.new for other, cookie in self.cookies.items() if other != pid), "unknown cookie")
            self.create(pid, event.new)
            self.counts["CREATE"] += 1
        else:
            need(command == SHARE_TO and target == pid, "another call of prctl")
            need(self.cookies.get(caller, NO_COOKIE) == event.new, "the caller's cookie changed inside its call")
            self.share(caller, pid)
            self.counts[f"SHARE_TO of a {'queued' if pid in queue else 'sleeping'} task"] += 1
        if pid in queue:
            self.stamp += 1
            queue[pid] = replace(queue[pid], cookie=event.new, place=self.stamp)
            self.asked[event.sibling] |= self.running[event.sibling] == pid

    def tick(self, event):
        """A tick that finds forced idle. Only a fair task can be asked to leave by it."""
        sibling = event.sibling
        need(sibling < self.siblings and self.running[sibling] == event.pid, "unknown state")
        is_fair = event.pid != 0 and self.queues[sibling][event.pid].priority >= FAIR
        is_asked = is_fair and event.ran > SLICE
        need(event.was_pending or event.is_pending == is_asked, "a tick that asks by another rule")
        if is_fair and is_asked != (event.clock - self.scheduled_at[sibling] >= SLICE):
            self.note_difference(TICK_DIFFERENCE)
        self.advance(event.clock)
        self.charge(event.charge, "tick")
        self.add(f"s{sibling} tick", "Ticked yes" if is_asked else "Ticked no")
        self.asked[sibling] |= is_asked
        self.counts["ticks"] += 1
        self.counts["ticks of idle"] += event.pid == 0
        self.counts["ticks of fair tasks"] += is_fair
        self.counts["ticks that ask for a reschedule"] += is_asked
        self.mark()

    def charge(self, charge, step):
        """Takes over what the kernel charged at a step of this kind, if it charged."""
        if charge:
            need(charge.clock == self.clock, "a charge at another clock")
            need(charge.occupation > 0, "a charge although no task is chosen")
            self.charges.add(charge, [self.number_of(share.pid, share.sibling) for share in charge.shares])
            cover.count_charge(self.counts, charge, self.core_cookie, step)

    def schedule(self, event, with_turns):
        """A schedule is a block where a dequeue stands before it, and an exit where the task has ended. Else it is a
        reschedule, or with turns a turn where the sibling was asked for it and the kernel's flag is set."""
        sibling = event.sibling
        self.check(event)
        self.advance(event.clock)
        is_asked = event.before_siblings[sibling]["pending"] == "1" and self.asked[sibling]
        if event.is_block:
            step, said = ("exit", "Ended") if event.is_exit else ("block", "Slept")
            said += f" {self.number_of(event.previous, sibling)} "
        else:
            step, said = "turn" if with_turns and is_asked else "resched", ""
        self.charge(event.charge, step if event.is_block else "schedule")
        reply = self.reply(event)
        difference = cover.count_selection(self, event) if event.kind == "S" else None
        if difference:
            self.note_difference(difference)
        self.add(f"s{sibling} {step}", said + reply)
        self.counts["schedules"] += 1
        self.go_on_after(event)

    def go_on_after(self, event):
        """What is so after a schedule."""
        sibling = event.sibling
        if event.is_exit:
            self.ended.append(self.numbers[event.previous])
            self.counts["exits"] += 1
        elif event.is_block:
            self.counts["blocks"] += 1
        self.running[sibling], self.asked[sibling], self.scheduled_at[sibling] = event.next, False, event.clock
        for other, (pid, _) in event.choices.items():
            self.asked[other] |= other != sibling and pid != self.running[other]
        if event.kind != "A":
            self.mark()

    def check(self, event):
        """Compares what is queued and what runs with the trace, and takes the task of a block from its queue."""
        need(len(event.before_siblings) == self.siblings, "hotplug")
        need(self.running[event.sibling] == event.previous, "unknown state")
        need(not event.is_exit or event.previous in self.tasks, "the end of a task that is not the load's")
        if event.is_block:
            need(event.previous in self.queues[event.sibling], "unknown state")
            need(event.previous not in event.woken, "woken inside its own block")
            del self.queues[event.sibling][event.previous]
        for sibling, state in sorted(event.before_siblings.items()):
            need(state["off"] == "0", "hotplug")
            need(int(state["nr"]) == len(self.queues[sibling]), "unknown state")
            need(sibling == event.sibling or int(state["curr"]) == self.running[sibling], "unknown state")

    def reply(self, event):
        """The reply of a schedule, and what it covers."""
        kind, cookie, forced = KINDS[event.kind], event.after["cookie"], int(event.after["count"])
        need(kind != "Adopted" or event.charge is None, "an adoption that charges")
        begins = kind == "Selected" and forced > 0
        need(not begins or int(event.after["start"]) == event.clock, "an interval begins at another clock")
        run = self.number_of(event.next, event.sibling) or "idle"
        what = "idle" if run == "idle" else "a task"
        if kind == "Adopted":
            need(cookie == event.before["cookie"], "unknown state")
            self.counts[f"adoptions of {what}"] += 1
        elif kind == "Plain":
            self.core_cookie = 0
            self.counts[f"plain picks of {what}"] += 1
        else:
            need(cookie in self.serials, "unknown cookie")
            self.core_cookie = self.serials[cookie]
            self.counts["selections that force " + ("a sibling idle" if forced else "nobody")] += 1
            if forced and self.core_cookie == 0:
                self.counts["selections that force a sibling idle under core cookie 0"] += 1
        return f"{kind} {run} core {self.core_cookie} forced {forced}"
