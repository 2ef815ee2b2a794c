"""Cuts the rounds of a boot into scenarios.

A scenario begins behind the first schedule after which nothing is queued and nobody runs, and ends where it cannot go
on, where it is long enough, or with its round. Then the next one begins behind the next such schedule.
"""

from collections import Counter
from dataclasses import dataclass

from converter.events import Break, Enqueue, Note, Reading, Schedule, Setting, Tick
from converter.need import End, need
from converter.rounds import Round
from converter.scenario import Scenario, may_begin

# So many steps behind a known difference are kept apart, in a scenario of at most so many steps.
BEHIND_DIFFERENCE = 40
MOST_APART = 600
OUTSIDE = "schedules outside any scenario"


@dataclass
class Kept:
    """A scenario that is to be written, of which round it is, and why it ended."""
    round: Round
    end: str
    scenario: Scenario


class Cutter:
    """`most` and `least` are steps. `turns` says in which scenarios a schedule that was asked for becomes a turn."""

    def __init__(self, most, least, turns):
        self.most, self.least, self.turns = most, least, turns
        self.kept, self.apart = [], []
        self.counts, self.ends = Counter(), Counter()
        self.scenario = self.round = None

    def cut(self, one):
        """Cuts a round."""
        self.counts["rounds"] += 1
        if not one.is_whole:
            self.counts["rounds dropped: lines lost"] += 1
            return
        if one.sums_that_differ():
            self.counts["rounds dropped: the kernel's sums have other charges than the trace"] += 1
            return
        self.round = one
        events = list(Reading().events(one.lines))
        living, cookies = dict(one.tasks), first_cookies(event for _, event in events)
        for at, event in events:
            self.go_on(event, at)
            if isinstance(event, Setting):
                cookies[event.pid] = event.new
            elif isinstance(event, Schedule) and event.is_exit:
                living.pop(event.previous, None)
                cookies.pop(event.previous, None)
            if self.scenario:
                self.end_where_enough()
            if not self.scenario and isinstance(event, Schedule) and may_begin(event):
                self.scenario = Scenario(one.siblings, dict(living), cookies, event.clock, at)
        if self.scenario:
            self.end("end of the round")

    def go_on(self, event, at):
        """Takes an event into the scenario, or ends this before it."""
        self.counts["schedules in the traces"] += isinstance(event, Schedule)
        if isinstance(event, Note):
            self.counts[event.what] += 1
        elif self.scenario:
            self.scenario.at = at
            try:
                self.add(event)
            except End as why:
                self.end(str(why))
                self.counts[OUTSIDE] += isinstance(event, Schedule)
        else:
            self.counts[OUTSIDE] += isinstance(event, Schedule)

    def add(self, event):
        match event:
            case Break():
                need(False, event.why)
            case Enqueue():
                self.scenario.wake(event)
            case Setting():
                self.scenario.set_cookie(event)
            case Tick():
                self.scenario.tick(event)
            case Schedule():
                every_second = self.turns == "even" and len(self.kept) % 2 == 1
                self.scenario.schedule(event, self.turns == "all" or every_second)

    def end_where_enough(self):
        steps, difference = len(self.scenario.steps), self.scenario.difference
        if difference and steps >= difference[0].steps + BEHIND_DIFFERENCE:
            self.end("")
        elif steps >= self.most:
            self.end("long enough")

    def end(self, why):
        """Ends the scenario at the last moment at which it may. Of one that met a known difference the steps before that
        stay, and where it is short, a copy with all of them is kept apart."""
        scenario, self.scenario = self.scenario, None
        scenario.cut_back(scenario.last_mark)
        if scenario.difference:
            mark, what = scenario.difference
            why = f"known difference: {what}"
            if len(scenario.steps) <= MOST_APART:
                self.apart.append((scenario.text(), scenario.expected()))
            else:
                self.counts["known difference, in a scenario too long to be stored"] += 1
            scenario.cut_back(mark)
        self.ends[why] += 1
        if len(scenario.steps) - scenario.begun < self.least:
            self.counts["scenarios dropped: shorter than the least length"] += 1
            self.counts["schedules dropped: scenario shorter than the least length"] += scenario.counts["schedules"]
        else:
            self.kept.append(Kept(self.round, why, scenario))


def first_cookies(events):
    """What each task holds before its first line."""
    cookies = {}
    for event in events:
        if isinstance(event, Enqueue):
            cookies.setdefault(event.pid, event.cookie)
        elif isinstance(event, Setting):
            cookies.setdefault(event.pid, event.old)
    return cookies
