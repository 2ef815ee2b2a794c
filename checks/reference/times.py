#!/usr/bin/env python3
"""Compares `coresched_view summary` of the built program with what the rules as reference.py has them come to: how each run
ends, and every time of it. A room of the reference is played, and before each advance it is looked at what each sibling
and each task does. Half of the texts are mutated, so that faulty ones are among them. And it is tried which words are refused.

Usage: times.py                            prints the summary of the scenario on standard input
       times.py --program PATH --count N --seed S    compares N random scenarios and as many mutated texts
"""
import argparse
import itertools
import os
import sys
import time
from collections import Counter

sys.path.insert(0, os.path.dirname(os.path.abspath(__file__)))
import mutations
import reference
import runs

WORDS = [[], [''], ['summary', ''], ['', 'summary'], ['summary', 'summary'], ['--help'], ['-h'], ['help'], ['help', 'summary'], ['--version'], ['-V'],
         ['-'], ['--'], ['--', 'summary'], ['summary', '--'], ['summary', '--help'], ['summary', 'help'], ['Summary'], ['summar'], ['summarys'], ['s'],
         ['segment'], ['segmentsjson'], ['segments json'], ['segments', 'json'], ['segments-jsons'], ['segments', 'segments'], ['segments', 'summary'],
         ['segments-json', '--help'], ['pictures'], ['picture', 'picture'], ['picture', '-o'], ['Picture'], ['help', 'picture'],
         ['tables'], ['Table'], ['table', 'table'], ['table', '--help'], ['explains'], ['Explain'], ['explain', 'summary'], ['help', 'explain'],
         ['summary\n'], ['summ\u00e1ry'], ['replay'], ['coresched_view'], ['coresched_view', 'summary']]


REFUSALS = ['NoTask', 'Awake', 'Idle', 'NoCaller', 'Offline']
ERRORS = ['EPERM', 'ESRCH', 'ENOMEM', 'EFAULT', 'ENODEV', 'EINVAL', 'EAGAIN', 'EBUSY', 'HasThreads', 'Already', 'NoGuard']


def doing(room, sibling):
    """What a sibling does, in the word of its time."""
    if not sibling.online:
        return 'offline'
    if sibling.run is not None:
        return 'ran'
    if not room.queued(sibling.i):
        return 'idle'
    return 'cookie' if room.core else 'none'


def replies(room):
    """How many entries of a room were refused, and how: the named refusals by their names, and all others together."""
    told = [entry.split(': ', 1)[1] for entry in room.entries]
    counts = [(name, told.count(name)) for name in REFUSALS] + [('errors', sum(told.count(name) for name in ERRORS))]
    return 'replies ' + ' '.join('%s %d' % count for count in counts)


def task_doing(room, task):
    """What a living task does, in the word of its time."""
    if any(sibling.run is task for sibling in room.sib):
        return 'ran'
    return 'waited' if task.queued else 'slept'


def leaving(room, event):
    """The task that an event may end, and its cookie before that."""
    if event[0] != 'exit' or event[1] >= len(room.sib) or room.sib[event[1]].run is None:
        return None
    task = room.sib[event[1]].run
    return task.pid, task.cookie


def charges(room, left_with):
    """What each task was charged, the cookie for which that counts, and what each cookie is charged: that of the living tasks
    which have it, and of the ended ones which had it when they ended."""
    charged = {task.pid: task.total for task in list(room.tasks.values()) + room.ended}
    counts_for = {pid: room.tasks[pid].cookie if pid in room.tasks else left_with[pid] for pid in charged}
    by_cookie = Counter()
    for pid, total in charged.items():
        by_cookie[counts_for[pid]] += total
    assert sum(by_cookie.values()) == sum(charged.values()), 'each charge counts for one cookie'
    return charged, counts_for, by_cookie


class SideBySide:
    """For how long tasks with distinct keys ran side by side: in all, without a break, and pair by pair."""

    def __init__(self):
        self.all = self.lasting = self.longest = 0
        self.pairs = {}

    def pass_time(self, delta, keys):
        apart = len(keys) > 1
        self.all += delta * apart
        self.lasting = self.lasting + delta if apart else 0
        self.longest = max(self.longest, self.lasting)
        for pair in itertools.combinations(sorted(keys), 2):
            self.pairs[pair] = self.pairs.get(pair, 0) + delta


class Times:
    """What is told of a scenario's replay: the time of each sibling, task, cookie and pair by what it did, and the room at
    the end of it."""

    def __init__(self, scenario):
        self.room = reference.Room(scenario, check=False)
        self.siblings = [dict.fromkeys(['ran', 'idle', 'offline', 'cookie', 'none', 'pending'], 0) for _ in self.room.sib]
        self.tasks, self.cookies, self.left_with = {}, {}, {}
        self.exposed, self.mixed = SideBySide(), SideBySide()
        # The waits of each task from a wake to its run, as they began: each with its length so far, and those that go on.
        self.waits, self.going_on = {}, {}
        self.pending = self.total = 0
        for _, event, text in scenario.steps:
            self.see_runs()
            if event[0] == 'advance':
                self.pass_time(event[1])
            left = leaving(self.room, event)
            self.room.apply(event, text)
            self.see_wakes(event)
            if left is not None and left[0] not in self.room.tasks:
                self.left_with[left[0]] = left[1]
        self.room.drain()

    def pass_time(self, delta):
        """Adds so many ns to the time of what each sibling and each task does."""
        room = self.room
        self.total += delta
        for sibling, times in zip(room.sib, self.siblings):
            times[doing(room, sibling)] += delta
            times['pending'] += delta * (sibling.online and sibling.pending)
        for task in room.tasks.values():
            for times in self.tasks.setdefault(task.pid, Counter()), self.cookies.setdefault(task.cookie, Counter()):
                times[task_doing(room, task)] += delta
        self.pending += delta * any(sibling.online and sibling.pending for sibling in room.sib)
        running = [sibling.run for sibling in room.sib if sibling.online and sibling.run is not None]
        self.exposed.pass_time(delta, {task.cookie for task in running})
        self.mixed.pass_time(delta, {task.tgid for task in running})
        for pid in self.going_on:
            self.waits[pid][-1] += delta

    def see_runs(self):
        """A wait is over before an entry before which the task runs."""
        for sibling in self.room.sib:
            if sibling.run is not None:
                self.going_on.pop(sibling.run.pid, None)

    def see_wakes(self, event):
        """A wait begins after an entry that wakes a task or makes one."""
        reply = self.room.entries[-1].split(': ', 1)[1].split()
        if reply[0] == 'Woken' or reply[0] == 'Child':
            pid = event[1] if reply[0] == 'Woken' else int(reply[1])
            assert pid not in self.going_on, 'a task is woken only after it ran'
            self.waits.setdefault(pid, []).append(0)
            self.going_on[pid] = True


def lines_of_siblings(played):
    for cpu, times in enumerate(played.siblings):
        assert sum(times.values()) - times['pending'] == played.total, 'what a sibling did adds up to all time'
        yield 'cpu %d ran %d idle %d offline %d pending %d' % (cpu, *(times[of] for of in ('ran', 'idle', 'offline', 'pending')))
        yield 'forced %d cookie %d none %d' % (cpu, times['cookie'], times['none'])


def lines_of_tasks(played, pids):
    """The lines of the tasks and of the cookies. Those of the pids are in the scenario."""
    charged, counts_for, by_cookie = charges(played.room, played.left_with)
    for pid in sorted(played.tasks.keys() | {pid for pid, sum_of in charged.items() if sum_of}):
        times = played.tasks.get(pid, Counter())
        if pid in played.room.tasks and pid in pids:
            assert sum(times.values()) == played.total, 'a task of the scenario that lives at the end lived all the time'
        yield 'task %d ran %d waited %d slept %d charged %d cookie %d' % (
            pid, times['ran'], times['waited'], times['slept'], charged[pid], counts_for[pid])
    for cookie in sorted(played.cookies.keys() | {cookie for cookie, sum_of in by_cookie.items() if sum_of}):
        times = played.cookies.get(cookie, Counter())
        yield 'cookie %d ran %d waited %d slept %d charged %d' % (cookie, times['ran'], times['waited'], times['slept'], by_cookie[cookie])


def lines_of_waits(played):
    for pid in sorted(played.waits):
        waits = played.waits[pid]
        assert sum(waits) <= played.tasks.get(pid, Counter())['waited'], 'a task waits for no less than from its wakes on'
        yield 'waits %d count %d longest %d sum %d' % (pid, len(waits), max(waits), sum(waits))


def lines_side_by_side(times, name, of_pair):
    assert all(0 < time <= times.all for time in times.pairs.values()), 'a pair runs side by side for no longer than any do'
    yield '%s %d longest %d' % (name, times.all, times.longest)
    for pair in sorted(times.pairs):
        yield '%s %d %d %s %d' % (of_pair, *pair, name, times.pairs[pair])


def lines_of_core(played):
    assert played.exposed.all <= played.pending, 'tasks with distinct cookies run side by side only if a reschedule is pending'
    yield from lines_side_by_side(played.exposed, 'exposed', 'pair')
    yield from lines_side_by_side(played.mixed, 'mixed', 'groups')
    yield 'pending %d' % played.pending
    yield replies(played.room)
    yield 'total %d' % played.total


def summary(scenario):
    """The text of what is told of a scenario's replay."""
    played = Times(scenario)
    lines = [*lines_of_siblings(played), *lines_of_tasks(played, {line[0] for line in scenario.tasks}), *lines_of_waits(played),
             *lines_of_core(played)]
    return ''.join(line + '\n' for line in lines).encode()


def summarized(data):
    """(status, standard output, standard error) of `coresched_view summary`. A faulty text ends as in a replay."""
    status, _, error = reference.replay(data, check=False)
    if status:
        return status, b'', error.replace(b'coresched:', b'coresched_view:', 1)
    return 0, summary(reference.read(data)), b''


def refused(program, words):
    """Whether the program says that it does not know the words. It reads no input."""
    return runs.ran([program, *words]) == (1, b'', b'coresched_view: bad words\n')


def main():
    p = argparse.ArgumentParser()
    p.add_argument('--program', help='the built program')
    p.add_argument('--count', type=int, default=1000)
    p.add_argument('--seed', type=int, default=1)
    a = p.parse_args()
    if not a.program:
        status, out, error = summarized(sys.stdin.buffer.read(reference.MAX_INPUT + 1))
        sys.stdout.buffer.write(out)
        sys.stdout.buffer.flush()
        sys.stderr.buffer.write(error)
        return status
    began, wrong, played, exposed = time.time(), 0, 0, 0
    for name, text in mutations.each_text('times', a.count, a.seed):
        want, got = summarized(text), runs.ran([a.program, 'summary'], text)
        played += want[0] == 0
        exposed += b'exposed' in want[1] and b'exposed 0 ' not in want[1]
        if got != want:
            wrong += 1
            base = runs.kept(name)
            runs.write(base + '.scenario', text)
            print('WRONG: %s.scenario\n  want %r\n  got  %r' % (base, want, got))
    taken = [words for words in WORDS if not refused(a.program, words)]
    print('times, seed %d: %d texts, %d played, %d of them exposed, %d wrong; lists of words: %d, %d wrong%s; %.0f s' % (
        a.seed, 2 * a.count, played, exposed, wrong, len(WORDS), len(taken), ''.join(' %r' % words for words in taken), time.time() - began))
    return 1 if wrong or taken else 0


if __name__ == '__main__':
    sys.exit(main())
