#!/usr/bin/env python3
"""Compares `check` and `check json` of the built program with the verdicts of verdicts.py, on the texts of altered.py: status,
verdict and fault line. A text that is judged otherwise is kept in a folder of the system's temporary one.

Usage: checks.py --program PATH --count N --seed S [--limits]   N texts, or all at the limits
       checks.py --rows [--program PATH]                        the verdicts that are written down here
       checks.py --brute N [--seed S]                           verdicts.py alone, beside all runs of N tiny scenarios

The texts are true runs and altered ones, five of each scenario. A tiny scenario has so few orders of its steps that all its
runs are made. Its verdicts are then looked up in them.
"""
import argparse
import os
import random
import re
import sys
import time
from collections import Counter

sys.path.insert(0, os.path.dirname(os.path.abspath(__file__)))
import altered
import reference
import runs
import scenarios
import verdicts

HEAD = b'coresched 1\nsiblings 2\nlimits 4 4 65536\n'
EMPTY = HEAD + b'end\n'
GUARDS = b'guard 0 bench asked 0\nguard 1 bench asked 0\nguard 2 bench asked 0\nguard 3 bench asked 0\n'
NOTHING = b'report\nclock 0\nnumbers 0 0\ncore 0 forced 0 occupation 0\nintervals 0\ncpu 0 online runs idle number 0\n'
NOTHING += b'cpu 1 online runs idle number 0\n' + GUARDS + b'done\n'
THREE = b'''coresched 1
siblings 2
limits 8 8 65536
task 1 1 1 0 fifo:10 1000 1000 1000 1000 1000 1000 0 1 1
task 2 2 2 0 fifo:10 1000 1000 1000 1000 1000 1000 0 1 1
task 3 3 3 0 fifo:20 1000 1000 1000 1000 1000 1000 0 1 1
step c0 wake 1
step c0 wake 2
step s0 turn
step c0 wake 3
step s0 turn
step s0 block
end
'''
KEPT = [b'c0 wake 1: Woken 0', b'c0 wake 2: Woken 0', b's0 turn: Plain 1 core 0 forced 0', b'c0 wake 3: Woken 0',
        b's0 turn: Plain 3 core 0 forced 0', b's0 block: Slept 3 Plain 1 core 0 forced 0']
LATE = [b's0 turn: Nothing', b's0 turn: Nothing', b's0 block: Idle', b'c0 wake 1: Woken 0', b'c0 wake 2: Woken 0', b'c0 wake 3: Woken 0',
        b'end resched 0: Plain 3 core 0 forced 0']
REPORT = b"""report
clock 0
numbers %d 0
core 0 forced 0 occupation 0
intervals 0
cpu 0 online runs %d number 0
cpu 1 online runs idle number 0
task 1 cpu 0 queued cookie 0 forced 0 vtime 0
task 2 cpu 0 queued cookie 0 forced 0 vtime 0
task 3 cpu 0 %s cookie 0 forced 0 vtime 0
"""
AFTER_KEPT = REPORT % (7, 1, b'asleep') + GUARDS + b'done\n'
AFTER_LATE = REPORT % (4, 3, b'queued') + GUARDS + b'done\n'


def three(entries, rest=b''):
    """The three tasks with a run."""
    return THREE + b''.join(entry + b'\n' for entry in entries) + rest


def put(place, *lines):
    """These lines in the place of one entry."""
    return KEPT[:place] + list(lines) + KEPT[place + 1:]


def said(plain, as_json):
    """How `check` and `check json` end where they write these verdicts."""
    return (0, plain, b''), (0, as_json, b'')


def no(line, want, found):
    """How they end at a wrong line. None stands for what is not there."""
    plain = b'no line %d\nwant %s\nfound %s\n' % (line, want or b'-', b'-' if found is None else found)
    want, found = (b'null' if one is None else b'"%s"' % re.sub(rb'(["\\])', rb'\\\1', one) for one in (want, found))
    return said(plain, b'{"found":%s,"line":%d,"verdict":"no","want":%s}\n' % (found, line, want))


def refused(fault):
    return ((2, b'', b'coresched: ' + fault + b'\n'),) * 2


# ---- written down

YES = said(b'yes\n', b'{"verdict":"yes"}\n')
LONG = refused(b'input too long')
FIRST, THIRD, FIFTH = KEPT[0], KEPT[2], KEPT[4]


def rows():
    """Pairs: a text, and how `check` and `check json` end on it."""
    yield EMPTY + NOTHING, said(b'yes\n', b'{"verdict":"yes"}\n')
    yield three(put(4, THIRD), AFTER_KEPT), said(
        b'no line 18\nwant s0 turn: Plain 3 core 0 forced 0\nfound s0 turn: Plain 1 core 0 forced 0\n',
        b'{"found":"s0 turn: Plain 1 core 0 forced 0","line":18,"verdict":"no","want":"s0 turn: Plain 3 core 0 forced 0"}\n')
    yield THREE, said(b'no line 14\nwant -\nfound -\n', b'{"found":null,"line":14,"verdict":"no","want":null}\n')
    yield EMPTY, said(b'no line 5\nwant report\nfound -\n', b'{"found":null,"line":5,"verdict":"no","want":"report"}\n')
    yield EMPTY + b'a "b" \\n /\n', said(b'no line 5\nwant report\nfound a "b" \\n /\n',
                                        b'{"found":"a \\"b\\" \\\\n /","line":5,"verdict":"no","want":"report"}\n')
    yield three(KEPT, AFTER_KEPT), YES
    yield three(LATE, AFTER_LATE), YES
    yield from rows_of_entries()
    yield from rows_of_ends()
    yield from rows_of_bytes()
    yield from rows_of_scenarios()


def rows_of_entries():
    for line in [b's0 turn', b's0 turn:', b's0 turn:Nothing', b's0 turns: Nothing', b's0  turn: Nothing', b'S0 turn: Nothing', b' s0 turn: Nothing',
                 b's0 turn : Nothing', b's0 block: Idle', b's1 turn: Nothing', b'c0 wake 2: Woken 0', b'c0 wake 01: Woken 0', b'c1 wake 1: Woken 0',
                 b'c0 wake 1', b'report', b'done', b'end', b'end resched 0: Nothing', b'step c0 wake 1: Woken 0', b': ', b':', b' ']:
        yield three(put(0, line), AFTER_KEPT), no(14, None, line)
    for line in [b'c0 wake 1: ', b'c0 wake 1: Woken', b'c0 wake 1: Woken 0 ', b'c0 wake 1: Woken 00', b'c0 wake 1: woken 0', b'c0 wake 1: Woken 1',
                 b'c0 wake 1: Woken 0: ', b'c0 wake 1: c0 wake 1: Woken 0', b'c0 wake 1:  Woken 0']:
        yield three(put(0, line), AFTER_KEPT), no(14, FIRST, line)
    yield three(put(0, THIRD), AFTER_KEPT), no(14, b's0 turn: Nothing', THIRD)
    yield three(put(4, b'c0 wake 3: Woken 0'), AFTER_KEPT), no(18, None, b'c0 wake 3: Woken 0')
    yield three(put(1), AFTER_KEPT), no(16, None, KEPT[3])
    yield three(put(5), AFTER_KEPT), no(19, None, b'report')
    yield three(KEPT[:3]), no(17, None, None)
    yield three(KEPT[:2], THIRD), no(16, THIRD, THIRD)
    yield three(KEPT[:2], b's0 turn: Pl'), no(16, THIRD, b's0 turn: Pl')
    yield three(KEPT[:2], b's0 tu'), no(16, None, b's0 tu')
    yield three(KEPT[:5], KEPT[5]), no(19, KEPT[5], KEPT[5])


def rows_of_ends():
    picks = LATE[6]
    yield three(LATE[:6]), no(20, picks, None)
    yield three(LATE[:6], AFTER_LATE), no(20, picks, b'report')
    yield three(LATE[:6], b'end resched 1: Nothing\n' + AFTER_LATE), no(20, picks, b'end resched 1: Nothing')
    yield three(LATE[:6], picks), no(20, picks, picks)
    yield three(LATE + [picks], AFTER_LATE), no(21, b'report', picks)
    yield three(KEPT + [picks], AFTER_KEPT), no(20, b'report', picks)
    yield three(LATE, AFTER_KEPT), no(23, b'numbers 4 0', b'numbers 7 0')
    yield three(KEPT), no(20, b'report', None)
    yield three(KEPT + [b's0 turn: Nothing'], AFTER_KEPT), no(20, b'report', b's0 turn: Nothing')
    yield EMPTY + NOTHING[:-1], no(16, b'done', b'done')
    yield EMPTY + NOTHING[:-5], no(16, b'done', None)
    yield EMPTY + NOTHING[:-3], no(16, b'done', b'do')
    yield EMPTY + NOTHING + b'\n', no(17, None, b'')
    yield EMPTY + NOTHING + b'x', no(17, None, b'x')
    yield EMPTY + NOTHING + b'done\n', no(17, None, b'done')
    yield EMPTY + NOTHING + NOTHING, no(17, None, b'report')
    yield EMPTY + b'end\n' + NOTHING, no(5, b'report', b'end')
    yield EMPTY + b'\n' + NOTHING, no(5, b'report', b'')
    yield EMPTY + b'-\n', no(5, b'report', b'-')


def rows_of_bytes():
    yield EMPTY + b'report\r\n', no(5, b'report', b'report?')
    yield EMPTY + b'\x00\x1f ~\x7f\x80\xff\t', no(5, b'report', b'?? ~????')
    yield EMPTY + b'\xc3\xa9\n', no(5, b'report', b'??')
    for count in (199, 200, 201, 1000):
        for end in (b'', b'\n'):
            yield EMPTY + b'x' * count + end, no(5, b'report', b'x' * min(count, 200))
    yield EMPTY + b'x' * 199 + b'\xc3\xa9', no(5, b'report', b'x' * 199 + b'?')
    yield three([FIRST + b' ' * 300]), no(14, FIRST, FIRST + b' ' * 182)


def rows_of_scenarios():
    yield b'', refused(b'line 1: Cut')
    yield EMPTY[:-1], refused(b'line 4: Cut')
    yield HEAD + b'end \n' + NOTHING, refused(b'line 4: Shape')
    yield HEAD + NOTHING, refused(b'line 4: Shape')
    yield HEAD + b'end\r\nend\n' + NOTHING, refused(b'line 4: Shape')
    yield b'end\n' + NOTHING, refused(b'line 1: Shape')
    yield HEAD + b'step s0 turn\ntask 1\nend\n' + NOTHING, refused(b'line 5: Shape')
    yield HEAD + b'step s2 turn\nend\n' + NOTHING, refused(b'line 4: Number')
    yield HEAD + b'teach 3 1 1\nteach 4 1 1\nend\n' + NOTHING, refused(b'line 5: guard NoGuard')
    yield HEAD + b'teach 0 1 1\n' * 17 + b'end\n' + NOTHING, refused(b'line 20: guard Full')
    yield HEAD + b'teach 0 1 1\n' * 16 + b'end\n' + NOTHING, YES
    yield b'coresched 2' + HEAD[11:] + b'end\n' + NOTHING, YES
    yield (EMPTY + b'x' * 33554432)[:33554432], no(5, b'report', b'x' * 200)
    yield (EMPTY + b'x' * 33554433)[:33554433], LONG
    yield b'x' * 33554432, refused(b'line 1: Cut')


def played_rows(judged):
    """How many rows there are, and which of them are judged otherwise."""
    wrong, count = [], 0
    for count, (text, wanted) in enumerate(rows(), 1):
        ended = judged(text)
        if ended != wanted:
            wrong.append(count)
            print('WRONG: row %d: want %r, got %r' % (count, wanted, ended))
    return count, wrong


# ---- beside all runs

def all_orders(scripts):
    """The orders of the steps of these scripts that keep each script's own."""
    if not any(scripts):
        yield []
    for k, script in enumerate(scripts):
        if script:
            for order in all_orders(scripts[:k] + [script[1:]] + scripts[k + 1:]):
                yield script[:1] + order


def runs_of(data):
    """All runs of a scenario, each as its lines."""
    lines = data.split(b'\n')
    steps = [line for line in lines if line.startswith(b'step ')]
    head = [line for line in lines if line not in (b'end', b'') and line not in steps]
    actors = {step.split()[1]: [] for step in steps}
    for step in steps:
        actors[step.split()[1]].append(step)
    found = []
    for order in all_orders(list(actors.values())):
        run = reference.replay(b'\n'.join([*head, *order, b'end', b'']), check=False)[1]
        found.append(run.splitlines(keepends=True))
    return found, len(lines) - 1, len(steps)


def looked_up(members, before, steps, run):
    """How `check` has to end on a run, of a scenario of so many lines and steps that has these runs."""
    lines = re.findall(rb'[^\n]*\n|[^\n]+', run)
    if lines in members:
        return YES
    place = 0
    while place < len(lines) and any(member[:place + 1] == lines[:place + 1] for member in members):
        place += 1
    line = lines[place].removesuffix(b'\n') if place < len(lines) else None
    can = {member[place][:-1] for member in members if member[:place] == lines[:place] and len(member) > place}
    if place < steps:
        named, colon, _ = (line or b'').partition(b': ')
        can = {one for one in can if colon and one.partition(b': ')[0] == named}
    assert len(can) <= 1, 'the step before the colon, or the place, decides the line'
    found = None if line is None else re.sub(rb'[^ -~]', b'?', line)[:200]
    return no(before + place + 1, can.pop() if can else None, found)


def bruted(count, seed):
    """Looks the verdicts of texts of tiny scenarios up in all their runs."""
    began, wrong, ends = time.time(), 0, Counter()
    for k in range(count):
        rng = random.Random('brute %d/%d' % (seed, k))
        data = altered.tiny(rng, 60)
        members, before, steps = runs_of(data)
        texts = [b''.join(member) for member in members]
        texts += [altered.altered(rng, rng.choice(texts)) for _ in range(30)]
        for run in texts if members[0] else []:
            want, got = looked_up(members, before, steps, run), verdicts.both(data + run)
            ends[want == YES] += 1
            if want != got:
                wrong += 1
                keep('brute-seed%d-%d' % (seed, k), data + run, want, got)
    print('brute, seed %d: %d scenarios, %d texts, %d yes, %d wrong; %.0f s' % (
        seed, count, sum(ends.values()), ends[True], wrong, time.time() - began))
    return 1 if wrong else 0


# ---- the program

def judged_by(program):
    """How `check` and `check json` of a program end on a text."""
    return lambda text: (runs.ran([program, 'check'], text), runs.ran([program, 'check', 'json'], text))


def texts(a):
    """Pairs (name, text)."""
    if a.limits:
        yield from altered.limit_texts()
        return
    for k in range(a.count):
        rng = random.Random('checks %d/%d' % (a.seed, k))
        if k % 5 == 0:
            data = scenarios.scenario(rng)
        kind, text = altered.text(rng, data)
        yield 'checks-seed%d-%d-%s' % (a.seed, k, kind), text


def keep(name, text, want, got):
    """Keeps a text that is judged otherwise, and shows the forms that differ."""
    base = runs.kept(name)
    runs.write(base + '.text', text)
    for one, other in zip(want, got):
        if one != other:
            print('WRONG: %s.text: want %r, got %r' % (base, one, other))


def compared(a):
    """Compares the verdicts of the program with those of verdicts.py."""
    began, wrong, ends = time.time(), 0, Counter()
    judged = judged_by(a.program)
    for name, text in texts(a):
        want, got = verdicts.both(text), judged(text)
        ends['refused' if want[0][0] else 'yes' if want == YES else 'no'] += 1
        if want != got:
            wrong += sum(one != other for one, other in zip(want, got))
            keep(name, text, want, got)
    what = 'texts at the limits' if a.limits else 'seed %d' % a.seed
    print('checks, %s: %d checks, %d wrong; %d texts yes, %d no, %d refused; %.0f s' % (
        what, 2 * sum(ends.values()), wrong, ends['yes'], ends['no'], ends['refused'], time.time() - began))
    return 1 if wrong else 0


def main():
    p = argparse.ArgumentParser()
    p.add_argument('--program', help='the built program')
    p.add_argument('--count', type=int, default=1000)
    p.add_argument('--seed', type=int, default=1)
    p.add_argument('--limits', action='store_true')
    p.add_argument('--rows', action='store_true')
    p.add_argument('--brute', type=int)
    a = p.parse_args()
    if a.brute is not None:
        return bruted(a.brute, a.seed)
    if a.rows:
        count, wrong = played_rows(judged_by(a.program) if a.program else verdicts.both)
        print('rows: %d, %d wrong' % (count, len(wrong)))
        return 1 if wrong else 0
    if not a.program:
        p.error('--program, --rows or --brute is needed')
    return compared(a)


if __name__ == '__main__':
    sys.exit(main())
