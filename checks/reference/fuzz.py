#!/usr/bin/env python3
"""Compares the built program with the rules as reference.py has them: statuses, fault lines and every line of the
output of `replay`, and what `upgrade` makes of the same text, which is replayed too. Where they differ, the scenario and both outputs are kept in a folder of the system's temporary one.

Usage: fuzz.py --program PATH --count N --seed S [--mutated | --both | --limits] [--coverage]
       fuzz.py --crate .../crates/coresched --count N --seed S [--mutated | --both | --limits]
       fuzz.py --self N [--seed S]

The first runs N random scenarios, or as many texts that were mutated, or as many of both, or all texts at the limits.
The second does the same in one build that proves nothing. The third tries the reference alone against its own
assertions. A seed has the same texts each time. The gate runs --both with 300 and seed 1.
"""
import argparse
import os
import random
import re
import shutil
import subprocess
import sys
import tempfile
import time
from collections import Counter
from itertools import zip_longest

sys.path.insert(0, os.path.dirname(os.path.abspath(__file__)))
import reference
from limits import limit_texts
from mutations import mutate
from runs import DIFFS, kept, ran, write
from scenarios import Gen, scenario


def texts(a):
    """Pairs (name, text)."""
    if a.limits:
        for name, data in limit_texts():
            yield 'limits-' + name, data
        return
    for mutated in [False, True] if a.both else [a.mutated]:
        for k in range(a.count):
            rng = random.Random('%d/%d' % (a.seed, k))
            if mutated:
                yield 'mutated-seed%d-%d' % (a.seed, k), mutate(rng, Gen(rng, None, rng.choice([3, 10, 30])).make())
            else:
                yield 'seed%d-%d' % (a.seed, k), scenario(rng)


def end_of(result):
    """How a run ends, in a word."""
    return result[2].decode().split()[-1] if result[0] else 'played'


class Compare:
    """The program beside the reference."""

    def __init__(self, a):
        self.path = a.program
        self.diffs = 0
        self.stats = Counter()
        self.ends = Counter()

    def wanted(self, data):
        return reference.replay(data, self.stats)

    def one(self, name, data):
        want = self.wanted(data)
        self.ends[end_of(want)] += 1
        self.same(name, data, 'replay', want)
        upgraded = reference.upgrade(data)
        self.same(name + '-upgrade', data, 'upgrade', upgraded)
        if upgraded[0] == 0 and want[0] == 0:
            self.same(name + '-upgraded', upgraded[1], 'replay', want)
            self.same(name + '-again', upgraded[1], 'upgrade', upgraded)

    def same(self, name, data, command, want):
        """Expects that of the command over the text."""
        got = ran([self.path, command], data)
        if got != want:
            self.diffs += 1
            self.keep(name, data, want, got)

    def keep(self, name, data, want, got):
        base = kept(name)
        write(base + '.scenario', data)
        for tag, res in (('want', want), ('got', got)):
            write(base + '.' + tag, res[1] + b'--- stderr\n' + res[2] + b'--- status %s\n' % str(res[0]).encode())
        print('DIFF %s: %s.scenario' % (name, base))
        if want[0] != got[0] or want[2] != got[2]:
            print('  want status %s, %r; got status %s, %r' % (want[0], want[2][:200], got[0], got[2][:200]))
        for i, (w, g) in enumerate(zip_longest(want[1].split(b'\n'), got[1].split(b'\n')), 1):
            if w != g:
                print('  output line %d: want %r, got %r' % (i, w, g))
                break
        sys.stdout.flush()


def against_program(a):
    began = time.time()
    c = Compare(a)
    for name, data in texts(a):
        c.one(name, data)
        if c.diffs >= a.stop_after:
            print('too many differences')
            break
    if a.coverage:
        show(c.stats)
    ends = ', '.join('%d %s' % (n, end) for end, n in c.ends.most_common())
    print('%s: %d texts compared, %d differences; %s; %.0f s' % (what(a), sum(c.ends.values()), c.diffs, ends, time.time() - began))
    return 1 if c.diffs else 0


def what(a):
    kind = 'texts at the limits' if a.limits else 'random and mutated' if a.both else 'mutated' if a.mutated else 'random'
    return 'fuzz, %s' % kind + ('' if a.limits else ', seed %d' % a.seed)


# ---------------------------------------------------------------- without a built program

def cases_in(folder, a, stats):
    """Writes a case for each text that is not too long. Gives its name and the result that it has to have, by case."""
    found = {}
    for n, (name, data) in enumerate(texts(a)):
        res = reference.replay(data, stats)
        if len(res[1]) <= 1000000 and len(data) <= 4000000:
            case = 'c%05d' % n
            found[case] = name, res
            write(os.path.join(folder, case), data)
            write(os.path.join(folder, case + '.stdout'), res[1])
    return found


def by_try(a):
    """One build by `rt try --cases` in a crate's folder, with all cases in one go. The status and standard
    output of each are compared; the fault line is not seen."""
    os.makedirs(DIFFS, exist_ok=True)
    folder = tempfile.mkdtemp(prefix='cases-', dir=os.path.dirname(DIFFS))
    stats = Counter()
    cases = cases_in(folder, a, stats)
    r = subprocess.run(['rt', 'try', '--cases', folder, '--', 'replay'], cwd=a.crate, capture_output=True)
    log = r.stdout.decode('utf-8', 'replace') + r.stderr.decode('utf-8', 'replace')
    seen, diffs = 0, 0
    for m in re.finditer(r'^case=(\S+) run=(\S+) status=(\S+) .*?output=(\S+)', log, re.M):
        case, run, status, out = m.groups()
        name, want = cases[case]
        seen += 1
        if run != 'ended' or status != str(want[0]) or out != 'expected':
            diffs += 1
            base = kept('try-' + name)
            shutil.copy(os.path.join(folder, case), base + '.scenario')
            shutil.copy(os.path.join(folder, case + '.stdout'), base + '.want')
            print('DIFF %s: %s.scenario\n  want status %d, got %s' % (name, base, want[0], m.group(0)))
    write(os.path.join(os.path.dirname(DIFFS), 'try.log'), log.encode())
    if seen == len(cases):
        shutil.rmtree(folder)
    else:
        print('only %d of %d cases ran; see try.log:\n%s' % (seen, len(cases), log[-500:]))
    if a.coverage:
        show(stats)
    print('%s: %d of %d cases ran, %d differences' % (what(a), seen, len(cases), diffs))
    return 1 if diffs or seen != len(cases) else 0


def alone(a):
    """The reference against its own assertions."""
    began = time.time()
    stats, ends = Counter(), Counter()
    failed = 0
    for k in range(a.alone):
        rng = random.Random('%d/%d' % (a.seed, k))
        data = scenario(rng)
        try:
            status, _, err = reference.replay(data, stats)
            assert status == 0 or b': guard ' in err, err
        except AssertionError as e:
            name = kept('self-%d-%d' % (a.seed, k)) + '.scenario'
            write(name, data)
            print('ASSERTION %s: %s' % (e, name))
            failed += 1
        ends['mutated: ' + end_of(reference.replay(mutate(rng, data)))] += 1
    show(stats)
    show(ends)
    print('self: seed %d, %d scenarios, %d assertions failed, %.0f s' % (a.seed, a.alone, failed, time.time() - began))
    return 1 if failed else 0


def show(stats):
    for k, v in sorted(stats.items(), key=lambda it: (it[0].split(' ')[0].rstrip(':'), it)):
        print('%10d  %s' % (v, k))


def main():
    p = argparse.ArgumentParser()
    p.add_argument('--program', help='the built program')
    p.add_argument('--crate', help="the folder of the crate coresched: one build by `rt try --cases`, nothing proved")
    p.add_argument('--self', type=int, dest='alone', help='as many scenarios, against the assertions of the reference')
    p.add_argument('--count', type=int, default=1000)
    p.add_argument('--seed', type=int, default=1)
    p.add_argument('--mutated', action='store_true')
    p.add_argument('--both', action='store_true')
    p.add_argument('--limits', action='store_true')
    p.add_argument('--stop-after', type=int, default=50, help='end after as many differences')
    p.add_argument('--coverage', action='store_true', help='print the counts of what the scenarios reached')
    a = p.parse_args()
    if a.alone is not None:
        return alone(a)
    if a.crate:
        return by_try(a)
    if not a.program:
        p.error('--program, --crate or --self is needed')
    return against_program(a)


if __name__ == '__main__':
    sys.exit(main())
