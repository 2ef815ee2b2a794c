#!/usr/bin/env python3
"""Tries `coresched_view explain` on random scenarios and as many mutated texts. It ends as a replay by the rules of
reference.py does, and with the same fault line on standard error. What it writes begins with that line, without the name of
the program, and goes on with the bad line if that can be shown, and with one sentence. Of a valid text it says what that has.

Usage: explains.py --program PATH --count N --seed S    compares N random scenarios and as many mutated texts
"""
import argparse
import os
import re
import sys
import time
from collections import Counter

sys.path.insert(0, os.path.dirname(os.path.abspath(__file__)))
import mutations
import reference
import runs


def counted(data):
    """What is said of a valid text."""
    scenario = reference.read(data)
    return ('a scenario: siblings %d, tasks %d, teach lines %d, steps %d\n' % (
        scenario.siblings, len(scenario.tasks), len(scenario.teaches), len(scenario.steps))).encode()


def wrong_with(data, got):
    """What is wrong with how the program ended, or None."""
    status, out, error = got
    wanted, _, fault = reference.replay(data, check=False)
    fault = fault.replace(b'coresched:', b'coresched_view:', 1)
    if (status, error) != (wanted, fault):
        return 'ends with %s and %r, and a replay with %s and %r' % (status, error, wanted, fault)
    if not status:
        return None if out == counted(data) else 'says %r' % out
    line = fault.removeprefix(b'coresched_view: ')
    if not out.startswith(line):
        return 'begins with %r, and not with %r' % (out[:80], line)
    rest = out[len(line):]
    if not re.fullmatch(rb'([ -~]+\n){1,3}', rest):
        return 'goes on with %r' % rest
    return None


def main():
    p = argparse.ArgumentParser()
    p.add_argument('--program', required=True, help='the built program')
    p.add_argument('--count', type=int, default=1000)
    p.add_argument('--seed', type=int, default=1)
    a = p.parse_args()
    began, wrong, ends = time.time(), 0, Counter()
    for name, text in mutations.each_text('explains', a.count, a.seed):
        got = runs.ran([a.program, 'explain'], text)
        ends[got[0]] += 1
        fault = wrong_with(text, got)
        if fault:
            wrong += 1
            base = runs.kept(name)
            runs.write(base + '.scenario', text)
            print('WRONG: %s.scenario: %s' % (base, fault))
    print('explains, seed %d: %d texts, %d explained, %d wrong; %.0f s' % (a.seed, 2 * a.count, ends[2], wrong, time.time() - began))
    return 1 if wrong else 0


if __name__ == '__main__':
    sys.exit(main())
