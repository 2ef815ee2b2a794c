#!/usr/bin/env python3
"""Judges races of the built program by the rules as reference.py has them. In what a race wrote each actor has to have
made its own step lines, in their order. And it has to be what a replay writes of the same scenario with its step lines in
the order of the race. So each reply, the entries of the end and the report are judged too. And the program itself has
to say yes when it checks the run.

Usage: races.py --program PATH --count N --seed S [--runs R] [--beside B] [--under WORDS]

Races N random scenarios R times each, B at a time, and tells how many of them came out in more than one order. Each
third scenario is one of version 2 with 16 siblings, whose calls are dealt to 8 callers. A seed has the same scenarios
each time. The words, as 'taskset -c 0' or 'strace -f -o /dev/null', stand before the program's.
"""
import argparse
import os
import random
import re
import shlex
import sys
import time
from concurrent.futures import ThreadPoolExecutor

sys.path.insert(0, os.path.dirname(os.path.abspath(__file__)))
import reference
import runs
import scenarios


def steps_of(data):
    """The step lines of a scenario."""
    return [line for line in data.decode().splitlines() if line.startswith('step ')]


def in_order(data, order):
    """The scenario with its step lines in this order, or with some of them."""
    head = [line for line in data.decode().splitlines() if line != 'end' and not line.startswith('step ')]
    return '\n'.join([*head, *order, 'end', '']).encode()


def scripts(steps):
    """The step lines of each actor, in their order."""
    found = {}
    for step in steps:
        found.setdefault(step.split()[1], []).append(step)
    return found


def order_of(output):
    """The step lines whose entries a race wrote, in the order of these."""
    entries = output.decode().partition('report\n')[0].splitlines()
    return ['step ' + entry.partition(': ')[0] for entry in entries if not entry.startswith('end ')]


def judged(data, run):
    """What is wrong with a run, or None; and the order of its steps."""
    if run[0] != 0:
        return (None if run == reference.replay(data) else 'it ended as a replay does not'), ()
    order = order_of(run[1])
    if scripts(order) != scripts(steps_of(data)):
        return 'an actor did not make its own steps in their order', tuple(order)
    is_right = run == reference.replay(in_order(data, order))
    return (None if is_right else 'a replay in its order writes something else'), tuple(order)


def checked(program, data, run):
    """What is wrong with what the program's own `check` says of a run, or None. There is none of one that printed nothing."""
    if run[0] != 0:
        return None
    said = runs.ran([*program, 'check'], data + run[1])
    return None if said == (0, b'yes\n', b'') else '`check` does not say yes'


def scenario(seed, k):
    """The scenario of this number. Each third one is wide."""
    rng = random.Random('%d/%d' % (seed, k))
    if k % 3 != 2:
        return scenarios.scenario(rng)
    made = scenarios.Wide(rng, steps=rng.choice([80, 150, 400])).make().decode()
    return re.sub(r'^step c\d', lambda _: 'step c%d' % rng.randrange(8), made, flags=re.M).encode()


def main():
    p = argparse.ArgumentParser()
    p.add_argument('--program', required=True, help='the built program')
    p.add_argument('--count', type=int, default=1000)
    p.add_argument('--seed', type=int, default=1)
    p.add_argument('--runs', type=int, default=5)
    p.add_argument('--beside', type=int, default=8)
    p.add_argument('--under', default='', help='the words of a command that runs the program')
    a = p.parse_args()
    program = [*shlex.split(a.under), a.program]
    began, wrong, many, most, widest = time.time(), 0, 0, 0, 0
    with ThreadPoolExecutor(a.beside) as pool:
        for k in range(a.count):
            data = scenario(a.seed, k)
            widest = max(widest, len(scripts(steps_of(data))))
            ended = list(pool.map(lambda _: runs.ran([*program, 'race'], data), range(a.runs)))
            said = list(pool.map(lambda run: checked(program, data, run), ended))
            told = [(fault or other, order) for (fault, order), other in zip((judged(data, run) for run in ended), said)]
            wrong += sum(fault is not None for fault, _ in told)
            for (fault, _), run in zip(told, ended):
                if fault:
                    base = runs.kept('race-seed%d-%d' % (a.seed, k))
                    runs.write(base + '.scenario', data)
                    runs.write(base + '.got', run[1] + b'--- stderr\n' + run[2])
                    print('WRONG: %s: %s.scenario' % (fault, base))
            orders = len({order for _, order in told})
            many += orders > 1
            most = max(most, orders)
    print('races, seed %d: %d runs of %d scenarios, %d wrong; %d scenarios came out in more than one order, one in %d of %d; at most %d actors; %.0f s'
          % (a.seed, a.count * a.runs, a.count, wrong, many, most, a.runs, widest, time.time() - began))
    return 1 if wrong else 0


if __name__ == '__main__':
    sys.exit(main())
