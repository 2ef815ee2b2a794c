#!/usr/bin/env python3
"""Compares `drill N` of the built program with the rules as reference.py has them, byte by byte, and which words are a
command's. The scenario of a seed is drawn here, as a text, and played by reference.py; its picks and steals are counted in
what it prints.

Usage: drill.py SEED                       prints the output of the drill
       drill.py --text SEED                prints its scenario
       drill.py --program PATH --count N --seed S --lists L    compares N drills, those of 0 and 4294967295 first, and L
                                                               lists of words, 1,000 where it is not said
"""
import argparse
import os
import random
import sys
from concurrent.futures import ProcessPoolExecutor

sys.path.insert(0, os.path.dirname(os.path.abspath(__file__)))
import reference
import runs

TASKS, STEPS, MOST = 24, 20000, 4294967295


class Draws:
    def __init__(self, seed):
        self.word = seed

    def below(self, m):
        self.word = (self.word * 6364136223846793005 + 1442695040888963407) % 2**64
        return (self.word >> 33) % m

    def sibling(self):
        return self.below(4)

    def pid(self):
        return 1 + self.below(TASKS)

    def policy(self):
        kind = self.below(4)
        if kind == 3:
            return 'fair:%d' % (self.below(40) - 20)
        if kind == 2:
            return 'dl:%d' % (1000000 * (1 + self.below(50)))
        return '%s:%d' % (('fifo', 'rr')[kind], 1 + self.below(99))

    def step(self):
        kind = self.below(20)
        own = {6: 'resched', 7: 'tick', 8: 'block', 17: 'exit'}
        if kind <= 5 or kind in own:
            return 's%d %s' % (self.sibling(), own.get(kind, 'turn'))
        if kind <= 11:
            return 'c0 wake %d' % self.pid()
        if kind == 12:
            return 'c0 advance %d' % (1 + self.below(5000000))
        if kind in (13, 14):
            caller = self.pid()
            return 'c0 prctl %d %d %d 0 0' % (caller, kind - 12, self.pid())
        if kind == 15:
            pid = self.pid()
            return 'c0 setsched %d %s' % (pid, self.policy())
        if kind == 16:
            return 'c0 fork %d process' % self.pid()
        return 'c0 %s %d' % ({18: 'offline', 19: 'online'}[kind], self.sibling())


def text(seed):
    draws = Draws(seed)
    lines = ['coresched 1', 'siblings 4', 'limits 64 16 1048576']
    for pid in range(1, TASKS + 1):
        lines.append('task %d %d %d %d %s%s 0 1 1' % (pid, pid, pid, (pid - 1) % 4, draws.policy(), ' 1000' * 6))
    lines += ['step ' + draws.step() for _ in range(STEPS)]
    return ''.join(line + '\n' for line in lines + ['end'])


def drilled(seed):
    """What `drill SEED` has to print."""
    status, output, error = reference.replay(text(seed).encode(), check=False, caps=[])
    assert status == 0, error
    lines = output.decode().splitlines()
    end = lines.index('report')
    counts = dict.fromkeys(['Selected', 'Adopted', 'Plain', 'Stole', 'Missed'], 0)
    for entry in lines[:end]:
        for word in entry.partition(': ')[2].split():
            if word in counts:
                counts[word] += 1
    head = ['drill %d steps %d entries %d' % (seed, STEPS, end), 'picks %(Selected)d %(Adopted)d %(Plain)d' % counts,
            'steals %(Stole)d %(Missed)d' % counts]
    return ''.join(line + '\n' for line in head + lines[end:]).encode()


def known(words):
    """Whether the program knows the words."""
    if words in (['replay'], ['race'], ['upgrade'], ['check'], ['check', 'json']):
        return True
    if len(words) != 2 or words[0] != 'drill':
        return False
    return words[1].isascii() and words[1].isdigit() and str(int(words[1])) == words[1] and int(words[1]) <= MOST


LISTS = [[], [''], ['replay', ''], ['', 'replay'], ['--help'], ['-h'], ['help'], ['--version'], ['-V'], ['-'], ['--'], ['--', 'replay'],
         ['replay', '--'], ['replay', 'replay'], ['race', 'replay'], ['replay', 'race'], ['race', 'race'], ['drill'], ['drill', ''],
         ['drill', '007'], ['drill', '00'], ['drill', '+1'], ['drill', '-1'], ['drill', '1 '], ['drill', ' 1'], ['drill', '1', '2'],
         ['drill', '--', '1'], ['drill', '4294967296'], ['drill', '18446744073709551617'], ['drill', '1e3'], ['drill', '0x1'],
         ['drill', 'drill'], ['drill', 'help'], ['help', 'drill'], ['drill', '--help'], ['Replay'], ['repla'], ['replays'], ['r'], ['run'],
         ['replay\n'], ['drill', '1\n'], ['drill', '\u0661'], ['dr\u00edll', '1'], ['coresched'], ['coresched', 'replay'],
         ['upgrade'], ['upgrade', ''], ['upgrade', '1'], ['upgrade', 'upgrade'], ['Upgrade'], ['upgrades'], ['replay', 'upgrade'],
         ['check'], ['check', 'json'], ['check', ''], ['check', 'JSON'], ['check', 'jso'], ['check', 'jsons'], ['check', 'json '], ['check', '1'],
         ['check', '--'], ['check', '--', 'json'], ['check', '--json'], ['check', '-'], ['check', 'help'], ['check', 'check'],
         ['check', 'json', 'json'], ['json'], ['json', 'check'], ['replay', 'json'], ['race', 'json'], ['drill', 'json'], ['Check'], ['checks']]
PARTS = ['replay', 'race', 'upgrade', 'check', 'json', 'drill', '', 'help', '--help', '-', '--', '-1', '0', '00', '1', '01', '+1', '4294967295', '4294967296', 'x', 'drill=1']


def lists(count, rng):
    """So many lists of words: those above, and made ones."""
    made = list(LISTS)
    while len(made) < count:
        made.append([rng.choice(PARTS) for _ in range(rng.randrange(5))])
    return made[:count]


def is_told(program, words):
    """Whether the program refuses words that it does not know, and takes the others. It reads no input."""
    status, output, error = runs.ran([program, *words])
    if not known(words):
        return (status, output, error) == (1, b'', b'coresched: bad words\n')
    return (status, error) == ((0, b'') if words[0] == 'drill' else (2, b'coresched: line 1: Cut\n'))


def is_drilled(program, seed):
    """Whether the program prints the drill of a seed."""
    return runs.ran([program, 'drill', str(seed)]) == (0, drilled(seed), b'')


def main():
    p = argparse.ArgumentParser()
    p.add_argument('drill', nargs='?', type=int, help='the seed of a drill to print')
    p.add_argument('--text', type=int, help='the seed of a scenario to print')
    p.add_argument('--program', help='the built program')
    p.add_argument('--count', type=int, default=4)
    p.add_argument('--lists', type=int, default=1000)
    p.add_argument('--seed', type=int, default=1)
    args = p.parse_args()
    if args.text is not None:
        sys.stdout.write(text(args.text))
        return 0
    if not args.program and args.drill is None:
        p.error('a seed, --text or --program is needed')
    if not args.program:
        sys.stdout.buffer.write(drilled(args.drill))
        return 0
    rng = random.Random(args.seed)
    seeds = [0, MOST] + [rng.randrange(2**32) for _ in range(args.count)]
    with ProcessPoolExecutor() as pool:
        same = list(pool.map(is_drilled, [args.program] * args.count, seeds[:args.count]))
    wrong = [seed for seed, is_same in zip(seeds, same) if not is_same]
    words = lists(args.lists, rng)
    other = [one for one in words if not is_told(args.program, one)]
    print('drills: %d, %d wrong%s; lists of words: %d, %d wrong%s' % (
        len(same), len(wrong), ''.join(' %d' % seed for seed in wrong), len(words), len(other), ''.join(' %r' % one for one in other)))
    return 1 if wrong or other else 0


if __name__ == '__main__':
    sys.exit(main())
