#!/usr/bin/env python3
"""Compares `coresched_view segments` and `segments-json` of the built program with what the rules as reference.py has them
come to: how each run ends, and every segment of it. A room of the reference is played, and before each advance it is looked
at what each sibling does. The segments of a sibling have to follow one another without a gap, their sums are the times of
its summary, and the lines of JSON say what the table says. Half of the texts are mutated.

Usage: segments.py                            prints the segments of the scenario on standard input
       segments.py --program PATH --count N --seed S    compares N random scenarios and as many mutated texts
"""
import argparse
import json
import os
import sys
import time

sys.path.insert(0, os.path.dirname(os.path.abspath(__file__)))
import mutations
import reference
import runs

HEAD = ['from', 'to', 'sibling', 'state', 'cookie', 'pending', 'forced', 'pid', 'group']


def shown(room, sibling):
    """The cells of what a sibling does now, from the state on."""
    if not sibling.online:
        return 'offline', None, False, False, None, None
    if sibling.run is not None:
        return 'running', sibling.run.cookie, sibling.pending, False, sibling.run.pid, sibling.run.tgid
    if room.queued(sibling.i):
        return 'idle', room.core, sibling.pending, True, None, None
    return 'idle', None, sibling.pending, False, None, None


def segments_of(scenario):
    """The rows of a scenario's replay: a sibling's row goes on while it does the same."""
    room = reference.Room(scenario, check=False)
    rows, last, clock = [], {}, 0
    for _, event, text in scenario.steps:
        if event[0] == 'advance':
            for sibling in room.sib:
                row = last.get(sibling.i)
                if row is None or tuple(row[3:]) != shown(room, sibling):
                    row = last[sibling.i] = [clock, 0, sibling.i, *shown(room, sibling)]
                    rows.append(row)
                row[1] = clock + event[1]
            clock += event[1]
        room.apply(event, text)
    return rows


def cell(value):
    return '' if value is None else {True: 'yes', False: 'no'}[value] if isinstance(value, bool) else str(value)


def table(rows):
    return ''.join('\t'.join(map(cell, row)) + '\n' for row in [HEAD, *rows]).encode()


def lines(rows):
    return ''.join(json.dumps(dict(zip(HEAD, row)), separators=(',', ':')) + '\n' for row in rows).encode()


def ended(data):
    """(status, rows, standard error) of either command. A faulty text ends as in a replay."""
    status, _, error = reference.replay(data, check=False)
    if status:
        return status, None, error.replace(b'coresched:', b'coresched_view:', 1)
    return 0, segments_of(reference.read(data)), b''


def has_no_gap(rows, total):
    """Whether each sibling's rows follow one another from 0 to the end."""
    at = {}
    for begin, end, sibling, *_ in rows:
        if begin != at.get(sibling, 0) or end <= begin:
            return False
        at[sibling] = end
    return all(end == total for end in at.values()) and rows == sorted(rows, key=lambda row: (row[0], row[2]))


def sums(rows, siblings):
    """The lines of the siblings of a summary, and that of all time, as the rows add up to them."""
    text, total = [], max((row[1] for row in rows), default=0)
    for cpu in range(siblings):
        def took(holds):
            return sum(row[1] - row[0] for row in rows if row[2] == cpu and holds(*row[3:]))
        text.append('cpu %d ran %d idle %d offline %d pending %d' % (
            cpu, took(lambda state, *_: state == 'running'), took(lambda state, cookie, pending, forced, *_: state == 'idle' and not forced),
            took(lambda state, *_: state == 'offline'), took(lambda state, cookie, pending, *_: pending)))
        text.append('forced %d cookie %d none %d' % (
            cpu, took(lambda state, cookie, pending, forced, *_: forced and cookie), took(lambda state, cookie, pending, forced, *_: forced and not cookie)))
    return [*text, 'total %d' % total]


def row_of(line):
    """A row of the table as it is read."""
    begin, end, sibling, state, cookie, pending, forced, pid, group = line.split('\t')
    number = lambda text: None if text == '' else int(text)
    return [int(begin), int(end), int(sibling), state, number(cookie), {'yes': True, 'no': False}[pending], {'yes': True, 'no': False}[forced], number(pid), number(group)]


def faults(program, text):
    """What is wrong with the program's answers to a text, and whether it was played."""
    status, rows, error = ended(text)
    as_table, as_lines, as_sums = (runs.ran([program, word], text) for word in ('segments', 'segments-json', 'summary'))
    found = []
    if as_table != (status, b'' if status else table(rows), error):
        found.append('segments')
    if as_lines != (status, b'' if status else lines(rows), error):
        found.append('segments-json')
    if as_sums[0] != status:
        found.append('the end of the summary')
    if status == 0 and not found:
        read = [row_of(line) for line in as_table[1].decode().splitlines()[1:]]
        spoken = [list(json.loads(line).values()) for line in as_lines[1].decode().splitlines()]
        summary = [line for line in as_sums[1].decode().splitlines() if line.split()[0] in ('cpu', 'forced', 'total')]
        if not has_no_gap(read, int(summary[-1].split()[1])):
            found.append('a gap')
        if sums(read, len(summary) // 2) != summary:
            found.append('the sums')
        if spoken != read:
            found.append('the two forms')
    return found, status == 0, len(rows or [])


def main():
    p = argparse.ArgumentParser()
    p.add_argument('--program', help='the built program')
    p.add_argument('--count', type=int, default=1000)
    p.add_argument('--seed', type=int, default=1)
    a = p.parse_args()
    if not a.program:
        status, rows, error = ended(sys.stdin.buffer.read(reference.MAX_INPUT + 1))
        sys.stdout.buffer.write(b'' if status else table(rows))
        sys.stdout.buffer.flush()
        sys.stderr.buffer.write(error)
        return status
    began, wrong, played, told = time.time(), 0, 0, 0
    for name, text in mutations.each_text('segments', a.count, a.seed):
        found, is_played, count = faults(a.program, text)
        played += is_played
        told += count
        if found:
            wrong += 1
            base = runs.kept(name)
            runs.write(base + '.scenario', text)
            print('WRONG: %s.scenario: %s' % (base, ', '.join(found)))
    print('segments, seed %d: %d texts, %d played with %d segments, %d wrong; %.0f s' % (a.seed, 2 * a.count, played, told, wrong, time.time() - began))
    return 1 if wrong else 0


if __name__ == '__main__':
    sys.exit(main())
