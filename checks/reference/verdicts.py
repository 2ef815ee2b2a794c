#!/usr/bin/env python3
"""Judges a printed run by the rules of reference.py, as `coresched check` does. A text has a scenario and, right behind its
line `end`, a run of it. The run is right if a race can write it: each actor makes its own steps in their order, each reply
is the one that the rules give, and the entries of the end and the report follow. Else the first wrong line is told, with
what had to stand there and what stands there.

Usage: verdicts.py [json] < TEXT
"""
import io
import json
import os
import sys

sys.path.insert(0, os.path.dirname(os.path.abspath(__file__)))
import reference

MAX_INPUT = 33554432
SHOWN = 200                     # of a wrong line so many bytes are shown


def parted(data):
    """The scenario of a text and the run behind it. The scenario ends with the first line that is `end`."""
    place = (b'\n' + data).find(b'\nend\n')
    return (data, b'') if place < 0 else (data[:place + 4], data[place + 4:])


class Judge:
    """The room that the lines so far have led to."""

    def __init__(self, s, caps):
        self.room = reference.Room(s, check=False, caps=caps)
        self.scripts = {}           # of each actor the steps that it has not made yet, the next one last
        for actor, event, text in reversed(s.steps):
            self.scripts.setdefault(actor, []).append((event, text))
        self.left = len(s.steps)
        self.rest = None            # once each step is made, the lines that have to come, the next one last

    def wanted(self, line):
        """What has to stand where this line stands, None where nothing can."""
        return self.entry(line) if self.left else self.line_of_end()

    def entry(self, line):
        """The true entry of the step that a line names, where that is the next one of its actor."""
        named, colon, _ = line.partition(b': ')
        for script in self.scripts.values():
            if script and colon and script[-1][1].encode() == named:
                event, text = script.pop()
                self.left -= 1
                return ('%s: %s' % (text, self.room.apply(event, text))).encode()
        return None

    def line_of_end(self):
        """The next line of the end, None past the last."""
        self.end()
        return self.rest.pop().encode() if self.rest else None

    def end(self):
        """Plays the end, once."""
        if self.rest is None:
            before = len(self.room.entries)
            self.room.drain()
            self.room.check_end()
            self.rest = [*self.room.entries[before:], *self.room.report()][::-1]

    def is_over(self):
        """Whether each step was made, and each line of the end was there."""
        return not self.left and self.rest == []


def shown(line):
    """What is shown of a wrong line: its first bytes, and a question mark for each that cannot be printed."""
    return bytes(c if 32 <= c <= 126 else 63 for c in line[:SHOWN])


def judge(s, first, run, caps=reference.GUARDS):
    """None where the run is right. Else the number of the first wrong line, what had to stand there, and what stands there.
    `first` is the number of the run's first line."""
    judge, place = Judge(s, caps), first
    for line in io.BytesIO(run):
        bare = line.removesuffix(b'\n')
        wanted = judge.wanted(bare)
        if wanted is None or line != wanted + b'\n':
            return place, wanted, shown(bare)
        place += 1
    return None if judge.is_over() else (place, judge.wanted(b''), None)


def told(verdict, is_json):
    """The text of a verdict."""
    if verdict is None:
        return b'{"verdict":"yes"}\n' if is_json else b'yes\n'
    line, *both = verdict
    want, found = (None if one is None else one.decode() for one in both)
    if is_json:
        said = {'found': found, 'line': line, 'verdict': 'no', 'want': want}
        return (json.dumps(said, separators=(',', ':')) + '\n').encode()
    want, found = ('-' if one is None else one for one in (want, found))
    return ('no line %d\nwant %s\nfound %s\n' % (line, want, found)).encode()


def ended(data, caps=reference.GUARDS):
    """(status, verdict, standard error) of a check."""
    if len(data) > MAX_INPUT:
        return 2, None, b'coresched: input too long\n'
    text, run = parted(data)
    try:
        s = reference.read(text, MAX_INPUT)
        return 0, judge(s, text.count(b'\n') + 1, run, caps), b''
    except reference.Bad as bad:
        return 2, None, ('coresched: line %d: %s\n' % (bad.line, bad.kind)).encode()
    except reference.BadGuard as bad:
        return 2, None, ('coresched: line %d: guard %s\n' % (bad.line, bad.kind)).encode()


def both(data, caps=reference.GUARDS):
    """(status, standard output, standard error) of `coresched check`, and those of `coresched check json`."""
    status, verdict, err = ended(data, caps)
    return tuple((status, b'' if status else told(verdict, is_json), err) for is_json in (False, True))


def main():
    if sys.argv[1:] not in ([], ['json']):
        sys.exit('verdicts.py takes no word but json; it reads a scenario and a run from standard input')
    status, out, err = both(sys.stdin.buffer.read(MAX_INPUT + 1))[len(sys.argv) - 1]
    sys.stdout.buffer.write(out)
    sys.stdout.buffer.flush()
    sys.stderr.buffer.write(err)
    sys.exit(status)


if __name__ == '__main__':
    main()
