#!/usr/bin/env python3
"""Compares what `coresched_view picture` draws with what `coresched_view segments` tells of the same run: the examples, random
scenarios, and two runs of 100,000 steps.

Each picture is valid XML without scripts and without references to anything else. Each segment that is wide enough for a
mark of its own has it, at its place and with its words. Where a sibling was forced idle, where it had a pending
reschedule, and where tasks with distinct cookies, or of distinct thread groups, ran side by side, there is a mark of that. The
head says for how long they did. Below each lane marks say how many tasks wait, compared with the rules as reference.py has
them. No picture has 2,000,000 bytes.

And no mark is false. One with the words of a segment stands at its place. One of exposure or of a pending reschedule goes
from where that begins to where it ends, with no wide gap in between. One of forced idle is a segment's in which the
sibling was that, or goes over some narrow ones of which one was. Each of these may begin a unit before its end, so as to be
seen.

The words in a mark are those of its segment, and stand in its middle. They do not run out of it in DejaVu Sans, which is a
wide font. A mark of a running task that has room for the pid names it.

Usage: pictures.py --program PATH --count N --seed S    compares the examples and N random scenarios
"""
import argparse
import bisect
import glob
import os
import random
import re
import sys
import time
import xml.dom.minidom
import xml.parsers.expat

sys.path.insert(0, os.path.dirname(os.path.abspath(__file__)))
import reference
import runs
import scenarios

EXAMPLES = os.path.join(os.path.dirname(os.path.abspath(__file__)), '..', '..', 'examples')
COLUMNS = ['from', 'to', 'sibling', 'state', 'cookie', 'pending', 'forced', 'pid', 'group']
MOST_BYTES = 2_000_000

# In thousandths of a unit of the page: where the lanes begin, how wide they are, and what is seen of a span at least.
LEFT, LANES, UNIT = 76_000, 1_200_000, 1_000

# How high a lane is, and how wide a mark is at least that has room for a pid of at most 5 digits.
HEIGHT, UPRIGHT = 30_000, 12_000

# How wide letters are in DejaVu Sans, in thousandths of the size of the type.
WIDTHS = {**dict.fromkeys('0123456789', 637), ' ': 318, ',': 318, 'a': 613, 'b': 635, 'c': 550, 'd': 635, 'e': 616, 'f': 353, 'g': 635, 'h': 634,
          'i': 278, 'k': 580, 'l': 278, 'n': 634, 'o': 612, 'p': 635, 'r': 412, 's': 521, 't': 393, 'u': 634, 'y': 592}


class Wrong(Exception):
    """What is wrong with a picture."""


def told(time):
    """A time as the picture tells it."""
    for unit, digits in (('s', 9), ('ms', 6), ('us', 3)):
        if time >= 10 ** digits:
            whole, rest = divmod(time, 10 ** digits)
            return (('%d.%0*d' % (whole, digits, rest)).rstrip('0').rstrip('.')) + ' ' + unit
    return '%d ns' % time


def thousandths(text):
    """A length of the page."""
    if not re.fullmatch(r'[0-9]+(\.[0-9]{1,3})?', text):
        raise Wrong('%r is no length' % text)
    whole, _, rest = text.partition('.')
    return int(whole) * 1_000 + int(rest.ljust(3, '0') or 0)


class Run:
    """A run as its segments tell it."""

    def __init__(self, text):
        head, *lines = text.decode().splitlines() or ['']
        if head.split('\t') != COLUMNS:
            raise Wrong('the segments have the columns %r' % head)
        self.segments = [self.segment(dict(zip(COLUMNS, line.split('\t')))) for line in lines]
        self.total = max((it['to'] for it in self.segments), default=0)
        self.siblings = 1 + max((it['sibling'] for it in self.segments), default=0)
        self.lanes = [[it for it in self.segments if it['sibling'] == cpu] for cpu in range(self.siblings)]
        self.grain = max(UNIT, 400 * self.siblings)
        self.by = 'cookie' if any(it['cookie'] for it in self.segments) else 'group'

    @staticmethod
    def segment(cells):
        for column in ('from', 'to', 'sibling', 'cookie', 'pid', 'group'):
            cells[column] = int(cells[column] or 0)
        for column in ('pending', 'forced'):
            cells[column] = cells[column] == 'yes'
        return cells

    def place(self, clock):
        return LEFT + clock * LANES // self.total

    def span(self, it):
        """From where to where a segment goes."""
        return self.place(it['from']), self.place(it['to'])

    def words(self, it):
        """The title of a segment's mark."""
        if it['state'] == 'offline':
            does = 'is offline'
        elif it['state'] == 'running':
            does = 'runs task %d of thread group %d ' % (it['pid'], it['group']) + ('with cookie %d' % it['cookie'] if it['cookie'] else 'without a cookie')
        elif not it['forced']:
            does = 'idles'
        else:
            does = 'is forced idle ' + ('by cookie %d' % it['cookie'] if it['cookie'] else 'while the core has no cookie')
        return 's%d %s%s, %s to %s (%s)' % (it['sibling'], does, ', reschedule pending' * it['pending'],
                                            told(it['from']), told(it['to']), told(it['to'] - it['from']))

    def labels(self, it):
        """What may stand in a segment's mark."""
        if it['state'] == 'running' and self.by == 'group':
            return 'task %d, group %d' % (it['pid'], it['group']), '%d' % it['pid']
        if it['state'] == 'running':
            cookie = 'cookie %d' % it['cookie'] if it['cookie'] else 'no cookie'
            return 'task %d, %s' % (it['pid'], cookie), '%d' % it['pid']
        if it['forced']:
            return 'forced idle by cookie %d' % it['cookie'] if it['cookie'] else 'forced idle, core has no cookie', 'forced idle'
        return (it['state'],) if it['state'] == 'offline' else ()

    def windows(self, key):
        """When two siblings ran tasks with distinct cookies, or of distinct groups: pairs of moments, by rising time."""
        changes = sorted((clock, -side, it[key]) for it in self.segments if it['state'] == 'running'
                         for clock, side in ((it['from'], -1), (it['to'], 1)))
        running, since = {}, 0
        for clock, side, own in changes:
            if clock > since and len(running) > 1:
                yield since, clock
            since = max(since, clock)
            running[own] = running.get(own, 0) + side
            if not running[own]:
                del running[own]


class Spans:
    """Where something is so: from where to where, by rising begin, and none over another. Places are in thousandths of a
    unit."""

    def __init__(self, spans):
        spans = list(spans)
        self.begins, self.ends = [begin for begin, _ in spans], [end for _, end in spans]
        self.may_begin, self.may_end = set(self.begins), set(self.ends)

    def are_edges(self, begin, end):
        """Whether a mark goes from the begin of one to the end of one, or was widened to be seen."""
        return end in self.may_end and (begin in self.may_begin or begin == end - UNIT)

    def touching(self, begin, end):
        """The numbers of those that touch what lies between these places."""
        return range(bisect.bisect_left(self.ends, begin), bisect.bisect_right(self.begins, end))

    def are_near(self, begin, end, gap):
        """Whether there is no more than this between one and the next in a mark."""
        touching = self.touching(begin, end)
        return all(self.begins[later] - self.ends[earlier] <= gap for earlier, later in zip(touching, touching[1:]))

    def has_one(self, begin, end):
        """Whether one lies in a mark, also in part. What has no width lies where it touches."""
        return any(self.begins[it] == self.ends[it] or self.begins[it] < end and begin < self.ends[it] for it in self.touching(begin, end))


def seen(begin, end):
    """From where to where something goes that must be seen."""
    return min(begin, end - UNIT), end


def words_of(node):
    return ''.join(it.firstChild.data for it in node.childNodes if it.nodeName == 'title')


def span_of(node):
    """From where to where a mark goes."""
    if node.nodeName == 'path':
        path = re.match(r'M([0-9.]+) [0-9.]+h([0-9.]+)v', node.getAttribute('d'))
        if not path:
            raise Wrong('a path of another form: %s' % node.getAttribute('d')[:80])
        place, width = path.groups()
    else:
        place, width = node.getAttribute('x'), node.getAttribute('width')
    return thousandths(place), thousandths(place) + thousandths(width)


def label_of(mark):
    """The words in a mark, if it has any. The cross of a mark stands before them."""
    it = mark.nextSibling
    while it and (it.nodeType != it.ELEMENT_NODE or it.nodeName == 'path'):
        it = it.nextSibling
    return it if it and it.nodeName == 'text' and it.getAttribute('class') in ('m', 'm s') else None


def rects_of(groups, name):
    """From where to where the rectangles go in the groups of a class."""
    return [span_of(mark) for it in groups if it.getAttribute('class') == name for mark in it.getElementsByTagName('rect')]


class Picture:
    """A picture by its marks."""

    def __init__(self, text):
        try:
            self.root = xml.dom.minidom.parseString(text).documentElement
        except xml.parsers.expat.ExpatError as fault:
            raise Wrong('no XML: %s' % fault)
        groups = self.root.getElementsByTagName('g')
        self.lanes = [it for it in groups if it.getAttribute('class') == 'l']
        self.pending = [[span_of(mark) for mark in it.getElementsByTagName('rect')] for it in groups if it.getAttribute('class') == 'p']
        self.exposed, self.mixed, self.behind = rects_of(groups, 'e'), rects_of(groups, 'u'), rects_of(groups, 'b')
        self.waiting = [[(words_of(mark), span_of(mark)) for mark in it.getElementsByTagName('rect')] for it in groups if it.getAttribute('class') == 'w']
        self.head = ''.join(it.firstChild.data for it in self.root.getElementsByTagName('text') if it.getAttribute('class') == 'k')
        self.marks = [{(words_of(mark), span_of(mark)) for mark in it.childNodes if words_of(mark) and mark.nodeName == 'rect'} for it in self.lanes]
        self.forced = [[span_of(mark) for name in ('rect', 'path') for mark in it.getElementsByTagName(name)
                        if mark.getAttribute('fill').startswith('url(#h')] for it in self.lanes]


def is_shown(marks, begin, end):
    """Whether the whole of it lies in marks. Marks are by rising begin, and may touch."""
    for mark_begin, mark_end in marks:
        if mark_begin <= begin <= mark_end:
            begin = mark_end
        if begin >= end:
            return True
    return False


def need_closed(text):
    """Raises Wrong where a picture is too long, runs anything or stands on anything else."""
    if len(text) >= MOST_BYTES:
        raise Wrong('%d bytes' % len(text))
    for word in (b'<script', b'href', b'<image', b'@import', b'<!'):
        if word in text:
            raise Wrong('has %r' % word)
    if re.search(rb'url\((?!#)', text) or text.count(b'http') != 1:
        raise Wrong('a reference to something else')


def need_marks(picture, run):
    """Raises Wrong where something has no mark."""
    for it in run.segments:
        begin, end = run.span(it)
        if end - begin > run.grain and (run.words(it), (begin, end)) not in picture.marks[it['sibling']]:
            raise Wrong('no mark of: %s' % run.words(it))
        if it['forced'] and not is_shown(picture.forced[it['sibling']], begin, end):
            raise Wrong('no hatch at: %s' % run.words(it))
        if it['pending'] and not is_shown(picture.pending[it['sibling']], begin, end):
            raise Wrong('no outline at: %s' % run.words(it))
    for key, marks in ('cookie', picture.exposed), ('group', picture.mixed):
        for begin, end in run.windows(key):
            if not is_shown(marks, run.place(begin), run.place(end)):
                raise Wrong('not marked as side by side, by %s: %s to %s' % (key, told(begin), told(end)))


def need_spans(marks, spans, gap, what):
    """Raises Wrong where a mark is not of these spans. Those may be drawn as one that have no more than a gap between them."""
    for begin, end in marks:
        if not spans.are_edges(begin, end) or not spans.are_near(begin, end, gap):
            raise Wrong('a false mark of %s, from %d to %d' % (what, begin, end))


def need_forced(marks, run, cpu):
    """Raises Wrong where a mark of forced idle on a lane is neither a segment's nor that of some that are narrow."""
    lane = run.lanes[cpu]
    of_forced = [run.span(it) for it in lane if it['forced']]
    alone, forced, segments = {seen(*it) for it in of_forced}, Spans(of_forced), Spans(map(run.span, lane))
    for begin, end in marks:
        is_column = end - begin <= 2 * run.grain and segments.are_edges(begin, end) and forced.has_one(begin, end)
        if (begin, end) not in alone and not is_column:
            raise Wrong('a false mark of forced idle on s%d, from %d to %d' % (cpu, begin, end))


def need_titles(marks, run, cpu):
    """Raises Wrong where the words of a mark on a lane are not those of a segment at its place."""
    places = {place for _, place in marks}
    drawn = ((it, seen(*run.span(it)) if it['forced'] else run.span(it)) for it in run.lanes[cpu])
    for title, (begin, end) in marks - {(run.words(it), place) for it, place in drawn if place in places}:
        raise Wrong('a false mark from %d to %d: %s' % (begin, end, title))


def need_no_false_mark(picture, run):
    """Raises Wrong where a mark shows what was not so."""
    for key, marks in ('cookie', picture.exposed), ('group', picture.mixed):
        windows = Spans((run.place(begin), run.place(end)) for begin, end in run.windows(key))
        need_spans(marks, windows, run.grain, 'tasks side by side, by %s' % key)
    if not set(picture.behind) <= set(picture.exposed):
        raise Wrong('a false mark of exposure behind the lanes')
    for cpu, lane in enumerate(run.lanes):
        pending = Spans(run.span(it) for it in lane if it['pending'])
        need_spans(picture.pending[cpu], pending, run.grain, 'a pending reschedule on s%d' % cpu)
        need_forced(picture.forced[cpu], run, cpu)
        need_titles(picture.marks[cpu], run, cpu)


def need_label(label, mark, words):
    """Raises Wrong where words in a mark are not one of these, do not stand in its middle, or run out of it."""
    (begin, end), text = span_of(mark), label.firstChild.data
    upright = re.fullmatch(r'translate\(([0-9.]+),15\) rotate\(-90\)', label.getAttribute('transform'))
    size = 9 if label.getAttribute('class') == 'm s' else 12
    length = sum(map(WIDTHS.get, text)) * size if text in words else None
    if length is None or thousandths(upright[1] if upright else label.getAttribute('x')) != begin + (end - begin) // 2:
        raise Wrong('not the words of the mark from %d to %d: %s' % (begin, end, text))
    across, along = (size * UNIT, length) if upright else (length, size * UNIT)
    if across > end - begin or along > HEIGHT:
        raise Wrong('runs out of its mark, from %d to %d: %s' % (begin, end, text))


def need_labels(lane, run, cpu):
    """Raises Wrong where the words in the marks of a lane are wrong, or a pid is not there that has room."""
    segments, found = {run.words(it): it for it in run.lanes[cpu]}, 0
    for mark in lane.childNodes:
        if mark.nodeName == 'rect' and words_of(mark):
            it, label = segments[words_of(mark)], label_of(mark)
            if label:
                found += 1
                need_label(label, mark, run.labels(it))
            elif it['state'] == 'running' and it['pid'] < 100_000 and run.place(it['to']) - run.place(it['from']) >= UPRIGHT:
                raise Wrong('no pid in: %s' % words_of(mark))
    if found != sum(it.nodeName == 'text' and it.getAttribute('class').startswith('m') for it in lane.childNodes):
        raise Wrong('words in no mark on s%d' % cpu)


def told_side(run, key, words):
    """For how long tasks ran side by side, as the head tells it."""
    joined = []
    for begin, end in run.windows(key):
        if joined and joined[-1][1] == begin:
            joined[-1][1] = end
        else:
            joined.append([begin, end])
    lengths = [end - begin for begin, end in joined]
    if not lengths:
        return words + {'cookie': ' never exposed', 'group': ' never side by side'}[key]
    share = sum(lengths) * 1_000 // run.total
    return '%s%s for %s in all (%s %%), at most %s at a time' % (
        words, {'cookie': ' exposed', 'group': ' side by side'}[key], told(sum(lengths)),
        ('%d.%d' % divmod(share, 10)).removesuffix('.0'), told(max(lengths)))


def need_head(picture, run):
    """Raises Wrong where the head does not say for how long tasks ran side by side."""
    head = told_side(run, 'cookie', 'Cookies') + '; ' + told_side(run, 'group', 'thread groups')
    if picture.head != head:
        raise Wrong('the head says %r, not %r' % (picture.head, head))


def waits_of(data):
    """How many tasks wait on each sibling in a replay of a text, from when to when."""
    room, clock = reference.Room(reference.read(data), check=False), 0
    waits = [[] for _ in room.sib]
    for _, event, text in reference.read(data).steps:
        if event[0] == 'advance':
            for sibling in room.sib:
                count = sum(task is not sibling.run for task in room.queued(sibling.i))
                if count:
                    waits[sibling.i].append((clock, clock + event[1], count))
            clock += event[1]
        room.apply(event, text)
    return waits


def nanoseconds(text):
    """A time as the picture tells it, in ns."""
    number, unit = text.split(' ')
    whole, _, rest = number.partition('.')
    digits = {'s': 9, 'ms': 6, 'us': 3, 'ns': 0}[unit]
    return int(whole) * 10 ** digits + int(rest.ljust(digits, '0') or 0)


def need_waiting(marks, run, waits, cpu):
    """Raises Wrong where the marks below a lane do not say how many tasks wait, and when. A mark names its time, and the most
    that wait in it."""
    told_time = 0
    for begin, end, _ in waits:
        if not is_shown([span for _, span in marks], run.place(begin), run.place(end)):
            raise Wrong('tasks that wait on s%d are not shown, from %d to %d' % (cpu, begin, end))
    for words, (place, foot) in marks:
        said = re.match(r's%d, tasks that wait( at most)?: ([0-9]+), (.*) to (.*) \(' % cpu, words)
        if not said:
            raise Wrong('a mark of waiting tasks on s%d says: %s' % (cpu, words))
        begin, end = nanoseconds(said[3]), nanoseconds(said[4])
        inside = [wait for wait in waits if wait[0] < end and begin < wait[1]]
        if not inside or inside[0][0] < begin or inside[-1][1] > end or max(count for _, _, count in inside) != int(said[2]):
            raise Wrong('not so many wait on s%d: %s' % (cpu, words))
        if not said[1] and len({count for _, _, count in inside}) > 1:
            raise Wrong('several counts on s%d: %s' % (cpu, words))
        if (place, foot) != seen(run.place(begin), run.place(end)):
            raise Wrong('a mark of waiting tasks on s%d at another place: %s' % (cpu, words))
        told_time += len(inside)
    if told_time != len(waits):
        raise Wrong('%d of %d times in which tasks wait on s%d are told' % (told_time, len(waits), cpu))


def compare(text, run, waits):
    """Raises Wrong where the picture does not show the run. The waits are told if there are few steps."""
    need_closed(text)
    picture = Picture(text)
    if not picture.root.getAttribute('viewBox'):
        raise Wrong('no viewBox')
    if not run.total:
        if b'No time passed' not in text:
            raise Wrong('does not say that no time passed')
        return
    if len(picture.lanes) != run.siblings or len(picture.pending) != run.siblings:
        raise Wrong('%d lanes' % len(picture.lanes))
    need_marks(picture, run)
    need_no_false_mark(picture, run)
    need_head(picture, run)
    for cpu, of_sibling in enumerate(waits or ()):
        need_waiting(picture.waiting[cpu], run, of_sibling, cpu)
    for cpu, lane in enumerate(picture.lanes):
        need_labels(lane, run, cpu)


def long_run(rng, siblings, steps, most):
    """A scenario with many short segments: tasks under cookies that are woken and blocked all the time."""
    lines = ['coresched 1', 'siblings %d' % siblings, 'limits 256 64 1048576']
    for pid in range(1, 129):
        lines.append('task %d %d %d %d fair:0 %s 0 1 1' % (pid, pid, pid, pid % siblings, '1000 ' * 5 + '1000'))
    script = ['c0 prctl %d 1 0 0 0' % pid for pid in range(1, 25)]
    while len(script) < steps:
        sibling = rng.randrange(siblings)
        script.append(rng.choice(['s%d turn' % sibling] * 4 + ['s%d block' % sibling, 's%d tick' % sibling]
                                 + ['c0 wake %d' % rng.randint(1, 128)] * 2 + ['c0 advance %d' % rng.randint(1, most)] * 2))
    return '\n'.join(lines + ['step ' + it for it in script] + ['end', '']).encode()


def texts(count, seed):
    """The scenarios, each with its name."""
    for path in sorted(glob.glob(os.path.join(EXAMPLES, '*.scenario'))):
        with open(path, 'rb') as it:
            yield os.path.basename(path), it.read()
    for k in range(count):
        yield 'random %d' % k, scenarios.scenario(random.Random('pictures %d/%d' % (seed, k)))
    for k in range(count // 4):
        rng = random.Random('long pictures %d/%d' % (seed, k))
        yield 'long %d' % k, long_run(rng, rng.randint(2, 8), rng.randint(200, 4_000), 10 ** rng.randint(1, 8))
    for most in (1_000, 1_000_000) if count else ():
        yield '100,000 steps', long_run(random.Random(seed), 8, 100_000, most)


def main():
    p = argparse.ArgumentParser()
    p.add_argument('--program', required=True, help='the built program')
    p.add_argument('--count', type=int, default=200)
    p.add_argument('--seed', type=int, default=1)
    a = p.parse_args()
    began, drawn, wrong, most, segments = time.time(), 0, 0, 0, 0
    for name, data in texts(a.count, a.seed):
        (status, picture, error), table = runs.ran([a.program, 'picture'], data), runs.ran([a.program, 'segments'], data)
        try:
            if (status, error) != (table[0], table[2]) or status not in (0, 2):
                raise Wrong('ends with %s, and segments with %s' % (status, table[0]))
            if status:
                continue
            drawn += 1
            most = max(most, len(picture))
            run = Run(table[1])
            segments += len(run.segments)
            compare(picture, run, waits_of(data) if data.count(b'\n') < 2_000 else None)
        except Wrong as it:
            wrong += 1
            base = runs.kept('pictures-seed%d-%d' % (a.seed, wrong))
            runs.write(base + '.scenario', data)
            print('WRONG: %s, %s.scenario: %s' % (name, base, it))
    print('pictures, seed %d: %d drawn, of %d segments, at most %d bytes, %d wrong; %.0f s' % (a.seed, drawn, segments, most, wrong, time.time() - began))
    return 1 if wrong else 0


if __name__ == '__main__':
    sys.exit(main())
