#!/usr/bin/env python3
"""The rules of coresched once more, in Python over plain lists. It shares no code with the program.

It writes what `coresched replay` writes, and ends as that does. Of a text that is no scenario it tells the first line
that is wrong, and the kind of what is wrong there: Shape, Number, Twice, Leader, Full, After or Cut. Of a scenario whose
guards cannot be taught it tells the first such line, and why: NoGuard or Full. While it plays, it asserts what is proved
of the program.

Usage: reference.py < SCENARIO
"""
import sys
from collections import Counter

MAX_INPUT = 16777216
MAX_STEPS = 100000
MAX_TEACHES = 64
GUARDS = (16, 16, 16, 16)       # the guards of the program: of each how many pairs it can be taught
WEIGHT = [88761, 71755, 56483, 46273, 36291, 29154, 23254, 18705, 14949, 11916, 9548, 7620, 6100,
          4904, 3906, 3121, 2501, 1991, 1586, 1277, 1024, 820, 655, 526, 423, 335, 272, 215, 172,
          137, 110, 87, 70, 56, 45, 36, 29, 23, 18, 15]
assert len(WEIGHT) == 40
BOUND = 1 << 80
STOP, DEADLINE, REAL, FAIR, IDLE = 4, 3, 2, 1, 0
CLASS = {'stop': STOP, 'dl': DEADLINE, 'fifo': REAL, 'rr': REAL, 'fair': FAIR}
NAMES = {STOP: 'stop', DEADLINE: 'dl', REAL: 'rt', FAIR: 'fair', IDLE: 'idle'}


# ---------------------------------------------------------------- reading

class Bad(Exception):
    """What is wrong with a text: its kind, and the line, from 1."""

    def __init__(self, kind, line=None):
        self.line, self.kind = line, kind


class BadGuard(Exception):
    """A line that no guard can be taught: its number, and why."""

    def __init__(self, line, kind):
        self.line, self.kind = line, kind


class TooLong(Exception):
    pass


DIGITS = set(b'0123456789')


def number(word, low, high):
    """The value of a canonical decimal within [low, high], else None."""
    body = word
    negative = False
    if low < 0 and word[:1] == b'-':
        negative, body = True, word[1:]
    if not body or any(c not in DIGITS for c in body):
        return None
    if body[:1] == b'0' and (len(body) > 1 or negative):
        return None
    if len(body) > 25:
        return None
    value = int(body)
    if negative:
        value = -value
    return value if low <= value <= high else None


POLICY_RANGE = {'dl': (1, 1000000000), 'fifo': (1, 99), 'rr': (1, 99), 'fair': (-20, 19)}


def policy_shape(word):
    """(name, rest) where the word has a policy's form, else None."""
    if word == b'stop':
        return ('stop', None)
    head, colon, rest = word.partition(b':')
    if colon and head in (b'dl', b'fifo', b'rr', b'fair'):
        return (head.decode(), rest)
    return None


def policy_value(shape):
    name, rest = shape
    if name == 'stop':
        return ('stop', 0)
    low, high = POLICY_RANGE[name]
    value = number(rest, low, high)
    return None if value is None else (name, value)


SIBLING_EVENTS = {b'turn', b'resched', b'block', b'exit', b'tick'}
PID = (1, 999999)
GUARD = (0, 15)
# name: the words behind it. A pair is a number's range, 'n' is a sibling, 'policy', 'how'
CALLER_EVENTS = {
    b'wake': [PID],
    b'advance': [(1, 1000000000)],
    b'fork': [PID, 'how'],
    b'prctl': [PID, (0, 2**32 - 1), (-2**31, 2**31 - 1), (0, 2**32 - 1), (0, 2**64 - 1)],
    b'setsched': [PID, 'policy'],
    b'offline': ['n'],
    b'online': ['n'],
    b'load': [GUARD],
    b'unload': [GUARD],
}


class Scenario:
    def __init__(self):
        self.version = self.siblings = self.limit = self.cookies = self.top = 0
        self.tasks = []         # tuples, in the file's order
        self.teaches = []       # (line, guard, from, to)
        self.steps = []         # (actor text, event tuple, text of the step)


class Reader:
    """Takes a text line by line. `take` is what the next line is taken by, and `place` the number of that line."""

    def __init__(self):
        self.s = Scenario()
        self.groups = {}            # of each pid its thread group and its process group
        self.users = []             # in version 2 the nine values of each user line
        self.named = 0              # how many of them task lines name
        self.has_steps = False
        self.place = 0
        self.take = self.take_version

    def take_version(self, line):
        if line not in (b'coresched 1', b'coresched 2'):
            raise Bad('Shape')
        self.s.version = int(line[-1:])
        self.take = self.take_siblings

    def take_siblings(self, line):
        words = words_of(line)
        if words[0] != b'siblings' or len(words) != 2:
            raise Bad('Shape')
        self.s.siblings = number(words[1], 1, 16 if self.s.version == 2 else 8)
        if self.s.siblings is None:
            raise Bad('Number')
        self.take = self.take_limits

    def take_limits(self, line):
        words = words_of(line)
        if words[0] != b'limits' or len(words) != 4:
            raise Bad('Shape')
        got = [number(words[1], 1, 256), number(words[2], 1, 256), number(words[3], 8192, 2**63 - 1)]
        if None in got:
            raise Bad('Number')
        self.s.limit, self.s.cookies, self.s.top = got
        self.take = self.take_rest

    def take_rest(self, line):
        words = words_of(line)
        if words == [b'end']:
            self.end_tasks()
            self.take = self.take_nothing
        elif words[0] == b'user' and self.s.version == 2 and not (self.s.tasks or self.s.teaches or self.has_steps):
            self.add_user(words)
        elif words[0] == b'task' and not self.s.teaches and not self.has_steps:
            self.add_task(words)
        elif words[0] == b'teach' and not self.has_steps:
            self.add_teach(words)
            self.end_tasks()
        elif words[0] == b'step':
            self.has_steps = True
            step = self.step(words)
            if len(self.s.steps) >= MAX_STEPS:
                raise Bad('Full')
            self.end_tasks()
            self.s.steps.append(step)
        else:
            raise Bad('Shape')

    def take_nothing(self, line):
        raise Bad('After')

    def end_tasks(self):
        """Before a line that is no user line and no task line each user has to be named."""
        if self.named < len(self.users):
            raise Bad('User')

    def add_user(self, words):
        if len(words) != 11:
            raise Bad('Shape')
        got = [number(words[1], 0, 255)] + creds(words[2:])
        if None in got:
            raise Bad('Number')
        if got[0] != len(self.users) or got[1:] in self.users:
            raise Bad('User')
        self.users.append(got[1:])

    def add_task(self, words):
        if len(words) != (7 if self.s.version == 2 else 15):
            raise Bad('Shape')
        shape = policy_shape(words[5])
        if shape is None:
            raise Bad('Shape')
        got = [number(w, 1, 9999) for w in words[1:4]]
        got.append(number(words[4], 0, self.s.siblings - 1))
        got.append(policy_value(shape))
        owner = [number(words[6], 0, 255)] if self.s.version == 2 else creds(words[6:])
        if None in got + owner:
            raise Bad('Number')
        pid, tgid, pgid = got[:3]
        if pid in self.groups:
            raise Bad('Twice')
        if tgid != pid and self.groups.get(tgid) != (tgid, pgid):
            raise Bad('Leader')
        if len(self.s.tasks) >= self.s.limit:
            raise Bad('Full')
        if self.s.version == 2:
            owner = self.name_user(owner[0])
        self.groups[pid] = (tgid, pgid)
        self.s.tasks.append(tuple(got + owner))

    def name_user(self, user):
        """The nine values of the user that a task names."""
        if user >= len(self.users) or user > self.named:
            raise Bad('User')
        self.named = max(self.named, user + 1)
        return self.users[user]

    def add_teach(self, words):
        if len(words) != 4:
            raise Bad('Shape')
        got = [number(words[1], *GUARD), number(words[2], 0, 65535), number(words[3], 0, 65535)]
        if None in got:
            raise Bad('Number')
        if len(self.s.teaches) >= MAX_TEACHES:
            raise Bad('Full')
        self.s.teaches.append((self.place, *got))

    def step(self, words):
        """The actor's text, the event, and the text of the step."""
        if len(words) < 3 or words[1][:1] not in (b's', b'c'):
            raise Bad('Shape')
        kind, tail, name = words[1][:1], words[1][1:], words[2]
        if kind == b's':
            if name not in SIBLING_EVENTS or len(words) != 3:
                raise Bad('Shape')
            event = [number(tail, 0, self.s.siblings - 1)]
        else:
            form = CALLER_EVENTS.get(name)
            if form is None or len(words) != 3 + len(form):
                raise Bad('Shape')
            event = [self.value(want, word) for want, word in zip(form, words[3:])]
            if number(tail, 0, 7) is None:
                raise Bad('Number')
        if None in event:
            raise Bad('Number')
        return words[1].decode(), (name.decode(), *event), b' '.join(words[1:]).decode()

    def value(self, want, word):
        """What a word of an event says, None where it is out of its range."""
        if want == 'how':
            if word not in (b'thread', b'process'):
                raise Bad('Shape')
            return word.decode()
        if want == 'policy':
            shape = policy_shape(word)
            if shape is None:
                raise Bad('Shape')
            return policy_value(shape)
        if want == 'n':
            return number(word, 0, self.s.siblings - 1)
        return number(word, *want)


def creds(words):
    """The six ids and the three flags that these words spell, None for each that is out of its range."""
    return [number(w, 0, 65535) for w in words[:6]] + [number(w, 0, 1) for w in words[6:]]


def words_of(line):
    words = line.split(b' ')
    if b'' in words:
        raise Bad('Shape')
    return words


def read(data, most=MAX_INPUT):
    """A Scenario, or raises TooLong where it has more bytes than `most`, or Bad."""
    if len(data) > most:
        raise TooLong()
    lines = data.split(b'\n')
    rest = lines.pop()
    reader = Reader()
    for place, line in enumerate(lines, 1):
        reader.place = place
        try:
            reader.take(line)
        except Bad as bad:
            bad.line = place
            raise
    if reader.take != reader.take_nothing:
        raise Bad('Cut', len(lines) + 1)
    if rest:
        raise Bad('After', len(lines) + 1)
    return reader.s


# ---------------------------------------------------------------- the machine

NONE = object()                 # no waiting pick


class Task:
    def __init__(self, pid, tgid, pgid, home, policy, ids, flags):
        self.pid, self.tgid, self.pgid, self.home, self.policy = pid, tgid, pgid, home, policy
        self.ids, self.flags = ids, flags       # ruid euid suid rgid egid sgid; cap mm dump
        self.cookie = 0
        self.queued = False
        self.v = self.deadline = self.stamp = self.used = self.remembered = self.total = 0

    @property
    def cls(self):
        return CLASS[self.policy[0]]


class Guard:
    def __init__(self, pairs):
        self.place = 'bench'
        self.pairs = pairs          # (caller's real user, target's real user)
        self.asked = 0


def taught(s, caps):
    """The guards, each with what the teach lines have for it, or raises BadGuard."""
    guards = [Guard([]) for _ in caps]
    for line, index, frm, to in s.teaches:
        if index >= len(guards):
            raise BadGuard(line, 'NoGuard')
        if len(guards[index].pairs) == caps[index]:
            raise BadGuard(line, 'Full')
        guards[index].pairs.append((frm, to))
    return guards


class Sibling:
    def __init__(self, i):
        self.i = i
        self.online = True
        self.run = None
        self.pending = False
        self.waiting = NONE
        self.place = 0
        self.snapshot = self.least = self.remembered = self.ran = self.number = 0


def key(t):
    c = t.cls
    if c == REAL:
        k = -t.policy[1]
    elif c == DEADLINE:
        k = t.deadline
    elif c == FAIR:
        k = t.v
    else:
        k = 0
    return (-c, k, t.stamp)


def first_of(tasks):
    return min(tasks, key=key, default=None)


class Room:
    """The core, its tasks, and what was played. Where `check` is set, each entry asserts what is proved."""

    def __init__(self, s, stats=None, check=True, caps=GUARDS):
        self.s, self.check = s, check
        self.guards = taught(s, caps)
        self.active = []            # the active ones, in the order of loading
        self.stats = Counter() if stats is None else stats
        self.n = s.siblings
        self.clock = 0
        self.tasks = {}
        for t in s.tasks:
            self.tasks[t[0]] = Task(t[0], t[1], t[2], t[3], t[4], t[5:11], t[11:14])
        self.ended = []
        self.next_stamp = 0
        self.next_cookie = 1
        self.next_pid = max(self.tasks, default=0) + 1
        self.core = 0
        self.count = self.occupation = 0
        self.start = None
        self.intervals = []         # (from, to, count, occupation, pids)
        self.sib = [Sibling(i) for i in range(self.n)]
        self.task_number = self.pick_number = 0     # kept, as the room has them
        self.touches = []                           # by the table of touches, one per entry
        self.last_selected = None                   # place of the last entry with a Selected pick
        self.entries = []
        self.note_touches = 0
        self.dirty = False
        self.pick_kind = None

    # ---- parts

    def queued(self, i):
        return [t for t in self.tasks.values() if t.queued and t.home == i]

    def first(self, i):
        return first_of(self.queued(i))

    def online(self):
        return [x for x in self.sib if x.online]

    def enqueue(self, t):
        t.stamp = self.next_stamp
        self.next_stamp += 1
        t.queued = True
        self.task_number += 1

    def dequeue(self, t):
        assert t.queued
        t.queued = False
        self.task_number += 1

    def moved_v(self, t, d):
        return self.sib[d].least + max(0, t.v - self.sib[t.home].least)

    def move(self, t, d):
        self.dequeue(t)
        t.v = self.moved_v(t, d)
        t.home = d
        self.enqueue(t)

    def runs(self, t):
        return self.sib[t.home].run is t

    def set_cookie(self, t, c):
        if t.queued:
            both = (1 if t.cookie else 0) + (1 if c else 0)
            self.task_number += both
            self.note_touches += both
            self.stats['set cookie: queued' + (' same' if t.cookie == c else '')] += 1
        t.cookie = c
        if self.runs(t):
            self.sib[t.home].pending = True
            self.stats['set cookie: running'] += 1

    def higher(self, a, b):
        """a above b across siblings. None is idle."""
        if a is None:
            return False
        if b is None:
            return True
        if a.cls != b.cls:
            return a.cls > b.cls
        if a.cls == REAL:
            return a.policy[1] > b.policy[1]
        if a.cls == DEADLINE:
            return a.deadline < b.deadline
        if a.cls == FAIR:
            fa, fb = self.sib[a.home].snapshot, self.sib[b.home].snapshot
            yes = a.v + fb < b.v + fa
            if yes != (a.v < b.v):
                self.stats['compare: snapshots decide'] += 1
            return yes
        return False

    # ---- accounting

    def charge(self):
        if self.start is None or self.start == self.clock:
            return
        delta = self.clock - self.start
        if self.count > 1 or self.occupation > 1:
            share = delta * self.count // self.occupation
            self.stats['charge: share'] += 1
        else:
            share = delta
            self.stats['charge: delta'] += 1
        charged = []
        for x in self.online():
            who = x.run if x.waiting is NONE else x.waiting
            if who is not None:
                who.total += share
                charged.append(who.pid)
                self.stats['charge: task ' + ('with a cookie' if who.cookie else 'without a cookie')] += 1
            elif x.run is not None:
                self.stats['charge: idle waits for a running task'] += 1
        self.intervals.append((self.start, self.clock, self.count, self.occupation, tuple(charged)))
        self.start = self.clock

    # ---- schedule

    def fresh(self):
        if self.last_selected is None:
            return False
        return all(x == 0 for x in self.touches[self.last_selected + 1:])

    def would_adopt(self, i):
        x = self.sib[i]
        by_numbers = self.pick_number == self.task_number and x.number != self.pick_number and x.waiting is not NONE
        by_history = not self.dirty and x.waiting is not NONE and self.fresh()
        assert by_numbers == by_history, 'the numbers tell whether a selection is fresh'
        return by_numbers

    def schedule(self, i):
        x = self.sib[i]
        x.place = 0
        if self.would_adopt(i):
            kind = 'Adopted'
            x.run, x.waiting, x.number = x.waiting, NONE, self.pick_number
        else:
            self.charge()
            forced_before = self.count != 0
            self.start = None
            self.count = self.occupation = 0
            self.task_number += 1
            head = self.first(i)
            if self.core == 0 and not forced_before and (head is None or head.cookie == 0):
                kind = 'Plain'
                x.run, x.waiting = head, NONE
                if head is not None and head.cls == FAIR:
                    x.snapshot = x.least
            else:
                kind = 'Selected'
                self.select(i, forced_before)
        x.pending = False
        x.ran = 0
        if self.count != 0 and x.run is None and self.core != 0 and self.queued(i):
            x.place = 1
        self.pick_kind = kind
        self.stats['pick ' + kind] += 1
        if self.count:
            self.stats['pick forced > 0'] += 1
        run = 'idle' if x.run is None else str(x.run.pid)
        return '%s %s core %d forced %d' % (kind, run, self.core, self.count)

    def lead_of(self, order):
        """The earliest first of these siblings than which no other is higher."""
        firsts = [self.first(x.i) for x in order]
        lead = firsts[0]
        for t in firsts[1:]:
            if self.higher(t, lead):
                lead = t
            elif t is not None and lead is not None and not self.higher(lead, t):
                self.stats['lead: tie'] += 1
        # One pass finds the lead only where "higher" is a strict weak order on the firsts.
        by_words = [t for t in firsts if not any(self.higher(u, t) for u in firsts if u is not t)]
        assert by_words and by_words[0] is lead, 'the lead is the earliest than which none is higher'
        return lead

    def choice_of(self, x, k):
        """What a sibling gets for core cookie k."""
        head = self.first(x.i)
        if head is None or head.cookie == k:
            return head
        queue = self.queued(x.i)
        if k == 0:
            if any(t.cookie == 0 for t in queue):
                self.stats['choice: core 0 idles past a task without cookie'] += 1
            return None
        choice = first_of([t for t in queue if t.cookie == k])
        if choice is not None:
            self.stats['choice: cookie search'] += 1
        return choice

    def has_eligible(self, x, k):
        if k != 0:
            return any(t.cookie == k for t in self.queued(x.i))
        head = self.first(x.i)
        return head is not None and head.cookie == 0

    def select(self, i, forced_before):
        order = [self.sib[(i + k) % self.n] for k in range(self.n)]
        order = [x for x in order if x.online]
        lead = self.lead_of(order)
        k = self.core = 0 if lead is None else lead.cookie
        choices = {x.i: self.choice_of(x, k) for x in order}
        forced = [x.i for x in order if choices[x.i] is None and self.queued(x.i)]
        assert all(not self.has_eligible(self.sib[j], k) for j in forced), 'idle is forced where none is eligible'
        assert all(c is None or c.cookie == k for c in choices.values())
        self.count = len(forced)
        self.occupation = sum(1 for c in choices.values() if c is not None)
        assert self.count == 0 or self.occupation != 0, 'the occupation is not 0 while the count is not'
        if self.count != 0:
            self.start = self.clock
            self.stats['interval opens under ' + ('a cookie' if k else 'cookie 0')] += 1
        self.pick_number = self.task_number
        for x in order:
            self.remember(x, choices[x.i], forced_before and self.count != 0)
            self.tell(x, choices[x.i], x.i == i)

    def remember(self, x, c, keep):
        """The occupation, and the snapshot of a sibling that gets a fair task, unless they are kept."""
        if c is None:
            x.remembered = self.occupation
        else:
            c.remembered = self.occupation
        if c is not None and c.cls == FAIR:
            if not keep:
                x.snapshot = x.least
            elif x.snapshot != x.least:
                self.stats['snapshot: kept old'] += 1

    def tell(self, x, c, selects):
        if selects:
            x.run, x.waiting, x.number = c, NONE, self.pick_number
        elif x.run is c:
            x.waiting = NONE
            if x.pending:
                self.stats['selected: other keeps a set flag'] += 1
        else:
            x.waiting = c
            x.pending = True

    # ---- queueing

    def queue_at_home(self, t, what):
        if not self.sib[t.home].online:
            d = self.online()[0].i
            t.v = self.moved_v(t, d)
            t.home = d
            self.stats['home offline: ' + what] += 1
        x = self.sib[t.home]
        if t.cls == DEADLINE:
            t.deadline = self.clock + t.policy[1]
        if t.cls == FAIR:
            t.v = max(t.v, x.least)
        self.enqueue(t)
        r = x.run
        if r is None:
            why = 'idle'
        elif r is t:
            why = None
        elif t.cls != r.cls:
            why = 'class' if t.cls > r.cls else None
        elif t.cls == REAL:
            why = 'rt' if r.policy[1] < t.policy[1] else None
        elif t.cls == DEADLINE:
            why = 'dl' if r.deadline > t.deadline else None
        elif t.cls == FAIR:
            why = 'fair' if r.v > t.v else None
        else:
            why = None
        if why:
            x.pending = True
        pair = '' if r is None else ' %s over %s' % (NAMES[t.cls], NAMES[r.cls])
        self.stats['%s: preempts %s%s' % (what, 'yes' if why else 'no', pair)] += 1

    # ---- access

    def may_access(self, c, t):
        st = self.stats
        if t.tgid == c.tgid:
            st['access: own group'] += 1
            return True
        u, g = c.ids[0], c.ids[3]
        same = all(u == x for x in t.ids[:3]) and all(g == x for x in t.ids[3:])
        if not (same or c.flags[0]):
            st['access: refused ids'] += 1
            return False
        if t.flags[1] and not t.flags[2] and not c.flags[0]:
            st['access: refused dump'] += 1
            return False
        if t.flags[0] and not c.flags[0]:
            st['access: refused capability module'] += 1
            return False
        if not self.guards_allow(c.ids[0], t.ids[0]):
            return False
        st['access: allowed' + ('' if same else ' by capability')] += 1
        return True

    def guards_allow(self, frm, to):
        """Asks the active guards one after the other, up to one that refuses."""
        for place, guard in enumerate(self.active):
            assert guard.place == 'active'
            guard.asked += 1
            if (frm, to) in guard.pairs:
                self.stats['access: refused by guard' + (' behind another' if place else '')] += 1
                return False
        if self.active:
            self.stats['access: allowed by guards'] += 1
        return True

    def prctl(self, p, cmd, target, scope, addr):
        c = self.tasks.get(p)
        t = c if target == 0 else self.tasks.get(target)
        row, answer = self.row_before(c, t, cmd, target, scope, addr) or self.row_after(c, t, cmd, scope)
        self.stats['prctl row %d' % row] += 1
        return answer

    def row_before(self, c, t, cmd, target, scope, addr):
        """The first row that applies before a cookie is made, and its answer; None where none does."""
        if c is None:
            return 1, 'NoCaller'
        if len(self.online()) < 2:
            return 2, 'ENODEV'
        if scope > 2 or cmd > 3 or target < 0 or (addr != 0 and cmd != 0):
            return 3, 'EINVAL'
        if t is None:
            return 4, 'ESRCH'
        if not self.may_access(c, t):
            return 5, 'EPERM'
        if cmd == 0:
            if scope != 0 or addr % 8 != 0:
                return 6, 'EINVAL'
            if addr < 4096 or addr > self.s.top - 8:
                return 7, 'EFAULT'
            return 8, '0 value %d' % t.cookie
        if cmd == 1 and len({x.cookie for x in self.tasks.values() if x.cookie != 0}) == self.s.cookies:
            return 9, 'ENOMEM'
        return None

    def row_after(self, c, t, cmd, scope):
        """A cookie is made where one is asked for; then the first row that applies, and its answer."""
        new = c.cookie
        if cmd == 1:
            new = self.next_cookie
            self.next_cookie += 1
        if cmd == 3:
            if scope != 0:
                return 10, 'EINVAL'
            self.set_cookie(c, t.cookie)
            return 11, '0'
        members = [x for x in self.tasks.values()
                   if (x is t, x.tgid == t.tgid, x.pgid == t.pgid)[scope]]
        members.sort(key=lambda x: x.pid)
        if scope != 0:
            for m in members:
                if not self.may_access(c, m):
                    return 12, 'EPERM'
        for m in members:
            self.set_cookie(m, new)
        return 13, '0'

    # ---- events

    def step(self, event):
        """The reply's text."""
        name = event[0]
        return getattr(self, 'do_' + name)(*event[1:])

    def do_turn(self, i):
        x = self.sib[i]
        if not x.online:
            return 'Offline'
        if x.pending:
            return self.schedule(i)
        if x.place != 0:
            return self.steal(i)
        return 'Nothing'

    def do_resched(self, i):
        if not self.sib[i].online:
            return 'Offline'
        return self.schedule(i)

    def refusal(self, i):
        """Why a task cannot leave sibling i, None where one can."""
        x = self.sib[i]
        return 'Offline' if not x.online else 'Idle' if x.run is None else None

    def leave(self, i):
        """The running task of i leaves its queue, once the open interval is charged."""
        x = self.sib[i]
        t = x.run
        self.charge()
        self.dequeue(t)
        self.note_touches += 1
        self.dirty = True
        x.run = None
        return t

    def do_block(self, i):
        refusal = self.refusal(i)
        if refusal:
            return refusal
        t = self.leave(i)
        return 'Slept %d %s' % (t.pid, self.schedule(i))

    def do_exit(self, i):
        refusal = self.refusal(i)
        if refusal:
            return refusal
        t = self.sib[i].run
        if t.tgid == t.pid and any(u.tgid == t.pid and u is not t for u in self.tasks.values()):
            return 'HasThreads'
        self.leave(i)
        del self.tasks[t.pid]
        self.ended.append(t)
        return 'Ended %d %s' % (t.pid, self.schedule(i))

    def do_tick(self, i):
        x = self.sib[i]
        if not x.online:
            return 'Offline'
        self.charge()
        t = x.run
        yes = False
        if t is not None and t.policy[0] == 'rr' and t.used >= 100000000:
            t.used = 0
            if any(u is not t and u.cls == REAL and u.policy[1] == t.policy[1] for u in self.queued(i)):
                t.stamp = self.next_stamp
                self.next_stamp += 1
                yes = True
                self.stats['tick yes: rotation'] += 1
            else:
                self.stats['tick: slice over, alone'] += 1
        if t is not None and t.cls == FAIR:
            fair = [u for u in self.queued(i) if u.cls == FAIR]
            if any(u is not t and u.v < t.v for u in fair):
                yes = True
                self.stats['tick yes: smaller vtime'] += 1
            if fair == [t] and self.count != 0 and x.ran >= 6000000:
                yes = True
                self.stats['tick yes: forced idle 6 ms'] += 1
        if yes:
            if x.pending:
                self.stats['tick yes: was pending'] += 1
            x.pending = True
        return 'Ticked yes' if yes else 'Ticked no'

    def do_wake(self, p):
        t = self.tasks.get(p)
        if t is None:
            return 'NoTask'
        if t.queued:
            return 'Awake'
        self.queue_at_home(t, 'wake')
        self.note_touches += 1
        return 'Woken %d' % t.home

    def do_advance(self, d):
        self.clock += d
        for x in self.sib:
            x.ran += d
            t = x.run
            if t is not None:
                if t.policy[0] == 'rr':
                    t.used += d
                elif t.policy[0] == 'fair':
                    t.v += d * 1024 // WEIGHT[t.policy[1] + 20]
        for x in self.sib:
            fair = [t.v for t in self.queued(x.i) if t.cls == FAIR]
            if fair:
                x.least = max(x.least, min(fair))
        return 'Now %d' % self.clock

    def do_fork(self, p, how):
        c = self.tasks.get(p)
        if c is None:
            return 'NoCaller'
        if len(self.tasks) == self.s.limit:
            self.stats['EAGAIN: limit'] += 1
            return 'EAGAIN'
        if c.cls == DEADLINE:
            self.stats['EAGAIN: deadline'] += 1
            return 'EAGAIN'
        pid = self.next_pid
        self.next_pid += 1
        home = c.home if self.sib[c.home].online else self.online()[0].i
        t = Task(pid, c.tgid if how == 'thread' else pid, c.pgid, home, c.policy, c.ids, c.flags)
        t.cookie = c.cookie
        t.v = self.sib[home].least
        self.tasks[pid] = t
        self.queue_at_home(t, 'child')
        self.note_touches += 1
        return 'Child %d' % pid

    def do_prctl(self, *ask):
        return self.prctl(*ask)

    def do_setsched(self, p, policy):
        t = self.tasks.get(p)
        if t is None:
            return 'NoTask'
        t.used = 0
        if not t.queued:
            t.policy = policy
            return 'Set'
        self.dequeue(t)
        t.policy = policy
        self.queue_at_home(t, 'setsched')
        self.note_touches += 2
        if self.runs(t):
            self.sib[t.home].pending = True
        return 'Set'

    def do_offline(self, i):
        x = self.sib[i]
        if not x.online:
            return 'Already'
        others = [y for y in self.online() if y is not x]
        if not others:
            return 'EBUSY'
        self.charge()
        self.start = None
        self.count = self.occupation = 0
        moved = sorted(self.queued(i), key=lambda t: t.stamp)
        for t in moved:
            self.move(t, others[0].i)
            self.note_touches += 2
        x.online, x.run, x.pending, x.waiting, x.place = False, None, False, NONE, 0
        for y in others:
            y.pending = True
        self.stats['offline moves tasks' if moved else 'offline moves nothing'] += 1
        return 'Done'

    def do_online(self, i):
        x = self.sib[i]
        if x.online:
            return 'Already'
        x.online, x.run, x.pending, x.waiting, x.place = True, None, True, NONE, 0
        return 'Done'

    def do_load(self, index):
        guard = self.guards[index] if index < len(self.guards) else None
        if guard is None or guard.place != 'bench':
            self.stats['load refused: ' + ('no such guard' if guard is None else guard.place)] += 1
            return 'NoGuard'
        guard.place = 'active'
        self.active.append(guard)
        return 'Loaded'

    def do_unload(self, index):
        guard = self.guards[index] if index < len(self.guards) else None
        if guard is None or guard.place != 'active':
            self.stats['unload refused: ' + ('no such guard' if guard is None else guard.place)] += 1
            return 'NoGuard'
        guard.place, guard.pairs = 'dropped', []
        self.active.remove(guard)
        return 'Dropped'

    def steal(self, i):
        x = self.sib[i]
        j = (i + x.place) % self.n
        y = self.sib[j]
        if self.core != 0 and x.run is None:
            for t in sorted([t for t in self.queued(j) if t.cookie == self.core], key=key):
                if t is y.waiting:
                    self.stats['steal passes: waiting'] += 1
                elif t is y.run:
                    self.stats['steal passes: running'] += 1
                elif t.remembered > x.remembered:
                    self.stats['steal passes: occupation'] += 1
                else:
                    self.move(t, i)
                    self.note_touches += 2
                    x.pending = True
                    x.place = 0
                    if not self.queued(j) and y.run is None and self.count != 0:
                        y.pending = True
                        self.stats['steal: source flagged'] += 1
                    return 'Stole %d from %d' % (t.pid, j)
        else:
            self.stats['steal: need fails'] += 1
        if not y.online:
            self.stats['steal: source offline'] += 1
        x.place = 0 if x.place + 1 == self.n else x.place + 1
        return 'Missed %d' % j

    # ---- an entry

    def apply(self, event, text):
        self.note_touches = 0
        self.dirty = False
        self.pick_kind = None
        counts = [g.asked for g in self.guards]
        reply = self.step(event)
        touches = self.note_touches + (1 if self.pick_kind in ('Selected', 'Plain') else 0)
        self.dirty = False
        if self.pick_kind == 'Selected':
            self.last_selected = len(self.touches)
        self.touches.append(touches)
        self.entries.append('%s: %s' % (text, reply))
        self.stats['reply ' + reply_kind(reply)] += 1
        if self.check:
            self.assert_laws()
            self.assert_asked(event, counts)
        return reply

    def assert_asked(self, event, counts):
        """A call of prctl asks the active guards, once for its target and once for each member of its group."""
        for guard, before in zip(self.guards, counts):
            most = len(self.tasks) + 1 if event[0] == 'prctl' and guard.place == 'active' else 0
            assert before <= guard.asked <= before + most, 'a guard is asked at most once for each task, and once more'
            assert guard.place != 'bench' or guard.asked == 0, 'a guard on the bench is never asked'
        assert all((g.place == 'active') == (g in self.active) for g in self.guards)

    def assert_laws(self):
        fresh = self.fresh()
        running = set()
        for x in self.sib:
            q = self.queued(x.i)
            if x.online:
                assert x.pending or x.run is None or x.run.cookie == self.core, 'the trust rule'
            else:
                is_bare = not q and x.run is None and not x.pending and x.waiting is NONE and x.place == 0
                assert is_bare, 'an offline sibling has nothing'
            if x.run is not None:
                assert x.run in q, 'what runs is queued'
                running.add(x.run.pid)
            if x.waiting is not NONE:
                assert x.pending, 'where something waits, the sibling is pending'
                assert x.waiting is None or x.waiting in q, 'what waits is queued'
                assert x.waiting is None or x.waiting is not x.run, 'what waits does not run'
                if fresh:
                    assert x.waiting is None or x.waiting.cookie == self.core, 'what waits and is fresh has the core cookie'
            assert x.snapshot < BOUND and x.least < BOUND
        for t in self.tasks.values():
            assert t.v < BOUND
            assert self.sib[t.home].online or not t.queued
        assert self.count == 0 or self.occupation != 0, 'the occupation is not 0 while the count is not'
        assert (self.start is not None) == (self.count != 0), 'an interval is open exactly while a sibling is forced idle'
        assert len(self.tasks) <= self.s.limit
        assert len({t.cookie for t in self.tasks.values() if t.cookie}) <= self.s.cookies

    def drain(self):
        bound = self.n * self.n
        while True:
            pending = [x.i for x in self.sib if x.online and x.pending]
            if not pending:
                break
            ready = [i for i in pending if self.would_adopt(i)]
            i = (ready or pending)[0]
            self.apply(('resched', i), 'end resched %d' % i)
            self.stats['drain entry'] += 1
            bound -= 1
            assert bound >= 0, 'as many entries as the square of the siblings end a run'

    # ---- output

    def check_end(self):
        assert self.task_number == sum(self.touches), 'the task number is the sum'
        if self.last_selected is None:
            assert self.pick_number == 0
        else:
            assert self.pick_number == sum(self.touches[:self.last_selected + 1]), 'the pick number is the sum'
        totals = Counter()
        for frm, to, count, occ, who in self.intervals:
            delta = to - frm
            share = delta if count <= 1 and occ <= 1 else delta * count // occ
            for pid in who:
                totals[pid] += share
        for t in list(self.tasks.values()) + self.ended:
            assert t.total == totals[t.pid], 'a total is the sum of the shares'

    def report(self):
        out = ['report', 'clock %d' % self.clock, 'numbers %d %d' % (self.task_number, self.pick_number),
               'core %d forced %d occupation %d' % (self.core, self.count, self.occupation),
               'intervals %d' % len(self.intervals)]
        for x in self.sib:
            out.append('cpu %d %s runs %s number %d' % (
                x.i, 'online' if x.online else 'offline', 'idle' if x.run is None else x.run.pid, x.number))
        for pid in sorted(self.tasks):
            t = self.tasks[pid]
            out.append('task %d cpu %d %s cookie %d forced %d vtime %d' % (
                pid, t.home, 'queued' if t.queued else 'asleep', t.cookie, t.total, t.v))
        for t in self.ended:
            out.append('ended %d forced %d' % (t.pid, t.total))
        for index, guard in enumerate(self.guards):
            out.append('guard %d %s asked %d' % (index, guard.place, guard.asked))
        out.append('done')
        return out


def reply_kind(reply):
    words = reply.split()
    if words[0] in ('Slept', 'Ended'):
        return words[0]
    if words[0] == 'Ticked':
        return reply
    if words[0] == '0':
        return '0 value' if len(words) > 1 else '0'
    return words[0]


def output(s, stats=None, check=True, caps=GUARDS):
    room = Room(s, stats, check, caps)
    for _, event, text in s.steps:
        room.apply(event, text)
    room.drain()
    assert not any(x.online and x.pending for x in room.sib), 'nobody is pending at the end'
    room.check_end()
    return ''.join(line + '\n' for line in room.entries + room.report()).encode()


def replay(data, stats=None, check=True, caps=GUARDS):
    """(status, standard output, standard error) of `coresched replay`, with the line and the kind of a bad text."""
    try:
        return 0, output(read(data), stats, check, caps), b''
    except TooLong:
        return 2, b'', b'coresched: input too long\n'
    except Bad as bad:
        return 2, b'', ('coresched: line %d: %s\n' % (bad.line, bad.kind)).encode()
    except BadGuard as bad:
        return 2, b'', ('coresched: line %d: guard %s\n' % (bad.line, bad.kind)).encode()


def second_text(s):
    """The text of a scenario in version 2. Its users are numbered in the order in which the tasks first have them."""
    users, tasks = [], []
    for pid, tgid, pgid, cpu, policy, *values in s.tasks:
        if values not in users:
            users.append(values)
        name = policy[0] if policy[0] == 'stop' else '%s:%d' % policy
        tasks.append('task %d %d %d %d %s %d' % (pid, tgid, pgid, cpu, name, users.index(values)))
    lines = ['coresched 2', 'siblings %d' % s.siblings, 'limits %d %d %d' % (s.limit, s.cookies, s.top)]
    lines += ['user %d %s' % (k, ' '.join(map(str, values))) for k, values in enumerate(users)] + tasks
    lines += ['teach %d %d %d' % teach[1:] for teach in s.teaches]
    lines += ['step ' + text for _, _, text in s.steps] + ['end']
    return ''.join(line + '\n' for line in lines).encode()


def upgrade(data):
    """(status, standard output, standard error) of `coresched upgrade`."""
    try:
        return 0, second_text(read(data)), b''
    except TooLong:
        return 2, b'', b'coresched: input too long\n'
    except Bad as bad:
        return 2, b'', ('coresched: line %d: %s\n' % (bad.line, bad.kind)).encode()


def main():
    if len(sys.argv) > 1:
        sys.exit('reference.py takes no words; it reads a scenario from standard input')
    status, out, err = replay(sys.stdin.buffer.read(MAX_INPUT + 1))
    sys.stdout.buffer.write(out)
    sys.stdout.buffer.flush()
    sys.stderr.buffer.write(err)
    sys.exit(status)


if __name__ == '__main__':
    main()
