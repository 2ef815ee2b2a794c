"""Random scenarios, each made beside a room of the reference. It is no program of its own."""
import reference

IDS = '1000 1000 1000 1000 1000 1000 0 1 1'
EDGES = [1, 1, 2, 3, 7, 10, 999, 1000, 1024, 5999999, 6000000, 6000001, 99999999, 100000000, 100000001, 1000000000]


def with_users(tasks):
    """The user lines of these task lines, and those as they stand in version 2."""
    users = list(dict.fromkeys(line.split(' ', 6)[6] for line in tasks))
    said = ['user %d %s' % pair for pair in enumerate(users)]
    return said + ['%s %d' % (line.rsplit(' ', 9)[0], users.index(line.split(' ', 6)[6])) for line in tasks]


class Gen:
    """A scenario is made beside a room of the reference, so that events can aim at its state."""

    def __init__(self, rng, profile=None, steps=None):
        self.r = rng
        self.profile = profile or rng.choice(PROFILES)
        self.steps = steps or rng.choice([10, 10, 20, 40, 40, 80, 80, 150, 400])

    def palette(self):
        r = self.r
        p = self.profile
        fair = ['fair:%d' % n for n in r.sample(range(-20, 20), r.choice([1, 1, 2, 3, 5]))]
        if r.random() < .3:
            fair = ['fair:0']
        if r.random() < .15:
            fair = ['fair:%d' % n for n in range(-20, 20)]
        rt = ['%s:%d' % (r.choice(['fifo', 'rr', 'rr']), n)
              for n in [r.choice([1, 2, 10, 50, 98, 99, r.randint(1, 99)]) for _ in range(r.randint(1, 3))]]
        rt += [x.replace('rr', 'fifo') for x in rt[:r.randint(0, 2)]]
        dl = ['dl:%d' % n for n in [r.choice(EDGES + [r.randint(1, 1000000000)]) for _ in range(r.randint(1, 3))]]
        if p == 'equal':
            return ['fair:0'] if r.random() < .7 else ['fair:0', 'fair:5', 'rr:50', 'dl:1000']
        if p in ('fair', 'snapshot'):
            return fair + (['fifo:1'] if r.random() < .2 else [])
        if p == 'rr':
            q = r.randint(1, 99)
            return ['rr:%d' % q, 'rr:%d' % q, 'fifo:%d' % q, 'rr:%d' % r.choice([q, 100 - q])] + (fair if r.random() < .2 else [])
        if p == 'dl':
            return dl
        if p == 'rt':
            return rt
        return ['stop'] * r.randint(0, 1) + fair + rt + dl

    def core(self):
        """Draws the version and the number of siblings, and returns the latter."""
        r = self.r
        self.version = r.choice([1, 2])
        sizes = [1, 2, 2, 2, 2, 3, 3, 3, 4, 4, 4, 5, 6, 7, 8, 8]
        self.n = r.choice(sizes if self.version == 1 else sizes + [9, 10, 11, 12, 15, 16, 16, 16])
        return self.n

    def head(self):
        r = self.r
        n = self.core()
        if self.profile in ('snapshot', 'steal') and n == 1:
            n = self.n = r.choice([2, 3, 4])
        count = r.choice([0, 1, 2, 3, 3, 4, 4, 5, 5, 6, 8, 10, 14, 20])
        if self.profile == 'steal':
            count = max(count, 5)
        if self.profile in ('access', 'guards'):
            count = max(count, 4)
        limit = min(256, max(1, count + r.choice([0, 1, 2, 4, 8, 60])))
        cookies = r.choice([1, 2, 3, 8, 256])
        if self.profile == 'snapshot':
            cookies = max(cookies, 3)
        self.top = r.choice([8192, 8192, 8200, 8191 + r.randint(1, 10000), 65536, 2**63 - 1])
        lines = ['coresched %d' % self.version, 'siblings %d' % n, 'limits %d %d %d' % (limit, cookies, self.top)]
        tasks = self.task_lines(count)
        return lines + (tasks if self.version == 1 else with_users(tasks)) + self.teach_lines()

    def task_lines(self, count):
        r = self.r
        self.policies = self.palette()
        many_ids = r.random() < (.9 if self.profile in ('access', 'guards') else .2)
        uids = self.uids = [0, 1000, 2000] if many_ids else [1000]
        pids = r.sample(range(1, 30) if r.random() < .8 else range(9970, 10000), count)
        if r.random() < .5:
            pids.sort()
        home_bias = r.choice([None, None, 0, self.n - 1])
        lines, leaders = [], []
        pgids = [r.randint(1, 9999) for _ in range(2)]
        for pid in pids:
            pgid = r.choice(pgids + [pid])
            tgid = pid
            if leaders and r.random() < (.15 if self.profile == 'access' else .35):
                tgid, pgid = r.choice(leaders)
            else:
                leaders.append((pid, pgid))
            cpu = r.randrange(self.n) if home_bias is None or r.random() < .5 else home_bias
            ids, flags = self.credentials(uids) if many_ids and r.random() < .8 else ([1000] * 6, [0, 1, 1])
            lines.append('task %d %d %d %d %s %s %s' % (
                pid, tgid, pgid, cpu, r.choice(self.policies), ' '.join(map(str, ids)), ' '.join(map(str, flags))))
        return lines

    def teach_lines(self):
        """What the guards refuse, most of it pairs that the tasks have. Now and then a guard is not there, or is full."""
        r = self.r
        often = self.profile in ('access', 'guards')
        count = r.choice([0, 1, 1, 2, 3, 4, 6, 8, 14, 40, 64]) if often else r.choice([0, 0, 0, 1, 2, 3])
        users = self.uids + [65535] * (r.random() < .1)
        past = r.random() < .03
        left = [16] * 4
        lines = []
        for _ in range(count):
            free = [k for k in range(4) if left[k]]
            index = r.randrange(16) if past else r.randrange(4) if r.random() < .01 else r.choice(free)
            if index < 4 and left[index]:
                left[index] -= 1
            rare = [r.randint(0, 65535), r.randint(0, 65535)]
            pair = [r.choice(users), r.choice(users)] if r.random() < (.3 if count > 8 else .8) else rare
            lines.append('teach %d %d %d' % (index, *pair))
        return lines

    def credentials(self, uids):
        r = self.r
        u, g = r.choice(uids), r.choice(uids)
        ids = [u] * 3 + [g] * 3
        flags = [int(r.random() < .3), int(r.random() < .8), int(r.random() < .65)]
        if r.random() < .4:
            ids = [uids[-1]] * 6
        if r.random() < (.5 if self.profile == 'access' else .2):
            ids[r.randrange(6)] = r.choice(uids + [65535])
        if self.profile == 'guards' and r.random() < .6:
            # the guards are the only ones that refuse
            flags = [1, 1, 1] if r.random() < .5 else [0, 1, 1]
        return ids, flags

    def advance(self):
        r = self.r
        p = self.profile
        if p == 'equal':
            return r.choice([1000, 1000, 1000, 2000, 3000])
        if p == 'rr':
            return r.choice([99999999, 1, 100000000, 1, 50000000, r.randint(1, 100000000)])
        if p == 'snapshot':
            return r.choice([1, 1000, 6000000, 5999999, 10**6, 10**7, r.randint(1, 10**8), 1000000000])
        if r.random() < .6:
            return r.choice(EDGES)
        return max(1, int(2 ** r.uniform(0, 29.8)))

    def any_pid(self, living):
        r = self.r
        if living and r.random() < .97:
            return r.choice(living)
        return r.choice([1, 2, 9999, 10000, 999999, self.room.next_pid, r.randint(1, 999999)])

    def prctl(self, living):
        r = self.r
        room = self.room
        p = self.any_pid(living)
        target = 0 if r.random() < .4 else self.any_pid(living)
        if r.random() < .5 and living:
            # a target in the caller's reach more often than not
            target = r.choice(living + [0])
        kind = r.random()
        if self.profile in ('access', 'guards'):
            kind = kind * .9 + .1
        if kind < .35:
            cmd, scope, addr = 1, r.choice([0, 0, 0, 1, 2]), 0
            if sum(1 for t in room.tasks.values() if t.cookie) > 2 and r.random() < .4:
                cmd = 2
            if scope and r.random() < .5:
                target = 0
        elif kind < .6:
            cmd, scope, addr = 2, r.choice([0, 0, 0, 1, 2]), 0
        elif kind < .75:
            cmd, scope, addr = 3, r.choice([0, 0, 0, 0, 1, 2]), 0
        elif kind < .88:
            cmd, scope = 0, r.choice([0, 0, 0, 0, 0, 1, 2])
            addr = r.choice([4096, 4096, 4088, 4095, 4097, 4104, 0, 8184, 8192, self.top - 8, self.top - 7, self.top,
                             self.top // 8 * 8 - 8, 2**64 - 1, 2**64 - 8, r.randrange(2**64)])
        else:
            cmd = r.choice([0, 1, 2, 3, 4, 5, 2**32 - 1])
            scope = r.choice([0, 0, 1, 2, 3, 4, 2**32 - 1])
            target = r.choice([target, target, -1, -2**31, 2**31 - 1, 0])
            addr = r.choice([0, 0, 1, 8, 4096, 2**64 - 1])
        return 'prctl %d %d %d %d %d' % (p, cmd, target, scope, addr)

    def event(self):
        r = self.r
        sibs = self.room.sib
        placed = [x.i for x in sibs if x.place and not x.pending and x.online]
        w = WEIGHTS[self.profile]
        if placed and r.random() < .4:
            return 's%d turn' % r.choice(placed)
        kind = r.choices(list(w), list(w.values()))[0]
        s = r.randrange(self.n)
        if kind in ('turn', 'resched', 'block', 'exit', 'tick'):
            wanted = [x.i for x in sibs if (x.pending if kind == 'turn' else x.run is not None)]
            if kind != 'resched' and wanted and r.random() < (.8 if kind == 'turn' else .9):
                s = r.choice(wanted)
            return 's%d %s' % (s, kind)
        return 'c%d ' % r.choice([0, 0, 0, 1, 7]) + self.call(kind, s)

    def call(self, kind, s):
        """An event of a caller; s is a sibling."""
        r = self.r
        living = list(self.room.tasks)
        if kind == 'wake':
            asleep = [p for p, t in self.room.tasks.items() if not t.queued]
            return 'wake %d' % (r.choice(asleep) if asleep and r.random() < .9 else self.any_pid(living))
        if kind == 'advance':
            return 'advance %d' % self.advance()
        if kind == 'fork':
            return 'fork %d %s' % (self.any_pid(living), r.choice(['thread', 'process']))
        if kind == 'prctl':
            return self.prctl(living)
        if kind == 'setsched':
            pol = r.choice(self.policies) if r.random() < .7 else Gen(r, 'all').palette()[0]
            return 'setsched %d %s' % (self.any_pid(living), pol)
        if kind in ('load', 'unload'):
            return '%s %d' % (kind, self.guard_for(kind))
        on = [x.i for x in self.room.sib if x.online]
        off = [x.i for x in self.room.sib if not x.online]
        if kind == 'offline':
            return 'offline %d' % (r.choice(on) if r.random() < .9 else s)
        return 'online %d' % (r.choice(off) if off and r.random() < .95 else s)

    def guard_for(self, kind):
        """The number of a guard that can be loaded or unloaded more often than not."""
        r = self.r
        wanted = 'bench' if kind == 'load' else 'active'
        fit = [k for k, guard in enumerate(self.room.guards) if guard.place == wanted]
        if fit and r.random() < .8:
            return r.choice(fit)
        return r.choice([0, 1, 2, 3, 3, 4, 15, r.randrange(16)])

    def opened(self, lines):
        """The room of the scenario. Where its guards cannot be taught, one with more of them plays on."""
        s = reference.read(('\n'.join(lines) + '\nend\n').encode())
        try:
            return reference.Room(s, check=False)
        except reference.BadGuard:
            return reference.Room(s, check=False, caps=(64,) * 16)

    def make(self):
        lines = self.head()
        self.room = self.opened(lines)
        steps = self.opening() if self.room.tasks and self.r.random() < .6 else []
        made = 0
        while made < self.steps:
            for text in steps or self.next_steps():
                one = 'coresched %d\nsiblings %d\nlimits 1 1 8192\nstep %s\nend\n' % (self.version, self.n, text)
                self.room.apply(reference.read(one.encode()).steps[0][1], text)
                lines.append('step ' + text)
                made += 1
            steps = []
        lines.append('end')
        return ('\n'.join(lines) + '\n').encode()

    def next_steps(self):
        r = self.r
        if self.profile == 'steal' and self.n > 1 and r.random() < .06:
            # one cookie's tasks wake behind each other, a selection, and then tries of those who idle
            wakes = ['c0 wake %d' % p for p, t in self.room.tasks.items() if not t.queued]
            steps = wakes[:6] + ['s%d resched' % r.randrange(self.n)]
            return steps + ['s%d turn' % s for s in r.sample(range(self.n), self.n) for _ in range(self.n)]
        if self.profile in ('snapshot', 'fair', 'equal') and r.random() < .12:
            return self.burst()
        if r.random() < .15:
            return self.aimed() or [self.event()]
        if self.profile not in ('few', 'access', 'guards') and r.random() < .03:
            return self.recookie()
        if self.profile == 'rr' and r.random() < .2:
            s = r.randrange(self.n)
            return ['c0 advance 100000000', 's%d tick' % s, 's%d turn' % s]
        return [self.event()]

    def opening(self):
        """Some cookies for all, and all awake."""
        r = self.r
        out = []
        pids = list(self.room.tasks)
        how = r.random()
        if how < .25:
            out += ['c0 prctl %d 1 0 %d 0' % (p, r.choice([0, 1, 1, 2])) for p in pids if r.random() < .7]
        elif how < .8:
            heads = r.sample(pids, min(len(pids), r.choice([1, 2, 2, 3])))
            out += ['c0 prctl %d 1 0 0 0' % p for p in heads]
            out += ['c0 prctl %d 2 %d 0 0' % (r.choice(heads), p) for p in pids if p not in heads and r.random() < .9]
        wakes = ['c%d wake %d' % (r.randrange(8), p) for p in pids if r.random() < .85]
        r.shuffle(wakes)
        out += wakes
        if r.random() < .2:
            r.shuffle(out)
        return out

    def recookie(self):
        """A queued or running task gets the core cookie, or none, while idling is forced."""
        r = self.r
        room = self.room
        have = [t for t in room.tasks.values() if t.cookie == room.core]
        bare = [t for t in room.tasks.values() if t.cookie == 0]
        run = [t for t in room.tasks.values() if room.runs(t)]
        wait = [t for t in room.tasks.values() if t.queued and room.sib[t.home].run is None]
        if wait and have and r.random() < .6:
            out = ['c0 prctl %d 2 %d 0 0' % (r.choice(have).pid, r.choice(wait).pid)]
            idle = [x.i for x in room.sib if x.online and x.run is None]
            out += ['s%d turn' % s for s in r.sample(idle, len(idle)) for _ in range(r.randint(1, 3))]
            return out
        if run and bare:
            return ['c0 prctl %d 2 %d 0 0' % (r.choice(bare).pid, r.choice(run).pid), 'c0 advance %d' % self.advance(),
                    's%d %s' % (r.randrange(self.n), r.choice(['tick', 'block', 'resched', 'turn']))]
        return [self.event()]

    def aimed(self):
        """A chain that ends at an edge which the present state is near, or nothing."""
        options = []
        for x in self.room.sib:
            t = x.run
            if t is not None and t.policy[0] == 'rr' and 0 < t.used < 100000000:
                options += self.near_slice(x, t)
            if t is not None and t.cls == reference.FAIR and self.room.count and x.ran < 6000000:
                tail = ['c0 advance %d' % self.near(6000000 - x.ran), 's%d tick' % x.i]
                options += [tail, tail + ['s%d turn' % x.i], ['s%d turn' % x.i, 'c0 advance 6000000', 's%d tick' % x.i]]
            if t is None and x.online and x.place and not x.pending and self.room.core:
                options += self.near_steal(x)
        return self.r.choice(options) if options else None

    def near(self, rest):
        return self.r.choice([rest, rest, rest - 1, rest + 1]) or 1

    def near_slice(self, x, t):
        """Chains to the end of the slice of task t, which x runs."""
        i = x.i
        tail = ['c0 advance %d' % self.near(100000000 - t.used), 's%d tick' % i, 's%d turn' % i]
        return [tail, ['s%d block' % i, 'c0 wake %d' % t.pid, 's%d resched' % i] + tail,
                ['c0 setsched %d rr:%d' % (t.pid, t.policy[1]), 's%d turn' % i] + tail]

    def near_steal(self, x):
        """Chains in which x steals the one task of a sibling that runs idle."""
        room, options = self.room, []
        have = [u for u in room.tasks.values() if u.cookie == room.core]
        for y in room.sib:
            q = room.queued(y.i)
            turns = (y.i - x.i) % self.n - x.place + 1
            if y is not x and y.run is None and len(q) == 1 and turns >= 1 and have:
                step = 'c0 prctl %d 2 %d 0 0' % (self.r.choice(have).pid, q[0].pid)
                options += [[step] + ['s%d turn' % x.i] * turns] * 4
        return options

    def burst(self):
        """Forced idle with fair tasks, time in it, and then a comparison across siblings."""
        r = self.r
        out = []
        s = r.randrange(self.n)
        out.append('s%d resched' % s)
        if r.random() < .3:
            out += r.choice([['c0 advance 6000000'], ['c0 advance 5999999'], ['c0 advance 5999999', 's%d tick' % s, 'c0 advance 1']])
            out.append('s%d tick' % s)
        for _ in range(r.randint(1, 3)):
            out.append('c0 advance %d' % self.advance())
            t = r.randrange(self.n)
            out.append('s%d %s' % (t, r.choice(['tick', 'turn', 'resched', 'resched'])))
        for t in r.sample(range(self.n), self.n):
            out.append('s%d turn' % t)
        out.append('s%d resched' % r.randrange(self.n))
        return out


class Wide(Gen):
    """A scenario with 16 siblings."""

    def core(self):
        self.version, self.n = 2, 16
        return self.n


BASE = dict(turn=30, resched=8, block=8, exit=1, tick=9, wake=18, advance=10, fork=2, prctl=10, setsched=4, offline=2, online=2,
            load=.7, unload=.3)
PROFILES = ['all', 'all', 'all', 'fair', 'snapshot', 'snapshot', 'rt', 'rr', 'rr', 'dl', 'access', 'access', 'guards', 'guards', 'life',
            'steal', 'steal', 'hotplug', 'few', 'equal']
WEIGHTS = {
    'all': BASE,
    'fair': dict(BASE, advance=16, tick=14, block=5),
    'snapshot': dict(BASE, resched=14, advance=16, block=4, exit=0.2, fork=1, prctl=8, wake=20),
    'rt': BASE,
    'rr': dict(BASE, advance=18, tick=22, block=4, prctl=3, exit=0.3, setsched=7),
    'dl': dict(BASE, advance=14, wake=24, block=14),
    'access': dict(BASE, prctl=60, load=3, unload=1),
    'guards': dict(BASE, turn=12, prctl=60, load=12, unload=4, fork=4),
    'life': dict(BASE, fork=14, exit=10, block=6),
    'steal': dict(BASE, setsched=1, offline=0.3, online=0.5, prctl=14, wake=26, block=4, exit=0.3),
    'hotplug': dict(BASE, offline=8, online=8, wake=24, block=10),
    'few': dict(BASE, prctl=2),
    'equal': dict(BASE, advance=24, tick=14, offline=6, online=6, exit=0.3, block=4),
}


def scenario(rng):
    return Gen(rng).make()
