"""True runs of random scenarios, and altered ones, each as a text for `coresched check`. It is no program of its own."""
import limits
import mutations
import races
import reference
import scenarios

REPLIES = [b'0', b'Nothing', b'Offline', b'Idle', b'Awake', b'NoTask', b'EPERM', b'ESRCH', b'Woken 0', b'Woken 1', b'Set', b'Done', b'Already',
           b'Ticked yes', b'Ticked no', b'Missed 0', b'Now 1', b'Plain idle core 0 forced 0', b'Plain 1 core 0 forced 0',
           b'Selected idle core 1 forced 1', b'Adopted idle core 1 forced 1', b'']
EXTRA = [b'', b'-', b':', b': ', b' : ', b'done', b'report', b'end', b'yes', b'end resched 0: Nothing', b's0 turn', b's0 turn:', b's0 turn: ',
         b's0 turn:Nothing', b's0 turn: Nothing', b'S0 turn: Nothing', b's0  turn: Nothing', b' s0 turn: Nothing', b'c0 wake 1: Awake',
         b'c0 wake 01: Awake', b'step s0 turn', b'coresched 1', b'clock 0', b'"', b'\\', b'a "quoted" \\ word', b'\xc3\xa9', b'\x7f', b'\x00']
BYTES = [0, 9, 13, 31, 32, 34, 47, 48, 58, 63, 92, 126, 127, 128, 195, 255]


# ---- true runs

def shuffled(rng, s):
    """The steps of a scenario in some order that keeps each actor's own."""
    left = {}
    for step in s.steps:
        left.setdefault(step[0], []).append(step)
    turns = [step[0] for step in s.steps]
    how = rng.randrange(4)
    if how == 0:
        rng.shuffle(turns)
    elif how == 1:
        names = rng.sample(list(left), len(left))
        turns.sort(key=names.index)
    elif how == 2:
        for _ in range(rng.choice([1, 3, 10])):
            swap(rng, turns)
    return [left[actor].pop(0) for actor in turns]


def swap(rng, items):
    """Swaps two neighbours, or any two."""
    if len(items) > 1:
        i = rng.randrange(len(items) - 1)
        j = i + 1 if rng.random() < .6 else rng.randrange(len(items))
        items[i], items[j] = items[j], items[i]


def true_run(rng, data):
    """A run that a race can write, none where the scenario cannot be played."""
    s = reference.read(data)
    s.steps = shuffled(rng, s)
    try:
        return reference.output(s, check=False)
    except reference.BadGuard:
        return b''


# ---- alterations of a run's lines. Each line but the last has a line feed, and the last is empty where all have one.

def place_of(rng, lines):
    """A place in the lines, one of the first or of the last more often than another."""
    how = rng.random()
    low, high = (0, len(lines)) if how < .5 else (0, 8) if how < .75 else (len(lines) - 25, len(lines))
    return rng.randrange(max(low, 0), min(high, len(lines)))


def change_reply(rng, lines):
    i = place_of(rng, lines)
    step, colon, reply = lines[i].partition(b': ')
    words = reply.split(b' ')
    how = rng.randrange(4)
    if how == 0:
        reply = rng.choice(REPLIES)
    elif how == 1:
        words[rng.randrange(len(words))] = rng.choice([b'0', b'1', b'2', b'idle', b'Plain', b'Selected', b'Adopted', b'core'])
        reply = b' '.join(words)
    elif how == 2:
        reply = rng.choice(lines).partition(b': ')[2]
    else:
        reply += rng.choice([b' ', b'0', b' 0', b'\r', b': 0'])
    lines[i] = step + colon + reply


def change_step(rng, lines):
    """Another step stands before the colon."""
    i = place_of(rng, lines)
    step, colon, reply = lines[i].partition(b': ')
    other = rng.choice(lines).partition(b': ')[0]
    words = step.split(b' ')
    words[-1] = rng.choice([b'0', b'1', b'2', b'turn', b'tick', b'turns', b''])
    lines[i] = rng.choice([other, b' '.join(words), step + b' ', step + b':', b' ' + step, step.upper(), b'step ' + step]) + colon + reply


def change_word(rng, lines):
    """A number of a line becomes another one."""
    i = place_of(rng, lines)
    words = lines[i].split(b' ')
    k = rng.randrange(len(words))
    words[k] = b'%d' % (int(words[k]) + 1) if words[k].isdigit() else words[k] + b's'
    lines[i] = b' '.join(words)


def change_byte(rng, lines):
    i = place_of(rng, lines)
    if lines[i]:
        k = rng.randrange(len(lines[i]))
        more = bytes([rng.choice(BYTES)])
        kept = k + rng.randrange(2)
        lines[i] = lines[i][:k] + more + lines[i][kept:]


def flip(rng, lines):
    i = place_of(rng, lines)
    if lines[i]:
        k = rng.randrange(len(lines[i]))
        lines[i] = lines[i][:k] + bytes([lines[i][k] ^ 1 << rng.randrange(8)]) + lines[i][k + 1:]


def drop(rng, lines):
    i = place_of(rng, lines)
    count = rng.choice([1, 1, 1, 2, 10])
    del lines[i:i + count]
    if not lines:
        lines.append(b'')


def double(rng, lines):
    i = place_of(rng, lines)
    lines.insert(i + rng.choice([0, 0, 1, 3]), lines[i])


def insert(rng, lines):
    lines.insert(place_of(rng, lines), rng.choice(EXTRA))


def replace(rng, lines):
    lines[place_of(rng, lines)] = rng.choice(EXTRA)


def move(rng, lines):
    """An entry comes earlier or later, as if its actor had made its step there."""
    line = lines.pop(place_of(rng, lines))
    lines.insert(place_of(rng, lines) if lines else 0, line)


def lengthen(rng, lines):
    """The line gets about as long as what is shown of a line, or longer."""
    i = place_of(rng, lines)
    length = rng.choice([198, 199, 200, 201, 202, 255, 256, 257, 1000, 70000])
    lines[i] = lines[i] + bytes([rng.choice([120, 34, 255])]) * (length - len(lines[i]))


def cut(rng, lines):
    """The run ends in or behind a line, or before its line feed."""
    i = place_of(rng, lines)
    del lines[i + 1:]
    how = rng.randrange(4)
    if how == 0:
        lines[i] = b''
    elif how == 1:
        lines[i] = lines[i][:rng.randrange(len(lines[i]) + 1)]
    elif how == 2:
        lines.append(rng.choice(EXTRA))


def extend(rng, lines):
    """There is more behind the last line."""
    how = rng.randrange(4)
    if how == 0:
        lines[-1] += rng.choice(EXTRA)
    elif how == 1:
        lines[-1:] = [rng.choice(EXTRA), b'']
    elif how == 2:
        lines[-1:] = [rng.choice(lines), b'']
    else:
        lines[-1:] = list(lines)


def unend(rng, lines):
    """No line feed stands behind the last line."""
    if len(lines) > 1:
        lines.pop()


def empty(rng, lines):
    lines[:] = [rng.choice([b'', b'', b'x'])]


def all_but_end(rng, lines):
    """The report comes right behind the steps, or the steps alone."""
    kept = [line for line in lines if not line.startswith(b'end ')]
    lines[:] = kept if rng.random() < .7 or b'report' not in kept else kept[:kept.index(b'report')] + [b'']


CHANGES = [change_reply] * 4 + [change_step] * 2 + [change_word, change_byte] * 2 + [flip] * 2 + [drop, double, insert, replace] * 2
CHANGES += [lambda rng, lines: swap(rng, lines)] * 3 + [move] * 3 + [lengthen, cut, cut, extend, extend, unend, empty, all_but_end]


def altered(rng, run):
    """The run with one alteration or a few."""
    lines = run.split(b'\n')
    for _ in range(rng.choice([1, 1, 1, 1, 2, 3])):
        rng.choice(CHANGES)(rng, lines)
    return b'\n'.join(lines)


# ---- whole texts

def alter_scenario(rng, data):
    """The scenario is mutated, or the end of its text is."""
    how = rng.randrange(8)
    if how < 4:
        return mutations.mutate(rng, data)
    return [data[:-4], data[:-1], data[:-4] + b'end \n', data + b'end\n'][how - 4]


def crossed(rng, data):
    """The run of one order with the entries or the report of another."""
    one, other = (true_run(rng, data).partition(b'report\n') for _ in range(2))
    return one[0] + other[1] + other[2]


def text(rng, data):
    """A scenario with a run behind it, and what was done to them in a word."""
    run = true_run(rng, data)
    how = rng.random()
    if how < .2:
        return 'true', data + run
    if how < .8:
        return 'altered', data + altered(rng, run)
    if how < .86:
        return 'crossed', data + crossed(rng, data)
    if how < .9:
        return 'other', data + true_run(rng, scenarios.Gen(rng, None, 10).make())
    return 'scenario', alter_scenario(rng, data) + (run if rng.random() < .8 else altered(rng, run))


def tiny(rng, most):
    """A scenario with a few steps of a random one, that has at most so many orders."""
    data = scenarios.Gen(rng, None, 10).make()
    lines = races.steps_of(data)
    while True:
        kept = sorted(rng.sample(range(len(lines)), min(len(lines), rng.randrange(8))))
        steps = [lines[k] for k in kept]
        if orders(steps) <= most:
            return races.in_order(data, steps)


def orders(steps):
    """How many orders these step lines have that keep each actor's own."""
    count, seen = 1, {}
    for place, step in enumerate(steps, 1):
        actor = step.split()[1]
        seen[actor] = seen.get(actor, 0) + 1
        count = count * place // seen[actor]
    return count


# ---- at the limits

def replayed(data):
    """A scenario and the run that a replay writes of it."""
    return data + reference.replay(data, check=False)[1]


def limit_texts():
    """Pairs (name, text): the texts at the limits of the format, and texts at those of a check."""
    for name, data in limits.limit_texts():
        yield name, replayed(data)
    most = 33554432
    for count in (most, most + 1):
        yield '%d feeds' % count, b'\n' * count
        yield 'a line of %d bytes' % count, b'coresched 1\nsiblings ' + b'1' * (count - 22) + b'\n'
        for more in (b'x', b'\n', b'end\n'):
            for name, base in (('no run', limits.text_with()), ('a run', replayed(limits.text_with()))):
                yield '%s and then %d bytes of %r' % (name, count, more), (base + more * count)[:count]
    yield from long_runs()
    for length in (199, 200, 201, 256, 100000):
        for c in (b'x', b'"', b'\x1f', b'\xff'):
            yield '%d of %r' % (length, c), limits.text_with() + c * length
            yield 'a reply with %d of %r' % (length, c), limits.text_with(steps=('step s0 turn',)) + b's0 turn: ' + c * length + b'\n'


def long_runs():
    """Runs of 100,000 steps, right ones and such as are wrong late."""
    count = 50000
    data = limits.text_with(steps=('step s0 turn', 'step c7 advance 1000000000') * count)
    both = b''.join(b's0 turn: Nothing\nc7 advance 1000000000: Now %d000000000\n' % k for k in range(1, count + 1))
    apart = b's0 turn: Nothing\n' * count + b''.join(b'c7 advance 1000000000: Now %d000000000\n' % k for k in range(1, count + 1))
    rest = replayed(data)[len(data) + len(both):]
    for name, run in (('both', both), ('apart', apart)):
        for more in (rest, rest[:-1], rest + b'x', run + rest, b''):
            yield '%d steps, %s and then %r' % (2 * count, name, more[-20:]), data + run + more
        yield '%d steps, %s, the last wrong' % (2 * count, name), data + run[:-2] + b'1\n' + rest
        yield '%d steps, %s, one missing' % (2 * count, name), data + run[17:] + rest
