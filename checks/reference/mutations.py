"""Texts that are mutated scenarios: a byte, a word, a line or more is another. It is no program of its own."""
import random

from scenarios import IDS, scenario

WORDS = [b'', b'0', b'1', b'2', b'7', b'8', b'9', b'15', b'16', b'17', b'255', b'-0', b'+1', b'-1', b'01', b'00', b'1x', b'x', b'1 ', b'\xff', b'\xc3\xa9',
         b'1\t', b'1\r', b'\t', b'1.0', b'1e3', b'0x10', b'256', b'257', b'8191', b'8192', b'9999', b'10000', b'65535', b'65536',
         b'999999', b'1000000', b'1000000000', b'1000000001', b'2147483647', b'2147483648', b'-2147483648', b'-2147483649',
         b'4294967295', b'4294967296', b'9223372036854775807', b'9223372036854775808', b'18446744073709551615',
         b'18446744073709551616', b'340282366920938463463374607431768211456', b'9' * 40, b'0' * 30,
         b'fifo:', b'fifo:0', b'fifo:1', b'fifo:99', b'fifo:100', b'fifo:-1', b'fifo:01', b'fifo:1:2', b'fifo', b'rr:', b'rr:0', b'rr:1:2',
         b'rr:99', b'rr:100', b'rr:+1', b'dl:', b'dl:0', b'dl:1', b'dl:1000000000', b'dl:1000000001', b'dl:-1', b'fair:', b'fair:-21',
         b'fair:-20', b'fair:19', b'fair:20', b'fair:-0', b'fair:0', b'fair:00', b'fair:-01', b'fair:+0', b'fair:--1', b'fair:-',
         b'stop', b'stop:', b'stop:1', b'Stop', b'idle', b'idle:0', b'batch:0', b'FIFO:1', b':1', b'fifo :1', b'fifo;1',
         b's', b'c', b's0', b's1', b's7', b's8', b's9', b's10', b's15', b's16', b's-1', b's00', b'c0', b'c7', b'c8', b'c07', b'cx', b'sx', b'x0', b'S0', b'C0', b'end', b'cend',
         b'turn', b'resched', b'block', b'exit', b'tick', b'wake', b'advance', b'fork', b'prctl', b'setsched', b'offline', b'online', b'load',
         b'unload', b'thread', b'process', b'step', b'task', b'teach', b'user', b'siblings', b'limits', b'coresched']
LINES = [b'', b' ', b'end', b'end ', b' end', b'End', b'end\r', b'task', b'step', b'step s0', b'step c0', b'step s0 turn', b'step s0  turn',
         b'step s0 turn ', b' step s0 turn', b'step  s0 turn', b'step s0 turn 1', b'step s0 wake 1', b'step c0 turn', b'step c0 wake',
         b'step c0 wake 1 2', b'step c0 fork 1', b'step c0 fork 1 both', b'step c0 fork x thread', b'step c9 turn', b'step s9 wake 1',
         b'step c9 wake 1', b'step s9 turn', b'step c0 advance 0', b'step c0 advance 1000000001', b'step c0 prctl 1 0 0 0',
         b'step c0 prctl 1 0 -0 0 0', b'step c0 load 0', b'step c0 load 15', b'step c0 load 16', b'step c0 unload 16', b'step c0 load', b'step c0 unload 0 0', b'step c0 setsched 1 fair:0', b'step c0 offline 0',
         b'step c0 online 9', b'step s0 offline 0', b'step s0 load 0', b'teach 0 1 2', b'teach 0 1', b'teach 0 1 2 3',
         b'teach 16 0 0', b'teach 15 0 65535', b'teach 3 65536 0', b'teach 00 1 2', b'teach  0 1 2', b'coresched 1', b'coresched 2',
         b'siblings 2', b'limits 8 8 65536', b'task 1 1 1 0 fifo:1 ' + IDS.encode(), b'task 1 1 1 0 fifo:1 ' + IDS.encode() + b' 0',
         b'budget 1 1 1', b'#', b'\x00', b'\xff\xfe', b'user', b'user 0 ' + IDS.encode(), b'user 1 ' + IDS.encode(), b'user 0', b'user 256 ' + IDS.encode(),
         b'user 1 7 7 7 7 7 7 0 1 1', b'task 1 1 1 0 fifo:1 0', b'task 2 2 2 0 fifo:1 1', b'task 2 2 2 0 fifo:1 256']


def line_of(rng, data):
    """The lines of a text, and the place of one of them, often an early one."""
    lines = data.split(b'\n')
    return lines, rng.randrange(len(lines)) if rng.random() < .6 else rng.randrange(min(len(lines), 12))


def change_byte(rng, data):
    if not data:
        return data
    i = rng.randrange(len(data))
    how = rng.randrange(5)
    c = bytes([rng.choice([0, 9, 10, 13, 32, 32, 45, 43, 48, 57, 58, 97, 115, 99, 127, 128, 255, rng.randrange(256)])])
    if how == 0:
        return data[:i] + data[i + 1:]
    if how == 1:
        return data[:i] + data[i:i + 1] + data[i:]
    if how == 2:
        return data[:i] + c + data[i + 1:]
    if how == 3:
        return data[:i] + c + data[i:]
    return data[:i] + data[i + 1:i + 2] + data[i:i + 1] + data[i + 2:]


def change_word(rng, data):
    lines, li = line_of(rng, data)
    words = lines[li].split(b' ')
    wi = rng.randrange(len(words))
    how = rng.randrange(7)
    if how <= 2:
        words[wi] = rng.choice(WORDS)
    elif how == 3:
        del words[wi]
    elif how == 4:
        words.insert(wi, words[wi])
    elif how == 5:
        wj = rng.randrange(len(words))
        words[wi], words[wj] = words[wj], words[wi]
    else:
        words.insert(wi, rng.choice(WORDS))
    lines[li] = b' '.join(words)
    return b'\n'.join(lines)


def change_digit(rng, data):
    places = [i for i, c in enumerate(data) if 48 <= c <= 57]
    if not places:
        return data
    i = rng.choice(places)
    how = rng.randrange(6)
    if how == 0:
        return data[:i] + bytes([rng.randrange(48, 58)]) + data[i + 1:]
    if how <= 3:
        return data[:i] + (b'0', b'-', b'+')[how - 1] + data[i:]
    if how == 4:
        return data[:i + 1] + b'0' * rng.choice([1, 5, 30]) + data[i + 1:]
    return data[:i] + data[i + 1:]


def change_line(rng, data):
    lines, li = line_of(rng, data)
    how = rng.randrange(5)
    if how == 0:
        del lines[li]
    elif how == 1:
        lines.insert(li, lines[li])
    elif how == 2:
        lj = rng.randrange(len(lines))
        lines[li], lines[lj] = lines[lj], lines[li]
    elif how == 3:
        lines.insert(li, rng.choice(LINES))
    else:
        lines[li] = rng.choice(LINES)
    return b'\n'.join(lines)


def change_end(rng, data):
    return rng.choice([data[:-1], data + b'\n', data + b'end\n', data + rng.choice(LINES), data + rng.choice(LINES) + b'\n',
                       data[:rng.randrange(len(data) + 1)], data[:-4], data[:-5], b''])


def change_group(rng, data):
    """The thread group of a task, or its pid, becomes another task's."""
    lines = data.split(b'\n')
    tasks = [i for i, x in enumerate(lines) if x.startswith(b'task ')]
    if tasks:
        i, j = rng.choice(tasks), rng.choice(tasks)
        how = rng.randrange(3)
        w, v = lines[i].split(b' '), lines[j].split(b' ')
        if how == 0 and len(w) > 3 and len(v) > 3:
            w[2] = v[rng.choice([1, 2])]
        elif how == 1 and len(w) > 3 and len(v) > 3:
            w[1] = v[1]
        elif len(w) > 3 and len(v) > 3:
            w[2], w[3] = v[2], rng.choice([v[3], w[3], b'77'])
        lines[i] = b' '.join(w)
    return b'\n'.join(lines)


def change_limits(rng, data):
    lines = data.split(b'\n')
    if len(lines) > 3:
        w = lines[2].split(b' ')
        if len(w) == 4:
            w[rng.randrange(1, 4)] = rng.choice([b'0', b'1', b'2', b'3', b'256', b'257', b'8191', b'8192', b'01'])
            lines[2] = b' '.join(w)
    return b'\n'.join(lines)


def change_teaches(rng, data):
    """More teach lines where they may stand, or near it: one, or so many that a guard or the text is full."""
    lines = data.split(b'\n')
    place = sum(1 for x in lines if not x.startswith(b'step ') and x not in (b'end', b'')) + rng.choice([0, 0, 0, 0, -1, 1])
    count = rng.choice([1, 1, 2, 4, 15, 16, 17, 60, 64, 65])
    index = rng.choice([0, 0, 1, 3, 3, 4, 15, 16])
    ends = [b'0', b'1', b'1000', b'65535', b'65535', b'65536']
    more = [b'teach %d %s %s' % (index if count < 20 else k % 4, rng.choice(ends[:5]), rng.choice(ends[:5])) for k in range(count)]
    if rng.random() < .2:
        more[-1] = b'teach %d %s %s' % (index, rng.choice(ends), rng.choice(ends))
    return b'\n'.join(lines[:place] + more + lines[place:])


CHANGES = [change_byte] * 4 + [change_word] * 6 + [change_digit] * 2 + [change_line] * 5 + [change_end, change_group, change_limits]
CHANGES += [change_teaches] * 2


def mutate(rng, data):
    for _ in range(rng.choice([1, 1, 1, 2, 3])):
        data = rng.choice(CHANGES)(rng, data)
    return data


def each_text(kind, count, seed):
    """So many random scenarios and as many mutated texts of a kind, each with its name. A seed has the same each time."""
    for k in range(count):
        rng = random.Random('%s %d/%d' % (kind, seed, k))
        data = scenario(rng)
        yield '%s-seed%d-%d' % (kind, seed, k), data
        yield '%s-seed%d-%d-mutated' % (kind, seed, k), mutate(rng, data)
