"""Texts at and past each limit of the format. It is no program of its own."""
from scenarios import IDS

TASK = 'task 1 1 1 0 fifo:1 ' + IDS
POLICIES = ['stop', 'stop:', 'stop:1', 'idle', 'fifo', 'fifo:', 'fifo:0', 'fifo:1', 'fifo:99', 'fifo:100', 'fifo:01', 'fifo:1:2', 'rr:', 'rr:0',
            'rr:1', 'rr:99', 'rr:100', 'rr:1:2', 'dl:', 'dl:0', 'dl:1', 'dl:1000000000', 'dl:1000000001', 'dl:01', 'fair:', 'fair:-21',
            'fair:-20', 'fair:-1', 'fair:0', 'fair:-0', 'fair:19', 'fair:20', 'fair:+1', 'fair:01', 'FIFO:1', 'rr', 'dl', 'fair']


def text_with(head='coresched 1', siblings='siblings 2', limits='limits 8 8 65536', tasks=(TASK,), teaches=(), steps=(), end='end\n'):
    return ('\n'.join([head, siblings, limits, *tasks, *teaches, *steps]) + '\n' + end).encode('latin-1')


def spread(low, high):
    """Words at and past both ends of a range, and words that are no number."""
    vals = [str(low), str(high), str(low - 1), str(high + 1)]
    return vals + ['0' + str(max(low, 1)), '-0', '+%d' % max(low, 1), '-1', 'x', '9' * 30]


def with_word(line, k, word):
    """The line with another word in the place k behind its first."""
    words = line.split(' ')
    words[k + 1] = word
    return ' '.join(words)


def limits_of_heads():
    yield 'least', text_with()
    for v in spread(1, 8) + ['02', '8\r']:
        yield 'siblings ' + v, text_with(siblings='siblings ' + v, tasks=())
    for k, (low, high) in enumerate([(1, 256), (1, 256), (8192, 2**63 - 1)]):
        for v in spread(low, high):
            yield 'limits %d %s' % (k, v), text_with(limits=with_word('limits 8 8 65536', k, v))


def limits_of_tasks():
    fields = [(1, 9999), (1, 9999), (1, 9999), (0, 1), None] + [(0, 65535)] * 6 + [(0, 1)] * 3
    for k, ends in enumerate(fields):
        if ends is None:
            continue
        for v in spread(*ends) if k in (0, 1, 2, 3, 5, 11) else [str(ends[1]), str(ends[1] + 1), str(ends[0]), '-1']:
            line = with_word(TASK, k, v)
            if k == 0 and v.isdigit():
                line = with_word(line, 1, v)
            yield 'task %d %s' % (k, v), text_with(tasks=(line,))
    for p in POLICIES:
        yield 'policy ' + p, text_with(tasks=('task 1 1 1 0 %s %s' % (p, IDS),), steps=('step c0 wake 1', 'step s0 turn'))
        yield 'setsched ' + p, text_with(steps=('step c0 setsched 1 ' + p,))


def second(siblings='siblings 2', users=('user 0 ' + IDS,), tasks=('task 1 1 1 0 fifo:1 0',), **rest):
    """A text of version 2."""
    return text_with(head='coresched 2', siblings=siblings, tasks=(*users, *tasks), **rest)


def limits_of_users():
    other = 'user 1 7 7 7 7 7 7 0 0 0'
    yield 'version 2', second()
    yield 'version 2 and no user', second(users=(), tasks=())
    for v in spread(1, 16):
        yield 'siblings of version 2 ' + v, second(siblings='siblings ' + v, users=(), tasks=())
    for i in ['s9', 's10', 's15', 's16', 's015', 's1', 's']:
        yield 'actor %s of 16' % i, second(siblings='siblings 16', steps=('step %s turn' % i, 'step c0 offline ' + i[1:]))
    for k, (low, high) in enumerate([(0, 255)] + [(0, 65535)] * 6 + [(0, 1)] * 3):
        for v in spread(low, high):
            yield 'user %d %s' % (k, v), second(users=(with_word('user 0 ' + IDS, k, v),))
    for v in spread(0, 255) + ['1', '2']:
        yield 'user of a task ' + v, second(users=('user 0 ' + IDS, other), tasks=('task 1 1 1 0 fifo:1 0', 'task 2 2 2 0 fifo:1 ' + v))
    for users in [('user 1 ' + IDS,), ('user 0 ' + IDS, 'user 1 ' + IDS), ('user 0 ' + IDS, 'user 0' + other[6:]),
                  ('user 0 ' + IDS, 'user 2' + other[6:]), ('user 0 ' + IDS, other), ('user 0 ' + IDS, other, 'user 2 ' + IDS), (other,)]:
        for tasks in [(), ('task 1 1 1 0 fifo:1 0',), ('task 1 1 1 0 fifo:1 1',), ('task 1 1 1 0 fifo:1 0', 'task 2 2 2 0 fifo:1 1')]:
            for rest in [{}, {'teaches': ('teach 0 1 2',)}, {'steps': ('step s0 turn',)}, {'steps': ('step s0 turns',)}, {'end': 'end'}]:
                yield 'users %s %s %s' % (users, tasks, rest), second(users=users, tasks=tasks, **rest)
    for line in ['user', 'user 0', 'user 0 ' + IDS + ' 0', 'user 0 ' + IDS[:-2], 'user  0 ' + IDS, 'User 0 ' + IDS]:
        yield line, second(users=(line,))
    for task in [TASK, 'task 1 1 1 0 fifo:1', 'task 1 1 1 0 fifo:1 0 0', 'task 1 1 1 0 fifo 0', 'task 1 1 1 0 fifo:1 00']:
        yield 'version 2 ' + task, second(tasks=(task,))
    yield 'user after a task', second(tasks=('task 1 1 1 0 fifo:1 0', other))
    yield 'user in version 1', text_with(tasks=('user 0 ' + IDS, TASK))
    yield 'user of version 1', text_with(tasks=('task 1 1 1 0 fifo:1 0',))
    yield 'twice and no user', second(tasks=('task 1 1 1 0 fifo:1 0', 'task 1 1 1 0 fifo:1 5'))
    yield 'leader and no user', second(tasks=('task 1 1 1 0 fifo:1 0', 'task 2 3 1 0 fifo:1 5'))
    yield 'full and no user', second(limits='limits 1 1 8192', tasks=('task 1 1 1 0 fifo:1 0', 'task 2 2 2 0 fifo:1 5'))
    for k in (255, 256, 257):
        users = tuple('user %d %d 0 0 0 0 0 0 1 1' % (u, u) for u in range(k))
        tasks = tuple('task %d %d %d 0 fifo:1 %d' % (u + 1, u + 1, u + 1, u) for u in range(min(k, 256)))
        yield '%d users' % k, second(users=users, tasks=tasks, limits='limits 256 8 65536')


def limits_of_steps():
    for v in spread(1, 999999):
        for form in ['wake %s', 'fork %s thread', 'prctl %s 0 0 0 0', 'setsched %s stop']:
            yield 'step ' + form % v, text_with(steps=('step c0 ' + form % v,))
    for v in spread(1, 1000000000):
        yield 'advance ' + v, text_with(steps=('step c0 advance ' + v,))
    for k, (low, high) in enumerate([(0, 2**32 - 1), (-2**31, 2**31 - 1), (0, 2**32 - 1), (0, 2**64 - 1)]):
        for v in spread(low, high) + ['-2147483649'] * (k == 1):
            yield 'prctl %d %s' % (k, v), text_with(steps=(with_word('step c0 prctl 1 0 0 0 0', k + 3, v),))
    for a in ['s0', 's1', 's2', 's', 's00', 's-0', 's01', 'sx', 'x0', 'S0', '']:
        yield 'actor ' + a, text_with(steps=('step %s turn' % a,))
    for a in ['c0', 'c7', 'c8', 'c', 'c07', 'c-1', 'cx', 'C0', 's0']:
        yield 'actor ' + a, text_with(steps=('step %s wake 1' % a,))
    yield 'actor c9 with turn', text_with(steps=('step c9 turn',))
    yield 'actor s9 with wake', text_with(steps=('step s9 wake 1',))
    for v in spread(0, 1):
        yield 'offline ' + v, text_with(steps=('step c0 offline ' + v,))
        yield 'online ' + v, text_with(steps=('step c0 online ' + v,))
    for n in (1, 8):
        for i in (n - 1, n):
            yield 'cpu %d of %d' % (i, n), text_with(siblings='siblings %d' % n, tasks=(with_word(TASK, 3, str(i)),))
            yield 'actor %d of %d' % (i, n), text_with(siblings='siblings %d' % n, steps=('step s%d turn' % i,))
    for v in spread(0, 15):
        yield 'load ' + v, text_with(steps=('step c0 load ' + v,))
        yield 'unload ' + v, text_with(steps=('step c0 unload ' + v,))
    for line in ['step c0 load', 'step c0 load 0 0', 'step s0 load 0', 'step s0 unload 0']:
        yield line, text_with(steps=(line,))


def limits_of_teaches():
    for k, (low, high) in enumerate([(0, 15), (0, 65535), (0, 65535)]):
        for v in spread(low, high) + ['3', '4']:
            yield 'teach %d %s' % (k, v), text_with(teaches=(with_word('teach 0 1 2', k, v),))
    for line in ['teach', 'teach 0', 'teach 0 1', 'teach 0 1 2 3', 'teach 0  1 2', 'teach 0 1 2 ', 'teaches 0 1 2']:
        yield line, text_with(teaches=(line,))
    for count in (1, 16, 17):
        for index in (0, 3):
            yield '%d for guard %d' % (count, index), text_with(teaches=('teach %d 1 2' % index,) * count)
    each = tuple('teach %d 1000 %d' % (k % 4, k) for k in range(65))
    yield '64 teach lines', text_with(teaches=each[:64])
    yield '65 teach lines', text_with(teaches=each)
    yield '65th with a faulty number', text_with(teaches=each[:64] + ('teach 16 1 2',))
    yield '64 teach lines, the first past the guards', text_with(teaches=('teach 4 1 2',) + each[1:64])
    yield 'a full guard before one that is not there', text_with(teaches=('teach 0 1 2',) * 17 + ('teach 9 1 2',))
    yield 'teach before the tasks', text_with(tasks=('teach 0 1 2', TASK))
    yield 'teach between tasks', text_with(tasks=(TASK, 'teach 0 1 2', 'task 2 2 2 0 fifo:1 ' + IDS))
    yield 'teach and no task', text_with(tasks=('teach 0 1 2',))
    yield 'teach after a step', text_with(steps=('step s0 turn', 'teach 0 1 2'))
    yield 'teach after the end', text_with(end='end\nteach 0 1 2\n')
    yield 'teach in place of the end', text_with(end='teach 0 1 2\n')
    yield from asked_often()


def asked_often():
    """Guards that are asked about one target, about a group, and not at all."""
    pair = (TASK, 'task 2 2 1 0 fifo:1 ' + IDS)
    share, group, get = ('step c0 prctl 1 %s' % rest for rest in ('2 2 0 0', '2 2 2 0', '0 2 0 4096'))
    for teaches in [('teach 0 1 2',), ('teach 0 1000 1000',), ('teach 1 1000 1000', 'teach 0 1000 1001'), ()]:
        for steps in [(share, group, get), ('step c0 load 0', share, group, get), ('step c0 load 1', 'step c0 load 0', share, group, get),
                      ('step c0 load 0', share, 'step c7 unload 0', 'step c7 unload 0', 'step c7 load 0', share)]:
            yield 'asked: %s %s' % (teaches, steps), text_with(tasks=pair, teaches=teaches, steps=steps)


def limits_of_ends():
    for h in ['coresched 0', 'coresched 2', 'coresched 3', 'coresched 01', 'coresched 02', 'Coresched 1', 'coresched  1', 'coresched 1 ', '']:
        yield 'head ' + h, text_with(head=h)
    for e in ['end', '', 'end\n\n', 'end\nend\n', 'end\nend', 'end\nx', 'end \n', ' end\n', 'end\r\n', 'step s0 turn', 'step s0 turn\n',
              'end\n ']:
        yield 'end %r' % e, text_with(end=e)
    yield 'empty', b''
    yield 'feed', b'\n'
    yield 'head alone', b'coresched 1\n'
    yield 'head unended', b'coresched 1'
    yield 'no siblings', b'coresched 1\nend\n'
    yield 'no limits', b'coresched 1\nsiblings 2\nend\n'


def many(k):
    return tuple('task %d %d %d %d fifo:%d %s' % (p, p, p, p % 2, p % 99 + 1, IDS) for p in range(1, k + 1))


def limits_of_many():
    yield '8 tasks at limit 8', text_with(tasks=many(8))
    yield '9 tasks at limit 8', text_with(tasks=many(9))
    yield '1 at 1', text_with(limits='limits 1 1 8192', tasks=many(1))
    yield '2 at 1', text_with(limits='limits 1 1 8192', tasks=many(2))
    wakes = tuple('step c0 wake %d' % p for p in range(1, 257))
    yield '256 at 256', text_with(limits='limits 256 256 65536', tasks=many(256),
                             steps=wakes + ('step s0 turn', 'step s1 turn', 'step c0 fork 1 process'))
    yield '257 at 256', text_with(limits='limits 256 256 65536', tasks=many(257))
    yield 'twice and full', text_with(limits='limits 1 1 8192', tasks=(TASK, TASK))
    yield 'leader and full', text_with(limits='limits 1 1 8192', tasks=(TASK, 'task 2 3 1 0 fifo:1 ' + IDS))
    thread = 'task 2 1 1 0 fifo:1 ' + IDS
    yield 'thread', text_with(tasks=(TASK, thread))
    yield 'thread of another process group', text_with(tasks=(TASK, 'task 2 1 2 0 fifo:1 ' + IDS))
    yield 'thread of a thread', text_with(tasks=(TASK, thread, 'task 3 2 1 0 fifo:1 ' + IDS))
    yield 'thread before its leader', text_with(tasks=(thread, TASK))
    yield 'thread group 0', text_with(tasks=('task 2 0 1 0 fifo:1 ' + IDS,))
    yield 'thread group 10000', text_with(tasks=('task 2 10000 1 0 fifo:1 ' + IDS,))
    yield 'task after a step', text_with(steps=('step s0 turn', 'task 2 2 2 0 fifo:1 ' + IDS))
    creates = tuple('step c0 prctl %d 1 0 0 0' % p for p in range(1, 257))
    yield 'cookies at 256', text_with(limits='limits 256 256 65536', tasks=many(256), steps=creates + creates[:1])
    yield 'cookies past 255', text_with(limits='limits 256 255 65536', tasks=many(256), steps=creates)
    yield 'forks to 256', text_with(limits='limits 256 2 65536', steps=('step c0 fork 1 process',) * 256)


def limits_of_length():
    advances = ('step c0 advance 1000000000',) * 300
    yield 'time', text_with(tasks=('task 1 1 1 0 fair:19 ' + IDS,), steps=('step c0 wake 1', 'step s0 turn') + advances)
    turns = ('step s0 turn',) * 100000
    yield '100000 steps', text_with(steps=turns)
    yield '100001 steps', text_with(steps=turns + turns[:1])
    yield '100001st step with a faulty number', text_with(steps=turns + ('step s9 turn',))
    yield '100001st step with a faulty shape', text_with(steps=turns + ('step s0 turns',))
    longest = 'step c7 prctl 999999 4294967295 -2147483648 4294967295 18446744073709551615'
    yield '100000 steps, longest numbers', text_with(steps=(longest,) * 100000)
    yield '16777216 bytes', b'\n' * 16777216
    yield '16777217 bytes', b'\n' * 16777217
    good = b'coresched 1\nsiblings 2\nlimits 8 8 65536\nend\n'
    yield 'good and then 16777216 bytes', good + b'x' * (16777216 - len(good))
    yield 'good and then 16777217 bytes', good + b'x' * (16777217 - len(good))
    yield 'a line of 16777216 bytes', b'coresched 1\nsiblings ' + b'1' * (16777216 - 22) + b'\n'


def limit_texts():
    """Pairs (name, text) at and past each limit of the format."""
    for texts_of in (limits_of_heads, limits_of_tasks, limits_of_users, limits_of_teaches, limits_of_steps, limits_of_ends, limits_of_many,
                     limits_of_length):
        yield from texts_of()
