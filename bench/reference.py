#!/usr/bin/env python3
"""An independent listing, by plain bisection over whole numbers of any size, to compare the proved program with.

reference.py FILE          prints the listing of an input
reference.py --random N    compares the program with it on N random inputs, lawful and damaged (a fixed seed); it is proved and built first
"""
import datetime
import os
import random
import struct
import subprocess
import sys

S = 66355200
BODIES = (('S', 1382400, 540000000, 2000, 24), ('M', 172800, 3240000000, 16000, 4))


class Refused(Exception):
    """Its number, and for 3 to 5 the segment."""


def value(c, x):
    before, here, total = S, x, c[1] * x
    for n in range(2, 14):
        before, here = here, 2 * x * here // S - before
        total += c[n] * here
    return c[0] + total // S


def words_of(data, most):
    if len(data) > most or len(data) % 8:
        raise Refused(13)
    return struct.unpack('<%dq' % (len(data) // 8), data)


def sections(words):
    """The leap words and the two series, or 13."""
    at, found = 0, []
    for extra, width in ((0, 2), (1, 14), (1, 14)):
        if at >= len(words) or words[at] < 0 or at + 1 + extra + width * words[at] > len(words):
            raise Refused(13)
        end = at + 1 + extra + width * words[at]
        found.append(words[at + 1:end])
        at = end
    if at < len(words):
        raise Refused(13)
    return found[0], (found[1][0], found[1][1:]), (found[2][0], found[2][1:])


def judge_leap(words):
    entries = list(zip(words[::2], words[1::2]))
    if not 1 <= len(entries) <= 64 or not 0 <= entries[0][1] <= 1000:
        raise Refused(1)
    for i, (day, offset) in enumerate(entries):
        if not -120000 <= day <= 100000:
            raise Refused(1)
        if i and not (entries[i - 1][0] < day and offset == entries[i - 1][1] + 1):
            raise Refused(1)
    return entries


def judge(series, half, most):
    start, words = series
    count = len(words) // 14
    if not 1 <= count <= most or abs(start) > 10 ** 10:
        raise Refused(2)
    cs = [words[14 * k:14 * k + 14] for k in range(count)]
    for k, c in enumerate(cs):
        if abs(c[0]) > 10 ** 15 or any(abs(x) > 4 * 10 ** 9 for x in c[1:]):
            raise Refused(3, k)
    for k, c in enumerate(cs):
        if c[1] - sum(n * n * abs(c[n]) for n in range(2, 14)) < 100 * half:
            raise Refused(4, k)
    for k in range(1, count):
        if not 200 <= value(cs[k], -S) - value(cs[k - 1], S - S // half) <= 100000:
            raise Refused(5, k)
    return cs


def marks(start, cs, half, mark):
    def at(s):
        k, i = divmod(s - start, 2 * half)
        return value(cs[k], S // half * (i - half))
    first, last = start, start + 2 * half * len(cs) - 1
    for j in range(at(first) // mark + 1, at(last) // mark + 1):
        low, high = first, last
        while high - low > 1:
            middle = (low + high) // 2
            low, high = (low, middle) if at(middle) >= j * mark else (middle, high)
        yield j, high


def listing(data):
    try:
        leap, sun, moon = sections(words_of(data, 65536))
        entries = judge_leap(leap)
        judged = [judge(series, b[1], b[3]) for series, b in zip((sun, moon), BODIES)]
        lines = []
        for series, cs, (letter, half, mark, _, circle) in zip((sun, moon), judged, BODIES):
            for j, s in marks(series[0], cs, half, mark):
                tai = 1000 * s - 32184
                held = [o for d, o in entries if 1000 * (86400 * d + o) <= tai]
                if not held:
                    raise Refused(7)
                # inside an inserted second the clock stands at the second before, and says 60
                extra = any(1000 * (86400 * d + o - 1) <= tai < 1000 * (86400 * d + o) for d, o in entries[1:])
                t = datetime.datetime(2000, 1, 1) + datetime.timedelta(milliseconds=tai - 1000 * held[-1] + 28800000 - 1000 * extra)
                second = 60 if extra else t.second
                lines.append('%s %d %s:%02d.%03d\n' % (letter, j % circle, t.strftime('%Y-%m-%d %H:%M'), second, t.microsecond // 1000))
        return ''.join(lines).encode()
    except Refused as r:
        return b'R %d\n' % r.args[0]


def random_series(rng, half, most):
    """Segments that rise and join, now and then damaged."""
    cs, level = [], rng.randint(-10 ** 13, 10 ** 13)
    for k in range(rng.choice((1, 1, 2, 3, 6))):
        small = [0, 0] + [rng.choice((0, rng.randint(-30000, 30000))) // (n * n) for n in range(2, 14)]
        weight = sum(n * n * abs(small[n]) for n in range(2, 14))
        c = small[:]
        c[1] = rng.randint(100 * half + weight, 4 * 10 ** 9) if rng.random() < 0.9 else 100 * half + weight - rng.randint(0, 1)
        c[0] = 0
        c[0] = level - value(c, -S)
        cs.append(c)
        level = value(c, S - S // half) + (rng.randint(200, 100000) if rng.random() < 0.95 else rng.choice((199, 200, 100000, 100001)))
    if rng.random() < 0.05:
        cs[rng.randrange(len(cs))][rng.randrange(14)] = rng.choice((4 * 10 ** 9, 4 * 10 ** 9 + 1, -2 ** 63, 2 ** 63 - 1, 10 ** 15, 10 ** 15 + 1))
    start = rng.choice((rng.randint(-10 ** 10, 10 ** 10), rng.randint(-10 ** 9, 10 ** 9), -10 ** 10, 10 ** 10, 10 ** 10 + 1))
    return [len(cs), start] + [x for c in cs for x in c]


def about_an_insertion(rng, leap, series, body):
    """The series begun earlier or later, so that one of its marks falls inside the second before a leap entry, or beside it; as it is, where that cannot be."""
    _, half, mark, most, _ = body
    try:
        found = list(marks(series[1], judge((series[1], series[2:]), half, most), half, mark))
    except Refused:
        return series
    i = rng.randrange(len(leap) // 2)
    second = 86400 * leap[2 * i] + leap[2 * i + 1] + 32 + rng.choice((-1, 0, 0, 1))
    start = series[1] + second - rng.choice(found)[1] if found else series[1]
    return [series[0], start] + series[2:] if abs(start) <= 10 ** 10 else series


def random_input(rng):
    day, offset, leap = rng.randint(-120000, 5000), rng.randint(0, 40), []
    for _ in range(rng.choice((1, 2, 10, 28, 64))):
        leap += [day, offset]
        day, offset = day + rng.randint(1, 900), offset + 1
    if rng.random() < 0.05:
        leap[rng.randrange(len(leap))] += rng.choice((-1, 1, 10 ** 9))
    both = [random_series(rng, half, most) for _, half, _, most, _ in BODIES]
    both = [about_an_insertion(rng, leap, series, body) if rng.random() < 0.5 else series for series, body in zip(both, BODIES)]
    words = [len(leap) // 2] + leap + both[0] + both[1]
    if rng.random() < 0.05:
        words[rng.choice((0, 1 + len(leap)))] = rng.choice((-1, 0, 1, 2 ** 62, 2 ** 63 - 1, -2 ** 63))
    data = struct.pack('<%dq' % len(words), *words)
    if rng.random() < 0.05:
        data = data[:rng.randrange(len(data))]
    return data


def built_program(name='list'):
    """The words that run the proved program; to prove and build it rt runs it too, here on an empty input."""
    here = os.path.dirname(os.path.dirname(os.path.realpath(__file__)))
    crate = os.path.join(here, 'crates', name)
    done = subprocess.run(['rt', 'run'], cwd=crate, stdin=subprocess.DEVNULL, stdout=subprocess.PIPE, stderr=subprocess.STDOUT)
    if done.returncode:
        sys.exit(done.stdout.decode()[-2000:] + 'the program is not proved')
    return [os.path.join(crate, 'out', name)]


def main():
    if sys.argv[1:2] == ['--random'] and len(sys.argv) == 3:
        program = built_program()
        rng, seen = random.Random(2000), {}
        for i in range(int(sys.argv[2])):
            data = random_input(rng)
            got = subprocess.run(program, input=data, stdout=subprocess.PIPE, check=True).stdout
            expected = listing(data)
            if got != expected:
                kept = os.path.join(os.path.dirname(program[-1]), 'differs.in')
                open(kept, 'wb').write(data)
                sys.exit('input %d differs; it is kept in %s' % (i, kept))
            kind = expected.decode().strip() if expected.startswith(b'R') else 'listed, with a second 60' if b':60.' in expected else 'listed'
            seen[kind] = seen.get(kind, 0) + 1
        print('all the same:', ', '.join('%s %d' % x for x in sorted(seen.items())))
    elif len(sys.argv) == 2:
        sys.stdout.buffer.write(listing(open(sys.argv[1], 'rb').read()))
    else:
        sys.exit(__doc__)


if __name__ == '__main__':
    main()
