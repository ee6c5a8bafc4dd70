#!/usr/bin/env python3
"""Writes the cases of crates/serve_cases, pairs of a near and a long series and a second, into its stdin, and which of the two serves into its stdout: by document 02's
sentence over whole numbers of any size. The cases are random, lawful and damaged (a fixed seed), the second mostly beside a bound; some are cuts of the real Moon of
samples/real_1995_2024.in. It shares no code with the proved library.

serve_cases.py --random N   compares the program with it on N random cases instead; it is proved and built first
"""
import os
import random
import struct
import subprocess
import sys

here = os.path.dirname(os.path.dirname(os.path.realpath(__file__)))
sys.dont_write_bytecode = True
sys.path.insert(0, os.path.join(here, 'bench'))
import reference  # noqa: E402
from reference import Refused  # noqa: E402

crate = os.path.join(here, 'crates', 'serve_cases')
# of the crate; how many the program takes at once; words of a near and of a long series
CASES, MOST, NEAR_ROOM, LONG_ROOM = 96, 1000, 28, 56


def last(series, half):
    """The last second of its whole segments."""
    return series[0] + 2 * half * (len(series[1]) // 14) - 1


def serves(body, near, long, second):
    """Near or long, the segment and its coefficients; or a refusal, and nothing."""
    _, half, _, most, _ = body
    try:
        for series in (near, long):
            if len(series[1]) % 14:
                raise Refused(2)
            reference.judge(series, half, most)
        for name, (start, words) in (('near', near), ('long', long)):
            if start <= second <= last((start, words), half):
                k = (second - start) // (2 * half)
                return '%s %d' % (name, k), words[14 * k:14 * k + 14]
        raise Refused(18)
    except Refused as r:
        return 'R %d %d' % (r.args[0], r.args[1] if len(r.args) == 2 else 0), []


def some_words(rng, body, segments):
    """Of so many segments at most; now and then a word too few or too many, or none."""
    words = reference.random_series(rng, body[1], body[3])[2:][:14 * segments]
    return rng.choice((words[:-1], words[:13], [], words + [0])) if rng.random() < 0.06 else words


def random_case(rng):
    body = rng.choice(reference.BODIES)
    half = body[1]
    start = rng.randint(-10 ** 9, 10 ** 9) if rng.random() < 0.95 else rng.choice((10 ** 10, -10 ** 10, 10 ** 10 + 1, -10 ** 10 - 1))
    long = (start, some_words(rng, body, 4)[:LONG_ROOM])
    near = (start + rng.randint(-2 * half, 6 * half), some_words(rng, body, 2)[:NEAR_ROOM])
    beside = [near[0], last(near, half), long[0], last(long, half)] + [s[0] + 2 * half * k for s in (near, long) for k in (1, 2)]
    second = rng.choice(beside) + rng.choice((-1, 0, 0, 1)) if rng.random() < 0.9 else rng.choice((-2 ** 63, 2 ** 63 - 1, 0))
    return body, near, long, second


def real_cases():
    """Four segments of the real Moon, and of them the middle two, 1,000 units higher."""
    half = reference.BODIES[1][1]
    with open(os.path.join(here, 'samples', 'real_1995_2024.in'), 'rb') as f:
        given = f.read()
    leap, sun, moon = reference.sections(struct.unpack('<%dq' % (len(given) // 8), given)[2:])
    start, words = moon[0] + 2 * half * 1000, list(moon[1][14 * 1000:14 * 1004])
    near = [c + (1000 if i % 14 == 0 else 0) for i, c in enumerate(words[14:42])]
    for second in (-1, 0, 2 * half - 1, 2 * half, 4 * half - 1, 4 * half, 6 * half - 1, 6 * half, 8 * half - 1, 8 * half):
        yield reference.BODIES[1], (start + 2 * half, near), (start, words), start + second


def written(case):
    """The words that the program reads of a case, and the line that it must print."""
    body, near, long, second = case
    words = [int(body[0] == 'M'), second, near[0], len(near[1]), long[0], len(long[1])]
    words += list(near[1]) + [0] * (NEAR_ROOM - len(near[1])) + list(long[1]) + [0] * (LONG_ROOM - len(long[1]))
    answer, part = serves(body, near, long, second)
    return struct.pack('<90q', *words), ('%s:%s\n' % (answer, ''.join(' %d' % c for c in part))).encode()


def write():
    rng = random.Random(13)
    cases = list(real_cases())
    cases += [random_case(rng) for _ in range(CASES - len(cases))]
    for name, words in zip(('stdin', 'stdout'), zip(*map(written, cases))):
        with open(os.path.join(crate, name), 'wb') as f:
            f.write(b''.join(words))


def compare(count):
    program = reference.built_program('serve_cases')
    rng, seen = random.Random(2000), {}
    while count > 0:
        at_once = min(count, MOST)
        given, said = zip(*(written(random_case(rng)) for _ in range(at_once)))
        got = subprocess.run(program, input=b''.join(given), stdout=subprocess.PIPE, check=True).stdout
        for case, line, wanted in zip(given, got.splitlines(True), said):
            if line != wanted:
                kept = os.path.join(os.path.dirname(program[-1]), 'differs.in')
                with open(kept, 'wb') as f:
                    f.write(case)
                sys.exit('a case differs; it is kept in %s' % kept)
            kind = b' '.join(wanted.split(b':')[0].split()[:2] if wanted.startswith(b'R') else wanted.split()[:1]).decode()
            seen[kind] = seen.get(kind, 0) + 1
        if got != b''.join(said):
            sys.exit('not as many lines as cases')
        count -= at_once
    print('all the same:', ', '.join('%s %d' % s for s in sorted(seen.items())))


if __name__ == '__main__':
    if sys.argv[1:2] == ['--random'] and len(sys.argv) == 3:
        compare(int(sys.argv[2]))
    else:
        write()
