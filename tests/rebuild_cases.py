#!/usr/bin/env python3
"""Writes the cases of crates/rebuild_real and crates/rebuild_cases: what is under data/, its names into args, and what an independent rebuild says of it into stdout: two
builds of tests/build_cases.py, and the days of each sui by both. The gate runs the proved programs over the inputs and compares.

The corrections of rebuild_real are looked for in its data/sample, real series of the suis 1995 to 2024. A correction adds a bump to one segment, which is 0 at both
its ends; of all that move a mark over midnight it is the smallest that moves what it shall move. Each is printed, with what it moves.
"""
import os
import sys
from fractions import Fraction

here = os.path.dirname(os.path.dirname(os.path.realpath(__file__)))
sys.dont_write_bytecode = True
sys.path[:0] = [os.path.join(here, 'bench'), os.path.join(here, 'tests')]
import build_cases  # noqa: E402
import reference  # noqa: E402
import show_cases  # noqa: E402
import sui_real  # noqa: E402

real, small = (os.path.join(here, 'crates', name) for name in ('rebuild_real', 'rebuild_cases'))
SUN, MOON = 0, 1


# ---- an independent rebuild

def years_of(old):
    """First Y and count of suis of an almanac file."""
    try:
        suis = show_cases.content(old)[1]
    except show_cases.Unlawful:
        raise reference.Refused(13)
    return suis[0][0], len(suis)


def kept(first, count, before, after):
    """The years whose new-moon days and zhongqi days are the same by both lists of marks."""
    return [y for y in range(first, first + count) if sui_real.sui_days(y, *before) == sui_real.sui_days(y, *after)]


def rebuilt(old, before, after, zone=480):
    """The years kept, and the bytes of the new file, from leap words, Sun and Moon before and after."""
    first, count = years_of(old)
    try:
        same = build_cases.file_of(first, count, *before, zone) == old
    except reference.Refused:
        same = False
    if not same:
        raise reference.Refused(13)
    file = build_cases.file_of(first, count, *after, zone)
    return kept(first, count, build_cases.listed(*before, zone)[1], build_cases.listed(*after, zone)[1]), file


def lines(old, years):
    first, count = years_of(old)
    return b''.join(b'%d %s\n' % (y, b'kept' if y in years else b'made') for y in range(first, first + count))


def printed(zone, old, old_input, new_input):
    """The lines and the new file, or the line of a refusal."""
    try:
        minutes = build_cases.zone_of(zone)
        before, after = build_cases.parts(old_input)[2:], build_cases.parts(new_input)[2:]
        years, file = rebuilt(old, before, after, minutes)
        return lines(old, years) + file
    except reference.Refused as r:
        return build_cases.refusal(r)


# ---- corrections of one segment

class Listed:
    """The marks of an input, by their seconds and by their days."""

    def __init__(self, table, sun, moon):
        self.table, self.series = table, (sun, moon)
        self.entries = reference.judge_leap(table)
        self.segments = [reference.judge(s, b[1], b[3]) for s, b in zip(self.series, reference.BODIES)]
        self.seconds = [dict(reference.marks(s[0], cs, b[1], b[2])) for s, cs, b in zip(self.series, self.segments, reference.BODIES)]
        self.days = [[(j, self.day(s)) for j, s in marks.items()] for marks in self.seconds]

    def day(self, second):
        return sui_real.day_of(self.entries, second)

    def first_second(self, day):
        low = 86400 * (day - 1)
        return next(s for s in range(low + 57600, low + 57800) if self.day(s) == day)


def bumped(c, a):
    """A segment with a bump of 2a in its middle that is 0 at both ends."""
    return (c[0] + a, c[1], c[2] - a, *c[3:])


def with_segment(series, k, c):
    return series[0], (*series[1][:14 * k], *c, *series[1][14 * k + 14:])


def least(low, high, test):
    """The least number above low, up to high, that passes; None where high does not."""
    if not test(high):
        return None
    while high - low > 1:
        middle = (low + high) // 2
        low, high = (low, middle) if test(middle) else (middle, high)
    return high


def least_bump(listed, body, j, later):
    """The segment and the least bump that moves mark j to the day before, or to the day after; None where the segment does not reach so far."""
    _, half, mark, _, _ = reference.BODIES[body]
    start, second = listed.series[body][0], listed.seconds[body][j]
    k = (second - start) // (2 * half)
    # before midnight: reached on the last second of the day before; after it: not yet reached on the last second of its day
    last = listed.first_second(listed.day(second) + int(later)) - 1
    place = reference.S // half * (last - start - 2 * half * k - half)
    if not abs(place) < reference.S:
        return None
    c, sign = listed.segments[body][k], -1 if later else 1
    a = least(0, 400000000, lambda a: (reference.value(bumped(c, sign * a), place) >= j * mark) != later)
    return None if a is None else (k, sign * a)


def corrected(listed, body, k, a):
    """Leap words, Sun and Moon with that bump."""
    series = list(listed.series)
    series[body] = with_segment(series[body], k, bumped(listed.segments[body][k], a))
    return (listed.table, *series)


# ---- what a correction shall move

class Sample:
    """The real series, what is built from them, and the corrections that are looked for."""

    def __init__(self, data):
        self.first, self.count, *inputs = build_cases.parts(data)
        self.inputs, self.listed = inputs, Listed(*inputs)
        self.old = build_cases.file_of(self.first, self.count, *inputs)
        self.years = range(self.first, self.first + self.count)
        self.before = self.suis(self.listed.days)

    def suis(self, days):
        return {y: (sui_real.sui_days(y, *days), sui_real.months(y, *days)) for y in self.years}

    def smallest(self, body, moves):
        """Of the bumps that move a mark of the body to the next day or the one before the smallest that moves what it shall move: segment and bump."""
        bumps = ((j, later, least_bump(self.listed, body, j, later)) for j in self.listed.seconds[body] for later in (False, True))
        for _, k, a, j, later in sorted((abs(b[1]), *b, j, later) for j, later, b in bumps if b):
            days = list(self.listed.days)
            days[body] = [(i, d + (i == j) * (1 if later else -1)) for i, d in days[body]]
            try:
                # by that mark's day alone, then by every mark of the corrected series
                if moves(self.suis(days)) and moves(self.suis(build_cases.listed(*corrected(self.listed, body, k, a))[1])):
                    return k, a
            except reference.Refused:
                pass
        raise SystemExit('no bump moves that')

    def made(self, after):
        """The years whose days changed."""
        return [y for y in self.years if after[y][0] != self.before[y][0]]

    # a leap month becomes that of another number
    def leap_month(self, after):
        def leap(suis):
            return [(y, number) for y in self.years for number, mark, *_ in suis[y][1] if mark]
        return leap(after) != leap(self.before)

    # the new moon between two suis: both are made
    def month_11(self, after):
        return len(self.made(after)) == 2

    # a zhongqi within a month: the sui is made, and has the same months
    def zhongqi(self, after):
        return len(self.made(after)) == 1 and all(after[y][1] == self.before[y][1] for y in self.years)

    # the solstice between two suis
    solstice = month_11


def write(folder, name, data):
    os.makedirs(os.path.join(folder, 'data'), exist_ok=True)
    with open(os.path.join(folder, 'data', name), 'wb') as f:
        f.write(data)


def write_run(folder, args, expected):
    with open(os.path.join(folder, 'args'), 'w') as f:
        f.write(''.join(word + '\n' for word in args))
    with open(os.path.join(folder, 'stdout'), 'wb') as f:
        f.write(expected)


# ---- the real series: each case from the same old file, by a small file that says what is new

# one more leap entry, 2020-07-01
ENTRY = (7487, 38)


def told(sample, name, file, years):
    """What a case changes, for the reader."""
    print('%s: made %s' % (name, [y for y in sample.years if y not in years] or 'none'))
    old, new = (show_cases.content(f)[2] for f in (sample.old, file))
    for before, after in zip(old, new):
        if before != after:
            print('  %s from %s, %d days, is now %s from %s, %d days' % (*month(before), *month(after)))


def month(record):
    handle, first, length = record
    return '%d %d%s' % (handle // 32, handle % 32 // 2, ' leap' if handle % 2 else ''), sui_real.date_of(first), length


def real_cases():
    with open(os.path.join(real, 'data', 'sample'), 'rb') as f:
        sample = Sample(f.read())
    corrections = [(name, body, *sample.smallest(body, moves)) for name, body, moves in (
        ('leap_month', MOON, sample.leap_month),
        ('month_11', MOON, sample.month_11),
        ('zhongqi', SUN, sample.zhongqi),
        ('solstice', SUN, sample.solstice),
    )]
    _, body, k, a = corrections[0]
    nearer = a + (1 if a < 0 else -1)
    corrections[1:1] = [('one_less', body, k, nearer)]
    corrections.append(('too_slow', body, k, 400000000))
    args, expected = ['sample'], b'# sample\n' + sample.old
    for name, body, k, a in corrections:
        c = bumped(sample.listed.segments[body][k], a)
        write(real, name, build_cases.words([body, k], c))
        args.append(name)
        expected += b'# %s\n' % name.encode()
        print('%s %d: a bump of %d; %s' % (('Sun', 'Moon')[body], k, 2 * a, ' '.join(map(str, c))))
        try:
            years, file = rebuilt(sample.old, sample.inputs, corrected(sample.listed, body, k, a))
            told(sample, name, file, years)
            expected += b'as built fresh\n' + lines(sample.old, years) + file
        except reference.Refused as r:
            expected += build_cases.refusal(r)
    table, *series = sample.inputs
    write(real, 'entry', build_cases.words(ENTRY))
    years, file = rebuilt(sample.old, sample.inputs, ((*table, *ENTRY), *series))
    told(sample, 'entry', file, years)
    expected += b'# entry\nas built fresh\n' + lines(sample.old, years) + file
    # the last byte of the old file is one more
    try:
        rebuilt(sample.old[:-1] + bytes([sample.old[-1] + 1]), sample.inputs, sample.inputs)
    except reference.Refused as r:
        expected += b'# damaged\n' + build_cases.refusal(r)
    write_run(real, args + ['entry'], expected)


# ---- small inputs: each case a zone, an old file, its input and a new input

# new moons of which the third is at the first second of a day, with offset 32; with 33 it is the day before
SECOND = 86400 * 39 - 28800 + 65
MIDNIGHT = build_cases.even(110, 1, 29.530588, Fraction(SECOND, 86400), 2 * build_cases.CIRCLE + 1)
TABLE = build_cases.leap((-400, 32))
BASE = (TABLE, build_cases.YEAR, MIDNIGHT)


def moon_with(k, a):
    return [*MIDNIGHT[:2 + 14 * k], *bumped(MIDNIGHT[2 + 14 * k:16 + 14 * k], a), *MIDNIGHT[16 + 14 * k:]]


def small_cases():
    asked, cases = build_cases.asked, dict(build_cases.CASES)
    base = asked(2000, 1, *BASE)
    old = build_cases.built(base)
    given = {
        'input': base, 'file': old, 'file_7': build_cases.built(base, '420'),
        # what is built from another input; damaged: a month too long, too short a file, too long a one, the longest and one byte more; of another year
        'other_file': build_cases.built(cases['even']),
        'damaged': old[:-1] + bytes([old[-1] + 1]), 'shorter': old[:-1], 'longer': old + b'\0', 'empty': b'', 'too_long': old + bytes(16141 - len(old)),
        # first Y and count are those of the file, whatever the input says
        'other_years': asked(-2 ** 63, 129, *BASE),
        'entry': asked(2000, 1, build_cases.leap((-400, 32), (-100, 33)), *BASE[1:]),
        'entry_late': asked(2000, 1, build_cases.leap((-400, 32), (300, 33)), *BASE[1:]),
        'bump': asked(2000, 1, *BASE[:2], moon_with((SECOND + 60 * 86400) // 345600, 10000)),
        'layout': base + b'\0',
        **{name: cases[name] for name in ('r1', 'r2', 'r3_1', 'r4_0', 'r5_1', 'r7', 'r8_no_solstice', 'r9', 'r10', 'r13_one_word')},
    }
    for name, data in given.items():
        write(small, name, data)
    args, expected = [], b''
    assert given['file_7'] != old
    for zone, case in [('480', c) for c in CASES] + ZONED:
        names = case.split()
        assert len(names) == 3
        args += [zone, *names]
        expected += b'# %s %s\n' % (zone.encode(), case.encode()) + printed(zone, *(given[n] for n in names))
    assert set(args) - {zone for zone, _ in [('480', ''), *ZONED]} == set(given), set(given) - set(args)
    write_run(small, args, expected)


CASES = [
    'file input input',
    'file input other_years',
    'file other_years input',
    'file input entry',
    'file input entry_late',
    'file input bump',
    # what the new input is refused by
    'file input r1', 'file input r2', 'file input r3_1', 'file input r4_0', 'file input r5_1', 'file input r7', 'file input r8_no_solstice', 'file input r9',
    'file input r10',
    # 13: the layout of an input, the old one and the new one; the old file; each before everything of the new input
    'file layout input', 'file r13_one_word input', 'file empty input', 'file input layout', 'file input r13_one_word', 'file input empty',
    'damaged input input', 'shorter input input', 'longer input input', 'empty input input', 'too_long input input', 'other_file input input', 'file entry input',
    'damaged input r1', 'file r1 r1', 'file r4_0 r9', 'file r10 r3_1',
]

# by other zones: the file of UTC+7 is what its input gives there, that of UTC+8 is not; 15 before 13 of an input and of the old file
ZONED = [
    ('420', 'file_7 input input'), ('420', 'file_7 input entry'), ('420', 'file_7 input bump'), ('420', 'file_7 input r10'), ('420', 'file input input'),
    ('480', 'file_7 input input'), ('841', 'file input input'), ('-721', 'damaged input input'), ('841', 'file layout input'), ('841', 'file input layout'),
    ('841', 'file input r1'), ('8h', 'file input input'),
]


if __name__ == '__main__':
    real_cases()
    small_cases()
