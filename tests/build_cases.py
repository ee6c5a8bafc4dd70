#!/usr/bin/env python3
"""Writes the cases of crates/build_cases: the inputs under data/, zones and names into args, and what an independent build says of them into stdout: by bisection
(bench/reference.py) and the month rule of tests/sui_real.py, over whole numbers of any size. The gate runs the proved program over the inputs and compares. The
real series are those of crates/sui_real.

build_cases.py FILE SUN MOON LEAP FIRST COUNT   writes the input for these series (64-bit words: segments, start, coefficients) and leap table (entries, day and
                                                offset of each) into FILE
build_cases.py --cut FILE SUN MOON LEAP FIRST COUNT   the same with no more segments than those suis need
"""
import datetime
import os
import re
import struct
import sys

here = os.path.dirname(os.path.dirname(os.path.realpath(__file__)))
sys.dont_write_bytecode = True
sys.path[:0] = [os.path.join(here, 'bench'), os.path.join(here, 'tests')]
import list_cases  # noqa: E402
import reference  # noqa: E402
import sui_real  # noqa: E402
from list_cases import MOON, SUN, TABLE, leap, segment, series, words  # noqa: E402

crate = os.path.join(here, 'crates', 'build_cases')
CIRCLE, LONGEST = 12960000000, 2017080


def parts(data):
    """First Y, count of suis, leap words, Sun and Moon of an input."""
    given = reference.words_of(data, LONGEST)
    if len(given) < 2:
        raise reference.Refused(13)
    return (*given[:2], *reference.sections(given[2:]))


def listed(table, sun, moon, zone=480):
    """The leap entries, and index and day of every mark of the Sun and of the Moon."""
    entries = reference.judge_leap(table)
    bodies = [(s, b, reference.judge(s, b[1], b[3])) for s, b in zip((sun, moon), reference.BODIES)]
    seconds = [[(j, t) for j, t in reference.marks(s[0], cs, b[1], b[2])] for s, b, cs in bodies]
    if any(1000 * t - 32184 < 1000 * (86400 * entries[0][0] + entries[0][1]) for marks in seconds for _, t in marks):
        raise reference.Refused(7)
    return entries, [[(j, sui_real.day_of(entries, t, zone)) for j, t in marks] for marks in seconds]


def file_of(first, count, table, sun, moon, zone=480):
    """The bytes of the file."""
    entries, days = listed(table, sun, moon, zone)
    if not 1 <= count <= 128:
        raise reference.Refused(8)
    suis = [(year, sui_real.months(year, *days)) for year in range(first, first + count)]
    months = [(32 * year + 2 * number + mark, day, length) for year, found in suis for number, mark, day, length, _ in found]
    return b''.join([
        struct.pack('<I', len(entries)), *(struct.pack('<iI', *e) for e in entries),
        struct.pack('<I', len(suis)), *(struct.pack('<iB', year, len(found)) for year, found in suis),
        struct.pack('<I', len(months)), *(struct.pack('<IiB', *m) for m in months),
    ])


def refusal(r):
    return b'R %s\n' % b' '.join(b'%d' % n for n in r.args)


def zone_of(text):
    """The zone that a program's argument says: one decimal word in range."""
    zone = int(text) if re.fullmatch('[+-]?[0-9]+', text) else 841
    sui_real.judge_zone(zone)
    return zone


def built(data, zone='480'):
    """The bytes of the file, or one line."""
    try:
        minutes = zone_of(zone)
        return file_of(*parts(data), minutes)
    except reference.Refused as r:
        return refusal(r)


def real(name):
    given = sui_real.read(os.path.join(sui_real.crate, 'data', name))
    at = sui_real.YEARS + 2 * sui_real.LEAP
    behind = at + 1 + 14 * sui_real.SUN_SEGMENTS
    return [sui_real.LEAP, *given[sui_real.YEARS:at]], [sui_real.SUN_SEGMENTS, *given[at:behind]], [sui_real.MOON_SEGMENTS, *given[behind:]]


def even(count, body, days, day, level):
    """Segments of one straight line that takes so many days a circle and is at `level` on that day; it begins 60 days before day 0."""
    half = reference.BODIES[body][1]
    c1 = round(CIRCLE * half / (86400 * days))
    start = -60 * 86400
    c0 = level + c1 * (start + half - 86400 * day) // half
    return list_cases.line(count, start, c0, c1)


# a year from the solstice on day -10, and new moons on day -20 and after each so many days
YEAR = even(14, 0, 365.2422, -10, 18 * 540000000)


def moons(days):
    return even(110, 1, days, -20, 0)


def asked(first, count, *parts):
    return words([first, count], *parts)


ONE = (TABLE, SUN, MOON)
EVEN = (leap((-400, 32)), YEAR, moons(29.530588))
CASES = [
    ('real_1985', asked(1985, 3, *real('1984'))),
    ('real_2033', asked(2033, 3, *real('2032'))),
    ('even', asked(2000, 1, *EVEN)),
    # 13: too short, words left over, a negative count of a section, not in whole words; before 1
    ('r13_empty', b''),
    ('r13_one_word', words([2000])),
    ('r13_two_words', words([2000, 1])),
    ('r13_one_word_short', asked(2000, 1, *EVEN)[:-8]),
    ('r13_one_word_left', asked(2000, 1, *EVEN, [0])),
    ('r13_part_of_a_word', asked(2000, 1, *EVEN) + b'\0'),
    ('r13_negative_moon_count', asked(2000, 1, TABLE, SUN, [-1, 0])),
    ('r13_largest_count', asked(2000, 1, TABLE, [2 ** 63 - 1, 0], MOON)),
    ('r13_before_1', asked(2000, 1, leap(), SUN, [0])),
    # 1 to 7, in a build's order, with the segment of 3 to 5
    ('r1', asked(2000, 0, leap((-365, 32), (0, 32)), SUN, MOON)),
    ('r2', asked(2000, 0, TABLE, series(0), MOON)),
    ('r3_1', asked(2000, 0, TABLE, series(0, segment(0, 20000), segment(10 ** 15 + 1, 1)), MOON)),
    ('r4_0', asked(2000, 0, TABLE, series(0, segment(0, 138239999)), series(0, segment(0, 4000000001)))),
    ('r5_1', asked(2000, 0, TABLE, SUN, series(0, segment(0, 20000000), segment(39999883, 20000000)))),
    ('r7', asked(2000, 0, leap((10, 32)), SUN, MOON)),
    # 8: the count of suis before everything of a sui; a year out of range, near the ends of 64 bits; a solstice or a new moon missing
    ('r8_count_0', asked(2000, 0, *EVEN)),
    ('r8_count_129', asked(2000, 129, *ONE)),
    ('r8_count_-1', asked(2000, -1, *ONE)),
    ('r8_largest_count', asked(2000, 2 ** 63 - 1, *ONE)),
    ('r8_least_year', asked(-2 ** 63, 1, *ONE)),
    ('r8_largest_year', asked(2 ** 63 - 1, 128, *ONE)),
    ('r8_year_1699', asked(1699, 1, *ONE)),
    ('r8_year_2501', asked(2501, 1, *ONE)),
    ('r8_no_solstice', asked(2000, 1, *ONE)),
    ('r8_second_year', asked(2000, 2, *EVEN)),
    # 9: neither 12 nor 13 months, though the year after it has no solstice; 10: months of 30 and 31 days
    ('r9', asked(2000, 2, leap((-400, 32)), YEAR, moons(33))),
    ('r9_fourteen', asked(2000, 1, leap((-400, 32)), YEAR, moons(25.9))),
    ('r10', asked(2000, 2, leap((-400, 32)), YEAR, moons(30.4368))),
]

# other zones, by the text of the argument: UTC+7, where the new year of 1985 is another; both ends; what is no zone, before 13 and before the Sun's 4
ZONED = [
    ('420', 'real_1985'), ('+0420', 'real_1985'), ('420', 'real_2033'), ('0', 'real_1985'), ('-720', 'real_1985'), ('840', 'real_1985'),
    ('420', 'r8_count_0'), ('420', 'r13_empty'),
    ('841', 'real_1985'), ('-721', 'real_1985'), ('9223372036854775807', 'real_1985'), ('-9223372036854775808', 'real_1985'), ('9223372036854775808', 'real_1985'),
    ('420 0', 'real_1985'), ('+7:00', 'real_1985'), ('UTC+7', 'real_1985'), ('841', 'r13_empty'), ('841', 'r1'), ('841', 'r4_0'),
]


def needed(given, half, first, count):
    """The segments of a series from the middle of November before the first sui to the end of January behind the last one."""
    start, end = (86400 * (datetime.date(*date) - sui_real.DAY_ZERO).days for date in ((first - 1, 11, 15), (first + count, 2, 1)))
    segments = -(-(end - start) // (2 * half)) + 1
    return [segments, *sui_real.cut(given, half, start, segments)]


def write_input(name, sun, moon, table, first, count, whole):
    parts = [sui_real.read(part) for part in (table, sun, moon)]
    if not whole:
        parts[1:] = [needed(part, body[1], first, count) for part, body in zip(parts[1:], reference.BODIES)]
    with open(name, 'wb') as f:
        f.write(asked(first, count, *parts))


def main():
    if len(sys.argv) > 1:
        whole = sys.argv[1] != '--cut'
        name, sun, moon, table, first, count = sys.argv[1 if whole else 2:]
        write_input(name, sun, moon, table, int(first), int(count), whole)
        return
    # what is built from the sample is shown by show_cases; crates/rebuild_real builds it
    with open(os.path.join(here, 'samples', 'real_1995_2024.in'), 'rb') as f, open(os.path.join(here, 'crates', 'rebuild_real', 'data', 'sample'), 'rb') as g:
        series = f.read()
        assert series == g.read(), 'samples/real_1995_2024.in and crates/rebuild_real/data/sample differ'
        sample = built(series)
    with open(os.path.join(here, 'crates', 'show_cases', 'data', 'sample'), 'wb') as f:
        f.write(sample)
    args, expected = [], b''
    for name, data in CASES:
        with open(os.path.join(crate, 'data', name), 'wb') as f:
            f.write(data)
    for zone, name in [('480', name) for name, _ in CASES] + ZONED:
        args += [zone, name]
        result = built(dict(CASES)[name], zone)
        expected += b'# %s %s\n' % (zone.encode(), name.encode()) + result
        if zone != '480':
            continue
        # what the name says: the number of a refusal, or a file
        number = name[1:].split('_')[0]
        assert result.split()[:2] == [b'R', number.encode()] if number.isdigit() else not result.startswith(b'R '), (name, result)
    files = {zone: built(dict(CASES)['real_1985'], zone) for zone in ('480', '420', '+0420')}
    assert files['480'] != files['420'] == files['+0420'] and files['420'][:1] != b'R'
    assert all(built(dict(CASES)[name], zone) == b'R 15\n' for zone, name in ZONED[8:])
    with open(os.path.join(crate, 'args'), 'w') as f:
        f.write(''.join(word + '\n' for word in args))
    with open(os.path.join(crate, 'stdout'), 'wb') as f:
        f.write(expected)


if __name__ == '__main__':
    main()
