#!/usr/bin/env python3
"""Writes the cases of crates/list_cases: the inputs under data/, their names into args, and what the independent listing (bench/reference.py) says of them
into stdout. The gate runs the proved program over the inputs and compares. The real inputs are kept as they are.
"""
import os
import struct
import sys

here = os.path.dirname(os.path.dirname(os.path.realpath(__file__)))
sys.dont_write_bytecode = True
sys.path.insert(0, os.path.join(here, 'bench'))
import reference  # noqa: E402

crate = os.path.join(here, 'crates', 'list_cases')


def segment(c0, c1, c2=0):
    return [c0, c1, c2] + [0] * 11


def series(start, *segments):
    return [len(segments), start] + [c for s in segments for c in s]


def line(count, start, c0, c1):
    """Segments of one straight line: from each to the next the value goes on by what it rises in a second."""
    return series(start, *(segment(c0 + 2 * c1 * k, c1) for k in range(count)))


def leap(*entries):
    return [len(entries)] + [w for e in entries for w in e]


TABLE = leap((-365, 32))
SUN = series(0, segment(552960000, 552960000))
MOON = series(0, segment(4103999999, 864000000))


def crossing(second, sun, moon):
    """A Sun and a Moon that rise straight by 400 and 5,000 units a second, and cross mark 0 so many seconds after the second."""
    return series(second + sun - 1382400, segment(0, 552960000)) + series(second + moon - 172800, segment(0, 864000000))


# 2016-12-31 23:59:60 UTC begins at TAI second 536,544,036, and TDB second 536,544,069 lies inside it
REAL_TABLE = leap((-365, 32), (2192, 33), (3288, 34), (4565, 35), (5660, 36), (6210, 37))
INSERTED = 536544069


def words(*parts):
    flat = [w for p in parts for w in p]
    return struct.pack('<%dq' % len(flat), *flat)


# 65,528 bytes are the longest lawful input: the words of every lawful one are odd in number
LONGEST = words(leap(*((-7000 + 300 * i, 10 + i) for i in range(5))), line(292, -500000000, 0, 280000000), line(292, -90000000, 0, 40000000))
assert len(LONGEST) == 65528

CASES = [
    ('worked', words(TABLE, SUN, MOON)),
    # more lines than one buffer takes: 65,536 bytes
    ('two_parts', words(TABLE, line(160, 0, 4000000000, 4000000000), MOON)),
    ('longest', LONGEST),
    ('one_mark_short', words(TABLE, series(0, segment(0, 539999999)), series(0, segment(-3239999999, 864000000)))),
    ('no_marks', words(TABLE, series(0, segment(200000000, 139000000)), series(0, segment(1000000000, 18000000)))),
    # marks inside an inserted second, in the second before it and in the one after it; and about the first entry, which inserts nothing that is known
    ('inserted_second', words(REAL_TABLE, crossing(INSERTED, 0, 0))),
    ('second_before', words(REAL_TABLE, crossing(INSERTED, -1, -1))),
    ('second_after', words(REAL_TABLE, crossing(INSERTED, 1, 1))),
    ('sun_inside_moon_after', words(REAL_TABLE, crossing(INSERTED, 0, 1))),
    ('first_entry', words(leap((6210, 37)), crossing(INSERTED, 1400000, 1))),
    ('r7_second_before_the_first_entry', words(leap((6210, 37)), crossing(INSERTED, 1400000, 0))),
    # 13: too long by two words behind a lawful input, by one byte, not in whole words, too short, left over, negative counts, counts that would overflow
    ('r13_two_words_more', LONGEST + words([0, 0])),
    ('r13_65536_bytes', LONGEST + words([0])),
    ('r13_65537_bytes', LONGEST + words([0]) + b'\0'),
    ('r13_empty', b''),
    ('r13_part_of_a_word', words(TABLE, SUN, MOON)[:-1]),
    ('r13_one_word_short', words(TABLE, SUN, MOON)[:-8]),
    ('r13_one_word_left', words(TABLE, SUN, MOON, [0])),
    ('r13_negative_leap_count', words([-1], SUN, MOON)),
    ('r13_negative_sun_count', words(TABLE, [-1, 0], MOON)),
    ('r13_negative_moon_count', words(TABLE, SUN, [-2 ** 63, 0])),
    ('r13_largest_count', words(TABLE, [2 ** 63 - 1, 0], MOON)),
    ('r13_before_1', words(leap((0, 1001)), SUN, MOON, [0])),
    # 1 to 7, each; then the order: the leap table before the Sun before the Moon before 7
    ('r1_no_entry', words(leap(), SUN, MOON)),
    ('r1_offset', words(leap((-365, 32), (0, 32)), SUN, MOON)),
    ('r2_no_segment', words(TABLE, series(0), MOON)),
    ('r2_start', words(TABLE, SUN, series(10000000001, segment(0, 864000000)))),
    ('r3', words(TABLE, series(0, segment(0, 4000000001)), MOON)),
    ('r4', words(TABLE, series(0, segment(0, 138239999)), MOON)),
    ('r5', words(TABLE, SUN, series(0, segment(0, 20000000), segment(39999883, 20000000)))),
    ('r7_sun', words(leap((20, 32)), SUN, series(5000000, segment(4103999999, 864000000)))),
    ('r7_moon', words(leap((10, 32)), SUN, MOON)),
    ('r1_before_3', words(leap((0, -1)), series(0, segment(0, 4000000001)), MOON)),
    ('r4_of_the_sun_before_3_of_the_moon', words(TABLE, series(0, segment(0, 138239999)), series(0, segment(10 ** 15 + 1, 864000000)))),
    ('r5_before_7', words(leap((20, 32)), SUN, series(0, segment(0, 20000000), segment(39999883, 20000000)))),
]
REAL = ('real_1983', 'real_2000', 'real_2033')


def main():
    names, expected = [], b''
    for name, data in CASES:
        with open(os.path.join(crate, 'data', name), 'wb') as f:
            f.write(data)
        names.append(name)
        expected += b'# %s\n' % name.encode() + reference.listing(data)
    for name in REAL:
        with open(os.path.join(crate, 'data', name), 'rb') as f:
            data = f.read()
        names.append(name)
        expected += b'# %s\n' % name.encode() + reference.listing(data)
    with open(os.path.join(crate, 'args'), 'w') as f:
        f.write(''.join(n + '\n' for n in names))
    with open(os.path.join(crate, 'stdout'), 'wb') as f:
        f.write(expected)


if __name__ == '__main__':
    main()
