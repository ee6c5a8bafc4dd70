#!/usr/bin/env python3
"""Writes what crates/sui_real reads and must print.

sui_real.py          works out crates/sui_real/stdout from the inputs under data/, by document 01's sentences over whole numbers of any size: every mark of both
                     series by bisection, days in each zone, then the months. It shares no code with the proved library.
sui_real.py DIR      first cuts those inputs from the series in DIR: sun_A.i64 and moon_A.i64 (64-bit words: segments, start, coefficients), leap_real10.i64

An input is 64-bit words: six years, 28 leap entries, the Sun's start and 37 segments, the Moon's start and 292 segments.
"""
import datetime
import os
import struct
import sys

here = os.path.dirname(os.path.dirname(os.path.realpath(__file__)))
sys.dont_write_bytecode = True
sys.path.insert(0, os.path.join(here, 'bench'))
import reference  # noqa: E402

crate = os.path.join(here, 'crates', 'sui_real')
SUN, MOON = reference.BODIES
LEAP, SUN_SEGMENTS, MOON_SEGMENTS, YEARS = 28, 37, 292, 6
# of five years in a row the first and the last have no solstice on one side; and a year out of range
CASES = (('1984', datetime.date(1984, 11, 15), (1699, 1984, 1985, 1986, 1987, 1988)), ('2032', datetime.date(2032, 11, 15), (2032, 2033, 2034, 2035, 2036, 2501)))
DAY_ZERO = datetime.date(2000, 1, 1)
# UTC+8, UTC+7, and one minute beyond the last zone
ZONES = (480, 420, 841)
WITHOUT = []


def read(path):
    with open(path, 'rb') as f:
        data = f.read()
    return struct.unpack('<%dq' % (len(data) // 8), data)


def cut(words, half, second, count):
    """So many segments, from the one that has this second on."""
    k = (second - words[1]) // (2 * half)
    return [words[1] + 2 * half * k, *words[2 + 14 * k:2 + 14 * (k + count)]]


def write_cuts(folder):
    leap = read(os.path.join(folder, 'leap_real10.i64'))
    assert leap[0] == LEAP
    sun, moon = (read(os.path.join(folder, name)) for name in ('sun_A.i64', 'moon_A.i64'))
    for name, date, years in CASES:
        second = 86400 * (date - DAY_ZERO).days
        words = [*years, *leap[1:], *cut(sun, SUN[1], second, SUN_SEGMENTS), *cut(moon, MOON[1], second, MOON_SEGMENTS)]
        with open(os.path.join(crate, 'data', name), 'wb') as f:
            f.write(struct.pack('<%dq' % len(words), *words))


def judge_zone(zone):
    if not -720 <= zone <= 840:
        raise reference.Refused(15)


def day_of(entries, second, zone=480):
    """The zone's day; an inserted second belongs to the day that it ends."""
    tai = 1000 * second - 32184
    offset = [o for d, o in entries if 1000 * (86400 * d + o) <= tai][-1]
    extra = any(1000 * (86400 * d + o - 1) <= tai < 1000 * (86400 * d + o) for d, o in entries[1:])
    return (tai - 1000 * offset + 60000 * zone - 1000 * extra) // 86400000


def date_of(day):
    return DAY_ZERO + datetime.timedelta(days=day)


def seconds_of(series, body):
    """The listed marks, index and second."""
    segments = reference.judge(series, body[1], body[3])
    return list(reference.marks(series[0], segments, body[1], body[2]))


def the_one(marks):
    if len(marks) != 1:
        raise reference.Refused(8)
    return marks[0]


def sui_days(year, sun, moon):
    """The new-moon days from a sui's month 11 to the next sui's, and its thirteen zhongqi days."""
    if not 1700 <= year <= 2500:
        raise reference.Refused(8)

    def solstice(y):
        return the_one([m for m in sun if m[0] % 24 == 18 and date_of(m[1]).year == y])
    first, last = solstice(year - 1), solstice(year)
    zhongqi = [d for j, d in sun if j % 2 == 0 and first[0] <= j <= last[0]]
    moons = [d for j, d in moon if j % 4 == 0]
    if not any(d <= first[1] for d in moons) or not any(d > last[1] for d in moons):
        raise reference.Refused(8)
    begin, end = (max(d for d in moons if d <= m[1]) for m in (first, last))
    return [d for d in moons if begin <= d <= end], zhongqi


def months(year, sun, moon):
    """Number, leap mark, first day and length of each month of a sui, and whether it has a zhongqi."""
    days, zhongqi = sui_days(year, sun, moon)
    if len(days) - 1 not in (12, 13):
        raise reference.Refused(9)
    spans = list(zip(days, days[1:]))
    if any(b - a not in (29, 30) for a, b in spans):
        raise reference.Refused(10)
    without = [i for i, (a, b) in enumerate(spans) if not any(a <= d < b for d in zhongqi)]
    leap = None
    if len(spans) == 13:
        assert without, 'thirteen months, all with a zhongqi'
        leap = without[0]
    number, found = 10, []
    for i, (a, b) in enumerate(spans):
        if i != leap:
            number = number % 12 + 1
        found.append((number, int(i == leap), a, b - a, i not in without))
    return found


def lines(words):
    leap, at = words[YEARS:YEARS + 2 * LEAP], YEARS + 2 * LEAP
    sun, at = (words[at], words[at + 1:at + 1 + 14 * SUN_SEGMENTS]), at + 1 + 14 * SUN_SEGMENTS
    moon = (words[at], words[at + 1:])
    assert len(moon[1]) == 14 * MOON_SEGMENTS
    entries = reference.judge_leap(leap)
    seconds = seconds_of(sun, SUN), seconds_of(moon, MOON)
    for zone in ZONES:
        yield 'zone %d\n' % zone
        days = [[(j, day_of(entries, s, zone)) for j, s in marks] for marks in seconds]
        for year in words[:YEARS]:
            try:
                judge_zone(zone)
                for number, mark, first, length, has_zhongqi in months(year, *days):
                    if not has_zhongqi:
                        WITHOUT.append((zone, year, str(date_of(first))))
                    yield '%d %d %d %d %s %d\n' % (year, number, mark, 32 * year + 2 * number + mark, date_of(first), length)
            except reference.Refused as r:
                yield '%d R %d\n' % (year, *r.args)


def sui_in(text, zone, year):
    """The months of a year in a zone, by what is printed."""
    printed = [part.split('\n', 1) for part in text.split('zone ')[1:]]
    return [t.split() for z, part in printed if int(z) == zone for t in part.split('\n') if t.startswith('%d ' % year) and ' R ' not in t]


def main():
    if len(sys.argv) > 1:
        write_cuts(sys.argv[1])
    text = ''
    for name, _, _ in CASES:
        text += '# %s\n' % name + ''.join(lines(read(os.path.join(crate, 'data', name))))
    # known beforehand: sui 2033 has twelve months and no leap one, though its month from 2033-08-25 has no zhongqi; sui 2034 has thirteen, and leap 11 begins on
    # 2033-12-22, though the month from 2034-02-19 has no zhongqi either
    of = {year: sui_in(text, 480, year) for year in (2033, 2034)}
    assert len(of[2033]) == 12 and all(t[2] == '0' for t in of[2033]) and (480, 2033, '2033-08-25') in WITHOUT
    assert len(of[2034]) == 13 and [t for t in of[2034] if t[2] == '1'] == [['2034', '11', '1', '65111', '2033-12-22', '29']] and (480, 2034, '2034-02-19') in WITHOUT
    # the new year of 1985 was kept on 1985-02-20 in China, by UTC+8, and on 1985-01-21 in Vietnam, by UTC+7
    new_year = {zone: [t[4] for t in sui_in(text, zone, 1985) if t[1:3] == ['1', '0']] for zone in (480, 420)}
    assert new_year == {480: ['1985-02-20'], 420: ['1985-01-21']}, new_year
    with open(os.path.join(crate, 'args'), 'w') as f:
        f.write(''.join(name + '\n' for name, _, _ in CASES))
    with open(os.path.join(crate, 'stdout'), 'w') as f:
        f.write(text)


if __name__ == '__main__':
    main()
