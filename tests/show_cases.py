#!/usr/bin/env python3
"""Writes what crates/show_cases must print, and the files that it shows.

show_cases.py              works out crates/show_cases/stdout from the files under data/: a file is judged by document 01's sentences ("Almanac file") and shown in
                           columns of fixed width. It shares no code with the proved library.
show_cases.py FILE         first writes those files anew: suis cut from FILE, a real almanac, and the same damaged in several ways
show_cases.py --random N   compares the program with it on N random files, lawful and damaged (a fixed seed); it is proved and built first
"""
import datetime
import os
import random
import struct
import subprocess
import sys

here = os.path.dirname(os.path.dirname(os.path.realpath(__file__)))
crate = os.path.join(here, 'crates', 'show_cases')
DAY_ZERO = datetime.date(2000, 1, 1)
LARGEST = 4 + 8 * 64 + 4 + 5 * 128 + 4 + 9 * 1664
NUMBERS = (11, 12, 1, 2, 3, 4, 5, 6, 7, 8, 9, 10)


class Unlawful(Exception):
    pass


def need(fact):
    if not fact:
        raise Unlawful


def sections(data):
    """The three sections of a file, as lists of records."""
    at, found = 0, []
    for fields in ('<iI', '<iB', '<IiB'):
        need(at + 4 <= len(data))
        (count,) = struct.unpack_from('<I', data, at)
        at += 4
        size = struct.calcsize(fields)
        need(at + size * count <= len(data))
        found.append([struct.unpack_from(fields, data, at + size * k) for k in range(count)])
        at += size * count
    need(at == len(data))
    return found


def content(data):
    """Leap entries, suis and months of a lawful file."""
    leap, suis, months = sections(data)
    need(1 <= len(leap) <= 64)
    for k, (day, offset) in enumerate(leap):
        need(-120000 <= day <= 100000)
        need(offset == leap[k - 1][1] + 1 and day > leap[k - 1][0] if k else 0 <= offset <= 1000)
    need(1 <= len(suis) <= 128)
    for k, (year, count) in enumerate(suis):
        need(1700 <= year <= 2500 and count in (12, 13))
        need(k == 0 or year == suis[k - 1][0] + 1)
    need(len(months) == sum(count for _, count in suis))
    at = 0
    for year, count in suis:
        wanted, leaps = list(NUMBERS), 0
        for place in range(count):
            handle, first, length = months[at]
            need(handle // 32 == year)
            number, mark = divmod(handle % 32, 2)
            if mark:
                need(count == 13 and leaps == 0 and place > 0 and number == NUMBERS[place - 1])
                leaps += 1
            else:
                need(wanted and number == wanted.pop(0))
            need(length in (29, 30) and -150000 <= first and first + length - 1 <= 200000)
            need(at == 0 or first == months[at - 1][1] + months[at - 1][2])
            at += 1
        need(leaps == count - 12)
    return leap, suis, months


def shown(data):
    """What the program prints."""
    try:
        _, suis, months = content(data)
    except Unlawful:
        return 'R 13\n'
    lines = [' sui  month  leap  handle  first day   days']
    years = [year for year, count in suis for _ in range(count)]
    for year, (handle, first, length) in zip(years, months):
        date = DAY_ZERO + datetime.timedelta(days=first)
        lines.append('%4d  %5d  %4s  %6d  %-10s  %4d' % (year, handle % 32 // 2, 'leap' if handle % 2 else '', handle, date.isoformat(), length))
    return ''.join(line + '\n' for line in lines)


def made(leap, suis, months):
    parts = []
    for fields, records in (('<iI', leap), ('<iB', suis), ('<IiB', months)):
        parts.append(struct.pack('<I', len(records)))
        parts.extend(struct.pack(fields, *record) for record in records)
    return b''.join(parts)


def cut(whole, first, count):
    """So many suis of a content, from one on."""
    leap, suis, months = whole
    at = sum(n for _, n in suis[:first])
    chosen = suis[first:first + count]
    return leap, chosen, months[at:at + sum(n for _, n in chosen)]


def plain_months(first, suis):
    """Months without a leap month, 30 and 29 days in turn."""
    for year, count in suis:
        for place in range(count):
            length = 29 if place % 2 else 30
            yield 32 * year + 2 * NUMBERS[place], first, length
            first += length


def with_leap(first, years):
    """Suis of 13 months, a leap month 10 last, each sui 13 times 29 or 30 days."""
    months = []
    for year in years:
        for place in range(13):
            length = 29 if place % 2 else 30
            number = NUMBERS[min(place, 11)]
            months.append((32 * year + 2 * number + (place == 12), first, length))
            first += length
    return months


def write_files(path):
    with open(path, 'rb') as f:
        whole = content(f.read())
    two = cut(whole, 2, 2)
    good = made(*two)
    leap, suis, months = two
    table = [(0, 10)]
    most = [(-120000 + k, 10 + k) for k in range(64)]
    more = [(1900 + k, 12) for k in range(129)]

    def changed(k, **new):
        record = dict(zip(('handle', 'first', 'length'), months[k]), **new)
        return made(leap, suis, [*months[:k], tuple(record.values()), *months[k + 1:]])

    files = {
        'two_suis': good,
        'first_year': made(table, [(1700, 12)], list(plain_months(-109600, [(1700, 12)]))),
        'last_year': made(table, [(2500, 13)], with_leap(182500, [2500])),
        'first_days': made(table, [(1700, 12)], list(plain_months(-150000, [(1700, 12)]))),
        'last_days': made(table, [(2500, 12)], list(plain_months(199647, [(2500, 12)]))),
        'largest': made(most, [(1900 + k, 13) for k in range(128)], with_leap(-36553, range(1900, 2028))),
        'r13_empty': b'',
        'r13_counts_only': bytes(12),
        'r13_one_byte_less': good[:-1],
        'r13_one_byte_more': good + b'\0',
        'r13_length': changed(0, length=59 - months[0][2]),
        'r13_handle': changed(3, handle=months[3][0] + 1),
        'r13_gap': changed(12, first=months[12][1] + 1),
        'r13_years': made(leap, [suis[0], (suis[1][0] + 1, suis[1][1])], months),
        'r13_leap_table': made([*leap[:-1], (leap[-1][0], leap[-1][1] + 1)], suis, months),
        'r13_no_suis': made(leap, [], []),
        'r13_one_day_early': made(table, [(1700, 12)], list(plain_months(-150001, [(1700, 12)]))),
        'r13_one_day_late': made(table, [(2500, 12)], list(plain_months(199648, [(2500, 12)]))),
        'r13_one_sui_more': made(table, more, list(plain_months(-36553, more))),
    }
    files['r13_largest_and_one_byte'] = files['largest'] + b'\0'
    os.makedirs(os.path.join(crate, 'data'), exist_ok=True)
    for name, data in files.items():
        with open(os.path.join(crate, 'data', name), 'wb') as f:
            f.write(data)
        assert (shown(data) == 'R 13\n') == name.startswith('r13_'), name
    assert len(files['largest']) == LARGEST
    with open(os.path.join(crate, 'args'), 'w', encoding='ascii') as f:
        # `sample` is what tests/build_cases.py says of the sample of samples/
        f.writelines(name + '\n' for name in ('sample', *files))


def random_file(rng):
    """A lawful file, in half of the cases with one byte changed, or cut or lengthened."""
    day, offset, leap = rng.randint(-120000, 50000), rng.randint(0, 1000), []
    for _ in range(rng.choice((1, 2, 28, 64))):
        leap.append((day, offset))
        day, offset = day + rng.randint(1, 700), offset + 1
    count = rng.choice((1, 2, 3, 20, 128))
    year, first = rng.randint(1700, 2501 - count), rng.randint(-150000, 200000 - 390 * count)
    suis, months = [], []
    for y in range(year, year + count):
        place = rng.choice((0, rng.randint(1, 12)))
        suis.append((y, 13 if place else 12))
        for k in range(suis[-1][1]):
            at = k - 1 if place and k >= place else k
            months.append((32 * y + 2 * NUMBERS[at] + (1 if place and k == place else 0), first, rng.choice((29, 30))))
            first += months[-1][2]
    data = made(leap, suis, months)
    assert shown(data) != 'R 13\n'
    damage = rng.randrange(6)
    if damage == 0:
        at = rng.randrange(len(data))
        data = data[:at] + bytes([data[at] ^ 1 << rng.randrange(8)]) + data[at + 1:]
    elif damage == 1:
        data = data[:rng.randrange(len(data))]
    elif damage == 2:
        data += bytes(rng.choice((1, 9)))
    return data


def compare(count):
    sys.dont_write_bytecode = True
    sys.path.insert(0, os.path.join(here, 'bench'))
    import reference
    program = reference.built_program('show')
    rng, seen = random.Random(2000), {}
    for k in range(count):
        data = random_file(rng)
        got = subprocess.run(program, input=data, stdout=subprocess.PIPE, check=True).stdout.decode('ascii')
        if got != shown(data):
            kept = os.path.join(os.path.dirname(program[-1]), 'differs.alm')
            with open(kept, 'wb') as f:
                f.write(data)
            sys.exit('file %d differs; it is kept in %s' % (k, kept))
        kind = 'refused' if got == 'R 13\n' else 'shown'
        seen[kind] = seen.get(kind, 0) + 1
    print('%d files, no difference: %s' % (count, ', '.join('%s %d' % s for s in sorted(seen.items()))))


def main():
    if sys.argv[1:2] == ['--random'] and len(sys.argv) == 3:
        compare(int(sys.argv[2]))
        return
    if len(sys.argv) > 1:
        write_files(sys.argv[1])
    with open(os.path.join(crate, 'args'), encoding='ascii') as f:
        names = f.read().split()
    with open(os.path.join(crate, 'stdout'), 'w', encoding='ascii') as out:
        for name in names:
            with open(os.path.join(crate, 'data', name), 'rb') as f:
                out.write('# %s\n%s' % (name, shown(f.read())))


if __name__ == '__main__':
    main()
