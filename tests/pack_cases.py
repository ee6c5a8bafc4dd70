#!/usr/bin/env python3
"""Writes the cases of crates/pack_cases: the texts under data/, their names into args, and into stdout what must come of them. It shares no code with the proved
library: lines are split first, comments are cut off, and each word is matched as a whole.

pack_cases.py              writes them
pack_cases.py --random N   compares the program with it on N random texts (a fixed seed), and on texts at both sides of its limits; it is proved and built first
"""
import os
import random
import re
import struct
import subprocess
import sys

here = os.path.dirname(os.path.dirname(os.path.realpath(__file__)))
crate = os.path.join(here, 'crates', 'pack_cases')
LONGEST, MOST = 4194304, 393216


def number(word):
    """The number of a word, or None."""
    match = re.fullmatch(rb'([-+]?)0*([0-9]+)', word)
    if not match or len(match[2]) > 19:
        return None
    z = int(match[1] + match[2])
    return z if -2 ** 63 <= z < 2 ** 63 else None


def packed(text):
    """What the program writes."""
    if len(text) > LONGEST:
        return b'R 13 more than 4194304 bytes\n'
    numbers = []
    for k, line in enumerate(text.split(b'\n'), 1):
        words = [w for w in re.split(rb'[ \t\v\f\r]+', line.split(b'#')[0]) if w]
        for j, word in enumerate(words, 1):
            z = number(word)
            if z is None:
                return b'R 13 line %d word %d\n' % (k, j)
            numbers.append(z)
    if len(numbers) > MOST:
        return b'R 12 more than 393216 words\n'
    return struct.pack('<%dq' % len(numbers), *numbers)


CASES = [
    ('empty', b''),
    ('white_space', b' \t\n\v\f\r\n\n'),
    ('comment', b'# 1 2 x\n'),
    ('comment_at_the_end', b'1 # 2'),
    ('hash_behind_a_word', b'1#2\n3'),
    ('one_word', b'7'),
    ('lines', b'1 2 3\n\n\t-4 +5\n'),
    ('crlf_lines', b'1 2\r\n# 3\r\n-4\r\n'),
    ('every_white_space', b'1 2\t3\v4\f5\r6\n7'),
    ('signs_and_zeros', b'-7 +7 0 -0 +0 007 -0000000000000000000000000000012'),
    ('both_ends', b'9223372036854775807 -9223372036854775808'),
    ('bytes_in_order', b'578437695752307201'),
    ('input', b'1 -365 32   # leap table\n1 0 552960000 552960000 0 0 0 0 0 0 0 0 0 0 0 0 # Sun\n1 0 4103999999 864000000 0 0 0 0 0 0 0 0 0 0 0 0 # Moon\n'),
    ('bad_one_more', b'9223372036854775808'),
    ('bad_one_less', b'1\n2 -9223372036854775809'),
    ('bad_very_long', b'1 ' + b'9' * 400),
    ('bad_2_to_the_64', b'18446744073709551616'),
    ('bad_minus_alone', b'5 -\n'),
    ('bad_plus_alone', b'+'),
    ('bad_two_signs', b'--1'),
    ('bad_sign_inside', b'1-2'),
    ('bad_letter_behind', b'12x'),
    ('bad_point', b'1.5'),
    ('bad_hexadecimal', b'0x10'),
    ('bad_line_3_word_2', b'1 2 3\n# x y z\n4 five 6\nseven\n'),
    ('bad_in_crlf_lines', b'1\r\n\r\n2 3 +\r\n'),
    ('bad_zero_byte', b'1 2\0 3'),
    ('bad_no_ascii', '1 2\u00a03\n'.encode()),
    ('bad_before_a_comment', b'1 2#3\n4 x#5\n'),
    ('bad_line_12_word_11', b'\n' * 11 + b'1 2 3 4 5 6 7 8 9 10 eleven 12\n'),
]


def write():
    os.makedirs(os.path.join(crate, 'data'), exist_ok=True)
    for name, text in CASES:
        with open(os.path.join(crate, 'data', name), 'wb') as f:
            f.write(text)
        assert packed(text).startswith(b'R ') == name.startswith('bad_'), name
    with open(os.path.join(crate, 'args'), 'w', encoding='ascii') as f:
        f.writelines(name + '\n' for name, _ in CASES)
    with open(os.path.join(crate, 'stdout'), 'wb') as f:
        for name, text in CASES:
            f.write(b'# %s\n%s\n' % (name.encode(), packed(text)))


def random_text(rng):
    parts = []
    for _ in range(rng.choice((0, 1, 2, 5, 20, 100))):
        parts.append(rng.choice((b' ', b' ', b'\n', b'\n', b'\t', b'\r\n', b'\v', b'\f', b'  \n')))
        kind = rng.random()
        if kind < 0.9:
            z = rng.choice((rng.randint(-9, 9), rng.randint(-10 ** 6, 10 ** 6), rng.randint(-2 ** 63, 2 ** 63 - 1), -2 ** 63, 2 ** 63 - 1))
            parts.append(rng.choice((b'', b'+') if z >= 0 else (b'',)) + (b'%d' % z if rng.random() < 0.9 else b'-000%d' % abs(z) if z < 0 else b'000%d' % z))
        elif kind < 0.96:
            parts.append(rng.choice((b'#', b' # ', b'# \t5 x')) + bytes(rng.choice(b' 1x#-') for _ in range(rng.randrange(6))) + b'\n')
        elif kind < 0.98:
            parts.append(rng.choice((b'-', b'+', b'--1', b'1-', b'x', b'12x', b'9223372036854775808', b'-9223372036854775809', b'92233720368547758070', b'\0', b'\x85')))
    return b''.join(parts)


def limits():
    """Texts at the limits of the program."""
    yield b' ' * (LONGEST - 1) + b'7'
    yield b' ' * LONGEST + b'7'
    yield b'7 ' * MOST
    yield b'7 ' * MOST + b'8'
    yield b'7 ' * MOST + b'x'
    yield b'1' * LONGEST
    yield b'0' * (LONGEST - 1) + b'1'


def compare(count):
    sys.dont_write_bytecode = True
    sys.path.insert(0, os.path.join(here, 'bench'))
    import reference
    program = reference.built_program('pack')
    rng, seen = random.Random(2000), {}
    texts = list(limits()) + [random_text(rng) for _ in range(count)]
    for k, text in enumerate(texts):
        got = subprocess.run(program, input=text, stdout=subprocess.PIPE, check=True).stdout
        if got != packed(text):
            kept = os.path.join(os.path.dirname(program[-1]), 'differs.txt')
            with open(kept, 'wb') as f:
                f.write(text)
            sys.exit('text %d differs; it is kept in %s' % (k, kept))
        kind = 'refused' if got.startswith(b'R ') else 'packed'
        seen[kind] = seen.get(kind, 0) + 1
    print('%d texts, no difference: %s' % (len(texts), ', '.join('%s %d' % s for s in sorted(seen.items()))))


if __name__ == '__main__':
    if sys.argv[1:2] == ['--random'] and len(sys.argv) == 3:
        compare(int(sys.argv[2]))
    else:
        write()
