#!/usr/bin/env python3
"""Print an import text of some 3,300,000 to 3,900,000 choices whose strength holds, or fails at its last.

make_text.py array Q [SEED]   an array over Q elements, 3,838,380 choices of random digits from a seed, or
                              over 2 the 3,930,551 of a shortened extended BCH code; the default is the
                              first seed from 1 on whose strength holds
make_text.py last Q [SEED]    the same array over more than 2, of whose choices the last alone is dependent
make_text.py net              a net from Niederreiter's sequence over 9, 3,268,760 choices
make_text.py sequence         Niederreiter's sequence over 9, 3,268,759 choices
"""

import os
import sys

sys.dont_write_bytecode = True
sys.path.insert(0, os.path.join(os.path.dirname(os.path.abspath(__file__)), '..', 'examples'))
import make

FIRST_GOOD_SEEDS = {3: 1, 4: 1, 5: 1, 7: 1, 8: 1, 9: 1}
DIGITS, COORDINATES, STRENGTH = 20, 34, 6


def random_digits(seed, order):
    """A linear congruence modulo 2^64, its upper half modulo the order."""
    state = seed
    while True:
        state = (state * 6364136223846793005 + 1442695040888963407) % 2 ** 64
        yield (state >> 32) % order


def random_array(seed, order):
    source = random_digits(seed, order)
    return [[[next(source) for _ in range(DIGITS)] for _ in range(STRENGTH)]
            for _ in range(COORDINATES)]


def shortened_code():
    """39 points of the extended BCH code of length 64 with dual distance 8: 1, a, a^3, a^5 and a zero."""
    field = make.Field(2, (1, 1, 0, 0, 0, 0, 1))
    return [[[1] + [bit for power in (1, 3, 5) for bit in make.digits_of(field.power(a, power), 2, 6)] + [0]]
            for a in range(39)]


def array(order, seed=None):
    """The coordinates, their rows and the strength of an array."""
    if order == 2:
        return shortened_code(), 6
    return random_array(int(seed or FIRST_GOOD_SEEDS[order]), order), STRENGTH


def ending_dependent(order, coordinates):
    """The last row of the first coordinate becomes the sum of those before it.

    All rows of the first coordinate are the last choice, and no other has its last row.
    """
    sums = make.field_of(order).sum
    *rows, last = coordinates[0]
    total = rows[0]
    for row in rows[1:]:
        total = [sums[a][b] for a, b in zip(total, row)]
    last[:] = total
    return coordinates


def text_of(order, coordinates, strength, name):
    header = f'ooa {order} {DIGITS} {len(coordinates)} {len(coordinates[0])} {strength} {name}'
    return make.Example(header, coordinates).text


def main(kind, order=None, seed=None):
    if kind in ('net', 'sequence') and order is None:
        sequence = make.niederreiter(make.field_of(9), 15, 9)
        if kind == 'net':
            return make.Example('net 9 15 10 0 net', make.with_reversed(sequence)).text
        return make.Example('seq 9 15 9 0 sequence', sequence).text
    if (kind, order) == ('last', '2') or kind not in ('array', 'last') or order not in list('2345789'):
        sys.exit(__doc__)
    coordinates, strength = array(int(order), seed)
    if kind == 'last':
        coordinates = ending_dependent(int(order), coordinates)
    return text_of(order, coordinates, strength, f'{kind}-{order}')


if not 1 <= len(sys.argv[1:]) <= 3:
    sys.exit(__doc__)
print(main(*sys.argv[1:]), end='')
