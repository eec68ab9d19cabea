#!/usr/bin/env python3
"""Write the example texts beside this file, each computed from its construction.

make.py            write the texts and expected.txt
make.py --check    compare them with what is there; status 1 on a difference
make.py --verify   confirm every expected answer by elimination; status 1 on a difference
"""

import itertools
import math
import os
import re
import sys

# ---------------------------------------------------------------- fields

EXTENSIONS = {4: (2, (1, 1, 1)), 8: (2, (1, 1, 0, 1)), 9: (3, (1, 0, 1))}


def digits_of(number, base, length):
    """The digits of a number, lowest first."""
    return [number // base ** place % base for place in range(length)]


class Field:
    """Numbers whose base-p digits are coefficients modulo a polynomial, constant first."""

    def __init__(self, prime, modulus=(0, 1)):
        degree = len(modulus) - 1
        self.order = prime ** degree
        elements = [digits_of(number, prime, degree) for number in range(self.order)]

        def number_of(coefficients):
            return sum(value % prime * prime ** place for place, value in enumerate(coefficients))

        def multiply(left, right):
            result = [0] * (2 * degree - 1)
            for (i, a), (j, b) in itertools.product(enumerate(left), enumerate(right)):
                result[i + j] += a * b
            for top in range(len(result) - 1, degree - 1, -1):
                factor = result[top]
                for place, value in enumerate(modulus):
                    result[top - degree + place] -= factor * value
            return number_of(result[:degree])

        self.sum = [[number_of([x + y for x, y in zip(a, b)]) for b in elements] for a in elements]
        self.product = [[multiply(a, b) for b in elements] for a in elements]
        self.negative = [row.index(0) for row in self.sum]
        self.inverse = [None] + [row.index(1) for row in self.product[1:]]

    def power(self, base, exponent):
        result = 1
        for _ in range(exponent):
            result = self.product[result][base]
        return result


def field_of(order):
    return Field(*EXTENSIONS.get(order, (order,)))


# ---------------------------------------------------------------- polynomials, constant first


def multiply(field, left, right):
    result = [0] * (len(left) + len(right) - 1)
    for (i, a), (j, b) in itertools.product(enumerate(left), enumerate(right)):
        result[i + j] = field.sum[result[i + j]][field.product[a][b]]
    return result


def remainder(field, dividend, divisor):
    """The remainder by a polynomial with leading coefficient 1, to the length of its degree."""
    degree = len(divisor) - 1
    result = list(dividend) + [0] * (degree - len(dividend))
    while len(result) > degree:
        factor = field.negative[result.pop()]
        start = len(result) - degree
        for place in range(degree):
            result[start + place] = field.sum[result[start + place]][
                field.product[factor][divisor[place]]]
    return result


def monic_polynomials(field, degree):
    for number in range(field.order ** degree):
        yield digits_of(number, field.order, degree) + [1]


def irreducible_polynomials(field, count):
    """The first ones by degree, then by their coefficients read as a number."""
    found = []
    for degree in itertools.count(1):
        for candidate in monic_polynomials(field, degree):
            if all(any(remainder(field, candidate, divisor)) for divisor in found
                   if 2 * (len(divisor) - 1) <= degree):
                found.append(candidate)
                if len(found) == count:
                    return found


def powers_of_x(field, modulus, count):
    rows = [remainder(field, [1], modulus)]
    while len(rows) < count:
        rows.append(remainder(field, [0] + rows[-1], modulus))
    return rows


def is_primitive(field, polynomial):
    period = field.order ** (len(polynomial) - 1) - 1
    rows = powers_of_x(field, polynomial, period + 1)
    return polynomial[0] != 0 and rows[period] == rows[0] and rows[0] not in rows[1:period]


def primitive_polynomials(field):
    for degree in itertools.count(1):
        for candidate in monic_polynomials(field, degree):
            if is_primitive(field, candidate):
                yield candidate


# ---------------------------------------------------------------- codes: one row a coordinate


def one_row_each(rows):
    return [[row] for row in rows]


def cyclic(field, length, generator):
    """The columns of a parity check matrix of a cyclic code: x^i modulo its generator."""
    return one_row_each(powers_of_x(field, generator, length))


def cyclic_divisor(field, length, degree):
    """The first polynomial of this degree that divides x^length - 1."""
    target = [field.negative[1]] + [0] * (length - 1) + [1]
    return next(candidate for candidate in monic_polynomials(field, degree)
                if not any(remainder(field, target, candidate)))


def golay(field, length, degree):
    return cyclic(field, length, cyclic_divisor(field, length, degree))


def extended_golay():
    """The Golay code with a parity digit: a further digit 1 in every row, and one more row."""
    rows = [coordinate[0] + [1] for coordinate in golay(field_of(2), 23, 11)]
    return one_row_each(rows + [[0] * 11 + [1]])


def bch(degree, errors):
    """The binary primitive narrow-sense BCH code of length 2^degree - 1."""
    binary = field_of(2)
    modulus = next(candidate for candidate in monic_polynomials(binary, degree)
                   if is_primitive(binary, candidate))
    large = Field(2, tuple(modulus))
    generator, used = [1], set()
    for exponent in range(1, 2 * errors, 2):
        conjugates = {exponent * 2 ** step % (large.order - 1) for step in range(degree)}
        if conjugates & used:
            continue
        used |= conjugates
        for conjugate in sorted(conjugates):
            root = large.power(2, conjugate)
            generator = multiply(large, generator, [large.negative[root], 1])
    return cyclic(binary, large.order - 1, generator)


def projective_points(field, digits):
    """All non-zero rows whose first non-zero digit is 1."""
    for row in itertools.product(range(field.order), repeat=digits):
        if next((value for value in row if value), 0) == 1:
            yield list(row)


def hamming(field, digits):
    return one_row_each(projective_points(field, digits))


def elliptic_quadric():
    """The points of a*b + c*c + d*d = 0 over three elements."""
    return one_row_each(point for point in projective_points(field_of(3), 4)
                        if (point[0] * point[1] + point[2] ** 2 + point[3] ** 2) % 3 == 0)


def reed_solomon(field, digits):
    """The powers 1, a, a^2, .. of every element a."""
    return one_row_each([field.power(element, exponent) for exponent in range(digits)]
                        for element in range(field.order))


def hexacode():
    """The words (a, b, c, f(1), f(w), f(w^2)) with f(x) = a*x^2 + b*x + c, w = 2."""
    field = field_of(4)
    values = [[field.power(element, exponent) for exponent in (2, 1, 0)] for element in (1, 2, 3)]
    return one_row_each(identity(3) + values)


# ---------------------------------------------------------------- sequences and nets


def identity(size):
    return [[int(row == column) for column in range(size)] for row in range(size)]


def with_reversed(coordinates):
    """A net from a sequence: the reversed identity as one more coordinate."""
    return coordinates + [identity(len(coordinates[0]))[::-1]]


def faure(prime, size, count):
    """The powers 0, 1, .. of the Pascal matrix modulo a prime."""
    return [[[math.comb(column, row) * power ** max(0, column - row) % prime
              for column in range(size)] for row in range(size)] for power in range(count)]


def sobol(size, count):
    """The identity, then a primitive polynomial a coordinate; first direction numbers all 1."""
    result = [identity(size)]
    for polynomial in itertools.islice(primitive_polynomials(field_of(2)), count - 1):
        degree = len(polynomial) - 1
        numbers = [1] * degree
        while len(numbers) < size:
            value = numbers[-degree]
            for step in range(1, degree + 1):
                if polynomial[degree - step]:
                    value ^= numbers[-step] << step
            numbers.append(value)
        result.append([[numbers[column] >> column - row & 1 if column >= row else 0
                        for column in range(size)] for row in range(size)])
    return result


def series(field, numerator, denominator, count):
    """The coefficients of x^-1, x^-2, .. of a quotient less than one in degree."""
    degree = len(denominator) - 1
    current = numerator + [0] * (degree - len(numerator))
    result = []
    for _ in range(count):
        result.append(current[-1])
        current = remainder(field, [0] + current, denominator)
    return result


def niederreiter(field, size, count):
    """Row j of a polynomial p of degree e: x^u / p^(v+1) where j = v*e + u, from j = 0."""
    result = []
    for polynomial in irreducible_polynomials(field, count):
        degree, power, rows = len(polynomial) - 1, [1], []
        while len(rows) < size:
            power = multiply(field, power, polynomial)
            rows += [series(field, [0] * place + [1], power, size) for place in range(degree)]
        result.append(rows[:size])
    return result


def first_rows(coordinates, depth):
    return [rows[:depth] for rows in coordinates]


# ---------------------------------------------------------------- import texts

NUMBER = re.compile('0|[1-9][0-9]{0,2}')
NAME = re.compile('[a-z0-9_.-]{1,40}')
SOURCE = re.compile('source[ \t]+([!-~](?:[ -~]{0,198}[!-~])?)')
MOST_DIGITS, MOST_COORDINATES, MOST_BYTES, MOST_CHOICES = 16, 32, 65536, 4000000


class Refused(Exception):
    """Why a text is refused before its strength is looked at."""


class Claim:
    """What the words of a header say; `strength` is k, which is m - t for `net` and `seq`."""

    def __init__(self, words):
        self.form, self.name = (words[0], words[-1]) if words else ('', '')
        if len(words) != {'ooa': 7, 'net': 6, 'seq': 6}.get(self.form) \
                or not all(map(NUMBER.fullmatch, words[1:-1])) or not NAME.fullmatch(self.name):
            raise Refused('line 1 is no header')
        numbers = [int(word) for word in words[1:-1]]
        self.order, self.digits, self.count = numbers[:3]
        self.depth = numbers[3] if self.form == 'ooa' else self.digits
        self.strength = numbers[4] if self.form == 'ooa' else self.digits - numbers[3]
        self.coordinates, self.note = None, ''
        if self.order not in (2, 3, 4, 5, 7, 8, 9) or self.count < 1 \
                or not 1 <= self.depth <= self.digits or not 0 <= self.strength <= self.digits:
            raise Refused('line 1 is no header')

    def choices(self):
        """The number of choices, which is summed over the parts for `seq`."""
        counts = [1] + [0] * self.strength
        for _ in range(self.count):
            counts = [sum(counts[max(0, size - self.depth):size + 1])
                      for size in range(self.strength + 1)]
        if self.form != 'seq':
            return sum(counts)
        return sum(sum(counts[:size + 1]) for size in range(1, self.strength + 1))

    def check_choices(self):
        if self.choices() > MOST_CHOICES:
            raise Refused('{} choices, more than {}'.format(self.choices(), MOST_CHOICES))

    def check_sizes(self):
        for letter, size, most in (('m', self.digits, MOST_DIGITS),
                                   ('s', self.count, MOST_COORDINATES)):
            if size > most:
                raise Refused('{} {} is over {}'.format(letter, size, most))


def lines_of(text):
    pieces = text.split('\n')
    if not pieces[-1]:
        pieces.pop()
    return [piece.removesuffix('\r') for piece in pieces]


def words_of(line):
    return [word for word in re.split('[ \t]', line) if word]


def read(text):
    """The claim of an import text, with its coordinates."""
    if len(text) > MOST_BYTES:
        raise Refused('more than {} bytes'.format(MOST_BYTES))
    lines = lines_of(text)
    claim = Claim(words_of(lines[0] if lines else ''))
    row_of = re.compile('[0-{}]{{{}}}'.format(claim.order - 1, claim.digits))
    first = 1
    if len(lines) > 1 and lines[1].lstrip(' \t').startswith('source'):
        source = SOURCE.fullmatch(lines[1].strip(' \t'))
        if not source:
            raise Refused('line 2 is no source')
        claim.note, first = source[1], 2
    rows, end = [], claim.count * claim.depth + first
    for number in range(first, end):
        row = ''.join(words_of(lines[number])) if number < len(lines) else ''
        if not row_of.fullmatch(row):
            raise Refused('line {} is no row'.format(number + 1))
        rows.append([int(digit) for digit in row])
    for number in range(end, len(lines)):
        if words_of(lines[number]):
            raise Refused('line {} is not blank'.format(number + 1))
    claim.coordinates = [rows[start:start + claim.depth]
                         for start in range(0, len(rows), claim.depth)]
    return claim


# ---------------------------------------------------------------- the examples


class Example:
    """A text with the answer expected.

    `source` says where the matrices come from; `greatest` that the strength holds and no more does;
    `spelled` changes the text.
    """

    def __init__(self, header, coordinates, answer=None, source=None, greatest=False, spelled=None):
        self.claim = Claim(header.split())
        self.claim.coordinates = coordinates
        self.file = self.claim.name + '.txt'
        rows = itertools.chain.from_iterable(coordinates)
        lines = [header, 'source ' + source] if source else [header]
        self.text = '\n'.join([*lines, *(''.join(map(str, row)) for row in rows), ''])
        assert read(self.text).coordinates == coordinates, header
        assert read(self.text).note == (source or ''), header
        if spelled:
            self.text = spelled(self.text)
        self.answer = answer or 'holds ' + self.claim.name
        self.greatest = greatest
        try:
            self.claim.check_choices()
        except Refused as reason:
            self.answer = refused(reason)

    def expected(self):
        status = 0 if self.answer.startswith('holds') else 3
        return '\t'.join([self.file, str(status), self.answer])


def refused(reason):
    return 'refused: {}'.format(reason)


def dependent(choice, combination, part=None):
    start = '' if part is None else 'part {} '.format(part)
    return refused('{}choice {} depends with {}'.format(start, choice, combination))


def replaced(line, old, new):
    """Puts new text where the old one stands, once, on a line counted from 1."""
    def spelled(text):
        lines = text.split('\n')
        assert lines[line - 1].count(old) == 1
        lines[line - 1] = lines[line - 1].replace(old, new)
        return '\n'.join(lines)
    return spelled


def with_blanks(text):
    """More blanks between the words of the header, and some between the digits of the rows."""
    header, source, *rows = text.splitlines()
    rows = [' \t'[number % 2].join(row) + '  ' * (number % 3) for number, row in enumerate(rows)]
    lines = ['  ' + header.replace(' ', '\t ') + ' ', '\t' + source.replace(' ', ' \t', 1) + '  ']
    return '\n'.join([*lines, *rows, ''])


def with_returns(text):
    """A carriage return before each line feed, and blank lines, the last without a line feed."""
    return text.replace('\n', '\r\n') + '\r\n \t\r\n  '


GOLAY = 'M. J. E. Golay, Notes on digital coding, 1949'
HAMMING = 'R. W. Hamming, Error detecting and error correcting codes, 1950'
BCH = 'R. C. Bose and D. K. Ray-Chaudhuri, On a class of error correcting binary group codes, 1960'
QUADRIC = 'R. C. Bose, Mathematical theory of the symmetrical factorial design, 1947'
HEXACODE = 'J. H. Conway and N. J. A. Sloane, Sphere Packings, Lattices and Groups, 1988'
REED_SOLOMON = 'I. S. Reed and G. Solomon, Polynomial codes over certain finite fields, 1960'
CORPUT = 'J. G. van der Corput, Verteilungsfunktionen, 1935'
HAMMERSLEY = 'J. M. Hammersley, Monte Carlo methods for solving multivariable problems, 1960'
SOBOL = "I. M. Sobol', On the distribution of points in a cube, 1967"
FAURE = 'H. Faure, Discrepance de suites associees a un systeme de numeration, 1982'
NIEDERREITER = 'H. Niederreiter, Low-discrepancy and low-dispersion sequences, 1988'
ROSENBLOOM = 'M. Yu. Rosenbloom and M. A. Tsfasman, Codes for the m-metric, 1997'


def examples():
    two, three, five, seven, eight, nine = map(field_of, (2, 3, 5, 7, 8, 9))
    sobol_net = with_reversed(sobol(12, 3))
    niederreiter_net = with_reversed(niederreiter(two, 12, 4))
    points_at_infinity = [[[0, 0, 0, 1]], [[0, 0, 1, 0]]]
    return [
        Example('ooa 2 11 23 1 6 golay', golay(two, 23, 11), source=GOLAY, greatest=True),
        Example('ooa 2 11 23 1 7 golay-seven', golay(two, 23, 11),
                dependent('0,0,0,0,0,0,0,0,0,0,0,1,1,0,0,0,1,1,1,0,1,0,1', '1,1,1,1,1,1,1'),
                source=GOLAY),
        Example('ooa 2 12 24 1 7 extended-golay', extended_golay(), source=GOLAY, greatest=True),
        Example('ooa 3 5 11 1 4 ternary-golay', golay(three, 11, 5), source=GOLAY, greatest=True),
        Example('ooa 3 5 11 1 5 ternary-golay-five', golay(three, 11, 5),
                dependent('0,0,0,0,0,1,1,1,1,0,1', '2,2,1,2,1'), source=GOLAY),
        Example('ooa 2 4 15 1 2 hamming', hamming(two, 4), greatest=True),
        Example('ooa 2 4 15 1 3 hamming-three', hamming(two, 4),
                dependent('0,0,0,0,0,0,1,0,0,0,1,1,0,0,0', '1,1,1'), source=HAMMING),
        Example('ooa 3 3 13 1 2 ternary-hamming', hamming(three, 3), source=HAMMING, greatest=True),
        Example('ooa 2 10 31 1 4 bch-double', bch(5, 2), source=BCH, greatest=True),
        Example('ooa 2 10 15 1 6 bch-triple', bch(4, 3), source=BCH, greatest=True),
        Example('ooa 3 4 10 1 3 elliptic-quadric', elliptic_quadric(),
                source=QUADRIC, greatest=True),
        Example('ooa 2 8 2 8 8 hammersley', with_reversed([identity(8)]),
                source=HAMMERSLEY, greatest=True),
        Example('ooa 2 12 4 12 11 sobol', sobol_net, source=SOBOL, greatest=True),
        Example('ooa 2 12 4 12 12 sobol-zero', sobol_net,
                dependent('0,2,1,9', '1,1,1,1,1,1,0,0,0,1,1,1'), source=SOBOL),
        Example('ooa 2 16 7 16 8 niederreiter', with_reversed(niederreiter(two, 16, 6)),
                source=NIEDERREITER, greatest=True),
        Example('ooa 3 6 4 6 6 faure', with_reversed(faure(3, 6, 3)), greatest=True),
        Example('ooa 3 6 5 6 6 faure-repeated', with_reversed(faure(3, 6, 4)),
                dependent('1,0,0,1,0', '2,1'), source=FAURE),
        Example('ooa 3 6 4 3 6 rosenbloom-tsfasman',
                first_rows(with_reversed(faure(3, 6, 3)), 3), source=ROSENBLOOM, greatest=True),
        Example('net 2 12 5 3 niederreiter-net', niederreiter_net,
                source=NIEDERREITER, greatest=True),
        Example('net 2 12 5 2 niederreiter-net-two', niederreiter_net,
                dependent('1,5,1,1,2', '1,1,0,1,0,1,1,1,0,1'), source=NIEDERREITER),
        Example('seq 2 12 4 3 sobol-sequence', sobol(12, 4), source=SOBOL, greatest=True),
        Example('seq 2 12 4 2 sobol-sequence-two', sobol(12, 4),
                dependent('3,0,1,1', '0,0,1,1,1', 7), source=SOBOL),
        Example('seq 3 6 3 0 faure-sequence', faure(3, 6, 3), source=FAURE, greatest=True),
        Example('seq 3 6 4 0 faure-sequence-repeated', faure(3, 6, 4),
                dependent('1,0,0,1', '2,1', 2), source=FAURE),
        Example('ooa 4 3 6 1 3 hexacode', hexacode(), source=HEXACODE, greatest=True),
        Example('net 5 4 6 0 faure-five', with_reversed(faure(5, 4, 5)),
                source=FAURE, greatest=True),
        Example('seq 7 4 7 0 faure-seven', faure(7, 4, 7), source=FAURE, greatest=True),
        Example('ooa 8 4 8 1 4 reed-solomon', reed_solomon(eight, 4),
                source=REED_SOLOMON, greatest=True),
        Example('ooa 8 4 10 1 4 reed-solomon-ten', reed_solomon(eight, 4) + points_at_infinity,
                dependent('0,0,0,1,0,1,1,0,0,1', '6,1,7,1'), source=REED_SOLOMON),
        Example('seq 9 3 9 0 niederreiter-nine', niederreiter(nine, 3, 9),
                source=NIEDERREITER, greatest=True),
        Example('seq 2 16 7 0 niederreiter-zero', niederreiter(two, 16, 7),
                dependent('0,0,0,0,0,0,1', '1', 1),
                source=NIEDERREITER),
        Example('seq 2 16 10 0 niederreiter-many', niederreiter(two, 16, 10), source=NIEDERREITER),
        Example('seq 2 17 1 0 van-der-corput', [identity(17)], refused('m 17 is over 16'),
                source=CORPUT),
        Example('ooa 2 6 33 1 2 hamming-wide', hamming(two, 6)[:33], refused('s 33 is over 32'),
                source=HAMMING),
        Example('ooa 4 3 6 1 3 hexacode-blanks', hexacode(),
                source=HEXACODE, greatest=True, spelled=with_blanks),
        Example('net 5 4 6 0 faure-returns', with_reversed(faure(5, 4, 5)),
                source=FAURE, greatest=True,
                spelled=with_returns),
        Example('ooa 4 3 6 1 3 hexacode-six', hexacode(), refused('line 1 is no header'),
                source=HEXACODE, spelled=replaced(1, 'ooa 4', 'ooa 6')),
        Example('ooa 4 3 6 1 3 hexacode-source', hexacode(), refused('line 2 is no source'),
                source=HEXACODE, spelled=replaced(2, HEXACODE, '')),
        Example('ooa 4 3 6 1 3 hexacode-digit', hexacode(), refused('line 8 is no row'),
                source=HEXACODE, spelled=replaced(8, '3', '4')),
        Example('ooa 4 3 6 1 3 hexacode-seven', hexacode(), refused('line 9 is not blank'),
                source=HEXACODE, spelled=lambda text: text + '123\n'),
    ]


# ---------------------------------------------------------------- the plain checker


def first_dependent(field, coordinates, strength):
    """The first dependent choice by size, then as a list, with its combination; or None."""
    digits = len(coordinates[0][0])
    basis, choice = [], [0] * len(coordinates)

    def reduced(row, size):
        """A row less its part in the basis; behind its digits, the combination so far."""
        result = row + [int(place == len(basis)) for place in range(size)]
        for column, vector in basis:
            if result[column]:
                times = field.product[field.negative[result[column]]]
                result = [field.sum[a][times[b]] for a, b in zip(result, vector)]
        return result

    def walk(first, size):
        """All choices of just this size that add to the present one from a coordinate on."""
        for coordinate in range(len(coordinates) - 1, first - 1, -1):
            kept = len(basis)
            for row in coordinates[coordinate][:size - kept]:
                choice[coordinate] += 1
                result = reduced(row, size)
                column = next((place for place in range(digits) if result[place]), None)
                if column is None:
                    return list(choice), result[digits:digits + len(basis) + 1]
                scale = field.product[field.inverse[result[column]]]
                basis.append((column, [scale[value] for value in result]))
                if len(basis) < size:
                    found = walk(coordinate + 1, size)
                    if found:
                        return found
            choice[coordinate] = 0
            del basis[kept:]
        return None

    for size in range(1, strength + 1):
        found = walk(0, size)
        if found:
            return found
    return None


def find(claim, more=0):
    """The part, its first dependent choice and the combination, or None.

    That is for this much more strength than claimed.
    """
    field = field_of(claim.order)
    if claim.form != 'seq':
        found = first_dependent(field, claim.coordinates, claim.strength + more)
        return found and (None, *found)
    least = claim.digits - claim.strength - more
    for size in range(1, claim.digits + 1):
        corner = [[row[:size] for row in rows[:size]] for rows in claim.coordinates]
        found = first_dependent(field, corner, min(size, size - least))
        if found:
            return size, *found
    return None


def answer_of(text):
    try:
        claim = read(text)
        claim.check_sizes()
        claim.check_choices()
    except Refused as reason:
        return refused(reason)
    found = find(claim)
    if not found:
        return 'holds ' + claim.name
    part, *lists = found
    return dependent(*(','.join(map(str, numbers)) for numbers in lists), part)


def verify(example):
    answer = answer_of(example.text)
    if answer != example.answer:
        return 'finds ' + answer
    if example.greatest:
        claim = example.claim
        if not answer.startswith('holds') and find(claim):
            return 'does not hold'
        if claim.strength < claim.digits and not find(claim, 1):
            return 'more strength holds'
    return None


# ---------------------------------------------------------------- the command


def main(arguments):
    if arguments not in ([], ['--check'], ['--verify']):
        sys.exit(__doc__)
    chosen = examples()
    failed = False
    if arguments == ['--verify']:
        for example in chosen:
            fault = verify(example)
            failed |= fault is not None
            print(example.file, example.answer, fault or 'confirmed', sep=': ', flush=True)
        return int(failed)
    texts = {example.file: example.text for example in chosen}
    texts['expected.txt'] = ''.join(example.expected() + '\n' for example in chosen)
    directory = os.path.dirname(os.path.abspath(__file__))
    for name, text in texts.items():
        path = os.path.join(directory, name)
        if not arguments:
            with open(path, 'wb') as file:
                file.write(text.encode())
            continue
        try:
            with open(path, 'rb') as file:
                same = file.read() == text.encode()
        except OSError:
            same = False
        if not same:
            failed = True
            print('differs: ' + name)
    return int(failed)


if __name__ == '__main__':
    sys.exit(main(sys.argv[1:]))
