"""Bit patterns of floats: edges, hard cases and random ones."""
import math
import random
import struct
from fractions import Fraction

from lib import data
from lib.model.floats import FORMATS, nearest

HARD = {part: " ".join(rows).split() for part, rows in data.parts("floats/hard.txt").items()}


def round_numbers():
    """Whole numbers of Ryu's tests: those of the first digits, ten to a power and a lower one, powers of two, and a thousand of these."""
    yield from (int("123456789012345678"[:count]) for count in range(1, 17))
    yield from (10**15 + 10**power for power in range(15))
    for power in range(16):
        two = 1 << (10 ** (power + 1)).bit_length() - 1
        yield from (10**power, two, 1000 * two)


def bits_of(text, width):
    pair = {64: "<d<Q", 32: "<f<I"}[width]
    return struct.unpack(pair[2:], struct.pack(pair[:2], float(text)))[0]


def edges(width):
    """Each exponent with significands at and near its ends, subnormals, and the neighbours of powers of ten."""
    fraction, exponent = FORMATS[width]
    ends = (0, 1, 2, 3, (1 << fraction) - 1, (1 << fraction) - 2, 1 << (fraction - 1))
    for field in range(1 << exponent):
        for end in ends:
            yield field << fraction | end
    for shift in range(fraction):
        yield 1 << shift
        yield (1 << shift) - 1
    for power in range(-45 if width == 32 else -323, 39 if width == 32 else 309):
        for digits in (1, 5, 9):
            bits = nearest(digits * Fraction(10) ** power, width)
            yield from (max(bits - 1, 0), bits, bits + 1)


def hard(width):
    texts = HARD["hard %d" % width] + HARD["usual %d" % width] + (HARD["stress decimal"] if width == 64 else [])
    patterns = [int(bits, 16) for bits in HARD["hard %d bits" % width]]
    stress = [bits_of(math.ldexp(*pair), width) for pair in stress_pairs()] if width == 64 else []
    return [*(bits_of(text, width) for text in texts), *patterns, *stress, *(bits_of(number, width) for number in round_numbers())]


def stress_pairs():
    return (tuple(map(int, text.split(":"))) for text in HARD["stress binary"])


def middles(width):
    """Floats with a number of decimals at which they are in the middle between two texts, and the floats beside them; then the
    stress cases, each with the decimals at which it is almost there."""
    fraction, exponent = FORMATS[width]
    for places in range(1, (1 << (exponent - 1)) + fraction - 1):
        for odd in (1, 3, 5, (1 << fraction) - 1):
            bits = bits_of(math.ldexp(odd, -places), width)
            yield from ((near, places - 1) for near in (bits - 1, bits, bits + 1))
    for at, (significand, power) in enumerate(stress_pairs() if width == 64 else ()):
        value = Fraction(significand) * Fraction(2) ** power
        decimals = at % 22 - (len(str(value.numerator)) - len(str(value.denominator)))
        for count in (decimals, decimals + 1):
            if count >= 0:
                yield bits_of(math.ldexp(significand, power), width), count


def patterns(width, count, seed):
    dice = random.Random(seed * 100 + width)
    sign = 1 << (width - 1)
    some = [*edges(width), *hard(width)]
    return some + [bits ^ sign for bits in some] + [dice.getrandbits(width) for _ in range(count)]


# How many decimals are tried. After 1,074 all are zeros.
DECIMALS = (0, 1, 2, 3, 17, 20, 60, 400, 1100)


def plain_lines(width, count, seed):
    return ("%0*x\n" % (width // 4, bits) for bits in patterns(width, count, seed))


def fixed_lines(width, count, seed):
    """Of each pattern, and of halves between two numbers with so many decimals, the bits and a number of decimals. More than 60
    are tried for one pattern of ten."""
    dice = random.Random(seed * 100 + width + 1)
    ties = [bits_of("%de-%d" % (number * 10**places // 2**places, places), width) for places in range(1, 9) for number in range(1, 2**places, 2)]
    split = (word.split(":") for word in HARD["fixed %d" % width])
    for bits, decimals in [*middles(width), *((bits_of(text, width), int(count)) for text, count in split)]:
        yield "%0*x %d\n" % (width // 4, bits, decimals)
    for bits in [*patterns(width, count, seed), *ties]:
        some = DECIMALS if dice.random() < 0.1 else DECIMALS[:7]
        for decimals in dice.sample(some, 2):
            yield "%0*x %d\n" % (width // 4, bits, decimals)


def lines(count, seed):
    return "".join(line for width in FORMATS for some in (plain_lines, fixed_lines) for line in some(width, count, seed))
