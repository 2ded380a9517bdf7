"""The requests that are made: options at each bound, and at random."""
import itertools
import random

from lib.model import floats
from lib.model.requests import Request

BOUNDS = (0, 1, 31, 32, 33, 63, 64, 65, 127, 128, 129, 255, 256, 257, 1000, 4096)
FILLS = " *0\u00e9\u20ac\U0001f980\0\x7f"
# What payloads are made of: words, escapes, characters of two to four bytes.
KINDS = ("a", "ab\n", "\u00e9", "a\"\u20ac", "\x1b'", "\U0001f980")
OFFSETS = (0, 1, 0xFFFFFF, 0x1000000, 0xFFFFFFF, 0x10000000, 0xFFFFFFDF, 0xFFFFFFFF, 2**32)
# An option that makes a text longer than the buffer of 64 bytes in which the program counts steps, and huge ones.
LONG, HUGE = 100, (2**63, 2**64 - 1)


def huge():
    """Requests with a huge option each, or two, and with columns of each width around padded numbers."""
    some, product = Request(width=LONG, pad_length=LONG, per_row=LONG, payload=b"abc"), itertools.product
    aligns, widths = (0, 1, 2), (65, 1000, LONG, *HUGE)
    for number in (LONG, *HUGE):
        yield from (some._replace(width=number, align=align, fill=ord(fill)) for align, fill in product(aligns, " *\u20ac"))
        yield from (some._replace(pad_length=number, pad=pad, prefix=prefix) for pad, prefix in product((32, 48, 127), (0, 1)))
        yield from (some._replace(pad_length=number, width=width, align=align) for width, align in product(widths, aligns))
        yield from (some._replace(per_row=number, group=group, offset=offset)
                    for group, offset in product((0, 1, LONG, *HUGE), (0, 0xFFFFFFFF, 2**32)))


def number(dice):
    """A number of some count of digits, or one near a bound of a type."""
    digits, bits = dice.randrange(39), dice.choice((7, 8, 15, 16, 31, 32, 63, 64, 127, 128))
    some = dice.randrange(10**digits, 10 ** (digits + 1))
    near = dice.choice((2**bits, 10**digits)) + dice.choice((-1, 0, 1))
    return b"%d" % (dice.choice((some, near)) * dice.choice((1, -1)))


def made(seed):
    """Requests of each two of the bounds as the width of a column and the length of a text, and as the length
    of a row and that of what is dumped. One seed makes the same ones each time."""
    dice = random.Random(seed)
    choice = dice.choice

    def request(width, per_row, payload):
        return Request(
            width, choice((0, 1, 2)), ord(choice((" ", choice(FILLS)))),
            choice((0, 1)), choice((48, 32, choice(range(128)))), choice(BOUNDS), choice((0, 1)),
            per_row, choice((0, 1, 2, 3, 4, 16, choice(BOUNDS))), choice(OFFSETS), choice((0, 1, 1)), payload,
        ).data()

    def text(length):
        return (choice(KINDS) * length)[:length].encode()

    for (place, width), (other, length) in itertools.product(enumerate(BOUNDS), repeat=2):
        per_row = BOUNDS[(place + other) % len(BOUNDS)]
        yield request(width, per_row, text(length))
        yield request(min(width, 130), dice.randrange(1, 41), number(dice))
        yield request(0, per_row, dice.randbytes(length))
    yield from (request(1, 1, b"%d" % bits) for width in (32, 64) for bits in floats.edges(width))
    yield from (request(length, length, text(length)) for length in (20_000, 70_000))
