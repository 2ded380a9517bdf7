"""The texts that come first with every seed: each cell of the table of coverage, and each shape at each limit."""
import itertools

from lib import data
from lib.model import characters, types
from lib.model.coverage import powers
from lib.model.covering import Covering, DebugCovering
from lib.model.debug_leaves import PRINTED, REFUSED
from lib.model.document import DEEPEST, list_of, plain, pretty, quoted
from lib.model.documents import CHARACTERS, KINDS_OF_CHARACTERS, LENGTHS, DebugMaker, Maker
from lib.model.reading import document_of

TABLES, CHANGES = data.parts("texts/lengths.txt"), data.parts("texts/changes.txt")
# Lengths and depths at which a bound of pieces could be.
BOUNDS = (1, 2, 3, 4, 7, 8, 9, 15, 16, 17, 31, 32, 33, 63, 64, 65, 127, 128, 129, 255, 256, 257, 999, 1000, 1001, 4095, 4096, 4097, 5000)
DEPTHS = (1, 2, 3, 5, 16, 31, 32, 33, 43, 44, 63, 64, 65, 127, 128, 129, 200, 253, 254)
LONGEST = 100_000
# Characters of one to four bytes, and some with escapes of two to six bytes.
ESCAPED = "a\u00e9\u20ac\U0001f980\0\"'\x01\x1b"
# What is put into a small text at each place, and how many letters are before and after a piece in quotes: more than are compared at once.
BYTES = [bytes([byte]) for byte in b'[]{}(),: \nx"\0\xff']
LETTERS = 40


def in_both_modes(documents):
    """Both texts of each. A leaf has one."""
    for document in documents:
        yield from dict.fromkeys((plain(document).encode(), pretty(document).encode()))


def at_bounds():
    """Names and leaves of each length, stretches of it between escapes, and blocks at each depth."""
    for length in (*BOUNDS, LONGEST):
        yield from (document_of(row.replace("<n>", "n" * length)) for row in TABLES["names"])
    for length in BOUNDS:
        for character in ESCAPED:
            yield from (quoted(("b" * length + character) * 3), quoted(character * length + "\n" + character))
    for depth in DEPTHS:
        yield from (document_of("[" * depth + row + "]" * depth) for row in TABLES["blocks"])


def changed():
    """The beginnings of small texts, and each without a byte and with one byte more, at each place; and texts in quotes with a piece at each."""
    for text in in_both_modes(document_of(data.text_of(row)) for row in CHANGES["texts"]):
        for place in range(len(text) + 1):
            yield from (text[:place], text[:place] + text[place + 1 :], *(text[:place] + byte + text[place:] for byte in BYTES))
    for piece in map(data.data_of, CHANGES["pieces"]):
        yield from (b'"' + b"x" * before + piece + b"x" * (LETTERS - before) + b'"' for before in range(LETTERS))


def at_limits(maker):
    """A document at each depth in each place, up to one that is too deep; leaves of each length."""
    for depth, place in itertools.product((*DEPTHS, DEEPEST, DEEPEST + 1), maker.places):
        document = maker.random.choice((maker.leaf(), maker.empty(), "x"))
        for _ in range(depth):
            document = maker.deeper(place, document)
        yield document
    for make, length in itertools.product(maker.long_leaves(), LENGTHS):
        yield maker.deeper(maker.random.choice(maker.places), make(length)) if length % 2 else make(length)


def noise(maker):
    """Pieces in a row, characters, lines of a few letters, and any bytes."""
    for size in powers(131072):
        piece, line = maker.random.choice(maker.pieces).encode(), b"a" * maker.random.randrange(9) + b"\n"
        yield from ((piece * size)[:size], maker.characters(size).encode())
        yield from (line * (size // 4), maker.random.randbytes(size))


def first_texts(seed):
    maker, debug_maker = Maker(seed), DebugMaker(seed)
    covering, debug_covering = Covering(maker), DebugCovering(debug_maker)
    yield from (b"", b"\n", b"()", b"[]", b"{}", b'""', b"''", b"x\n")
    yield from in_both_modes(at_bounds())
    yield from in_both_modes(types.first_documents())
    for each in (at_limits(maker), at_limits(debug_maker), covering.documents(), debug_covering.documents()):
        yield from in_both_modes(each)
    yield from itertools.chain(noise(maker), noise(debug_maker))
    yield from in_both_modes([*PRINTED, list_of(*PRINTED)])
    yield from itertools.chain(*REFUSED.values())
    yield from changed()
    for number, document in enumerate(covering.many()):
        yield (plain, pretty)[(number + seed) % 2](document).encode()
    for character in CHARACTERS:
        yield from (quoted(character * length).encode() for length in (1, 255, 256, 257, 4097))
        yield quoted(character, "'").encode()
    yield from (quoted(character * 100_000).encode() for character in KINDS_OF_CHARACTERS)
    # Blocks after more leaves than a number of two bytes counts.
    yield from in_both_modes([list_of(*["x"] * 70_000, document_of("S { a: 1 }"), document_of("[y]"))])
    yield from (byte * length for length in LENGTHS for byte in (b"x", b" "))
    yield from (maker.characters(size).encode()[: covering.within(size) - 1] + b"]" for size in powers(131072))
    yield from characters.texts()
