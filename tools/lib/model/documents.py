"""Documents of both classes: their leaves and blocks, and random ones, which are mixed of rows of tools/data
and changed a little. One seed makes the same ones each time."""
import functools
import random
import re

from lib import data
from lib.model import asked, characters, floats, types
from lib.model.debug_leaves import (COLONS, LIFETIMES, NAME_SHAPES, PAST_ASCII, POINTS, PRINTED, QUOTES,
                                    SHAPES, UNITS, WORDS, joined)
from lib.model.document import STRUCTS, Block, plain, pretty, quoted, tuple_of, unquoted

LETTERS = "abcxyzABCXYZ0189_-"
# Characters of one to four bytes, the ends of these ranges, and characters that have an escape.
CHARACTERS = ("\0\t\n\r\\\"'\x01\x08\x0b\x0c\x0e\x1b\x1f\x7f aZ~,:[]{}()\u0080\u00e9\u07ff\u0800\u20ac\ud7ff\ue000\ufffd\uffff"
              "\U00010000\U0001f980\U0010ffff")
# One character of each length in bytes, and one of each escape. The longest texts are made only of these.
KINDS_OF_CHARACTERS = "a\u00e9\u20ac\U0001f980\0\t\n\r\\\"'\x01\x1b"
# Lengths around those where a counter or a buffer could end.
LENGTHS = (1, 2, 15, 16, 63, 64, 65, 127, 128, 129, 254, 255, 256, 257, 511, 512, 600, 1023, 1024, 4095, 4096, 4097, 65535, 65536, 100_000)
# A random document is mixed of at most so many others. Its leaves and names have at most so many characters.
MOST_MIXED, LONGEST = 300, 60
NUMBER = re.compile(r"-?[0-9]")
EDGES = {width: floats.edges(width) for width in floats.FORMATS}
KINDS = ("list", "set", "map", "struct", "tuple", "unnamed")
# The places that a document can have in a block.
PLACES = ("list", "set", "key", "value", "struct", "tuple", "unnamed")
# What a change puts in, and into debug texts besides; and bytes that are no UTF-8.
CHANGES = data.parts("texts/pieces.txt")
PIECES, DEBUG_PIECES = (list(map(data.text_of, CHANGES[part])) for part in ("token", "debug"))
BAD_BYTES = list(map(data.data_of, CHANGES["no UTF-8"]))


def order(document):
    """Numbers and texts in the order of their types."""
    text = plain(document)
    is_number = re.fullmatch("-?[0-9]+", text)
    return int(text) if is_number else 0, (unquoted(text) if text[0] in "\"'" else text).encode()


class Maker:
    """Makes documents. A block has others in one of its `kinds`."""

    pieces = PIECES
    kinds = PLACES
    places = (*PLACES, "last of two", "first of two")

    def __init__(self, seed):
        self.random = random.Random(seed)

    def size(self, most):
        """A number from 1 on, as often between 1 and 10 as between 10 and 100."""
        return int((most + 1) ** self.random.random())

    def word(self, length=None):
        return "".join(self.random.choices(LETTERS, k=length or self.size(LONGEST)))

    def characters(self, length):
        form = self.random.random()
        if 0.3 <= form < 0.5:
            return "".join(characters.any_character(self.random) for _ in range(length))
        return "".join(self.random.choices("ab c,:" if form < 0.3 else CHARACTERS, k=length))

    def text(self, length):
        return quoted(self.characters(length))

    def character(self):
        return quoted(self.characters(1), "'")

    def leaf(self):
        form = self.random.random()
        if form < 0.55:
            return self.word() if form < 0.45 else "()"
        return self.text(self.size(LONGEST) - 1) if form < 0.8 else self.character()

    def long_leaves(self):
        """What makes leaves of a length."""
        return self.word, lambda length: quoted(self.random.choice(CHARACTERS) * length), self.text

    def empty(self):
        return Block(self.random.choice(("list", "map")), "", [])

    def block(self, kind, values):
        """A block of this kind with these values. An unnamed tuple is of the kind "unnamed"."""
        if kind == "map":
            return Block("map", "", [(self.leaf(), value) for value in values])
        if kind in STRUCTS:
            return Block(kind, self.word(), [(self.word(), value) for value in values])
        name = self.word() if kind == "tuple" else ""
        return Block("tuple" if kind == "unnamed" else kind, name, [(None, value) for value in values])

    def number(self):
        """A whole number, one with a point in it, or a float."""
        digits, width = asked.number(self.random).decode(), self.random.choice((32, 64))
        at = self.random.randint(1, len(digits))
        bits = self.random.choice((self.random.getrandbits(width), self.random.choice(EDGES[width])))
        return self.random.choice((digits, digits[:at] + "." + digits[at:], floats.debug(bits, width)))

    def mixed(self, count):
        """So many leaves and values of tools/data, in blocks in blocks."""
        found = [self.leaf() if self.random.random() < 0.7 else self.value() for _ in range(count)]
        while len(found) > 1:
            at, end = self.random.randrange(len(found)), self.size(len(found))
            found[at : at + end] = [self.inside(self.random.choice(self.kinds), found[at : at + end])]
        return found[0]

    def value(self):
        return self.varied(self.random.choice(types.VALUES))

    def varied(self, document):
        """The document with other numbers and texts, and other entries in lists and the like."""
        if isinstance(document, str):
            if self.random.random() < 0.5:
                return document
            if document[0] in "\"'":
                length = 1 if document[0] == "'" else self.random.randrange(4)
                return quoted(self.characters(length), document[0])
            return self.number() if NUMBER.match(document) else document
        kind, entries = document.kind, document.entries
        if entries and kind in ("list", "set", "map"):
            entries = self.random.choices(entries, k=self.size(2 * len(entries)))
        entries = [(self.varied(it) if kind == "map" else it, self.varied(value)) for it, value in entries]
        if kind in ("set", "map") and self.random.random() < 0.8:
            keyed = {order(before or value): (before, value) for before, value in entries}
            entries = [keyed[key] for key in sorted(keyed)]
        return document._replace(entries=entries)

    def inside(self, place, documents):
        """A block with these documents in the place."""
        if place == "key":
            return Block("map", "", [(document, self.leaf()) for document in documents])
        return self.block("map" if place == "value" else place, documents)

    def deeper(self, place, document):
        if place == "last of two":
            return Block(self.random.choice(("list", "set")), "", [(None, self.leaf()), (None, document)])
        return tuple_of(document, self.leaf()) if place == "first of two" else self.inside(place, [document])

    def changed(self, data):
        """The text with a change, most often by one byte or one piece."""
        at = self.random.randrange(len(data) + 1)
        pieces = *self.pieces, characters.any_character(self.random)
        piece, old = map(str.encode, self.random.choices(pieces, k=2))
        before, after = data[:at], data[at:]
        return self.random.choice((
            before, after, before + after[1:], before + piece + after[1:], before + piece + after, data + old,
            before + self.random.choice(BAD_BYTES) + after, before + after.replace(old, piece, 1),
        ))

    def data(self):
        """The plain or the pretty text of a document or a value, as it is or changed."""
        document = self.mixed(self.size(MOST_MIXED)) if self.random.random() < 0.75 else self.value()
        text = self.random.choice((plain, pretty))(document).encode()
        for _ in range(self.random.choice((0, 0, 0, 0, 1, 1, 1, 2))):
            text = self.changed(text)
        return text


class DebugMaker(Maker):
    """Makes debug documents. Some of their leaves and names are those of token documents, and some of their structs end in dots."""

    pieces = [*PIECES, *DEBUG_PIECES, *PRINTED]
    kinds = (*PLACES, "open struct")
    places = (*Maker.places, "open struct")

    def word(self, length=None):
        if self.random.random() < 0.5:
            return super().word(length)
        if length is None:
            return self.of_shape(self.random.choice(NAME_SHAPES))
        return self.word_of(self.random.choice("pu"), length)

    def leaf(self):
        return self.random.choice((
            super().leaf, lambda: self.random.choice(PRINTED), lambda: self.of_pieces(self.size(40)),
            lambda: self.of_shape(self.random.choice(SHAPES), self.size(20)),
        ))()

    def empty(self):
        return Block("open struct", self.word(), []) if self.random.random() < 0.4 else super().empty()

    def long_leaves(self):
        return (functools.partial(self.word_of, "u"), self.of_pieces,
                lambda length: ":" * length + "1.5", functools.partial(self.in_quotes, "o"))

    def word_of(self, letter, length):
        tokens = "".join(self.random.choices("abXY019_-", k=length))
        if letter == "w":
            return tokens
        at = self.random.randrange(length)
        return tokens[:at] + self.random.choice(POINTS if letter == "p" else PAST_ASCII) + tokens[at + 1 :]

    def in_quotes(self, letter, length):
        if letter == "c":
            return quoted(self.random.choice("ab\n\"'\u20ac\x1b"), "'")
        if letter == "t":
            return quoted("".join(self.random.choices("ab ,:[]{}()\n\"'\u00e9\u20ac", k=length)))
        quote = self.random.choice("\"'")
        return quote + "\\x" + "".join(self.random.choices("ab09XY{}", k=length)) + quote

    def piece(self, letter, length):
        if letter in WORDS:
            return self.word_of(letter, length)
        if letter in UNITS + LIFETIMES:
            return "()" if letter == UNITS else "'"
        if letter == "W":
            return "(" + self.word_of(self.random.choice(WORDS), length) + ")"
        if letter == "A":
            return "[" + self.word_of("w", length) + self.random.choice(("", ":", "::1")) + "]:"
        return ":" * length if letter == COLONS else self.in_quotes(letter, length)

    def of_shape(self, letters, longest=4):
        return joined(self.piece(letter, self.random.randint(1, longest)) for letter in letters)

    def of_pieces(self, count):
        in_quotes = self.random.choice(QUOTES)
        letters = (in_quotes if (count - number) % 2 else WORDS[number % 3] for number in range(count))
        return joined(self.piece(letter, 1) for letter in letters)
