"""Which shapes the texts of both classes had: a table of cells, each of which some text must fill. So a text that isn't made any more is seen.

A cell is a tuple. It begins with the name of its table, and ends with the mode in which the text was read.
"""
import itertools

from lib.model import characters, types
from lib.model.debug_leaves import REASON_OF, REFUSED, SHAPES, shape
from lib.model.document import STRUCTS, Block, unquoted
from lib.model.documents import KINDS as BLOCKS, PLACES
from lib.model.reading import MODES, is_debug_name, is_of_tokens

DEBUG_PLACES = (*PLACES, "open struct")
LEAVES = ("word", "unit", "text", "character", "empty list", "empty map")
# Structs that end in dots, with fields and without. With other words and other leaves in quotes they are what only debug texts have.
OPEN_STRUCTS = ("open struct", "empty open struct")
DEBUG_LEAVES = ("debug word", "quotes")
POSITIONS = ("only", "first", "middle", "last")
# Lengths and numbers of entries are told apart up to these, and then by powers of two.
EXACT_LENGTH, EXACT_ENTRIES = 128, 64
# The characters of texts are noted up to this length, and of a debug leaf with so many pieces at most its shape.
NOTED_LENGTH, NOTED_PIECES = 12, 3
# So many entries of each kind are tried in one of the modes.
MANY = 50_000
DEPTHS = (1, 2, 4, 8, 16, 32, 64, 128, 256, 255)


def power(number, exact=0):
    """The least power of two that is not below the number. Up to a bound, the number itself."""
    return 1 << (number - 1).bit_length() if number > exact else number


def powers(last, exact=0):
    """The numbers up to the bound, and the powers of two above it."""
    return [*range(1, exact + 1), *(1 << exponent for exponent in range(exact.bit_length(), last.bit_length()))]


def kind_of(document):
    if isinstance(document, Block):
        kind, name, entries = document
        return "empty " + kind if not entries else "unnamed" if kind == "tuple" and not name else kind
    if not is_of_tokens(document):
        return "debug word" if is_debug_name(document) else "quotes"
    return "unit" if document == "()" else {'"': "text", "'": "character"}.get(document[0], "word")


def position(number, count):
    return "only" if count == 1 else "first" if number == 0 else "last" if number == count - 1 else "middle"


class Walk:
    """The cells of one document, read in one mode."""

    def __init__(self, mode):
        self.mode, self.cells = mode, set()

    def add(self, *cell):
        self.cells.add((*cell, self.mode))

    def walk(self, document):
        """Each node, with the number of blocks around it, its place and that of its block."""
        stack = [(document, 0, None, None)]
        while stack:
            document, depth, place, outer = stack.pop()
            kind = kind_of(document)
            self.add("kind within kinds", outer, place, kind)
            self.add("kind by depth", depth if depth == 255 else power(depth), kind)
            if isinstance(document, str):
                self.leaf(document, kind)
                continue
            count = len(document.entries)
            self.add("entries", kind, MANY if count >= MANY else power(count, EXACT_ENTRIES))
            self.add("length of a name", kind, power(len(document.name), EXACT_LENGTH))
            for number, (before, value) in enumerate(document.entries):
                if document.kind in STRUCTS:
                    self.add("length of a name", "field", power(len(before), EXACT_LENGTH))
                for inner, inside in [("value" if kind == "map" else kind, value)] + [("key", before)] * (kind == "map"):
                    self.add("kind in a place", inner, position(number, count), kind_of(inside))
                    stack.append((inside, depth + 1, inner, place))
        return self.cells

    def leaf(self, leaf, kind):
        self.add("length of a leaf", kind, power(len(leaf), EXACT_LENGTH))
        if kind in DEBUG_LEAVES and len(shape(leaf)) <= NOTED_PIECES:
            self.add("shape of a leaf", shape(leaf))
        if kind == "character":
            self.add("character in apostrophes", ord(unquoted(leaf)))
        if kind == "text" and 2 < len(leaf) <= NOTED_LENGTH:
            for number, character in enumerate(text := unquoted(leaf)):
                self.add("character in quotes", position(number, len(text)), ord(character))


def cells(data, document, mode, judged):
    """The cells that these bytes fill, which were read as this debug document in the mode, or as no text, and judged by types."""
    if document is None:
        reasons = {("refused", REASON_OF[data], mode)} if data in REASON_OF else set()
        return {("bytes of no text", power(len(data)), mode)} | reasons
    found = Walk(mode).walk(document) | {("bytes of a text", power(len(data)), mode)}
    stops, shapes = judged
    return found | {("type", letter, mode) for letter in stops if stops[letter] is None} | {("shape", number, mode) for number in shapes}


def pairs(*lists):
    return list(itertools.product(*lists))


def wanted():
    """The cells by their tables, without their modes."""
    inner, only_debug, of_length = (0, *DEPTHS[:-1]), DEBUG_LEAVES + OPEN_STRUCTS, powers(131072, EXACT_LENGTH)
    yield "kind in a place", pairs(PLACES, POSITIONS, BLOCKS + LEAVES) + pairs(DEBUG_PLACES, POSITIONS, only_debug)
    yield "kind in a place", pairs(("open struct",), POSITIONS, BLOCKS + LEAVES)
    yield "kind within kinds", pairs(PLACES, PLACES, BLOCKS + LEAVES)
    yield "kind by depth", pairs(inner, BLOCKS + LEAVES + only_debug) + pairs((255,), (*LEAVES, *DEBUG_LEAVES, "empty open struct"))
    yield "length of a leaf", pairs(("word", "debug word"), of_length) + pairs(("text", "quotes"), of_length[2:])
    yield "length of a name", pairs(("struct", "tuple", "field", *OPEN_STRUCTS), powers(4096, EXACT_LENGTH))
    yield "entries", pairs((*BLOCKS, "open struct"), powers(1024, EXACT_ENTRIES))
    yield "shape of a leaf", pairs(SHAPES)
    yield "character in apostrophes", pairs(characters.CODES)
    yield "character in quotes", pairs(POSITIONS, characters.CODES)
    yield "type", pairs(types.TYPES)
    yield "shape", pairs(range(len(types.SHAPES)))
    yield "refused", pairs(REFUSED)
    yield "bytes of a text", pairs(powers(131072))
    yield "bytes of no text", pairs([0, *powers(131072)])


def empty(found):
    """A message with each cell that no text filled."""
    for table, rows in wanted():
        for cell in ((table, *row, mode) for row in rows for mode in MODES):
            if cell not in found:
                yield ", ".join(map(str, cell))
    for kind in BLOCKS:
        if not any(("entries", kind, MANY, mode) in found for mode in MODES):
            yield "entries, %s, %d" % (kind, MANY)
