"""Documents of each shape, token documents and debug documents, and texts of no token document, in any size."""
from functools import partial

from lib import data
from lib.model.document import STRUCTS, Block, list_of, plain, quoted, tuple_of
from lib.model.documents import PLACES
from lib.model.reading import document_of

# The kind and the name of the block of a place, and what is before the value.
BLOCKS = {"key": ("map", "", None), "value": ("map", "", "k"), "tuple": ("tuple", "N", None), "unnamed": ("tuple", "", None),
          "struct": ("struct", "S", "f"), "open struct": ("open struct", "S", "f")}
TREE = document_of("Tree { size: 1, children: [] }")
# Leaves and rows of pieces, by their names.
TABLES = {part: {name: [text.decode() for text in texts] for name, texts in rows.items()}
          for part, rows in data.named("texts/shapes.txt").items()}


def placed(place, document):
    """A block that has the document in this place."""
    kind, name, before = BLOCKS.get(place, (place, "", None))
    return Block(kind, name, [(document, "v") if place == "key" else (before, document)])


def wide(place, value, size):
    block = placed(place, value)
    count = max(size // len(plain(block)), 2)
    if place in STRUCTS:
        return Block(place, "S", [("f%d" % number, value) for number in range(count)])
    return block._replace(entries=block.entries * count)


def long_leaf(characters, size):
    return quoted(characters * (size // (len(quoted(characters).encode()) - 2)))


def deep(place, size):
    """A chain with a leaf in it. Most of the text is the leaf, or in a pretty text the indentation."""
    document = "x" * (size // 2)
    for _ in range(min(size // 100, 250)):
        document = placed(place, document)
    return document


def deep_and_wide(place, size):
    document, depth = "x", 20
    leaves = placed(place, "x").entries * (size // depth // 16)
    for _ in range(depth):
        block = placed(place, document)
        document = block._replace(entries=leaves + block.entries + leaves)
    return document


def around(place, document, size):
    """A chain, nearly as deep as any may be, around a list of this document. Nearly all of the pretty text is indentation."""
    inner = repeated(document, size // 12)
    for _ in range(min(size // 8, 240)):
        inner = placed(place, inner)
    return inner


def halved(size):
    """A list of two lists, each of two lists, and so on."""
    document = "x"
    for _ in range(size.bit_length() - 4):
        document = list_of(document, document)
    return document


def trees(size):
    tree = TREE
    for number in range(20):
        tree = Block("struct", "Tree", [("size", str(number)), ("children", list_of(tree))])
    return list_of(*[tree] * max(size // len(plain(tree)), 1))


def chain(size):
    """Nodes in a row, nearly as deep as any may be."""
    node = document_of("Node { value: 7, next: None }")
    for _ in range(min(size // 40, 125)):
        node = Block("struct", "Node", [("value", "18446744073709551615"), ("next", tuple_of(node, name="Some"))])
    return node


def ordered_map(size):
    return Block("map", "", [(quoted("%06d" % number), tuple_of("7", name="Some")) for number in range(size // 19)])


def named(kind, size):
    fields = [("f" * (size // 16) + str(number), "x") for number in range(8)]
    return list_of(Block(kind, "S" * (size // 4), fields), tuple_of("x", name="T" * (size // 4)))


def repeated(document, size):
    return list_of(*[document] * (size // (len(plain(document).encode()) + 2)))


def numbers(*more):
    *more, size = more
    return Block("set", "", [(None, str(number)) for number in (*range(size // 6), *more)])


def in_a_row(row, size):
    """A text of this size: a piece so many times, between what is before and after."""
    before, piece, after = row
    return before + piece * (size // len(piece.encode())) + after


def unended(row, size):
    begin, piece = row
    return begin + ", ".join([piece] * (size // (len(piece) + 2)))


MAKERS = {"around": around, "wide": wide, "deep": deep, "deep and wide": deep_and_wide, "repeated": repeated, "named": named, "halved": halved,
          "trees": trees, "chain": chain, "ordered map": ordered_map, "numbers": numbers, "row": lambda piece, size: piece * size,
          "value": lambda document, _size: document}


def tabled(part):
    return {name: partial(MAKERS[maker], *(document_of(text) or text for text in texts)) for name, (maker, *texts) in TABLES[part].items()}


def documents():
    """Each shape by its name, with a call that makes a document of a size."""
    shapes = {name: partial(long_leaf, characters) for name, (characters,) in TABLES["characters of long leaves"].items()}
    shapes["a long word"] = lambda size: "x" * size
    shapes.update({"a wide list of " + name: partial(repeated, leaf) for name, (leaf,) in TABLES["leaves"].items()})
    shapes.update({"a wide list of an empty " + kind: partial(repeated, Block(kind, "", [])) for kind in ("list", "map")})
    for place in PLACES:
        one = placed(place, "x")
        shapes.update({"a wide " + place: partial(wide, place, "x"), "a wide list of a %s each" % place: partial(repeated, one),
                       "a deep " + place: partial(deep, place), "a deep and wide " + place: partial(deep_and_wide, place),
                       "a deep %s, of a %s each" % (place, place): partial(around, place, one)})
    return {**shapes, **tabled("documents")}


def debug_documents():
    """Each shape of debug documents that aren't token documents, in the same way."""
    return {
        **{"a long leaf, " + name: partial(in_a_row, row) for name, row in TABLES["long debug leaves"].items()},
        **{"a wide list of " + name: partial(repeated, leaf) for name, (leaf,) in TABLES["debug leaves"].items()},
        **{"a wide %s of points" % place: partial(wide, place, "1.5") for place in PLACES},
        **tabled("debug documents"),
        "a long name and only dots": lambda size: Block("open struct", "S" * size, []),
        "long names past ASCII": lambda size: list_of(Block("struct", "\u20ac" * (size // 6), [("a:" * (size // 4) + "a", "x")])),
    }


def no_texts():
    """Texts of no token document, in the same way. They are wrong at the end or at the start."""
    return {
        **{name: partial(in_a_row, row) for name, row in TABLES["no texts"].items()},
        **{name: partial(unended, row) for name, row in TABLES["open texts"].items()},
        "an open set of numbers in order": lambda size: plain(numbers(size))[:-1],
        # Without the last value's end too, which would be a text at the end of a line.
        "an open map of keys in order": lambda size: plain(ordered_map(size))[:-2],
    }
