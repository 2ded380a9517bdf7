"""The types that the program parses, each by its letter in tools/data/texts/types.txt, and structs, tuples and an enum that are parsed by
the calls and the macros for a user's types; and texts of their values and near them.

The program prints the letter of a type if a value of it has the text.
"""
import itertools

from lib import data
from lib.model import values
from lib.model.document import plain, text_of
from lib.model.places import Texts, stop
from lib.model.reading import document_of
from lib.model.requests import with_places
from lib.model.values import Choice, Decimal, Fields, Float, Keyed, List, Number, Quoted, Reversed, word


def integers():
    for name, bits in (("8", 8), ("16", 16), ("32", 32), ("64", 64), ("128", 128), ("size", 64)):
        low, high = -(2 ** (bits - 1)), 2 ** (bits - 1)
        yield from {"u" + name: Number(0, 2 * high - 1), "i" + name: Number(low, high - 1)}.items()
        yield from {"NonZeroU" + name: Number(1, 2 * high - 1, False), "NonZeroI" + name: Number(low, high - 1, False)}.items()


PLAIN = {**dict(integers()), "f32": Float(32), "f64": Float(64), "Decimal": Decimal(), "bool": word("false", "true"),
         "char": Quoted("'"), "String": Quoted('"'), "()": word("()"), "Ordering": Choice(("Less", "Equal", "Greater")),
         "RangeFull": word(".."), "Tree": values.TREE, "Node": values.NODE}
BYTE, CHARACTER, TEXT = PLAIN["u8"], PLAIN["char"], PLAIN["String"]
PLAIN["Mix"] = Fields("struct", "Mix", [("channel", BYTE), ("level", PLAIN["i16"])])
# What each makes of its parameters.
GENERIC = {
    "Option": values.option,
    "Result": lambda value, error: Choice((), ("Err",), Ok=value, Err=error),
    "Bound": lambda value: Choice(("Unbounded",), Included=value, Excluded=value),
    "ControlFlow": lambda stop, value: Choice((), Continue=value, Break=stop),
    "Cell": lambda value: Fields("struct", "Cell", [("value", value)]),
    "Wrapping": lambda value: value,
    "Reverse": Reversed, "Vec": List, "BTreeSet": Keyed, "BTreeMap": Keyed,
}


def listed(text):
    depth, found = 0, [""]
    for sign in text:
        depth += (sign in "<([") - (sign in ">)]")
        found += [""] if sign == "," and not depth else [found.pop() + sign]
    return [type_of(each.strip()) for each in found if each.strip()]


def type_of(text):
    """The type with this name in Rust."""
    name, _, parameters = text.partition("<")
    if text in PLAIN:
        return PLAIN[text]
    if text.startswith("["):
        value, _, length = text[1:-1].rpartition("; ")
        return List(type_of(value), int(length))
    if text.startswith("("):
        return Fields("tuple", "", [(None, value) for value in listed(text[1:-1])])
    return GENERIC[name](*listed(parameters[:-1]))


TABLES = data.parts("texts/types.txt")
TYPES = {row[0]: type_of(row[2:]) for row in TABLES["types"]}
NAMES = "abcdefghijkl"


# Each struct, tuple and variant of a user's types, and how its fields are printed: of its first, its last, all but that, or all in a row.
# The first ones have so many numbers and characters in turn.
MIXED = [BYTE, CHARACTER] * 6
SHAPES = [(Fields(kind, name, list(zip(names, MIXED))[:count]), kind[0] + ("{first};" if count == 1 else "({row});"))
          for kind, name, names in (("struct", "S", NAMES), ("tuple", "T", [None] * 12)) for count in (1, 2, 3, 12)]
SHAPES += [
    (Fields("struct", "Twelve", list(zip(NAMES, [BYTE] * 11 + [TEXT]))), "w(({others}), {last});"),
    (Fields("tuple", "One", [(None, TEXT)]), "o{first};"),
    (word("Started"), "e(0, None, None);"),
    (Fields("tuple", "Said", [(None, BYTE), (None, TEXT)]), "e(1, Some(({row})), None);"),
    (Fields("struct", "Lost", [("since", BYTE), ("peers", List(BYTE))]), "e(2, None, Some(({row})));"),
    (word("Ended"), "e(3, None, None);"),
]


def judged(data, is_pretty):
    """Where the text stops for each type, by its letter, and None for a type that has a value; and the numbers of the shapes that have one."""
    texts = Texts(data, is_pretty)
    shapes = [number for number, (kind, _form) in enumerate(SHAPES) if stop(kind, texts) is None]
    return {letter: stop(kind, texts) for letter, kind in TYPES.items()}, shapes


def fields(document, shapes):
    if not shapes:
        return ""
    texts = [] if isinstance(document, str) else [plain(value) for _name, value in document.entries]
    parts = {"first": texts[0], "last": texts[-1], "others": ", ".join(texts[:-1]), "row": ", ".join(texts)} if texts else {}
    return SHAPES[shapes[0]][1].format(**parts)


# ---- Texts of values and near them.

# Values of the types, and what is nearly one, of which random ones are made.
ROWS = (document_of(row.cells[0]) for row in data.rows_with_places() if row.words[:2] == ["value", "plain"])
VALUES = [*filter(None, ROWS), *map(document_of, TABLES["values"])]
NAMED = ("None", "Some", "Ok", "Err", "Maybe")
SINGLE = ("1", "-129", "'a'", '"a"', "[]")
# Of decimals.
LARGEST, PLACES = 2**63, (0, 1, 18, 19, 20, 254, 255, 256)


def first_documents():
    """Values of each type and near them; the numbers at each number type's bounds, and one past them."""
    yield from VALUES
    for low, high in sorted({(kind.low, kind.high) for kind in TYPES.values() if isinstance(kind, Number)}):
        yield from (str(number) for number in (low - 1, low, high, high + 1))
    for value, places in itertools.product((1, LARGEST - 1, LARGEST, -LARGEST, -LARGEST - 1), PLACES):
        yield text_of(with_places(value, places, 0))
    yield from (document_of(form % (name, value)) for name in NAMED for value in SINGLE for form in ("%s(%s)", "%s { value: %s }"))
    for keys in TABLES["keys"]:
        yield from map(document_of, ("{%s}" % keys, "[%s]" % keys, "{%s: None}" % keys.replace(",", ": None,")))
