"""Kinds of types: where a text of a value ends, and the order of keys. types.py has the types.

Each kind takes its text from a place in `Texts` of places.py, which says where what is around entries ends.
"""
import operator
import re

from lib.model import floats
from lib.model.document import unquoted
from lib.model.places import Stop

DIGITS = re.compile(rb"[0-9]*")
# A sign, the digits of the whole number, and those after a point.
DECIMAL = re.compile(r"(-?)(0|[1-9][0-9]*)(?:\.([0-9]+))?")
DECIMAL_BYTES, FLOAT_BYTES = re.compile(rb"-?[0-9]*(?:\.[0-9]*)?"), re.compile(rb"[-.0-9eNainf]*")
MOST_PLACES, LONGEST_FLOAT = 255, 400
# No number of a type has more digits.
LONGEST = 40


class Number:
    def __init__(self, low, high, has_zero=True):
        self.low, self.high, self.has_zero = low, high, has_zero

    def taken(self, texts, at, _blocks):
        minus = self.low < 0 and texts.data[at : at + 1] == b"-"
        digits = DIGITS.match(texts.data, at + minus)[0]
        is_written = digits and (digits == b"0" or digits[:1] != b"0") and len(digits) <= LONGEST
        number = int(digits) if is_written else 0
        is_allowed = number or (self.has_zero and not minus)
        if not is_written or not is_allowed or not self.low <= (-number if minus else number) <= self.high:
            raise Stop(at, "Number")
        return at + minus + len(digits)

    def order(self, document):
        return int(document)


def spelled(text, is_number, at):
    """Where a number with this text ends, if it is one."""
    if not is_number:
        raise Stop(at, "Number")
    return at + len(text)


class Float:
    def __init__(self, width):
        self.width = width

    def taken(self, texts, at, _blocks):
        text = FLOAT_BYTES.match(texts.data, at)[0].decode()
        return spelled(text, 0 < len(text) <= LONGEST_FLOAT and floats.reads(text, self.width) is not None, at)


def is_decimal(text):
    found = len(text) <= LONGEST + MOST_PLACES and DECIMAL.fullmatch(text)
    if not found or len(found[3] or "") > MOST_PLACES:
        return False
    value = int(text.replace(".", ""))
    return -(2**63) <= value < 2**63 and (value != 0 or not found[1])


class Decimal:
    """A signed number of 64 bits, with a point before its last digits, if there is one."""

    def taken(self, texts, at, _blocks):
        text = DECIMAL_BYTES.match(texts.data, at)[0].decode()
        return spelled(text, is_decimal(text), at)


class Quoted:
    def __init__(self, quote):
        self.quote = quote

    def taken(self, texts, at, _blocks):
        end = texts.quoted_end(self.quote.encode(), at)
        if end is None:
            raise Stop(at, "Text" if self.quote == '"' else "Character")
        return end

    def order(self, document):
        return unquoted(document).encode()


class Choice:
    """One of some leaves, or of some tuples with a value: `Less`, `None`, `Some(x)`, `Ok(x)`, `()`. Those that are listed are
    found by their letters alone, and others if the name is over there."""

    def __init__(self, leaves, by_letters=(), **variants):
        self.leaves, self.by_letters, self.variants = leaves, by_letters, variants
        self.names = [*leaves, *variants]

    def taken(self, texts, at, blocks):
        for name, data in zip(self.names, map(str.encode, self.names)):
            if texts.data.startswith(data, at) if name in self.by_letters else texts.is_named(data, at):
                fields = Fields("tuple", name, [(None, self.variants.get(name))])
                return at + len(data) if name in self.leaves else fields.taken(texts, at, blocks)
        raise Stop(at, "Name" if self.names[0].isalpha() else "Punctuation")

    def order(self, document):
        if isinstance(document, str):
            return (self.names.index(document),)
        return self.names.index(document.name), self.variants[document.name].order(document.entries[0][1])


class Reversed(Choice):
    """`Reverse(n)` of numbers, in the opposite order."""

    def __init__(self, number):
        super().__init__((), ("Reverse",), Reverse=number)

    def order(self, document):
        return -super().order(document)[1]


class List:
    """A list of values: of one length, if there is one."""

    def __init__(self, value, length=None):
        self.value, self.length = value, length

    def taken(self, texts, at, blocks):
        count, end = texts.entries("list", lambda at, inner: self.value.taken(texts, at, inner), at, blocks)
        if self.length is not None and count != self.length:
            raise Stop(at, "Count")
        return end

    def order(self, document):
        return [self.value.order(value) for _none, value in document.entries]


class Fields:
    """A struct, or a tuple if the fields have no names."""

    def __init__(self, kind, name, fields):
        self.kind, self.name, self.fields = kind, name, fields

    def taken(self, texts, at, blocks):
        return texts.fields(self, at, blocks)


class Keyed:
    """A set, or a map if there is a type of values. The keys ascend."""

    def __init__(self, key, value=None):
        self.key, self.value = key, value

    def taken(self, texts, at, blocks):
        orders = []

        def entry(at, inner):
            key = self.key.taken(texts, at, inner)
            orders.append(self.key.order(texts.document(at, key, inner)))
            return self.value.taken(texts, texts.piece(b": ", key), inner) if self.value else key

        _count, end = texts.entries("map" if self.value else "set", entry, at, blocks)
        if not all(map(operator.lt, orders, orders[1:])):
            raise Stop(at, "Order")
        return end


def word(*words):
    return Choice(words, words)


def option(value):
    return Choice(("None",), ("None", "Some"), Some=value)


SIZE = Number(0, 2**64 - 1)
# These have values of their own type in them.
TREE, NODE = (Fields("struct", name, []) for name in ("Tree", "Node"))
TREE.fields += [("size", SIZE), ("children", List(TREE))]
NODE.fields += [("value", SIZE), ("next", option(NODE))]
