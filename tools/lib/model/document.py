"""The model's documents: a leaf is a `str`, and any other document is a Block. Here are their plain and pretty texts, the leaves in
quotes, and the pieces that a writer is passed."""
import functools
import re
import sys
import zlib
from collections import namedtuple

from lib.data import LETTERS

# A document is as deep as calls for it.
sys.setrecursionlimit(20_000)

# How deep blocks with entries are nested at most.
DEEPEST = 255
INDENT = "    "
# A list, a set, a map, a struct, an open struct or a tuple. An open struct ends in two dots.
#
# An entry is a pair: what is before the colon, and a document. Before the colon a map has a document, and a struct of either
# kind has a name. The other kinds have None.
Block = namedtuple("Block", "kind name entries")


def decoded(data):
    return data.decode(errors="surrogateescape")


def encoded(text):
    return text.encode(errors="surrogateescape")


def list_of(*values):
    return Block("list", "", [(None, value) for value in values])


def tuple_of(*values, name=""):
    return Block("tuple", name, [(None, value) for value in values])


# ---- The layout of blocks: what opens a block after its name, and what closes it.

# The kinds of blocks with a name before each value.
STRUCTS = ("struct", "open struct")
OPENING = {"list": "[", "set": "{", "map": "{", "tuple": "(", "struct": " {", "open struct": " {"}
CLOSING = {"list": "]", "set": "}", "map": "}", "tuple": ")", "struct": "}", "open struct": "}"}
PLAIN_CLOSING = {**CLOSING, "struct": " }", "open struct": ", .. }"}
PLAIN_FRAMES = {kind: (mark + " " * (kind in STRUCTS), PLAIN_CLOSING[kind]) for kind, mark in OPENING.items()}
PRETTY_FRAMES = {kind: (mark + "\n", CLOSING[kind]) for kind, mark in OPENING.items()}
# What a block without entries has after its name.
EMPTY = {"list": "[]", "map": "{}", "open struct": " { .. }"}


def plain(document):
    """The plain text. Entries have a comma and a space between them."""
    return "".join(converted(document, False))


def pretty(document, depth=0):
    """The pretty text, in so many blocks: a line for each entry, with a comma, but none after dots."""
    return "".join(converted(document, True, depth))


def is_single(block):
    """Whether it is a tuple with one value and no name, which has a comma in plain text: `(1,)`."""
    return block.kind == "tuple" and block.name == "" and len(block.entries) == 1


def converted(document, is_pretty, depth=0):
    """The pieces in which a conversion to this mode writes a document: a group each, which isn't empty."""
    found = groups(document, is_pretty, depth, [])
    if not is_pretty:
        found = [part for group in found for part in (((", ",), (".. }",)) if group is PLAIN_DOTS else (group,))]
    return [group if isinstance(group, str) else "".join(group) for group in found if group != ("",)]


# ---- Quoted leaves. Each character has one spelling: the first rule in `spelled` that fits it.


def spelled(character, quote):
    """A character as it is written between these quotes."""
    short = {"\0": r"\0", "\t": r"\t", "\n": r"\n", "\r": r"\r", "\\": "\\\\", quote: "\\" + quote}
    return short.get(character) or ("\\u{%x}" % ord(character) if character < " " or character == "\x7f" else character)


# How each ASCII character is written between these quotes. Every other character is written as it is.
SPELLED = {quote: {code: spelled(chr(code), quote) for code in range(128)} for quote in "\"'"}


def quoted(text, quote='"'):
    return quote + text.translate(SPELLED[quote]) + quote


WORD = re.compile(r"[A-Za-z0-9_-]+")
CODE = r"\\u\{(?:[1-8bcef]|1[0-9a-f]|7f)\}"
QUOTED_TEXT = re.compile(r'"(?:[^"\\\x00-\x1f\x7f]|\\[0tnr\\"]|' + CODE + r')*"')
QUOTED_CHARACTER = re.compile(r"'(?:[^'\\\x00-\x1f\x7f]|\\[0tnr\\']|" + CODE + r")'")
ESCAPE = re.compile(r"\\u\{([0-9a-f]+)\}|\\(.)")


# Cached, because each type with such a leaf asks for the leaf's text.
@functools.lru_cache(maxsize=64)
def unquoted(leaf):
    """The text between the quotes of a token document's leaf, without escapes. None of another leaf."""
    if leaf[0] not in "\"'" or not (QUOTED_TEXT.fullmatch(leaf) or QUOTED_CHARACTER.fullmatch(leaf)):
        return None
    return ESCAPE.sub(lambda found: chr(int(found[1], 16)) if found[1] else LETTERS.get(found[2], found[2]), leaf[1:-1])


def depth_of(document):
    if isinstance(document, str) or not document.entries:
        return 0
    inside = [each for before, value in document.entries for each in ((before, value) if document.kind == "map" else (value,))]
    return 1 + max(map(depth_of, inside))


# ---- Which pieces a writer is passed.

# A piece is noted as `t` if it should come by `write_str`, or as `c` if it should come by `write_char`; then its bytes, and a byte that
# no text has. Only a name or a leaf can be an empty piece.
#
# A document is printed in these: a bracket or a name with which a block begins; ` {` of a struct and `(` of a tuple with the first entry;
# in plain mode a space before a struct's first field and `, ` between entries; in pretty mode each line feed with the comma before it, and
# each level of indentation; a field's name; `: `; a leaf; what comes before a closing bracket in plain mode, and the bracket. Dots are `,
# ..` in plain mode, and `..` with its line feed in pretty mode; without fields they are one piece with the braces. Of a value a text or a
# character in it is a quote, each escape, each stretch without escapes, which comes by `write_char` in a character, and a quote.
#
# A conversion writes each event of a scan in at most two pieces, which are not empty, as `converted` above has them: a leaf; `[]` or
# `{}`; a block's name, and what opens the block, with the whole indentation of its first entry; a field's name, and `: `; `: ` after a
# key; what separates two entries, with the whole indentation of the second; and what closes a block, in pretty mode a comma, a line feed
# and the whole indentation, and then the bracket. Dots come after what separates two entries, with what closes the block in the same way.
END = b"\xff"
# The end of an open struct in plain mode. A conversion writes it in two pieces, of which the first separates entries.
PLAIN_DOTS = (", ..", " ", "}")


def digest(data):
    adler = zlib.adler32(data)
    return "%d %d %d" % (len(data), adler >> 16, adler & 0xFFFF)


def by_text(*pieces):
    return b"".join([b"t" + piece.encode() + END for piece in pieces])


def by_character(*pieces):
    return b"".join(b"c" + piece.encode() + END for piece in pieces)


def text_of(pieces):
    return b"".join(piece[1:] for piece in pieces.split(END)).decode()


# ---- Printing.

ESCAPES = re.compile(r"(\\u\{[0-9a-f]+\}|\\.)")


@functools.lru_cache(maxsize=64)
def of_value(leaf):
    """The pieces of a value's leaf: of a text or a character in quotes, or of a word."""
    quote = leaf[0]
    if quote not in "\"'":
        return by_text(leaf)
    stretches = [piece for piece in ESCAPES.split(leaf[1:-1]) if piece]
    if quote == "'" and not stretches[0].startswith("\\"):
        return by_text(quote) + by_character(*stretches) + by_text(quote)
    return by_text(quote, *stretches, quote)


def groups(document, is_pretty, depth, out):
    """A leaf as it is, and the pieces of blocks in the groups that a conversion writes at once."""
    if isinstance(document, str):
        out.append(document)
        return out
    kind, name, entries = document
    is_struct = kind in STRUCTS
    has_name = is_struct or kind == "tuple"
    if has_name:
        out.append((name,))
    if not entries:
        # A struct or a tuple is its name alone.
        out += [(EMPTY[kind],)] if kind == "open struct" else [] if has_name else [(OPENING[kind], CLOSING[kind])]
        return out
    inner, outer = (INDENT,) * (depth + 1), (INDENT,) * depth
    between = (OPENING[kind], *(("\n", *inner) if is_pretty else (" ",) * is_struct))
    for before, value in entries:
        out.append(between)
        between = (",\n", *inner) if is_pretty else (", ",)
        if before is not None:
            out += [(before,)] if is_struct else groups(before, is_pretty, depth + 1, [])
            out.append((": ",))
        groups(value, is_pretty, depth + 1, out)
    if is_pretty:
        out += [between, ("..\n", *outer)] if kind == "open struct" else [(",\n", *outer)]
        out.append((CLOSING[kind],))
    else:
        out.append(PLAIN_DOTS if kind == "open struct" else ((" ",) * is_struct or (",",) * is_single(document)) + (CLOSING[kind],))
    return out


def printed(document, is_pretty, of_leaf=by_text, depth=0):
    """The pieces in which a document is printed. `of_leaf` has those of its leaves."""
    return b"".join(of_leaf(group) if isinstance(group, str) else by_text(*group) for group in groups(document, is_pretty, depth, []))


ZEROS = re.compile(r"(-?)(0*)([0-9]+)(?:(\.)(0*)([0-9]+))?")


def with_zeros(text):
    sign, zeros, digits, point, more_zeros, places = (part or "" for part in ZEROS.fullmatch(text).groups())
    before = by_text(*filter(None, [sign])) + by_character("0") * len(zeros) + by_text(digits)
    return before + (by_text(point) + by_character("0") * len(more_zeros) + by_text(places) if point else b"")


# The letter of `Decimal` among the types that are parsed.
DECIMAL = "\u0434"


def of_values(document, is_pretty, letters):
    """The pieces of the values with this document, one of each type with a letter here."""
    if not letters:
        return digest(b"")
    value = printed(document, is_pretty, of_value)
    return digest(b"".join(with_zeros(document) if letter == DECIMAL else value for letter in letters))
