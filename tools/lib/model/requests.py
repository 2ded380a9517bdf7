"""Values that no text makes: columns, numbers with options, dumps, lines, and values of std's types. A request asks the program to
print them to a writer that notes pieces. The rules are those of document.py, and these:

- Before and after a value in a column spaces come by `write_str`, 64 in a piece and last what is left; another fill comes by `write_char`,
  each in a piece of its own.
- A number in a radix is a prefix, if it has one, each pad byte by `write_char`, and the digits; a prefix comes after spaces. A decimal
  number to a width is its sign, each zero by `write_char`, and the digits; with places, then a point, and again zeros and digits.
- A row of a dump is one piece if rows have at most 32 bytes. In a longer row the pieces are the zeros and the digits of the offset; `: `;
  each byte, with the space before it; spaces in place of the bytes that a last row doesn't have, once for each of their digits and once for
  the spaces between their groups; two spaces; the bytes as text, 64 in a piece; and the line feed.
- A number that fits is the bits of a float too; the text of a float is one piece. With a number of decimals it is written to a text first,
  and the program writes that as one piece. A range is its ends and dots between them. A mark of a line adds no pieces. What is between the
  items of a slice is a piece, also if it is empty.
"""
import re
from collections import namedtuple
from decimal import Decimal

from lib.model import floats
from lib.model.document import (Block, by_character, by_text, digest, list_of, of_value, printed, quoted, text_of, tuple_of,
                                with_zeros)
from lib.model.reading import document_of

REQUEST_PREFIX = b"\0pieces "
DEEPEST_LISTS = 260
# The bits of the types of integers, unsigned and signed, in the order of the program.
BITS = (8, 16, 32, 64, 128, 64)


REQUEST = "width align fill upper_case pad pad_length prefix per_row group offset ascii payload"


class Request(namedtuple("Request", REQUEST, defaults=(0, 0, 32, 0, 48, 0, 0, 16, 1, 0, 1, b""))):
    """What is in the first line of a request, and what follows it. An offset past a `u32` is none."""

    def data(self):
        return REQUEST_PREFIX + b" ".join(b"%d" % number for number in self[:-1]) + b"\n" + self.payload


def asked(data):
    line, payload = data[len(REQUEST_PREFIX) :].split(b"\n", 1)
    return Request(*map(int, line.split()), payload)


# ---- Lines, columns and hexadecimal texts. Runs are pieces, each with how often it comes in a row: an option may be huge.


def joined(runs):
    return b"".join(piece * count for piece, count in runs)


def spaces(count):
    """So many spaces in pieces of 64, and last what is left."""
    return [(by_text(" " * 64), count // 64), (by_text(" " * (count % 64)), int(count % 64 > 0))]


def column(request, pieces):
    """What a column has around pieces, and these, as runs."""
    missing = max(request.width - len(text_of(pieces)), 0)
    before = (0, missing // 2, missing)[min(request.align, 2)]

    def filled(count):
        return spaces(count) if request.fill == 32 else [(by_character(chr(request.fill)), count)]

    return [*filled(before), (pieces, 1), *filled(missing - before)]


def in_column(request, pieces):
    return joined(column(request, pieces))


def padded(request, digits, letter="x"):
    """A text with its prefix and padding, as runs."""
    prefix = ("0X" if letter == "x" and request.upper_case else "0" + letter) if request.prefix else ""
    padding = by_character(chr(request.pad)), max(request.pad_length - len(prefix) - len(digits.encode()), 0)
    first = by_text(prefix), len(prefix) > 0
    return [*((padding, first) if request.pad == 32 else (first, padding)), (by_text(digits), 1)]


def in_base(request, number, bits, letter="x"):
    digits = format(number % 2**bits, letter)
    return padded(request, digits.upper() if request.upper_case else digits, letter)


def hexadecimal(*how):
    return joined(in_base(*how))


def with_places(number, places, width):
    exact = Decimal((int(number < 0), tuple(map(int, str(abs(number)))), -places))
    return with_zeros(format(exact, "0%df" % width if width else "f"))


def lines(request, text):
    """Lines by `pieces!`, a line by `uwrite!` and `uwriteln!`, and that line in a list in pretty mode."""
    in_a_list = by_text("[", "\n", "    ") + written_line(request, text, True, 1) + by_text(",\n", "]")
    return plain_line(request, text) + line_of_each(request, text) + written_line(request, text, False, 0) + in_a_list


def plain_line(request, text):
    length = hexadecimal(request, len(text.encode()), 64)
    leaf, whole = quoted(text), by_text(text)
    pair = tuple_of(leaf, "()")
    pieces = printed(pair, True, of_value)
    columns = [whole, of_value(leaf), pieces, length, by_character("!")]
    return b"".join([whole * 2, *columns[1:4], *(in_column(request, each) for each in columns)])


def line_of_each(request, text):
    zero, greatest = (hexadecimal(request, number, 32) for number in (0, 255))
    leaves = [of_value(quoted(item)) for item in (text, "", "x")]
    between = by_text(text)
    out = [by_text(text, text, "", text, "x"), by_text("").join(leaves), between.join(leaves), zero + between + greatest]
    out.append(between.join(in_column(request, by_text(item)) for item in (text, "", "x")))
    out.append(by_text(", ").join(in_column(request, number) for number in (zero, greatest)))
    return b"".join(out)


def written_line(request, text, is_pretty, depth):
    length = hexadecimal(request, len(text.encode()), 64)
    leaf, whole = quoted(text), by_text(text)
    pair, single = tuple_of(leaf, "'c'"), tuple_of(leaf)
    pieces = printed(pair, is_pretty, of_value, depth)
    out = [whole * 2, pieces, printed(single, True, of_value, depth), length]
    out += [hexadecimal(request, len(text.encode()), 64, letter) for letter in "bo"]
    out += [with_zeros(format(len(text.encode()), "0%dd" % request.width))]
    out += [*(in_column(request, each) for each in (whole, pieces, length)), by_text("\n")]
    return b"".join(out)


# ---- Names and numbers.


class Written(str):
    """A leaf that a caller writes by `write_str`."""


def of_leaf(leaf):
    return by_text(leaf) if isinstance(leaf, Written) else of_value(leaf)


def names(name):
    leaf, written = quoted(name), Written(name)
    blocks = [Block(kind, name, [(name if kind == "struct" else None, leaf)] * count) for kind in ("struct", "tuple") for count in (0, 1, 3)]
    blocks += [list_of(leaf, written), Block("map", "", [(leaf, leaf), (written, written)])]
    both = [(name, leaf), (name, written)]
    blocks += [Block("struct", name, both), tuple_of(leaf, written, name=name)]
    blocks += [Block("open struct", name, fields) for fields in ([], both[:1], both)]
    return b"".join(printed(block, is_pretty, of_leaf) for is_pretty in (False, True) for block in blocks)


NUMBER = re.compile(r"0|-?[1-9][0-9]*")


def numbers(request, text):
    out = [joined(padded(request, text))]
    if not NUMBER.fullmatch(text):
        return out[0]
    number = int(text)

    def add(low, high, bits, count):
        if low <= number <= high:
            pieces = by_text(str(number)) * 3
            pieces += b"".join(hexadecimal(request, number, bits, letter) for letter in "xbo")
            out.append((pieces + with_zeros(format(number, "0%dd" % request.pad_length))) * count)

    for bits in BITS:
        add(0, 2**bits - 1, bits, 2 if number else 1)
    for bits in BITS:
        add(-(2 ** (bits - 1)), 2 ** (bits - 1) - 1, bits, 2 if number else 1)
    add(0, 2**32 - 1, 32, 1)
    add(-(2**63), 2**63 - 1, 64, 1)
    if -(2**63) <= number <= 2**63 - 1:
        out += [with_places(number, request.pad, width) for width in (0, 0, request.pad_length)]
    for width in (32, 64):
        if 0 <= number < 2**width:
            out.append(by_text(floats.debug(number, width)) * 2 + by_text(floats.display(number, width), floats.fixed(number, width, request.pad_length)))
    return b"".join(out)


# ---- Values of std's types.


def in_both_modes(document):
    """The pieces by `uDebug` in each mode."""
    return printed(document, False, of_value) + printed(document, True, of_value)


# Documents of small types and of collections of a leaf `x`.
SMALL_TYPES = ("[Some(x), None]", "[Ok(x), Err('c')]", "Reverse(x)", "[Less, Equal, Greater]",
               "[Included(x), Excluded(x), Unbounded]", "Break(x)", "Continue(x)", "Cell { value: x }",
               "RefCell { value: <borrowed> }")
COLLECTIONS = (*["[x, x, x]"] * 5, "{}", "{x}", "{x}", "{}", "{x: 7}", "{x: 7}")


def with_leaf(document, leaf):
    if isinstance(document, str):
        return leaf if document == "x" else document
    entries = [(leaf if before == "x" else before, with_leaf(value, leaf)) for before, value in document.entries]
    return document._replace(entries=entries)


def ranges(leaf, length):
    end, number = of_value(leaf), by_text(str(length))
    dots, inclusive = by_text(".."), by_text("..=")
    each = (end + dots + end, number + inclusive + number, end + dots, dots + end, inclusive + end, dots)
    return b"".join(pieces * 2 for pieces in each)


def values(text):
    leaf = quoted(text)
    out = [in_both_modes(quoted(character, "'")) + by_character(character) for character in text[:16]]
    out += [in_both_modes(word) + by_text(word) for word in ("true", "false")]
    small, collections = ([in_both_modes(with_leaf(document_of(row), leaf)) for row in rows] for rows in (SMALL_TYPES, COLLECTIONS))
    shown = in_both_modes(leaf) + by_text(text)
    return b"".join([shown * 7, *out, *small, ranges(leaf, len(text.encode())), *collections, shown * 5])


def nested(request, text):
    depth = min(request.width, DEEPEST_LISTS)
    indents = [by_text("    ") * min(level, 255) for level in range(depth + 1)]
    before = b"".join(by_text("[", "\n") + indent for indent in indents[1:])
    after = b"".join(by_text(",\n") + indent + by_text("]") for indent in indents[:-1][::-1])
    return by_text("[") * depth + by_text(text) + by_text("]") * depth + before + by_text(text) + after


# ---- Dumps of bytes.


def dump(request):
    per_row = request.per_row or 16
    rows = range(0, len(request.payload), per_row)
    return [run for at in rows for run in row_runs(request, at, request.payload[at : at + per_row])]


def row_runs(request, at, row):
    """The pieces of a row, as runs. A short row is one piece, which has the text of all of them."""
    per_row = request.per_row or 16
    group = request.group or per_row
    pieces = []
    if request.offset < 2**32:
        digits = "%x" % (request.offset + at)
        pieces += [piece for piece in ("0" * (8 - len(digits)), digits) if piece] + [": "]
    pieces += [" " * (number > 0 and number % group == 0) + "%02x" % byte for number, byte in enumerate(row)]
    runs = [(by_text(*pieces), 1)]
    if request.ascii:
        missing = per_row - len(row)
        for count in (missing, missing, (per_row - 1) // group - (len(row) - 1) // group):
            runs += spaces(count)
        text = "".join(chr(byte) if 32 <= byte < 127 else "." for byte in row)
        runs.append((by_text("  ", *(text[start : start + 64] for start in range(0, len(text), 64))), 1))
    runs.append((by_text("\n"), 1))
    return runs if per_row > 32 else [(by_text(text_of(joined(runs))), 1)]


# ---- The line of a request.


def verdict(data):
    """The line that the program prints of a request."""
    request = asked(data)
    line = "request: dump %s" % digest(joined(dump(request)))
    try:
        text = request.payload.decode()
    except UnicodeDecodeError:
        return line
    said = {"lines": lines(request, text), "names": names(text), "numbers": numbers(request, text), "values": values(text),
            "nested": nested(request, text)}
    return ", ".join([line, *("%s %s" % (name, digest(pieces)) for name, pieces in said.items())])
