"""The cases that `x try c` tries. What they expect comes from outside: rustc's texts in tools/data/c/rows.tsv, xxd's dumps in
tools/data/rows, the texts of values that rustc printed in tools/expected/rows.txt, a table of fields as a reader sees them in tools/data/c/fields.txt, a
table of what is refused, and for all else the models of calls.py."""
import itertools

from lib import data as tables
from lib.c.calls import CALLS, MOST_DECIMALS, NAN, SIZE_MAX, SIZES, STYLES, Case, wanted
from lib.expected.step import rows as printed_rows
from lib.floats import patterns
from lib.model import floats
from lib.programs.cases import filled
from lib.rows import step as rows

TEXTS = {part: [tables.data_of(row) for row in rows] for part, rows in tables.parts("c/texts.txt").items()}
# Texts that no value prints, and some that are refused by token texts only; and such that aren't UTF-8.
REFUSED, NOT_TEXTS = TEXTS["refused"], TEXTS["no UTF-8"]
UNQUOTE = ("unquote", "unquote_debug")
# What a byte of a text is changed to.
CHANGED = (0x20, 0x22, 0x2C, 0x7F, 0xFF)


def style(name, *members):
    return (SIZES[name], *members)


def arguments(call, words, has_sizes=False, texts=()):
    """The arguments that these words are, which may name texts. A struct has its size first, or gets it here."""
    left, found = iter(words), []
    for kind in CALLS[call]:
        if kind in STYLES:
            members = [int(next(left)) for _ in STYLES[kind][not has_sizes :]]
            found.append(tuple(members) if has_sizes else style(kind, *members))
        elif kind not in ("buffer", "number"):
            found.append(filled(texts, next(left)) if kind in ("bytes", "text") else int(next(left)))
    if list(left):
        raise ValueError("a row of %s has more words: %s" % (call, words))
    return tuple(found)


def stored():
    """The rows of tools/data/c/rows.tsv, and each row of `quote` and of a whole number turned round."""
    for line in (tables.DATA / "c" / "rows.tsv").read_text().splitlines()[1:]:
        request, text = line.split(" = ")
        call, *words = request.split(" ")
        given, whole = arguments(call, words), tables.data_of(text)
        yield Case(call, given, result=int(text)) if call == "first_difference" else Case(call, given, text=whole)
        if call == "quote":
            yield from (Case(unquote, (whole,), text=given[0]) for unquote in UNQUOTE)
        elif call in ("unsigned", "signed"):
            yield Case("parse_" + call, (whole,), result=0, number=given[0])


def dumps():
    """The dumps of tools/data/rows."""
    for row in tables.rows_with_places():
        for it, has_offsets, text in rows.dumps(row.words[1:], row.cells) if row.words[0] == "xxd" else ():
            options = style("dump", it.per_row, it.group, it.offset, has_offsets, it.ascii)
            yield Case("dump", (it.payload, options), text=text.encode())


def refusals():
    """The rows of tools/data/c/refused.txt."""
    for row in (tables.DATA / "c" / "refused.txt").read_text().splitlines():
        if row and not row.startswith("# "):
            (call, *words), (result, *detail) = (part.split(" ") for part in row.split(" = "))
            refused = {"result": int(result), "detail": int(detail[0]) if detail else None}
            yield Case(call, arguments(call, words, has_sizes=True), **refused)


def cut(text):
    return [text[:at] for at in range(len(text))]


def with_bytes(text, changed=CHANGED):
    return [text[:at] + bytes([byte]) + text[at + 1 :] for at in range(len(text)) for byte in changed]


def conversions():
    """Each text of a value, in both modes and classes; texts that are none; deep ones; and one with each byte changed."""
    printed, nested = printed_rows(), [b"[" * depth + b"1" + b"]" * depth for depth in (1, 20, 255, 256)]
    others = REFUSED + nested + with_bytes(b'P { x: ("a", [1, -2]) }')
    texts = [row.plain.encode() for row in printed] + others, [row.pretty.encode() for row in printed] + others
    for text_class, mode in itertools.product((0, 1), repeat=2):
        for text in texts[mode]:
            yield wanted("is_text", text_class, mode, text)
            yield wanted("convert", text_class, 1 - mode, text)


# A text has at most 255 brackets around a leaf.
DEEP = (254, 255, 256, 300)


def fields():
    """The table of fields; lines that are cut, or longer, or have one byte changed; lines with many brackets; names that aren't UTF-8."""
    table, asked = tables.parts("c/fields.txt"), []
    for text_class, row in ((text_class, row) for text_class, part in enumerate(("token", "debug")) for row in table[part]):
        line, name, *found = map(tables.data_of, row.split(" => "))
        case = wanted("field", text_class, line, name)
        yield case._replace(result=len(found[0])) if found else case._replace(result=-1, detail=None)
        asked += [(line + end, name) for end in (b"", b" ", b"\xff", b" S { %s: -1 }" % name)]
    for line, name in ((b"at [1]: P { x: 7, y: \"a\", .. } {", b"x"), (b"f(2) Q { z: (1, 2), y: -2 }", b"y")):
        asked += [(changed, name) for changed in cut(line) + with_bytes(line)]
    # The text is in the line before the field, too: the place is the field's.
    asked.append((b"1: S { y: 1, x: 1 }, x: 1", b"x"))
    asked += [(b"S { " + name + b": 1 }", name) for name in NOT_TEXTS]
    yield from (wanted("field", text_class, *its) for its in asked for text_class in (0, 1))
    for opened in (b"[", b"(", b"{", b"a(", b"A { x: ", b"[S { x: 1 }, "):
        for count in (20, *DEEP) if opened == b"[" else (20, 40):
            ends = (b"", b"]", b" S { x: 1 }", b"1" + b"]" * count)
            yield from (wanted("field", 1, opened * count + end, b"x") for end in ends)


def misquoted():
    """Inputs that are texts in quotation marks or nearly so: cut, longer, or with one byte changed."""
    whole, wide = '"a\\n\\u{1b}é\\"\\\\z"'.encode(), '"\u00e9\u4e2d\U0001f980\\0"'.encode()
    inputs = REFUSED + [b'"' + text + end for text in NOT_TEXTS for end in (b'"', b"", b"\\q", b'\\n"', b'"x')]
    inputs += [b'"\\%s"' % escape for escape in TEXTS["escapes"]]
    inputs += [*cut(whole), whole + b"x", whole + whole, *with_bytes(whole, (0x00, 0x22, 0x5C, 0x7F, 0xFF))]
    inputs += [front + end for front in cut(wide) for end in (b"", b'"', b"a", b"\\u{200b}", b"\xff")]
    return [wanted(call, text) for text in inputs for call in UNQUOTE]


def misread():
    """Inputs that aren't the digits of a number, and where a number ends that is at their front."""
    rests = (b"", b" ", b",", b"}", b"]", b" }", b": 1", b"x", b"0", b"\xff", b"\0", b"1" * 40)
    inputs = REFUSED + TEXTS["no whole numbers"] + [number + rest for number in TEXTS["whole numbers"] for rest in rests]
    return [wanted(call, text) for text in inputs for call in ("parse_unsigned", "parse_signed")]


# The bits of floats: published hard cases for shortest digits, with both signs, zeros, infinities and NaN.
SIGN = 1 << 63
FLOATS = [bits ^ sign for bits in (*patterns.hard(64), 0, 1, 0x7FF0 << 48) for sign in (0, SIGN)] + [NAN, NAN | SIGN, NAN + 1]


def floats_both_ways():
    yield from (wanted("float", bits) for bits in FLOATS)
    texts = [floats.debug(bits, 64).encode() + rest for bits in FLOATS for rest in (b"", b",", b" }", b"x", b"0", b"\xff")]
    yield from (wanted("parse_float", text) for text in texts + REFUSED + TEXTS["no floats"])


# Widths and counts past what any buffer has, and small ones.
HUGE = (2**62, 2**63 - 1, 2**63, 2**63 + 1, SIZE_MAX - 1, SIZE_MAX)
NEAR = (*range(12), *range(60, 82), *range(124, 140), 190, 191, 192, 193, 194, 260, 300)
DECIMALS = (*HUGE, 0, 1, 2, 16, 17, 18, 19, 63, 64, 65, MOST_DECIMALS - 1, MOST_DECIMALS, MOST_DECIMALS + 1, 2000)
DUMPED = (b"", b"a", bytes(range(0x60, 0x85)), bytes(range(256)) * 2)


def huge_options():
    """Each option of each call where a text may be longer than any buffer, up to the largest number."""
    product = itertools.product
    forms = product((0, 7, 2**63, SIZE_MAX), (0, 32, 48, 127), ((0, 0), (0, 1), (1, 1)))
    for call, (number, pad, form) in product(("hexadecimal", "binary"), list(forms)):
        widths = HUGE + (NEAR if number != 7 and pad in (32, 48) else ())
        yield from (wanted(call, number, style("hex", width, pad, *form)) for width in widths)
    yield from (wanted("float_fixed", *its) for its in product(FLOATS, DECIMALS))
    fills = (0, *map(ord, " 0\u00e9\u20ac\U0010ffff"))
    for text, fill, align, width in product(("", "a", "\u00e9\u20ac", "a\U0001f980" * 15), fills, (0, 1, 2), HUGE + NEAR):
        yield wanted("in_column", text.encode(), style("column", width, fill, align))
    for text, per_row in ((text, per_row) for text in DUMPED for per_row in (0, 3, 32, 33, *HUGE, *(NEAR if len(text) == 1 else ()))):
        for group, form in product((0, 1, 5, *HUGE), ((0, 0, 0), (0, 0, 1), (0xFFFFFFFF, 1, 1))):
            yield wanted("dump", text, style("dump", per_row, group, *form))


def all_cases():
    """Every case, but for those with huge options."""
    tabled = [*stored(), *dumps(), *conversions(), *fields(), *refusals(), wanted("version")]
    return [*tabled, *misquoted(), *misread(), *floats_both_ways()]
