"""Characters of each class, byte order marks and other encodings, in each place of a text."""
from lib import data
from lib.model.document import Block, list_of, plain, pretty, quoted

TABLES = data.parts("texts/characters.txt")
ENDS = [int(end, 16) for row in TABLES["ends"] for ends in row.split() for end in ends.split("-")]
SINGLE = [int(code, 16) for row in TABLES["single"] for code in row.split()]
NO_UTF_8 = [data.data_of(row) for row in TABLES["no UTF-8"]]
MARK = "\ufeff"
ENCODINGS = ("utf-16-le", "utf-16-be", "utf-16", "utf-32-le", "utf-32-be", "utf-32")
SAMPLES = ('[x, "y"]', '[\n    x,\n    "y",\n]', "Node { value: 1 }", "x", '"x"', "'x'", "()", "{a: (1,)}")
# How many characters are in one text.
CHARACTERS_EACH = 32_768


def is_scalar(code):
    return not 0xD800 <= code <= 0xDFFF


# The codes of each class: in each plane the first, one within, the last and the two before it.
OF_PLANES = {(plane << 16) + low for plane in range(17) for low in (0, 0x1234, 0x8000, 0xFFFD, 0xFFFE, 0xFFFF)}
CODES = sorted(filter(is_scalar, {*OF_PLANES, *ENDS, *SINGLE, *range(128)}))


def any_character(random):
    """A character of any class, or any at all."""
    if random.random() < 0.7:
        return chr(random.choice(CODES))
    code = random.randrange(1 << random.randrange(1, 21)) % 0x110000
    return chr(code if is_scalar(code) else 0xFFFD)


def placed(character):
    """Texts with the character first, in the middle and last, between quotes and without them."""
    words = character, character + "a", "a" + character, "a" + character + "a"
    row = [*map(quoted, words), quoted(character, "'"), quoted(2 * character + "a"), quoted("a" + 2 * character)]
    document = Block("struct", "S", [("f%d" % number, leaf) for number, leaf in enumerate(row)])
    keyed = Block("map", "", [(leaf, list_of(leaf)) for leaf in row])
    yield from (plain(document), pretty(keyed), quoted(character), quoted(character, "'"))
    for word in words:
        yield from (word, "[%s]" % word, word + "(1)", "S { %s: 1 }" % word, '"%s"' % word, "'%s'" % word)
    for sample in SAMPLES[:3]:
        yield from (character + sample, sample + character)
    for between in ("[x,%s y]", "[x%s, y]", "[%sx, y]", "[x, y%s]", "[\n%s    x,\n]", "[%s\n    x,\n]", "[\n    x,%s\n]", "S { f:%s 1 }"):
        yield between % character


def marked():
    """Byte order marks before, in and after texts, and texts in other encodings."""
    for sample in SAMPLES:
        for mark in (MARK, 2 * MARK, "\ufffe", "\x00", "\u2060", "\u200e"):
            yield from (text.encode() for text in (mark + sample, sample + mark, sample[:1] + mark + sample[1:]))
        yield from (text.encode(encoding) for encoding in ENCODINGS for text in (sample, MARK + sample))
        yield sample.encode("utf-16-le")[:-1]
        yield "".join(character + "\x00" for character in sample).encode()
        yield sample.encode() + b"\x00\x00\x00"
    yield from (MARK.encode()[:length] for length in (1, 2, 3))


def no_utf_8():
    """Such bytes alone, and before, in and after texts."""
    for wrong in (*NO_UTF_8, *(bytes([byte]) for byte in range(0x80, 0x100))):
        for before, after in ((b"", b""), (b'"', b'"'), (b'"a', b'b"'), (b"'", b"'"), (b"[x, ", b"]"), (b"", b"x"), (b"x", b""), (b'["', b'"]')):
            yield before + wrong + after


def scalars(each):
    rows = ([*map(chr, filter(is_scalar, range(start, start + each)))] for start in range(0, 0x110000, each))
    return filter(None, rows)


def each_by_itself():
    return (plain(list_of(*(quoted(character, "'") for character in row))) for row in scalars(4096))


def texts():
    yield from map(str.encode, dict.fromkeys(text for code in CODES for text in placed(chr(code))))
    yield from marked()
    yield from no_utf_8()
    yield from (quoted("".join(row)).encode() for row in scalars(CHARACTERS_EACH))
