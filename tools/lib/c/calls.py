"""The calls of libufmt_c: what each takes, and what it must return and leave, by models that share no code with the project: those
of texts and of lines in tools/lib/model/ and tools/lib/log_model/, and Python's own decoding of UTF-8."""
import itertools
import re
from collections import namedtuple

from lib import data as tables, top
from lib.log_model import log_model
from lib.model import floats
from lib.model.characters import is_scalar
from lib.model.document import by_text, quoted, text_of
from lib.model.reading import DEBUG, MODES, PRINTERS, READERS, TOKEN
from lib.model.requests import Request, column, dump, in_base

NO_TEXT, FULL, NOT_UTF8, BAD_OPTION = -1, -2, -3, -4
SIGNATURES = tables.rows("c/signatures.txt")
# The kinds of a call's arguments. A struct has its size first, and its members' types.
CALLS = {call: tuple(" ".join(kinds).split()) for call, *kinds in SIGNATURES["calls"]}
STYLES = {name: tuple(kinds.split()) for name, _, kinds in SIGNATURES["structs"]}
SIZES = {name: int(size) for name, size, _ in SIGNATURES["structs"]}
# The options that mean something.
MEANS = {"class": lambda it: it < 2, "mode": lambda it: it < 2, "dump": lambda it: it[0] == SIZES["dump"],
         "hex": lambda it: it[0] == SIZES["hex"] and it[2] < 128,
         "column": lambda it: it[0] == SIZES["column"] and it[2] < 0x110000 and is_scalar(it[2]) and it[3] < 3}
CLASSES = (TOKEN, DEBUG)
NUMBER_SIZE = 8
SIZE_MAX = 2**64 - 1
# The longest buffer with which a text is tried that is longer than any.
FRONT = 64
# A call and its arguments: bytes, numbers, and tuples for structs. It writes a text; or it returns a result and, if that is said, a detail.
# One without a buffer only returns, or leaves a number. Of a text whose length is said, only the front is.
Case = namedtuple("Case", "call arguments text result detail length number", defaults=(None, None, None, None, None))


def has_buffer(case):
    return CALLS[case.call][:1] == ("buffer",)


def kinds_of(call):
    """The kinds of the arguments that a case has."""
    return [kind for kind in CALLS[call] if kind not in ("buffer", "number")]


def valid_up_to(data):
    """How many bytes at the front are UTF-8, by Python's decoder. None if all are."""
    try:
        data.decode()
    except UnicodeDecodeError as error:
        return error.start
    return None


def wanted(call, *given):
    """The case of a call: refused if an option means nothing or a text isn't UTF-8, and else as the model says."""
    pairs = list(zip(kinds_of(call), given))
    if not all(MEANS[kind](value) for kind, value in pairs if kind in MEANS):
        return Case(call, given, result=0 if call == "is_text" else BAD_OPTION)
    for place in (valid_up_to(value) for kind, value in pairs if kind == "text"):
        if place is not None:
            return Case(call, given, result=NOT_UTF8, detail=place)
    return Case(call, given, **MODELS[call](*given))


# ---- What each call leaves, by its arguments.


def version():
    first, second, third = map(int, top.version().split("."))
    return {"result": first * 10_000 + second * 100 + third}


def in_other_mode(text_class, mode, data):
    """The text in the other mode; or None, and where the bytes stop being a text."""
    reader, text = READERS[MODES[mode], CLASSES[text_class].name], data.decode(errors="surrogateescape")
    document = reader.read(text)
    return (None, reader.place(text)) if document is None else (PRINTERS[MODES[1 - mode]](document).encode(), None)


def convert(text_class, to, data):
    text, place = in_other_mode(text_class, 1 - to, data)
    return {"text": text} if text is not None else {"result": NO_TEXT, "detail": place}


def field(text_class, line, name):
    found = log_model.field(CLASSES[text_class], line, name)
    return {"result": NO_TEXT} if found is None else {"result": len(found[1]), "detail": found[0]}


# The digits at the front of an input, and the numbers of each call.
DIGITS = re.compile(rb"-?(?:0|[1-9][0-9]*)(?![0-9])")
UNSIGNED, SIGNED = range(2**64), range(-(2**63), 2**63)
# The bytes of which a float's text can be, as many as are at the front of an input.
FLOAT_FRONT = re.compile(rb"[-0-9.eNainf]*")
NAN = 0x7FF8 << 48


def read(number, end, data):
    """A number that ends here in an input. None if there is none."""
    if number is not None and end == len(data):
        return {"result": 0, "number": number}
    return {"result": NO_TEXT, "detail": end if number is not None else 0}


def integer(numbers, data):
    found = DIGITS.match(data)
    is_number = found and found[0] != b"-0" and int(found[0]) in numbers
    return read(int(found[0]), found.end(), data) if is_number else read(None, 0, data)


def parse_float(data):
    front = FLOAT_FRONT.match(data)[0]
    return read(NAN if front == b"NaN" else floats.reads(front.decode(), 64), len(front), data)


# How a character is spelled between quotation marks, and as Rust prints it, where any may be written by its number.
SPELLED = r'(?:\\(?:[0tnr"\\]|u\{(?:[1-8]|[bcef]|1[0-9a-f]|7f)\})|[^\x00-\x1f"\\\x7f])*'
NUMBERED = r'\\u\{(?!d[89a-f][0-9a-f]{2}\})(?:0|[1-9a-f][0-9a-f]{0,4}|10[0-9a-f]{4})\}'
DEBUG_SPELLED = r'(?:%s|\\[0tnr"\\]|[^\x00-\x1f"\\\x7f])*' % NUMBERED


def unquote(spelled, data):
    """The text in the quotation marks, or how many bytes at the front some such text begins with, in whole characters."""

    def matches(pattern, data):
        return valid_up_to(data) is None and re.fullmatch(pattern, data.decode())

    if not matches('"%s"' % spelled, data):
        begins = [size for size in range(len(data) + 1) if matches('(?:"%s"?)?' % spelled, data[:size])]
        return {"result": NO_TEXT, "detail": begins[-1]}
    text = re.sub(r"\\(?:u\{(\w+)\}|(.))", lambda it: chr(int(it[1], 16)) if it[1] else tables.LETTERS.get(it[2], it[2]), data.decode()[1:-1])
    return {"text": text.encode()}


def in_parts(parts):
    """A text of parts, each with how often it comes: it may be longer than any buffer."""
    return {"text": b"".join(part * min(count, FRONT) for part, count in parts)[:FRONT],
            "length": sum(len(part) * count for part, count in parts)}


def of_runs(runs):
    return in_parts([(text_of(pieces).encode(), count) for pieces, count in runs])


def based(letter, number, style):
    _size, width, pad, upper, prefix = style
    return of_runs(in_base(Request(pad_length=width, pad=pad or 32, upper_case=upper, prefix=prefix), number, 64, letter))


def dumped(data, style):
    _size, per_row, group, first, has_offsets, has_text = style
    offset = first if has_offsets else 2**32
    return of_runs(dump(Request(per_row=per_row, group=group, offset=offset, ascii=has_text, payload=data)))


def in_column(data, style):
    _size, width, fill, align = style
    return of_runs(column(Request(width=width, align=align, fill=fill or 32), by_text(data.decode())))


# No float has more decimals that aren't 0.
MOST_DECIMALS = 1074


def float_fixed(bits, decimals):
    text = floats.fixed(bits, 64, min(decimals, MOST_DECIMALS)).encode()
    return in_parts([(text, 1), (b"0", max(decimals - MOST_DECIMALS, 0) * text[-1:].isdigit())])


def first_difference(given, stored):
    """The number of the first line in which two texts differ, or 0, and the message about it."""
    given, stored = (data.decode().split("\n") for data in (given, stored))
    for number, lines in enumerate(itertools.zip_longest(given, stored), 1):
        if lines[0] != lines[1]:
            shown = ["none" if line is None else quoted(line) for line in lines]
            return number, "line %d differs\n given: %s\nstored: %s" % (number, *shown)
    return 0, ""


MODELS = {
    "version": version,
    "is_text": lambda *given: {"result": int(in_other_mode(*given)[0] is not None)},
    "convert": convert,
    "field": field,
    "parse_unsigned": lambda data: integer(UNSIGNED, data),
    "parse_signed": lambda data: integer(SIGNED, data),
    "parse_float": parse_float,
    "quote": lambda data: {"text": quoted(data.decode()).encode()},
    "unquote": lambda data: unquote(SPELLED, data),
    "unquote_debug": lambda data: unquote(DEBUG_SPELLED, data),
    "unsigned": lambda number: {"text": b"%d" % number},
    "signed": lambda number: {"text": b"%d" % number},
    "float": lambda bits: {"text": floats.debug(bits, 64).encode()},
    "float_fixed": float_fixed,
    "hexadecimal": lambda *given: based("x", *given),
    "binary": lambda *given: based("b", *given),
    "dump": dumped,
    "in_column": in_column,
    "first_difference": lambda *texts: {"result": first_difference(*texts)[0]},
    "difference": lambda *texts: {"text": first_difference(*texts)[1].encode()},
}
