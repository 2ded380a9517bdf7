"""Compares the rows of tools/data/rows with what the model says, and what the built probe_model says of each row's text with all that the
model says of it. Where `xxd` is on the machine it prints the dumps again.

A row is a text with what rustc, xxd or a hand made of it: its other text, its pieces, the value that it is, the place where it stops to be one.
"""
import concurrent.futures
import itertools
import re
import shutil
import subprocess

from lib import data, needs
from lib.data import rows_with_places
from lib.findings import case, ended
from lib.floats.patterns import bits_of
from lib.model import floats, places, step, types
from lib.model.document import END, Block, by_text, decoded, encoded, list_of, quoted, text_of, tuple_of, with_zeros
from lib.model.reading import DEBUG, MODES, OTHER, PRINTERS, READERS, TOKEN, converted
from lib.model.requests import Request, dump, hexadecimal, in_column, joined, numbers, with_places
from lib.model.verdicts import events, field_text, kinds, own_text, parts

# ---- Rows of values that a part's formats print: `{:#010b}|` and so on, as a format of Rust has them.

SPEC = re.compile(r"\{:?(?:(.)([<^>]))?(#?)(0?)(\d*)(?:\.(\d+))?([xXbo?]?)\}")
ALIGNS = "<^>"
BITS = re.compile(r"(?:NonZero)?[iuIU](\d+|size)")


def number(request, spec, kind, value):
    _fill, _align, _prefix, _zero, width, _decimals, letter = spec.groups()
    if letter in ("x", "X", "b", "o"):
        size = BITS.fullmatch(kind)[1]
        return text_of(hexadecimal(request, int(value), 64 if size == "size" else int(size), letter.lower()))
    return text_of(with_zeros(format(int(value), "0%dd" % int(width or 0)) if width else value))


def request_for(spec, kind, value):
    """The request for a value by a format, and the text that the model says."""
    fill, align, prefix, zero, width, decimals, letter = spec.groups()
    request = Request(width=int(width or 0), pad=48 if zero else 32, pad_length=int(width or 0), prefix=int(bool(prefix)), upper_case=int(letter == "X"),
                      payload=value.encode())
    if kind == "str":
        request = request._replace(align=ALIGNS.index(align or "<"), fill=ord(fill or " "))
        return request, text_of(in_column(request, by_text(value)))
    if kind in ("f32", "f64"):
        size = int(kind[1:])
        bits = bits_of(value, size)
        request = request._replace(payload=b"%d" % bits, pad_length=int(decimals or 0))
        if decimals:
            return request, floats.fixed(bits, size, int(decimals))
        return request, (floats.debug if letter == "?" else floats.display)(bits, size)
    if kind == "Decimal":
        digits, _, places = value.partition("e-")
        request = request._replace(pad=int(places), payload=digits.encode())
        return request, text_of(with_places(int(digits), int(places), int(width or 0)))
    if kind == "char":
        return request, quoted(value, "'") if letter == "?" else value
    return request, number(request, spec, kind, value)


def formats(words, cells):
    """A value by each format of the part, and what stands between them."""
    kind, value, wanted = cells
    answers = [request_for(spec, kind, value) for spec in SPEC.finditer(" ".join(words))]
    texts = iter(text for _request, text in answers)
    whole = SPEC.sub(lambda _spec: next(texts), " ".join(words))
    for request, _text in answers:
        yield request.data(), wanted, whole


def number_around(_words, cells):
    """A number, its neighbours, and the same with the other sign: the text of each is its digits."""
    for value in sorted({sign * (int(cells[0]) + more) for sign in (-1, 1) for more in (-1, 0, 1)}):
        request = Request(payload=b"%d" % value)
        yield request.data(), "%d" % value, text_of(numbers(request, "%d" % value).split(END, 2)[1] + END)


# What a word of `xxd` asks for.
OPTIONS = {"-c": "per_row", "-g": "group", "-o": "offset"}


def dumps(words, cells):
    """Requests for the dump of bytes, in hexadecimal digits, whether it has offsets, and the dump as `xxd` prints it with the words of
    the part; and without its offsets, and without its texts."""
    options = dict({"per_row": 16, "group": 2}, **{OPTIONS[word[:2]]: int(word[2:], 0) for word in words})
    for request in alike(Request(payload=bytes.fromhex(cells[0]), **options)):
        for has_offsets, has_texts in itertools.product((1, 0), repeat=2):
            yield request._replace(ascii=has_texts), has_offsets, columns(cells[1], has_offsets, has_texts)


def dumped(words, cells):
    for request, has_offsets, wanted in dumps(words, cells):
        request = request if has_offsets else request._replace(offset=2**32)
        yield request.data(), wanted, text_of(joined(dump(request)))


def alike(request):
    """This request, and others whose dump has the same rows: 0 bytes a row are 16, and a group as long as a row is the whole row."""
    yield request
    if request.per_row == 16:
        yield request._replace(per_row=0)
    if request.group == 0:
        yield from (request._replace(group=request.per_row + more) for more in (0, 4))


def columns(text, has_offsets, has_texts):
    """A dump with these columns alone."""
    rows = []
    for row in text.splitlines():
        offset, rest = row.split(": ", 1)
        rows.append((offset + ": " if has_offsets else "") + (rest if has_texts else rest.split("  ", 1)[0]) + "\n")
    return "".join(rows)


# ---- What a row can ask. A question yields texts for the program, each with what the row wants of it and what the model says.

# All that the program says of such a text is compared with all that the model says of it. So where the row wants what the model says, the
# program does what the row wants.

# Where a leaf stands: by itself, in a list, as the key of a map, in a struct.
AROUND = (("plain", "%s"), ("pretty", "%s"), ("plain", "[%s]"), ("pretty", "[\n    %s,\n]"), ("plain", "{%s: v}"), ("pretty", "{\n    %s: v,\n}"),
          ("plain", "S { a: %s }"), ("pretty", "S {\n    a: %s,\n}"))
VALUE = "a value"
# The types that the program parses, by their names.
TYPES = {row[2:]: types.TYPES[row[0]] for row in data.parts("texts/types.txt")["types"]}


def or_nothing(found):
    return "nothing" if found is None else found


def both_texts(words, cells):
    for mode, text, other in zip(MODES, cells, reversed(cells)):
        yield text, other, or_nothing(converted(mode, *words, text))


def stop(words, cells):
    """What is no text, with a bar where it stops to be one."""
    barred, reader = encoded(cells[0]), READERS[tuple(words)]
    text = decoded(barred.replace(b"|", b""))
    document, place = reader.read(text), reader.place(text)
    found = encoded(text)[:place] + b"|" + encoded(text)[place:] if document is None else b"a text"
    yield text, cells[0], decoded(found)


def leaf(words, cells):
    for mode, around in AROUND:
        text = around.replace("%s", cells[0])
        yield text, " ".join(words[1:]), "is refused" if converted(mode, words[0], text) is None else "is read"


def beginnings(words, cells):
    """Each beginning of a text: of its name a leaf, and then no text."""
    text, name = cells
    for size in range(len(text)):
        yield text[:size], str(0 < size <= len(name)), str(READERS[tuple(words)].read(text[:size]) == text[:size])


def unended(words, cells):
    count = int(cells[0])
    text = "[" * count if words[0] == "plain" else "".join("    " * blocks + "[\n" for blocks in range(count))
    yield text, "nothing", or_nothing(converted(*words, text))


def of_document(said):
    def question(words, cells):
        document = READERS[tuple(words)].read(cells[0])
        yield cells[0], cells[1], "nothing" if document is None else said(document)

    return question


def shown(words, cells):
    document = READERS["plain", words[0]].read(cells[0])
    yield cells[0], cells[-1], or_nothing(own_text(document) if len(cells) == 2 else field_text(document, cells[1]))


def kind(_words, cells):
    found = [("%s %s" % (text_class.name, what), holds) for text_class in (TOKEN, DEBUG)
             for what, holds in zip(("leaf", "name"), kinds(text_class, cells[0]))]
    yield cells[0], cells[1], ", ".join(what for what, holds in found if holds == "yes") or "nothing"


def stopped(words, text):
    """Where a text stops to be one of a value of the type, and what is expected there."""
    found = places.stop(TYPES[" ".join(words[1:])], places.Texts(encoded(text), words[0] == "pretty"))
    return VALUE if found is None else "%d %s" % found


def value(words, cells):
    """A text of a value of the type, in both modes, or where it stops to be one and what is expected there."""
    text, *wanted = cells
    yield text, *(wanted or [VALUE]), stopped(words, text)
    if not wanted:
        other = converted(words[0], "debug", text)
        yield other, VALUE, stopped([OTHER[words[0]], *words[1:]], other)


def told(words, cells):
    at, expected = places.stop(TYPES[" ".join(words[1:])], places.Texts(encoded(cells[0]), words[0] == "pretty"))
    yield cells[0], cells[1], places.stopped(encoded(cells[0]), at, expected).split(", NotText")[0]


def nested(name, around):
    """The document of a node or a tree inside so many others, perhaps in an option."""
    if name.startswith("Option"):
        return tuple_of(nested("Node", around), name="Some")
    document = "None" if name == "Node" else list_of()
    for _ in range(around + 1):
        value = Block("struct", name, [("value", "1"), ("next", document)] if name == "Node" else [("size", "1"), ("children", document)])
        document = tuple_of(value, name="Some") if name == "Node" else list_of(value)
    return value


def deep(words, cells):
    name = " ".join(words)
    document = nested(name, int(cells[0]))
    for mode, wanted in zip(MODES, cells[1:]):
        text = PRINTERS[mode](document)
        yield text, wanted, stopped([mode, name], text)


QUESTIONS = {
    "texts": both_texts, "stop": stop, "leaf": leaf, "beginnings": beginnings, "unended": unended, "events": of_document(events),
    "parts": of_document(parts), "shown": shown, "kind": kind, "value": value, "said": told,
    "deep": deep, "format": formats, "number": number_around, "xxd": dumped,
    "quoted": lambda _words, cells: [(*cells, quoted(cells[0]))],
    "character": lambda _words, cells: [(*cells, quoted(cells[0], "'"))],
}


# ---- The step.


def asked(row, faults):
    """The texts that a row passes to the program. Where the model says something else than the row wants, that is a fault."""
    question, *words = row.words
    for text, wanted, found in QUESTIONS[question](words, row.cells):
        if found != wanted:
            faults.append(case(row.place, repr(wanted), "%r by the model" % found))
        yield text if isinstance(text, bytes) else encoded(text)


def wrong_dump(row):
    """A dump that isn't as `xxd` prints it."""
    printed = subprocess.run(["xxd", *row.words[1:]], input=bytes.fromhex(row.cells[0]), stdout=subprocess.PIPE, check=True).stdout.decode()
    return [] if printed == row.cells[1] else [case(row.place, "%r by xxd" % printed, repr(row.cells[1]))]


def main(given):
    program = needs.built("probe_model", given.program)
    faults, places, count = [], {}, 0
    for row in rows_with_places():
        count += 1
        if row.words[0] == "xxd" and shutil.which("xxd"):
            faults += wrong_dump(row)
        for text in asked(row, faults):
            places.setdefault(text, row.place)
    with concurrent.futures.ProcessPoolExecutor() as pool:
        jobs = [pool.submit(step.wrong_lines, program, batch, places.get) for batch in step.batches(places)]
        faults += [fault for job in jobs for fault in job.result()[0]]
    return ended(faults, "%d rows, %d texts" % (count, len(places)))
