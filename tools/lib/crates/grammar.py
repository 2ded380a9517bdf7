"""Writes the tests of each form of each macro: every kind of piece in each place, and many numbers of fields,
with and without the comma at the end. What is to be printed is written here, as core::fmt has it.

Where the macros are called, `Result`, `Ok` and their like are names of other things, and what a macro names of the libraries has no name of
its own. tools/data/crates/grammar has the file's head, the tests of enums, each kind of piece with its text, and the forms for each number
of fields, where words in capitals stand for what depends on that number.
"""
import re

from lib import data
from lib.model.document import quoted

COUNTS = (0, 1, 2, 3, 12, 13, 14, 24, 25)
MORE_COUNTS = tuple(range(26))
PARSED = range(13)
# Numbers of pieces in a line. Lines of more than eight are grouped in fours, and these in pairs.
LINES = (*range(4, 19), 20, 21, 24, 25, 32, 33)
FOLDER = data.DATA / "crates" / "grammar"
# `uwrite!` has the kinds of the first part, `pieces!` has all.
WRITTEN, ALONE = ([list(map(data.text_of, row.split(" => "))) for row in rows]
                  for rows in data.parts("crates/grammar/pieces.txt").values())
FORMS = data.parts("crates/grammar/fields.txt")


def row(source, text, number):
    return "    writes(&rt, %s, %s, &|out| %s);" % (quoted("row %d" % number), quoted(text), source)


def test(name, lines):
    """The text of a test. Many rows in one function would take long to compile."""
    return "\n#[test]\nfn %s(rt: HostRuntime) {\n%s\n}\n" % (name, "\n".join(lines))


# ---- Numbers of fields.


def commas(count):
    """Whether the list of fields and the arguments end in a comma."""
    if count == 0:
        return ((False, False), (False, True))
    if count < 4:
        return ((False, False), (True, False), (False, True), (True, True))
    return ((count % 2 == 0, count % 2 == 0),)


def pairs(names, values):
    return ", ".join("%s: %s" % pair for pair in zip(names, values))


def words_for(count, first=1, inner=False, outer=False):
    """What each word in capitals stands for, with values from `first` on."""
    names, values = (["f%d" % number for number in range(1, count + 2)], list(range(first, first + count)))
    fields, comma = names[:count], "," if inner and count else ""
    typed = ["%du8" % value for value in values]
    return {
        "COUNT": str(count), "END": "," if outer else "", "LAST": names[count - 1],
        "NAMES": ", ".join(fields) + comma, "VALUES": ", ".join(map(str, values)),
        "TYPED": ", ".join(typed) + comma, "TYPED_PAIRS": pairs(fields, typed) + comma, "PAIRS": pairs(fields, values),
        "BRACED": " { %s }" % pairs(fields, values) if count else "",
        "PARENS": "(%s)" % ", ".join(map(str, values)) if count else "",
        "LONGER": ", ".join(map(str, [*values, 1])), "LONGER_PAIRS": pairs(names, [*values, 1]),
        "SWAPPED_PAIRS": pairs(names[: max(count, 2)][::-1], [1] * 25),
    }


def filled(text, words):
    return re.sub("|".join(sorted(words, key=len, reverse=True)), lambda word: words[word[0]], text)


def fields_test(count):
    """Each form of `fields!` for so many fields, without dots and with them."""
    some, words = "some" if count else "none", words_for(count)
    forms = [(form, words_for(count, 1, *its), its[1]) for its in commas(count) for form in FORMS["each"] + FORMS[some]]
    dotted = FORMS["each with dots"] + FORMS[some + " with dots"]
    forms += [(form, words, outer) for outer in (False, True) for form in dotted]
    lines = ["let named = NamedCOUNT { PAIRS };", "let tuple = TupleCOUNT(VALUES);"]
    lines.append("let [NAMES] = [TYPED];" if count else "let unit = Unit;")
    lines = ["    " + filled(line, words) for line in lines]
    for number, (form, its, outer) in enumerate(forms, 1):
        source, text = filled(form, its).split(" => ")
        lines.append(row("fields!(out, %s%s)" % (source, "," if outer else ""), text, number))
    return test("fields_%d" % count, lines)


def types(count):
    words = {**words_for(count), "MEMBERS": pairs(["f%d" % number for number in range(1, count + 1)], ["u8"] * count)}
    tuple_struct = "#[derive(Drop)]\nstruct TupleCOUNT(%s);\n" % ", ".join(["u8"] * count)
    return filled("\n#[derive(Drop)]\nstruct NamedCOUNT { MEMBERS }\n\n" + tuple_struct, words)


def parse_fields_tests(count):
    template = (FOLDER / "parsed.rt.txt").read_text()
    for number, its in enumerate(commas(count), 1):
        yield filled(template, {**words_for(count, 101, *its), "NUMBER": str(number)})


# ---- Kinds of pieces.


def lines_of(kinds):
    """Lines of pieces: each kind by itself, and as the first of three, in the middle and as the last."""
    yield from ([kind] for kind in kinds)
    yield from ([kinds[(at + by) % len(kinds)] for by in (0, 1, 5)] for at in range(len(kinds)))


def line(pieces, first):
    numbers = [[format(number, form) for form in ("d", "04x", "04o", "010b")] for number in range(first, first + len(pieces))]
    filled_in = [(source.format(*each), text.format(*each)) for each, (source, text) in zip(numbers, pieces)]
    return ", ".join(source for source, _ in filled_in), "".join(text for _, text in filled_in)


# A test of lines: its name, its calls, the kinds of pieces, and what comes after their text.
LINE_TESTS = (("pieces_0", ["pieces!(%s).print(out)"], WRITTEN + ALONE, ""), ("pieces_1", ["pieces!(%s,).print(out)"], WRITTEN + ALONE, ""),
              ("uwrite_pieces", ["uwrite!(out, %s)", "uwrite!(out, %s,)"], WRITTEN, ""),
              ("uwriteln_pieces", ["uwriteln!(out, %s)", "uwriteln!(out, %s,)"], WRITTEN, "\n"))


def line_tests():
    for name, calls, kinds, end in LINE_TESTS:
        lines = [(number, *line(pieces, 100 + 3 * number)) for number, pieces in enumerate(lines_of(kinds), 1)]
        yield test(name, [row(call % source, text + end, number) for number, source, text in lines for call in calls])
    yield test("no_pieces", [row("pieces!().print(out)", "", 1)])
    lines = [(count, *line([WRITTEN[place % 2] for place in range(count)], 100 + count)) for count in LINES]
    yield test("numbers_of_pieces", [row("pieces!(%s).print(out)" % source, text, count) for count, source, text in lines])


def source(is_all):
    counts = MORE_COUNTS if is_all else COUNTS
    parts = [(FOLDER / "head.rt.txt").read_text(), *map(types, sorted({*counts, *PARSED}))]
    parts += [*map(fields_test, counts), *line_tests()]
    parts += [part for count in PARSED for part in parse_fields_tests(count)]
    return "".join([*parts, "\n", (FOLDER / "variants.rt.txt").read_text()])
