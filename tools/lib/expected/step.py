"""Reads what rustc printed of values of std, by the model, and compares what comes out with what rustc
printed in the other mode, for token texts and for debug texts.

tools/expected/rows.txt has each value's text by `{:?}` and by `{:#?}`: tools/expected/print wrote it. Each
row that a class refuses, or that comes out as another text, has its reason in tools/expected/reasons. A row
without a reason is a fault, and so is a reason without a row and one that no longer holds.

All these texts are passed to the built probe_model, and what it says is compared with what the model says.
"""
import itertools
import re
from collections import namedtuple
from urllib.parse import unquote

from lib import data, needs
from lib.findings import differences, ended
from lib.model.reading import MODES, converted
from lib.model.step import wrong_lines
from lib.top import TOP

DATA = TOP / "tools" / "expected"
CLASSES = ("token", "debug")
OF_REASON = {"token": ("token",), "debug": ("debug",), "both": CLASSES}
REASON = re.compile(r"(token|debug|both): (same|another|refused), (same|another|refused)\. (\S.*)")
# A value's texts by `{:?}` and by `{:#?}`.
Row = namedtuple("Row", "name plain pretty")


def rows():
    """The first line of the file says which rustc printed it, and src/rows.rs has the form of the others."""
    blocks = (DATA / "rows.txt").read_text(encoding="utf-8").rstrip("\n").split("\n\n")
    return [row(*block.split("\n")) for block in blocks[1:]]


def row(name, first, *others):
    if not first.startswith("? ") or not others or not all(line[:2] in ("#", "# ") for line in others):
        raise ValueError("a row of another form: " + name)
    return Row(name, unquote(first[2:]), "\n".join(unquote(line[2:]) for line in others))


def reasons():
    """What comes out of a row's plain and of its pretty text, by its name and a class. A reason of another form ends the run."""
    found = {}
    for _, reason, names in data.reasons(DATA / "reasons"):
        its = REASON.fullmatch(reason)
        if not its:
            raise ValueError("a reason of another form: " + reason)
        for key in itertools.product(names, OF_REASON[its[1]]):
            if found.setdefault(key, its.group(2, 3)) != its.group(2, 3):
                raise ValueError("two reasons: %s" % key[0])
    return found


# There are at least so many rows. Of each 150 the debug class has at least so many in both directions.
LEAST_ROWS, LEAST_OF_150 = 150, 137
SAME = ("same", "same")


def outcomes(name, row):
    texts = row.plain, row.pretty
    found = [(converted(mode, name, text), other) for mode, text, other in zip(MODES, texts, texts[::-1])]
    return tuple("refused" if each is None else "same" if each == wanted else "another" for each, wanted in found)


def wrong_tables(stored, listed):
    """What is wrong with the two tables by themselves."""
    names = [row.name for row in stored]
    yield from ("two rows have the name %s" % name for name in sorted({name for name in names if names.count(name) > 1}))
    for (row, name), wanted in listed.items():
        if row not in names:
            yield "%s, %s: a reason, and no row" % (row, name)
        if wanted == SAME:
            yield "%s, %s: a reason that names no difference" % (row, name)
    if len(names) < LEAST_ROWS:
        yield "%d rows, and not at least %d" % (len(names), LEAST_ROWS)


def main(_given):
    stored, listed = rows(), reasons()
    found = {(row.name, name): outcomes(name, row) for name in CLASSES for row in stored}
    whole = [sum(its == SAME for (_, of), its in found.items() if of == name) for name in CLASSES]
    wanted = {key: listed.get(key, SAME) for key in found}
    faults = list(wrong_tables(stored, listed))
    faults += differences(wanted, found, lambda key: "%s, %s (%s reason)" % (*key, "by its" if key in listed else "without a"))
    if 150 * whole[1] < LEAST_OF_150 * len(stored):
        faults.append("debug texts: %d rows both ways, and not at least %d of 150" % (whole[1], LEAST_OF_150))
    texts = list(dict.fromkeys(text.encode() for row in stored for text in (row.plain, row.pretty)))
    faults += wrong_lines(needs.built("probe_model"), texts)[0]
    told = len(stored), *whole, len(texts)
    return ended(faults, "%d rows, both ways %d as token texts and %d as debug texts, %d texts by the program" % told)
