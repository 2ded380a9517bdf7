"""Counts what each call takes that prints values of a size, at one and at twice that, and what parsing takes of each type with
`uParse`, of texts that are right and texts that aren't.

The program tools/data/costs/costs.rt.txt is built with nothing proved and little inlined. The steps and the memory of each call have
bounds by tools/data/measured/costs.txt. A type that is in no row of tools/data/costs/types.txt is a fault. Each text is parsed again
for each allocation of it, which is refused: then there is no value, and nothing is left.
"""
import re
import shutil
from collections import namedtuple

from lib import data, measures, running
from lib.bench import build
from lib.findings import ended
from lib.model.counter import Counter
from lib.top import TOP

# ---- For each implementation of `uParse` a type, and texts of it of a size.

# A text is whole, or has another list, map or text in it that isn't right at its end. So memory that isn't given back is seen on each way out.

IMPLEMENTATION = re.compile(r"uParse<\w+>\s+for\s+([^{]+?)\s*\{")
# An implementation as its source has it, a type, and texts of the type by a size.
Parsed = namedtuple("Parsed", "implementation type texts")


def quoted(size):
    """A text, one with escapes, and both without their ends; then texts past ASCII, and such with a byte at the end that isn't UTF-8."""
    texts = ['"%s"' % ("a" * size), '"%s"' % ('\\n\\"' * size), '"%s' % ("a" * size), '"%s\\q"' % ("\\n" * size)]
    return texts + ['"%s%s%s"' % (escape, "é" * size, end) for escape in ("", "\\n") for end in ("", "\udcff")]


def in_forms(size, *forms):
    """Each form, with each of those texts where it has a place for one."""
    texts = {form: quoted(size) if "TEXT" in form else [""] for form in forms}
    return [form.replace("TEXT", text) for form in forms for text in texts[form]]


def items(form, numbers):
    return [form.format(number, short=100 + number % 100) for number in numbers]


def wide(begin, end, size, form, pretty_form):
    """A list or set of so many items; one without its end, one with a wrong item there; the pretty text."""
    whole = begin + ", ".join(items(form, range(size)))
    lines = ("    %s,\n" % it for it in items(pretty_form, range(size)))
    return [whole + end, whole, whole + ", ?" + end, begin + "\n" + "".join(lines) + end]


def listed(size, form):
    return wide("[", "]", size, form, form)


def sorted_keys(size, form, pretty_form=None):
    """The same in order, with the last key before the others, with it twice, and in the other order."""
    others = ([*range(1, size), 0], [*range(size), size - 1], range(size - 1, -1, -1))
    wrong = ["{%s}" % ", ".join(items(form, numbers)) for numbers in others]
    return wide("{", "}", size, form, pretty_form or form) + wrong


def array(_size, length, form):
    """A list as long as the array, one with an item less, and one with an item more."""
    return ["[%s]" % ", ".join(items(form, range(int(length) + more))) for more in (0, -1, 1)]


def trees(size):
    whole = "Tree { size: 2, children: [%s] }" % ", ".join(["Tree { size: 1, children: [] }"] * size)
    return [whole, whole[:-1]]


def nodes(size):
    node = "Node { value: 1, next: None }"
    for _ in range(min(size, 120)):
        node = "Node { value: 2, next: Some(%s) }" % node
    return [node, node[:-1]]


# The texts by a size and what else a row has, by the part of the table.
MAKERS = {"small": lambda _size, *texts: list(texts), "texts": in_forms, "lists": listed, "keys": sorted_keys,
          "arrays": array, "trees": trees, "nodes": nodes}


def types():
    for part, rows in data.rows("costs/types.txt").items():
        make = MAKERS[part]
        for implementation, name, *cells in rows:
            given = list(map(data.text_of, cells))
            yield Parsed(implementation, name, lambda size, make=make, given=given: make(size, *given))


def missing():
    texts = (re.sub(r"(?m)^ *//.*$", "", path.read_text()) for path in (TOP / "crates" / "ufmt_parse" / "src").rglob("*.rt"))
    found = {re.sub(r"\s+", " ", name) for text in texts for name in IMPLEMENTATION.findall(text)}
    if len(found) < 60:
        yield "only %d implementations of uParse are found" % len(found)
    left = sorted(found - {one.implementation for one in types()})
    yield from ("no type of tools/data/costs/types.txt is for uParse of %s" % name for name in left)


# ---- What calls take.

LIBRARIES = ("example_parse", "ufmt_parse", "ufmt_snapshot", "ufmt_doc", "ufmt_scan", "ufmt")
# What makes a call between marks and notes it. The probe has it, too.
COUNTED = TOP / "crates" / "probe_model" / "src" / "costs.rt"
# Each call is printed at the first size and at twice that, and texts are so long.
SIZES = (100, 200)
LABELS = ("steps", "allocations", "bytes", "growths", "held", "most", "left")
SECONDS = 600
# A call in a line of the output: its name, and whether it returned a value.
CALL = re.compile(r"(.*?) (yes|no), ")


def source():
    rows = dict.fromkeys('        "%s" %s;' % (one.type, one.type) for one in types())
    return (TOP / "tools" / "data" / "costs" / "costs.rt.txt").read_text().replace("TYPES", "\n".join(rows).strip())


def built(room):
    below = build.libraries(TOP, LIBRARIES)
    build.copied(TOP, room, below)
    folder = room / "crates" / "costs" / "src"
    folder.mkdir(parents=True)
    (folder / "main.rt").write_text(source())
    shutil.copy(COUNTED, folder / "costs.rt")
    return build.program(room, "costs", below, is_quick=True)


def lines():
    """What is asked of the program: a name, and a line of its input with the bytes that follow. The first is made once before: what a
    program does when it first calls a function of the C library isn't counted."""
    yield "", b"print 10\n"
    yield from (("%d" % size, b"print %d\n" % size) for size in SIZES)
    for one in types():
        for number, text in enumerate(dict.fromkeys(text for size in SIZES for text in one.texts(size))):
            data = text.encode("utf-8", "surrogateescape")
            yield "%s, text %d" % (one.type, number), b"parse %d %s\n%s" % (len(data), one.type.encode(), data)


def run(counter, program, asked, refused=0):
    """Each call, with whether it returned a value, and its counts; or nothing. Counter.run refuses."""
    output, counts = counter.run([program], b"".join(line for _, line in asked), "costs", seconds=SECONDS, refused=refused)
    answers = output.decode().splitlines()
    calls = [("%s: %s" % (name, call), answer == "yes") for (name, _), line in zip(asked, answers) for call, answer in CALL.findall(line)]
    # The last counts are of what comes after all calls.
    return (calls, counts[:-1]) if (len(answers), len(counts)) == (len(asked), len(calls) + 1) else ([], [])


def counted(counter, program):
    """The counts of each call by its name, and faults of the run. Without valgrind steps aren't counted."""
    asked = list(lines())
    calls, counts = run(counter, program, asked)
    data = b"".join(line for _, line in asked)
    steps = counter.steps([program], data, "costs", seconds=SECONDS) if counter.valgrind else [0] * len(calls)
    if not calls or len(steps) < len(calls):
        return {}, ["%d counts and %d steps of the calls of %d lines" % (len(counts), len(steps), len(asked))]
    around = min(steps, default=0)
    of_memory = ([getattr(each, label) for label in LABELS[1:]] for each in counts)
    found = {call: list(zip(LABELS, [taken - around, *memory])) for (call, _), taken, memory in zip(calls, steps, of_memory)}
    twice = [] if len(found) == len(calls) else ["two calls have one name"]
    return {name: row for name, row in found.items() if not name.startswith(":")}, twice


def refused(counter, program):
    """Parses each text again and again, and refuses each allocation of it once. Then there is no value, and nothing is left; a call that
    asks for fewer has what it has with ample memory. Returns how many allocations were refused, and faults."""
    asked = [(name, line) for name, line in lines() if line.startswith(b"parse")]
    ample, counts = run(counter, program, asked)
    needed = [it.asked() for it in counts]
    found, faults = 0, []
    if not needed:
        return 0, ["no call is answered where no allocation is refused"]
    for number in range(1, max(needed) + 1):
        made, left = run(counter, program, asked, number)
        if len(made) != len(ample):
            return found, ["%d calls, and %d where allocation %d is refused" % (len(ample), len(made), number)]
        for (call, is_value), (_, was_value), most, it in zip(made, ample, needed, left):
            found += number <= most
            if is_value != (was_value and number > most) or it.left:
                faults.append("%s, allocation %d of %d refused: wanted no value and no block, got %s and %d blocks" % (
                    call, number, most, "a value" if is_value else "none", it.left))
    return found, faults


def measured(room, _given):
    found, wrong = counted(Counter(room), built(room))
    return found, [*missing(), *wrong]


def main(_given):
    with running.room("costs") as room:
        counter, program = Counter(room), built(room)
        found, wrong = counted(counter, program)
        count, wrong_refused = refused(counter, program)
    faults = [*missing(), *wrong, *wrong_refused, *measures.Table("costs").faults(found)]
    steps = "" if counter.valgrind else ", no steps for want of valgrind"
    return ended(faults, "%d calls counted%s, %d allocations refused" % (len(found), steps, count))
