"""Steps and stack of the library's calls.

The steps of each call at a size and at twice that, with room for the whole text, or for half of it, or none, and with options up to
the largest number in small buffers, have bounds by tools/data/measured/c.txt (tools/lib/measures.py): they are of the library that
is built here. Each call takes at most so many bytes of stack on any input, by its machine code, and none recurses.
"""
import itertools
import re
import sys

from lib import data, findings, measures, running
from lib.bench import build, stack
from lib.c.calling import caller_in_c, here, request, run
from lib.c.calls import CALLS, FRONT, Case, has_buffer
from lib.c.cases import arguments, huge_options
from lib.model.document import Block, list_of, plain, pretty, quoted, tuple_of

SIZES = (80, 160)
# Of so many cases with huge options one is counted, in these buffers.
HUGE_EACH, HUGE_ROOMS = 97, (None, FRONT, 4096)
# What the rows of the table name, as they are of each size.
KINDS = {"letters": lambda size: b"a" * size, "escapes": lambda size: b'\n\x1b"' * size, "characters": lambda size: "\u20ac".encode() * size,
         "no UTF-8": lambda size: b"a" * size + b"\xff"}


def documents(size):
    deep = "x"
    for _ in range(min(size, 250)):
        deep = tuple_of(deep, name="T")
    struct = Block("struct", "S", [("x", "1"), ("y", quoted("a\n"))])
    return {"numbers": list_of(*["12345"] * size), "structs": list_of(*[struct] * size),
            "map": Block("map", "", [(quoted("key"), "12345")] * size), "text": quoted("ab\n" * size), "deep": deep}


def conversions(size):
    """Each text made to the other mode, as a token text and as a debug text, also without its end."""
    for (name, document), mode in itertools.product(documents(size).items(), (0, 1)):
        text = (plain, pretty)[mode](document).encode()
        for (end, given), text_class in itertools.product((("", text), (" without its end", text[:-1])), (0, 1)):
            told = "%s%s, %s, %s" % (name, end, ("plain", "pretty")[mode], ("token", "debug")[text_class])
            yield told, "is_text", (text_class, mode, given)
            yield told, "convert", (text_class, 1 - mode, given)


def tabled(size):
    """The calls of tools/data/c/sized.txt."""
    tables = data.rows("c/sized.txt")
    texts = {name: data.data_of(text) for name, text in tables.pop("pieces")}
    for number, text in enumerate(make(size) for make in KINDS.values()):
        quoted_text = quoted(text.decode(errors="replace")).encode()
        texts.update({"%d" % number: text, "%d-quoted" % number: quoted_text, "%d-lines" % number: text + b"\n" + b"b\n" * size})
    for part, rows in tables.items():
        for (number, kind), (name, asked) in itertools.product(enumerate(KINDS if part == "each text" else [""]), rows):
            asked = asked.replace("SIZE", str(size)).replace("TWICE", str(2 * size)).replace("TEXT", str(number))
            call, *words = asked.split(" ")
            name = name.replace("SIZE", str(size)).replace("TWICE", str(2 * size)).replace("TEXT", kind)
            yield name, call, arguments(call, words, texts=texts)


def sized():
    """Each case with a name and the length of its buffer."""
    for size, maker in itertools.product(SIZES, (conversions, tabled)):
        for name, call, given in maker(size):
            case = Case(call, given)
            for room in (200 * size + 1000, size // 2, 0) if has_buffer(case) else (0,):
                yield "%s, %d: %s in %d" % (call, size, name, room), case, room
    yield "version, 0:  in 0", Case("version", ()), 0
    for case, room in itertools.product(list(huge_options())[::HUGE_EACH], HUGE_ROOMS):
        shown = ["%d bytes" % len(it) if isinstance(it, bytes) else str(it) for it in case.arguments]
        yield "%s, huge: %s in %s" % (case.call, " ".join(shown), room), case, room


def counted(program):
    """The steps of each case by its name."""
    by_call, rows = {}, {}
    for name, case, room in sized() if here("valgrind", "no steps are counted") else ():
        by_call.setdefault(case.call, []).append((name, request(case, room)))
    for call, asked in sorted(by_call.items()):
        found = steps_of(program, "ufmt_" + call, "".join(line for _, line in asked))
        if len(found) < len(asked):
            sys.exit("the steps of %d calls of %d" % (len(found), len(asked)))
        rows.update((name, [("steps", steps)]) for (name, _), steps in zip(asked, found))
    return rows


def steps_of(program, name, asked):
    with running.room("c") as folder:
        counting = ["--tool=callgrind", "--combine-dumps=yes", "--toggle-collect=" + name, "--dump-after=" + name]
        # Of an unset buffer only the written text is printed, which takes callgrind less time.
        run(["valgrind", "--quiet", *counting, "--callgrind-out-file=%s" % (folder / "steps"), program, "unset"], input=asked.encode())
        return [int(steps) for steps in re.findall(r"^summary: (\d+)", (folder / "steps").read_text(), re.M)]


def stacks(faults, program):
    code, bounds = stack.Frames(program), measures.Table("stack").of("from C")
    for name in CALLS:
        most, (bound, _) = code.most("ufmt_" + name), bounds.get(name, (0, 0))
        if most.size > bound or most.level:
            told, found = "ufmt_%s, %s" % (name, " > ".join(most.path)), "%d and %d a level" % (most.size, most.level)
            faults.append(findings.most(told, bound, found, "bytes of stack"))


def measured(room, _given):
    return counted(caller_in_c(room, build.library_for_c(room))), []
