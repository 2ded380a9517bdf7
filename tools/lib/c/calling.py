"""Makes calls of the library by a program in C or in Rust, and compares what they return and leave."""
import functools
import itertools
import shutil
import sys

from lib import running
from lib.c.calls import CALLS, FRONT, FULL, NO_TEXT, NUMBER_SIZE, SIZE_MAX, has_buffer
from lib.data import DATA as ALL_DATA
from lib.top import TOP

CRATE, DATA = TOP / "crates" / "ufmt_c", ALL_DATA / "c"
HEADER = CRATE / "include" / "ufmt.h"
WARNINGS = ["-Wall", "-Wextra", "-Wconversion", "-Wpedantic", "-Werror"]
FILL, DETAIL = 0xA5, 777
# No bytes are at NULL in turn.
NO_ROOM, NO_BYTES = itertools.cycle(("null", "0")), itertools.cycle(("-", "null"))
SECONDS = 300
# valgrind runs at most so many cases of a call, of each kind of outcome.
UNDER_VALGRIND = 60
VALGRIND = ["valgrind", "--quiet", "--error-exitcode=9", "--leak-check=full", "--errors-for-leak-kinds=all"]
# What a command printed; it must end with status 0, and soon.
run = functools.partial(running.output_of, seconds=SECONDS)


def here(program, without):
    """Whether this machine has a program. If not, it says what isn't tried without it."""
    if not shutil.which(program):
        print("no %s: %s" % (program, without))
    return bool(shutil.which(program))


def lines_of(program, tried, before=(), words=(), seconds=SECONDS):
    """What a program of tools/data/c says of each of these calls, each a case with the length of its buffer."""
    asked = "".join(request(case, room) for case, room in tried)
    lines = run([*before, program, *words], input=asked.encode(), seconds=seconds).splitlines()
    if len(lines) != len(tried):
        sys.exit("%d answers to %d calls" % (len(lines), len(tried)))
    return lines


def rooms(case):
    """How long the buffers are with which a case is tried. None is no buffer."""
    if case.length is not None:
        return [None, 0, 1, 8, FRONT]
    if not has_buffer(case):
        return [0]
    if case.text is None:
        return [0, 9]
    length = len(case.text)
    return sorted({length + 3, length, max(length - 1, 0), length // 2, 0})


def request(case, room):
    words = [case.call]
    if has_buffer(case):
        words.append("null" if room is None else str(room) if room or case.length is not None else next(NO_ROOM))
    for value in case.arguments:
        if isinstance(value, bytes):
            words.append(value.hex() or next(NO_BYTES))
        else:
            words += map(str, value if isinstance(value, tuple) else [int(value)])
    return " ".join(words) + "\n"


def wanted_of(case, room):
    """The result, detail and buffer that a call must leave, and whether only the buffer's length counts."""
    filled = bytes([FILL]) * (room or 0)
    if case.number is not None:
        return 0, DETAIL, (case.number % 2**64).to_bytes(NUMBER_SIZE, "little"), False
    if case.text is None:
        left = bytes([FILL]) * NUMBER_SIZE if CALLS[case.call][:1] == ("number",) else filled
        detail, is_any = DETAIL if case.detail is None else case.detail, case.result == NO_TEXT and has_buffer(case)
        return case.result, detail, left, is_any
    length = len(case.text) if case.length is None else case.length
    result = length if length <= len(filled) else FULL
    return result, min(length, SIZE_MAX), case.text[: len(filled)] + filled[length:], False


def answer(line):
    result, detail, left = line.split(" ")
    return int(result), int(detail), bytes.fromhex(left)


def by_program(faults, program, tried, before=(), how="C", seconds=SECONDS):
    for (case, room), got in zip(tried, map(answer, lines_of(program, tried, before, seconds=seconds))):
        *wanted, is_any = wanted_of(case, room)
        if is_any and len(got[2]) == len(wanted[2]):
            wanted[2] = got[2]
        if tuple(wanted) != got:
            told = how, case.call, case.arguments, room, *wanted, *got
            faults.append("%s: %s%r in %s bytes: wanted %d, detail %d, %r, got %d, detail %d, %r" % told)
    return len(tried)


def without_detail(faults, program, tried):
    """Tries cases with a detail at NULL: the same is returned and left as with one elsewhere."""
    for (case, room), line, other in zip(tried, lines_of(program, tried, words=["null"]), lines_of(program, tried)):
        (result, detail, left), (wanted, _, text) = answer(line), answer(other)
        if (result, detail, left) != (wanted, DETAIL, text):
            faults.append("a detail at NULL: %s%r in %s bytes: wanted %s, got %s" % (case.call, case.arguments, room, other, line))
    return len(tried)


def some_of(made):
    """At most so many cases of each call and kind of outcome, spread over all of them."""
    kinds = {}
    for case in made:
        kinds.setdefault((case.call, case.result if case.text is None else "text", case.length is None), []).append(case)
    return [case for group in kinds.values() for case in group[:: max(1, -(-len(group) // UNDER_VALGRIND))]]


def under_valgrind(faults, program, made):
    """Tries some cases under valgrind, and then with buffers whose bytes have no value before the call."""
    if not here("valgrind", "bytes that are read or written outside of an array aren't looked for"):
        return 0
    tried = [(case, room) for case in some_of(made) for room in rooms(case)]
    count = by_program(faults, program, tried, VALGRIND, "C under valgrind")
    whole = [(case, len(case.text)) for case in some_of(made) if case.text is not None and case.length is None]
    for (case, _), line in zip(whole, lines_of(program, whole, VALGRIND, ["unset"])):
        if answer(line) != (len(case.text), len(case.text), case.text):
            faults.append("an unset buffer: %s%r: wanted %r, got %s" % (case.call, case.arguments, case.text, line))
    return count + len(whole)


def caller_in_c(room, library):
    program = room / "calls"
    run(["gcc", "-std=c11", "-D_GNU_SOURCE", *WARNINGS, "-O1", "-g", "-I", HEADER.parent, DATA / "calls.c", library, "-o", program])
    return program
