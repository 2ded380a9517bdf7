"""Compares the texts of floats with those that rustc prints: as Debug and as Display, and with 0 to 1,100 decimals, for edges,
hard cases and random bit patterns of each format (patterns.py). One program is built over copies of ufmt_float and ufmt_fixed with
nothing proved, the other by rustc.

Then the steps and the stack of calls of ufmt are compared with their bounds. The rows of tools/data/measured/floats.txt are usual
floats; decimals that binary fractions have; the ends of the ranges that crates/ufmt_float/CALLING.md and
crates/ufmt_fixed/CALLING.md name, and what lies in them.
"""
import functools
import shutil
import subprocess

from lib import findings, measures, running
from lib.bench import build, stack, tables
from lib.data import DATA
from lib.findings import case, ended
from lib.floats import patterns

COUNT = 20_000

built = functools.partial(build.over_copies, folder="floats")
ours = functools.partial(built, name="floats", names=["ufmt_fixed"])
# What its calls take is counted.
by_ufmt = functools.partial(built, name="by_ufmt", names=["ufmt"])
# It prints an exponent or a point by rules of its own.
ryu = functools.partial(built, name="ryu_floats", names=["ryu"])


def theirs(room):
    room.mkdir(exist_ok=True)
    subprocess.run(["rustc", "-O", "-o", room / "rustc-floats", DATA / "floats" / "floats.rs"], check=True)
    return room / "rustc-floats"


def printed(program, text):
    return subprocess.run(program, input=text, stdout=subprocess.PIPE, text=True, check=True).stdout


def counted(program):
    """The steps of each call of the program. None are counted without valgrind."""
    rows = measures.Table("floats").rows if shutil.which("valgrind") else ()
    return {value: [("steps", tables.float_instructions(program, value))] for value in rows}


def past_bounds(program, counts):
    """A line for each call that takes more steps than its bound, or more stack, where there is objdump."""
    past = list(measures.Table("floats").faults(counts)) if counts else []
    known = stack.Frames(program) if shutil.which("objdump") else None
    for name, (most, own) in measures.Table("stack").of("float").items() if known else ():
        function = "by_ufmt::" + name
        taken = known.most(function).size, known.frames[known.addresses[function]].size
        past += [findings.most(what, bound, size, "bytes of stack")
                 for what, bound, size in zip((name, "the frame of %s" % name), (most, own), taken) if size > bound]
    return past


def measured(room, _given):
    return counted(by_ufmt(room)), []


def main(given):
    text = patterns.lines(COUNT if given.count is None else given.count, given.seed)
    with running.room("floats") as room:
        rustc = theirs(room)
        said = [printed(program, text).splitlines() for program in (ours(room / "ours"), rustc)]
        program = by_ufmt(room / "by_ufmt")
        counts = counted(program)
        past = past_bounds(program, counts)
    different = [it for it in zip(text.splitlines(), *said) if it[1] != it[2]]
    faults = [case(bits, wanted, found) for bits, found, wanted in different] + past
    faults += [case("lines", len(said[1]), len(said[0]))] if len(said[0]) != len(said[1]) else []
    told = len(said[1]), len(different), len(counts), len(past)
    return ended(faults, "%d floats, %d differences; %d calls counted, %d past their bounds of steps or stack" % told)
