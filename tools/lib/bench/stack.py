"""Whether calls that print or parse, and the built programs, stay within their bounds of stack, and the programs of code. The
bounds are in tools/data/measured/stack.txt. Calls that convert or scan are tried by the step `c`, from C.

- Of ufmt_conv and ufmt_lines it finds how many bytes of stack their `main` takes at most on any input, in their machine code (Frames).
  What the C library takes isn't in it.
- Of example_print_program and example_parse_program it adds up the bytes of the functions of our crates. Each has one type and
  some lines, so a call that is compiled into each of its callers is seen.
"""
import functools
import re
import sys
from collections import namedtuple

from lib import data, findings, measures, needs, running
from lib.bench import build
from lib.findings import case, ended
from lib.running import output_of

# ---- How many bytes of stack the functions of a program take at most, from its machine code.

# LLVM moves the stack pointer only at the beginning and the end of a function, by an amount that the code states. So a call takes eight
# bytes for the return address, the function's frame, and what its own calls take: on any input at most the heaviest path through the
# calls. A path goes through no function twice; what a turn of a cycle adds is counted apart, as the bytes of a level. What a function
# without calls uses below its frame is counted, and what is outside of the program isn't. Code that moves the stack pointer in another
# way, or that calls through a pointer, ends the run: then nothing is known.
RETURN_ADDRESS = 8
MOVES = re.compile(r"(sub|add)\s+\$(-?)0x([0-9a-f]+),%rsp$")
# What else writes the stack pointer or loops until it has a value, as the code for a frame of many pages does.
WRITES_POINTER = re.compile(r"[a-z]+\s.*,%rsp$|enter\b")
BELOW = re.compile(r"-0x([0-9a-f]+)\(%rsp")
GOES = re.compile(r"(call|j\w+)\s+([0-9a-f]+) <(.*)>$")
# The bytes that a call takes at most, the most that one more level of it adds, and the functions of the heaviest path.
Most = namedtuple("Most", "size level path")
# The size of a function's frame, and with what it uses below it; the functions that it calls or continues as; the line
# for which its stack isn't known.
Frame = namedtuple("Frame", "size whole calls jumps unknown")


def code(program):
    """The lines of each function, by its address, and the name that stands there."""
    lines, names, its = {}, {}, []
    for line in output_of(["objdump", "-d", "--no-show-raw-insn", program]).splitlines():
        begun = re.match(r"([0-9a-f]+) <(.*)>:$", line)
        if begun:
            its = lines[int(begun[1], 16)] = []
            names[int(begun[1], 16)] = begun[2]
        elif "\t" in line:
            its.append(line.split("\t", 1)[1].strip())
    return lines, names


def frame(lines, starts, own):
    """A function's frame. A jump to where another function begins is a call that takes this one's place."""
    size, below, calls, jumps, unknown = 0, 0, set(), set(), ""
    for line in lines:
        moved, used, gone = MOVES.match(line), BELOW.search(line), GOES.match(line)
        if re.match(r"push\w*\s", line):
            size += 8
        elif moved:
            size += int(moved[3], 16) if (moved[1] == "sub") != bool(moved[2]) else 0
        elif WRITES_POINTER.match(line) or re.match(r"call\s+\*", line):
            unknown = line
        below = max(below, int(used[1], 16)) if used else below
        target = int(gone[2], 16) if gone else own
        if gone and gone[1] == "call":
            calls.add(target)
        elif target in starts and target != own:
            jumps.add(target)
    return Frame(size, size + below, frozenset(calls), frozenset(jumps), unknown)


class Frames:
    def __init__(self, program):
        lines, self.names = code(program)
        self.frames = {start: frame(its, lines, start) for start, its in lines.items()
                       if not self.names[start].endswith("@plt")}
        symbols = re.findall(r"(?m)^([0-9a-f]+) [tTwW] (.*)$", output_of(["nm", program]))
        self.addresses = {name: int(address, 16) for address, name in symbols}

    def next_of(self, start):
        """What a function calls or continues as, each with the bytes before it."""
        its = self.frames.get(start)
        if not its:
            return
        if its.unknown:
            sys.exit("the stack of %s isn't known: %s" % (self.names[start], its.unknown))
        for target in its.calls:
            yield target, its.size + RETURN_ADDRESS
        for target in its.jumps - its.calls:
            yield target, 0

    @functools.lru_cache(maxsize=None)
    def reached(self, start):
        """The functions that a function reaches by calls: itself, if it is in a cycle."""
        found, left = set(), [start]
        while left:
            its = self.frames.get(left.pop())
            more = (its.calls | its.jumps) & self.frames.keys() - found if its else ()
            found.update(more)
            left += more
        return found

    def most(self, name):
        """What a call of the function with this name takes at most, with its return address."""
        most = self.most_at(self.addresses[name])
        return most._replace(size=most.size + RETURN_ADDRESS)

    @functools.lru_cache(maxsize=None)
    def most_at(self, start):
        """What the function takes at most. Within a cycle's functions each path is gone that comes to none twice."""
        return self.walked(start, start, 0, (start,)) if start in self.frames else Most(0, 0, ())

    def walked(self, root, start, before, path):
        """The most from here on, of a path that began at the root with so many bytes before this function."""
        best = Most(before + self.frames[start].whole, 0, tuple(self.names[it] for it in path))
        level = 0
        for target, cost in self.next_of(start):
            if root in self.reached(target):
                if target in path:
                    level = max(level, before + cost if target == root else 0)
                    continue
                found = self.walked(root, target, before + cost, path + (target,))
            else:
                below = self.most_at(target)
                found = Most(before + cost + below.size, below.level, tuple(self.names[it] for it in path) + below.path)
            level = max(level, found.level)
            best = max(best, found, key=lambda it: it.size)
        return Most(best.size, level, best.path)


# ---- What is beside its bounds.

TABLE = measures.Table("stack")
BOUNDS, CODE = TABLE.of("program"), {name: most for name, (most,) in TABLE.of("code").items()}
# A program, the library that it is over, and its calls: what each does, and its functions.
PROGRAMS = [(*part.split(), [(told, *names.split()) for told, names in rows]) for part, rows in data.rows("bench/stack.txt").items()]


def past_bounds(room, programs):
    """Prints a line for each call, program after program, and returns a line for each that is past its bound."""
    print("%-32s %8s %14s" % ("bytes of stack", "at most", "a level more"))
    past, bounds = [], TABLE.of("call")
    for program, library, calls in programs:
        (room / program).mkdir()
        known = Frames(build.over_copies(room / program, program, [library]))
        for told, *names in calls:
            found = [known.most("case_" + name) for name in names]
            taken = found[0].size, max([found[0].level, *(more.size - less.size for less, more in zip(found, found[1:]))])
            print("%-32s %8d %14s" % (told, taken[0], taken[1] or "-"), flush=True)
            past += within(told, taken, bounds[names[0]])
    return past


def within(name, taken, bounds):
    if any(count > bound for count, bound in zip(taken, bounds)):
        yield case(name, "at most %d bytes of stack, and %d a level" % tuple(bounds), "%d and %d" % tuple(taken))


def table(room, _given):
    return ended(past_bounds(room, PROGRAMS), "calls beside their bounds")


def code_faults(name):
    """Prints what a program's machine code takes, and yields a line if that is past its bound. The kit's `main` tests the
    processor, and then continues as the program's with the stack as it was. A build with nothing proved has only a `main`."""
    code = Frames(needs.built(name))
    start = name + "::main+start"
    most = code.most(start if start in code.addresses else "main")
    print("%s: at most %d bytes of stack, and %d a level" % (name, most.size, most.level))
    yield from within(name, most[:2], BOUNDS[name])


def size_faults(name):
    """The same of the bytes of the functions of our crates in a program."""
    found = [line.split(" ", 3) for line in output_of(["nm", "-S", needs.built(name)]).splitlines()]
    size = sum(int(line[1], 16) for line in found if len(line) == 4 and line[2] in "tT" and line[3].startswith("ufmt"))
    print("%s: %d bytes of code" % (name, size))
    if not 0 < size <= CODE[name]:
        yield findings.most(name, CODE[name], size, "bytes of code")


def main(_given):
    with running.room("stack") as room:
        faults = past_bounds(room, PROGRAMS[:2])
    figures = [*map(code_faults, ("ufmt_conv", "ufmt_lines")), *map(size_faults, sorted(CODE))]
    return ended(faults + [fault for its in figures for fault in its], "%d figures of built programs, and those of calls" % len(figures))
