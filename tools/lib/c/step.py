"""Calls the library for C from C and Rust, and compares what comes out with tables.

It is built with nothing proved. `--proved` takes that of `rt lib` in crates/ufmt_c, and `--program` one that is
built. Each call of ufmt.h is made with buffers that are longer than the text, as long, one byte shorter, half as long and empty,
with inputs that are no texts and options that mean nothing (cases.py).

- tools/data/c/calls.c makes every call, also with a detail at NULL and under valgrind; calls.rs makes them all from Rust.
- Random inputs with random options and buffers go through every call (random_cases.py), and each option up to the largest number.
- The steps and the stack of calls have bounds (costs.py), the header is as it was and compiles by each standard, and the
  page's callers run (tools/data/sessions/c.txt).

With `--write` it writes tools/data/c/rows.tsv again, by rustc, and interface.txt, and stops.
"""
import pathlib
import re
import shutil

from lib import findings, measures, running, sessions
from lib.bench import build
from lib.c import cases, costs
from lib.c.calling import CRATE, DATA, HEADER, VALGRIND, by_program, caller_in_c, here, rooms, run, under_valgrind, without_detail
from lib.c.calls import CALLS
from lib.c.random_cases import RandomCases
from lib.top import TOP

# ---- What the header declares beside what the library exports, and how its structs are laid out.

# tools/data/c/interface.txt has the lines of the header without its comments, and for each constant its value, for each struct and
# each of its members its place and its size, as gcc has them: a line that changes or goes may break a caller. Each call, each constant
# and each member of a struct has its comment.

INTERFACE = DATA / "interface.txt"
TOLD = HEADER.relative_to(TOP)
# A call or a constant, and a member of a struct.
DECLARED, MEMBER = re.compile(r"(?:\w+ (?=ufmt_\w+\()|#define (?=UFMT_\w+ +[\d(]))(\w+)"), re.compile(r" {4}\w+ (\w+);")
# These have the comment of the one above them, or of the member that they are for.
WITH_ANOTHER = ("ufmt_signed", "ufmt_parse_signed", "ufmt_parse_float", "UFMT_DEBUG", "UFMT_PRETTY",
                "UFMT_LEFT", "UFMT_CENTER", "UFMT_RIGHT")


def laid_out(structs, constants):
    """The structs and constants, as a program in C prints them."""
    lines = ['printf("%s = %%td\\n", (ptrdiff_t)%s);' % (name, name) for name in constants]
    for name, members in structs:
        lines.append('printf("%s: %%zu bytes\\n", sizeof(%s));' % (name, name))
        lines += ['printf("%s.%s: at %%zu, %%zu bytes\\n", offsetof(%s, %s), sizeof(((%s *)0)->%s));' % (name, member, name, member, name, member)
                  for member in members]
    with running.room("c") as folder:
        file, program = folder / "layout.c", folder / "layout"
        file.write_text('#include <stdio.h>\n#include "ufmt.h"\nint main(void) {\n%s\nreturn 0;\n}\n' % "\n".join(lines))
        run(["gcc", "-I", HEADER.parent, file, "-o", program])
        return run([program])


def uncommented(lines):
    """The number and name of each call and constant without a comment above, or member without one."""
    for number, (above, line) in enumerate(zip(["", *lines], lines), 1):
        declared, member = DECLARED.match(line), MEMBER.match(line)
        if declared and declared[1] not in WITH_ANOTHER and not above.endswith("*/") or member and not line.endswith("*/"):
            yield number, (declared or member)[1]


def interface():
    text = re.sub(r"/\*.*?\*/", "", HEADER.read_text(), flags=re.S)
    lines = [line.rstrip() for line in text.splitlines() if line.strip()]
    constants = re.findall(r"^#define (UFMT_\w+) +\S*\d", text, re.M)
    structs = [(name, re.findall(r"(\w+);", members)) for members, name in re.findall(r"typedef struct \w+ \{(.*?)\} (\w+);", text, re.S)]
    return "".join(line + "\n" for line in lines) + laid_out(structs, constants)


def header(faults, library, needed):
    """The header declares the calls that the library exports, which needs these functions at most."""
    exported = set(re.findall(r" T (\w+)", run(["nm", "--defined-only", library])))
    declared = set(re.findall(r"^\w+ (ufmt_\w+)\(", HEADER.read_text(), re.M))
    if interface() != INTERFACE.read_text():
        faults.append("%s:1: not as tools/data/c/interface.txt has it: an old caller may break; `x try c --write` writes it again" % TOLD)
    faults += ["%s:%d: no comment of %s" % (TOLD, number, name) for number, name in uncommented(HEADER.read_text().splitlines())]
    tried = {"ufmt_" + call for call in CALLS}
    for where, names, told in ((TOLD, declared, "declared"), ("tools/lib/c/calls.py", tried, "tried")):
        faults += ["%s:1: %s: wanted exported and %s, got one of both" % (where, name, told) for name in sorted(exported ^ names)]
    more = set(run(["nm", "--undefined-only", library]).split()[1:]) - {"U", *needed}
    if more:
        faults.append("what the library needs: wanted nothing but %s, got %s" % (" ".join(needed), " ".join(sorted(more))))


# ---- The step.

# What all calls with huge options may take together from C: they take less than one.
HUGE_SECONDS = 20
# So many random cases are made. Of each five calls of these, valgrind runs one.
RANDOM_CASES, RANDOM_EACH = 44_000, 5


def at_random(faults, program, seed, known):
    """Makes random calls, some of them under valgrind. Returns how many, and how many of these."""
    made = RandomCases(seed, known)
    tried = [(case, room) for case in made.made(RANDOM_CASES) for room in made.rooms(case)]
    by_program(faults, program, tried, how="C, at random")
    some = tried[::RANDOM_EACH]
    if shutil.which("valgrind"):
        by_program(faults, program, some, VALGRIND, "C under valgrind, at random")
    return len(tried), len(some)


def by_rust(faults, room, library, tried):
    if not here("rustc", "no call is made from Rust"):
        return 0
    program = room / "calls_rust"
    run(["rustc", "--edition", "2024", "-D", "warnings", "-O", "-L", library.parent, DATA / "calls.rs", "-o", program])
    return by_program(faults, program, tried, how="Rust")


def built(room, given):
    if given.proved:
        run(["rt", "lib"], cwd=CRATE, seconds=3600)
        return CRATE / "out" / "libufmt_c.a", ["memmove", "__udivti3"]
    library = pathlib.Path(given.program).resolve() if given.program else build.library_for_c(room)
    return library, ["memmove", "memcpy", "memset", "__udivti3"]


def write_rows():
    with running.room("c") as folder:
        program = folder / "rows"
        run(["rustc", "--edition", "2024", "-D", "warnings", "-O", DATA / "rows.rs", "-o", program])
        rows = "# Printed by %s, by x try c --write\n%s" % (run(["rustc", "--version"]).strip(), run([program]))
    INTERFACE.write_text(interface())
    (DATA / "rows.tsv").write_text(rows)


def main(given):
    if given.write:
        write_rows()
        return 0
    faults, is_ours = [], not given.proved and not given.program
    made, huge = cases.all_cases(), list(cases.huge_options())
    faults += ["no case of %s" % call for call in sorted(set(CALLS) - {case.call for case in made})]
    tried, tried_huge = ([(case, room) for case in its for room in rooms(case)] for its in (made, huge))
    with running.room("c") as room:
        library, needed = built(room, given)
        header(faults, library, needed)
        program, shared = caller_in_c(room, library), room / "libufmt_c.so"
        run(["gcc", "-shared", "-o", shared, "-Wl,--whole-archive", library, "-Wl,--no-whole-archive"])
        # The calls that might never end come first.
        by_program(faults, program, tried_huge, seconds=HUGE_SECONDS)
        by_all = len(tried_huge) + by_program(faults, program, tried)
        tried += tried_huge
        randomly, some = at_random(faults, program, given.seed, made + huge)
        steps = costs.counted(program) if is_ours else {}
        faults += measures.Table("c").faults(steps) if steps else []
        if is_ours:
            costs.stacks(faults, program)
        by_all += without_detail(faults, program, tried[:: 1 if len(tried) < 1000 else 7])
        from_rust = by_rust(faults, room, library, tried)
        by_valgrind = under_valgrind(faults, program, made + huge)
        found, tried_sessions = sessions.faults("c.txt", LIBRARY=str(library), SHARED=str(shared))
        faults += found
    counts = len(made) + len(huge), len(CALLS), by_all, from_rust, by_valgrind + some, randomly, len(steps), tried_sessions
    return findings.ended((fault[:600] for fault in faults), "%d cases of %d calls: %d calls from C, %d from Rust, "
                          "%d under valgrind, %d at random, the steps of %d, %d sessions" % counts)
