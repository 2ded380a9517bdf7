"""Runs the built programs as a shell would.

It compares the status, the standard output and the standard error of ufmt_conv and ufmt_lines, as each of the two compilers built
them, and of the programs of the pages: example_parse_program, which says what a line of standard input sets, and
example_print_program, whose output is one write. A C compiler is needed for devices that move one byte a call.
"""
import os
import pathlib
import pty
import tty

from lib import data, sessions
from lib.programs.cases import CLOSED, Cases, texts
from lib.top import TOP

VERSION = b"ufmt_lines 0.4.0\n"
HELP = (data.DATA / "programs" / "help.txt").read_bytes()
USAGE = HELP.decode().split("\n")[0]
# What the C library says of these failures.
IS_GONE, IS_MISSING = "Input/output error (os error 5)", "No such file or directory (os error 2)"
PLAIN, PRETTY = texts("node")
# A line with a value of more than forty bytes, and the same made pretty.
LONG = b"got [1, 12345678901234567890, 23456789012345678901]\n"
LONG_PRETTY = b"got [\n    1,\n    12345678901234567890,\n    23456789012345678901,\n]\n"
# A line whose texts have many spaces.
DEPTH = 250
DEEP = b"[" * DEPTH + b"x, y" + b"]" * DEPTH + b"\n"
DEEP_LINES = [*((at, b"[") for at in range(DEPTH)), (DEPTH, b"x,"), (DEPTH, b"y,"),
              *((at, b"],") for at in range(DEPTH - 1, 0, -1)), (0, b"]")]
# Of the table.
TEXTS = {"plain": PLAIN, "pretty": PRETTY, "help": HELP, "version": VERSION, "usage": USAGE.encode(), "line": LONG, "cut": LONG[:20], "rest": LONG[20:],
         "group": LONG_PRETTY, "group-cut": LONG_PRETTY[:20], "group-rest": LONG_PRETTY[20:], "long-name": b"b" * 300,
         "deep": DEEP, "deep-pretty": b"".join(b"    " * at + text + b"\n" for at, text in DEEP_LINES)}
# Logs by their names, each with what it becomes, and those that stay, in each mode.
LOGS = data.named("programs/logs.txt")


def cannot_read(name, reason):
    return "ufmt_lines: cannot read %s: %s" % (name, reason)


def bytes_of(shown):
    return (data.DATA / "logs" / shown).read_bytes().replace(b"^[", b"\x1b").replace(b"^M", b"\r")


def conversions(cases):
    example = bytes_of("example.log"), bytes_of("example.pretty")
    for name, (plain, pretty) in {"a line": (PLAIN, PRETTY), "the example": example, **LOGS["both ways"]}.items():
        cases.judge(name, cases.run(text=plain), 0, pretty)
        cases.judge("--plain: " + name, cases.run("--plain", text=pretty), 0, plain)
    for row, logs in ((), {"a pretty text": [PRETTY], **LOGS["plain stay"]}), (("--plain",), {"a plain text": [PLAIN], **LOGS["pretty stay"]}):
        for name, (log,) in logs.items():
            cases.judge("%s: %s stays" % (" ".join(row), name), cases.run(*row, text=log), 0, log)


def terminals(cases):
    """A terminal is read to its first end of file, and isn't asked again while the next file is opened. One that goes away fails in the
    middle: the reason is said, and a line that had begun continues in the next file. Nor can one that went away be written."""
    leader, follower = pty.openpty()
    os.write(leader, LONG + b"\x04")
    ran = cases.run("-", "none", source=follower)
    cases.judge("a terminal with one end of file, and a missing file", ran, 3, LONG_PRETTY, cannot_read("none", IS_MISSING))
    os.close(leader)
    os.close(follower)
    leader, follower = pty.openpty()
    tty.setraw(follower)
    os.write(follower, LONG[:20])
    os.close(follower)
    (cases.room / "rest of a line").write_bytes(LONG[20:])
    ran = cases.run("-", "rest of a line", source=leader)
    cases.judge("a terminal that goes away, and a file", ran, 3, LONG_PRETTY, cannot_read("standard input", IS_GONE))
    os.close(leader)
    leader, follower = pty.openpty()
    os.close(leader)
    cases.judge("a terminal that went away", cases.run(text=PLAIN, sink=follower), 4, b"", "ufmt_lines: cannot write standard output: " + IS_GONE)
    os.close(follower)


def in_a_shell(cases, file):
    found, count = sessions.faults(file, PROGRAM=str(cases.program))
    cases.faults, cases.count = cases.faults + found, cases.count + count


def lines(cases):
    conversions(cases)
    (cases.room / "folder").mkdir()
    os.symlink("loop", cases.room / "loop")
    (cases.room / "secret").touch(0o200)
    cases.table("lines.txt", TEXTS)
    terminals(cases)
    in_a_shell(cases, "lines.txt")


def conv(cases):
    of_table("conv.txt")(cases)
    in_a_shell(cases, "conv.txt")


def of_table(file):
    return lambda cases: cases.table(file, {"plain": PLAIN, "pretty": PRETTY})


def print_program(cases):
    cases.judge("what it prints", cases.run(source=CLOSED), 0, (TOP / "crates" / "example_print_program" / "stdout").read_bytes())
    cases.judge_calls("what it prints", [], b"", 0, 1)


TRIED = {"ufmt_conv": conv, "ufmt_lines": lines}
EXAMPLES = {"example_parse_program": of_table("parse.txt"), "example_print_program": print_program}


def tried(judge, program):
    cases = Cases(program)
    judge(cases)
    return cases.end()


def main(given):
    if given.program:
        return tried(TRIED[pathlib.Path(given.program).name.partition(".")[0]], given.program)
    runs = [(judge, name, build) for name, judge in TRIED.items() for build in ("", ".by-rattle")]
    runs += [(judge, name, "") for name, judge in EXAMPLES.items()]
    return max(tried(judge, TOP / "crates" / name / "out" / (name + build)) for judge, name, build in runs)
