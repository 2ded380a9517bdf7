"""Measures what calls cost, beside peers where this machine has them.

All is measured over copies of the libraries with nothing proved, so an edit can be measured before it is proved. A proved build
tests no bounds, so it has some bytes and instructions more or less. Instructions are counted by valgrind: a run prints the same
numbers each time. Without a NAME it measures all, one after another. The programs that it builds are in tools/data/bench.

- `calls`: bytes of code and constants of a call that prints into a buffer, linked alone into a program without a C
  library, and its instructions. `two` prints a second type as well, and `eight` eight types. Beside it are ufmt 0.2.0, a checkout in
  FOLDER or the one that cargo has, and core::fmt. `z` is the level for size, and `lto` is linked as a whole.
- `texts`: instructions for each byte of a text that is converted, read, or printed in quotes.
- `parse`: instructions for each byte of a text, and for each value, of `ufmt_parse`, serde_json and ron; `one` is one call
  on a struct of two numbers. Then bytes of a program that parses one type, and how many more a second type takes. Columns of crates
  that cargo can't build have `-`.
- `floats`: instructions of one `{:?}` of an `f64`, beside core::fmt and the kit's ryu, and of one `{:.N}`, as `21.5:2`.
- `stack`: bytes of stack that a call takes at most, and what a level more takes. The status is 1 if one is past its bound.
"""
import pathlib

from lib import needs, running, top
from lib.command.main import add_names

# What prints the figures, of a folder and what is asked, and may return a status; and what it needs.
TABLES = {"calls": ("lib.bench.calls:table", "rt valgrind gcc readelf"), "texts": ("lib.bench.tables:texts", "rt valgrind"),
          "parse": ("lib.bench.tables:parse", "rt valgrind gcc readelf"), "floats": ("lib.bench.tables:floats", "rt valgrind rustc"),
          "stack": ("lib.bench.stack:table", "rt objdump nm")}


def add_arguments(parser):
    add_names(parser, "NAME", TABLES, ", ".join(TABLES))
    parser.add_argument("--ufmt", type=pathlib.Path, metavar="FOLDER", help="calls: a checkout of ufmt 0.2.0")


def main(given):
    running.heartbeat("x bench")
    statuses = []
    for name in given.names or TABLES:
        place, needed = TABLES[name]
        missing = needs.missing(needed.split())
        if missing:
            print("skipped: %s: %s" % (name, needs.told(missing[0])))
            continue
        with running.room("bench") as room:
            statuses.append(top.function_of(place)(room, given) or 0)
    return max(statuses, default=1)
