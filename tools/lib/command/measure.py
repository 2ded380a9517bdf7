"""Measures again what calls cost, and names each bound that isn't between 1.3 and 2 times that cost.

- `costs`: steps and memory of each call that prints, at two sizes, and of parsing each type
- `c`: steps of each call of the library for C, at two sizes and with options up to the largest number
- `floats`: steps of `{:?}` of floats, and of floats with decimals
- `texts`: steps and memory of each call on a text of each shape, and of runs of ufmt_conv and ufmt_lines
- `logs`: steps and memory of ufmt_lines on a log of each shape; steps on 32 KiB, memory on 512 KiB

With `--write` it writes the tables in tools/data/measured again, if there is no fault. What `costs`, `c` and
`floats` count is built with nothing proved; `texts` and `logs` count the programs that `rt ci` leaves, or for
`logs` another build, as `x dist` makes one. With `--all` it prints each count. The status is 0 if each bound
is in the band.
"""
from lib import findings, measures, needs, running, top
from lib.command.main import add_names

# What counts the rows of each in a folder, and may find faults; and what it needs.
MEASURED = {"costs": ("lib.costs.step:measured", "rt cc valgrind"), "c": ("lib.c.costs:measured", "rt gcc valgrind"),
            "floats": ("lib.floats.step:measured", "rt valgrind"), "texts": ("lib.model.step:measured", "cc valgrind"),
            "logs": ("lib.log_model.log_costs:measured", "cc valgrind")}


def add_arguments(parser):
    add_names(parser, "NAME", MEASURED, "%s (all)" % ", ".join(MEASURED))
    parser.add_argument("--write", action="store_true", help="writes the tables again")
    parser.add_argument("--all", action="store_true", help="prints each count")
    parser.add_argument("--program", metavar="PATH", help="logs: another build of ufmt_lines")


def main(given):
    running.heartbeat("x measure")
    return max(measured(name, given) for name in given.names or MEASURED)


def measured(name, given):
    """Writes a table again, or names each row whose bound left the band. Returns the status."""
    place, needed = MEASURED[name]
    needs.require("measure", *needed.split())
    with running.room("measure") as room:
        found, faults = top.function_of(place)(room, given)
    for row, counts in found.items() if given.all else ():
        print("%s: %s" % (row, ", ".join("%d %s" % (count, label) for label, count in counts)))
    table = measures.Table(name)
    if given.write and not faults:
        table.write(found)
    faults += [] if given.write else table.left(found)
    return findings.ended(faults, "%s: %d calls counted" % (name, len(found)))
