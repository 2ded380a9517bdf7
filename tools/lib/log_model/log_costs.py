"""What a run of ufmt_lines costs on logs of each shape, beside what was measured in the past:
tools/data/measured/logs.txt (tools/lib/measures.py).

Steps are counted on a log of 32 KiB, less those of a run on no log: with one step more for each pair of bytes, each byte would cost 16,384
steps more. Memory, reads and writes are those of a log of 512 KiB: most of them hold a line or a group.
"""
from collections import namedtuple
from concurrent.futures import ThreadPoolExecutor

from lib import data, measures, needs, running
from lib.model.counter import Counter
from lib.model.document import list_of, pretty

SIZE, LONG_SIZE = 32 * 1024, 512 * 1024
MEASURED = "logs"
LABELS = ("allocations", "most", "left", "reads", "writes")
# The arguments of ufmt_lines for each mode that it writes.
ARGUMENTS = {"pretty": [], "plain": ["--plain"]}
# A run that takes longer is a fault.
SECONDS = 120
# A log of this shape for a size in bytes.
Shape = namedtuple("Shape", "name mode log")


def repeated(row):
    """A piece, as often in a row as it says."""
    count, star, piece = row.partition("*")
    return data.data_of(piece) * int(count) if star and count.isdigit() else data.data_of(row)


def table_shapes():
    for part, rows in data.rows("logs/shapes.txt").items():
        mode, form = part.split(", ")
        for name, *pieces in rows:
            first, piece, last = map(data.data_of, pieces) if form == "between" else (b"", b"".join(map(repeated, pieces)), b"")
            yield Shape(name, mode, lambda size, row=(first, piece, last): in_a_row(*row, size))


def in_a_row(first, piece, last, size):
    return first + piece * (size // len(piece)) + last


def indented():
    document = list_of(*["x"] * 60)
    for _ in range(60):
        document = list_of(document)
    return pretty(document).encode() + b"\n"


SHAPES = (
    *table_shapes(),
    Shape("a line of open tuples, a bracket, and words", "pretty",
          lambda size: b"(a, " * (size // 16) + b")" + b"word " * (3 * size // 20)),
    Shape("groups of indented lines", "plain", lambda size: in_a_row(b"", indented(), b"", size)),
)


def steps(counter, path, mode, log, name):
    return counter.steps([path, *ARGUMENTS[mode]], log, name, seconds=SECONDS)[0]


def counted(path):
    """What a run on a log of each shape takes. Without valgrind there are no steps."""
    with running.room("logs") as room, ThreadPoolExecutor(needs.processors()) as pool:
        counter = Counter(room)
        nothing = steps(counter, path, "pretty", b"", "nothing") if counter.valgrind else None

        def rows_of(shape):
            words = [path, *ARGUMENTS[shape.mode]]
            _, (counts, *_) = counter.run(words, shape.log(LONG_SIZE), shape.name, seconds=SECONDS)
            rows = {shape.name + ", 512 KiB": [(label, getattr(counts, label)) for label in LABELS]}
            if nothing is not None:
                taken = steps(counter, path, shape.mode, shape.log(SIZE), shape.name)
                rows[shape.name] = [("steps", taken - nothing)]
            return rows

        return {name: row for rows in pool.map(rows_of, SHAPES) for name, row in rows.items()}


def faults(path):
    rows = counted(path)
    return list(measures.Table(MEASURED).faults(rows, is_whole=len(rows) > len(SHAPES)))


def measured(_room, given):
    return counted(needs.built("ufmt_lines", given.program)), []
