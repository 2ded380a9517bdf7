"""Tables of what was measured, in tools/data/measured, and bounds by them.

A row has a name, and after a tab its counts in order, of which each has a label where it is compared. A count of steps may be
FACTOR times as much as what was measured: compilers differ, and a call that does half its work again is past it. Other counts are the
same each time, and may be no more. `x measure` says which rows are old, and writes them again.
"""
from lib import findings
from lib.top import TOP

DATA = TOP / "tools" / "data" / "measured"
STEPS = "steps"
FACTOR = 1.4
# A bound of steps is to be between so many times what is measured.
BAND = (1.3, 2)
# Fewer steps than these have one bound.
FEW = 40


def bound(label, measured):
    return int(FACTOR * max(measured, FEW)) if label.endswith(STEPS) else measured


class Table:
    """What was measured of calls in the past. What is found now has pairs of a label and a count by the same names."""

    def __init__(self, name):
        self.path = DATA / (name + ".txt")
        self.told = self.path.relative_to(TOP)
        rows = (line.rpartition("\t") for line in self.path.read_text().splitlines() if not line.startswith("#"))
        self.rows = {name: [int(count) for count in counts.split()] for name, _, counts in rows}

    def of(self, kind):
        """The rows whose names begin with the kind and a colon, by the rest of the name."""
        return {name[len(kind) + 2 :]: counts for name, counts in self.rows.items() if name.startswith(kind + ": ")}

    def compared(self, name, found):
        """Each label with its count and what was measured. None if this row isn't there, or has other counts."""
        measured = self.rows.get(name)
        if measured is None or len(measured) != len(found):
            return None
        return [(label, count, known) for (label, count), known in zip(found, measured)]

    def faults(self, found, is_whole=True):
        """A line for each count past its bound, for each row that isn't in the table, and for each that is only there."""
        for name, counts in found.items():
            rows = self.compared(name, counts)
            if rows is None:
                yield "%s:1: %s: counted, and not in the table: `x measure --write`" % (self.told, name)
                continue
            for label, count, known in rows:
                if count > bound(label, known):
                    yield findings.most("%s, of which %d was measured" % (name, known), bound(label, known), count, label)
        for name in self.rows if is_whole else ():
            if name not in found:
                yield "%s:1: %s: in the table, and not counted" % (self.told, name)

    def left(self, found):
        """A line for each bound that isn't in the band, for what is measured now."""
        for name, counts in found.items():
            for label, count, known in self.compared(name, counts) or [("the row", 0, None)]:
                is_in = BAND[0] * max(count, FEW) <= bound(label, known or 0) <= BAND[1] * max(count, FEW)
                if known is None or (not is_in if label.endswith(STEPS) else count != known):
                    yield findings.case("%s, %s" % (name, label), "%s by the table" % known, count)

    def write(self, found):
        """Writes the rows again, below the first line, which says what the counts are."""
        rows = ["%s\t%s" % (name, " ".join(str(count) for _, count in counts)) for name, counts in sorted(found.items())]
        self.path.write_text("\n".join([self.path.read_text().split("\n")[0], *rows, ""]))


