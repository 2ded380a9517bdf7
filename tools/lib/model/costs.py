"""Compares what each call takes of memory and steps, on a text of each shape, with what was measured in the
past: the rows of tools/data/measured/texts.txt (tools/lib/measures.py).

Steps are counted on short texts. Memory is counted on long ones, and so are the steps of a text there with a call that took longer than its
steps on the short one let expect: steps that grow in another order are far more.
"""
import math
from collections import namedtuple

from lib import findings, measures
from lib.model import asked, shapes
from lib.model.document import plain, pretty
from lib.model.reading import MODES

COUNTED_SIZE, TIMED_SIZE = 4 * 1024, 64 * 1024
# Texts are counted side by side in so many parts.
PARTS = 4
SECONDS = 600
# So many seconds for all requests: they take less than one, and with the steps counted less than ten.
REQUEST_SECONDS = 30
MEASURED = "texts"
MEMORY = ("allocations", "bytes", "growths", "held", "most", "left")
# A call of so many nanoseconds is quick, and so is one of so many for a step.
SOME_TIME, NANOSECONDS = 10_000_000, 3
# Steps grow as the size of a text, or at most so many times that: a text that grows is copied, and keys are sorted.
GROWTH = 3
# A text, and its size with that of the text in the other mode.
Sample = namedtuple("Sample", "name data size")


def part_of(shapes_of_kind, size, number):
    """The names of one part of these shapes, each with what it makes of this size."""
    return [(name, make(size)) for name, make in list(shapes_of_kind.items())[number::PARTS]]


def samples(size, number):
    """The texts of one part: both texts of each document, and texts of none. A leaf of debug texts has one text."""
    documents = [(name, document, list) for name, document in part_of(shapes.documents(), size, number)]
    documents += [(name, document, dict.fromkeys) for name, document in part_of(shapes.debug_documents(), size, number)]
    for name, document, kept in documents:
        texts = plain(document), pretty(document)
        for mode, text in zip(MODES, kept(texts)):
            yield Sample("%s, %s" % (name, mode), text.encode(), sum(map(len, texts)))
    yield from (Sample(name, text.encode(), len(text)) for name, text in part_of(shapes.no_texts(), size, number))


def requested():
    return [Sample("the request %s" % (tuple(one),), one.data(), 1) for one in asked.huge()]


def calls_of(line):
    """The calls of a line, each with the half it is in, and its place there."""
    for half in line.split("; "):
        name, _, calls = half.partition(": ")
        yield from ((name, place, call.rpartition(" ")[0]) for place, call in enumerate(calls.split(", ")[:-1]))


class Run:
    """A run of the program that makes each call on these texts, with what was counted of each call: steps, or memory."""

    def __init__(self, counter, program, texts, name, is_counted=False, seconds=SECONDS):
        data = b"".join(b"%d\n%s" % (len(one.data), one.data) for one in texts)
        output, counts = counter.run([program, "costs"], data, name, seconds=seconds)
        self.texts, self.lines = texts, output.decode().splitlines()
        steps = counter.steps([program, "costs"], data, name + ", steps", seconds=seconds) if is_counted else []
        self.counts = steps or counts
        # What the marks around a call take is no step of the call.
        self.is_counted, self.around = is_counted, min(steps, default=0)
        self.made = [(one, *call) for one, line in zip(texts, self.lines) for call in calls_of(line)]

    def faults(self):
        if len(self.lines) == len(self.texts) and len(self.counts) >= len(self.made):
            return []
        return ["%d lines and %d counts of %d texts" % (len(self.lines), len(self.counts), len(self.texts))]

    def calls(self):
        return [(*call, counts) for call, counts in zip(self.made, self.counts)]

    def rows(self):
        """Steps of each call, or memory of each that allocates some."""
        rows, end = {}, "" if self.is_counted else ", memory"
        for one, half, _, call, counts in self.calls():
            if self.is_counted:
                its = [("steps", counts - self.around)]
            else:
                its = [(label, getattr(counts, label)) for label in MEMORY if counts.allocations]
            if its:
                row = rows.setdefault("%s: %s%s" % (one.name, half, end), [])
                row += (("%s: %s" % (call, label), count) for label, count in its)
        return rows


def most_steps(call, rows, small):
    """The most steps of a call on a long text, by those on the short text of its shape."""
    one, half, place, *_ = call
    known = rows.get("%s: %s" % (one.name, half))
    return int(GROWTH * known[place] * one.size / small[one.name]) if known else math.inf


def slow_faults(counter, program, run, small):
    """The faults of texts with a slow call: its steps decide, since a machine that does other things may be slow too."""
    rows = measures.Table(MEASURED).rows
    slow = {call[0].name: call[0] for call in run.calls()
            if call[-1].nanoseconds > SOME_TIME + NANOSECONDS * most_steps(call, rows, small)}
    if not slow or not counter.valgrind:
        return []
    again = Run(counter, program, list(slow.values()), "slow texts", True)
    found = ((call, most_steps(call, rows, small)) for call in again.calls())
    return [findings.most("%s of %s, %s" % (call[3], call[0].name, call[1]), most, call[-1], "steps")
            for call, most in found if call[-1] > most]


def of_requests(counter, program, is_counted):
    """What calls with huge options take, and their faults. Each must find its buffer full."""
    run = Run(counter, program, requested(), "requests", is_counted, REQUEST_SECONDS)
    fitting = ["%s: a text fits: %s" % (one.name, line) for one, line in zip(run.texts, run.lines) if " yes" in line]
    return run.rows(), run.faults() + fitting


def of_part(counter, program, number, is_counted):
    """What the calls on one part of the texts take, and their faults."""
    texts = list(samples(COUNTED_SIZE if is_counted else TIMED_SIZE, number))
    run = Run(counter, program, texts, "part %d, %s" % (number, is_counted), is_counted)
    wrong = run.faults()
    if not is_counted and not wrong:
        small = {one.name: one.size for one in samples(COUNTED_SIZE, number)}
        wrong = slow_faults(counter, program, run, small)
    return run.rows(), wrong
