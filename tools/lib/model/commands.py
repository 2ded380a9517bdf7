"""Runs of ufmt_conv and ufmt_lines: what they take of steps, memory and calls of their devices, beside what was measured in the past,
the rows of tools/data/measured/texts.txt."""
from collections import namedtuple
from concurrent.futures import ThreadPoolExecutor

from lib.log_model import log_model
from lib.model import shapes
from lib.model.costs import SECONDS
from lib.model.document import list_of, plain, pretty

# A text has a document of each shape, of so many bytes or of some times that. Steps aren't counted of longer texts.
COUNTED_SIZE, MOST_COUNTED = 512, 128 * 1024
# So many reads of few bytes are counted. A read goes over these bytes, and not over a chunk or what was read before.
READ_BYTES, READS = 10, 2000
LABELS = ("allocations", "bytes", "growths", "held", "most", "left", "reads", "writes")
# What is before the text of a line, as in a log.
STAMP = "12:00: "
# A run of a program by its name, with its words, its input and its output, if that is known.
Run = namedtuple("Run", "name program words data output", defaults=(None,))


def conv_runs():
    """Runs of ufmt_conv: on a list of each shape, on some shapes that are longer, and on lines of each length."""
    made = shapes.documents()
    few, many = (list_of(*(make(size) for make in made.values())) for size in (COUNTED_SIZE, 32 * COUNTED_SIZE))
    documents = {"a list of each shape": few, "a long list of each shape": many}
    for name in ("a wide list of an empty map", "a wide list of letters", "a text of all kinds"):
        documents[name] = made[name](16 * COUNTED_SIZE)
    for name in ("a deep list of letters", "a deep list, of a list each"):
        documents[name] = made[name](128 * COUNTED_SIZE)
    for name, document in documents.items():
        texts = {"pretty": plain(document).encode(), "plain": pretty(document).encode()}
        for (mode, text), other in zip(texts.items(), reversed(texts.values())):
            yield Run("ufmt_conv %s of %s" % (mode, name), "ufmt_conv", (mode,), text, other + b"\n")
    of_lengths = {"short lines": pretty(few).encode(), "empty lines": b"\n" * 16 * COUNTED_SIZE,
                  "one line": b"x" * 64 * COUNTED_SIZE, "many lines": b"x\n" * 1024 * COUNTED_SIZE}
    for name, text in of_lengths.items():
        yield Run("ufmt_conv lengths of %s" % name, "ufmt_conv", ("lengths",), text)


def line_runs(is_plain):
    """A run of ufmt_lines for each shape, on a group of lines, with its values in the other mode by the model of logs."""
    name, mode = ("ufmt_lines --plain", "plain") if is_plain else ("ufmt_lines", "pretty")
    texts = {shape: (pretty if is_plain else plain)(make(4 * COUNTED_SIZE))
             for shape, make in {**shapes.documents(), **shapes.debug_documents()}.items()}
    for shape, make in shapes.no_texts().items():
        text = make(4 * COUNTED_SIZE)
        # A line that ends with a bracket isn't the last of its group. Only with `--plain` a group has several lines.
        if text[-1] not in "[\n" and (is_plain or "\n" not in text):
            texts[shape] = text
    for shape, text in texts.items():
        group = (STAMP + text).encode()
        output = log_model.output(mode, group) + b"\n"
        yield Run("%s, %s" % (name, shape), "ufmt_lines", ("--plain",) * is_plain, group + b"\n", output)


def rows_of(counter, programs, run, nothing):
    """What a run takes, its steps less those of a run on nothing; and what is wrong with its output."""
    words = [programs[run.program], *run.words]
    output, counts = counter.run(words, run.data, run.name, seconds=SECONDS)
    rows = {run.name: [(label, getattr(counts[0], label)) for label in LABELS]}
    if nothing and len(run.data.replace(b"    ", b"")) <= MOST_COUNTED:
        steps = counter.steps(words, run.data, run.name, seconds=SECONDS)[0]
        rows[run.name + ": steps"] = [("steps", steps - nothing[run.program])]
    return rows, [run.name + ": another output"] if run.output not in (None, output) else []


PARTS = ("conv", "pretty", "plain")


def counted(counter, programs, part):
    """The rows of a part, and what is wrong with the outputs."""
    nothing = {}
    if counter.valgrind:
        nothing = {name: counter.steps([programs[name], *words], b"", "nothing for " + part, seconds=SECONDS)[0]
                   for name, words in (("ufmt_conv", ["lengths"]), ("ufmt_lines", []))}
    rows, faults = {}, []
    with ThreadPoolExecutor() as pool:
        runs = conv_runs() if part == "conv" else line_runs(part == "plain")
        for its, wrong in pool.map(lambda run: rows_of(counter, programs, run, nothing), runs):
            rows.update(its)
            faults += wrong
    return rows, faults


def short_reads():
    """What is read in few bytes: of ufmt_conv one text, of ufmt_lines a line for each read, and a line or group of all."""
    yield Run("ufmt_conv pretty", "ufmt_conv", ("pretty",), plain(list_of(*["12345678"] * READS)).encode())
    for name, words in (("ufmt_lines", ()), ("ufmt_lines --plain", ("--plain",))):
        yield Run(name, "ufmt_lines", words, b"a line: 7\n" * READS)
        yield Run(name + ", a long line", "ufmt_lines", words, b"a word, 7 " * READS)
    yield Run("ufmt_lines --plain, a long group", "ufmt_lines", ("--plain",), b"[\n" + b"    word,\n" * READS + b"]\n")


def read_steps(counter, programs):
    """What runs take more in which each read takes few bytes: a row for each, and no fault."""
    rows = {}
    for run in short_reads() if counter.valgrind else ():
        words, name = [programs[run.program], *run.words], "short reads, " + run.name
        few, whole = (counter.steps(words, run.data, name, seconds=SECONDS, most_read=most)[0] for most in (READ_BYTES, None))
        rows["%d reads of %d bytes, %s" % (READS, READ_BYTES, run.name)] = [("steps", few - whole)]
    return rows, []
