"""Makes random texts, passes each to every call of the library, and compares the results with those of a model, which shares no code with
the project. Values that no text makes are printed by random options. What is compared also has the pieces that a writer is passed.

The built probe_model makes the calls. The texts that come first fill each cell of the table of shapes (coverage.py): a cell that no text
fills is a fault. With 3000 or more, each character there is comes in apostrophes too.

Then each call is made by itself on a text of each shape, and its memory and its steps are compared with what
was measured (costs.py); and so are runs of both programs (commands.py). Memory is counted if there is a C
compiler, and steps if there is valgrind too.
"""
import concurrent.futures
import subprocess

from lib import measures, running
from lib.findings import case, ended, shown
from lib.model import asked, characters, commands, costs, counter, coverage, documents, first_texts, verdicts
from lib.programs import cases
from lib.top import TOP

# How many bytes of texts a run of the program takes.
BATCH_BYTES = 2_000_000
# So many random texts there are. From BULK on the run takes minutes, and has all texts that there are.
COUNT, BULK = 1000, 3000


def batches(texts):
    found, size = [[]], 0
    for text in texts:
        found[-1].append(text)
        size += len(text) + 1000
        if size > BATCH_BYTES:
            found.append([])
            size = 0
    return list(filter(None, found))


def wrong_lines(program, texts, name=shown):
    """The faults of a run of the program on these texts, which have names, and the cells that these fill."""
    lines, faults = cases.answers(program, texts)
    wrong, cells = compared(texts, lines, name)
    return faults + wrong, cells


def compared(texts, lines, name):
    faults, cells = [], set()
    for text, line in zip(texts, lines):
        wanted, found = verdicts.verdict(text)
        cells |= found
        faults += [case(name(text), wanted, line)] if line != wanted else []
    return faults, cells


def made(count, seed):
    makers = documents.Maker(seed), documents.DebugMaker(seed)
    yield from first_texts.first_texts(seed)
    yield from asked.made(seed)
    if count >= BULK:
        yield from (text.encode() for text in characters.each_by_itself())
    for number in range(count):
        yield makers[0].data()
        # Half as many debug texts.
        if number % 2 == 0:
            yield makers[1].data()


def cost_jobs(pool, programs, meter):
    """The jobs that count. Each returns rows of tools/data/measured/texts.txt, and faults."""
    if meter.library is None:
        return []
    jobs, probed = [pool.submit(commands.read_steps, meter, programs)], (meter, programs["probe_model"])
    for is_counted in (True, False) if meter.valgrind else (False,):
        jobs += [pool.submit(costs.of_part, *probed, number, is_counted) for number in range(costs.PARTS)]
        jobs.append(pool.submit(costs.of_requests, *probed, is_counted))
    return jobs + [pool.submit(commands.counted, meter, programs, part) for part in commands.PARTS]


def found_by(jobs):
    """The rows and the faults of all jobs. A run that ends by itself or takes too long is a fault."""
    rows, faults = {}, []
    for job in jobs:
        try:
            found, wrong = job.result()
        except (subprocess.SubprocessError, ValueError) as error:
            found, wrong = {}, ["a run that is counted: %s" % error]
        rows.update(found)
        faults += wrong
    return rows, faults


def measured(room, _given):
    programs, meter = counter.programs_of(None), counter.Counter(room)
    with concurrent.futures.ProcessPoolExecutor() as pool:
        return found_by(cost_jobs(pool, programs, meter))


def counted(meter, number):
    if meter.library is None:
        return "%d costs counted: none of memory and steps, for want of a C compiler" % number
    return "%d costs counted, of memory%s" % (number, " and steps" if meter.valgrind else "; no steps, for want of valgrind")


def main(given):
    programs = counter.programs_of(given.program)
    faults, cells = [], set()
    with running.room("texts") as room, concurrent.futures.ProcessPoolExecutor() as pool:
        meter = counter.Counter(room)
        costing = cost_jobs(pool, programs, meter)
        texts = batches(made(COUNT if given.count is None else given.count, given.seed))
        for job in [pool.submit(wrong_lines, programs["probe_model"], batch) for batch in texts]:
            wrong, found = job.result()
            faults += wrong
            cells |= found
        faults += ["no text fills the cell: " + cell for cell in coverage.empty(cells)]
        rows, wrong = found_by(costing)
    is_whole = bool(meter.library and meter.valgrind)
    faults += [*wrong, *measures.Table(costs.MEASURED).faults(rows, is_whole)]
    told = "%d texts with seed %s fill %d cells" % (sum(map(len, texts)), given.seed, len(cells))
    return ended(faults, "%s, %s" % (told, counted(meter, len(rows))))


def stored_texts(left):
    """The texts in the file stdin of probe_model, each after its size."""
    while left:
        size, left = left.split(b"\n", 1)
        yield left[: int(size)]
        left = left[int(size) :]


def answers(_given):
    """Compares crates/probe_model/stdout, which `rt ci` compares a run with, with what the model says of the texts in the file stdin."""
    folder = TOP / "crates" / "probe_model"
    stored, asked = (folder / "stdout").read_text().split("\n")[:-1], list(stored_texts((folder / "stdin").read_bytes()))
    faults = [] if len(stored) == len(asked) else [case("lines of stdout", len(asked), len(stored))]
    faults += compared(asked, stored, lambda text: "the line in stdout of %s" % shown(text))[0]
    return ended(faults, "%d lines of the file stdout" % len(asked))
