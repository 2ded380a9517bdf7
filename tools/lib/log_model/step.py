"""Makes random logs, runs the built ufmt_lines on each with and without `--plain`, also as the other compiler
built it, and compares each of its reads and writes with those of a model, which shares no code with the
project; and lines of nasty pieces, 100 times as many, with each limit for values that stay. Then the built
ufmt_conv reads texts in chunks. With a C compiler costs are counted on long logs of each shape
(log_costs.py).
"""
import concurrent.futures
import itertools
import shutil

from lib import data, needs
from lib.findings import ended, shown
from lib.log_model import devices, log_costs, log_model, logs
from lib.model import verdicts
from lib.model.documents import Maker
from lib.model.reading import MODES

LIMITS = (0, 8, log_model.LONGER_THAN + 1)
FIVE_FORMATS = (data.DATA / "logs" / "five_formats.log").read_bytes()


def nasty_logs(count, seed):
    """Logs of so many lines, or some more where a piece has a line feed, each with its chunks."""
    maker = logs.Maker(seed)
    lines = [*logs.NAMED, *(maker.words() for _ in range(count))]
    joined = (b"\n".join(lines[at : at + 100]) for at in range(0, len(lines), 100))
    return [(log, log.splitlines(keepends=True)) for log in joined]


# How many logs there are, how many a process runs, and how many texts of each class ufmt_conv reads.
COUNT, BATCH, TEXTS = 60, 25, 100
COMMANDS = ("lengths", "pretty", "plain")


def sent(mode, log, chunks, limit):
    """The chunks, and what is written after each. Chunks are halved if a write of theirs is too long for a message."""
    rounds = log_model.writes(mode, log, chunks, limit)
    while max((len(text) for texts in rounds for text in texts), default=0) > devices.LONGEST and len(chunks) < len(log):
        chunks = [half for chunk in chunks for half in (chunk[: len(chunk) // 2], chunk[len(chunk) // 2 :]) if half]
        rounds = log_model.writes(mode, log, chunks, limit)
    return chunks, rounds


def wrong_runs(paths, batch, limit=log_model.LONGER_THAN):
    faults = []
    for (log, chunks), mode in itertools.product(batch, MODES):
        pieces, rounds = sent(mode, log, chunks, limit)
        is_limited = mode == "pretty" and limit in LIMITS
        words = ["--longer-than", str(limit)] if is_limited else log_costs.ARGUMENTS[mode]
        for path in paths:
            fault = devices.fault(path, words, pieces, rounds)
            if fault:
                faults.append("%s, to %s, a log of %d bytes: %s" % (path.name, mode, len(log), fault))
    return faults


def wrong_texts(path, seed):
    """The faults of runs of ufmt_conv, which waits for the end of its input and writes its output at once. Its reads take a long
    text in chunks of 64 KiB: one that is in the middle of them takes only their rest."""
    maker, tokens, faults = logs.Maker(seed), Maker(seed), []
    texts = [make() for make in (maker.text, tokens.data) for _ in range(TEXTS)]
    given = [(text, maker.chunks(text)) for text in texts if len(text) < logs.CHUNK]
    given += [(b"".join(chunks), chunks) for chunks in (logs.whole(b"a" * 150_000), logs.each_first_byte(), logs.each_last_byte())]
    for (text, chunks), command in itertools.product(given, COMMANDS):
        status, output, line = verdicts.outcome(command, text)
        last = [output.encode()] if output else []
        fault = devices.fault(path, [command], chunks, [[] for _ in chunks] + [last], status, line.encode())
        if fault:
            faults.append("%s %s of %s: %s" % (path.name, command, shown(text), fault))
    return faults


def both(path):
    return [path for path in (path, path.with_name(path.name + ".by-rattle")) if path.exists()]


def main(given):
    count = COUNT if given.count is None else given.count
    paths = both(needs.built("ufmt_lines", given.program))
    beside = paths[0].with_name("ufmt_conv")
    converters = both(beside if beside.exists() else needs.built("ufmt_conv"))
    tried, faults = 0, []
    with concurrent.futures.ProcessPoolExecutor() as pool:
        jobs = [pool.submit(wrong_texts, path, str(given.seed)) for path in converters]
        if shutil.which("cc"):
            jobs.append(pool.submit(log_costs.faults, paths[0]))
        lines = nasty_logs(count * 100, str(given.seed))
        jobs += [pool.submit(wrong_runs, paths, lines, limit) for limit in LIMITS]
        jobs.append(pool.submit(wrong_runs, paths, [(FIVE_FORMATS, logs.whole(FIVE_FORMATS))]))
        pairs = logs.logs(count, str(given.seed))
        while batch := list(itertools.islice(pairs, BATCH)):
            tried += len(batch)
            jobs.append(pool.submit(wrong_runs, paths, batch))
        for job in jobs:
            faults += job.result()
    names = ", ".join(path.name for path in paths + converters)
    return ended(faults, "%d logs with seed %s, costs of %d shapes, by %s" % (tried, given.seed, len(log_costs.SHAPES), names))
