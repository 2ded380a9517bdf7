"""Refuses one allocation after another, and looks at what each call then returns.

It runs the built probe_memory, which makes each call of the library, and the built ufmt_conv and ufmt_lines. With each stands
tools/lib/model/counter.c in the place of the C library's calls for memory: it refuses the Nth allocation or growth of a run, and
counts them. No run may leave a block that is never freed, nor be killed. A read of freed memory finds other bytes, and a write past
the end of a block ends the run.

probe_memory prints a line for each call, which says how many allocations that makes; before a call without any it makes one of its
own, and one more after all calls. So it is known which line each refusal is for: that line says so, and all others are as with ample
memory. A call that makes an allocation in secret gets a refusal that is for the next one's line.

The programs have the inputs of tools/data/programs/refused.txt. Some of these show the allocations of line_lengths, which no other
crate can call: its vector is made with the first number, of a line with or without a line feed, and grows for the fifth and the ninth.
"""
import itertools
import re
from collections import namedtuple
from concurrent.futures import ThreadPoolExecutor

from lib import data, findings, needs, running
from lib.model.counter import Counter
from lib.model.document import END, printed
from lib.model.reading import MODES, document_of
from lib.programs.cases import filled
from lib.programs.step import TEXTS
from lib.top import TOP

# After so many faults the other runs aren't looked at: a call that is always wrong is a fault of each run.
MOST_FAULTS = 10
AMPLE = re.compile(r": as with ample memory, (\d+) allocations.*$")
# What a `fmt` leaves that was refused memory.
LEFT = re.compile(r'fmt of a node, ([a-z]*): .*; is_pretty=false depth=0 text="(.*)"$')
NODE = document_of("Node { value: 1, next: Some(Node { value: 0, next: None }) }")


def beginnings(mode):
    """The beginnings of the node's text, at the ends of the pieces that a writer is passed, as they are printed."""
    pieces = printed(NODE, mode == "pretty").split(END)[:-1]
    return ["", *itertools.accumulate(piece[1:].decode().replace("\n", "\\n") for piece in pieces)]


BEGINNINGS = {mode: beginnings(mode) for mode in MODES}


def wrong_line(line, ample, left):
    """What is wrong with the line of the call that was refused memory, or None. Each later refusal of a `fmt` leaves more."""
    prefix, found = AMPLE.sub(r": want of memory, \1 allocations", ample), LEFT.match(line)
    if found and line.startswith(prefix + "; "):
        mode, text = found.groups()
        is_longer = len(text) > len(left.get(mode, "")) or mode not in left
        left[mode] = text
        is_right = text in BEGINNINGS[mode] and is_longer
        return None if is_right else "left a text that ends within a piece, or no longer one: %s" % line
    return None if line == prefix else "wanted %s, got %s" % (prefix, line)


def faults_of_calls(ample, order, runs):
    """What is wrong with the runs, each of which has a refusal for the line of this place."""
    left = {}
    for number, (place, ended) in enumerate(zip(order, runs), 1):
        told, lines = "allocation %d of probe_memory refused" % number, ended.output.decode(errors="replace").splitlines()
        wrong = ended.fault([0])
        if wrong or ended.error or len(lines) != len(ample):
            yield "%s: %s" % (told, wrong or "%d lines, and on standard error %s" % (len(lines), ended.error[:80]))
            continue
        others = [at for at, (line, known) in enumerate(zip(lines, ample)) if line != known and at != place]
        yield from ("%s, for the line of %s: %s" % (told, AMPLE.sub("", ample[place]), lines[at]) for at in others)
        wrong = wrong_line(lines[place], ample[place], left)
        if wrong:
            yield "%s: %s" % (told, wrong)


def tried_calls(counter, pool):
    """The faults of the runs, and how many there were. The first one allocates as its lines say."""
    program, ample = needs.built("probe_memory"), (TOP / "crates" / "probe_memory" / "stdout").read_text().splitlines()
    order = [place for place, line in enumerate(ample) for _ in range(int(AMPLE.search(line)[1]) or 1)]

    def run(number):
        return counter.run_refused([program], b"0\n", "calls-%d" % number, number)

    ended = run(0)
    wrong = ended.fault([0])
    if wrong or ended.output.decode(errors="replace").splitlines() != ample:
        return ["probe_memory with ample memory: %s" % (wrong or "another output than the file stdout has")], 1
    if ended.counts.asked() != len(order):
        return ["probe_memory makes %d allocations, and its lines say %d" % (ended.counts.asked(), len(order))], 1
    found = faults_of_calls(ample, order, pool.map(run, range(1, len(order) + 1)))
    return list(itertools.islice(found, MOST_FAULTS)), len(order)


# ---- The programs.

# So many numbers past the allocations of a run are tried.
QUIET = 3
# Room for the arguments that are kept. If it is refused, the first of them asks again: no run ends with want of memory by that.
ASKED_AGAIN = 1
# The status for want of memory.
OUT_OF_MEMORY = 5
# What a run is given, and with ample memory its status, its output and what is on standard error; how many allocations it can't do without.
Case = namedtuple("Case", "program words text status output error allocations")


def cases():
    for program, rows in data.rows("programs/refused.txt").items():
        for words, *columns in rows:
            text, status, output, error, count = (filled(TEXTS, column) for column in columns)
            yield Case(program, words.split(" "), text, int(status), output, error, int(count))


def wrong_run(case, ended):
    """What is wrong with a run: it ends with want of memory and no output, or as with ample memory."""
    is_wanted = ended[:3] == (OUT_OF_MEMORY, b"", case.program.encode() + b": out of memory\n")
    wrong = ended.fault((OUT_OF_MEMORY, case.status))
    if wrong or is_wanted or ended[:3] == (case.status, case.output, case.error):
        return wrong
    return "status %d, standard error %s, standard output %s" % (ended.status, ended.error[:80], ended.output[:80])


def faults_of(case, ample, runs):
    """What is wrong with a run with ample memory, and with those in which one allocation after another was refused."""
    wrong, made = ample.fault([case.status]), case.allocations + ASKED_AGAIN
    if wrong or ample.counts.asked() != made:
        yield "with ample memory: %s" % (wrong or "wanted %d allocations, got %d" % (made, ample.counts.asked()))
    for number, ended in enumerate(runs, 1):
        wrong = wrong_run(case, ended)
        if wrong:
            yield "allocation %d refused: %s" % (number, wrong)
    wanted = [ended.status == OUT_OF_MEMORY for ended in runs]
    if sum(wanted) != case.allocations or any(wanted[made:]):
        yield "wanted %d allocations, got %d" % (case.allocations, sum(wanted))


def tried_programs(counter, pool):
    """The faults of all cases, and how many runs and refusals there were."""
    faults, count, refusals = [], 0, 0
    for case in cases():
        words = [needs.built(case.program), *case.words]
        numbers = range(case.allocations + ASKED_AGAIN + QUIET + 1)
        ample, *runs = pool.map(lambda it: counter.run_refused(words, case.text, "run-%d" % it, it), numbers)
        found = faults_of(case, ample, runs)
        faults += ["%s %s of %s: %s" % (case.program, " ".join(case.words), case.text[:20], fault) for fault in found]
        count += len(runs)
        refusals += sum(ended.status == OUT_OF_MEMORY for ended in runs)
    return faults, count, refusals


def main(_given):
    with running.room("memory") as room, ThreadPoolExecutor(needs.processors()) as pool:
        counter = Counter(room)
        of_calls, made = tried_calls(counter, pool)
        of_programs, runs, refusals = tried_programs(counter, pool)
    told = made - 1, made + runs, made + refusals
    return findings.ended(of_calls + of_programs, "the calls of probe_memory made %d allocations; %d runs, %d refusals met" % told)
