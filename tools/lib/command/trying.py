"""Tries what `rt ci` doesn't see: random texts, costs, macros, programs, calls from C.

Without a NAME it tries every step, some side by side, prints what each found when it has ended, and once a minute which are running. The
last line is `N passed, M failed`, with how many were skipped. With one NAME it shows what the step prints as it prints it. The first lines
of each step's file say what it does in full.
"""
import argparse
import sys
from collections import namedtuple

from lib import data, needs, running, top
from lib.command.main import add_jobs, add_names
from lib.running import say

# What a step looks at: the sources alone, builds that it makes, or what `rt ci` or `rt run` left.
KINDS = SOURCES, _, _ = "the sources", "builds with nothing proved", "built programs"
Step = namedtuple("Step", "name kind place told needs uses")


def step(name, kind, place, told, needs="", uses=""):
    return Step(name, kind, place, told, needs.split(), uses.split())


STEPS = [step(*row) for row in data.rows("steps.txt")["steps"]]
BY_NAME = {one.name: one for one in STEPS}


def epilog():
    lines = []
    for kind in KINDS:
        its = [step for step in sorted(STEPS) if step.kind == kind]
        lines += ["", "Of %s:" % kind, *("  %-10s %s" % (step.name, step.told) for step in its)]
    return "\n".join(lines).strip() + "\n\nBuilt programs are those that `rt ci` leaves, or `rt run` in each program's crate."


def add_arguments(parser):
    parser.epilog, parser.formatter_class = epilog(), argparse.RawDescriptionHelpFormatter
    add_names(parser, "NAME", BY_NAME, "a step, see below")
    add_jobs(parser, "steps")
    parser.add_argument("--count", metavar="N", type=int, help="texts, logs, floats: how many random ones (1000, 60, 20000)")
    parser.add_argument("--seed", metavar="N", type=int, default=1, help="c, floats, logs, texts: what makes the random ones the same each time (1)")
    parser.add_argument("--full", action="store_true", help="macros: each number of fields up to 25")
    parser.add_argument("--program", metavar="PATH", help="c, logs, programs, rows, texts: another build of the library or the program")
    parser.add_argument("--proved", action="store_true", help="c: the library as `rt lib` proves and builds it")
    parser.add_argument("--write", action="store_true", help="c: writes what rustc prints, in place of a trial; growths: writes its table anew")


def words_of(given):
    """The options for a step that runs by itself."""
    valued = {"--seed": given.seed, "--count": given.count, "--program": given.program}
    words = [word for pair in valued.items() if pair[1] is not None for word in pair]
    return words + ["--%s" % word for word in ("full", "proved", "write") if getattr(given, word)]


def say_missing(tried):
    """Says which programs this machine hasn't, and what isn't tried for want of each."""
    for name in needs.missing(sorted({name for step in tried for name in (*step.needs, *step.uses)})):
        kinds = {"skipped": [step.name for step in tried if name in step.needs],
                 "in part": [step.name for step in tried if name in step.uses]}
        say("%s: %s" % (needs.told(name), "; ".join("%s: %s" % (kind, ", ".join(its)) for kind, its in kinds.items() if its)))


class Result(namedtuple("Result", "name seconds status found")):
    """How a step ended, with what it found in one line."""

    def said(self):
        return {0: "passed", None: "skipped"}.get(self.status, "FAILED")


def all_of(tried, words, most):
    """Runs the steps side by side, and prints what each found. Yields the result of each."""
    ready = [step for step in tried if not needs.missing(step.needs)]
    yield from (Result(step.name, 0, None, "; ".join(map(needs.told, needs.missing(step.needs)))) for step in tried if step not in ready)
    jobs = [running.Job(step.name, [sys.executable, top.X, "try", step.name, *words]) for step in ready]
    for number, job in enumerate(running.side_by_side(jobs, most), 1):
        result = Result(job.name, job.seconds, job.status, job.lines[-1] if job.lines else "nothing was said")
        say("%d of %d: %s: %s, %d s" % (number, len(jobs), job.name, result.said(), job.seconds))
        say("".join("    %s\n" % line for line in job.lines).rstrip("\n") or "    nothing was said")
        yield result


def main(given):
    tried = [step for step in STEPS if step.name in (given.names or BY_NAME)]
    say_missing(tried)
    if len(given.names) == 1:
        running.heartbeat("x try %s" % tried[0].name)
        return 0 if needs.missing(tried[0].needs) else top.function_of(tried[0].place)(given)
    return closing(list(all_of(tried, words_of(given), given.jobs)))


def closing(results):
    counts = [sum(result.said() == word for result in results) for word in ("passed", "FAILED", "skipped")]
    failed = [result.name for result in results if result.status]
    if failed:
        say("failed: %s" % ", ".join(failed))
    say("%d passed, %d failed" % tuple(counts[:2]) + (", %d skipped" % counts[2] if counts[2] else ""))
    return 1 if failed else 0
