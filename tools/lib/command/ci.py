"""Runs everything: what `.ci/run` calls.

First the steps of `x try` that only look at the sources, which take seconds. Then `rt ci`, which proves every crate and runs every test
and program. Then the other steps of `x try`, some side by side. It ends early if the sources or `rt ci` fail, and last prints a table of
steps, with the seconds of each and what it found, and the processor minutes. The first line says how long it took last time on this
machine. The status is 0 if nothing failed.
"""
import contextlib
import pathlib
import re
import resource
import time

from lib import needs, running, top
from lib.command import trying
from lib.command.main import add_jobs
from lib.running import say

# What `rt ci` says of a crate that it has checked, or need not check.
ENDED = re.compile(r"rt: (\w+) (?:proved|NOT PROVED|is kept)")

# How many minutes the last run took that ended well.
LAST = pathlib.Path.home() / ".cache" / "ufmt" / "ci_minutes"


def add_arguments(parser):
    add_jobs(parser, "steps")


def proved():
    """Runs `rt ci`, shows what it prints, with how many crates are proved, and yields how it ended."""
    began, last, count, whole = time.monotonic(), "nothing was said", 0, len(top.listed())
    process = running.begun(["rt", "ci"], cwd=top.TOP)
    for line in map(str.rstrip, process.stdout):
        say(line)
        last, ended = line.strip() or last, ENDED.match(line)
        if ended:
            count += 1
            minutes = (time.monotonic() - began) // 60
            say("%d of %d crates: %s, after %d min" % (count, whole, ended[1], minutes))
    yield trying.Result("rt ci", time.monotonic() - began, process.wait(), last)


def processor_minutes():
    """Of all commands that have ended."""
    used = resource.getrusage(resource.RUSAGE_CHILDREN)
    return (used.ru_utime + used.ru_stime) / 60


def main(given):
    needs.require("ci", "rt")
    running.heartbeat("x ci")
    began = time.monotonic()
    if LAST.exists():
        say("the last run on this machine took %s min" % LAST.read_text().strip())
    trying.say_missing(trying.STEPS)
    results, minutes = [], []
    cheap = [step for step in trying.STEPS if step.kind == trying.SOURCES]
    others = [step for step in trying.STEPS if step not in cheap]
    for group in (trying.all_of(cheap, [], given.jobs), proved(), trying.all_of(others, [], given.jobs)):
        before = processor_minutes()
        results += list(group)
        minutes.append(processor_minutes() - before)
        if any(result.status for result in results):
            break
    for result in results:
        print("%-10s %-8s %6d s  %s" % (result.name, result.said(), result.seconds, result.found[:150]))
    print("processor minutes: %s" % ", ".join("%.1f for %s" % said for said in zip(minutes, ("the sources", "`rt ci`", "the other steps"))))
    if not any(result.status for result in results):
        with contextlib.suppress(OSError):
            LAST.parent.mkdir(parents=True, exist_ok=True)
            LAST.write_text("%d\n" % ((time.monotonic() - began) / 60 + 1))
    return trying.closing(results)
