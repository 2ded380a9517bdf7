"""Runs programs with counter.c before them, and reads what it counted."""
import os
import pathlib
import re
import shutil
import subprocess
from collections import namedtuple

from lib import needs
from lib.top import TOP

HERE = pathlib.Path(__file__).resolve().parent
# A run in which an allocation is refused and that takes longer is a fault.
SECONDS = 60
CALLGRIND = ("--tool=callgrind", "--combine-dumps=yes", "--zero-before=counts_begin", "--dump-before=counts_end")


def programs_of(program):
    """The built programs by their names: those that `rt ci` leaves, or beside another probe_model."""
    program = needs.built("probe_model", program)
    found = {name: TOP / "crates" / name / "out" / program.name.replace("probe_model", name) for name in ("ufmt_conv", "ufmt_lines")}
    return dict(found, probe_model=program)


class Counts(namedtuple("Counts", "allocations bytes growths held most left reads writes nanoseconds")):
    """What a call takes. `held` is what is held with its result, `most` what was held at once, and `left` how many blocks were
    never freed, after the result was dropped."""

    def asked(self):
        """How many allocations there were, each growth among them."""
        return self.allocations + self.growths


class Ended(namedtuple("Ended", "status output error counts")):
    """How a run ended: its status, or None if it didn't end in time; what it wrote; and its counts, or None if it was killed."""

    def fault(self, statuses):
        """What is wrong with the end of a run that may have one of these statuses, or None."""
        if self.status is None:
            return "it doesn't end"
        if self.status not in statuses or self.counts is None:
            return "it ended with status %d: %s" % (self.status, self.error[:80])
        return "%d blocks are never freed" % self.counts.left if self.counts.left else None


class Counter:
    def __init__(self, room):
        """Compiles the library into the folder. `library` is None if there is no C compiler."""
        self.room, self.library, self.valgrind = room, None, shutil.which("valgrind")
        if shutil.which("cc"):
            self.library = room / "counter.so"
            subprocess.run(["cc", "-O2", "-shared", "-fPIC", "-o", self.library, HERE / "counter.c", "-ldl"], check=True)

    def run(self, arguments, data, name, seconds=None, refused=0):
        """Runs a program, and returns its standard output and its counts: of the whole run, or of each call that it marks. Of
        each such call, the allocation or growth of this number is refused, if it isn't 0."""
        path = self.written(name, "counts")
        return self.ran(arguments, data, name, path, seconds, COUNTS_REFUSE=refused), counts_in(path)

    def run_refused(self, arguments, data, name, number):
        """Runs a program, and returns how it ended. Of the whole run, the allocation or growth of this number is refused, if it isn't 0."""
        path = self.written(name, "counts")
        try:
            ran = self.ended(arguments, data, name, path, SECONDS, COUNTS_REFUSE=number, COUNTS_REFUSE_OF="run")
        except subprocess.TimeoutExpired:
            return Ended(None, b"", b"", None)
        counts = counts_in(path)
        path.unlink()
        return Ended(ran.returncode, ran.stdout, ran.stderr, counts[0] if counts else None)

    def steps(self, arguments, data, name, seconds=None, most_read=None):
        """Runs a program with valgrind, and returns the steps of each part that it counts. A read takes at most so many bytes."""
        path = self.written(name, "steps")
        asked = {"COUNTS_READ": most_read} if most_read is not None else {}
        self.ran([self.valgrind, *CALLGRIND, "--callgrind-out-file=%s" % path, *arguments], data, name, "/dev/null", seconds, **asked)
        steps = [int(found) for found in re.findall(rb"^summary: (\d+)", path.read_bytes(), re.M)]
        path.unlink()
        return steps

    def ran(self, *how, **asked):
        """Runs a program, which must end with 0, and returns its standard output."""
        ran = self.ended(*how, **asked)
        if ran.returncode != 0:
            raise ValueError("status %d: %s" % (ran.returncode, ran.stderr[-200:].decode("utf-8", "replace")))
        return ran.stdout

    def ended(self, arguments, data, name, path, seconds, **asked):
        """Runs a program to its end, with the library before it, which is asked by these variables."""
        # A file is read in whole chunks, which a pipe isn't.
        given = self.written(name, "input", data)
        asked = {key: str(value) for key, value in asked.items()}
        room = dict(os.environ, LD_PRELOAD=str(self.library), COUNTS=str(path), **asked)
        with open(given, "rb") as device:
            ran = subprocess.run([str(argument) for argument in arguments], stdin=device, capture_output=True, env=room, timeout=seconds)
        given.unlink()
        return ran

    def written(self, name, kind, data=b""):
        path = self.room / ("%s.%s" % (re.sub(r"\W", "-", name), kind))
        path.write_bytes(data)
        return path


def counts_in(path):
    return [Counts(*map(int, line.split())) for line in path.read_text().splitlines()]
