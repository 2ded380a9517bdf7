"""Runs the tests of every crate, or of those named, and proves nothing.

It runs `rt try --test` in each crate that has a test, some at the same time. A test may pass here while a proof fails: `rt ci` is
the judge. It needs `rt` on the path, and writes nothing into the tree. In a repository of yours, with a `crates.txt`, it runs your tests.

It prints a line when the tests of a crate have ended, and once a minute which are running. For each test that fails it prints the test's
name and what it said; for a crate that doesn't compile, its errors, and the crate counts as one test that failed. The last line is
`N passed, M failed`. The status is 0 if no test failed, and 2 if no test was found.
"""
import re
import sys

from lib import needs, running, top
from lib.command.main import add_jobs
from lib.running import say

TEST = re.compile(r"^\s*#\[test\]", re.M)
ENDED = re.compile(r"^test result: \w+\. (\d+) passed; (\d+) failed;", re.M)
# What a test that failed says, up to the next test.
FAILED = re.compile(r"^test (\S+) \.\.\. FAILED\n((?:    .*\n)*)", re.M)
# On a busy machine the tests of a crate may take minutes.
SECONDS = 600


class Result:
    """What `rt try --test` said of a crate."""

    def __init__(self, job):
        said = "".join(line + "\n" for line in job.lines)
        ended = ENDED.search(said)
        self.passed, self.failed = map(int, ended.groups()) if ended else (0, 1)
        self.faults = ["%s: %s\n%s" % (job.name, name, told) for name, told in FAILED.findall(said)]
        if not ended or len(self.faults) < self.failed:
            self.faults.append("%s: its tests didn't end\n%s" % (job.name, "\n".join(job.lines[-30:])))


def chosen(repository, names):
    """The crates to try, the longest first."""
    listed = top.listed(repository)
    unknown = sorted(set(names) - set(listed))
    if unknown:
        sys.exit("x test: crates.txt lists no crate %s" % ", ".join(unknown))
    texts = {crate: [path.read_text() for path in (repository / "crates" / crate / "src").rglob("*.rt")] for crate in names or listed}
    lines = {crate: sum(text.count("\n") for text in its) for crate, its in texts.items() if any(map(TEST.search, its))}
    return sorted(lines, key=lines.get, reverse=True)


def add_arguments(parser):
    parser.add_argument("crates", metavar="CRATE", nargs="*", help="a crate of crates.txt")
    add_jobs(parser, "crates")


def main(given):
    needs.require("test", "rt")
    repository = top.nearest() or top.TOP
    crates = chosen(repository, given.crates)
    jobs = [running.Job(crate, ["rt", "try", "--test", "--seconds", str(SECONDS)], repository / "crates" / crate) for crate in crates]
    passed, failed = 0, 0
    for number, job in enumerate(running.side_by_side(jobs, given.jobs), 1):
        result = Result(job)
        passed, failed = passed + result.passed, failed + result.failed
        for fault in result.faults:
            print(fault.rstrip())
        say("%d of %d crates: %s, %d tests, %d s" % (number, len(jobs), job.name, result.passed + result.failed, job.seconds))
    print("%d passed, %d failed" % (passed, failed))
    return 2 if not jobs else 1 if failed else 0
