"""Updates the library crates that `x new` copied into a repository of yours to the version that is here.

It runs in your repository. It replaces each file that you didn't change, or removes it if the library no longer has it, and does the
same with the lines of crates.txt. What you changed stays as it is, and is named.
"""
import sys

from lib import top
from lib.copies import copying


def add_arguments(_parser):
    pass


def main(_given):
    copies = copying.Copies(copying.repository_here("update"))
    if copies.repository == top.TOP or not copies.names():
        sys.exit("x update: nothing was copied to %s: `x new NAME` does that" % copies.repository)
    before, crates = copies.kept.version, top.closure([name for name in copies.names() if name in top.listed()])
    copies.take(crates, copies.names()[0])
    copies.drop(crates)
    copies.end()
    print("%d files taken or removed; %d stay as they were changed; from %s to %s" % (copies.count, len(copies.said), before, copies.kept.version))
    return 0
