"""Compares the pages with the sources. The first lines of the files of CHECKS say what each check does.

README.md must also show the program with the line of the test that prints the text after it.
"""
import re

from lib.pages import blocks, definitions, edits, names, requires
from lib.top import TOP

CHECKS = (blocks, names, definitions, requires, edits)
ROWS = TOP / "crates" / "ufmt_conv" / "src" / "run" / "tests.rt"


def readme_runs_the_test():
    """The README's line of the program is that of a test."""
    plain = re.search(r'^const README_PLAIN: .* = "(.*)\\n";$', ROWS.read_text(), re.M)
    if plain and "echo '%s' |" % plain[1] in (TOP / "README.md").read_text():
        return 0
    print("README.md:1: no line that passes the program README_PLAIN of %s" % ROWS.relative_to(TOP))
    return 1


def main(_given):
    return max([readme_runs_the_test(), *(check.main([]) for check in CHECKS)])
