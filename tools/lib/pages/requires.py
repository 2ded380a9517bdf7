"""Compares "What calls ask for" in docs/PROMISES.md with each `requires` of a public function of the libraries and of the programs.

The list of that section names each one that asks for something, by the last words of its path, as `Parser::is_named`, which may have
stars, and says after the colon for what. A fault is a function that asks for something and isn't in the list, or a name in the list
that is of no function, or of one that asks for nothing. `x list requires` prints each function with what it asks for.
"""
import fnmatch
import re
from collections import namedtuple

from lib.contracts.functions import public_functions
from lib.findings import ended
from lib.pages.edits import PAGE, items_of, section
from lib.top import TOP, libraries

SECTION = "### What calls ask for"
# Beside the libraries.
OTHERS = ("ufmt_c", "ufmt_conv", "ufmt_lines")


class Row(namedtuple("Row", "where name words")):
    """A name in the list, its place in the page, and what the list says that it asks for."""

    def means(self, name):
        return fnmatch.fnmatchcase("::" + name, "*::" + self.name)


def rows():
    page = PAGE.read_text()
    for at, line in enumerate(section(page, SECTION).partition("\n#")[0].split("\n"), page.split("\n").index(SECTION) + 1):
        for names, words in items_of(line):
            yield from (Row("%s:%d" % (PAGE.relative_to(TOP), at), name, words) for name in re.findall(r"`([\w:*]+)`", names))


def where(function):
    return "%s:%d" % (function.path.relative_to(TOP), function.line)


def faults_of(functions, listed):
    for name, function in functions:
        if function.requires and not any(row.means(name) for row in listed):
            yield "%s: %s asks for %s, and isn't in the list" % (where(function), name, ", ".join(function.requires))
    for row in listed:
        meant = [(name, function) for name, function in functions if row.means(name)]
        if not meant:
            yield "%s: there is no public function %s" % (row.where, row.name)
        if not row.words:
            yield "%s: the list doesn't say what %s asks for" % (row.where, row.name)
        for name, function in meant:
            if not function.requires:
                yield "%s: the list names %s, which asks for nothing: %s" % (row.where, name, where(function))


def main(arguments):
    functions = [("%s::%s" % (crate, name), function) for crate in (*libraries(), *OTHERS)
                 for name, function in public_functions(TOP / "crates" / crate / "src")]
    listed, asking = list(rows()), ["%s: %s" % (name, ", ".join(its.requires)) for name, its in functions if its.requires]
    if arguments:
        print("\n".join(asking))
    counts = len(functions), len(asking), len(listed)
    return ended(faults_of(functions, listed), "%d public functions, %d of them ask for something, %d names in the list" % counts)
