"""Shows what changed in the clauses of public functions since a revision of this repository.

It prints each public function of REVISION that is gone; each `ensures` that isn't there word for word any more, with the one that
has its name now; and each `requires` that is new. So a reader sees what to judge: whether a clause became weaker, no tool can say.
A function that moved to another module or crate is found by its name and its type's. The last line has the counts. The status is 0.
"""
import collections
import subprocess

from lib import running
from lib.contracts.functions import public_functions
from lib.top import TOP


class Tree:
    """The public functions of a checkout, by what is left of their names without modules, each with its crate."""

    def __init__(self, top):
        self.functions = {}
        for sources in sorted((top / "crates").glob("*/src")):
            for _, function in public_functions(sources):
                key = (function.owner_name() if function.owner else "", function.name)
                self.functions.setdefault(key, []).append((sources.parent.name, function))

    def placed(self, key):
        """The functions of this name, each with its place among those of its crate."""
        seen = collections.Counter()
        for crate, function in self.functions[key]:
            yield seen[crate], (crate, function)
            seen[crate] += 1

    def like(self, key, crate, place):
        """The function of this name in the crate, or else in another one: the one at this place of several."""
        found = self.functions.get(key, [])
        own = [function for name, function in found if name == crate] or [function for _, function in found]
        return own[min(place, len(own) - 1)] if own else None


def changes(old, new):
    """What is said of one function: clauses that are gone, and what is asked for that was not."""
    before, after = ({(kind, text) for kind, _, text in its.texts} for its in (old, new))
    for kind, name, text in old.texts:
        if kind == "ensures" and (kind, text) not in after:
            yield "ensures %s was %s" % (name, text)
            yield from ("    is now %s" % now for other, its, now in new.texts if (other, its) == ("ensures", name))
    asked = [(name, text) for kind, name, text in new.texts if kind == "requires" and (kind, text) not in before]
    yield from ("requires %s, new: %s" % it for it in asked)


def compared(old, new):
    """Prints what changed, and returns how many functions are gone and how many have changed."""
    gone, changed = 0, 0
    for key, place, crate, function in ((key, place, *its) for key in sorted(old.functions) for place, its in old.placed(key)):
        now = new.like(key, crate, place)
        lines = list(changes(function, now)) if now else ["is gone"]
        gone, changed = gone + (not now), changed + bool(now and lines)
        for line in lines:
            print("%s::%s: %s" % (crate, "::".join(filter(None, key)), line))
    return gone, changed


def add_arguments(parser):
    parser.add_argument("revision", metavar="REVISION", help="a commit, a branch or a tag")


def main(given):
    with running.room("clauses") as room:
        packed = subprocess.run(["git", "archive", given.revision, "crates"], cwd=TOP, stdout=subprocess.PIPE)
        if packed.returncode:
            return 1
        subprocess.run(["tar", "x"], cwd=room, input=packed.stdout, check=True)
        old, new = Tree(room), Tree(TOP)
        gone, changed = compared(old, new)
    count = sum(len(found) for found in old.functions.values())
    print("%d public functions at %s: %d are gone, %d have a clause that changed" % (count, given.revision, gone, changed))
    return 0
