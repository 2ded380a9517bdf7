"""docs/PROMISES.md: the page in tools/data/promises.md with each promise that a comment of the sources makes.

A comment `// Promise (SECTION): TEXT.` stands above the function whose contract carries the promise. It may go on with `Clauses:`
and the names of the clauses that do, and with `Also:` and further functions that carry it. A promise beside no function with a
clause is a fault, and so is the name of a function or a clause that isn't there.
"""
import re
from collections import namedtuple

from lib.command.generate import compare
from lib.contracts.functions import functions_of, public_functions
from lib.contracts.source import sources
from lib.pages.edits import all_edits
from lib.top import TOP, listed

TEMPLATE = TOP / "tools" / "data" / "promises.md"
COMMENT = re.compile(r"Promise \((\w+)\): (.*?)\.(?: Clauses: (.*?)\.)?(?: Also: (.*?)\.)?")
IMPORT = re.compile(r"ghost use Rattle\.ufmt\w*\.specs\.(?!declared)[\w.]+\.\{([^}]*)\}")


class Promise(namedtuple("Promise", "section text place clauses functions")):
    """A promise with its section, the place of its comment, and the functions that carry it, each with its crate and name."""

    def shown(self, edits):
        crates = [None, *(crate for crate, _, _ in self.functions)]
        told = ["`%s%s`" % ("" if crate == before else crate + "::", short(name))
                for before, (crate, name, _) in zip(crates, self.functions)]
        words = sorted({word for _, _, function in self.functions for word in defined(function)})
        clauses = " (%s)" % ", ".join("`%s`" % name for name in self.clauses) if self.clauses else ""
        by = ", by " + ", ".join("`%s`" % word for word in words) if words else ""
        count = sum(any(self.text.startswith(first) for first in edit.guards) for edit in edits)
        # A law has an empty body, which no edit can turn.
        tried = "; %d edit%s" % (count, "" if count == 1 else "s") if count else ""
        return "- %s: %s%s%s%s" % (self.text, ", ".join(told), clauses, by, tried)


def short(name):
    """A function's name with its type or `laws`, but without other modules."""
    words = name.split("::")
    if "laws" in words[:-1]:
        return "laws::" + words[-1]
    return "::".join(words[-2:] if re.search("[A-Z]", words[-2:][0]) else words[-1:])


def defined(function):
    brought = {word.strip() for names in IMPORT.findall(function.path.read_text()) for word in names.split(",")}
    return {word for word in function.identifiers & brought if word[:1].isupper()}


def comments(path):
    """Each comment of a promise, joined, with the number of the line of the function below it."""
    lines = [line.strip() for line in path.read_text().splitlines()]
    for at, line in enumerate(lines):
        if line.startswith("// Promise ("):
            end = at + 1
            while lines[end].startswith("// ") and not lines[end].startswith("// Promise ("):
                end += 1
            below = next((number for number in range(end, len(lines)) if re.match(r".*\bfn ", lines[number])), None)
            yield at + 1, " ".join(part[3:] for part in lines[at:end]), below + 1 if below is not None else None


class Reader:
    """The promises of all crates, and what is wrong with them."""

    def __init__(self):
        self.promises, self.faults = [], []
        self.public = {crate: public_functions(TOP / "crates" / crate / "src") for crate in listed() if crate.startswith("ufmt")}
        for crate in self.public:
            for path in sources(TOP / "crates" / crate / "src"):
                found = list(comments(path))
                functions = {one.line: one for one in functions_of(path)} if found else {}
                for line, text, below in found:
                    self.add(crate, "%s:%d" % (path.relative_to(TOP), line), text, functions.get(below))

    def add(self, crate, place, text, function):
        found = COMMENT.fullmatch(text)
        if not found or function is None:
            self.faults.append("%s: no promise as `Promise (section): text.` right above a function" % place)
            return
        section, promise, clauses, also = found.groups()
        functions = [(crate, self.name_of(crate, function), function), *self.named(crate, place, also)]
        clauses = re.findall(r"`(\w+)`", clauses or "")
        for other, name, one in functions:
            if not any(kind == "ensures" for kind, _, _ in one.texts):
                self.faults.append("%s: %s::%s has no clause" % (place, other, name))
        for clause in clauses:
            if not any(clause in one.clauses for _, _, one in functions):
                self.faults.append("%s: no clause %s" % (place, clause))
        self.promises.append(Promise(section, promise, place, clauses, functions))

    def name_of(self, crate, function):
        return next((name for name, one in self.public[crate] if (one.path, one.line) == (function.path, function.line)), function.name)

    def named(self, crate, place, also):
        """The functions that the rest of a comment names: `name`, or `crate::name` of another crate, by the ends of their paths."""
        for told in re.findall(r"`([\w:]+)`", also or ""):
            first, _, rest = told.partition("::")
            other, name = (first, rest) if rest and first in self.public else (crate, told)
            found = [one for one in self.public[other] if ("::" + one[0]).endswith("::" + name)]
            if len(found) == 1:
                yield (other, *found[0])
            else:
                self.faults.append("%s: %d functions have the name %s" % (place, len(found), told))


def shown(reader, section):
    edits = all_edits()
    told = [promise.shown(edits) for promise in reader.promises if promise.section == section]
    return sorted(told) if section == "headline" else told


def text(reader):
    return re.sub(r"(?m)^\{(\w+)\}$", lambda section: "\n".join(shown(reader, section[1])), TEMPLATE.read_text(encoding="utf-8"))


def files(reader=None):
    return [("docs/PROMISES.md", text(reader or Reader()))]


def main(_given):
    reader = Reader()
    told = re.findall(r"(?m)^\{(\w+)\}$", TEMPLATE.read_text(encoding="utf-8"))
    faults = reader.faults + ["%s: no section %s" % (one.place, one.section) for one in reader.promises if one.section not in told]
    return compare([] if faults else files(reader), "%d promises in the sources" % len(reader.promises), faults)
