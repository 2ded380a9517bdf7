"""Compares "The definitions to trust" in docs/PROMISES.md with what its headline rests on.

A promise rests on each definition of specs/ in the clauses of its calls, on each that such a definition
cites, and so on. The list must have every one of the headline's, and nothing else of this repository. An item
lists a file of specs/ whole, or `without` some of its definitions, or only those that it names. A fault is
also a name of the page that is nothing. `x list definitions` first prints what the promises of each section
rest on beside the headline's, by file.
"""
import re

from lib.contracts.source import Source, closing
from lib.findings import ended
from lib.pages.edits import PAGE, items_of, promises_of, section
from lib.promises.page import Reader, defined
from lib.top import TOP, is_ours

CRATES = TOP / "crates"
HEADLINE = "headline"
IMPORT = re.compile(r"^\s*(?:ghost |pub )?use Rattle\.(\w+)\.specs\.([\w.]+)\.\{([^}]*)\}", re.M)
BEGINS = re.compile(r"^ *(?:(?:abbrev|unfoldable|pub|inductive|data) )*(record )?([\w◌]\S*) ?(.*)$")


def typed_name(line):
    """The name to which a line gives a type, and whether it is that of a record."""
    begins = BEGINS.match(line)
    if not begins or begins[2] in ("module", "mutual", "where"):
        return None, False
    rest = begins[3]
    while rest[:1] in ("(", "{"):
        rest = rest[closing(rest, brackets="(){}") + 1 :].lstrip()
    return (begins[2] if rest.startswith(":") else None), bool(begins[1])


def definitions_of(text):
    """The lines of each definition of a file of specs/, by the name that its first line types. A record has its fields."""
    found, fields, its = {}, None, []
    for line in re.sub(r"(?m)^\s*(?:--|pub use |use |pub mod |mod ).*|\s*--.*", "", text).split("\n"):
        name, is_record = typed_name(line)
        indent = len(line) - len(line.lstrip())
        if name and indent != fields:
            fields = indent + 2 if is_record else None
            its = found[name] = []
        its.append(line)
    return found


def imports_of(text):
    """For each name that a file brings in, the crate and the file of specs/ that it is from."""
    names = {}
    for crate, path, listed in IMPORT.findall(text):
        for name in listed.split(","):
            identifier = name.split(" as ")
            names[identifier[-1].strip()] = (crate, path.replace(".", "/") + ".antt", identifier[0].strip())
    return names


def crate_of(path):
    return path.relative_to(CRATES).parts[0]


def promised(pattern):
    """The files of the crates of this repository, but for tests. A user's crate may stand beside these."""
    ours = [path for path in sorted(CRATES.glob(pattern)) if is_ours(crate_of(path))]
    return [path for path in ours if not {"tests", "tests.rt"} & set(path.relative_to(CRATES).parts)]


class Tree:
    """The definitions of specs/, each with its identifiers, and what each file brings in."""

    def __init__(self):
        files = [path for path in promised("*/specs/**/*.antt") if path.stem not in ("Lib", "Private")]
        self.sources = promised("*/src/**/*.rt")
        texts = {path: path.read_text() for path in files + self.sources}
        self.definitions = {(path, name): set(re.findall(r"\w+", "\n".join(lines)))
                            for path in files for name, lines in definitions_of(texts[path]).items()}
        # The files with one path below specs/ of each crate.
        self.files = {}
        for path in files:
            self.files.setdefault("/".join(path.relative_to(CRATES).parts[2:]), []).append(path)
        self.imports = {path: imports_of(text) for path, text in texts.items()}
        self.words = set().union(*(re.findall(r"\w+", text) for text in texts.values()))

    def named(self, crate, file, name):
        """The definition that an import means: a crate may pass on a file of another."""
        there = [CRATES / crate / "specs" / file, *self.files.get(file, ())]
        return next(((path, name) for path in there if (path, name) in self.definitions), None)

    def cited(self, path, identifiers):
        own = {(path, it) for it in identifiers if (path, it) in self.definitions}
        imports = self.imports[path]
        brought = {self.named(*imports[it]) for it in identifiers if (path, it) not in own and it in imports}
        return own | brought - {None}

    def closed(self, keys):
        """These definitions and all that they rest on."""
        known, left = set(), set(keys)
        while left:
            known |= left
            cited = (self.cited(path, self.definitions[path, name] - {name}) for path, name in left)
            left = set().union(*cited) - known
        return known


def ghost_identifiers(path, wanted):
    """The identifiers of the ghost values of a file's implementations, as of `seen`, where a clause has their name."""
    source = Source(path)
    values = [at + 3 for at in source.all("ghost") if source.name(at + 1) in wanted and source.name(at + 2) == "="]
    return {token.name for at in values for token in source.tokens[at : source.tokens[at].pair]}


def is_private(key):
    """Whether a definition is for bodies, or for types that no caller sees."""
    return "Private" in key[0].parts


def rests_on(tree, promises, is_near=lambda path: True):
    """The definitions that these promises rest on. A ghost value means those of files that are near."""
    functions = [function for promise in promises for _, _, function in promise.functions]
    # Each implementation gives the names in a trait's clauses a meaning of its own: of these only the definitions count.
    calls = [call for call in functions if not call.is_of_trait() and " for " not in call.owner]
    names = set().union(*map(defined, functions))
    keys = {key for key in tree.definitions if key[1] in names and not is_private(key)}
    identifiers = set().union(*(call.identifiers for call in calls))
    for call in calls:
        keys |= tree.cited(call.path, call.identifiers)
    for path in filter(is_near, tree.sources):
        values = tree.cited(path, ghost_identifiers(path, identifiers))
        keys |= values if not any(map(is_private, values)) else set()
    return tree.closed(keys)


def faults_of(tree, keys, table):
    """What rests on a definition that isn't in the table, and what is in it and isn't there or isn't used."""
    for path, name in sorted(keys):
        names, is_without = table.get(path, ((), False))
        if (name in names) == is_without:
            yield "the headline: `%s` of %s isn't listed" % (name, path.relative_to(CRATES))
    for path, (names, _) in sorted(table.items()):
        missing = [name for name in sorted(names) if (path, name) not in tree.definitions]
        yield from ("the headline: %s has no `%s`" % (path.relative_to(CRATES), name) for name in missing)
        if not any(key[0] == path for key in keys):
            yield "the headline: nothing rests on %s" % path.relative_to(CRATES)


def show_others(tree, promises, headline):
    """The definitions that the promises of each section rest on, less those of the headline, by file."""
    for part in dict.fromkeys(promise.section for promise in promises):
        its, names = [promise for promise in promises if promise.section == part], {}
        crates = {crate for promise in its for crate, _, _ in promise.functions}
        for path, name in sorted(rests_on(tree, its, lambda path: crate_of(path) in crates) - headline):
            names.setdefault(path, []).append(name)
        rows = ["  %s: %s" % (path.relative_to(CRATES), ", ".join(of)) for path, of in names.items()]
        print("\n".join([part, *rows, ""]))


def main(arguments):
    tree, promises = Tree(), Reader().promises
    whole = rests_on(tree, promises)
    part = rests_on(tree, [promise for promise in promises if promise.section == HEADLINE])
    if arguments:
        show_others(tree, promises, part)
    # For each file the names beside it, and whether it is listed without these: with no name it is listed whole.
    listed = items_of(section(PAGE.read_text(), "## The definitions to trust"))
    table = {CRATES / file.strip("`"): (set(re.findall(r"`(\w+)`", words)), "without" in words or "`" not in words)
             for file, words in listed}
    places = [place for _, place in items_of(promises_of(PAGE.read_text()))]
    named = {name for place in places for name in re.findall(r"`([\w:]+)`", place) if not name.startswith("_")}
    faults = ["there is no `%s`" % name for name in sorted(named) if name.split("::")[-1] not in tree.words]
    faults = ["docs/PROMISES.md:1: " + fault for fault in (*faults, *faults_of(tree, part, table))]
    return ended(faults, "%d definitions, %d of them of the headline" % (len(whole), len(part)))
