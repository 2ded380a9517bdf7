"""Makes a crate of yours, with copies of the library crates that it needs.

It runs in a repository of yours, which may be an empty folder. It copies the crates, with their licences, adds their lines to crates.txt,
and writes a first file: a struct that is printed, with a test; with `parse` it is parsed too. A second run with another `--with` adds
what is missing. A file that you changed is never replaced. `crates/ufmt/COPIED` lists what was copied.

    parse      a value from its text
    values     a field in a line of a log, without memory
    snapshot   a value compared with a stored text
    doc        a text read as a document, and a field of it
"""
import re
import sys

from lib import top
from lib.copies import copying
from lib.data import DATA

# What the line of a crate has for each, and the folder of a library of this repository.
NEEDS = {"parse": ("ufmt_parse", "ufmt", "ufmt_core"), "values": ("ufmt_values", "ufmt"), "snapshot": ("ufmt_snapshot", "ufmt"),
         "doc": ("ufmt_doc", "ufmt")}
# A line of a first file in tools/data/new begins a part, which is taken if the crate does each of these words, or not what has
# a `-` before it.
PART = re.compile(r"// \[(.*)\]$")


def features(text):
    found = [word for word in text.split(",") if word]
    unknown = [word for word in found if word not in NEEDS]
    if unknown:
        raise ValueError(", ".join(unknown))
    return found


def add_arguments(parser):
    parser.add_argument("name", metavar="NAME", help="the crate's name, such as my_types")
    parser.add_argument("--with", dest="features", metavar="WHAT", type=features, default=[], help="one or several of parse,values,snapshot,doc")
    parser.add_argument("--program", action="store_true", help="a program, in place of a library")


def line_of(wanted):
    return list(dict.fromkeys([name for feature in wanted for name in NEEDS[feature]] + ["ufmt"]))


def refuse(name, repository):
    if not re.fullmatch(r"[a-z][a-z0-9_]*", name):
        sys.exit("x new: %s is no name of a crate: small letters, digits and `_`" % name)
    if name in (top.listed() if repository != top.TOP else top.closure([name for names in NEEDS.values() for name in names])):
        sys.exit("x new: %s is a crate of the library" % name)


def text_of(name, words):
    lines, is_taken = [], True
    for line in (DATA / "new" / name).read_text().splitlines():
        part = PART.match(line)
        if part:
            is_taken = all((word.lstrip("-") in words) != word.startswith("-") for word in part[1].split())
        elif is_taken:
            lines.append(line + "\n")
    return "".join(lines)


def write_first(repository, crate, features, is_program):
    """Writes the first file, and a .gitignore if there is none. A crate that has a root file is left as it is. Returns what was written."""
    if any((crate / "src" / name).exists() for name in ("lib.rt", "main.rt")):
        return []
    files = {crate / "src" / ("main.rt" if is_program else "lib.rt"): text_of("main.rt.txt" if is_program else "lib.rt.txt", features),
             repository / ".gitignore": "out/\n"}
    written = [path for path in files if not path.exists()]
    for path in written:
        path.parent.mkdir(parents=True, exist_ok=True)
        path.write_text(files[path])
    return written


def main(given):
    repository = copying.repository_here("new")
    refuse(given.name, repository)
    copies, is_here = copying.Copies(repository), repository == top.TOP
    older = copies.older()
    if older:
        sys.exit("x new: the copies are of %s, and this is another version: call `x update` first" % copies.kept.version)
    there = copies.lines.below(given.name)
    line = list(dict.fromkeys([*(there or []), *line_of(given.features)]))
    if not is_here:
        copies.take(top.closure(line_of(given.features)), given.name)
    if line != there:
        copies.lines.put(given.name, line)
    written = write_first(repository, copies.crates / given.name, given.features, given.program)
    if is_here:
        copies.lines.write()
    else:
        copies.end()
        print("%d files of %d crates copied to %s" % (copies.count, len(copies.names()), copies.crates))
    print("crates.txt: %s: %s" % (given.name, " ".join(line)))
    for path in written or []:
        print("%s: written" % path.relative_to(repository))
    if not written:
        print("%s: stays as it is" % (copies.crates / given.name).relative_to(repository))
    print("next: (cd %s && rt fmt && rt try --test), then %s check %s" % (copies.crates / given.name, top.X, given.name))
    return 0
