"""Looks for what the pages name: the file and the title of each link, each file in backticks, each command,
as `./x try pages`, with its steps, and each module of contracts, as `Rattle.ufmt.specs.Layout`, with the
words that stand in braces after it. Modules of std are files of the kit. A library passes on modules by the
`pub use` lines of its `Lib.antt`. Modules below `declared` are made from the sources, and aren't looked at.
"""
import collections
import functools
import pathlib
import re
import shutil

from lib.command import trying
from lib.command.main import COMMANDS
from lib.findings import ended
from lib.pages.blocks import TOP, pages

KIT = pathlib.Path(shutil.which("rattle") or "/opt/rattle/bin/rattle").resolve().parent.parent / "rattle"
# The crate that a reader makes, and what it has.
OF_A_READER = {"my_types"}


def wrong_link(page, link):
    path, _, title = link.partition("#")
    target = (page.parent / path).resolve() if path else page
    if not target.exists():
        return "the link %s leads to no file" % link
    return "the link %s leads to no title" % link if title and title not in titles(target) else None


@functools.lru_cache(maxsize=None)
def titles(page):
    """The names by which links lead to the titles of a page."""
    found = re.findall(r"^#+ +(.*)$", re.sub(r"^```.*?^```", "", page.read_text(), flags=re.M | re.S), re.M)
    return {re.sub(r"[^\w\- ]", "", title.lower()).replace(" ", "-") for title in found}


def wrong_file(_page, name):
    return None if any(path.endswith("/" + name) for path in sources()) else "there is no file %s" % name


@functools.lru_cache(maxsize=None)
def sources():
    """The paths of the repository's files, each after a slash."""
    return ["/%s" % path.relative_to(TOP) for path in TOP.rglob("*") if not {".git", "out", "__pycache__"} & set(path.parts)]


def module(crate, side, names):
    for above in (TOP / "crates", KIT):
        file, lib = (above / crate / side).joinpath(*names).with_suffix(".antt"), above / crate / side / "Lib.antt"
        if file.is_file():
            return file
        if lib.is_file():
            passed_on = re.findall(r"^pub use Rattle\.(\w+)\.%s\.([\w.]+)\s*$" % side, lib.read_text(), re.M)
            below = [other for other, path in passed_on if path.split(".") == names]
            return module(below[0], side, names) if below else None
    return None


def wrong_module(_page, crate, side, path, words):
    names = path[1:].split(".")
    if crate in OF_A_READER or names[0] == "declared":
        return None
    file = module(crate, side, names)
    if file is None:
        return "there is no module Rattle.%s.%s%s" % (crate, side, path)
    text = file.read_text()
    named = re.findall(r"[^\s,]+", words)
    missing = [word for word in named if not re.search(r"(?<![\w◌-])%s(?![\w◌-])" % re.escape(word), text)]
    return "Rattle.%s.%s%s has no %s" % (crate, side, path, missing[0]) if missing else None


def wrong_command(_page, command, words):
    if command not in COMMANDS:
        return "there is no command x %s" % command
    unknown = [word for word in words.split() if word not in trying.BY_NAME] if command == "try" else []
    return "x try has no step %s" % " and no ".join(unknown) if unknown else None


# What may be named, how it is found in a line, and what tells of one that isn't there.
NAMED = {"links": (r"\]\(((?![^)\s]*://)[^)\s]+)\)", wrong_link),
         "files": (r"`([\w./-]+\.(?:rt|antt|py|txt|tsv|log|md))`", wrong_file),
         "modules": (r"Rattle\.(\w+)\.(specs|proofs)((?:\.[\w+-]+)+)(?:\.\{([^}]*)\})?", wrong_module),
         "commands": (r"(?:`|^)(?:\S*/)?x ([a-z]+)((?: [a-z]+)*)", wrong_command)}


def lines():
    for page in (*pages(), TOP / "CONTRIBUTING.md", TOP / "tools" / "README.md"):
        for number, line in enumerate(page.read_text().split("\n"), 1):
            yield page, "%s:%d" % (page.relative_to(TOP), number), line


def main(_arguments):
    found = [(kind, place, wrong(page, *match.groups(""))) for page, place, line in lines()
             for kind, (pattern, wrong) in NAMED.items() for match in re.finditer(pattern, line)]
    counts = collections.Counter(kind for kind, _, _ in found)
    faults = ["%s: %s" % (place, told) for _, place, told in found if told]
    return ended(faults, "%d links, %d files, %d modules and %d commands are there" % tuple(counts[kind] for kind in NAMED))
