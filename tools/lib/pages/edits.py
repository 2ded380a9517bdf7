"""Each promise of docs/PROMISES.md with the edits that guard it: wrong bodies that the check must refuse.

crates/CRATE/more-edits.txt has the crate's edits, an empty line between two: the edit's name, a line `guards:` for each promise
that it guards, with the promise's first words, or `guards: none` and a reason; and then `file:`, `old:` and `new:` as in a file of
must-fail/. An edit without these three is in must-fail/NAME.edit, which the gate tries. An edit that guards no promise or two, and
one that replaces a text that doesn't stand once in its file, is a fault. `x list edits` prints each promise with its edits.
"""
import re

from lib.findings import ended
from lib.top import TOP

PAGE = TOP / "docs" / "PROMISES.md"


def items_of(text):
    """What comes before the last colon of each item, and what comes after it."""
    return re.findall(r"(?m)^- (.*): (.*)$", text)


def section(text, title):
    return re.search(r"(?ms)^%s\n.*?(?=^%s |\Z)" % (re.escape(title), title.split(" ")[0]), text)[0]


def promises_of(page):
    """The part of the page that has promises with contracts, each an item."""
    return section(page, "## What is proved").partition("\n### What calls ask for")[0]


NONE = "none: "


class Edit:
    """A wrong body: its crate and name, the first words of the promises that it guards, and the lines that say what it changes."""

    def __init__(self, listed, number, lines):
        self.crate, self.name = listed.parent, lines[0]
        # It may be of a clone.
        self.place = "crates/%s/%s:%d: %s" % (self.crate.name, listed.name, number, self.name)
        self.guards = [line[len("guards: ") :] for line in lines if line.startswith("guards: ")]
        self.change = [line for line in lines[1:] if not line.startswith("guards: ")]
        self.path, self.is_in_gate = self.crate / "must-fail" / (self.name + ".edit"), not self.change
        if self.is_in_gate and self.path.is_file():
            self.change = self.path.read_text().rstrip("\n").split("\n")

    def shown(self):
        change = map(str.strip, next(self.pairs(), ("", "", "")))
        return "%s/%s: %s: `%s` becomes `%s`" % (self.crate.name, self.name, *change)

    def faults(self, promises):
        if not self.guards:
            yield "guards no promise"
        if not self.change:
            yield "changes nothing, and there is no %s" % self.path.relative_to(TOP)
        for words in self.guards:
            found = [promise for promise in promises if promise.startswith(words)]
            if len(found) != 1 and not words.startswith(NONE):
                yield "%d promises begin with: %s" % (len(found), words)
        texts = {}
        for file, old, new in self.pairs():
            source = self.crate / file
            text = texts.get(file, source.read_text() if source.is_file() else "")
            if text.count(old) != 1:
                yield "%s has this %d times: %s" % (source.relative_to(TOP), text.count(old), old)
            texts[file] = text.replace(old, new)

    def pairs(self):
        """Each text that is replaced, with its file and what comes in its place."""
        said = {"file": "", "old": ""}
        for line in self.change:
            kind, _, said[kind] = line.partition(": ")
            if kind == "new":
                yield said["file"], said["old"], said["new"]


def edits_of(listed):
    """The edits of a file. Lines that begin with `#` say what it is."""
    text = listed.read_text()
    for block in re.finditer(r"(?m)(?:^.+\n?)+", text):
        lines = [line for line in block[0].splitlines() if not line.startswith("#")]
        if lines:
            yield Edit(listed, text.count("\n", 0, block.start()) + 1, lines)


def all_edits():
    return [edit for listed in sorted(TOP.glob("crates/*/more-edits.txt")) for edit in edits_of(listed)]


def faults_of(edits, promises):
    yield from ("%s: %s" % (edit.place, fault) for edit in edits for fault in edit.faults(promises))
    for path in sorted(set(TOP.glob("crates/*/must-fail/*.edit")) - {edit.path for edit in edits}):
        yield "%s:1: isn't named in %s" % (path.relative_to(TOP), (path.parent.parent / "more-edits.txt").relative_to(TOP))


def show(edits, promises):
    for promise in promises:
        its = [edit for edit in edits if any(promise.startswith(words) for words in edit.guards)]
        print("\n".join(["", promise, *("  " + edit.shown() for edit in its)]))
    print("\nNo promise:")
    for edit, words in [(edit, words) for edit in edits for words in edit.guards if words.startswith(NONE)]:
        print("  %s (%s)" % (edit.shown(), words[len(NONE) :]))


def write(listed, folder):
    """Writes the edits of a file that change something as files of the folder. Returns how many."""
    folder.mkdir(parents=True, exist_ok=True)
    written = [edit for edit in edits_of(listed) if not edit.is_in_gate]
    for edit in written:
        (folder / (edit.name + ".edit")).write_text("\n".join(edit.change) + "\n")
    return len(written)


def main(arguments):
    edits, promises = all_edits(), [promise for promise, _ in items_of(promises_of(PAGE.read_text()))]
    if arguments:
        show(edits, promises)
    return ended(faults_of(edits, promises), "%d edits, %d promises" % (len(edits), len(promises)))
