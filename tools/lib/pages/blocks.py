"""Compares the code blocks of the pages with the files that they are from.

Before each block stands a comment. `<!-- PATH -->` says that the block's lines are in a row in that file of the repository, which the gate
proves. `<!-- form -->` says that the block is a shape to fill in, a list of signatures, a command or an example that is refused.
"""
import re

from lib.findings import ended
from lib.top import TOP

# A block with the name in the comment before it, if there is one, its lines, and its end.
BLOCK = re.compile(r"(?m)(?:^<!-- (\S+) -->\n\s*)?^(```.*\n)((?:(?!```$).*\n)*)(```$)?")


def pages():
    return [TOP / "README.md", *sorted((TOP / "docs").glob("*.md")), *sorted((TOP / "crates").glob("*/CALLING.md"))]


def blocks(text):
    """Each block: the number of its first line, what the comment before it names, and its text."""
    for found in BLOCK.finditer(text):
        yield text.count("\n", 0, found.start(2)) + 1, found[1] if found[4] else None, found[3]


def fault(name, block):
    if name is None:
        return "no comment before the block names its file or says `form`"
    if name != "form" and not (TOP / name).is_file():
        return "there is no file %s" % name
    if name != "form" and "\n" + block not in "\n" + (TOP / name).read_text():
        return "its lines aren't in a row in %s" % name
    return None


def main(_arguments):
    found = [(page, *block) for page in pages() for block in blocks(page.read_text())]
    wrong = [("%s:%d: " % (page.relative_to(TOP), number), fault(name, block)) for page, number, name, block in found]
    faults, forms = [place + told for place, told in wrong if told], sum(name == "form" for _, _, name, _ in found)
    return ended(faults, "%d code blocks are as in their files, %d are forms" % (len(found) - forms - len(faults), forms))
