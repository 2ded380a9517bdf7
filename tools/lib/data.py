"""Tables of texts in tools/data: rows in parts.

A line `== NAME` begins a part, and a line that begins with `# ` tells of it. In a row a byte that can't stand in it is `%` and two
digits, as everywhere in tools/data, and `%` alone is a text without a byte.
"""
import re
from collections import namedtuple
from urllib.parse import unquote_to_bytes

from lib.top import TOP

DATA = TOP / "tools" / "data"


def parts(name):
    """The rows of each part of a file, by the part's name."""
    found = {}
    for line in (DATA / name).read_text().split("\n"):
        if line.startswith("== "):
            rows = found[line[3:]] = []
        elif line and not line.startswith("# "):
            rows.append(line)
    return found


def rows(name):
    """The cells of each row, with ` => ` between them, by the name of its part."""
    return {part: [row.split(" => ") for row in rows] for part, rows in parts(name).items()}


def named(name):
    """The texts of each row by the name before them, in each part."""
    return {part: {first: list(map(data_of, texts)) for first, *texts in its} for part, its in rows(name).items()}


def reasons(path):
    """The blocks of a file of reasons, with empty lines between them: the line where each begins, its reason, and the rows below."""
    number = 1
    for block in path.read_text().split("\n\n"):
        reason, *its = block.strip("\n").split("\n")
        if not reason.startswith("# "):
            yield number, reason, [row.strip() for row in its]
        number += block.count("\n") + 2


def data_of(row):
    return b"" if row == "%" else unquote_to_bytes(row)


def text_of(row):
    return data_of(row).decode()


# ---- The tables of tools/data/rows, whose parts say what is asked of their rows, by a name of rows/step.py and more words.

# What can't stand in a cell, as a space at its end, is written as in a literal of Rust: `\n`, `\u{20}`, and a byte as `\xff`.
ESCAPE = re.compile(r"\\(?:u\{([0-9a-f]+)\}|x([0-9a-f]{2})|(.))")
LETTERS = {"n": "\n", "t": "\t", "r": "\r", "0": "\0"}
# A row with its file and line, the words of its part, and its cells. A byte that isn't UTF-8 is a surrogate, as in the model.
Row = namedtuple("Row", "place words cells")


def cell(written):
    def decoded(found):
        code, byte, letter = found.groups()
        if byte:
            return bytes([int(byte, 16)]).decode(errors="surrogateescape")
        return chr(int(code, 16)) if code else LETTERS.get(letter, letter)

    return ESCAPE.sub(decoded, written).encode(errors="surrogateescape").decode(errors="surrogateescape")


def rows_with_places():
    for path in sorted((DATA / "rows").glob("*.txt")):
        words = []
        for number, line in enumerate(path.read_text().split("\n"), 1):
            if line.startswith("== "):
                words = line[3:].split(" ")
            elif line and not line.startswith("# "):
                cells = [cell(written.rstrip(" ")) for written in (line + " ").split(" => ")]
                yield Row("%s:%d" % (path.relative_to(TOP), number), words, cells)
