"""The files of ufmt_core and of the crates of parsing that have one call, impl, clause or proof for each number of fields, of the
templates in tools/data/by_count.

In a template `$A`, `$a`, `$P` and `$n` stand for a field's type, its name, its parser and its place, and `${WORD}` for what is
the same for each field. `⟪*TEXT|BETWEEN⟫` repeats a text for each field, `⟪,TEXT⟫` as the parts of a tuple, and `⟪-,TEXT⟫` so
without the first field; `⟪WORD:TEXT⟫` is there for some numbers of fields or one kind of block. `·` is a space at which a line
may end: lines that have some are filled to at most 100 characters, which `rt fmt` leaves as they are. Of three parts, which end
in a line `====`, the second comes for each number of fields. A line that begins with `# ` tells of the template.
"""
import re

from lib import data
from lib.command.generate import compare

MOST = 12
TYPES, PARSERS = "ABCDEFGHIJKL", "PQRSTUVWXYZN"
NUMBERS = "none one two three four five six seven eight nine ten eleven twelve".split()
WIDTH = 100
INNERMOST = re.compile(r"⟪(\*|-?,|\w+:)([^⟪⟫]*)⟫")


def field(count, place):
    return {"A": TYPES[place], "a": TYPES[place].lower(), "P": PARSERS[place], "n": str(place), "v": "v" if count == 1 else "v.%d" % place,
            "{lead}": " " if place % 6 else "\n            "}


def replaced(text, words):
    return re.sub(r"\$(\{\w+\}|\w)", lambda found: words.get(found[1], found[0]), text)


def filled(text, count, words):
    """The text for so many fields. `words` has what the kind of block is called so, and its own name as a condition."""
    holding = {"none": count == 0, "one": count == 1, "two": count == 2, "more": count > 2, "some": count > 0,
               "many": count > 1, "short": 0 < count < 6, "long": count >= 6, words.get("{block}"): True}

    def chosen(found):
        form, item = found.groups()
        if form.endswith(":"):
            return item if holding.get(form[:-1]) else ""
        item, _, between = item.partition("|")
        items = [replaced(item, field(count, place)) for place in range(form == "-,", count)]
        return between.join(items) if form == "*" else ", ".join(items) + "," * (len(items) == 1)

    text = replaced(text, {**words, "{count}": str(count), "{number}": NUMBERS[count]})
    while INNERMOST.search(text):
        text = INNERMOST.sub(chosen, text)
    return re.sub(r"(?m)^( *)(.*·.*)$", wrapped, re.sub(r"\n *·", "·", text))


def wrapped(found):
    """A line that may be broken where it says."""
    indent, text = found.groups()
    first, *parts = text.split("·")
    lines = [indent + first]
    for part in parts:
        fits = len(lines[-1]) + 1 + len(part) <= WIDTH
        lines[-1:] = [lines[-1] + " " + part] if fits else [lines[-1], indent + "    " + part]
    return "\n".join(lines)


def written(name, counts, words):
    text = (data.DATA / "by_count" / name).read_text(encoding="utf-8")
    parts = re.sub(r"(?m)^# .*\n", "", text).split("====\n")
    if len(parts) == 1:
        return filled(parts[0], counts[0], words).rstrip("\n") + "\n"
    head, each, tail = parts
    return filled(head, MOST, words) + "".join(filled(each, count, words) for count in counts).rstrip("\n") + "\n" + filled(tail, MOST, words)


def words_of(cells):
    return {"{%s}" % word: text for word, text in (cell.split("=", 1) for cell in cells)}


def files():
    tables = data.rows("by_count/files.txt")
    shared = words_of(tables["shared"][0])
    for part in ("all in a file", "each in a file"):
        for path, template, numbers, kind, *more in tables[part]:
            first, last = numbers.split("-")
            words = {**shared, **words_of([*tables[kind][0], *more, "first=" + first, "last=" + last])}
            counts = range(int(first), int(last) + 1)
            for its in [counts] if part == "all in a file" else [[count] for count in counts]:
                yield filled(path, its[0], words), written(template, its, words)


def in_one_line(text):
    return re.sub(r",(?=[)}>\]])", "", re.sub(r"\s+", "", text))


def main(_given):
    made = list(files())
    return compare(made, "%d files by the number of fields" % len(made), same=in_one_line)
