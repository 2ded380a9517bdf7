"""What ufmt_lines should write for a log. It has its own tables, and shares no code with the project.

A mode is the name of the texts that are written: "pretty", or "plain" for `--plain`.
"""
import re

from lib.model.document import STRUCTS, decoded, encoded, plain
from lib.model.reading import DEBUG, PRINTERS, READERS, PlainReader, PrettyReader

# What reads the texts for each mode: those of the other one.
OTHERS = {"pretty": PlainReader(DEBUG), "plain": PrettyReader(DEBUG)}
# How long a plain text is at most that stays, if nothing else is said.
LONGER_THAN = 40
# How many bytes of outputs are written before a chunk's others are made.
LEAST = 1024 * 1024
OPENING = (b"(", b"[", b"{")
BRACKET = re.compile(r"[(\[{]")
# A byte that a name may have: a byte of a word, or a colon.
NAME_BYTE = re.compile(r"""[^\x00-\x1f\x7f "'(),\[\]{}]""")
# The line of the first entry of a pretty block begins so.
FIRST_LINE = "\n    "


def name_start(text, at, end):
    """Where the longest run of bytes of a name begins that ends at `end`, from `at` on."""
    while end > at and NAME_BYTE.match(text[end - 1]):
        end -= 1
    return end


def is_name(word):
    return word != "" and not word.endswith(":")


def begins_with_field(text, at):
    found = OTHERS["pretty"].name_at(text, at)
    return found is not None and text.startswith(": ", found[1])


def brace_of(mode, text, at, opening):
    """The start of a value with this brace, and whether it is a map or a set after a name."""
    if opening == at or text[opening - 1] != " ":
        return opening, False
    start = name_start(text, at, opening - 1)
    if not is_name(text[start : opening - 1]):
        return opening, False
    begins = " " if mode == "pretty" else FIRST_LINE
    is_struct = text.startswith(begins, opening + 1) and (mode == "pretty" or begins_with_field(text, opening + 1 + len(begins)))
    return (start, False) if is_struct else (opening, True)


def start_of(mode, text, at, opening):
    """Where a value with this bracket begins, and whether it is a map or a set after a name."""
    if text[opening] == "{":
        return brace_of(mode, text, at, opening)
    if text[opening] == "(":
        start = name_start(text, at, opening)
        return (start if is_name(text[start:opening]) else opening), False
    return opening, False


def read_from(reader, text, start, is_alone=False):
    """The document that begins here and where it ends. A reader looks back from a colon, for a quote: it sees nothing of what is before."""
    if not is_alone and not text.startswith(":", start):
        return reader.document_at(text, start, 0)
    found = reader.document_at(text[start:], 0, 0)
    return found and (found[0], start + found[1])


def leaves(document):
    """How many leaves a document has. A block without entries is one."""
    if isinstance(document, str) or not document.entries:
        return 1
    return sum(leaves(value) + (leaves(before) if document.kind == "map" else 0) for before, value in document.entries)


def stays(text, opening, after_name, longer_than, document, end, start):
    if len(encoded(text[start:end])) <= longer_than or leaves(document) == 1:
        return True
    return after_name and document.kind == "map" and begins_with_field(text, opening + 1)


def found_values(mode, text, reader=None):
    """The values of a text from the left on: where each begins and ends, its document and its bracket, and whether it is a map or
    a set after a name. Another reader sees each alone."""
    at = 0
    while found := BRACKET.search(text, at):
        opening = found.start()
        start, after_name = start_of(mode, text, at, opening)
        value = read_from(reader or OTHERS[mode], text, start, is_alone=reader is not None)
        if value is None or isinstance(value[0], str) or not value[0].entries:
            at = opening + 1
            continue
        document, at = value
        yield start, at, document, opening, after_name


def values(mode, text, longer_than=LONGER_THAN):
    """The values of a text from the left on: where each begins and ends, and its output, or None if it stays."""
    for start, end, document, opening, after_name in found_values(mode, text):
        is_left = mode == "pretty" and stays(text, opening, after_name, longer_than, document, end, start)
        yield start, end, None if is_left else PRINTERS[mode](document)


def field_place(document, name):
    """How many characters come before the leaf of the struct's first field with this name, and the leaf; or None."""
    before = document.name + " { "
    for label, value in document.entries:
        before += label + ": "
        if label == name:
            return (len(before), value) if isinstance(value, str) else None
        before += plain(value) + ", "
    return None


def field(text_class, line, name):
    """Where the leaf of this field begins in a line, and the leaf: of the first value that is a struct with this field, where the
    field is a leaf. None if there is none."""
    text, wanted = decoded(line), decoded(name)
    for start, _end, document, _opening, _after_name in found_values("pretty", text, READERS["plain", text_class.name]):
        place = field_place(document, wanted) if document.kind in STRUCTS else None
        if place:
            return len(encoded(text[: start + place[0]])), encoded(place[1])
    return None


def output(mode, group, longer_than=LONGER_THAN):
    text = decoded(group)
    out, done = "", 0
    for start, end, other in values(mode, text, longer_than):
        if other is not None:
            out += text[done:start] + other
            done = end
    return encoded(out + text[done:])


def word_at(line):
    """Where the word of the bracket begins that a line ends with: a run of bytes of a name, before a brace also with a space after it."""
    words = decoded(line[:-2])
    if line.endswith(b"{\n") and words.endswith(" "):
        words = words[:-1]
    return len(encoded(words[: name_start(words, 0, len(words))]))


def end_in(mode, line, inside):
    """How many bytes of the line belong to the group that is open before it, or None if all do and it stays open."""
    if mode == "pretty":
        return len(line)
    opens, is_indented = line[:-1].endswith(OPENING), line.startswith(b" ")
    if opens and not is_indented:
        return word_at(line)
    return None if opens or (inside and is_indented) else len(line)


def groups(mode, log):
    """The groups of a log, each with the number of bytes after which it is known to end: its line's, or None for what is left at the end."""
    *lines, rest = log.split(b"\n")
    found, group, read = [], b"", 0
    for line in (line + b"\n" for line in lines):
        read += len(line)
        end = end_in(mode, line, group != b"")
        if end is None:
            group += line
            continue
        if group + line[:end]:
            found.append((read, group + line[:end]))
        group = line[end:]
    if group + rest:
        found.append((None, group + rest))
    return found


def gathered(pieces):
    """Outputs as they are written: as soon as there are LEAST bytes, and at the end."""
    found = [b""]
    for piece in pieces:
        found[-1] += piece
        found += [b""] * (len(found[-1]) >= LEAST)
    return list(filter(None, found))


def writes(mode, log, chunks, longer_than=LONGER_THAN):
    """What is written after each chunk is read, and last after the end: a list for each, with a piece for each write. The outputs
    for the groups that end in a chunk are one write, or more if they are long."""
    whole = [(end, output(mode, group, longer_than)) for end, group in groups(mode, log)]
    rounds, read, at = [], 0, 0
    for chunk in chunks:
        read += len(chunk)
        first = at
        while at < len(whole) and whole[at][0] is not None and whole[at][0] <= read:
            at += 1
        rounds.append(gathered(text for _read, text in whole[first:at]))
    return rounds + [gathered(text for _read, text in whole[at:])]
