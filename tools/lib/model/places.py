"""Where a text stops to be that of a value of a type, and what is expected there.

A type is one of `values.py`. What comes before and after the entries of a block is here, by its mode. A text is taken from the
front. It stops at the first piece that doesn't fit: a name, a number, a text or a character in quotes, or what is around entries.
A set or a map whose keys don't ascend, and an array of another length, stops where it begins.
"""
import re
import string

from lib.model.document import CLOSING, DEEPEST, OPENING, unquoted
from lib.model.reading import DEBUG, NO_UTF8, PlainReader, PrettyReader

WORDS = {"Name": "a name of the type", "Number": "a number of the type", "Character": "a character in apostrophes",
         "Text": "a text in quotation marks", "Punctuation": "punctuation", "Order": "keys in ascending order",
         "Count": "another number of values or blocks", "End": "the end of the text"}
# A byte past ASCII is of a character.
NAME_BYTES = (string.ascii_letters + string.digits + "_").encode() + bytes(range(0x80, 0x100))
# A number has these too.
WORD_BYTES = NAME_BYTES + b"-+."
# What comes after a name that is over there.
NAME_ENDS = re.compile(rb": (?!\})|\((?!\))|[ ,\[\]{})]|\Z")
# A leaf in these quotes, as far as its end shows: a backslash takes the next byte with it.
IN_QUOTES = {b'"': re.compile(rb'"[^"\\]*(?:\\.[^"\\]*)*"', re.DOTALL), b"'": re.compile(rb"'[^'\\]*(?:\\.[^'\\]*)*'", re.DOTALL)}
OPENINGS, CLOSINGS = ({kind: mark.encode() for kind, mark in marks.items()} for marks in (OPENING, CLOSING))
READERS = (PlainReader(DEBUG), PrettyReader(DEBUG))


class Stop(Exception):
    """Its arguments are where a text stops, and what is expected there."""


class Texts:
    """A text in a mode, and what is taken from a place in it. Each call returns where it ends."""

    def __init__(self, data, is_pretty):
        self.data, self.is_pretty = data, is_pretty
        self.ends = {}

    def line(self, blocks):
        return b"    " * (blocks * self.is_pretty)

    def piece(self, piece, at, expected="Punctuation"):
        if not self.data.startswith(piece, at):
            raise Stop(at, expected)
        return at + len(piece)

    def is_named(self, name, at):
        """Whether this name comes next, and is over there."""
        return self.data.startswith(name, at) and NAME_ENDS.match(self.data, at + len(name)) is not None

    def quoted_end(self, quote, at):
        """Where a leaf in these quotes ends, or None if none is there. Many types ask for the same one."""
        if (quote, at) not in self.ends:
            found = IN_QUOTES[quote].match(self.data, at)
            leaf = found[0].decode(errors="surrogateescape") if found else " "
            self.ends[quote, at] = None if NO_UTF8.search(leaf) or unquoted(leaf) is None else found.end()
        return self.ends[quote, at]

    # ---- blocks

    def opened(self, at, blocks):
        if blocks >= DEEPEST:
            raise Stop(at, "Count")
        return blocks + 1

    def before_first(self, kind, at, blocks):
        """What comes before the first entry of a block, which is in so many blocks with this one."""
        opening = b"" if kind in ("list", "set", "map") else OPENINGS[kind]
        return self.piece(opening + (b"\n" if self.is_pretty else b" " * (kind == "struct")) + self.line(blocks), at)

    def after(self, at):
        return self.piece(b",\n" if self.is_pretty else b"", at)

    def later(self, blocks):
        return self.line(blocks) if self.is_pretty else b", "

    def ending(self, kind, name, count, blocks):
        """What ends a block with so many entries, which is in so many blocks."""
        if self.is_pretty:
            return self.line(blocks) + CLOSINGS[kind]
        return b"," * (kind == "tuple" and not name and count == 1) + b" " * (kind == "struct") + CLOSINGS[kind]

    def fields(self, kind, at, blocks):
        at = self.piece(kind.name.encode(), at, "Name")
        inner = self.opened(at, blocks)
        for number, (name, value) in enumerate(kind.fields):
            at = self.piece(self.later(inner), at) if number else self.before_first(kind.kind, at, inner)
            if name:
                at = self.piece(b": ", self.piece(name.encode(), at, "Name"))
            at = self.after(value.taken(self, at, inner))
        return self.piece(self.ending(kind.kind, kind.name, len(kind.fields), blocks), at)

    def entries(self, block, entry, at, blocks):
        """A block in brackets or braces. Returns how many entries it has, and where it ends."""
        at, count = self.piece(OPENINGS[block], at), 0
        if self.data.startswith(CLOSINGS[block], at):
            return count, at + 1
        inner = self.opened(at, blocks)
        at = self.before_first(block, at, inner)
        while True:
            at, count = self.after(entry(at, inner)), count + 1
            if not self.data.startswith(self.later(inner), at):
                return count, self.piece(self.ending(block, "", count, blocks), at)
            at += len(self.later(inner))

    def document(self, at, end, blocks):
        return READERS[self.is_pretty].document_at(self.data[at:end].decode(), 0, blocks)[0]


def stop(kind, texts):
    try:
        end = kind.taken(texts, 0, 0)
    except Stop as found:
        return found.args
    return None if end == len(texts.data) else (end, "End")


# The bytes of a character, but for its first.
LATER_BYTES = bytes(range(0x80, 0xC0))


def told(form, word):
    """A word as it is printed, or nothing if there is none or it isn't UTF-8."""
    try:
        return form % word.decode() if word else ""
    except UnicodeDecodeError:
        return ""


def after_name(data, at):
    """What is printed of the name before a place, if a colon and a space come after one."""
    before = data[:at]
    name = before[len(before[:-2].rstrip(NAME_BYTES)) : -2] if before.endswith(b": ") else b""
    return told(", after `%s: `", name)


def found_at(data, at):
    """What is printed of what is found at a place: the end, one line feed at the end, or the bytes of a name or a number."""
    left = data[at:]
    if left in (b"", b"\n"):
        return ", found one last line feed" if left else ", found the end of the text"
    return told(", found `%s`", left[: len(left) - len(left.lstrip(WORD_BYTES))])


def stopped(data, at, expected):
    """What is printed of a type by which the text stops here."""
    *lines, last = data[:at].split(b"\n")
    # A column counts the bytes that begin a character.
    place = found_at(data, at), len(lines) + 1, len(last.translate(None, LATER_BYTES)) + 1, after_name(data, at)
    return "expected %s%s at line %d column %d%s, NotText { at: %d, expected: %s };" % (WORDS[expected], *place, at, expected)


def errors(data, stops):
    """What the program prints of the types that have no value with the text: each by its letter, with its stop."""
    lines = {found: stopped(data, *found) for found in set(stops.values()) if found}
    return "".join(letter + lines[found] for letter, found in stops.items() if found)
