"""The readers of the model: the leaves of each class of texts, and the documents of plain and pretty texts."""
import re
from collections import namedtuple

from lib.model.document import (DEEPEST, EMPTY, INDENT, PLAIN_FRAMES, PRETTY_FRAMES, QUOTED_CHARACTER, QUOTED_TEXT, WORD, Block,
                                is_single, plain, pretty)

# ---- The leaves of each class. A call returns a leaf and where it ends, or None, or False.

# A byte that isn't UTF-8, as `surrogateescape` decodes it.
NO_UTF8 = re.compile("[\ud800-\udfff]")
# A class of texts: its name, the leaf at a place, whether a leaf is a name, and whether a struct may end in dots.
TextClass = namedtuple("TextClass", "name leaf_at is_name has_open_structs")


def leaf_at(text, at):
    """A word, a leaf in quotes, or `()`."""
    for pattern in (WORD, QUOTED_TEXT, QUOTED_CHARACTER):
        found = pattern.match(text, at)
        if found:
            return None if NO_UTF8.search(found[0]) else (found[0], found.end())
    return ("()", at + 2) if text.startswith("()", at) else None


TOKEN = TextClass("token", leaf_at, WORD.fullmatch, has_open_structs=False)


def is_of_tokens(leaf):
    found = leaf_at(leaf, 0)
    return found is not None and found[1] == len(leaf)


# A leaf of the class DEBUG may begin with a word in parentheses, or with an address in brackets, a colon and a byte of a word. A
# piece of it is bytes of a word, a text in quotation marks, one character or escape in apostrophes, any other apostrophe before
# a byte of a word, `()`, or colons. In quotes a backslash takes the next character with it. In a word it is no byte before a
# quote. A colon is no piece right after a closing quote, nor before a space that no closing brace follows.
CONTROLS = r"\x00-\x1f\x7f"
WORD_BYTES = "(?:[^" + CONTROLS + r""" "'(),:\[\]{}\\]|\\(?!["']))+"""
IN_QUOTES = [r'"(?:[^\\"' + CONTROLS + r']|\\[ -~])*"', r"'(?:[^\\'" + CONTROLS + r"]|\\[ -~][A-Za-z0-9{}]*)'"]
PLAIN_BYTE = "[^" + CONTROLS + r""" "'(),:\[\]{}\\]"""
LIFETIME = "'(?=" + PLAIN_BYTE + ")"
UNIT = r"\(\)"
COLONS = r"""(?:(?<!["']):(?! (?!\})))+"""
PIECE = re.compile("|".join([WORD_BYTES, *IN_QUOTES, LIFETIME, UNIT, COLONS]))
# Any byte of a word, also a backslash before a quote; and one that a name may have.
ANY_BYTE = "[^" + CONTROLS + r""" "'(),:\[\]{}]"""
NAME_BYTE = "[^" + CONTROLS + r""" "'(),\[\]{}]"""
START = re.compile(r"\(" + ANY_BYTE + r"+\)|\[" + NAME_BYTE + r"+\]:(?=" + PLAIN_BYTE + ")")


def debug_leaf_at(text, at):
    """The start, and all pieces that come in a row. A quotation mark that nothing closes is no leaf, nor is what comes before it.
    False says so, and that no block begins here either."""
    started = START.match(text, at)
    end = started.end() if started else at
    while found := PIECE.match(text, end):
        end = found.end()
    if text.startswith('"', end) or NO_UTF8.search(text, at, end):
        return False
    return (text[at:end], end) if end > at else None


def is_debug_name(leaf):
    return not leaf.endswith(":") and not any(character in leaf for character in "\"'([")


DEBUG = TextClass("debug", debug_leaf_at, is_debug_name, has_open_structs=True)


# ---- The readers of plain and pretty texts. A call returns a document and where it ends, or None.


class Reader:
    """A reader of one mode and one class. `reached` is where the last piece ended that fits."""

    def __init__(self, text_class=TOKEN):
        self.text_class = text_class
        self.reached, self.last = 0, None

    def read(self, text):
        self.reached, self.last = 0, text
        found = self.document_at(text, 0, 0)
        return found[0] if found and found[1] == len(text) else None

    def place(self, text):
        """How many bytes at the front of a text are before the piece that doesn't fit, or all of them if none is."""
        if text is not self.last:
            self.read(text)
        return len(text[: self.reached].encode("utf-8", "surrogateescape"))

    def passed(self, at):
        """A piece of the text ended here."""
        self.reached = max(self.reached, at)
        return at

    def document_at(self, text, at, depth):
        found = self.text_class.leaf_at(text, at)
        if found is False:
            return None
        for kind in ("list", "map"):
            if text.startswith(EMPTY[kind], at):
                found = Block(kind, "", []), at + 2
        name, start = found if found and isinstance(found[0], str) and self.text_class.is_name(found[0]) else ("", at)
        block = self.block_at(text, start, depth, name) if name or not found else None
        if found and block is None:
            self.passed(found[1])
            return found
        return block or None

    def block_at(self, text, at, depth, name):
        """The block that opens here. None if no block opens, and False if the block is not whole."""
        without_fields = EMPTY["open struct"]
        if name and self.text_class.has_open_structs and text.startswith(without_fields, at):
            return Block("open struct", name, []), self.passed(at + len(without_fields))
        kinds = ("struct", "tuple") if name else ("list", "map", "tuple")
        kind = next((kind for kind in kinds if text.startswith(self.frames[kind][0], at)), None)
        at += len(self.frames[kind][0]) if kind else 0
        opened = self.before_entry(text, at, depth, True) if kind else None
        if opened is None:
            return None
        self.passed(opened)
        return depth < DEEPEST and self.whole(text, self.entries_at(text, at, depth, kind), depth, kind, name)

    def whole(self, text, found, depth, kind, name):
        if found is None:
            return False
        entries, at = found
        if kind == "map" and entries[0][0] is None:
            kind = "set"
        if self.ends_in_dots(text, at, depth, kind):
            kind = "open struct"
        block = Block(kind, name, entries)
        end = self.closing(block, depth)
        return text.startswith(end, at) and (block, self.passed(at + len(end)))

    def ends_in_dots(self, text, at, depth, kind):
        """Whether dots and the end of a struct come here, after a field. A field's name may be two dots, too."""
        may = kind == "struct" and self.text_class.has_open_structs
        return may and text.startswith(self.closing(Block("open struct", "", []), depth), at)

    def name_at(self, text, at):
        found = self.text_class.leaf_at(text, at)
        return found if found and self.text_class.is_name(found[0]) else None

    def entry_at(self, text, at, depth, kind, is_set):
        """An entry. A field has a name and a colon before its value, and a pair has a key and a colon."""
        before = None
        if kind == "struct":
            found = self.name_at(text, at)
            if found is None or not text.startswith(": ", found[1]):
                return None
            before, at = found[0], self.passed(found[1] + 2)
        found = self.document_at(text, at, depth + 1)
        if found and kind == "map" and not is_set and text.startswith(": ", found[1]):
            before = found[0]
            found = self.document_at(text, self.passed(found[1] + 2), depth + 1)
        return found and ((before, found[0]), found[1])

    def entries_at(self, text, at, depth, kind):
        """At least one entry, up to the closing bracket. In braces all have a colon, or none has."""
        entries, more = [], self.before_entry(text, at, depth, True)
        while more is not None:
            is_set = bool(entries) and entries[0][0] is None
            found = self.entry_at(text, self.passed(more), depth, kind, is_set)
            if found is None:
                return None
            entry, at = found
            entries.append(entry)
            at = self.after_entry(text, at)
            if at is None or (entry[0] is None) != (entries[0][0] is None):
                return None
            more = None if self.ends_in_dots(text, at, depth, kind) else self.before_entry(text, at, depth, False)
        return (entries, at) if entries else None


class PlainReader(Reader):
    frames = PLAIN_FRAMES

    def closing(self, block, _depth):
        return "," * is_single(block) + self.frames[block.kind][1]

    def before_entry(self, text, at, _depth, is_first):
        return at if is_first else at + 2 if text.startswith(", ", at) else None

    def after_entry(self, _text, at):
        return at


class PrettyReader(Reader):
    frames = PRETTY_FRAMES

    def closing(self, block, depth):
        dots = INDENT * (depth + 1) + "..\n" if block.kind == "open struct" else ""
        return dots + INDENT * depth + self.frames[block.kind][1]

    def before_entry(self, text, at, depth, _is_first):
        """Where the entry begins, after the indentation of its line."""
        indentation = INDENT * min(depth + 1, DEEPEST)
        return at + len(indentation) if text.startswith(indentation, at) else None

    def after_entry(self, text, at):
        return at + 2 if text.startswith(",\n", at) else None


MODES = ("plain", "pretty")
OTHER = {"plain": "pretty", "pretty": "plain"}
# A reader of each class of texts, by its mode and the name of the class, and what prints documents in a mode.
READERS = {(mode, text_class.name): maker(text_class)
           for mode, maker in zip(MODES, (PlainReader, PrettyReader)) for text_class in (TOKEN, DEBUG)}
PRINTERS = {"plain": plain, "pretty": pretty}


def converted(mode, name, text):
    """The text in the other mode of what is a text of this mode, in the class of this name; or None."""
    document = READERS[mode, name].read(text)
    return None if document is None else PRINTERS[OTHER[mode]](document)


def document_of(text):
    """The document of a plain debug text."""
    return READERS["plain", "debug"].read(text)
