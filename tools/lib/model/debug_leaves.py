"""Leaves and names that debug documents have and token documents haven't: their shapes, and what makes them.

A shape has a letter for each piece of a leaf. A word is `w` if a token document may have it, `p` if it has other ASCII
characters, as points, and `u` if it has characters past ASCII. A piece in quotes is `t` or `c` if it is a text or a character
that a token document may have, and `o` if it is spelled otherwise. Colons are `C`, and `()` is `U`. `L` is the apostrophe of
a lifetime, which a word follows. At a leaf's start, `W` is a word in parentheses, and `A` an address in brackets and a colon.
"""
import itertools
import re

from lib import data
from lib.model.document import QUOTED_CHARACTER, QUOTED_TEXT, WORD
from lib.model.reading import IN_QUOTES, LIFETIME, START, UNIT, WORD_BYTES

WORDS, QUOTES, COLONS, UNITS, LIFETIMES, STARTS = "wpu", "tco", "C", "U", "L", "WA"
PIECE = re.compile("(%s)|(%s)|(:+)|%s|%s" % (WORD_BYTES, "|".join(IN_QUOTES), LIFETIME, UNIT))
# Bytes that end a word, but for controls and colons.
ENDS = " \"'(),[]{}"
# The ASCII characters that only debug words have, what may follow a backslash, and shapes of names.
POINTS = "".join(chr(code) for code in range(0x21, 0x7F) if chr(code) not in ENDS + ":" and not WORD.fullmatch(chr(code)))
ESCAPED = "".join(map(chr, range(0x20, 0x7F)))
NAME_SHAPES = ("p", "u", "Cp", "pCu", "wCw", "uCw")
PAST_ASCII = "\u00e9\u00b5\u0301\u20ac\u200b\ufeff\U0001f980\U0010ffff"
# What rustc prints of values of std.
PRINTED = tuple(map(data.text_of, data.parts("texts/pieces.txt")["printed"]))


def letter_of(found):
    word, in_quotes, colons = found.groups()
    if in_quotes:
        return "t" if QUOTED_TEXT.fullmatch(in_quotes) else "c" if QUOTED_CHARACTER.fullmatch(in_quotes) else "o"
    if word:
        return "w" if WORD.fullmatch(word) else "p" if word.isascii() else "u"
    return "C" if colons else "L" if found[0] == "'" else "U"


def shape(leaf):
    start = START.match(leaf)
    pieces = PIECE.finditer(leaf, start.end() if start else 0)
    return ("" if start is None else "W" if leaf[0] == "(" else "A") + "".join(map(letter_of, pieces))


def is_shape(letters):
    if letters in ("w", "t", "c", "U") or any(letter in STARTS for letter in letters[1:]):
        return False
    pairs = [*zip(letters, letters[1:] + " ")]
    if any(a in "A" + LIFETIMES and b not in WORDS for a, b in pairs):
        return False
    return not any((a in WORDS and b in WORDS) or (b == COLONS and a in QUOTES + COLONS) for a, b in pairs)


# All shapes of up to three pieces.
LETTERS = STARTS + WORDS + QUOTES + COLONS + UNITS + LIFETIMES
SHAPES = [row for count in (1, 2, 3) for row in map("".join, itertools.product(LETTERS, repeat=count)) if is_shape(row)]


def joined(pieces):
    """The pieces in a row. A word that ends with a backslash before a quote ends with a point. After a lifetime's apostrophe no
    word has a backslash first, nor one character alone before another apostrophe."""
    found = ""
    for piece in pieces:
        if piece[0] in "\"'" and found.endswith("\\"):
            found = found[:-1] + "."
        if piece[0] == "'" and found[-2:-1] == "'" and found[-1] not in "\"'":
            found += "a"
        if piece[0] == "\\" and (found.endswith("'") or (found.startswith("[") and found.endswith("]:"))):
            piece = "." + piece[1:]
        found += piece
    return found


# ---- Texts that are no debug texts, by the reason why: those of tools/data/texts/refused.txt, and long ones.

# What each of these in a row stands for.
EACH = {
    b"<control>": [bytes([code]) for code in (*range(0x20), 0x7F)],
    b"<bad>": (b"\x80", b"\xff", b"\xc3", b"\xc0\x80", b"\xe2\x82", b"\xed\xa0\x80", b"\xf0\x9f\xa6", b"\xf4\x90\x80\x80"),
    b"<past>": [character.encode() for character in "\u00e9\u0301\u20ac\U0001f980"],
    b"<colons>": [b":" * count for count in (1, 2, 3, 999, 1000, 1001, 100_000)],
}
MANY_PIECES = 33_000


def texts_of(row):
    """The texts of a row: one, or one for each of what stands in it."""
    text = data.data_of(row)
    mark = next((mark for mark in EACH if mark in text), None)
    return [text.replace(mark, each) for each in EACH[mark]] if mark else [text]


REFUSED = {reason: [text for row in rows for text in texts_of(row)] for reason, rows in data.parts("texts/refused.txt").items()}
REFUSED["many quotes of which the last isn't closed"] = [b'"a"' * MANY_PIECES + b'"', b"'a'.." * MANY_PIECES + b"'", b'""' * MANY_PIECES + b"'"]
REASON_OF = {text: reason for reason, texts in REFUSED.items() for text in texts}
