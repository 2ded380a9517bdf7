"""A source file of Rattle as tokens with their places, and edits of its text."""
import re

TOKEN = re.compile(
    r"""(?P<space>\s+)
    |(?P<comment>//[^\n]*|/\*.*?\*/)
    |(?P<text>b?r(?P<hashes>\#*)".*?"(?P=hashes)|b?"(?:\\.|[^"\\])*"|b?'(?:\\(?:u\{[^}]*\}|x..|.)|[^'\\\n])')
    |(?P<number>[0-9][0-9A-Za-z_]*(?:\.[0-9][0-9A-Za-z_]*)?)
    |(?P<name>'?\w+)
    |(?P<sign>::|->|=>|\.\.=|\.\.|<<|==|!=|<=|>=|&&|\|\||[^\w\s])""",
    re.VERBOSE | re.DOTALL,
)
OPENING = {"(": ")", "[": "]", "{": "}"}


class Fault(Exception):
    """What a tool doesn't know, with its place."""

    def __init__(self, path, text, at, message):
        super().__init__("%s:%d: %s" % (path, text.count("\n", 0, at) + 1, message))


class Token:
    """A token of this kind, `text[start:end]`. `pair` is the index of the bracket that belongs to a bracket."""

    def __init__(self, kind, name, start):
        self.kind, self.name, self.start, self.end, self.pair = kind, name, start, start + len(name), None


class Source:
    """A file's text and its tokens. Comments are kept apart."""

    def __init__(self, path, text=None):
        self.path, self.text = path, path.read_text() if text is None else text
        found = (Token(match.lastgroup, match[0], match.start()) for match in TOKEN.finditer(self.text))
        kept = [token for token in found if token.kind != "space"]
        self.tokens = [token for token in kept if token.kind != "comment"]
        self.comments = [token for token in kept if token.kind == "comment"]
        self._pair()

    def _pair(self):
        opened = []
        for at, token in enumerate(self.tokens):
            if token.kind == "sign" and token.name in OPENING:
                opened.append(at)
            elif token.kind == "sign" and token.name in OPENING.values():
                if not opened or OPENING[self.tokens[opened[-1]].name] != token.name:
                    raise self.fault(at, "a bracket without its partner")
                token.pair = opened.pop()
                self.tokens[token.pair].pair = at
        if opened:
            raise self.fault(opened[-1], "a bracket without its partner")

    def fault(self, at, message):
        return Fault(self.path, self.text, self.tokens[at].start, message)

    def line(self, at):
        return self.text.count("\n", 0, self.tokens[at].start) + 1

    def name(self, at):
        return self.tokens[at].name if 0 <= at < len(self.tokens) else ""

    def all(self, *names):
        return [at for at, token in enumerate(self.tokens) if token.name in names]

    def is_word(self, at):
        return 0 <= at < len(self.tokens) and self.tokens[at].kind == "name"

    def find(self, at, names):
        """The index of the first of these from `at` on, outside further brackets; the number of tokens if there is none."""
        while at < len(self.tokens) and self.tokens[at].name not in names:
            token = self.tokens[at]
            if token.pair is not None and token.pair < at:
                return len(self.tokens)
            at = (token.pair if token.pair is not None else at) + 1
        return at

    def joined(self, start, end):
        """These tokens as one text, with a space only between two names and after a comma, and `""` for each text."""
        told = ""
        for token in self.tokens[start:end]:
            name = '""' if token.kind == "text" else token.name
            apart = told and (told[-1] == "," or (re.match(r"['\w]", name) and re.match(r"\w", told[-1])))
            told += " " + name if apart else name
        return told


def sources(folder, left_out=("tests", "tests.rt")):
    """The source files in a folder, but for tests."""
    return [path for path in sorted(folder.rglob("*.rt")) if not set(left_out) & set(path.relative_to(folder).parts)]


def closing(text, at=0, brackets="<>"):
    """Where the bracket closes that opens here. In a text of code `->` and `=>` close nothing."""
    depth = 0
    for at in range(at, len(text)):
        depth += (text[at] in brackets[::2]) - (text[at] in brackets[1::2] and text[at - 1 : at + 1] not in ("->", "=>"))
        if depth == 0:
            return at
    return len(text)


def outside_texts(path, text, pattern, new):
    """The text with each match of this pattern replaced, except of those that begin in a literal."""
    if not re.search(pattern, text):
        return text
    spans = [(token.start, token.end) for token in Source(path, text).tokens if token.kind == "text" and "\n" in token.name]

    def replaced(match):
        inside = any(start < match.start() < end for start, end in spans)
        return match[0] if inside else match.expand(new)

    return re.sub(pattern, replaced, text)


class Edits:
    """Parts of a text to replace. They don't overlap, or one is within another, which then counts alone."""

    def __init__(self, source):
        self.source, self.parts = source, []

    def replace(self, start, end, text):
        self.parts.append((start, end, text))

    def remove_lines(self, start, end):
        """Removes this part. If nothing else is on its lines, these are removed too."""
        text = self.source.text
        line = text.rfind("\n", 0, start) + 1
        rest = text.find("\n", end)
        rest = len(text) if rest < 0 else rest
        if not text[line:start].strip() and not text[end:rest].strip():
            start, end = line, min(rest + 1, len(text))
        elif not text[line:start].strip():
            # What follows takes the place.
            end += len(text[end:rest]) - len(text[end:rest].lstrip())
        else:
            start = line + len(text[line:start].rstrip())
        self.replace(start, end, "")

    def apply(self):
        text, done, at = self.source.text, [], 0
        for start, end, new in sorted(self.parts, key=lambda part: (part[0], -part[1])):
            if start < at:
                if end > at:
                    raise Fault(self.source.path, text, start, "two edits overlap")
                continue
            done += [text[at:start], new]
            at = end
        return "".join(done) + text[at:]
