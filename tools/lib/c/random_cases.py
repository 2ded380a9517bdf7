"""Random cases of every call of libufmt_c, the same ones for each seed: arguments of the tables' cases, mixed
and changed. What they expect is by the models of calls.py."""
import random
import re

from lib.c.calls import CALLS, FRONT, STYLES, has_buffer, kinds_of, wanted
from lib.model.documents import DebugMaker, Maker

# A changed input is cut at so many bytes, so that many are tried. What happens to long ones is in the tables.
LONGEST = 200
# So many arguments are changed, so many of these to others of the tables; so many belong to the one before.
CHANGED, OTHER, ALIKE = 0.5, 0.3, 0.4
FIELD_NAME = re.compile(rb"([^\x00-\x20\"'(),\[\]{}]+): ")
BITS = {"class": 2, "mode": 2, "bool": 1, "uint8_t": 8, "uint32_t": 32}
# The calls in turn: a conversion has most ways to go.
TURNS = [call for call in CALLS if call != "version"] + ["is_text", "convert"] * 3


class RandomCases:
    def __init__(self, seed, known):
        self.random, self.makers = random.Random(seed), (Maker(seed), DebugMaker(seed))
        self.known = {call: [case.arguments for case in known if case.call == call] for call in TURNS}

    def made(self, count):
        found = []
        while len(found) < count:
            found += (wanted(call, *self.arguments(call)) for call in TURNS)
        return found

    def arguments(self, call):
        """Those of a case of the tables, of which some are changed, or are of another case."""
        both = zip(kinds_of(call), *self.random.choices(self.known[call], k=2))
        found = [self.changed(*its) if self.random.random() < CHANGED else its[1] for its in both]
        if call == "field" and self.random.random() < ALIKE:
            found[2] = self.random.choice(FIELD_NAME.findall(found[1]) or [b"x"])
        if kinds_of(call) == ["text", "text"] and self.random.random() < ALIKE:
            lines = self.random.choices((b"", b"a", *found), k=self.random.randrange(9))
            found = [b"\n".join(lines)[:LONGEST], self.data(b"\n".join(lines), found[1])[:LONGEST]]
        return found

    def changed(self, kind, value, other):
        if self.random.random() < OTHER:
            return other
        if kind in STYLES:
            at = self.random.randrange(len(value))
            return *value[:at], self.number(STYLES[kind][at]), *value[at + 1 :]
        return self.data(value, other)[:LONGEST] if isinstance(value, bytes) else self.number(kind)

    def number(self, kind):
        """A number: small, of any length, or next to the largest."""
        bits = BITS.get(kind, 64)
        near = 2 ** self.random.randrange(bits) - self.random.randrange(2), -1 - self.random.randrange(3)
        some = self.random.randrange(200), *near, self.random.getrandbits(bits)
        number = self.random.choice(some) % 2**bits
        return number - 2**63 if kind == "int64_t" else number

    def data(self, value, other):
        """Bytes: these with a piece put in or cut out, a document, a number, characters, or anything."""
        at, end = (self.random.randrange(len(value) + 1) for _ in range(2))
        piece, maker = self.random.choice((b"\\u{", other)), self.random.choice(self.makers)
        length = self.random.randrange(LONGEST // 4)
        return self.random.choice((
            lambda: value[:at] + value[end:],
            lambda: value[:at] + piece + value[at:],
            lambda: value[:at] + other[self.random.randrange(len(other) + 1) :],
            lambda: maker.changed(value),
            maker.data,
            lambda: maker.number().encode(),
            lambda: maker.text(length).encode(),
            lambda: maker.characters(length).encode(),
            lambda: self.random.randbytes(self.random.randrange(LONGEST)),
        ))()

    def rooms(self, case):
        """How long the buffers are with which a case is tried: a random one too."""
        if not has_buffer(case):
            return [0]
        length = len(case.text or b"")
        most = FRONT if case.length is not None else length + 9
        return sorted({min(length, most), max(length - 1, 0), self.random.randint(0, most), self.random.choice((0, 1, most))})
