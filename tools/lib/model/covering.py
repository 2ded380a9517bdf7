"""Documents that fill each cell of the table of coverage, and of what only debug texts have. What a cell leaves open is chosen at
random."""
from lib.model.coverage import (BLOCKS, DEBUG_LEAVES, DEBUG_PLACES, DEPTHS, EXACT_ENTRIES, EXACT_LENGTH,
                                LEAVES, MANY, OPEN_STRUCTS, PLACES, powers)
from lib.model.debug_leaves import ESCAPED, NAME_SHAPES, SHAPES
from lib.model.document import DEEPEST, STRUCTS, Block, list_of, quoted, tuple_of

# Blocks of blocks have about so many leaves.
LEAVES_EACH = 500
DOTS = ".."
# Entries of wide blocks.
SMALL = ("x", "7", "-", "()", '""', "'a'", Block("list", "", []), Block("map", "", []))
SHAPES_EACH = 60


def turns(row):
    """The row with each of its items first."""
    return [row[at:] + row[:at] for at in range(1, len(row) + 1)]


class Covering:
    """Of token texts. Debug texts have other blocks and structs; kinds and places are all of a class."""

    blocks, structs, in_places, kinds = BLOCKS, ("struct",), PLACES, BLOCKS + LEAVES

    def __init__(self, maker):
        self.maker, self.random, self.inside = maker, maker.random, maker.inside

    def documents(self):
        yield from map(self.of_kind, self.kinds)
        for each in (self.places, self.lengths, self.entries, self.spines, self.equals):
            yield from each()

    def of_kind(self, kind):
        if kind.startswith("empty"):
            return Block(kind[6:], self.maker.word() if kind[6:] in STRUCTS else "", [])
        if kind in BLOCKS or kind in STRUCTS:
            return self.maker.block(kind, [self.maker.leaf() for _ in range(self.random.choice((1, 1, 2, 3)))])
        if kind == "text":
            return self.maker.text(self.random.randrange(9))
        return "()" if kind == "unit" else self.maker.word() if kind == "word" else self.maker.character()

    def some(self):
        documents = [*map(self.of_kind, self.kinds)]
        self.random.shuffle(documents)
        return documents

    def places(self):
        """Each kind in each place: alone, first, in the middle and last; and in each place of a block in each place."""
        for place in self.in_places:
            yield list_of(*(self.inside(place, [document]) for document in self.some()))
            yield from (self.inside(place, documents) for documents in turns(self.some()))
            yield from (self.inside(outer, [self.inside(place, self.some())]) for outer in self.in_places)
        yield from (Block("map", "", [*zip(keys, self.some())]) for keys in turns(self.some()))

    def within(self, size):
        return self.random.randint(size // 2 + 1, size)

    def sizes(self, exact, last):
        """Each number up to one, and one of each class from there to the last."""
        return [size if size <= exact else self.within(size) for size in powers(last, exact)]

    def lengths(self):
        sizes = self.sizes(EXACT_LENGTH, 16384)
        for sixteen in (sizes[at : at + 16] for at in range(0, len(sizes), 16)):
            for kind in self.structs:
                fields = [[(self.word(size), self.word(size))] for size in sixteen]
                named = [Block(kind, self.word(size), its) for size, its in zip(sixteen, fields)]
                yield Block("set", "", [(None, each) for each in named])
            yield list_of(*(tuple_of(self.text(size), name=self.word(size)) for size in sixteen))
        for size in map(self.within, powers(262144)[15:]):
            yield from (self.word(size), self.text(size))
        yield from map(self.word, map(self.within, powers(16384)))

    def word(self, length):
        return self.maker.word(length)

    def text(self, length):
        return quoted("".join(self.random.choices("ab ,:[]{}()\u00e9\u20ac\U0001f980", k=max(length - 2, 0))))

    def entries(self):
        for kind in self.blocks:
            row, leaves = [], 0
            for count in self.sizes(EXACT_ENTRIES, 1024):
                row.append(self.wide(kind, count))
                leaves += count
                if leaves > LEAVES_EACH:
                    yield list_of(*row)
                    row, leaves = [], 0
            yield from (self.wide(kind, self.within(size)) for size in powers(512))

    def wide(self, kind, count):
        return self.maker.block(kind, self.random.choices(SMALL, k=count))

    def many(self):
        for kind in BLOCKS:
            values = self.random.choices("abcdefgh", k=self.random.randint(MANY, MANY + 999))
            entries = [(value, "1") if kind == "map" else (None, value) for value in values]
            if kind == "struct":
                entries = [("%s%x" % (value, number), value) for number, value in enumerate(values)]
            yield Block("tuple" if kind == "unnamed" else kind, {"struct": "S", "tuple": "T"}.get(kind, ""), entries)

    def spines(self):
        """Blocks nested as deep as allowed, with each of these beside at each class of depths."""
        may_be_last = [kind for kind in self.kinds if kind not in (*BLOCKS, *STRUCTS)]
        yield self.spine(lambda depth: map(self.of_kind, self.kinds if depth < DEEPEST else may_be_last))
        yield self.spine(lambda depth: map(self.word, map(self.within, powers(1024))))
        for kind in (*self.structs, "tuple"):
            sizes = [self.within(size) for size in powers(512)]
            names = [self.word(size) if kind in STRUCTS else None for size in sizes]
            named = [Block(kind, self.word(size), [(name, "x")]) for size, name in zip(sizes, names)]
            yield from named
            yield self.spine(lambda depth, named=named: named if depth < DEEPEST else [], 1)
        yield self.spine(lambda depth: [self.wide(self.random.choice(self.blocks), self.within(size))
                                        for size in powers(256) if depth < DEEPEST], 1)
        # Maps in the keys of maps, with so many entries at some depths.
        for more in (0, 1, 2):
            yield self.nested(self.depths(-1) | {1}, lambda _depth: self.random.choices("xyz", k=more), "key")

    def depths(self, less):
        """A depth of each class, less this."""
        return {(255 if depth == 255 else min(self.within(depth), 254)) - less for depth in DEPTHS}

    def nested(self, depths, beside, place):
        """A chain of blocks. At these depths it has documents beside."""
        document = self.maker.leaf()
        for depth in range(DEEPEST, 0, -1):
            documents = list(beside(depth)) if depth in depths else []
            documents.insert(self.random.randint(0, len(documents)), document)
            document = self.inside(place or self.random.choice(self.in_places), documents)
        return document

    def spine(self, beside, less=0):
        return self.nested(self.depths(less), beside, None)

    def equals(self):
        for kind in self.blocks:
            for names in ("aa", "aba", "baa", "abca", "aaa"):
                entries = [(name, self.maker.leaf()) for name in names if kind == "map" or kind in STRUCTS]
                name = "S" if kind in STRUCTS else ""
                yield Block(kind, name, entries) if entries else self.maker.block(kind, list(names))


class DebugCovering(Covering):
    blocks, structs, in_places = ("open struct",), STRUCTS, DEBUG_PLACES
    kinds = BLOCKS + LEAVES + DEBUG_LEAVES + OPEN_STRUCTS

    def documents(self):
        yield from super().documents()
        for each in (self.shapes, self.counts, self.names, self.dots):
            yield from each()

    def of_kind(self, kind):
        shapes = {"word": "w", "debug word": "p", "quotes": self.random.choice(("o", "wt", "cpc", "Ct"))}
        return self.maker.of_shape(shapes[kind]) if kind in shapes else super().of_kind(kind)

    def word(self, length):
        return self.maker.word_of(self.random.choice("pu"), length)

    def text(self, length):
        return 'b"%s"' % ("x" * (length - 3))

    def shapes(self):
        for start in range(0, len(SHAPES), SHAPES_EACH):
            yield list_of(*map(self.maker.of_shape, SHAPES[start : start + SHAPES_EACH]))
        yield from (list_of(*("b%s\\%s%s" % (quote, character, quote) for character in ESCAPED)) for quote in "\"'")

    def counts(self):
        sizes = self.sizes(EXACT_ENTRIES, 1024)
        yield list_of(*map(self.maker.of_pieces, sizes))
        yield list_of(*(":" * size + self.maker.of_shape("p") for size in sizes))
        yield list_of(*("a" + ":" * size + self.maker.of_shape("o") for size in sizes))
        yield from (self.maker.of_pieces(self.within(size)) for size in powers(16384)[11:])
        yield from ("a" + ":" * self.within(size) + "1.5" for size in (*powers(32768)[11:], 131072))

    def names(self):
        """Names of these shapes, and for each length that of a struct with nothing but dots."""
        for letters in NAME_SHAPES:
            name = self.maker.of_shape
            yield list_of(*(Block(kind, name(letters), [(name(letters), "1.5")]) for kind in STRUCTS))
            yield list_of(Block("open struct", name(letters), []), tuple_of("x", name=name(letters)))
        yield list_of(*(Block("open struct", self.word(size), []) for size in self.sizes(EXACT_LENGTH, 4096)))

    def dots(self):
        """Dots as values and as names of fields: alone, first, in the middle and last. Dots as the name of a struct."""
        for row in ([DOTS], [DOTS, "x", "y"], ["x", DOTS, "y"], ["x", "y", DOTS], [DOTS] * 3):
            yield from (self.maker.block(kind, row) for kind in (*BLOCKS, "open struct"))
            for kind in STRUCTS:
                yield Block(kind, "S", [(name, "1") for name in row])
                yield Block(kind, DOTS, [(name, name) for name in row])
        yield from (Block("open struct", DOTS, []), tuple_of(DOTS, name=DOTS))
