"""Random logs, and how they are cut into chunks. One seed makes the same ones each time."""
import itertools

from lib import data
from lib.model.document import Block, list_of, plain, pretty, quoted
from lib.model.documents import DebugMaker

# Lines that were a fault once, what random logs are mixed of, and what long lines have many times.
NAMED, PIECES, LONG = (list(map(data.data_of, rows)) for rows in data.parts("logs/nasty.txt").values())
# Counts and lengths around those where a counter or a buffer could end.
NUMBERS = (*range(1, 18), 31, 32, 33, 63, 64, 65, 127, 128, 129, 254, 255, 256, 257, 1000, 1023, 1024, 1025)
LENGTHS = (4095, 4096, 4097, 8191, 8192, 8193, 65_535, 65_536, 65_537, 131_072, 200_000)
# The most that a chunk has: a read takes no more.
CHUNK = 64 * 1024
PAST_CHUNK = CHUNK + 4096


class Maker:
    def __init__(self, seed):
        self.documents = DebugMaker(seed)
        self.random, self.size = self.documents.random, self.documents.size

    def text(self):
        return self.random.choice((plain, pretty))(self.documents.mixed(self.size(50))).encode()

    def changed(self, text):
        """The text with a byte or a piece too many or too few, or with its lines changed."""
        at, piece = self.random.randrange(len(text) + 1), self.random.choice(PIECES)
        line_end = self.random.choice((b"\r\n", b"\n ", b"\n\n", b" \n", b"", b" "))
        return self.random.choice((
            text[:at], text[:at] + text[at + 1 :], text[:at] + piece + text[at:], text + piece,
            text.replace(b"\n", line_end), text[:at] + b"\n" + self.words() + b"\n" + text[at:],
        ))

    def words(self):
        """Pieces in a row, as a rule of few kinds."""
        kinds, most = self.random.randint(2, 12), self.random.choice((*[14] * 50, 100))
        pieces = self.random.sample(PIECES, kinds) if self.random.random() < 0.7 else PIECES
        return b"".join(self.random.choices(pieces, k=self.size(most)))

    def entry(self):
        """What is between two line feeds of a log, as a rule: some words, and a text or nearly one."""
        words, text, piece = self.words(), self.text(), self.random.choice((b"", b" ", *PIECES))
        near, two = words + piece + self.changed(text), text + piece + self.text()
        return self.random.choice((words, piece + text, words + b" " + text, near, two))

    def log(self):
        return b"\n".join(self.entry() for _ in range(self.size(100))) + self.random.choice((b"", b"\n", b"\n\n", b"\r\n", b" "))

    def chunks(self, log):
        """The log in chunks, of which one read takes each: whole lines, bytes, or chunks of any size."""
        form = self.random.randrange(4)
        if form == 0 and len(log) < 3000:
            return [log[at : at + 1] for at in range(len(log))]
        pieces = log.splitlines(keepends=True) if form == 1 else self.pieces(log) if form == 2 else [log]
        return [chunk for piece in pieces for chunk in whole(piece)]

    def pieces(self, log):
        most = self.random.choice((10, 1000, CHUNK))
        at = 0
        while at < len(log):
            end = at + max(self.size(most), len(log) // 2000)
            yield log[at:end]
            at = end


def whole(log):
    return [log[at : at + CHUNK] for at in range(0, len(log), CHUNK)]


def each_byte():
    for byte in (bytes([code]) for code in range(256) if code != 10):
        yield from (byte, b"a" + byte + b"[1]", byte + b" [1]", b"[" + byte + b"]", b"[1]" + byte, b"[1] " + byte, b'a ["' + byte + b'"]')
        yield from (b"a " + byte + b"\n    1,\n]", b"a [\n" + byte + b"   1,\n]", b"a [\n    1," + byte + b"\n]", b"a [" + byte, b"b")


def lists(number):
    """A document in so many lists, or in as many as can be one too many."""
    document = "x"
    for _ in range(number if number <= 257 else 1):
        document = list_of(document)
    return document


def each_number():
    """Lines, groups and texts with so many words, spaces, bytes, entries and blocks."""
    one = list_of("1")
    for number in NUMBERS:
        for printed in (plain, pretty):
            text = printed(one).encode()
            yield from (b"a " * number + text, b" " * number + text, b"a" * number + b" " + text, b"[ " * number + text)
            yield from ((text + b" ") * number + text, b"a [1] b " + printed(lists(number)).encode())
            yield printed(list_of(*["1"] * number)).encode()
            yield quoted("\u00e9\n" * number).encode() + b" " + text
            yield b"a " + printed(list_of(quoted(" " * number + "[1]"))).encode()
        yield b"a [" + b"\n    b" * number + b"\n]\nb" + b"\n" * number + b"(" * number
        yield b"a [" + b"\n  b c" * number
        for printed in (plain, pretty):
            yield b"a " + printed(Block("open struct", "S" * number, [("f", "1")] * number)).encode()
            yield b"a " * number + printed(Block("open struct", "S" * number, [])).encode()


def each_length():
    """Long lines with a text at the end, which ends near the end of a chunk; and one piece many times. A
    block could open at each `(a, ` or `[`, and each is read: of these there are fewer."""
    for piece, end in itertools.product(LONG, (b"", b" ", b"[1]", b" [1]")):
        yield piece * ((1000 if piece.startswith((b"(", b"[")) else PAST_CHUNK) // len(piece)) + end
    for length, text in itertools.product(LENGTHS, (b" [1]", b" [\n    1,\n]", b'["')):
        yield b"a" * (length - len(text)) + text
        yield text + b"a" * (length - len(text) - 1) + b'"]'


# More bytes than a short read would take. So many of them fill what ufmt_conv reads at most.
PAST_SHORT = CHUNK // 16


def each_first_byte():
    """Lines that begin with each byte, twice each, and then lines that end with it, each a chunk: no byte there makes the next read shorter."""
    starts = [bytes([byte]) for byte in range(256) for _ in range(2)]
    rest = b"a" * (PAST_SHORT - 2)
    return [start + rest + b"\n" for start in starts] + [rest + start + b"\n" for start in starts]


def each_last_byte():
    """Chunks that end with each byte, for a program that reads its input whole."""
    return [b"a" * (PAST_SHORT - 1) + bytes([byte]) for byte in range(256) for _ in range(2)]


def first_logs():
    """Logs that come first with every seed, each with its chunks."""
    maker = Maker(0)
    for lines in (each_byte(), each_number(), each_length()):
        log = b"\n".join(lines)
        yield log, maker.chunks(log)
        yield log + b"\n", whole(log + b"\n")
    yield b"".join(each_first_byte()), each_first_byte()
    for log in (b"", b"\n", b" ", b"\0", b"\r\n", b"[\n", b"[\n ", b"[1]", b"[\n    1,\n]", b"a\n\n\n", b"\n" * 1000, b"[\n" * 1000, b"a\n" * 5000):
        yield log, [log] if log else []
        yield log, [bytes([byte]) for byte in log[:3000]] + ([log[3000:]] if len(log) > 3000 else [])


def logs(count, seed):
    """Each log with its chunks: first those of each seed, then so many random ones."""
    maker = Maker(seed)
    yield from first_logs()
    yield from ((log, maker.chunks(log)) for log in (maker.log() for _ in range(count)))
