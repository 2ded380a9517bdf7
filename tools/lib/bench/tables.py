"""The tables of `x bench` that count instructions of texts, floats, parsing and logs."""
import sys

from lib import data
from lib.bench import build, values
from lib.bench.calls import bytes_of, cargo, counted
from lib.floats import patterns
from lib.model.document import list_of

# ---- Each byte of a text that is converted, read or printed.

FIGURES = data.rows("bench/figures.txt")
SIZE = 1 << 20
LEAVES = ("1.5", "-2.5e-7", "0..5", "12:34:56.789", "127.0.0.1:80", "std::fmt::Error", "1.5s", "2026-11-29T04:05:06Z")
UNITS = {"ASCII": "All work and no play. ", "escapes": 'a\tb "c" d\\e\n', "accents": "été, où ça? ", "four bytes each": "\U0001F980\U0001F600 ok "}


def texts_by_name():
    made = {name: (unit * (SIZE // len(unit.encode()))).encode() for name, unit in UNITS.items()}
    for name, make in (("numbers", values.wide), ("texts", values.of_texts)):
        listed = list_of(*values.many(make, SIZE))
        for mode in ("plain", "pretty"):
            made["%s, %s" % (name, mode)] = values.FORMATS[mode](listed).encode()
    leaves = LEAVES * (SIZE // len(", ".join(LEAVES)))
    made["debug leaves, plain"] = ("[%s]" % ", ".join(leaves)).encode()
    made["debug leaves, pretty"] = ("[\n%s]" % "".join("    %s,\n" % leaf for leaf in leaves)).encode()
    return made


def texts(room, _given):
    program, made = build.over_copies(room, "texts", ["ufmt_doc"]), texts_by_name()
    print("%-22s %-18s %8s" % ("instructions", "text", "a byte"))
    for call, base, name in data.rows("bench/texts.txt")["calls"]:
        text = made[name]
        cost, said = counted([program, call], text)
        if said == b"0":
            sys.exit("x bench: %s refuses the text of %s" % (call, name))
        print("%-22s %-18s %8.1f" % (call, name, (cost - counted([program, base], text)[0]) / len(text)), flush=True)


# ---- One `{:?}` of an `f64`, beside core::fmt and the kit's ryu, and one with a number of decimals, beside core::fmt.

FEW, MANY = 1000, 3000


def float_instructions(program, value):
    number, _, decimals = value.partition(":")
    bits = b"%016x" % patterns.bits_of(number, 64) + (b" " + decimals.encode() if decimals else b"")
    few, many = (counted([program, "%x" % turns], bits)[0] for turns in (FEW, MANY))
    return (many - few) // (MANY - FEW)


def floats(room, _given):
    from lib.floats import step as programs

    made = [build_in(room / name) for name, build_in in (("ours", programs.ours), ("rustc", programs.theirs), ("ryu", programs.ryu))]
    print("%-24s%8s%12s%8s" % ("instructions", "ours", "core::fmt", "ryu"))
    for value, in FIGURES["floats"]:
        print("%-24s%8d%12d%8d" % (value, *(float_instructions(program, value) for program in made)), flush=True)
    for value in map(":".join, FIGURES["floats with decimals"]):
        print("%-24s%8d%12d" % (value, *(float_instructions(program, value) for program in made[:2])), flush=True)


# ---- Parsing, for each byte of a text and for each value, beside serde_json and ron; and the bytes of one more type that is parsed.

# Of smaller texts a list is copied when it grows, not mapped to another place.
SIZES = (500_000, 1_000_000)
# Of a struct of two numbers, of three, and of an enum: the case with one type, and with a second one.
TYPES = (("struct of two", "two"), ("struct of three", "three"), ("enum", "enum"))
DEPENDENCIES = ('serde = { version = "1", features = ["derive"] }', 'serde_json = { version = "1", features = ["float_roundtrip"] }', 'ron = "0.7"')


def parsing_cost(kind, text_format, parsing, reading, result):
    """Instructions for each byte, and for each value: by two sizes of text, less those of a run that only reads it."""
    found = []
    for size in SIZES:
        value, count = values.of_kind(kind, size)
        text = values.FORMATS[text_format](value).encode()
        total, said = counted(parsing, text)
        if said != result:
            sys.exit("x bench: %s isn't parsed of %s" % (kind, text_format))
        found.append((total - counted(reading, text)[0], len(text), count))
    cost, length, count = (more - less for less, more in zip(*found))
    return cost / length, cost / count


def parsing_one(words, result):
    (few, _), (many, said) = (counted([*words, count]) for count in (FEW, MANY))
    if said != result:
        sys.exit("x bench: the struct isn't parsed")
    return None, (many - few) / (MANY - FEW)


def parse_line(told, cells):
    print("%-20s" % told + "".join("%9s%9s" % tuple("-" if it is None else "%.*f" % (1 - place, it) for place, it in enumerate(cell))
                                     for cell in cells), flush=True)


def parse_sizes(room):
    """A line for each kind of type: bytes of a program that parses one, and how many more with a second one."""
    room.mkdir()
    build.over_copies(room, "parse_sizes", ["ufmt_parse"])
    print("%-20s%9s%9s" % ("bytes", "one", "one more"))
    for told, case in TYPES:
        one, both = (bytes_of(room, room / "module.o", "case_" + case + more) for more in ("", "_and_another"))
        print("%-20s%9d%9d" % (told, one, both - one), flush=True)


def parse(room, _given):
    program = build.over_copies(room, "parse", ["ufmt_parse"])
    peer = room / "peers" / "parse" / "target" / "linked" / "parse"
    peers = ("json", "ron") if cargo(room, "parse", "program", DEPENDENCIES, [], ["linked"]) else ()
    none = [(None, None)] * (2 - len(peers))
    print("%-20s%18s%18s%18s" % ("instructions", "ours", "serde_json", "ron"))
    print("%-20s" % "" + "%9s%9s" % ("a byte", "a value") * 3)
    for kind, mode in FIGURES["parse"]:
        ours = parsing_cost(kind, mode, [program, kind, mode, "parse"], [program, kind, mode, "none"], b"1")
        theirs = [parsing_cost(kind, other, [peer, kind, other], [peer, kind, "none"], b"") for other in peers]
        parse_line(kind + " " + mode, [ours, *theirs, *none])
    # 3 and -4, so often.
    theirs = [parsing_one([peer, "one", other], b"%d" % (-MANY % (1 << 64))) for other in peers]
    parse_line("one measurement", [parsing_one([program, "one", "plain"], b"1"), *theirs, *none])
    parse_sizes(room / "sizes")
