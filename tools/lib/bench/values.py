"""Values made from one seed, as documents of the model, and their texts: as `{:?}` and `{:#?}` print them, as JSON and as RON."""
import functools
import json
import random

from lib.model.document import Block, list_of, plain, pretty, quoted, tuple_of, unquoted

# Each run makes the same values.
SEED = 1
WORDS = ("status", "the line is open", "a, b: [c]", "x", "sensor 4 of 12", "valve",
         "retry later, or call the operator of the second line", "ok")
SHORT_WORDS = ("status", "the line is open", "a, b: [c]", "x", "sensor 4 of 12", "it's late", "{}", "retry later")
ODD_WORDS = ('say "yes"', "two\nlines", "caf\u00e9 \u20ac", "\x1b[0m")
# Variants of an enum: one without fields, and one with names of its fields.
STARTED, LOST = "Started", "Lost"


def number(chance, limit, more=0):
    return str(chance.randrange(limit) + more)


def flag(chance):
    return chance.choice(("true", "false"))


def to_json(document):
    if isinstance(document, str):
        if document[0] == '"':
            return json.dumps(unquoted(document), ensure_ascii=False)
        return {"None": "null", STARTED: '"%s"' % STARTED}.get(document, document)
    kind, name, entries = document
    values = [to_json(value) for _, value in entries]
    if kind in ("struct", "map"):
        keys = ('"%s"' % before if kind == "struct" else to_json(before) for before, _ in entries)
        listed = "{%s}" % ",".join(map("%s:%s".__mod__, zip(keys, values)))
        return '{"%s":%s}' % (name, listed) if name == LOST else listed
    listed = values[0] if name and len(values) == 1 else "[%s]" % ",".join(values)
    return listed if name in ("", "Some") else '{"%s":%s}' % (name, listed)


def to_ron(document):
    if isinstance(document, str):
        return document
    kind, name, entries = document
    values = [to_ron(value) for _, value in entries]
    if kind in ("struct", "map"):
        values = ["%s:%s" % (before if kind == "struct" else to_ron(before), value) for (before, _), value in zip(entries, values)]
    opening, closing = {"list": "[]", "map": "{}"}.get(kind, "()")
    return (name if kind == "tuple" or name == LOST else "") + opening + ",".join(values) + closing


FORMATS = {"plain": plain, "pretty": pretty, "json": to_json, "ron": to_ron}

# ---- Values of each kind that is parsed.


def words(chance, has_odd):
    parts = (chance.choice(ODD_WORDS if has_odd and chance.randrange(4) == 0 else WORDS)
             for _ in range(chance.randint(1, 4)))
    return quoted(" ".join(parts) + " ")


def option(chance):
    pair = tuple_of(number(chance, 100000), flag(chance))
    return "None" if chance.randrange(4) == 0 else tuple_of(pair, name="Some")


def event(chance):
    kind = chance.randrange(4)
    if kind == 0:
        return STARTED
    if kind == 1:
        return tuple_of(number(chance, 65536), name="Node")
    count = number(chance, 1000000)
    if kind == 2:
        return tuple_of(count, flag(chance), name="Said")
    return Block("struct", LOST, [("since", count), ("peers", number(chance, 256))])


MAKERS = {
    "u64": lambda chance: number(chance, 1 << 64),
    "u32": lambda chance: number(chance, 10 ** (1 + chance.randrange(4))),
    "f64": lambda chance: str(1 + chance.randrange(10 ** 6) / 1000),
    "long-f64": lambda chance: str(1 + chance.randrange(1 << 53) / (1 << 40)),
    "measurement": lambda chance: Block("struct", "Measurement", [("channel", number(chance, 32)),
                                                                  ("celsius", number(chance, 1000, -300))]),
    "strings": lambda chance: words(chance, False),
    "escapes": lambda chance: words(chance, True),
    "options": option,
    "event": event,
}


def many(make, size):
    """Values until their plain texts have so many bytes, with what is between them."""
    chance, made, length = random.Random(SEED), [], 2
    while length < size:
        made.append(make(chance))
        length += len(plain(made[-1]).encode()) + 2
    return made


@functools.lru_cache(maxsize=2)
def of_kind(kind, size):
    """A list of values of this kind, or a map, and how many values it has."""
    if kind != "map":
        made = many(MAKERS[kind], size)
        return list_of(*made), len(made)
    chance, made, length = random.Random(SEED), [], 2
    while length < size:
        key = quoted("sensor-%07d" % (len(made) * 7 + chance.randrange(7)))
        made.append((key, list_of(*(number(chance, 65536) for _ in range(chance.randrange(10))))))
        length += len(key) + len(plain(made[-1][1])) + 4
    return Block("map", "", made), len(made)


# ---- Values whose texts are converted and read.


def wide(chance):
    numbers = [number(chance, 10 ** (1 + chance.randrange(8))) for _ in range(1 + chance.randrange(7))]
    pair = tuple_of(number(chance, 10 ** 5), number(chance, 10 ** 5))
    return Block("map", "", [(number(chance, 10 ** 6), list_of(*numbers)), (number(chance, 10 ** 6), pair)])


def short_text(chance):
    return chance.choice(ODD_WORDS if chance.randrange(8) == 0 else SHORT_WORDS)


def of_texts(chance):
    texts = list_of(*(quoted(short_text(chance)) for _ in range(1 + chance.randrange(4))))
    first, second = quoted(short_text(chance)), quoted(short_text(chance) + "2")
    pair = tuple_of(quoted(chance.choice(("a", "'", "\u00e9")), "'"), number(chance, 1000))
    return Block("map", "", [(first, texts), (second, pair)])
