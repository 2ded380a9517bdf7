"""The lines that the programs should print: of each text all that the calls say of it, and what ufmt_conv writes."""
import string

from lib.model import coverage, places, requests, types
from lib.model.document import (DEEPEST, STRUCTS, by_text, converted as converted_pieces, decoded, depth_of, digest as digest_of, of_values,
                                plain, pretty, printed, quoted, unquoted)
from lib.model.reading import DEBUG, MODES, NO_UTF8, OTHER, READERS, TOKEN, converted

# How many fields of a struct are asked for, besides its last.
MOST_FIELDS = 8
EVENTS = {"list": "l", "set": "b", "map": "b", "struct": "s", "open struct": "s", "tuple": "t"}
PARTS = {"list": "l", "set": "b", "map": "m", "struct": "s", "open struct": "d", "tuple": "t"}


def events(document):
    """The events that a scan emits: signs for each event, and its text. Dots come after `Next`, and end their struct."""
    if isinstance(document, str):
        return "=%s " % document
    kind, name, entries = document
    letter = EVENTS[kind] if name or kind != "tuple" else "u"
    if not entries:
        return "ed%s " % name if kind == "open struct" else "e%s " % letter
    told = ((".%s " % before if kind in STRUCTS else events(before) + ": " if kind == "map" else "") + events(value) for before, value in entries)
    end = ", cd " if kind == "open struct" else "c%s%d " % (letter, 1 if len(entries) == 1 else 2)
    return "o%s%s %s%s" % (letter, name, ", ".join(told), end)


def parts(document):
    """The parts of a document: a letter and a name for each block, and its entries in parentheses."""
    if isinstance(document, str):
        inside = unquoted(document)
        return "=%s%s " % (document, "" if inside is None else "~" + inside)
    kind, name, entries = document
    told = ((before + ":" if kind in STRUCTS else parts(before) if kind == "map" else "") + parts(value) for before, value in entries)
    return "%s%s(%s)" % (PARTS[kind], name, "".join(told))


def own_text(document):
    """The text of a leaf, without its quotes."""
    if not isinstance(document, str):
        return None
    inside = unquoted(document)
    return document if inside is None else inside


def field_text(document, name):
    """The text of a struct's first field with this name. None if there is none, or if it is a block."""
    fields = [] if isinstance(document, str) or document.kind not in STRUCTS else document.entries
    return next((own_text(value) for other, value in fields if other == name), None)


def noted(text):
    return "- " if text is None else "=" + text + " "


UPPER_CASE = {ord(letter): letter.upper() for letter in string.ascii_lowercase}


def near(name):
    """A field's name, and names that differ a little. A byte is left out where it is a character."""
    without_last = name[:-1] if name[-1:].isascii() else name
    without_first = name[1:] if name[:1].isascii() else name
    return (name, without_last, without_first, name.translate(UPPER_CASE), name + "x")


def shown(document):
    """Each document's own text and those of its fields, and then the same of the documents in it."""
    told = noted(own_text(document)) + "x" + noted(field_text(document, "x"))
    if isinstance(document, str):
        return told
    names = [name for name, _value in document.entries] if document.kind in STRUCTS else []
    told += "".join(other + noted(field_text(document, other)) for name in names[:MOST_FIELDS] + names[-1:] for other in near(name))
    return told + "".join((shown(before) if document.kind == "map" else "") + shown(value) for before, value in document.entries)


def digest(text):
    return digest_of(text.encode())


def reading(document, is_pretty, is_token):
    """What the calls of either class say of a text with this document."""
    other = (plain if is_pretty else pretty)(document)
    found = "yes" if is_token else "no", digest(events(document)), digest(other), digest(parts(document)), digest(shown(document))
    written = printed(document, is_pretty), by_text(*converted_pieces(document, not is_pretty))
    told = "token %s, events %s, converted %s, parts %s, shown %s, pieces printed %s, converted %s"
    return told % (*found, *map(digest_of, written))


def parsed(document, data, is_pretty, judged):
    """Which types have a value with a text, the fields of those of a user's types, and the errors of the other types."""
    stops, shapes = judged
    letters = "".join(letter for letter, found in stops.items() if found is None)
    found = of_values(document, is_pretty, letters), digest(types.fields(document, shapes)), digest(places.errors(data, stops))
    return "types [%s] in pieces %s, fields %s, errors %s" % (letters, *found)


def of_classes(text, document, debug_document, is_pretty):
    """What the calls on token texts say, and those on debug texts."""
    if document is None:
        token, debug = ("no text, read to %d" % READERS[MODES[is_pretty], name].place(text) for name in ("token", "debug"))
        if debug_document is not None:
            debug = reading(debug_document, is_pretty, False)
        return "%s; debug: %s" % (token, "=" if debug == token else debug)
    debug = "=" if debug_document == document else "the model reads another document"
    in_a_list = "yes" if depth_of(document) < DEEPEST else "no"
    return "%s, in a list %s; debug: %s" % (reading(document, is_pretty, True), in_a_list, debug)


def kinds(text_class, text):
    found = text_class.leaf_at(text, 0)
    is_leaf = bool(found) and found[1] == len(text)
    return "yes" if is_leaf else "no", "yes" if is_leaf and text_class.is_name(text) else "no"


def leaf_verdict(text):
    characters = "".join(quoted(character, "'") for character in text[:64])
    found = *kinds(TOKEN, text), *kinds(DEBUG, text), digest(quoted(text)), digest(characters)
    return "token %s, name %s, debug %s, debug name %s, quoted %s, characters %s" % found


def verdict(data):
    """The line that the program prints of these bytes, and the cells of the table of coverage that they fill."""
    if data.startswith(requests.REQUEST_PREFIX):
        return requests.verdict(data), set()
    text, halves, cells = decoded(data), [], set()
    for mode in MODES:
        is_pretty = mode == "pretty"
        documents, judged = [READERS[mode, name].read(text) for name in ("token", "debug")], types.judged(data, is_pretty)
        halves.append("%s; values: %s" % (of_classes(text, *documents, is_pretty), parsed(documents[1], data, is_pretty, judged)))
        cells |= coverage.cells(data, documents[1], mode, judged)
    leaf = "no UTF-8" if NO_UTF8.search(text) else leaf_verdict(text)
    return "plain: %s; pretty: %s; leaf: %s" % (*halves, leaf), cells


def outcome(command, data):
    """The status, the output and the error of a command of ufmt_conv. One that converts has the name of the mode that it writes."""
    if command == "lengths":
        lines = data.removesuffix(b"\n").split(b"\n") if data else []
        return 0, "[%s]\n" % ", ".join(str(len(line)) for line in lines), ""
    other = converted(OTHER[command], "token", decoded(data).removesuffix("\n"))
    return (1, "", "ufmt_conv: not a %s text\n" % OTHER[command]) if other is None else (0, other + "\n", "")
