"""Whether code makes an error of memory, in place of passing one on from a growth.

A contract lets a call fail for want of memory at any time, and a test sees it only where the call then fails. So this is a rule:
each line of the libraries, programs and examples where that may be is in tools/data/growths.txt, with its reason. A line counts if it
names such an error or what can make one, asks for memory by a size, has a large number, or begins a loop that no list ends and that
grows. A `return` counts with the line before it, which says when. Of a text in quotes only its words on memory count. `--write` writes
the table anew, with `?` for a reason that isn't known.

It also puts each wrong body of tools/data/wrong_growths.txt into its source, in memory, and a wrong line into each function: one
that isn't found is a fault. The crates of tests and the probes aren't looked at, since what they write is compared.
"""
import collections
import itertools
import math
import re

from lib import data
from lib.findings import ended
from lib.top import TOP, is_ours

# Errors of memory, and what can make one that isn't named.
NAMES = re.compile(r"(?<!: )(?<!\.)\b(AllocError|AllocFailed|OutOfMemory|TryReserveError|LayoutError|StorageFull|NO_MEMORY)\b(?![<>])|\b([Dd]efault|unsafe|"
                   r"transmute|zeroed|from_str_radix|include|ErrorKind|Layout|allocate|from_residual|Try)\b|\bExitCode::|(?<!fn )\breport\(|(?<!io)::Error\s*[),;?]|\.parse\b")
# A line of a contract, and one that only declares an error.
OTHER = re.compile(r"[≡≢→λ⊥∷×⊎↦]|^(pub )?use (?!.* as )|^ghost |^ensures |^OutOfMemory,$|^type Error = ")
SIZES = re.compile(r"\b(with_capacity|reserve|try_reserve|resize|repeat|from_elem|from_fn|collect|extend|extend_from_within|from_iter)(_exact|_in|_with|_n)?(\(|::<)|"
                   r"\b(vec|format)!")
# Room for one or two items more.
FEW = re.compile(r"\breserve\([12]\)")
LARGE = re.compile(r"\bMAX\b|\bmax_value\b|\bBITS\b|<<|\b(checked_)?pow\b|\bleading_ones\b|!\d")
NUMBER = re.compile(r"\b\d[\d_]*(?: \* \d[\d_]*)*\b")
MOST = 65536
LOOP = re.compile(r"\s*(for \w+ in [^{]*\.\.|while |loop\b)")
GROWS = re.compile(r"\b(push\w*|new|clone|collect|extend\w*|insert|append|to_\w+|write_\w+|from_\w+|with_capacity|reserve|resize)(::<[^>]*>)?\(.*\?", re.S)
FUNCTION = re.compile(r"(?m)^ *(?:\{$|(?:pub(?:\(\w+\))? )?(?:const )?(?:unsafe )?fn .*\{$)")
TEXT = re.compile(r'"(?:[^"\\]|\\.)*"')


def bare(line):
    """A line without its comment, and with what its texts say only of memory."""
    line = TEXT.sub(lambda found: '"memory"' if "memory" in found[0].lower() else '""', line)
    return line.partition("//")[0].rstrip()


def indent(line):
    return len(line) - len(line.lstrip())


def loop_at(lines, at):
    inner = itertools.takewhile(lambda line: not line or indent(line) > indent(lines[at]), lines[at + 1 :])
    return "\n".join([lines[at], *inner])


def is_large(line):
    # A number of more digits is in a text of several lines.
    rows = (found.replace("_", "").split(" * ") for found in NUMBER.findall(line))
    products = [math.prod(int(number) if len(number) < 40 else 0 for number in row) for row in rows]
    return max(products, default=0) > MOST or bool(LARGE.search(line))


def places_in(text):
    """The number and the text of each such line, without spaces around. Where a line only returns, the text begins with the line before."""
    lines = [bare(line) for line in text.split("\n")]
    for at, line in enumerate(lines):
        grows = LOOP.match(line) and GROWS.search(loop_at(lines, at))
        if grows or '"memory"' in line or NAMES.search(line) or SIZES.search(FEW.sub("", line)) or is_large(line):
            told = line.strip()
            if told.startswith(("return", "Err(")) and at:
                told = "%s %s" % (lines[at - 1].strip(), told)
            if not OTHER.search(told):
                yield at + 1, told


CRATES = TOP / "crates"
TABLE = TOP / "tools" / "data" / "growths.txt"
TOLD, UNKNOWN = TABLE.relative_to(TOP), "?"
LEFT_OUT = {"ufmt_float", "ufmt_fixed", "ufmt_c", "example_print_program", "example_parse_program"}
TESTS = {"tests", "tests.rt", "testing.rt"}
PUT, CHANGED, ANYWHERE = data.parts("wrong_growths.txt").values()
# What a row's short patterns stand for.
PLACES = {"body": r"fn %s\b.*?\n *\{\n|fn %s\b[^{;]*\{\n", "parses": r"impl<A: Copy> uParse<A> for %s \{.*?fn parse_from<[^{]*\{"}


def sources():
    """The text of each source by its name below crates/."""
    crates = [path.name for path in CRATES.iterdir() if is_ours(path.name) or path.name.startswith("example_")]
    paths = [path for crate in sorted(set(crates) - LEFT_OUT) for path in sorted((CRATES / crate / "src").rglob("*.rt"))]
    return {str(path.relative_to(CRATES)): path.read_text() for path in paths if not TESTS & set(path.relative_to(CRATES).parts)}


def table():
    rows, reasons = collections.Counter(), {}
    for _, reason, lines in data.reasons(TABLE):
        rows.update(lines)
        reasons.update(dict.fromkeys(lines, reason))
    return rows, reasons


def open_tests(text):
    """The lines by which a module of tests would be more than that."""
    lines = text.split("\n")
    return [number for number, line in enumerate(lines, 1)
            if re.match(r"\s*(pub(\(.*\))? )?mod tests\b|\s*#\[path", line) and "cfg(test)" not in lines[number - 2]]


def places(texts):
    return ["%s: %s" % (name, told) for name, text in texts.items() for _, told in places_in(text)]


def new_places(name, text, rows):
    """The places of a source that aren't in the table, or not so often."""
    left = collections.Counter(rows)
    for number, told in places_in(text):
        row = "%s: %s" % (name, told)
        left[row] -= 1
        if left[row] < 0:
            yield number, told


def wrong_places(texts, rows):
    for name, text in texts.items():
        yield from ("crates/%s:%d: no test, but in a module of tests" % (name, number) for number in open_tests(text))
        yield from ("crates/%s:%d: no reason in %s: %s" % (name, number, TOLD, told) for number, told in new_places(name, text, rows))
    yield from ("%s:1: no such line: %s" % (TOLD, row) for row in (rows - collections.Counter(places(texts))).elements())


def wrong_text(text, place, put, keeps):
    word, _, name = place.partition(" ")
    found = re.search(PLACES[word].replace("%s", name) if word in PLACES else place, text, re.DOTALL)
    return found and text[: found.end() if keeps else found.start()] + put + text[found.end() :]


def unfound(texts, rows):
    """The wrong bodies and lines that pass."""
    put = itertools.cycle(ANYWHERE)
    for name, text in texts.items():
        changed, count = FUNCTION.subn(lambda found: "%s\n%s" % (found[0], next(put)), text)
        found = len(list(new_places(name, changed, rows)))
        if found != count:
            yield "crates/%s:1: of %d wrong lines, one in each function, %d are found" % (name, count, found)
    for keeps, rows_of_bodies in ((True, PUT), (False, CHANGED)):
        for row in rows_of_bodies:
            what, name, place, put = map(data.text_of, row.split(" => "))
            text = wrong_text(texts.get(name, ""), place, put, keeps)
            if text is None or not list(new_places(name, text, rows)):
                yield "crates/%s:1: %s: %s" % (name, "no place to put" if text is None else "not found", what)


def anew(texts, reasons):
    """The table for the sources as they are. A line that is new has the reason of the same line elsewhere, or `?`."""
    elsewhere, groups = {row.split(": ", 1)[1]: reason for row, reason in reasons.items()}, {reason: [] for reason in reasons.values()}
    for row in places(texts):
        groups.setdefault(reasons.get(row) or elsewhere.get(row.split(": ", 1)[1], UNKNOWN), []).append(row)
    blocks = ["%s\n%s" % (reason, "\n".join("    " + row for row in sorted(rows))) for reason, rows in groups.items() if rows]
    return "\n\n".join([TABLE.read_text().split("\n\n")[0], *blocks]) + "\n"


def main(given):
    texts, (rows, reasons) = sources(), table()
    if given.write:
        TABLE.write_text(anew(texts, reasons))
        rows, reasons = table()
    lines = sum(len(FUNCTION.findall(text)) for text in texts.values())
    return ended([*wrong_places(texts, rows), *unfound(texts, rows), *("%s:1: no reason: %s" % (TOLD, row) for row, reason in reasons.items() if reason == UNKNOWN)],
                 "%d sources, %d places, %d wrong bodies, %d wrong lines" % (len(texts), sum(rows.values()), len(PUT) + len(CHANGED), lines))
