"""Checks that structs of every kind of field are printed and parsed with nothing to prove by hand.

The kinds are those of tools/data/fields.txt. It draws so many pairs and triples of them, writes crates with a struct of each, and checks
them over trusted libraries, as `x check` does. Kinds in quotes name one struct: `x fields "vector of text" integer`. What it found is kept
in `out/`, beside what `x check` found, so the next run checks only new structs.

It prints the kinds of each struct that isn't proved. The status is 1 if there was one.
"""
import itertools
import random
import re
import shutil

from lib import running
from lib.bench import build
from lib.command import check
from lib.command.main import add_jobs, add_names
from lib.data import DATA
from lib.findings import ended
from lib.top import TOP, closure, listed

# The source up to a line `====`, and a struct of it.
HEAD, STRUCT = (DATA / "fields.rt.txt").read_text().split("====\n")
BELOW = "ufmt ufmt_core ufmt_parse ufmt_parser".split()
# Where crates are written, what is kept, and so many structs in a crate.
ROOM, KEPT, BATCH = TOP / "out" / "fields", TOP / "out" / "trusting", 32


def kinds():
    rows = (re.split(r" \|(?: |$)", line, maxsplit=3) for line in (DATA / "fields.txt").read_text().splitlines() if not line.startswith("#"))
    return {kind: (type_of, document, value.strip()) for kind, type_of, document, value in rows}


def struct(name, drawn, table):
    rows = [("abc"[i], *table[kind]) for i, kind in enumerate(drawn)]
    values = [value.replace("s.x", "s." + field) for field, _, _, value in rows if value]
    generic = "parameter" in drawn
    return STRUCT % {
        "told": ", ".join(drawn), "name": name, "parameter": "<T>" * generic, "printed": "<T: uDebug>" * generic,
        "parsed": "<T: uParse<Global>>" * generic, "names": ", ".join(row[0] for row in rows),
        "fields": "".join("    pub %s: %s,\n" % row[:2] for row in rows),
        "documents": "".join('("%s", %s) ∷ ' % (field, document.replace("s.x", "s." + field)) for field, _, document, _ in rows),
        "value": "s. " + " × ".join(values) if values else "_. ⊤"}


def draws(given, table):
    if given.names:
        return [given.names]
    draw = random.Random(given.seed)
    pairs = list(itertools.combinations_with_replacement(table, 2))
    triples = list(itertools.combinations_with_replacement(table, 3))
    return draw.sample(pairs, min(given.pairs, len(pairs))) + draw.sample(triples, min(given.triples, len(triples)))


def add_arguments(parser):
    add_names(parser, "KIND", list(kinds()), "the kinds of one struct's fields")
    parser.add_argument("--pairs", metavar="N", type=int, default=12, help="how many pairs (%(default)s)")
    parser.add_argument("--triples", metavar="N", type=int, default=4, help="how many triples (%(default)s)")
    parser.add_argument("--seed", metavar="N", type=int, default=1, help="which (%(default)s)")
    add_jobs(parser, "proofs")


def faults_of(drawn, table, lines, jobs):
    """Checks a crate with a struct of each of these kinds."""
    structs = {"".join(kind.title().replace(" ", "") for kind in one): one for one in drawn}
    folder = ROOM / "crates" / "fields"
    (folder / "src" / "lib.rt").write_text(HEAD + "".join(struct(name, one, table) for name, one in structs.items()))
    call = check.command(folder, KEPT, "fields", lines, ["fields"], jobs, False)
    status, said = running.said(call, cwd=folder)
    # Of a method the name of its trait follows.
    unproved = [one for name, one in structs.items() if re.search(r"^fn fields::%s(?:uDebug|uParse\w*)?::.*(?<!: proved)$" % name, said, re.M)]
    faults = ["%s: not proved" % ", ".join(one) for one in unproved]
    return faults or [line for line in said.splitlines() if line.startswith("error")] or ["status %d" % status] * bool(status)


def main(given):
    table, lines, faults = kinds(), {**listed(), "fields": BELOW}, []
    shutil.rmtree(ROOM / "crates", ignore_errors=True)
    build.copied(TOP, ROOM, closure(BELOW, lines), ("src", "specs", "proofs"))
    (ROOM / "crates" / "fields" / "src").mkdir(parents=True)
    KEPT.mkdir(parents=True, exist_ok=True)
    drawn = draws(given, table)
    for first in range(0, len(drawn), BATCH):
        faults += faults_of(drawn[first:first + BATCH], table, lines, given.jobs)
    return ended(faults, "%d structs" % len(drawn))
