"""Installs what `x dist` leaves, as a packager would.

The programs are those in out/ of their crates, which `rt ci` built; the archive is built here with nothing proved. They are put into
a folder, and from there installed into a prefix, each with a space in its name. There the programs run, and callers of the library
are built. Then come other prefixes, a second version over the first, and the ways in which an installation goes wrong; and `x dist`.
All that is in the sessions of tools/data/sessions.

Each manual page has the options or commands that the program's own usage has, and no other, with a text that begins as it is kept
here; its statuses are those of the table in the crate's CALLING.md, in the same words, and its numbers those of the usage; its version
is that of all and of the program; and `man`, if there is one, formats it without a warning.
"""
import ast
import re
import shutil

from lib import data, needs, running, sessions
from lib.bench import build
from lib.command import dist, install
from lib.findings import case, ended
from lib.programs.cases import run
from lib.top import TOP, X, version

# The section of each program's page with its words, the word that shows a usage, and a run: arguments, input and output.
PROGRAMS = {
    "ufmt_conv": ("COMMANDS", "", (["plain"], b"[\n    1,\n]\n", b"[1]\n")),
    "ufmt_lines": ("OPTIONS", "--help", (["--plain"], b"a [\n    1,\n]\n", b"a [1]\n")),
}
# How the page's text of each word begins.
BEGINNINGS = data.rows("packaging/pages.txt")


def words_of_usage(text):
    """The words between which the usage line lets choose, without names of values, which are in capitals."""
    words = re.findall(r"[\w-]+", re.search(r"usage: \w+ (.*)", text)[1])
    return sorted(word for word in words if not word.isupper())


def texts_of_page(page, section):
    """The words that a section of the page has, each in bold after a line of `.TP`, with the text of each, a line without fonts."""
    parts = page.split(".SH %s\n" % section)[1].split(".SH ")[0].split(".TP\n")[1:]
    found = filter(None, (re.fullmatch(r'\.BI? (\S+)(?: " \w+")?\n(.*?)(?:\.PP\n.*)?', part, re.DOTALL) for part in parts))
    texts = {it[1]: " ".join(re.sub(r"(?m)^\.[BIR]+ ", "", it[2]).splitlines()) for it in found}
    return {word.replace("\\-", "-"): text.replace("\\-", "-") for word, text in texts.items()}


def numbers_in(text):
    return sorted(set(re.findall(r"more\s+than\s+(\d+)", text)))


def compared_page(name, prefix):
    """What is compared of a program and its page: what it is, what is wanted, and what is there."""
    section, shows, (words, text, output) = PROGRAMS[name]
    path, program = prefix / "share" / "man" / "man1" / (name + ".1"), prefix / "bin" / name
    page, shown = path.read_text(), run([program, shows])
    usage, texts = (shown.output + shown.error).decode(), texts_of_page(page, section)
    yield "a run", (0, output), run([program, *words], text)[:2]
    yield "the words of the usage", words_of_usage(usage), sorted(texts)
    yield "the numbers of the usage", numbers_in(usage), numbers_in(page)
    yield "the title", True, '.TH %s 1 "" "%s %s"' % (name.upper(), name, version()) in page
    if "--version" in words_of_usage(usage):
        yield "the version", "%s %s\n" % (name, version()), run([program, "--version"]).output.decode()
    if shutil.which("man"):
        formatted = run(["man", "--warnings", "-E", "UTF-8", "-l", "-Tutf8", path])
        yield "what `man` says", (0, b"", True), (formatted.status, formatted.error, bool(formatted.output))
    for word, begin in BEGINNINGS[name]:
        yield "the text of " + word, begin, texts.get(word, "")[: len(begin)]
    calling = (TOP / "crates" / name / "CALLING.md").read_text()
    meant, said = dict(re.findall(r"(?m)^\| (\d+) \| (.*) \|$", calling)), texts_of_page(page, "EXIT STATUS")
    for status in sorted({*said, *meant}):
        first = said.get(status, "none").split(". ")[0].rstrip(".")
        first = first[:1].lower() + first[1:]
        yield "status %s" % status, meant.get(status, "")[: len(first)], first


def too_new():
    """What users run is of Python 3.9."""
    for path in [X, *(TOP / "tools" / "lib").rglob("*.py")]:
        try:
            ast.parse(path.read_text(), path, feature_version=(3, 9))
        except SyntaxError as error:
            yield "%s:%d: not of Python 3.9" % (path.relative_to(TOP), error.lineno)


def main(_given):
    programs, faults, count = list(map(needs.built, dist.PROGRAMS)), list(too_new()), 0
    with running.room("packaging") as room:
        built, prefix, place = (room / name for name in ("built here", "a prefix", "archive"))
        place.mkdir()
        library = build.library_for_c(place)
        dist.put(built, programs, library, False)
        install.install(built, prefix)
        for name in ("installs.txt", "callers.txt", "dist.txt"):
            found, sessions_tried = sessions.faults(name, BUILT=str(built), PREFIX=str(prefix))
            faults, count = faults + found, count + sessions_tried
        compared = [(name + ": " + what, *its) for name in PROGRAMS for what, *its in compared_page(name, prefix)]
    faults += [case(what, wanted, got) for what, wanted, got in compared if wanted != got]
    return ended(faults, "%d sessions, %d comparisons" % (count, len(compared)))
