"""Tries small crates over the libraries: their tests must pass or fail, or they mustn't compile. It runs `rt try` on each in a
temporary folder, so it proves nothing: the assertions are what counts.

tools/data/crates/tests has the files of one crate of tests; grammar.py adds one, with each form of each macro. A test must fail if
`// fails:` stands before it, with the lines after that as its message. The allocation of each test that has the number REFUSED is refused. Rows
that say which values a call prints must name each implementation and each public call that prints a value of another type.

tools/data/crates/refused has lines that must not compile, each with its messages; those in its folder `last` are in a crate of
their own, since the compiler looks for some errors only where it has found no others. With `--full` it also tries the folder
`more`, and each number of fields up to 25.
"""
import re
import sys
from collections import namedtuple
from concurrent.futures import ThreadPoolExecutor

from lib import findings, running
from lib.bench import build
from lib.contracts.source import closing, sources
from lib.crates import grammar
from lib.findings import ended
from lib.top import TOP, libraries

# ---- Crates that `rt try` builds: the crate of tests.

# The libraries that a crate here is over, each with those that it lists in crates.txt.
LIBRARIES = (*libraries(), "example_print")
# A run that takes longer is a fault.
SECONDS = 600

TEST = re.compile(r"((?:// .*\n)*)#\[test\]\nfn (\w+)")
RESULT = re.compile(r"^test tests::(\w+)::(\w+) \.\.\. (ok|FAILED)\n((?:    .*\n|\n)*)", re.M)
KILLED = re.compile(r"    src/tests/\w+\.rt:\d+:\d+: the test was killed by signal 6 \(SIGABRT\)\n$")
REFUSED = re.compile(r"const REFUSED: usize = ([\d_]+);")
PASS, FAILURE = "a pass", "a failure with\n%s\n"
TESTS = "#![tactic(auto)]\n\n//! Tests that x try macros runs.\n#[cfg(test)]\nmod tests;\n"


def write(room, name, files):
    """Writes a crate: its files by their paths in src/, and a line in crates.txt."""
    for path, text in files.items():
        whole = room / "crates" / name / "src" / path
        whole.parent.mkdir(parents=True, exist_ok=True)
        whole.write_text(text)
    with open(room / "crates.txt", "a") as listed:
        listed.write("%s: %s\n" % (name, " ".join(LIBRARIES)))


def run(room, name, arguments):
    """Runs `rt try` on the crate, and returns all that it says. On a busy machine a program may take minutes."""
    return running.said(["rt", "try", "--seconds", SECONDS, *arguments], cwd=room / "crates" / name)[1]


def wanted_in(module, text):
    for comment, name in TEST.findall(text):
        _, fails, message = "".join(line[3:] for line in comment.splitlines(True)).partition("fails:\n")
        yield (module, name), FAILURE % message.rstrip("\n") if fails else PASS


def results_in(said):
    for module, name, verdict, lines in RESULT.findall(said):
        message = "\n".join(line[4:] for line in KILLED.sub("", lines).splitlines())
        yield (module, name), FAILURE % message if verdict == "FAILED" else PASS


class Tests:
    def __init__(self, room, files):
        self.room, self.wanted = room, {}
        for module, text in files.items():
            self.wanted.update(wanted_in(module, text))
        self.refused = REFUSED.search("".join(files.values()))[1].replace("_", "")
        modules = "".join("mod %s;\n" % module for module in sorted(files))
        written = {"tests/%s.rt" % module: text for module, text in files.items()}
        write(room, "tests", {"lib.rt": TESTS, "tests.rt": "//! All of them.\n" + modules, **written})

    def faults(self):
        said = run(self.room, "tests", ["--test", "--fail-alloc", self.refused])
        given = dict(results_in(said))
        if not given:
            return [findings.case("the crate of tests", "results", "none:\n" + said)]
        return list(findings.differences(self.wanted, given, lambda test: "the test %s::%s" % test))


# ---- Crates that must not compile.

# A file begins with the items that its lines use. After a line `--` come a line that begins with `fn`, the parameters and result of the
# function that each line is the body of; lines that begin with `error[`, the messages; and indented lines, each of which must give just
# these messages. After a blank line new messages or a new function may come.
#
# The compiler shows no more errors than this.
SHOWN = 20
ERROR = re.compile(r"^src/main\.rt:(\d+):\d+: (error\[.*)$", re.M)
MORE = re.compile(r"and (\d+) more errors?")
ROOT = "#![tactic(auto)]\n\n//! Lines that must not compile.\n"
MAIN = "\nfn main(rt: HostRuntime) {}\n"
Snippet = namedtuple("Snippet", "place items function messages code")


def snippets_in(path):
    items, _, rest = path.read_text().partition("--\n")
    function, messages, is_open = None, [], False
    for number, line in enumerate(rest.splitlines(), items.count("\n") + 2):
        if line.startswith("fn"):
            function = line[2:]
        elif line.startswith("error["):
            messages, is_open = (messages + [line] if is_open else [line]), True
        elif line.startswith("    "):
            is_open = False
            yield Snippet("%s/%s:%d" % (path.parent.name, path.name, number), items, function, sorted(messages), line.strip())
        elif line:
            raise SystemExit("%s:%d: neither `fn`, nor a message, nor an indented line" % (path, number))


class Refused:
    def __init__(self, room, name, snippets):
        self.room, self.name, self.snippets = room, name, snippets
        text, self.lines = ROOT, {}
        for number, snippet in enumerate(snippets):
            if number == 0 or snippet.items != snippets[number - 1].items:
                text += snippet.items
            text += "\nfn snippet_%d%s {\n    %s\n}\n" % (number, snippet.function, snippet.code)
            self.lines[text.count("\n") - 1] = snippet
        write(room, name, {"main.rt": text + MAIN})

    def faults(self):
        said = run(self.room, self.name, [])
        given = {}
        for line, message in ERROR.findall(said):
            given.setdefault(int(line), []).append(message)
        wanted = {line: snippet.messages for line, snippet in self.lines.items()}
        shown = ({line: "\n%s\n" % "\n".join(sorted(its)) for line, its in each.items()} for each in (wanted, given))
        found = list(findings.differences(*shown, self.told))
        if not given:
            found.append(findings.case(self.name, "messages", "none:\n" + said))
        if MORE.search(said):
            found.append(findings.case(self.name, "as many messages as the compiler shows", "more"))
        return found

    def told(self, line):
        return "%s: `%s`" % (self.lines[line].place, self.lines[line].code) if line in self.lines else "line %d of %s" % (line, self.name)


def refused(room, paths, name="refused"):
    """As few crates as can show all messages. A file's items stand once in a crate, so no two files share names."""
    groups, count = [[]], 0
    for snippet in [snippet for path in paths for snippet in snippets_in(path)]:
        if count + len(snippet.messages) > SHOWN:
            groups, count = [*groups, []], 0
        groups[-1].append(snippet)
        count += len(snippet.messages)
    return [Refused(room, "%s_%d" % (name, number), group) for number, group in enumerate(groups)]


# ---- The step.

CRATES = TOP / "tools" / "data" / "crates"
PLACE = "tools/data/crates/tests:1"
# The libraries with implementations and public calls that print values of other types.
PRINTING = ("ufmt_core", "ufmt", "ufmt_snapshot", "ufmt_parse")
# A type parameter with one of these bounds is a value, a mark, a line or a chain of values that is printed. One that is parsed is
# printed too if the call takes it by reference.
BOUND = re.compile(r": (?:[\w:<>]+ \+ )*(?:uDebug|uDisplay|uDisplayFixed|uDisplayHex|uDisplayRadix|uDisplayZeros|NotationOf<|Mark<|Line\b|NamedFields<|UnnamedFields<|uParse<[^{]*: &T\b)")
TRAIT = re.compile(r"(?:uDebug|uDisplay|uDisplayFixed|uDisplayHex|uDisplayRadix|uDisplayZeros|InNotation<N>|Mark<T>|Line|NamedFields<'a>|UnnamedFields<'a>) for [^{]+?(?= \{)")
HEAD = re.compile(r"(?:\bimpl|\bpub fn (\w+))(?=<)")


def printers_in(text, module):
    """The names of those of a file: `uDebug for Option<T>`, `list::entry`."""
    text = re.sub(r"\s+", " ", re.sub(r"(?m)^ *//.*$", "", text))
    for found in HEAD.finditer(text):
        end = closing(text, found.end()) + 1
        if not BOUND.search(text[found.end() : text.index("{", end)]):
            continue
        trait = TRAIT.match(text[end:].lstrip())
        if found[1]:
            yield "%s::%s" % (module, found[1])
        elif trait:
            yield trait[0]


def named_in(text):
    """The names of those that rows of the tests say: the texts before `=>` that are such a name."""
    for name in re.findall(r'(?m)^ *"([^"]*)" => "', text):
        if TRAIT.match(name + " {") or re.fullmatch(r"[a-z_]+::[a-z_0-9]+", name):
            yield name


def missing_rows(files):
    """What prints a value of another type and has no row, and rows of what isn't there."""
    # Laws say what other calls print.
    paths = [path for crate in PRINTING for path in sources(TOP / "crates" / crate / "src", ("laws", "laws.rt", "tests", "tests.rt"))]
    found = {name for path in paths for name in printers_in(path.read_text(), path.stem)}
    named = set(named_in("".join(files.values())))
    for name in sorted(found - named):
        yield "%s: no row says how often %s prints a value" % (PLACE, name)
    for name in sorted(named - found):
        yield "%s: a row names %s, which prints no value or isn't there" % (PLACE, name)
    if not found:
        yield "crates:1: no implementation was found that prints another type's value"


def main(given):
    is_all = given.full
    paths = sorted((CRATES / "tests").glob("*.rt.txt"))
    files = {path.name.removesuffix(".rt.txt"): path.read_text() for path in paths}
    if not files or not list((CRATES / "refused").glob("*.txt")):
        sys.exit("tools/data/crates/tests or tools/data/crates/refused has no file")
    faults = list(missing_rows(files))
    files["grammar"] = grammar.source(is_all)
    folders = [CRATES / "refused"] + [CRATES / "refused" / "more"] * is_all
    with running.room("macros") as room:
        lines = (TOP / "crates.txt").read_text().splitlines()
        (room / "crates.txt").write_text("".join(line + "\n" for line in lines if line.split(":")[0] in LIBRARIES))
        build.copied(TOP, room, LIBRARIES, ("src", "specs", "proofs"))
        crates = [Tests(room, files)]
        crates += refused(room, [path for folder in folders for path in sorted(folder.glob("*.txt"))])
        crates += refused(room, sorted((CRATES / "refused" / "last").glob("*.txt")), "last")
        with ThreadPoolExecutor(3) as pool:
            for found in pool.map(lambda crate: crate.faults(), crates):
                faults += found
    passing = [wanted == PASS for wanted in crates[0].wanted.values()]
    lines = sum(len(crate.snippets) for crate in crates[1:])
    told = len(crates), sum(passing), len(passing) - sum(passing), lines
    return ended(faults, "%d crates: %d tests that pass, %d that fail, %d lines that don't compile" % told)
