"""The tables of tools/data/rust: each text of the sources that is another one in Rust, and why, and what is done for each public
function whose contract requires something, since Rust checks no contract. docs/RUST.md has the substitutions in short, and the
package with their files."""
import re
from collections import namedtuple

from lib.contracts.functions import functions_of
from lib.contracts.source import Fault
from lib.data import DATA as ALL_DATA

DATA = ALL_DATA / "rust"
# A substitution in its file: a path, reasons, then both texts.
FORM = re.compile(r"([^\n]+)\nwhy: ([^\n]+)\n(?:shown: ([^\n]+)\n)?(?:times: (\d+)\n)?<<<\n(.*?)\n===\n(.*?)\n>>>\n", re.S)
PAGE_HEAD = ["| Why | In the sources → in Rust |", "|---|---|"]
TESTS_HEAD = ["", "Of the sources' own tests it replaces these patterns, as Python writes them.", "", "| Pattern | In Rust |", "|---|---|"]
FILE_HEAD = ["# Substitutions", "", "`x rust` puts each of these texts in the place of that of the sources.", "",
             "| File | In the sources | In Rust | Why |", "|---|---|---|---|"]
# In this file, `old` is `new`, so many times. `shown` has shorter forms of both for a page.
Substitution = namedtuple("Substitution", "path why shown times old new")


def rows(name, columns=2):
    """The rows of a table of so many columns, of which the last ones may be empty. A line that begins with `# ` tells of it."""
    lines = (DATA / (name + ".tsv")).read_text().splitlines()
    return [(line.split("\t") + [""] * columns)[:columns] for line in lines if not line.startswith("# ")]


# Functions that are `unsafe` in Rust: what their contract requires, their caller must uphold.
UNSAFE = dict(rows("unsafe"))


def substitutions(text):
    left = FORM.sub("", text).strip()
    if left:
        raise Fault(DATA / "substitutions.txt", text, text.index(left[:20]), "a substitution that isn't of the form")
    for path, why, shown, times, old, new in FORM.findall(text):
        yield Substitution(path, why, shown or "%s → %s" % (old, new), int(times or 1), old, new)


SUBSTITUTIONS = tuple(substitutions((DATA / "substitutions.txt").read_text()))
# The file, the feature and the first words of each item that is there only with this feature.
FEATURES = rows("features", 3)
# What a test of the sources says, as a pattern, and what it says in Rust. `rattle` is tools/data/rust/rattle.rs.
TEST_RULES = rows("test_rules")


def substituted(said, path, text):
    """The text of a file with its substitutions and features. A text that isn't there so many times ends it."""
    for each in SUBSTITUTIONS:
        if each.path == said:
            text = replaced(path, text, each.old, each.new, each.times)
    for where, feature, item in FEATURES:
        if where == said:
            text = replaced(path, text, "\n" + item, '\n#[cfg(feature = "%s")]\n%s' % (feature, item), 1)
    return text


def replaced(path, text, old, new, times):
    if text.count(old) != times:
        raise Fault(path, text, 0, "has this text %d times, and %d times in tools/data/rust: %s" % (text.count(old), times, old))
    return text.replace(old, new)


def check_paths(files):
    """Ends with the first file that the tables name and that isn't there."""
    for path in [each.path for each in SUBSTITUTIONS] + [it[0] for it in FEATURES]:
        if path not in files:
            raise Fault(path, "", 0, "isn't there, and tools/data/rust names it")


def of_page():
    """The table of docs/RUST.md, with a row for each reason."""
    pairs = {}
    for each in SUBSTITUTIONS:
        pairs.setdefault(each.why, {})["%s → %s" % tuple(map(code, each.shown.partition(" →")[::2]))] = None
    return "\n".join(PAGE_HEAD + ["| %s | %s |" % (why, "<br>".join(its)) for why, its in pairs.items()]) + "\n"


def of_package():
    """A row for each substitution, and for each pattern of tests."""
    shown = ["| %s | %s | %s | %s |" % (each.path, code(each.old), code(each.new), each.why) for each in SUBSTITUTIONS]
    return "\n".join(FILE_HEAD + shown + TESTS_HEAD + ["| %s | %s |" % (code(old), code(new)) for old, new in TEST_RULES]) + "\n"


def code(text):
    shown = " ".join(text.split())
    return "`%s`" % shown.replace("|", "\\|") if shown else "nothing"


# ---- Decisions.

# Each kind of decision, with what is added to the function's page, and what begins its body.
KINDS = {kind: (page, code.replace("\\n", "\n")) for kind, page, code in rows("kinds", 3)}
# The file, the name and the kind of each decision. Two are of structs whose fields a user sets, and whose invariant a proof reads.
DECISIONS = rows("decisions", 3)
# A function with its page. A function of an impl has none.
FUNCTION = r"(?m)((?:^ *///.*\n)+)((?: *(?:#\[|// ).*\n)*)^( *)(pub )?((?:const )?)(fn %s\b[^{;]*[{;])"


def check_decisions(crates, files):
    """Ends with the first function that needs a decision and has none, or with a decision for nothing."""
    decided_for = {(path, name) for path, name, _ in DECISIONS}
    asked = set()
    for path in files:
        said, text = path.relative_to(crates).as_posix(), path.read_text()
        public = [it for it in functions_of(path) if "pub" in it.before or it.is_of_trait()]
        asks = [(it.name, it.line, "`%s` requires something") for it in public if it.requires]
        asks += [(name, line, "the fields of `%s` have an invariant") for name, line in structs_with_invariants(text)]
        for name, line, reason in asks:
            asked.add((said, name))
            if (said, name) not in decided_for:
                at = len("".join(text.splitlines(True)[: line - 1]))
                raise Fault(path, text, at, reason % name + ", and tools/data/rust/decisions.tsv has no decision")
    for path, name in sorted(decided_for - asked):
        raise Fault(crates / path, "", 0, "`%s` requires nothing, and has a decision" % name)


def structs_with_invariants(text):
    for match in re.finditer(r"^pub struct (\w+)[^{;]*\{(.*?)^\}", text, re.M | re.S):
        if re.search(r"^    (pub )?ghost \w+:", match[2], re.M) and re.search(r"^    pub (?!ghost)", match[2], re.M):
            yield match[1], text.count("\n", 0, match.start()) + 1


def with_decisions(said, path, text):
    """The text of a file with what its decisions say, after what is ghost is removed."""
    for where, name, kind in DECISIONS:
        if where == said and (any(KINDS[kind]) or kind in ("hidden", "unsafe")):
            text = decided(name, kind, path, text)
    return text


def decided(name, kind, path, text):
    page, code = KINDS[kind]
    added = ["", "# Safety", "", UNSAFE[name]] if kind == "unsafe" else [page] if page else []

    def replaced(match):
        docs, attributes, indent, public, const, head = match.groups("")
        docs += "".join("%s///%s\n" % (indent, " " + line if line else "") for line in added)
        public = "pub(crate) " if public and kind == "hidden" else public
        body = "".join("\n%s    %s" % (indent, line) for line in code.split("\n") if code and head.endswith("{"))
        return docs + attributes + indent + public + const + ("unsafe " if kind == "unsafe" else "") + head + body

    text, count = re.subn(FUNCTION % name, replaced, text)
    if not count:
        raise Fault(path, text, 0, "no public function `%s` with a page" % name)
    return text
