"""docs/API.md: what a user can call, as the sources have it.

A call has its signature, its clauses and the first sentence of its comment. Laws, which only say that something holds, are in
docs/PROMISES.md, and so are left out here. An item is without its body.
"""
import re
from collections import namedtuple

from lib.command.generate import compare
from lib.contracts.functions import Exports, functions_of, re_exported
from lib.contracts.source import sources
from lib.top import TOP

TYPE = re.compile(r"pub (?:struct|enum|trait|type|const) (\w+)")
MACRO = re.compile(r"macro_rules! (\w+)")
# An item, the type or trait that it belongs to, or else its own name, and the path before that, as `pieces::`.
Item = namedtuple("Item", "group is_free name text module", defaults=("",))


def items_of(path, exports):
    """The types, traits and functions of a file that other crates can name."""
    lines = path.read_text().splitlines()
    for at, line in enumerate(lines):
        named = TYPE.match(line)
        if named and (named[1] in exports.types or line.startswith("pub const")) and not is_hidden(lines, at):
            yield Item(named[1], line.startswith("pub const"), named[1], item_text(lines, at, declared(lines, at)))
    for function in functions_of(path):
        at = function.line - 1
        if exports.has(function) and not is_hidden(lines, at) and (function.is_of_trait() or "pub" in function.before):
            group = function.owner_name() if function.owner else function.name
            yield Item(group, not function.owner, function.name, item_text(lines, at, function.signature.split("\n")))


def macros_of(paths, names):
    for path in paths:
        lines = path.read_text().splitlines()
        for at, line in enumerate(lines):
            named = MACRO.match(line)
            if named and named[1] in names:
                yield Item(named[1], True, named[1], "/// %s\n%s!(..)" % (first_sentence(comment(lines, at)), named[1]))


def above(lines, at):
    """The lines of attributes and comments right above an item, the nearest first."""
    for line in reversed(lines[:at]):
        if not line.strip().startswith(("///", "#[", "//")) and line.strip() not in (")]", "]"):
            return
        yield line.strip()


def is_hidden(lines, at):
    return "#[doc(hidden)]" in above(lines, at)


def comment(lines, at):
    return [line[3:].strip() for line in above(lines, at) if line.startswith("///")][::-1]


def first_sentence(lines):
    """The comment up to its first full stop outside of backticks."""
    told = " ".join(line for line in lines[: lines.index("") if "" in lines else None])
    parts = re.split(r"(`[^`]*`)", told)
    for number, part in enumerate(parts):
        end = re.search(r"\.(?= |$)", part) if number % 2 == 0 else None
        if end:
            return "".join(parts[:number]) + part[: end.end()]
    return told


def item_text(lines, at, item):
    told = first_sentence(comment(lines, at))
    indent = len(lines[at]) - len(lines[at].lstrip())
    return "\n".join((["/// " + told] if told else []) + [line[indent:] for line in item])


def declared(lines, at):
    """The lines of a type without comments and private fields. Of a trait there is its head: its calls follow."""
    head = lines[at]
    if head.startswith("pub const"):
        return [re.sub(r" = .*$", "", head).rstrip(";") + ";"]
    if " trait " in head or head.endswith(";") or not head.endswith("{"):
        return [re.sub(r"\s*\{.*$", "", head).rstrip(";") + ";"]
    end = next(number for number in range(at, len(lines)) if lines[number] == "}")
    inner = [line for line in lines[at + 1 : end] if not line.strip().startswith(("//", "#["))]
    if " struct " in head:
        kept = [line for line in inner if line.startswith("    pub ")]
        return [head, *kept, "}"] if len(kept) == len(inner) else [re.sub(r"\s*\{$", "", head) + " { .. }"] if not kept else [head, *kept, "    ..", "}"]
    return [head, *inner, "}"]


# A file for each crate: what the words of its clauses mean.
WORDS = TOP / "tools" / "data" / "words"
# The crates that a user names, with those whose items they hand on.
CRATES = ("ufmt", "ufmt_parse", "ufmt_doc", "ufmt_values", "ufmt_snapshot")
# What this block of a crate's lib.rt names, and the module `layout` but for `Mode`, are for other crates of this repository.
INTERNAL = re.compile(r"(?ms)^pub mod internal \{(.*?)^\}")
# Other macros are called by these.
MACROS = {"fields", "variants", "uwrite", "uwriteln", "pieces", "parse_fields", "parse_variants", "prove_fields", "prove_variants", "assert_snapshot"}
# A call for each number of fields: the page has the one with two.
ONE_OF_MANY = re.compile(r"_(?!2$)\d+$")
ALIAS = re.compile(r"pub type (\w+).*= (\w+)")
HANDED_ON = re.compile(r"(?ms)^\s*pub use (ufmt_\w+)::([^;]*);")


def handed_on(text):
    """The crates that a file hands items on from, each with the last names of their paths, and the types of which these are aliases."""
    for crate, path in HANDED_ON.findall(text):
        names = path[path.index("{") + 1 :].strip("} \n").split(",") if "{" in path else [path]
        found = {name.strip().split("::")[-1] for name in names if name.strip()}
        yield crate, found | {of for path in sources(TOP / "crates" / crate / "src") for name, of in ALIAS.findall(path.read_text()) if name in found}


def items_shown(crate, names=None):
    """The items of a crate that are public, or those of these names."""
    folder = TOP / "crates" / crate / "src"
    exports = Exports(folder)
    internal = {name for block in INTERNAL.findall((folder / "lib.rt").read_text()) for name in re.findall(r"\w+", block)}
    for path in sources(folder):
        parts = path.relative_to(folder).with_suffix("").parts
        for item in () if "laws" in parts else items_of(path, exports):
            is_wanted = names is None or item.group in names or set(parts) & names
            is_for_siblings = {item.name, item.group} & internal or parts == ("layout",) and item.name != "Mode"
            if is_wanted and not is_for_siblings and not ONE_OF_MANY.search(item.name):
                known = names or set(re_exported(exports.files[()]))
                yield item._replace(module=before(exports, parts, item.group, known))


def before(exports, parts, name, names):
    """What another crate writes before a name of a file: its public modules, or nothing if the crate itself exports it."""
    if name in names and name not in parts:
        return ""
    end = max(end for end in range(len(parts) + 1) if parts[:end] in exports.modules)
    first = next((at for at, part in enumerate(parts[:end]) if part in names), 0)
    return "".join(part + "::" for part in parts[first:end])


def items_in(crate, names=None):
    """The items that a crate has, or hands on from another: all that are public, or those of these names."""
    folder = TOP / "crates" / crate / "src"
    found = list(items_shown(crate, names))
    for path in [folder / "lib.rt"] if names is None else sources(folder):
        for other, further in handed_on(path.read_text()):
            wanted = further if names is None else names & further
            found += items_in(other, wanted) if wanted else []
    return found


def section(crate):
    """The part of a crate: the calls outside of types first, then each type with its calls, by name."""
    groups = {}
    for item in [*items_in(crate), *macros_of(sources(TOP / "crates" / crate / "src"), MACROS)]:
        groups.setdefault(("" if item.is_free else item.group, item.module), []).append(item)
    yield "\n## `%s`\n\n%s\n\n%s" % (crate, about(crate), (WORDS / (crate + ".md")).read_text(encoding="utf-8"))
    for (group, module), items in sorted(groups.items(), key=lambda found: (found[0][0] != "", found[0][0].lower(), found[0][1])):
        head = "`%s%s`" % (module, group) if group else "Calls of `%s`" % module[:-2] if module else "Calls"
        yield "\n### %s\n\n<!-- form -->\n```rust\n%s\n```\n" % (head, "\n\n".join(dict.fromkeys(item.text for item in items)))


def about(crate):
    """The first paragraph of a crate's own comment."""
    lines = [line[3:].strip() for line in (TOP / "crates" / crate / "src" / "lib.rt").read_text().splitlines() if line.startswith("//!")]
    return " ".join(lines[: lines.index("")] if "" in lines else lines)


def files():
    head = (TOP / "tools" / "data" / "api.md").read_text(encoding="utf-8")
    return [("docs/API.md", head + "".join(part for crate in CRATES for part in section(crate)))]


def main(_given):
    return compare(files(), "docs/API.md")
