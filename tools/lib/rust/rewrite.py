"""What turns a source file into Rust. First what is ghost is removed: clauses, members, imports, attributes and bounds that only
proofs read. Then rules change the rest."""
import re

from lib.contracts.source import Edits, Fault, Source, outside_texts
from lib.rust.table import UNSAFE, rows

# Words that no line of Rust here has. One that is left after the removal is a form that the tool doesn't know.
UNKNOWN = ("ghost", "requires", "ensures", "tactic", "cycle", "Model", "Drop", "prove")
# Comments of promises, attributes, and what is left of bounds that only proofs read and of removed lines.
GHOST = rows("ghost")
MATHEMATICS = re.compile(r"[^\x00-\x7f]")


def without_ghost(path, text):
    source = Source(path, text)
    edits = Edits(source)
    for at, token in enumerate(source.tokens):
        if token.name in REMOVERS and token.kind == "name":
            REMOVERS[token.name](source, edits, at)
    left = edits.apply()
    for pattern, new in GHOST:
        left = outside_texts(path, left, pattern, new)
    return left.lstrip("\n")


def check(path, text):
    """Ends with the place of the first word or sign of the prover that is left."""
    source = Source(path, text)
    for at, token in enumerate(source.tokens):
        if token.kind == "name" and token.name in UNKNOWN:
            raise source.fault(at, "a form with `%s` that tools/lib/rust/rewrite.py doesn't know" % token.name)
        if token.kind in ("name", "sign") and MATHEMATICS.search(token.name):
            raise source.fault(at, "`%s` is left of a ghost form" % token.name)


def remove_ghost(source, edits, at):
    """`ghost use ..;`, and a member, field or parameter `ghost name: { .. }`."""
    if source.name(at + 1) == "use":
        end = source.find(at, [";"])
    elif source.is_word(at + 1) and source.name(at + 2) in (":", "="):
        end = group_after(source, at + 2)
        if source.name(end + 1) == "=":
            end = group_after(source, end + 1)
        if source.name(end + 1) in (";", ","):
            end += 1
    else:
        return
    start = first_of_item(source, at)
    edits.remove_lines(with_comments(source, start), source.tokens[end].end)


def group_after(source, at):
    if source.name(at + 1) != "{":
        raise source.fault(at, "a ghost form without braces")
    return source.tokens[at + 1].pair


def first_of_item(source, at):
    """The index of the `pub` or the attribute that an item begins with."""
    while True:
        first = source.tokens[at - 1].pair - 1 if source.name(at - 1) in (")", "]") else at - 1
        if source.name(first) not in ("pub", "#"):
            return at
        at = first


def with_comments(source, at):
    """Where the comments begin that stand right before the token at `at`, each on a line of its own."""
    start = source.tokens[at].start
    before = source.tokens[at - 1].end if at else 0
    for comment in reversed(source.comments):
        if before <= comment.start < start:
            line = source.text.rfind("\n", 0, comment.start) + 1
            alone = not source.text[line:comment.start].strip() and not comment.name.startswith("//!")
            if not alone or source.text[comment.end : start].count("\n") != 1:
                break
            start = comment.start
    return start


def remove_clause(source, edits, at):
    """`requires`, `ensures` and `ensures*`, with a label or without, up to their closing brace."""
    after = at + 1 + (source.name(at + 1) == "*")
    after += source.is_word(after)
    if source.name(after) != "{":
        return
    edits.remove_lines(source.tokens[at].start, source.tokens[source.tokens[after].pair].end)


REMOVERS = {"ghost": remove_ghost, "requires": remove_clause, "ensures": remove_clause}


KEYWORDS = set("as break const crate dyn else enum fn for if impl in let loop match mod move mut pub ref return static struct trait type "
               "unsafe use where while".split())
# Imports of std, as patterns, and what they are in Rust. An import with an empty text is removed.
IMPORTS = rows("imports")
PATTERNS = rows("patterns")
# An import with its `#[cfg(..)]`.
USE = re.compile(r"^( *#\[cfg\(.*\)\]\n)?( *(?:pub )?)use ((?:std|core)::[^;]*);\n", re.M)
# What Rust's prelude has only with std.
IN_ALLOC = {"Box": "alloc::boxed::Box", "String": "alloc::string::String", "Vec": "alloc::vec::Vec"}


def imports(path, text):
    """An import from `std` names the crate that has it in Rust, and `String`, `Vec` and `Box` are imported."""
    needed = [name for name in sorted(IN_ALLOC) if re.search(r"^(?!use )[^/]*(?<![:\w])%s\b" % name, text, re.M)]

    def replaced(match):
        said = re.sub(r"\s+", " ", match[3]).replace("{ ", "{").replace(", }", "}")
        found = [it.expand(new) for it, new in ((re.fullmatch(old, said), new) for old, new in IMPORTS) if it]
        if not found:
            raise Fault(path, text, match.start(3), "an import that tools/data/rust/imports.tsv doesn't have: %s" % said)
        found = [found[0]] if found[0] else []
        if said.startswith("std::alloc::"):
            found += [IN_ALLOC[name] for name in needed]
            needed.clear()
        return "".join("%s%suse %s;\n" % (match[1] or "", match[2], it) for it in found)

    changed = USE.sub(replaced, text)
    if needed and re.search(r"^use ", text, re.M):
        raise Fault(path, text, 0, "`%s` without an import from std::alloc" % needed[0])
    return re.sub(r"(\b|\$crate::)std::result::", "core::result::", changed)


def in_code(source):
    """The indices of tokens outside of macros' bodies and attributes."""
    at = 0
    while at < len(source.tokens):
        end = source.tokens[at + 3].pair if [source.name(at), source.name(at + 1)] == ["macro_rules", "!"] else None
        if source.name(at) == "#" and source.name(at + 1) in ("[", "!"):
            end = source.tokens[at + 1 + (source.name(at + 1) == "!")].pair
        if end is not None:
            at = end + 1
            continue
        yield at
        at += 1


def indices(source, edits):
    """`a[i]` is `a[proved(i)]`, and `.unwrap()` is `.proved()`: without the feature `proved` they are as before."""
    for at in in_code(source):
        token, before = source.tokens[at], source.tokens[at - 1] if at else None
        if token.name == "[" and before and (before.name in (")", "]", "?") or is_value(before)):
            edits.replace(token.end, token.end, "proved(")
            edits.replace(source.tokens[token.pair].start, source.tokens[token.pair].start, ")")
        if token.name == "unwrap" and before.name == "." and source.name(at + 2) == ")":
            edits.replace(token.start, token.end, "proved")


def is_value(token):
    return token.kind == "name" and token.name not in KEYWORDS and not token.name.startswith("'")


def divisors(source, edits):
    """A divisor that is no constant is `nonzero(..)`: without the feature `proved` it is as before."""
    for at in in_code(source):
        if source.name(at) not in ("/", "%") or source.name(at + 1) == "=":
            continue
        end = operand_end(source, at + 1)
        names = [source.name(it) for it in range(at + 1, end + 1) if source.is_word(it)]
        if names and not names[-1].isupper():
            edits.replace(source.tokens[at + 1].start, source.tokens[at + 1].start, "nonzero(")
            edits.replace(source.tokens[end].end, source.tokens[end].end, ")")


def operand_end(source, at):
    """The index of the last token of the operand that begins at `at`, with its cast."""
    end = source.tokens[at].pair if source.name(at) == "(" else at
    while True:
        after = source.name(end + 1)
        if after in (".", "::", "as"):
            end += 2
        elif after in ("(", "["):
            end = source.tokens[end + 1].pair
        else:
            return end


def unsafe_calls(source, edits):
    """A call of a function that is `unsafe` in Rust is in an `unsafe` block. Its caller's proof is what it asks for."""
    names = [name for name in UNSAFE if not re.search(r"(?<!unsafe )fn %s\(" % name, source.text)]
    for at in in_code(source):
        if source.name(at) in names and source.name(at + 1) == "(" and source.name(at - 1) not in ("fn", "."):
            end = source.tokens[source.tokens[at + 1].pair].end
            edits.replace(source.tokens[at].start, source.tokens[at].start, "unsafe { ")
            edits.replace(end, end, " }")


# What edits the tokens of a text, and the pattern without which a text has nothing to edit.
EDITS = ((unsafe_calls, r"\b(%s)\(" % "|".join(UNSAFE)), (divisors, r"[^/] [/%] "), (indices, r"[\w)\]?]\[|\.unwrap\(\)"))


def in_rust(path, text):
    """The text after each rule. What is left of the prover ends it."""
    text = imports(path, text)
    for old, new in PATTERNS:
        text = re.sub(old, new, text)
    for edit, pattern in EDITS:
        if re.search(pattern, text):
            edits = Edits(Source(path, text))
            edit(edits.source, edits)
            text = edits.apply()
    check(path, text)
    return text
