"""The functions of a source file with their clauses, and which of them other crates can call."""
import re

from lib.contracts.source import Source, closing, sources

CLAUSES = ("ensures", "requires")
# What may be before an item. `extern "C"` has a text.
MODIFIERS = ("pub", "const", "unsafe", "extern", '"C"')
ITEMS = ("struct", "enum", "union", "trait", "type")


class Function:
    """The function at a word `fn`, with its `impl` or trait, the words before it, as `pub` and `const`, and its clauses."""

    def __init__(self, source, at, owner):
        clauses, body = clauses_of(source, at)
        self.path, self.line, self.owner, self.name = source.path, source.line(at + 1), owner, source.name(at + 1)
        line = source.text.rfind("\n", 0, source.tokens[at].start) + 1
        self.signature = source.text[line : source.tokens[body].start].rstrip().rstrip(",") + ";"
        self.before = words_before(source, at)
        self.clauses = {name for _, names, _, _ in clauses for name in names}
        self.identifiers = {token.name for _, _, start, end in clauses for token in source.tokens[start:end]}
        self.texts = [(kind, " ".join(names), source.joined(start, end)) for kind, names, start, end in clauses]
        self.requires = [" ".join([name, text]).strip() for kind, name, text in self.texts if kind == "requires"]

    def is_of_trait(self):
        return self.owner.startswith("trait")

    def owner_name(self):
        return type_name(self.owner)


def functions_of(path):
    source, owners = Source(path), []
    for at, token in enumerate(source.tokens):
        if token.name in ("impl", "trait"):
            brace = source.find(at, ["{", ";"])
            end = source.tokens[brace].pair if source.name(brace) == "{" else brace
            owners.append((brace, end, source.joined(at, brace)))
        if token.name == "fn" and source.is_word(at + 1):
            owner = [head for start, end, head in owners if start < at < end]
            yield Function(source, at, owner[-1] if owner else "")


def words_before(source, at):
    """The words before the item at `at`, as `pub` and `const`. Of `pub(crate)` there is none."""
    start = at
    while source.name(start - 1) in MODIFIERS:
        start -= 1
    return {token.name for token in source.tokens[start:at]}


def is_pub(source, at):
    return "pub" in words_before(source, at)


def clauses_of(source, at):
    """The clauses of the function at `at`: the kind of each, its names, and where its tokens begin and end; and where its body begins."""
    found = []
    while source.name(at) not in ("", "{", ";"):
        if source.name(at) in CLAUSES:
            brace = source.find(at, ["{"])
            end = source.tokens[brace].pair
            names = [token.name for token in source.tokens[at + 1 : brace]]
            found.append((source.name(at), names, brace, end + 1))
            at = end
        elif source.name(at) == "ghost":
            # A parameter that only proofs have, with its type in braces.
            at = source.tokens[source.find(at, ["{"])].pair
        elif source.name(at) in ("(", "["):
            at = source.tokens[at].pair
        at += 1
    return found, at


def type_name(head):
    """The name in the head of a trait or an `impl`: of the trait, or of the type without its parameters."""
    head = re.sub(r"^(impl|trait)\s*", "", head)
    if head.startswith("<"):
        head = head[closing(head) + 1 :]
    return re.match(r"[\s&']*(?:mut )?(\w*)", head.split(" for ")[-1])[1]


class Exports:
    """What other crates see of a crate: the files of its public modules, the names that these re-export, and its types."""

    def __init__(self, sources):
        self.sources = sources
        self.files = {module_of(sources, path): Source(path) for path in sorted(sources.rglob("*.rt"))}
        self.names, self.modules = set(), set()
        # A name that a public module re-exports may be a module that re-exports others.
        while self.grows():
            pass
        self.types = self.public_types()

    def grows(self):
        before = len(self.names) + len(self.modules)
        self.modules = {module for module in self.files if self.is_module(module)}
        for module in self.modules:
            self.names |= set(re_exported(self.files[module]))
        return len(self.names) + len(self.modules) > before

    def is_module(self, module):
        if not module:
            return True
        *outer, name = module
        source = self.files.get(tuple(outer))
        declared = source and any(source.name(at + 1) == name and is_pub(source, at) for at in source.all("mod"))
        return bool(declared) and (tuple(outer) in self.modules or name in self.names)

    def public_types(self):
        """The names of types and traits, also those of which a public name is an alias."""
        found = set()
        for module, source in self.files.items():
            for at in source.all(*ITEMS):
                if is_pub(source, at) and (module in self.modules or source.name(at + 1) in self.names):
                    found.add(source.name(at + 1))
                    if source.name(at) == "type":
                        aliased = source.tokens[source.find(at, ["=", ";"]) : source.find(at, [";"])]
                        found |= {token.name for token in aliased}
        return found

    def has(self, function):
        """Whether other crates, or C, can call the function."""
        if function.is_of_trait():
            return function.owner_name() in self.types
        if "pub" not in function.before:
            return False
        if function.owner:
            return function.owner_name() in self.types
        return "extern" in function.before or module_of(self.sources, function.path) in self.modules or function.name in self.names

    def name_of(self, function):
        """The function's name with its modules and its type, as `list::Builder::entry`."""
        words = [*module_of(self.sources, function.path), function.owner_name() if function.owner else "", function.name]
        return "::".join(filter(None, words))


def public_functions(folder):
    """The functions of a folder of sources that other crates can call, each with its name."""
    exports = Exports(folder)
    functions = [function for path in sources(folder) for function in functions_of(path)]
    return [(exports.name_of(function), function) for function in functions if exports.has(function)]


def module_of(sources, path):
    words = path.relative_to(sources).with_suffix("").parts
    return () if words in (("lib",), ("main",)) else words


def re_exported(source):
    """The names that a file's `pub use` items bring in from its own crate."""
    for at in source.all("use"):
        if is_pub(source, at) and not source.name(at + 1).startswith("ufmt"):
            names = range(at + 1, source.find(at, [";"]))
            yield from (source.name(one) for one in names if source.name(one + 1) in (",", "}", ";", "as"))
