"""Writes a cargo workspace from the proved crates that print, and from the repository's own tests of these: their rows are fixed
texts, as in the sources."""
import re
import shutil

from lib.contracts.source import Fault
from lib.rust import rewrite, table
from lib.rust.table import DATA, TEST_RULES
from lib.top import TOP

CRATES = TOP / "crates"
# Crates and modules that the package doesn't have. An item of a test that names something of them is left out.
MISSING = ("std::test", "ufmt::laws", "example_first", "ufmt_conv", "ufmt_scan")
# The crates that have what tests share, and the crates of tests with the files that are left out: of allocators, and of laws.
SHARED = ("test_rows", "example_print")
TESTS = {"test_print": ("allocators", "laws"), "test_lines": ()}
UNUSED = "#![allow(unused, private_interfaces, non_camel_case_types)]\n"
USES = (
    "#[allow(unused_imports)]\nuse rattle::{ArcSlice, ArcStr, BoxedSlice, BoxedStr, CowSlice, CowStr, RcSlice, RcStr};\n"
    "#[allow(unused_imports)]\n"
    "use rattle::{Grows as _, Inserts as _, InsertsPair as _, Made as _, Pushes as _, PushesBack as _, made_list, made_text};\n"
)
USE = re.compile(r"^use ([\w:]+::)(?:(\w+)|\{([^{}]*)\});\n", re.M)
# The name of an item, and of the type of an impl.
ITEM = re.compile(r"^(?:pub )?(?:fn|struct|enum|trait|const|static|type|macro_rules!) (\w+)", re.M)
IMPL = re.compile(r"^impl\b[^{]* (\w+)", re.M)


def test_in_rust(path):
    text = rewrite.without_ghost(path, path.read_text())
    for old, new in TEST_RULES:
        text = re.sub(old, new, text)
    text = without_missing(text)
    rewrite.check(path, text)
    return text


def without_missing(text):
    """The text less the imports of what the package doesn't have, and less each item that names something of it."""
    gone, own = set(), set(ITEM.findall(text))

    def kept_import(match):
        names = re.findall(r"\w+", match[2] or match[3])
        missing = [name for name in names if any((match[1] + name + "::").startswith(it + "::") for it in MISSING)]
        gone.update(missing)
        kept = [name for name in names if name not in missing]
        if kept and not missing:
            return match[0]
        return "use %s{%s};\n" % (match[1], ", ".join(kept)) if kept else ""

    items = re.split(r"\n\n(?=\S)", USE.sub(kept_import, text))
    while True:
        found = [item for item in items if gone.intersection(re.findall(r"\w+", re.sub(r"//.*|(?m:^use .*)", "", item)))]
        if not found:
            return "\n\n".join(items).rstrip() + "\n"
        items = [item for item in items if item not in found]
        gone.update(name for item in found for name in ITEM.findall(item) + IMPL.findall(item) if name in own)


def with_uses(path):
    """The text of a file of tests with the import of what grows, before the first one."""
    return re.sub(r"(?m)^((?:pub )?use )", lambda match: USES + match[1], test_in_rust(path), count=1)


def test_files():
    """The text of each file of the shared crates, and of the tests, which are below a folder `tests`, by its path in the workspace."""
    found = {}
    for crate in SHARED:
        folder = CRATES / crate / "src"
        for path in sorted(folder.rglob("*.rt")):
            said = path.relative_to(folder).with_suffix("")
            if "tests" not in said.parts:
                found["%s/src/%s.rs" % (crate, said.as_posix())] = UNUSED + test_in_rust(path) if path.stem == "lib" else with_uses(path)
    for crate, left_out in TESTS.items():
        folder = CRATES / crate / "src" / "tests"
        names = [path.stem for path in sorted(folder.glob("*.rt")) if path.stem not in left_out]
        head = "//! Tests of the crate `%s`.\n%s" % (crate, UNUSED)
        found["ufmt_rows/tests/%s/main.rs" % crate] = head + "".join("mod %s;\n" % name for name in names)
        for path in (path for name in names for path in (folder / (name + ".rt"), *sorted((folder / name).glob("*.rt")))):
            found["ufmt_rows/tests/%s/%s.rs" % (crate, path.relative_to(folder).with_suffix("").as_posix())] = with_uses(path)
    return found


PACKAGES = {name: (needs.split(), told) for name, needs, told in table.rows("packages", 3)}
# The packages of the sources' own tests, each with those that it stands on.
OF_TESTS = {"rattle": (), "test_rows": ("rattle",), "example_print": ("rattle",), "ufmt_rows": ("rattle", "test_rows", "example_print", "ufmt_fixed", "ufmt_float")}
# The file by which a folder is known that an earlier call wrote.
MARK = "SUBSTITUTIONS.md"
NAMES = ("proved", "nonzero", "encoded", "ending", "ending_mut", "within", "IsSome")


def export(folder):
    """Writes the workspace, which replaces what an earlier call wrote there. Returns the number of lines of Rust."""
    paths = [path for name in PACKAGES for path in sources(name)]
    table.check_decisions(CRATES, paths)
    table.check_paths({said(path) for path in paths})
    if folder.is_dir() and any(folder.iterdir()) and not (folder / MARK).is_file():
        raise Fault(folder, "", 0, "isn't empty, and no earlier call wrote it")
    ours = {said(path.with_suffix(".rs")): rust_of(path) for path in paths}
    for name in (*PACKAGES, *OF_TESTS, "ufmt_tests"):
        shutil.rmtree(folder / name / "src" if name in PACKAGES else folder / name, ignore_errors=True)
    for file, text in {**of_workspace(), **ours, **of_packages(ours), **of_tests()}.items():
        (folder / file).parent.mkdir(parents=True, exist_ok=True)
        (folder / file).write_text(text)
    return sum(text.count("\n") for text in ours.values())


def of_workspace():
    members = "".join('    "%s",\n' % name for name in [*PACKAGES, "ufmt_tests", *OF_TESTS])
    return {MARK: table.of_package(), "Cargo.toml": "[workspace]\nresolver = \"2\"\nmembers = [\n%s]\n" % members,
            **{licence: (TOP / licence).read_text() for licence in ("LICENSE-APACHE", "LICENSE-MIT")}}


def of_packages(ours):
    """The manifest of each package, and the file of what its sources use of `proved`."""
    with_proved = [name for name in PACKAGES if "\nmod proved;" in ours[name + "/src/lib.rs"]]
    proved = {name + "/src/proved.rs": (DATA / "proved.rs").read_text() for name in with_proved}
    return {**proved, **{name + "/Cargo.toml": manifest(name) for name in PACKAGES}}


def of_tests():
    """The tests, which are Rust already, and the crates' own, with the crates that they stand on."""
    files = {"rattle/src/lib.rs": (DATA / "rattle.rs").read_text(), "ufmt_rows/src/lib.rs": "//! The tests of the sources, in `tests`.\n"}
    files["ufmt_tests/src/lib.rs"] = "//! Tests of `ufmt`, in `tests`.\n"
    files["ufmt_tests/Cargo.toml"] = (DATA / "tests" / "manifest.toml").read_text()
    for path in (DATA / "tests").glob("*.rs"):
        files["ufmt_tests/tests/" + (path.name if path.stem != "types" else "types/mod.rs")] = path.read_text()
    for name, needs in OF_TESTS.items():
        files[name + "/Cargo.toml"] = (DATA / "tests.toml").read_text() % (name, dependencies(needs))
    return {**files, **test_files()}


def said(path):
    return path.relative_to(CRATES).as_posix()


def sources(name):
    """The files of a crate, without its laws, its tests, and the classes of bytes, which only reading needs."""
    folder = CRATES / name / "src"
    left_out = ("laws", "tests", "bytes")
    return [path for path in sorted(folder.rglob("*.rt")) if path.relative_to(folder).with_suffix("").parts[0] not in left_out]


def rust_of(path):
    text = table.substituted(said(path), path, rewrite.without_ghost(path, path.read_text()))
    text = with_proved(rewrite.in_rust(path, table.with_decisions(said(path), path, text)))
    return with_head(text) if path.name == "lib.rt" else text


def with_proved(text):
    """The text with the import of what it uses of `proved.rs`, before its first import or after its first comment."""
    used = sorted(name for name in NAMES if re.search(r"\.proved\(\)" if name == "IsSome" else r"(?<!\.)\b%s(?:::<N>)?\(" % name, text))
    if not used:
        return text
    found = "use crate::proved::%s;\n" % (used[0] if len(used) == 1 else "{%s}" % ", ".join(used))
    place = re.search(r"^(#\[cfg\(.*\)\]\n)?(pub )?use ", text, re.M)
    start = place.start() if place else re.match(r"(//!.*\n)*\n?", text).end()
    return text[:start] + found + ("" if place else "\n") + text[start:]


def with_head(text):
    """The text of a root file with the crate's attributes after its first comment."""
    match = re.match(r"(//!.*\n)+", text)
    if not match:
        raise Fault("lib.rt", text, 0, "no comment of the crate")
    rest = text[match.end() :].replace("\nmod ", "\nmod proved;\nmod ", 1)
    return text[: match.end()] + "\n" + (DATA / "head.rs").read_text() + rest


def dependencies(needs):
    return "".join('%s = { path = "../%s" }\n' % (need, need) for need in needs)


def manifest(name):
    needs, description = PACKAGES[name]
    values = {"name": name, "description": description, "dependencies": dependencies(needs)}
    for feature, more in (("alloc", []), ("std", ["alloc"]), ("proved", []), ("small", [])):
        values[feature] = ", ".join('"%s"' % it for it in [*more, *("%s/%s" % (need, feature) for need in needs)])
    return (DATA / "package.toml").read_text() % values
