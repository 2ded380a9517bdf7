"""Tries the package that `x rust` writes, as rustc and cargo compile it.

It compiles without a warning with each choice of features, and its tests pass, also with `proved`, where std's own tests of an
index end a program. Valgrind sees no wrong access; `cargo doc` and clippy have no warning. With `proved` the calls have no symbol
of `core::panicking`. Programs stay within bounds of bytes. The tool refuses each of its own wrong sources. 32-bit programs are
linked where rustc has `core` for one, or its sources: `RUSTC=/path/of/rustc ./x try rust` uses another rustc.
"""
import os
import pathlib
import re
import shutil
import subprocess

from lib import data, findings, running, sessions
from lib.contracts.source import Fault
from lib.rust import export, linking, rewrite, table
from lib.rust.linking import HOST
from lib.rust.table import DATA
from lib.top import TOP

# The wrong sources are those of tools/data/rust/wrong.txt: the tool must end with the place of each.
PATH = pathlib.Path("wrong.rt")


def fault_of(work, *arguments):
    try:
        work(*arguments)
    except Fault as fault:
        return str(fault)
    return "no fault"


def through(text):
    return rewrite.in_rust(PATH, rewrite.without_ghost(PATH, text))


def undecided(file, text):
    file.write_text(text)
    table.check_decisions(file.parent, [file])


def faults_of_tool(room):
    """A line for each wrong source that the tool takes, and for each text that it changes."""
    rows = data.named("rust/wrong.txt")
    found = [(name, said.decode(), fault_of(through, text.decode())) for name, (text, said) in rows["refused"].items()]
    found += [(name, said.decode(), fault_of(undecided, room / PATH, text.decode())) for name, (text, said) in rows["undecided"].items()]
    yield from (findings.case(name, said, fault) for name, said, fault in found if said not in fault)
    for name, (text,) in rows["kept"].items():
        if through(text.decode()) != text.decode():
            yield findings.case(name, "a text that stays", through(text.decode()))
    if table.of_page() not in (TOP / "docs" / "RUST.md").read_text():
        yield "docs/RUST.md:1: hasn't the table that `x rust --table` prints"


LIBRARY = '[lib]\npath = "lib.rs"\ncrate-type = ["staticlib"]'
# Bytes of a program that makes one call, with the feature `proved` at O3: at most these.
BYTES = {"ours_number": 456, "ours_struct": 1401, "ours_two": 1700, "ours_eight": 7187}
LEVELS = {"release": "3", "small": "s", "smallest": "z", "unlinked": "3, without LTO"}
# The profiles and features of programs that have no panicking branch.
WITHOUT_PANICS = (*((profile, "proved") for profile in LEVELS), ("smallest", "proved,small"))
NARROW_HOST = "i686-unknown-linux-gnu"


class Trial:
    def __init__(self, room):
        self.room, self.faults, self.package = room, [], room / "package"
        self.environment = dict(os.environ, CARGO_TARGET_DIR=str(room / "target"), CARGO_NET_OFFLINE="true", RUSTFLAGS="-D warnings")

    def cargo(self, *words, folder=None, **more):
        """Runs cargo with this in its environment. Its result is what cargo said, or None after a fault."""
        status, said = running.said(["cargo", *words], cwd=folder or self.package, env={**self.environment, **more})
        if status:
            self.faults.append("cargo %s\n%s" % (" ".join(words), said[-3000:]))
        return None if status else said

    def build(self, name, source, profile, features, target=HOST, **form):
        """Builds this source over the package, with this in its manifest. Its result is the folder of what cargo made, or None."""
        folder = self.room / name
        folder.mkdir(exist_ok=True)
        (folder / "lib.rs").write_text(source)
        form = {"name": name, "root": LIBRARY, "ours": "ufmt", "package": self.package / "ufmt", "peer": "", **form}
        (folder / "Cargo.toml").write_text((DATA / "one.toml").read_text() % form)
        words = ["build", "--quiet", "--profile", profile, "--features", features, "--target", target]
        flags = "" if target == HOST else linking.flags(self.room, target)
        return None if self.cargo(*words, folder=folder, RUSTFLAGS=flags) is None else self.room / "target" / target / profile

    def library(self, name, source, profile, features, target=HOST, **form):
        made, kept = self.build(name, source, profile, features, target, **form), features.replace(",", "-") or "plain"
        return made and shutil.copy(made / ("lib%s.a" % name), self.room / ("%s-%s-%s.a" % (name, profile, kept)))

    def panics(self, target):
        """No call's program has a symbol of `core::panicking` with `proved`. Without it most have: so the test finds them.

        One program of all calls has what the programs of each have together. Only if it has such a symbol, each call is linked alone.
        """
        source = (DATA / "calls" / "lib.rs").read_text()
        linker = linking.Linker(self.room, target)
        names = re.findall(r"^    (case_\w+) ", source, re.M)
        for profile, features in WITHOUT_PANICS:
            library = self.library("calls", source, profile, features, target)
            if library and linker.panics(library, *names) != []:
                found = {name: linker.panics(library, name) for name in names}
                said = ["%s: %s" % (name, symbols or "isn't linked") for name, symbols in found.items() if symbols != []]
                what = "opt-level %s with %s for %s" % (LEVELS[profile], features, target)
                self.faults.append(findings.case(what, "no panicking branch", "\n".join(said) or "one of all together"))
        library, sample = self.library("calls", source, "release", "", target), names[::4]
        kept = sum(bool(linker.panics(library, name)) for name in sample) if library else 0
        if kept < len(sample) // 2:
            what = "programs that test an index without `proved`"
            self.faults.append(findings.case(what, "at least %d" % (len(sample) // 2), kept))
        print("no panicking branch in %d calls for %s, at opt-level %s" % (len(names), target, "; ".join(LEVELS.values())), flush=True)

    def library_of_sizes(self, profile, features, target=HOST, peer=""):
        """The library of the programs whose bytes are measured, the peers' and ours."""
        source = (DATA.parent / "bench" / "peers" / "sizes.rs").read_text() + (DATA / "measured" / "sizes.rs").read_text()
        return self.library("sizes", source, profile, features, target, ours="ours", peer=peer)

    def sizes(self):
        library, linker = self.library_of_sizes("release", "proved"), linking.Linker(self.room)
        for name, bound in BYTES.items() if library else ():
            size = linker.size(library, name)
            if size is None or size > bound:
                self.faults.append(findings.most(name, bound, size, "bytes"))

    def rows_of_32_bits(self):
        """The worked rows hold in a program without a C library, with tests of overflow, where this machine runs 32-bit programs."""
        library = self.library("narrow", (DATA / "narrow" / "lib.rs").read_text(), "tested", "", NARROW_HOST)
        made = linking.Linker(self.room, NARROW_HOST).link(library, "_start") if library else None
        status = subprocess.run([made]).returncode if made else "that no program is linked with"
        if status:
            self.faults.append(findings.case("the status of the rows for %s" % NARROW_HOST, 0, status))
        else:
            print("the rows hold for %s" % NARROW_HOST, flush=True)

    def narrow_targets(self):
        """The 32-bit targets whose `core` is there, or is built from rustc's sources."""
        return [target for target in linking.NARROW if shutil.which("ld.lld") and linking.flags(self.room, target) is not None]


def main(_given):
    with running.room("rust") as room:
        trial = Trial(room)
        trial.faults += faults_of_tool(room)
        export.export(trial.package)
        trial.faults += sessions.faults("rust.txt", PACKAGE=str(trial.package), TARGET=trial.environment["CARGO_TARGET_DIR"])[0]
        targets = trial.narrow_targets()
        for target in (HOST, *targets):
            trial.panics(target)
        trial.sizes()
        if NARROW_HOST in targets:
            trial.rows_of_32_bits()
    if not targets:
        print("this rustc has neither `core` for %s nor its sources, so no 32-bit program is linked" % " or ".join(linking.NARROW))
    return findings.ended(trial.faults, "the package for Rust")
