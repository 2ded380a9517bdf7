"""Writes a cargo workspace into DIR from the crates that print, for rustc.

What is ghost in a source is removed. Each other change is by a rule of tools/lib/rust/rewrite.py or by a row of the tables of
tools/data/rust. docs/RUST.md has both, and `--table` prints the rows. A ghost form that isn't known, a text of the table that
isn't in its file, an import from std that it doesn't have, and a public function that requires something and has no decision in
tools/data/rust/decisions.tsv end it with the place. `x try rust` tries what it writes. `--measure` counts bytes and instructions
of calls by it, with valgrind: those of README.md.
"""
import pathlib

from lib import findings, running
from lib.bench import calls
from lib.contracts.source import Fault
from lib.rust import export, linking, step, table

PROGRAM = '[[bin]]\nname = "calls"\npath = "lib.rs"'


def add_arguments(parser):
    parser.add_argument("folder", nargs="?", type=pathlib.Path, metavar="DIR", help="where the workspace is written, in place of an earlier one")
    parser.add_argument("--table", action="store_true", help="print the table of substitutions, as docs/RUST.md has it")
    parser.add_argument("--ufmt", type=pathlib.Path, metavar="FOLDER", help="a checkout of ufmt 0.2.0, for --measure")
    parser.add_argument("--measure", action="store_true", help="print bytes and instructions of calls, with `proved` and without")


def sizes(tried, features, profile, target, ufmt):
    """A line for each program, and beside it those of core::fmt and of ufmt 0.2.0 in this folder."""
    names, peer = ["ours", "core"], ""
    if ufmt:
        names, peer = names + ["ufmt"], 'ufmt = { path = "%s", optional = true }' % ufmt.resolve()
        (tried.room / "sizes" / ".cargo").mkdir(parents=True, exist_ok=True)
        (tried.room / "sizes" / ".cargo" / "config.toml").write_text(calls.SOURCE % calls.DEBIAN if calls.DEBIAN.is_dir() else "")
    library = tried.library_of_sizes(profile, ",".join(filter(None, (features, ufmt and "ufmt"))), target, peer)
    linker = linking.Linker(tried.room, target)
    for name in calls.PEER_SIZES if library else ():
        told = ", ".join("%s %s" % (by, linker.size(library, "%s_%s" % (by, name))) for by in names)
        shown = features or "tested", name, told, step.LEVELS[profile], target
        print("%-12s bytes        %-16s %s; opt-level %s, %s" % shown, flush=True)


def counts(tried, features, profile, told):
    made = tried.build("calls", (table.DATA / "measured" / "calls.rs").read_text(), profile, features, root=PROGRAM)
    for what, name, number in calls.CALLS if made else ():
        count = calls.instructions([made / "calls"], name, number)
        print("%-12s instructions %-16s %s; %s" % (features or "tested", what, count, told), flush=True)


def measure(ufmt):
    """Bytes of the programs that make one call, and instructions of a call: README's column for Rust."""
    with running.room("rust") as room:
        tried = step.Trial(room)
        export.export(tried.package)
        for features in ("proved", ""):
            sizes(tried, features, "release", linking.HOST, ufmt)
            counts(tried, features, "plain", "as `cargo build --release` makes it")
            counts(tried, features, "linked", "with LTO")
        for target in tried.narrow_targets():
            for features in ("proved", "proved,small"):
                sizes(tried, features, "smallest", target, ufmt)
    return findings.ended(tried.faults, "bytes and instructions")


def main(given):
    try:
        if given.table:
            print(table.of_page(), end="")
        elif given.measure:
            return measure(given.ufmt)
        elif given.folder is None:
            print("x rust: names no folder")
            return 2
        else:
            print("%s: %d lines of Rust in %d packages" % (given.folder, export.export(given.folder), len(export.PACKAGES)))
    except Fault as fault:
        print("x rust: %s" % fault)
        return 1
    return 0
