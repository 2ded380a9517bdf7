"""Bytes of code and constants that a call that prints needs, and instructions that it takes, beside ufmt and core::fmt: programs
of other crates are built with the cargo and the crates that the machine has."""
import pathlib
import re
import shutil
import subprocess
import sys

from lib import data
from lib.bench import build
from lib.data import DATA
from lib.rust import linking

# `two` prints a second type as well, `eight` eight types. The peers have the first seven.
PEER_SIZES = ("text", "number", "struct", "pretty", "two", "eight", "line")
SIZES = PEER_SIZES + ("tuple", "list", "set", "map", "hex")
# What is called, and with which number. The peers have no dumps.
CALLS = data.rows("bench/figures.txt")["calls"]
# Debian's packages librust-*-dev put their crates here; else they are those that cargo has.
DEBIAN = pathlib.Path("/usr/share/cargo/registry")
SOURCE = '[source.crates-io]\nreplace-with = "debian"\n[source.debian]\ndirectory = "%s"\n'
VALGRIND = ["valgrind", "--tool=cachegrind", "--cache-sim=no", "--cachegrind-out-file=/dev/null"]


def counted(words, text=b""):
    """How many instructions a run takes on this input, and what it prints."""
    ran = subprocess.run(VALGRIND + list(map(str, words)), input=text, capture_output=True)
    found = re.search(rb"I\s+refs:\s+([\d,]+)", ran.stderr)
    if ran.returncode or not found:
        sys.exit("x bench: valgrind can't count: " + ran.stderr.decode(errors="replace")[-500:])
    return int(found[1].replace(b",", b"")), ran.stdout.strip()


def instructions(words, name, number):
    few, many = (counted([*words, name, turns, number])[0] for turns in (1000, 3000))
    return (many - few) // 2000


def bytes_of(room, library, entry):
    """How many bytes of code and constants a program without a C library has that only makes this call."""
    return linking.Linker(room).size(library, entry) or sys.exit("x bench: %s isn't linked" % entry)


def cargo(room, name, kind, dependencies, features, profiles):
    """Builds a crate of tools/data/bench/peers in this folder. Its result is whether cargo could."""
    if not shutil.which("cargo"):
        return False
    folder = room / "peers" / name
    (folder / ".cargo").mkdir(parents=True, exist_ok=True)
    if DEBIAN.is_dir():
        (folder / ".cargo" / "config.toml").write_text(SOURCE % DEBIAN)
    head, lines = ("[lib]", 'crate-type = ["staticlib"]') if kind == "library" else ("[[bin]]", 'name = "%s"' % name)
    named = "\n".join('%s = ["dep:%s"]' % (it, it) for it in features)
    manifest = (DATA / "bench" / "peers.toml").read_text() % (name, head, lines, named, "\n".join(dependencies))
    (folder / "Cargo.toml").write_text(manifest)
    shutil.copy(DATA / "bench" / "peers" / (name + ".rs"), folder / "main.rs")
    words = ["cargo", "build", "--offline", "--quiet", *(["--features", ",".join(features)] if features else [])]
    return all(linking.run([*words, "--profile", profile], cwd=folder) is not None for profile in profiles)


def peers(room, name, kind, ufmt, profiles):
    """The folder of what cargo made of a crate, or None; and its peers, of which `ufmt` may be missing."""
    where = 'path = "%s"' % ufmt.resolve() if ufmt else 'version = "0.2.0"'
    wanted = "ufmt = { %s%s, optional = true }" % (where, ', features = ["std"]' if kind == "program" else "")
    for dependencies, features, found in (([wanted], ["ufmt"], ("ufmt", "core")), ([], [], ("core",))):
        if cargo(room, name, kind, dependencies, features, profiles):
            return room / "peers" / name / "target", found
    return None, ()


def line(told, cells):
    print("%-18s" % told + "".join("%11s" % (cell if cell is not None else "-") for cell in cells), flush=True)


def beside_peers(kind, ufmt, room, profiles, rows):
    """A line for each row: its name, our figure, and what finds a peer's in a profile's folder."""
    made, found = peers(room, *kind, ufmt, profiles)
    for told, ours, theirs in rows:
        line(told, [ours, *(theirs(made / profile, peer) if theirs and peer in found else None for profile in profiles for peer in ("ufmt", "core"))])


def sizes(room):
    for case in SIZES:
        yield case, bytes_of(room, room / "module.o", "case_size_" + case), case in PEER_SIZES and (
            lambda folder, peer, case=case: bytes_of(room, folder / "libsizes.a", "%s_%s" % (peer, case)))


def counts(program):
    for told, *its in CALLS:
        yield told, instructions([program], *its), not its[0].startswith("dump") and (
            lambda folder, peer, its=its: instructions([folder / "calls", peer], *its))


def table(room, given):
    program = build.over_copies(room, "calls", ["ufmt"])
    line("bytes", ("ours", "ufmt", "core::fmt", "ufmt z", "core z"))
    beside_peers(("sizes", "library"), given.ufmt, room, ("alone", "small"), sizes(room))
    line("instructions", ("ours", "ufmt", "core::fmt", "ufmt lto", "core lto"))
    beside_peers(("calls", "program"), given.ufmt, room, ("release", "linked"), counts(program))
