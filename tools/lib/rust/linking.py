"""Programs that make some calls, linked from a library of calls: their symbols and their bytes. A target that rustc has no `core`
for gets one that is built from rustc's sources, where they are.

Debian has the sources as rust-src, and rustup as its component rust-src. They need no registry: `core` stands on nothing, and
`compiler_builtins` on `core` alone.
"""
import os
import pathlib
import re

from lib import running
from lib.data import DATA

RUSTC = os.environ.get("RUSTC", "rustc")
# The 32-bit targets that a rustc may have, each with what `ld.lld` calls it.
NARROW = {"thumbv7m-none-eabi": "armelf", "i686-unknown-linux-gnu": "elf_i386"}
HOST = "x86_64-unknown-linux-gnu"
# Where gcc compiles what a program without a C library needs, and how.
WORDS = {HOST: (), "i686-unknown-linux-gnu": ("-m32", "-fno-pic")}
# A program without std has nothing that unwinds, so `core` doesn't name it either.
CORE_WORDS = ("--edition 2024 --crate-type rlib -Copt-level=3 -Cpanic=abort -Cembed-bitcode=yes -Zforce-unstable-if-unmarked "
              "--cap-lints allow").split()
# What the build script of `compiler_builtins` sets.
BUILTINS = 'feature="compiler-builtins" feature="mem" feature="unstable-intrinsics" intrinsics_enabled arch_enabled optimizations_enabled'.split()
SET = {"RUSTC_BOOTSTRAP": "1", "CFG_CARGO_FEATURES": "", "CFG_OPT_LEVEL": "3", "CFG_TARGET_FEATURES": ""}


def run(words, **how):
    """What a command says on both outputs, or None if it fails."""
    status, said = running.said(words, **how)
    return said if status == 0 else None


def flags(room, target):
    """What rustc is told so that it finds `core` for the target, built in this folder if need be. None if it can't be had."""
    libraries = run([RUSTC, "--print", "target-libdir", "--target", target])
    if libraries and list(pathlib.Path(libraries.strip()).glob("libcore*.rlib")):
        return ""
    sources = pathlib.Path((run([RUSTC, "--print", "sysroot"]) or "").strip()) / "lib" / "rustlib" / "src" / "rust" / "library"
    made = room / ("sysroot-" + target)
    folder = made / "lib" / "rustlib" / target / "lib"
    if not folder.is_dir() and (sources / "core").is_dir():
        folder.mkdir(parents=True)
        words = [RUSTC, *CORE_WORDS, "--target", target, "-L", folder, "--out-dir", folder]
        builtins = ["compiler-builtins/compiler-builtins", *("--cfg=" + it for it in BUILTINS)]
        for name, (root, *more) in (("core", ["core"]), ("compiler_builtins", builtins)):
            if run([*words, "--crate-name", name, sources / root / "src" / "lib.rs", *more], env={**os.environ, **SET}) is None:
                print("rustc's sources at %s don't build for %s" % (sources, target), flush=True)
    return "--sysroot %s" % made if (folder / "libcompiler_builtins.rlib").is_file() else None


class Linker:
    """Links programs without a C library for a target."""

    def __init__(self, room, target=HOST):
        self.made, self.target, self.helpers = room / ("one-" + target), target, []
        if target in WORDS:
            self.helpers = [room / ("memory-%s.o" % target)]
            words = (*WORDS[target], "-Os", "-ffreestanding", "-fno-builtin", "-ffunction-sections")
            run(["gcc", *words, "-c", DATA / "bench" / "memory.c", "-o", self.helpers[0]])

    def link(self, library, *entries):
        """The path of the program that has these calls and what they need, or None."""
        roots = ["-e", entries[0], *(word for entry in entries for word in ("-u", entry))]
        ends = ["--gc-sections", *roots, "--start-group", library, *self.helpers, "--end-group"]
        linker = ["gcc", "-nostdlib", "-static", "-no-pie"] if self.target == HOST else ["ld.lld", "-m", NARROW[self.target]]
        prefix = "-Wl," if self.target == HOST else ""
        return self.made if run([*linker, "-o", self.made, *(prefix + str(word) for word in ends)]) is not None else None

    def panics(self, library, *entries):
        """The symbols of `core::panicking` in the program, or None if it isn't linked with each of these calls."""
        made = self.link(library, *entries)
        symbols = {line.split(" ", 2)[-1] for line in (run(["nm", "-C", made]) if made else "").splitlines()}
        return sorted(it for it in symbols if "panic" in it.lower() or "begin_unwind" in it) if symbols.issuperset(entries) else None

    def size(self, library, entry):
        made = self.link(library, entry)
        sections = r"\]\s+\.(?:text|rodata|data)\S*\s+\S+\s+\S+\s+\S+\s+([0-9a-f]+)"
        found = re.findall(sections, run(["readelf", "-SW", made]) or "") if made else None
        return sum(int(size, 16) for size in found) if found else None
