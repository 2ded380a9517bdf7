"""The programs that commands call, and the Debian package of each."""
import os
import pathlib
import shutil
import sys

from lib.top import TOP

PACKAGES = {"valgrind": "valgrind", "cc": "gcc", "gcc": "gcc", "g++": "g++", "rustc": "rustc", "cargo": "cargo", "objdump": "binutils", "nm": "binutils",
            "readelf": "binutils", "man": "man-db", "pkg-config": "pkgconf", "xxd": "xxd", "git": "git",
            "clippy-driver": "rust-clippy"}

# What leaves the built programs.
BUILDS = "`rt ci` builds it, and so does `rt run` in its crate"


def missing(names):
    return [name for name in names if not shutil.which(name)]


def told(name):
    package = PACKAGES.get(name)
    return "no %s on the path (%s)" % (name, "Debian has it in %s" % package if package else "the Rattle kit has it")


def require(command, *names):
    """Ends a command that can do nothing without these programs."""
    for name in missing(names):
        sys.exit("x %s: %s" % (command, told(name)))


def built(name, program=None):
    """A built program, or the other build of it that is named."""
    path = pathlib.Path(program).resolve() if program else TOP / "crates" / name / "out" / name
    if not os.access(path, os.X_OK):
        sys.exit("%s isn't there: %s" % (path if program else path.relative_to(TOP), BUILDS))
    return path


def processors():
    return len(os.sched_getaffinity(0))
