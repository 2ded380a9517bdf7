"""Proves a crate of yours, or parts of it, and trusts the libraries.

It names each wrong contract, `ghost` line and body of your crate. It also checks the library functions that your functions call, and
trusts the rest of the libraries, which `rt check` would prove first. What it found is kept in `out/` at the top of the repository, so
the next run, also for another crate, checks only what is new.

An ITEM is a path below the crate: `types` is a module, `types::write_to` a function, `types::Pair::swap` a method, and
`types::PairuDebug::fmt` is `fmt` of `uDebug` for `Pair`.

It runs in a repository with a `crates.txt`, which names CRATE. It needs the Rattle kit on the path. It prints each error, and for a
function that isn't proved its place, what isn't proved, and a line to try. Its last line begins with `checked:` or with `not checked:`,
and says that the libraries are trusted. The status is 0 if all is proved.
"""
import os
import pathlib
import shutil
import signal
import sys

from lib import needs, running, top
from lib.command import verdict

CHECKER = shutil.which("rattle")


def command(folder, kept, crate, lines, paths, jobs, tests):
    kit = pathlib.Path(CHECKER).resolve().parent.parent
    below = top.closure([crate], lines)
    libraries = sorted({name for one in below for name in lines[one] if name not in lines} | {"std"})
    call = [CHECKER, "check", "--crate-name", crate, "src/main.rt" if (folder / "src" / "main.rt").is_file() else "src/lib.rt"]
    for name in libraries:
        call += ["--extern", "%s=%s" % (name, kit / "rlibs" / (name + ".rlib"))]
    call += ["-L", "dependency=%s" % (kit / "rlibs"), "--antt-project", str(kit / "rattle/logic/antt-project.json")]
    call += ["--logic-built", str(kit / "logic_built"), "--jobs", str(jobs)]
    call += ["--incremental", str(kept)]
    for name in below[:-1]:
        call += ["--lib", "%s:%s=../%s/src/lib.rt" % (name, ",".join(["std"] + lines[name]), name)]
    call += ["--test"] * tests
    for path in paths:
        call += ["--only", path]
    return call


def add_arguments(parser):
    parser.add_argument("crate", metavar="CRATE", help="a crate of crates.txt")
    parser.add_argument("items", metavar="ITEM", nargs="*", help="a module or a function of it: then only these are checked")
    parser.add_argument("--tests", action="store_true", help="check the crate with its tests: that each is safe, not that it passes")
    parser.add_argument("--long", action="store_true", help="all that the checker says: goals, what a proof may use, notes")
    parser.add_argument("--jobs", metavar="N", type=int, default=os.cpu_count() or 1, help="how many functions side by side, each with some memory (%(default)s)")


def main(given):
    repository = top.nearest()
    if repository is None:
        sys.exit("x check: no crates.txt here or above")
    lines = top.listed(repository)
    if given.crate not in lines:
        sys.exit("x check: crates.txt names no crate %s" % given.crate)
    if not CHECKER:
        sys.exit("x check: %s" % needs.told("rattle"))
    folder, kept = repository / "crates" / given.crate, repository / "out" / "trusting"
    # The name of a crate stands for all of its functions.
    paths = given.items or [given.crate]
    if not kept.is_dir():
        print("the first check of a repository also checks library functions, and may say nothing for minutes", flush=True)
    kept.mkdir(parents=True, exist_ok=True)
    run = running.begun(command(folder, kept, given.crate, lines, paths, given.jobs, given.tests), cwd=folder)
    counts, short = None, verdict.Short(given.crate)
    try:
        for line in run.stdout:
            counts = verdict.ONLY.match(line) or counts
            if not (verdict.PROVED.match(line) or verdict.ONLY.match(line) or line.startswith(verdict.NOISE)):
                print(line if given.long else short.shown(line), end="", flush=True)
        status = run.wait()
    except KeyboardInterrupt:
        sys.exit("not checked: ended before the verdict")
    print(*short.ended(), sep="", end="")
    said = verdict.counted(*map(int, counts.groups())) if counts else ""
    if status < 0:
        said += "the checker was killed by signal %d%s; " % (-status, ", mostly for want of memory: fewer --jobs need less" if status == -signal.SIGKILL else "")
    print("%s: %sthe libraries are trusted" % ("not checked" if status else "checked", said))
    return 1 if status < 0 else status
