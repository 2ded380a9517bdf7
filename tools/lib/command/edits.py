"""Tries the edits of crates/CRATE/more-edits.txt, or those of every crate that has some.

The check must refuse each edit, as it must those of must-fail/. The gate leaves these edits out, because they take long. Run this on a
crate before a change to it lands. It works on a clone of HEAD in a temporary folder: it tries only what is committed, and changes
nothing here. It prints a line for each edit, and last `N refused, M not refused`. Its status is 1 if an edit is not refused, or can't be
applied or read.
"""
import shutil
import subprocess

from lib import running
from lib.command.main import add_names
from lib.top import TOP

SAYS = "rt: must-fail "


def add_arguments(parser):
    add_names(parser, "CRATE", having(), "a crate with a file more-edits.txt", "crates")


def having():
    return sorted(path.parent.name for path in TOP.glob("crates/*/more-edits.txt"))


def clone(room, crates):
    """A clone of HEAD, in which these crates have only the edits to try in must-fail/. Returns how many."""
    from lib.pages import edits

    subprocess.run(["git", "clone", "--quiet", str(TOP), str(room)], check=True)
    count = 0
    for crate in crates:
        folder = room / "crates" / crate / "must-fail"
        shutil.rmtree(folder, ignore_errors=True)
        count += edits.write(room / "crates" / crate / "more-edits.txt", folder)
    # Built libraries are copied. `rt` builds those anew whose files have changed.
    for built in TOP.glob("crates/*/out/rlib"):
        shutil.copytree(built, room / built.relative_to(TOP), symlinks=True)
    return count


def main(given):
    running.heartbeat("x edits")
    crates, refused, said, last = given.crates or having(), 0, 0, []
    with running.room("edits") as folder:
        room = folder / "clone"
        count = clone(room, crates)
        process = running.begun(["rt", "must-fail", *crates], cwd=room)
        for line in map(str.rstrip, process.stdout):
            last = [*last[-19:], line]
            if line.startswith(SAYS):
                said += 1
                print("%d of %d: %s" % (said, count, line[len(SAYS):]), flush=True)
                refused += line.split(":")[2].strip().startswith("refused")
        process.wait()
    if not said:
        print("\n".join(last))
    print("%d refused, %d not refused" % (refused, count - refused))
    return 0 if refused == count else 1
