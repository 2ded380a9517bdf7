"""Writes the files that have a call, impl, clause or proof for each number of fields, docs/API.md and docs/PROMISES.md.

Run it after a change in tools/lib/by_count or in its templates, tools/data/by_count. It runs `rt fmt` in the crates of these
files. docs/API.md changes with the public calls, and docs/PROMISES.md with the comments of promises in the
sources. With `--check` it only compares the files with what it would write, as `x try generated api promises` does.
"""
from lib import needs
from lib.findings import ended
from lib.running import output_of
from lib.top import TOP


def write(files):
    files = dict(files)
    for name, text in files.items():
        (TOP / name).parent.mkdir(parents=True, exist_ok=True)
        (TOP / name).write_text(text, encoding="utf-8")
    print("%s, written" % (", ".join(files) if len(files) == 1 else "%d files by the number of fields" % len(files)))
    return 0


def compare(files, told, faults=(), same=str):
    """Compares the files with what would be written, in the form in which they must be the `same`."""
    stale = ["%s:1: not as `x generate` writes it" % name for name, text in files
             if not (TOP / name).is_file() or same((TOP / name).read_text(encoding="utf-8")) != same(text)]
    return ended([*faults, *stale], told)


def add_arguments(parser):
    parser.add_argument("--check", action="store_true", help="compares the files, and writes none")


def main(given):
    # These parts compare their files by this module.
    from lib.api import page as calls
    from lib.by_count import step as by_count
    from lib.promises import page as promises

    if given.check:
        return max(part.main(given) for part in (by_count, calls, promises))
    needs.require("generate", "rt")
    write(by_count.files())
    # docs/API.md shows lines of these files.
    for crate in sorted({name.split("/")[1] for name, _ in by_count.files()}):
        output_of(["rt", "fmt"], cwd=TOP / "crates" / crate)
    return max(write(part.files()) for part in (calls, promises))
