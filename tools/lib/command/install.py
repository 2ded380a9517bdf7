"""Copies what `x dist DIR` left to PREFIX, each file with its mode.

    PREFIX/bin                 ufmt_conv, ufmt_lines
    PREFIX/lib                 libufmt_c.a, libufmt_c.so and its links
    PREFIX/lib/pkgconfig       ufmt_c.pc
    PREFIX/include             ufmt.h
    PREFIX/share/man/man1      the manual pages
    PREFIX/share/doc/ufmt      the licences, and BUILD, which says how all this was built

It prints BUILD. With DESTDIR in the environment, all goes below that folder. What an earlier version installed there, and this one
hasn't, is removed.
"""
import os
import pathlib
import shutil
import sys
import tempfile

PARTS = ("bin", "lib", "include", "share")
# Without each of these a folder isn't whole.
NEEDED = ("BUILD", "bin/ufmt_conv", "bin/ufmt_lines", "lib/libufmt_c.a", "lib/libufmt_c.so", "lib/pkgconfig/ufmt_c.pc", "include/ufmt.h")
# What is copied is listed in a file, so that it can be removed, also by a later version of this tool.
BUILD, FILES = "share/doc/ufmt/BUILD", "share/doc/ufmt/FILES"


def below(prefix):
    """The prefix, below the folder DESTDIR of the environment if that is set."""
    return pathlib.Path(os.environ.get("DESTDIR", "") + os.path.abspath(prefix))


def files_of(folder):
    """The files and links of a folder that `x dist` left, but BUILD, by their paths in it."""
    found = [path for part in PARTS for path in (folder / part).rglob("*") if path.is_symlink() or path.is_file()]
    return sorted(str(path.relative_to(folder)) for path in found)


def put(source, to):
    """Copies a file or a link. What is there is replaced in one step: a link isn't followed, and an open file stays as it was."""
    to.parent.mkdir(parents=True, exist_ok=True)
    with tempfile.TemporaryDirectory(prefix=".x-install-", dir=to.parent) as room:
        made = pathlib.Path(shutil.copyfile(source, os.path.join(room, "made"), follow_symlinks=False))
        if not made.is_symlink():
            made.chmod(0o755 if to.parent.name == "bin" or ".so." in to.name else 0o644)
        made.replace(to)


def install(source, prefix):
    """Installs the folder, and removes what an earlier version installed and this one hasn't."""
    missing = [file for file in NEEDED if not (source / file).exists()]
    if missing:
        sys.exit("x install: %s isn't there: run `x dist %s`" % (source / missing[0], source))
    if prefix.exists() and prefix.samefile(source):
        sys.exit("x install: %s is both folders" % source)
    earlier, files = listed(prefix), [*files_of(source), BUILD, FILES]
    with tempfile.NamedTemporaryFile("w") as listing:
        listing.write("".join(file + "\n" for file in files))
        listing.flush()
        for file in files:
            put({BUILD: source / "BUILD", FILES: pathlib.Path(listing.name)}.get(file, source / file), prefix / file)
    remove(prefix, [file for file in earlier if file not in files])


def listed(prefix):
    return (prefix / FILES).read_text().splitlines() if (prefix / FILES).is_file() else []


def remove(prefix, files):
    for file in files:
        if os.path.lexists(prefix / file):
            (prefix / file).unlink()


def add_arguments(parser):
    parser.add_argument("folder", metavar="DIR", type=pathlib.Path, help="what `x dist` left")
    parser.add_argument("prefix", metavar="PREFIX", type=pathlib.Path, help="where to, such as ~/.local or /usr")


def main(given):
    try:
        install(given.folder, below(given.prefix))
    except OSError as error:
        sys.exit("x install: %s" % error)
    print((given.folder / "BUILD").read_text(), end="")
    return 0
