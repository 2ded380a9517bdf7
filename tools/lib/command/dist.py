"""Builds both programs and the library for C into the folder DIR.

DIR is made, or is empty. It is laid out as a prefix: bin/ has ufmt_conv and ufmt_lines, lib/ has libufmt_c.a, libufmt_c.so and
pkgconfig/ufmt_c.pc, include/ has ufmt.h, and share/ has the manual pages and the licences. DIR/BUILD has the version, the kit, the
commit and `proved: yes` or `proved: no`. `x install` copies it all to a prefix.

Without `--proved` nothing is proved, and the programs have no checks at run time. It makes three builds
beside each other, and needs `rt` on the path, and gcc. tools/README.md says how long that takes.
"""
import pathlib
import shutil
import subprocess
import sys
from concurrent.futures import ThreadPoolExecutor

from lib import needs, running
from lib.bench import build
from lib.data import DATA
from lib.top import TOP, commit, version

CRATE = TOP / "crates" / "ufmt_c"
# With such a word a program ends with 0, of an input without a byte.
PROGRAMS = {"ufmt_conv": "lengths", "ufmt_lines": "--version"}
LIBRARY = "libufmt_c"
# Only the calls of the header are seen from outside of the shared library.
EXPORTS = "{ global: ufmt_*; local: *; };\n"


def unproved(room):
    """The programs and the archive, built side by side in this folder with nothing proved."""
    places = [room / name for name in (*PROGRAMS, LIBRARY)]
    for place in places:
        place.mkdir()
    with ThreadPoolExecutor(len(places)) as pool:
        programs = [pool.submit(build.program, place, place.name, build.of_sources(place, place.name)) for place in places[:-1]]
        library = pool.submit(build.library_for_c, places[-1])
        return [it.result() for it in programs], library.result()


def proved():
    """The programs and the archive, as `rt` proves and builds them in their crates."""
    # If one isn't proved, `rt run` fails, and leaves in out/ what an earlier run built.
    for name, words in (*((name, ["run", "--", word]) for name, word in PROGRAMS.items()), (CRATE.name, ["lib"])):
        subprocess.run(["rt", *words], cwd=TOP / "crates" / name, stdin=subprocess.DEVNULL, check=True)
    return [TOP / "crates" / name / "out" / name for name in PROGRAMS], CRATE / "out" / (LIBRARY + ".a")


def share(library, folder):
    """Links the archive as a shared library. The loader's name has the version's first two numbers."""
    name, made = ("%s.so.%s" % (LIBRARY, number) for number in (".".join(version().split(".")[:2]), version()))
    (folder / "exports").write_text(EXPORTS)
    try:
        subprocess.run(["gcc", "-shared", "-nostdlib", "-Wl,-soname," + name, "-Wl,--version-script=%s" % (folder / "exports"),
                        "-Wl,--whole-archive", library, "-Wl,--no-whole-archive", "-Wl,-z,relro,-z,now", "-lc", "-lgcc", "-o", folder / made], check=True)
    finally:
        (folder / "exports").unlink()
    for link in (name, LIBRARY + ".so"):
        (folder / link).symlink_to(made)


def put(folder, programs, library, is_proved):
    """Puts the built programs, the archive and what belongs to them into the folder, which is empty or not there."""
    told = {"version": version(), "kit": running.output_of(["rt", "version"]).strip(), "commit": commit(),
            "proved": "yes" if is_proved else "no"}
    copied = {"lib/%s.a" % LIBRARY: library, "include/ufmt.h": CRATE / "include" / "ufmt.h"}
    copied.update(("share/doc/ufmt/" + licence, TOP / licence) for licence in ("LICENSE-APACHE", "LICENSE-MIT"))
    for program in programs:
        page = program.name + ".1"
        copied.update({"bin/" + program.name: program, "share/man/man1/" + page: DATA / "man" / page})
    for name, source in copied.items():
        (folder / name).parent.mkdir(parents=True, exist_ok=True)
        shutil.copyfile(source, folder / name)
        (folder / name).chmod(0o755 if name.startswith("bin/") else 0o644)
    share(library, folder / "lib")
    (folder / "lib" / "pkgconfig").mkdir()
    (folder / "lib" / "pkgconfig" / "ufmt_c.pc").write_text((DATA / "packaging" / "ufmt_c.pc").read_text() % told)
    (folder / "BUILD").write_text("".join("%s: %s\n" % it for it in told.items()))


def add_arguments(parser):
    parser.add_argument("folder", metavar="DIR", type=pathlib.Path, help="where to: a folder that is empty or not there")
    parser.add_argument("--proved", action="store_true", help="proves each crate first")


def main(given):
    to = given.folder.resolve()
    if to.exists() and (not to.is_dir() or any(to.iterdir())):
        sys.exit("x dist: %s isn't an empty folder" % to)
    needs.require("dist", "rt", "gcc")
    running.heartbeat("x dist")
    with running.room("dist") as room:
        try:
            programs, library = proved() if given.proved else unproved(room)
        except subprocess.CalledProcessError as error:
            sys.exit("x dist: status %d of %s" % (error.returncode, " ".join(map(str, error.cmd))))
        put(to, programs, library, given.proved)
    print((to / "BUILD").read_text(), end="")
    return 0
