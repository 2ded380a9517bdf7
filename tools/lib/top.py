"""Where the repository is, and which repository a command means."""
import importlib
import pathlib

from lib.running import output_of

TOP = pathlib.Path(__file__).resolve().parents[2]
X = TOP / "x"


def function_of(place):
    """A function by its place, as `lib.bench.calls:table`. Its module is loaded only now."""
    module, _, name = place.partition(":")
    return getattr(importlib.import_module(module), name)


def listed(repository=None):
    """What each crate stands on, by `crates.txt` of this repository or of another one, in the order of its lines."""
    found = {}
    for line in ((repository or TOP) / "crates.txt").read_text().splitlines():
        name, colon, below = line.partition("#")[0].partition(":")
        if colon and name.strip():
            found[name.split()[0]] = below.split()
    return found


def closure(names, lines=None):
    """These crates and those below them, lowest first, by the lines of a `crates.txt`. What it doesn't list is the kit's."""
    lines, found = lines or listed(), []

    def add(name):
        for below in lines[name]:
            if below in lines and below not in found:
                add(below)
        if name not in found:
            found.append(name)

    for name in names:
        add(name)
    return found


def is_ours(crate):
    """Whether a crate is a library or a program of this repository: no test, probe or example."""
    return crate == "ufmt" or crate.startswith("ufmt_")


def libraries():
    return [crate for crate in listed() if is_ours(crate) and crate != "ufmt_c" and (TOP / "crates" / crate / "src" / "lib.rt").is_file()]


def nearest():
    """The nearest folder here or above with a `crates.txt`, or None."""
    here = pathlib.Path.cwd()
    return next((folder for folder in (here, *here.parents) if (folder / "crates.txt").is_file()), None)


def version():
    """The version of all crates, as the manual page of a program has it."""
    return (TOP / "tools" / "data" / "man" / "ufmt_lines.1").read_text().split('"ufmt_lines ')[1].split('"')[0]


def commit():
    if not (TOP / ".git").exists():
        return "unknown"
    head, changed = (output_of(["git", *words], cwd=TOP).strip() for words in (("rev-parse", "HEAD"), ("status", "--porcelain")))
    return head + (" with changes" if changed else "")
