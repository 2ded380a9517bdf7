"""Copies crates of this repository into a user's repository, and brings what was copied up to date.

What `x new` and `x update` copied is kept there in a file of the crate ufmt. A file of the repository is *ours* while it has the
sum that is kept of it. Then it may be replaced; any other file stays as it is.
"""
import hashlib
import os
import pathlib
import re
import shutil
import sys

from lib import top

COPIED = "ufmt/COPIED"
HEAD = ("# What `x new` and `x update` copied here: lines of crates.txt, and files by their SHA-256. A file that was changed since "
        "is never replaced.\n")
# What a user needs of a crate. Wrong bodies and what tells of them stay here.
PARTS = ("src", "specs", "proofs", "CALLING.md")
LICENCES = ("LICENSE-APACHE", "LICENSE-MIT")
# What `rt` keeps of a crate that it proved. It is taken along, so that nothing is proved twice.
PROVED = ("out/incremental", "out/rlib", "out/rlibs")


def files_of(crate):
    """The files of a crate that are copied, by their paths below the folder of crates."""
    folder, found = top.TOP / "crates" / crate, {}
    for part in PARTS:
        paths = [folder / part] if (folder / part).is_file() else sorted((folder / part).rglob("*"))
        found.update(("%s/%s" % (crate, path.relative_to(folder)), path) for path in paths if path.is_file())
    if crate == "ufmt":
        found.update(("ufmt/" + name, top.TOP / name) for name in LICENCES)
    return found


def sum_of(path):
    return hashlib.sha256(path.read_bytes()).hexdigest()


class Kept:
    """The file in this folder of crates. `sums` has each file's sum by its path below the folder, `lines` what each crate stands on."""

    def __init__(self, crates):
        self.path = crates / COPIED
        self.version, self.sums, self.lines = "", {}, {}
        for line in self.path.read_text().splitlines() if self.path.is_file() else []:
            kind, _, rest = line.partition(" ")
            if kind == "version":
                self.version = rest
            elif kind == "line":
                name, _, below = rest.partition(":")
                self.lines[name] = below.split()
            elif kind != "#":
                self.sums[rest] = kind

    def is_ours(self, crates, file):
        return self.sums.get(file) == sum_of(crates / file)

    def write(self):
        rows = [HEAD, "version %s\n" % self.version]
        rows += ["line %s: %s\n" % (name, " ".join(below)) for name, below in sorted(self.lines.items())]
        rows += ["%s %s\n" % (found, file) for file, found in sorted(self.sums.items())]
        self.path.write_text("".join(rows))


class CratesTxt:
    """The file crates.txt of a user's repository, changed line by line: comments and all other lines stay."""

    def __init__(self, repository):
        self.path = repository / "crates.txt"
        self.rows = self.path.read_text().splitlines() if self.path.exists() else []

    def at(self, name):
        return next((at for at, row in enumerate(self.rows) if re.match(r"%s(\s+\w+)?\s*:" % re.escape(name), row)), None)

    def below(self, name):
        """What a crate stands on, by its line, or None."""
        at = self.at(name)
        return None if at is None else self.rows[at].partition("#")[0].partition(":")[2].split()

    def put(self, name, below, before=None):
        """Writes a crate's line: where it is, or before another crate's, or at the end."""
        row, at = "%s: %s" % (name, " ".join(below)), self.at(name)
        if at is not None:
            _, sign, told = self.rows[at].partition("#")
            self.rows[at] = row + ("  #" + told if sign else "")
        elif before is not None and self.at(before) is not None:
            self.rows.insert(self.at(before), row)
        else:
            self.rows.append(row)

    def write(self):
        self.path.write_text("".join(row + "\n" for row in self.rows))


class Copies:
    """The copies in a repository: `crates` is its folder of crates. `said` collects what was left as it is, and why."""

    def __init__(self, repository):
        self.repository = repository
        self.lines = CratesTxt(repository)
        is_flat = self.lines.rows and not (repository / "crates").is_dir()
        self.crates = repository if is_flat else repository / "crates"
        self.kept, self.said, self.count = Kept(self.crates), [], 0

    def names(self):
        return sorted(self.kept.lines)

    def older(self):
        now = {file: path for crate in self.names() if crate in top.listed() for file, path in files_of(crate).items()}
        return [file for file, path in now.items() if (self.crates / file).is_file() and self.kept.is_ours(self.crates, file) and sum_of(path) != self.kept.sums[file]]

    def take(self, crates, before=None):
        """Copies these crates, which are lowest first, and writes their lines before that of another crate."""
        for crate in crates:
            is_new = not (self.crates / crate).exists()
            for file, path in files_of(crate).items():
                self.take_file(file, path)
            for part in PROVED if is_new else ():
                if (top.TOP / "crates" / crate / part).is_dir():
                    shutil.copytree(top.TOP / "crates" / crate / part, self.crates / crate / part, symlinks=True)
            self.take_line(crate, top.listed()[crate], before)

    def stays(self, path, why):
        self.said.append("%s: stays: %s" % (path.relative_to(self.repository), why))

    def take_file(self, file, path):
        """Copies a file, unless another one is there that isn't ours."""
        to, wanted = self.crates / file, sum_of(path)
        if os.path.lexists(to) and not to.is_file():
            return self.stays(to, "it isn't a file")
        if to.exists() and sum_of(to) != wanted:
            if not self.kept.is_ours(self.crates, file):
                return self.stays(to, "it was changed here")
            to.unlink()
        if not to.exists():
            to.parent.mkdir(parents=True, exist_ok=True)
            shutil.copyfile(path, to)
            self.count += 1
        self.kept.sums[file] = wanted

    def take_line(self, crate, below, before):
        there = self.lines.below(crate)
        if there is not None and there not in (below, self.kept.lines.get(crate)):
            return self.stays(self.lines.path, "the line of %s was changed here" % crate)
        if there != below:
            self.lines.put(crate, below, before)
        self.kept.lines[crate] = below

    def drop(self, crates):
        """Removes files that were copied, are as they were, and aren't in these crates any more."""
        wanted = {file for crate in crates for file in files_of(crate)}
        for file in sorted(set(self.kept.sums) - wanted):
            path = self.crates / file
            if path.is_file() and not self.kept.is_ours(self.crates, file):
                self.stays(path, "it was changed here, and is gone from the library")
            elif path.is_file():
                path.unlink()
                self.count += 1
                emptied = path.parent
                while emptied != self.crates and not any(emptied.iterdir()):
                    emptied.rmdir()
                    emptied = emptied.parent
            del self.kept.sums[file]
        for crate in set(self.kept.lines) - set(crates):
            self.stays(self.lines.path, "the line of %s: the library has no such crate any more" % crate)
            del self.kept.lines[crate]

    def end(self):
        """Writes what is kept and crates.txt, and says what stays as it is."""
        self.kept.version = "%s, commit %s" % (top.version(), top.commit())
        (self.crates / COPIED).parent.mkdir(parents=True, exist_ok=True)
        self.kept.write()
        self.lines.write()
        for line in self.said:
            print(line)


def repository_here(command):
    """The repository in which the command is called: the nearest with a crates.txt, or this folder."""
    found, here = top.nearest(), pathlib.Path.cwd()
    if not found and any((here / name).exists() for name in ("BUILD.bazel", "MODULE.bazel")):
        sys.exit("x %s: the crates of %s are listed in BUILD.bazel: move their lines to a crates.txt first" % (command, here))
    return found or here
