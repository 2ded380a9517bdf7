"""Shows that the check still refuses each form of docs/forms, in the words that its file quotes.

Run it with a new kit: a form that is no longer refused can be had. With no argument it tries the forms that use no crate of this
repository. The crates that forms use are copied, with what `rt check` and `rt lib` left in out/: what isn't there is proved first.

NAME.rt.txt is src/lib.rt of a crate NAME, and NAME.antt.txt, where there is one, its specs/Lib.antt. The head comment has:

    //! says: WORDS      what the check says; there may be several such lines
    //! uses: CRATES     the crates of this repository that the form is over; without this line, none
    //! by: verdict      `rt verdict` refuses it, and not `rt check`

It prints a line for each form that is no longer refused, or not in these words, and for each name that only one of docs/forms and
docs/DECISIONS.md has. Its status is 1 if there was such a line.
"""
import re
import shutil

from lib import running
from lib.bench import build
from lib.command.main import add_names
from lib.findings import ended
from lib.top import TOP, closure, listed

FORMS = TOP / "docs" / "forms"
PAGE = TOP / "docs" / "DECISIONS.md"
HEAD = re.compile(r"^//! (says|uses|by): (.*)$", re.M)
KEPT = ("src", "specs", "proofs", "out/incremental", "out/rlib")


class Form:
    def __init__(self, path):
        self.path, self.name = path, path.name.removesuffix(".rt.txt")
        said = {key: [value for other, value in HEAD.findall(path.read_text()) if other == key] for key in ("says", "uses", "by")}
        self.says, self.uses, self.command = said["says"], " ".join(said["uses"]).split(), (said["by"] or ["check"])[0]

    def write(self, room):
        crate = room / "crates" / self.name
        (crate / "src").mkdir(parents=True)
        shutil.copy(self.path, crate / "src" / "lib.rt")
        spec = FORMS / (self.name + ".antt.txt")
        if spec.exists():
            (crate / "specs").mkdir()
            shutil.copy(spec, crate / "specs" / "Lib.antt")

    def fault(self, room):
        if not self.says:
            return "no line `//! says:`"
        status, said = running.said(["rt", self.command, "--jobs", "1"], cwd=room / "crates" / self.name)
        if status == 0:
            return "not refused"
        last = "\n".join(said.splitlines()[-20:])
        missing = [words for words in self.says if words not in said]
        return "nothing says `%s`; last was said:\n%s" % (missing[0], last) if missing else None


def make_room(room, forms):
    lines = listed()
    crates = closure([crate for form in forms for crate in form.uses if crate in lines], lines)
    build.copied(TOP, room, crates, KEPT)
    rows = {**{crate: lines[crate] for crate in crates}, **{form.name: form.uses for form in forms}}
    (room / "crates.txt").write_text("".join("%s: %s\n" % (crate, " ".join(below)) for crate, below in rows.items()))
    for form in forms:
        form.write(room)


def page_faults(forms):
    names = {form.name for form in forms}
    on_page = set(re.findall(r"\(forms/(\w+)\.(?:rt|antt)\.txt\)", PAGE.read_text()))
    yield from ("docs/forms/%s.rt.txt:1: docs/DECISIONS.md has no link to it" % name for name in sorted(names - on_page))
    yield from ("docs/DECISIONS.md:1: names %s, which isn't in docs/forms" % name for name in sorted(on_page - names))


def add_arguments(parser):
    add_names(parser, "NAME", [path.name.removesuffix(".rt.txt") for path in FORMS.glob("*.rt.txt")], "a form of docs/forms")
    parser.add_argument("--all", action="store_true", help="each form, also those over crates of this repository")


def main(given):
    forms = [Form(path) for path in sorted(FORMS.glob("*.rt.txt"))]
    tried = [form for form in forms if given.all or (form.name in given.names if given.names else not form.uses)]
    faults, refused = list(page_faults(forms)), 0
    if not tried:
        faults.append("docs/forms has no form to try")
    with running.room("forms") as room:
        make_room(room, tried)
        for number, form in enumerate(tried, 1):
            fault = form.fault(room)
            print("%d of %d: %s: %s" % (number, len(tried), form.name, "another answer" if fault else "refused"), flush=True)
            refused += fault is None
            faults += ["%s:1: %s" % (form.path.relative_to(TOP), fault)] if fault else []
    return ended(faults, "%d forms: %d tried, %d refused as they say" % (len(forms), len(tried), refused))
