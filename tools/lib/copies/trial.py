"""Makes crates by `x new` in folders of each kind and updates them by `x update`, over a small library: tools/data/sessions/copies.txt.
And what they write and copy of this one."""
import re

from lib import sessions, top
from lib.command import new
from lib.copies import copying
from lib.findings import case, ended


def wrong_first_files():
    """A first file uses what the line of its crate has, and no line that begins a part is left in it."""
    for name in ("lib.rt.txt", "main.rt.txt"):
        for features in ([], *([feature] for feature in new.NEEDS), list(new.NEEDS)):
            text = new.text_of(name, features)
            used = set(re.findall(r"^\s*(?:ghost )?use (?:Rattle\.)?(ufmt\w*)", text, re.M)) | set(re.findall(r"// \[", text))
            if not used <= set(new.line_of(features)):
                yield case("tools/data/new/%s with %s" % (name, features), "uses of %s" % new.line_of(features), sorted(used))


def uncopied():
    """Each source of a crate that is copied is copied, and no program nor test is."""
    crates = top.closure([name for names in new.NEEDS.values() for name in names])
    for crate in crates:
        folder, files = top.TOP / "crates" / crate, copying.files_of(crate)
        for path in folder.rglob("*"):
            is_source = path.suffix in (".rt", ".antt") and not {"out", "must-fail"} & set(path.parts)
            if is_source and "%s/%s" % (crate, path.relative_to(folder)) not in files:
                yield "%s:1: isn't copied" % path.relative_to(top.TOP)
        if not top.is_ours(crate) or crate in ("ufmt_conv", "ufmt_lines", "ufmt_c"):
            yield "crates/%s:1: is copied" % crate


def main(_given):
    found, count = sessions.faults("copies.txt")
    return ended([*found, *wrong_first_files(), *uncopied()], "%d sessions of x new and x update" % count)
