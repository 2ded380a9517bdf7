"""Lists what the checks of the pages find in the sources.

- `definitions`: for each list of promises, the definitions that these rest on beside the headline's.
- `requires`: each public function that asks for something, with what for.
- `edits`: each promise, with the edits that guard it.
- `calls`: each public function, with what calls it, or the reason why nothing does.
"""
from lib import top

LISTS = {"definitions": "lib.pages.definitions", "requires": "lib.pages.requires", "edits": "lib.pages.edits", "calls": "lib.calls.step"}


def add_arguments(parser):
    parser.add_argument("list", choices=LISTS, metavar="LIST", help=", ".join(LISTS))


def main(given):
    return top.function_of(LISTS[given.list] + ":main")(["--list"])
