"""Reads the words of `./x`, and calls the command."""
import argparse
import importlib
import signal
import sys

from lib import needs, running

# Each command is a module of this folder, by its own name or by another one, with the text of its help, `add_arguments` and `main`.
COMMANDS = "new update check test try ci bench measure dist install uninstall edits clauses forms fields generate list rust".split()
MODULES = {"try": "lib.command.trying", "list": "lib.command.listing", "rust": "lib.rust.command"}


def module_of(command):
    return importlib.import_module(MODULES.get(command, "lib.command." + command))


def add_names(parser, name, names, told, dest="names"):
    """Any number of words, each of which must be one of these names."""

    def known(word):
        if word not in names:
            raise argparse.ArgumentTypeError("there is no %s; there are %s" % (word, ", ".join(sorted(names))))
        return word

    parser.add_argument(dest, metavar=name, nargs="*", type=known, help=told)


def add_jobs(parser, told):
    parser.add_argument("--jobs", metavar="N", type=int, default=min(4, needs.processors()), help="how many %s side by side (%%(default)s)" % told)


def parser():
    made = argparse.ArgumentParser(prog="x", description="Checks, tests, measures and packages this repository.",
                                   epilog="`x COMMAND --help` says more of a command. The status is 0 if nothing failed, 1 if something did, and 2 for words "
                                          "that aren't understood.")
    commands = made.add_subparsers(dest="command", required=True, metavar="COMMAND")
    for command in COMMANDS:
        module = module_of(command)
        first, _, rest = module.__doc__.strip().partition("\n")
        added = commands.add_parser(command, help=first.rstrip("."), description=first + "\n" + rest, formatter_class=argparse.RawDescriptionHelpFormatter)
        module.add_arguments(added)
    return made


def main(words):
    given = parser().parse_args(words)
    for number in (signal.SIGINT, signal.SIGTERM, signal.SIGHUP):
        signal.signal(number, signal.default_int_handler)
    try:
        return module_of(given.command).main(given)
    except KeyboardInterrupt:
        print("x %s: ended" % given.command, file=sys.stderr)
        return 130
    finally:
        running.end_all()
