"""Removes the files that `x install` copied to PREFIX, and leaves the folders.

With DESTDIR in the environment, they are below that folder.
"""
import pathlib
import sys

from lib.command import install


def add_arguments(parser):
    parser.add_argument("prefix", metavar="PREFIX", type=pathlib.Path, help="where `x install` copied to")


def main(given):
    prefix = install.below(given.prefix)
    files = install.listed(prefix)
    if not files:
        sys.exit("x uninstall: %s isn't there: nothing of ufmt is installed" % (prefix / install.FILES))
    try:
        install.remove(prefix, files)
    except OSError as error:
        sys.exit("x uninstall: %s" % error)
    return 0
