"""Writes a program in one style: no token changes, and each comment stays where it is.

A declaration, a statement and a case begin a line each. A block stays on one line if it was written so and the line has at most 140
characters. The output is the formatted text; --write puts it in place of the file, --check prints the names of the files that are not in the
style and ends with 1. PROGRAM `-` is standard input. A text with a syntax error is refused, with its place.
"""
import argparse
import contextlib
import os
import shutil
import tempfile

from ..bounded import deeply
from ..errors import Error
from ..format import format_program
from ..streams import Source, read, write

USAGE = "%(prog)s [--write | --check] PROGRAM.."
SECONDS, MEGABYTES = 60, 2000


def add_words(parser: argparse.ArgumentParser) -> None:
    """Adds the words."""
    parser.add_argument("programs", metavar="PROGRAM", nargs="+")
    how = parser.add_mutually_exclusive_group()
    how.add_argument("--write", action="store_true", help="write each file anew, if it changes")
    how.add_argument("--check", action="store_true", help="print the names of files that would change, and end with 1 if one would")


def run(given: argparse.Namespace) -> int:
    """Formats the programs, one after another."""
    changed = False
    for name in given.programs:
        source = Source("standard input", read(None)) if name == "-" else Source.of(name)
        made = deeply(lambda: format_program(source), SECONDS, MEGABYTES)
        if not given.write and not given.check:
            write(made)
        elif made != source.data:
            changed = True
            if given.check:
                write(f"{name}\n")
            else:
                replace(name, source.data, made)
    return int(changed and given.check)


def replace(name: str, before: bytes, after: bytes) -> None:
    """Puts a text in place of a file, whole. Raises Error if the file has changed since it was read."""
    path = os.path.realpath(name)
    folder = os.path.dirname(path)
    with tempfile.NamedTemporaryFile(dir=folder, prefix=".fmt-", delete=False) as file:
        try:
            file.write(after)
            file.close()
            shutil.copymode(path, file.name)
            if read(path) != before:
                raise Error(f"{name}: it changed while it was formatted")
            os.replace(file.name, path)
        finally:
            with contextlib.suppress(FileNotFoundError):
                os.unlink(file.name)
