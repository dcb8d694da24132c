"""The commands: `lucid-tools NAME WORDS`, and the scripts tools/NAME, which are the same.

A module of `copperfinch.commands` has its help as its docstring, its forms as `USAGE`, its `add_words` and its `run`, which returns the exit code.
`run_tool` calls it. It is the one place that turns a fault into a line on standard error and the exit code 1.
"""
import argparse
import importlib
import os
import re
import sys
from typing import Any, Callable, NoReturn, Optional, Sequence

from .errors import Error
from .streams import complain, write

COMMANDS = {
    "explain": "explains a refusal, or shows nodes, tables and first fit",
    "fmt": "writes a program in one style",
    "lsp": "serves an editor by the language server protocol",
    "watch": "makes a call again at each change of its files",
    "where": "shows the place of a refusal",
    "stages": "shows how many stages a program needs, and why",
    "cover": "shows what scenarios reach of a program",
    "mutants": "breaks a program in small ways, and says which breaks its tests notice",
    "follow": "shows what became of an event, and what came of it",
    "cells": "prints the changes of cells",
    "page": "writes a run as one HTML file",
    "picture": "draws a log, a layout or a drive",
    "json": "turns an answer into JSON",
    "trace": "writes a scenario of a capture or a CSV file",
    "scenario": "draws a scenario of one of the ten applications",
    "examples-table": "prints the table of the ten applications",
}
PROG = "lucid-tools"
# Commands that are installed under a name of their own, too.
SHORT = {"lucid-fmt": "fmt", "lucid-lsp": "lsp"}


class Parser(argparse.ArgumentParser):
    """A parser that refuses other words by one line of usage and the exit code 2, and takes no part of an option for it."""

    def __init__(self, **how: Any) -> None:
        super().__init__(formatter_class=argparse.RawDescriptionHelpFormatter, allow_abbrev=False, **how)

    def error(self, message: str) -> NoReturn:
        complain(self.format_usage().strip())
        sys.exit(2)

    def print_help(self, file: Any = None) -> None:
        write(self.format_help())


class Once(argparse.Action):
    """Stores the value of an option that may be given once."""

    def __call__(self, parser: argparse.ArgumentParser, given: argparse.Namespace, value: Any, option: Optional[str] = None) -> None:
        if getattr(given, self.dest) != self.default:
            parser.error(f"{option} is given twice")
        setattr(given, self.dest, value)


def number(least: int, most: int) -> Callable[[str], int]:
    """Returns the type of words that are decimal digits of a number within bounds."""
    def read(word: str) -> int:
        if not re.fullmatch("[0-9]{1,20}", word) or not least <= int(word) <= most:
            raise argparse.ArgumentTypeError(f"no number from {least} to {most}")
        return int(word)
    return read


def run_tool(name: str, words: Sequence[str], prog: Optional[str] = None) -> int:
    """Runs a command and returns its exit code."""
    try:
        module = importlib.import_module(f".commands.{name.replace('-', '_')}", __package__)
        parser = Parser(prog=prog or f"{PROG} {name}", usage=module.USAGE, description=module.__doc__)
        module.add_words(parser)
        try:
            return int(module.run(parser.parse_args(words)))
        except argparse.ArgumentTypeError as fault:  # of words that are read together
            parser.error(str(fault))
    except Error as fault:
        why = str(fault)
    except OSError as fault:
        why = f"{fault.filename or 'the machine'}: {fault.strerror or fault}"
    except MemoryError:
        why = "out of memory"
    except RecursionError:
        why = "an input is nested too deeply"
    except KeyboardInterrupt:
        why = "interrupted"
    complain(f"{name}: {why}")
    return 1


def main(words: Optional[Sequence[str]] = None) -> int:
    """The command `lucid-tools`, and the commands that have a name of their own."""
    if words is None:
        words, called = sys.argv[1:], os.path.basename(sys.argv[0])
        if called in SHORT:
            return run_tool(SHORT[called], words, called)
    if words and words[0] in COMMANDS:
        return run_tool(words[0], words[1:])
    lines = [f"usage: {PROG} COMMAND WORDS, where COMMAND is one of", *(f"  {name:15} {what}" for name, what in COMMANDS.items())]
    if list(words) not in (["--help"], ["-h"]):
        complain(f"usage: {PROG} {'|'.join(COMMANDS)} WORDS")
        return 2
    try:
        write("\n".join([*lines, f"`{PROG} COMMAND --help` lists its words.", ""]))
    except Error as fault:
        complain(f"{PROG}: {fault}")
        return 1
    return 0
