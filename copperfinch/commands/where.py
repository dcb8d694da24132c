"""Shows where a refusal points in a program: the line and the column, the line itself, and a mark below it.

REFUSAL is the line that `lucid` printed, as one word or as several: `syntax: byte N`, `syntax: token N`, `syntax: nesting at token N`,
`types: declaration D line L ..`, `order: declaration D line L cycle ..`, or only `byte N` or `token N`. Bytes count from 0, tokens and
declarations from 1, columns count bytes from 1. Of several lines the last one counts, so "$(lucid check P 2>&1)" can be given.

- `syntax: token N` also shows the first token with which the declaration that begins there does not go on.
- `types:` shows the whole declaration.
- `order:` shows the declaration's uses of each array of the cycle, and where the arrays are declared.

For a program with functions over a width, give a file that holds the output of `expand`. `explain P --where REFUSAL` does the same.
"""
import argparse
from typing import List

from ..bounded import deeply
from ..explain.where import is_refusal, show_refusal
from ..streams import Source, write

USAGE = "%(prog)s P byte N | %(prog)s P token N | %(prog)s P REFUSAL"


def refusal(word: str) -> str:
    """Returns the refusal in a text: its last line."""
    line = word.strip().split("\n")[-1].strip()
    if not is_refusal(line):
        raise argparse.ArgumentTypeError("no refusal that points to a place")
    return line


def add_words(parser: argparse.ArgumentParser) -> None:
    """Adds the words."""
    parser.add_argument("program", metavar="P", help="a program")
    parser.add_argument("refusal", metavar="REFUSAL", nargs="+")


def run(given: argparse.Namespace) -> int:
    """Shows the place."""
    return show(given.program, given.refusal)


def show(program: str, words: List[str]) -> int:
    """Shows the place of a refusal that is given as words."""
    line = refusal(" ".join(words))
    source = Source.of(program)
    lines = deeply(lambda: show_refusal(source.name, source.data, line))
    write("".join(f"{text}\n" for text in lines))
    return 0
