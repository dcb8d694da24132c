"""Draws a scenario for one of the ten applications of examples/. The same words print the same bytes.

EVENTS is 10 to 20,000, and SEED has up to 20 digits. Packets overlap, and in most of the applications links fail.
"""
import argparse

from ..command import number
from ..scenarios import MAKERS, MOST, draw, text_of
from ..streams import write

USAGE = f"%(prog)s {'|'.join(MAKERS)} EVENTS SEED, with 10 to {MOST} events"


def add_words(parser: argparse.ArgumentParser) -> None:
    """Adds the words."""
    parser.add_argument("name", choices=list(MAKERS))
    parser.add_argument("events", type=number(10, MOST), metavar="EVENTS")
    parser.add_argument("seed", type=number(0, 10**20), metavar="SEED")


def run(given: argparse.Namespace) -> int:
    """Writes the scenario."""
    write(text_of(draw(given.name, given.events, given.seed)))
    return 0
