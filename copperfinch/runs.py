"""A run for tools: its files, its log, its ledger, and how its numbers are shown. `add_words` and `run_of` are shared by the commands."""
import argparse
from dataclasses import dataclass
from typing import Optional

from .command import Once
from .files import Limits, Scene, read_limits, read_scene
from .labels import Labels, labels_of
from .log import read_log
from .network import Ledger, trace
from .program import Program
from .streams import ANSWER, Source, read

FILES = "PROGRAM LIMITS SCENARIO"
SHOWN = "[--show NAME=FORMAT,..] [--names NUMBER=NAME,..]"
SHOWN_BY = f"[--program PROGRAM] {SHOWN}"
OPTIONS = f"[--log LOG] [--lucid COMMAND] {SHOWN}"


@dataclass
class Run:
    """A run: what was read, and what is computed of it."""

    program: Source
    limits: Limits
    scene: Scene
    ledger: Ledger
    labels: Labels


def add_labels(parser: argparse.ArgumentParser, needs_program: bool = False) -> None:
    """Adds the words that say how numbers are shown, and the program that formats need if no other word names it."""
    if needs_program:
        parser.add_argument("--program", action=Once, metavar="PROGRAM", help="the program, which formats need")
    parser.add_argument("--show", action="append", default=[], metavar="NAME=FORMAT,..",
                        help="formats of parameters and arrays: dec, hex, bin, ip, mac, signed; also those of the file PROGRAM.show")
    parser.add_argument("--names", action="append", default=[], metavar="NUMBER=NAME,..",
                        help="names of switches; also those of the file SCENARIO.names")


def labels_given(given: argparse.Namespace, scenario: Optional[str]) -> Labels:
    """Reads the words of `add_labels` with a program."""
    program = None if given.program is None else Source.of(given.program)
    return labels_of(given.show, given.names, program, scenario)


def add_words(parser: argparse.ArgumentParser) -> None:
    """Adds the files of a run, and where its log comes from."""
    for name in ("program", "limits", "scenario"):
        parser.add_argument(name, metavar=name.upper())
    parser.add_argument("--log", action=Once, metavar="LOG", help="the log of the run, which is not made then; `-` is standard input")
    parser.add_argument("--lucid", action=Once, metavar="COMMAND", help="another program than the built one")
    add_labels(parser)


def run_of(given: argparse.Namespace) -> Run:
    """Reads the files, makes the run or reads its log, and follows its queues."""
    program, limits, scenario = (Source.of(path) for path in (given.program, given.limits, given.scenario))
    labels = labels_of(given.show, given.names, program, scenario.name)
    if given.log is not None:
        text = read(None if given.log == "-" else given.log, ANSWER)
    else:
        text = Program(given.lucid).answer("run whole", program, limits, scenario)
    bounds, scene = read_limits(limits.data), read_scene(scenario.data)
    return Run(program, bounds, scene, trace(read_log(text), bounds, scene), labels)
