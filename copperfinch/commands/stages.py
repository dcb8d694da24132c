"""Shows how many stages a program needs, and a longest chain of nodes that wait for one another.

The first line is the number of stages of first fit after the four passes, if 32 stages may be taken; the other limits are those of LIMITS, or
the greatest. The second line is the number after the further passes, and the third a number that no pass goes below. There only calls
of arrays and outs count, and one stage for all that is computed between two of them. Then each node of a longest chain after the four
passes, or with -O after those, has a line: its stage, its place, what it is, its handlers, and how it waits for the node before it.

All of it comes from the second implementation, copperfinch.model, which is not verified.
"""
import argparse
from dataclasses import replace
from typing import List, Optional

from ..bounded import deeply
from ..errors import Error
from ..explain import GREATEST
from ..explain.chains import least, shown, stages_of
from ..explain.nodes import Described
from ..explain.places import Sources
from ..model import judge
from ..model.json_files import Limits, read_limits
from ..model.layout import Layout
from ..model.more_passes import MORE
from ..model.core import Core
from ..model.normal import normal
from ..model.passes import PASSES, Passes, compose
from ..model.refusals import Refused
from ..streams import Source, write

USAGE = "%(prog)s PROGRAM [LIMITS] [-O]"
SECONDS, MEGABYTES = 60, 1000


def add_words(parser: argparse.ArgumentParser) -> None:
    """Adds the words."""
    parser.add_argument("program", metavar="PROGRAM")
    parser.add_argument("limits", nargs="?", metavar="LIMITS")
    parser.add_argument("-O", dest="more", action="store_true", help="show the chain after the further passes")


def run(given: argparse.Namespace) -> int:
    """Prints the lines."""
    program = Source.of(given.program)
    limits = None if given.limits is None else Source.of(given.limits)
    lines = deeply(lambda: lines_of(Placed(program, limits), given.more), SECONDS, MEGABYTES)
    write("".join(f"{line}\n" for line in lines))
    return 0


class Placed:
    """A program, placed after the four passes and after the further ones. Raises Error if it is refused or does not fit."""

    def __init__(self, program: Source, limits: Optional[Source]) -> None:
        self.answer = judge(["check", program.name], lambda name: program.data)
        if self.answer.refused is not None:
            raise Error(f"{program.name}: {self.answer.refused.line}")
        assert self.answer.program is not None and self.answer.program.core is not None  # it is not refused
        self.core: Core = self.answer.program.core
        try:
            bounds = GREATEST if limits is None else replace(read_limits(limits.data), stages=GREATEST.stages)
            self.made = [fitted(self.core, passes, bounds) for passes in (PASSES, MORE)]
        except Refused as refused:
            raise Error(refused.line) from None

    def counts(self) -> List[int]:
        """Returns the stages after the four passes, those with -O, and the number that no pass goes below."""
        return [*map(stages_of, self.made), least(normal(self.core))]


def counts_of(program: Source, limits: Optional[Source]) -> List[int]:
    """Returns these three numbers of a program."""
    return deeply(lambda: Placed(program, limits).counts(), SECONDS, MEGABYTES)


def lines_of(placed: Placed, more: bool) -> List[str]:
    """Returns the lines for a program."""
    names = ("four passes", "with -O", "no pass goes below")
    lines = [f"{name}: {number} stage{'' if number == 1 else 's'}" for name, number in zip(names, placed.counts())]
    made = placed.made[more]
    return lines + shown(made, Described(made.code, Sources(placed.answer)))


def fitted(core: Core, passes: Passes, limits: Limits) -> Layout:
    """Returns first fit of a program after some passes. Raises Refused if it does not fit."""
    made = Layout(compose(core, passes), limits)
    made.check_code()
    made.fit()
    return made
