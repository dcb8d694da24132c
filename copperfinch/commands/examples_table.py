"""Prints the rows of the tables in examples/README.md: the sizes of the applications, and the speed of the ten.

The sizes are computed from the files NAME.luc and NAME.layout. Lines that are empty or only a comment are not counted. Beside the stages of
the layout are those with the further passes and the number that no pass goes below, as `stages NAME.luc` gives them. The speed is empty
unless a built PROGRAM is given: then it is the number of events that enter in a second of a processor in `run pipe`, on the scenario that
`scenario NAME EVENTS 1` prints (EVENTS is 10 to 20,000, and 20,000 if it is not given). It is the best of three runs, in thousands.
"""
import argparse
import re
import resource
from dataclasses import dataclass
from pathlib import Path
from typing import Tuple

from ..command import number
from ..errors import Error
from ..program import Program
from ..scenarios import MAKERS, MOST, draw, text_of
from ..streams import Source, write
from .stages import counts_of

TOP = Path(__file__).resolve().parent.parent.parent
USAGE = "%(prog)s [PROGRAM [EVENTS]]"


@dataclass(frozen=True)
class Application:
    """An application: its name in the paper, its file, and its section of the page."""

    title: str
    name: str
    section: str


APPLICATIONS = [
    Application("Stateful firewall", "firewall", "a-stateful-firewall"),
    Application("Fast reroute", "reroute", "fast-reroute"),
    Application("Closed-loop DNS defence", "dns", "a-guard-against-dns-reflection"),
    Application("\\*Flow telemetry cache", "flowcache", "a-flow-telemetry-cache"),
    Application("Consistent shared state (SRO)", "sro", "consistent-shared-state"),
    Application("Distributed firewall", "gateways", "a-distributed-firewall"),
    Application("Distributed probabilistic firewall with aging", "aging", "a-distributed-firewall-that-forgets"),
    Application("RIP", "rip", "routing-by-distance-vectors"),
    Application("NAT", "nat", "network-address-translation"),
    Application("Count-min sketch with historical queries", "countmin", "a-count-min-sketch-with-historical-queries"),
    # These are not of the paper, and no scenario is drawn to measure them.
    Application("Address resolution", "arp", "address-resolution"),
    Application("Liveness of neighbours", "bfd", "liveness-of-neighbours"),
    Application("In-band telemetry", "telemetry", "in-band-telemetry"),
    Application("Load balancer", "balancer", "a-load-balancer"),
    Application("Token bucket", "bucket", "a-token-bucket-for-each-user"),
    Application("Guard against SYN floods", "synguard", "a-guard-against-syn-floods"),
]


def is_code(line: str) -> bool:
    return bool(line.strip()) and not line.strip().startswith("//")


def sizes(name: str) -> Tuple[int, ...]:
    """Lines, stages, stages with -O, the number that no pass goes below, tables, rows, operations, bits and arrays of an example."""
    source = Source.of(str(TOP / f"examples/{name}.luc"))
    program = source.data.decode()
    layout = (TOP / f"examples/{name}.layout").read_text(encoding="utf-8")
    tables = [(int(stage), int(rows)) for stage, rows in re.findall(r"^stage (\d+) table \d+ rows (\d+)", layout, re.MULTILINE)]
    counts = re.search(r"^ops (\d+) bits (\d+)", layout, re.MULTILINE)
    if counts is None:
        raise Error(f"examples/{name}.layout has no line of counts")
    lines = sum(map(is_code, program.split("\n")))
    stages = len({stage for stage, _ in tables})
    rows = sum(rows for _, rows in tables)
    _, more, below = counts_of(source, None)
    return lines, stages, more, below, len(tables), rows, int(counts[1]), int(counts[2]), len(re.findall(r"^global ", program, re.MULTILINE))


def spent() -> float:
    """The seconds of a processor that ended children took, in the program and in the system."""
    usage = resource.getrusage(resource.RUSAGE_CHILDREN)
    return usage.ru_utime + usage.ru_stime


def speed(program: str, name: str, events: int) -> int:
    """Events that enter a second in `run pipe`, in thousands: the best of three runs."""
    lucid, scenario = Program(program), Source("scenario", text_of(draw(name, events, 1)).encode())
    best, entered = float("inf"), 0
    for _ in range(3):
        begin = spent()
        log = lucid.answer("run pipe", TOP / f"examples/{name}.luc", TOP / f"examples/{name}.limits.json", scenario)
        best = min(best, spent() - begin)
        entered = int(log.rsplit(b"entered ", 1)[1].split()[0])
    return int(round(entered / max(best, 0.001), -3))


def row(it: Application, speed_of_it: str) -> str:
    """A row of the table."""
    cells = [f"[{it.title}](#{it.section})", f"[{it.name}.luc]({it.name}.luc)", *map(str, sizes(it.name)), speed_of_it]
    return "|" + "".join(f" {cell} |" if cell else " |" for cell in cells)


def add_words(parser: argparse.ArgumentParser) -> None:
    """Adds the words."""
    parser.add_argument("program", nargs="?", metavar="PROGRAM")
    parser.add_argument("events", nargs="?", type=number(10, MOST), default=MOST, metavar="EVENTS")


def run(given: argparse.Namespace) -> int:
    """Prints the rows."""
    for it in APPLICATIONS:
        try:
            measured = f"{speed(given.program, it.name, given.events):,}" if given.program and it.name in MAKERS else ""
        except (Error, IndexError):
            raise Error(f"{given.program} does not run the scenario of {it.name}") from None
        write(row(it, measured) + "\n")
    return 0
