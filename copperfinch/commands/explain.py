"""Explains a refusal of `lucid`, or shows the nodes and the layout of a program.

With PROGRAM alone the call `check` is explained, with LIMITS `layout`, with SCENARIO `run pipe`, with PLACEMENT `run placed`; where
SCENARIO is `-` there is none, and `audit` is explained. --all goes on behind the refusal, and explains all that is wrong. --lint warns of
what is accepted and probably wrong; tools/LINT.md has a section for each warning.

The first line is the program's own refusal: that of the built program if there is one (--lucid, $LUCID, or that of the checkout), or else
that of the second implementation. All other lines come from that second implementation, copperfinch.model, which is not verified; if both
differ, the call ends with 70. With -O all is that of a program with the further passes.

An explanation that takes more than 6 seconds of a processor, or more than 300 MB, is left out, and a line says which part. Without LIMITS
the nodes are placed within the greatest limits. The exit code is that of the explained call.
"""
import argparse
import json
import os
from dataclasses import dataclass, field
from typing import Any, Dict, List, Optional

from ..bounded import Exceeded, deeply
from ..command import Once
from ..errors import Error
from ..explain import Explanation, Report, fill
from ..explain.every import MOST, explain_all
from ..lint import Warning, lint_answer
from ..model import agrees
from ..model.more_passes import MORE
from ..model.passes import PASSES
from ..program import Ended, Program, Running, built
from ..streams import Source, complain, printable, read_again, write
from .where import show

USAGE = "%(prog)s PROGRAM [LIMITS [SCENARIO [PLACEMENT]]] [-O] [--nodes] [--layout] [--placement] [--chain] [--json] [--all] [--lint] [--lucid COMMAND] | PROGRAM --where REFUSAL"
SECONDS, MEGABYTES = 6, 300
# The most seconds of a processor and bytes of output of the program's own call.
ITS_SECONDS, ITS_BYTES = 9, 2**20


def add_words(parser: argparse.ArgumentParser) -> None:
    """Adds the words."""
    parser.add_argument("program", metavar="PROGRAM")
    for name in ("limits", "scenario", "placement_file"):
        parser.add_argument(name, nargs="?", metavar=name[:9].upper())
    parser.add_argument("-O", dest="more", action="store_true", help="explain the call with the further passes, which no program runs yet")
    parser.add_argument("--nodes", action="store_true", help="the nodes: number, place, what each is and reads, its array, stage, rows and bits")
    parser.add_argument("--layout", action="store_true", help="the tables of first fit, each with its nodes")
    parser.add_argument("--placement", action="store_true", help="first fit as a placement file, for `audit` and `run placed`; a refusal goes to standard error")
    parser.add_argument("--chain", action="store_true", help="a longest chain of nodes that wait for one another, if the program fits")
    parser.add_argument("--all", action="store_true", help="all that is wrong, and not only what is refused first")
    parser.add_argument("--lint", action="store_true", help="warnings of what is accepted and probably wrong")
    parser.add_argument("--json", action="store_true", help="all of this as one JSON object")
    parser.add_argument("--where", nargs="+", metavar="REFUSAL", help="the place of a refusal that `lucid` printed")
    parser.add_argument("--lucid", action=Once, metavar="COMMAND", help="another program than the built one")


def command_of(given: argparse.Namespace) -> str:
    """Returns the command of the call that is explained."""
    if given.placement_file is not None:
        return "audit" if given.scenario == "-" else "run placed"
    return "run pipe" if given.scenario is not None else "layout" if given.limits is not None else "check"


@dataclass
class Asked:
    """What is asked for beside a report: all explanations, and the warnings."""

    every: List[Explanation] = field(default_factory=list)
    warnings: List[Warning] = field(default_factory=list)

    def data(self, given: argparse.Namespace) -> Dict[str, Any]:
        """What is asked for as JSON."""
        found: Dict[str, Any] = {"all": [made.data() for made in self.every]} if given.all else {}
        return {**found, "warnings": [made.data() for made in self.warnings]} if given.lint else found


def shown(report: Report, given: argparse.Namespace, asked: Asked) -> List[str]:
    """Returns the lines that are asked for."""
    every = asked.every
    lines = [] if report.explanation is None else report.explanation.lines()
    for made in every[1:]:
        lines += ["", *made.lines(begins=False)]
    if len(every) > 1:
        lines += ["", f"{len(every)} mistakes" if len(every) < MOST else f"the first {MOST} mistakes are shown"]
    for warning in asked.warnings:
        lines += [*warning.lines(), ""]
    if given.lint and report.explanation is None:
        lines.append(f"{len(asked.warnings)} warning{'s' * (len(asked.warnings) != 1)}")
    if given.nodes:
        lines += report.table
    if given.layout:
        for table in report.tables:
            arrays = " arrays " + " ".join(table["arrays"]) if table["arrays"] else ""
            lines.append(f"stage {table['stage']} table {table['table']} rows {table['rows']}{arrays}")
            for node in (report.nodes[number] for number in table["nodes"]):
                lines.append(f"  node {node['node']}: {node['what']} ({node['line']}:{node['column']})")
    if given.placement and report.placement is not None:
        lines.append(json.dumps(report.placement))
    if given.chain:
        lines += report.chain
    return lines


def run(given: argparse.Namespace) -> int:
    """Explains the call of the command line."""
    if given.where is not None:
        return show(given.program, given.where)
    command, paths = command_of(given), [given.program, given.limits, given.scenario, given.placement_file]
    files = [path for number, path in enumerate(paths) if path is not None and not (command == "audit" and number == 2)]
    # Each file is read once, and its bytes go to both implementations.
    sources = {os.fsencode(path): source_of(path) for path in files}
    path, passes = given.lucid or (None if given.more else built()), MORE if given.more else PASSES
    program = Program(path) if path else None
    running: Optional[Running] = None
    if program is not None:
        running = program.start(command, *(sources[os.fsencode(path)] or path for path in files), most=ITS_BYTES, seconds=ITS_SECONDS)
    report, left_out = Report(), ""
    asked = Asked()

    def work() -> None:
        fill(report, words, lambda name: sources_data(sources, name), wanted, passes)
        if given.all:
            report.part = "all but the first refusal"
            asked.every = explain_all(words, lambda name: sources_data(sources, name), passes=passes)
        if given.lint and report.answer is not None:
            report.part = "the warnings"
            asked.warnings = lint_answer(report.answer)

    try:
        words = [os.fsencode(word) for word in [*command.split(), *files]]
        wanted = bool(given.nodes or given.layout or given.placement or given.chain or given.json)
        try:
            deeply(work, SECONDS, MEGABYTES)
        except Exceeded as why:
            left_out = f"left out: {report.part}, since {why}"
        ended = running.finish() if running else None
    finally:
        if running:
            running.close()
    return tell(report, given, ended, left_out, command, asked)


def source_of(path: str) -> Optional[Source]:
    """Reads a file for both implementations; None if it cannot be read, which both then refuse."""
    try:
        return Source(path, read_again(os.fsencode(path)))
    except (OSError, ValueError):
        return None


def sources_data(sources: Dict[bytes, Optional[Source]], name: bytes) -> bytes:
    """Returns the bytes of a file. Raises OSError if it could not be read."""
    source = sources[name]
    if source is None:
        raise OSError(name)
    return source.data


def tell(report: Report, given: argparse.Namespace, ended: Optional[Ended], left_out: str, command: str, asked: Asked) -> int:
    """Prints the explanation, below the line of the call; returns the exit code of the call."""
    answer = report.answer
    status, line = (answer.status, answer.err) if answer else (1, b"")
    if ended is not None:
        if ended.status < 0:
            raise Error(f"lucid {command}: it takes more than {ITS_SECONDS} s of a processor, or was ended by a signal")
        # The output of a run is not compared: it is printed after all that can be refused.
        out = None if command.startswith("run") or ended.is_cut else ended.out
        if answer and not agrees(answer, ended.status, out, ended.err):
            complain(ended.err.decode("utf-8", "replace").rstrip("\n"))
            complain(f"explain: the second implementation answers with {answer.status}: {answer.err.decode('latin-1').strip()}")
            return 70
        status, line = ended.status, ended.err
    elif not answer:
        raise Error(f"{left_out}; and no program is built")
    first = line.decode("utf-8", "replace").rstrip("\n")
    if given.json:
        write(json.dumps({"line": first or None, "status": status, **report.data(), **asked.data(given), "left_out": left_out or None}) + "\n")
        return status
    lines = [first] if first else []
    lines += shown(report, given, asked)
    if first or given.lint or given.nodes or given.layout or given.placement or given.chain:
        lines += [left_out] if left_out else []
    else:
        lines = ["nothing is refused"]
    if given.placement and report.placement is None:  # standard output becomes a placement file, or nothing
        for text in lines:
            complain(text)
    else:
        write("".join(f"{printable(text)}\n" for text in lines))
    return status
