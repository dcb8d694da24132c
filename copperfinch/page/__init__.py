"""The page of a run: one HTML file that shows it tick by tick. `page.html` beside this file has its script, and the data is put into it."""
import json
import os
import re
from pathlib import Path
from typing import Any, Dict, List, Tuple, Union

from ..cells import history
from ..errors import Error
from ..files import read_limits, read_scene
from ..labels import Labels
from ..layout import read_layout
from ..lines import Json, Said, Sent
from ..log import read_log
from ..model.lexer import PIECE, RESERVED, scan
from ..network import Ledger, Packet, trace
from ..program import Program, ProgramError
from ..streams import Source

Change = List[Any]  # the event, the array, the cell, and its old and new value, as numbers and as they are shown
ABOUT = [
    "From the program: the log (of `run whole`; `run pipe` printed the same bytes if the program fits) and the layout. The changes of cells come from the second implementation, which runs each event of the log once; what it sends and its cells at the end are those of the log.",
    "Computed by tools/page: from where each event came, when it was ready, and why it was lost. It follows the queues by the limits and the scenario, and refuses a log that does not fit them.",
    "Computed in this page: a packet that entered k ticks before the chosen tick is before stage k. The cells of the arrays of stage k after tick t are those after tick t - k - 1, since the packets that have traversed stage k are those that entered by then. Both are a theorem about the program's pipelines (`Holds` in crates/lucid_net/specs/Holds.antt).",
    "A coloured cell was changed by the packet that traversed the stage last. Arrays that are declared twice with one name are shown together.",
]


def lines_of(data: bytes) -> List[List[List[str]]]:
    """Returns the lines of a program as pieces with their sort."""
    lines: List[List[List[str]]] = [[]]
    text, at = data.decode("latin-1"), 0
    while at < len(text):
        found = PIECE.match(text, at)
        piece = found.group() if found else text[at]
        at += len(piece)
        sort = found.lastgroup if found and found.lastgroup in ("number", "text") else ""
        sort = "reserved" if piece in RESERVED else "comment" if piece.startswith(("//", "/*")) else sort
        for number, part in enumerate(piece.encode("latin-1").decode("utf-8", "replace").split("\n")):
            if number:
                lines.append([])
            if part:
                lines[-1].append([sort or "", part.rstrip("\r")])
    return lines


def handlers_of(data: bytes) -> Dict[str, List[int]]:
    """Returns the lines of the handlers of each event name, the last declared first; of an event without one the line of its declaration."""
    text = data.decode("latin-1")
    tokens, _ = scan(text)
    found: Dict[str, Dict[str, List[int]]] = {"handle": {}, "event": {}}
    line, seen = 1, 0
    for one, two in zip(tokens, tokens[1:]):
        if one.text in found and one.kind == "word" and two.kind == "name":
            line, seen = line + text.count("\n", seen, one.at), one.at
            found[one.text].setdefault(two.text, []).append(line)
    return {name: lines[::-1] for name, lines in {**found["event"], **found["handle"]}.items()}


def exact(value: int) -> Union[int, str]:
    """A tick as a script can keep it: those that a float rounds are texts."""
    return value if value < 2**53 else str(value)


def cells_of(program: Source, found: Ledger, labels: Labels) -> Tuple[List[str], List[Change]]:
    """Returns the names of the arrays, and all changes of cells. Values are texts, since a script's numbers round."""
    made = history(program, found)
    names = [array.name for array in made.arrays]
    changes: List[Change] = []
    for it in made.changes:
        shown = [labels.value(names[it.array], value) for value in (it.old, it.new)] if names[it.array] in labels.cells else []
        changes.append([it.event, it.array, it.cell, str(it.old), str(it.new), *shown])
    return names, changes


def out_of(out: Union[Sent, Said], packets: Dict[int, Packet], at: int, labels: Labels) -> Json:
    """An out of an event."""
    if isinstance(out, Said):
        return {"kind": "say", "text": out.text}
    packet = packets[at]
    return {"kind": "generate", "label": labels.call(out.name, out.args), "switch": packet.switch, "sent": exact(packet.sent), "event": packet.number,
            "lost": packet.fate.is_lost, "why": packet.why()}


def events_of(found: Ledger, blocks: List[str], labels: Labels) -> List[Json]:
    """Returns the events of the log: their texts, where each came from, what it waited behind, and what became of what it sent."""
    events: List[Json] = []
    for number, (event, packet) in enumerate(zip(found.log.events, found.entries)):
        packets = {it.out: it for it in found.sends[number]}
        raw, label = event.label(), labels.call(event.name, event.args)
        events.append({
            "at": event.tick, "switch": event.switch, "name": event.name, "label": label, "line": event.line, "block": blocks[number],
            "ready": packet.ready, "waited": packet.waited, "behind": found.behind(packet)[:5], "sent": packet.sent, "sender": packet.sender,
            "file": packet.file, "outs": [out_of(out, packets, at, labels) for at, out in enumerate(event.outs)], **({} if raw == label else {"raw": raw}),
        })
    return events


def blocks_of(log: bytes, found: Ledger) -> List[str]:
    """Returns the lines of each event, as they were printed."""
    lines = log.decode("latin-1").split("\n")
    return ["\n".join(lines[it.line - 1:it.line + len(it.outs)]) for it in found.log.events]


def data_of(lucid: Program, program: Source, limits: Source, scenario: Source, most: int, labels: Labels) -> Json:
    """Returns all that the page shows; cells if events enter at no more than `most` ticks."""
    log = lucid.answer("run whole", program, limits, scenario)
    bounds, scene = read_limits(limits.data), read_scene(scenario.data)
    found = trace(read_log(log), bounds, scene)
    laid = lucid.call("layout", program, limits)
    if laid.status not in (0, 7):
        raise ProgramError(f"lucid layout: {laid.line}", laid.status, laid.line)
    fits = laid.status == 0
    if fits and lucid.answer("run pipe", program, limits, scenario) != log:
        raise Error("run pipe and run whole printed different logs")
    ticks = len({it.tick for it in found.log.events})
    about = list(ABOUT)
    names, cells = cells_of(program, found, labels) if fits and ticks <= most else ([], None)
    if fits and cells is None:
        about.append(f"Cells are not shown: events enter at {ticks} ticks, more than {most}.")
    layout = read_layout(laid.out) if fits else None
    files = ", ".join(os.path.basename(source.name) for source in (program, limits, scenario))
    return {
        "name": os.path.basename(program.name), "limits": bounds.__dict__, "program": lines_of(program.data), "handlers": handlers_of(program.data),
        "switches": scene.switches, "named": [labels.names.get(it) for it in range(scene.switches)], "stop": scene.stop, "end": list(found.log.end or ()),
        "events": events_of(found, blocks_of(log, found), labels), "arrays": names, "cells": cells,
        "layout": layout and {"ops": layout.ops, "bits": layout.bits, "nodes": layout.nodes, "tables": [it.__dict__ for it in layout.tables]},
        "nofit": laid.line, "about": about,
        "made": f"made by tools/page of {files}" + ("" if lucid.is_proved else "; by a build whose proofs were not checked"),
    }


def page_of(lucid: Program, program: Source, limits: Source, scenario: Source, most: int, labels: Labels = Labels()) -> str:
    """Returns the page of a run as HTML; cells if events enter at no more than `most` ticks."""
    data = data_of(lucid, program, limits, scenario, most, labels)
    head, tail = Path(__file__).with_name("page.html").read_text(encoding="utf-8").split("@@DATA@@")
    title = re.sub("[&<]", lambda it: {"&": "&amp;", "<": "&lt;"}[it[0]], data["name"])
    return head.replace("@@TITLE@@", title) + json.dumps(data, separators=(",", ":")).replace("<", "\\u003c") + tail
