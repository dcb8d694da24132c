"""Makes the call of each file of examples/, and tries the ten applications: properties, drawn networks, the table and the pictures.

Fails on another byte of an example's log, layout or refusal; on a `run pipe` or `run placed` that differs from `run whole`; on a property
NAME.check that refuses a log of its example, or accepts one with a line changed, one that is cut off, or the log of a wrong program; on a
row of the table or a picture of docs/ that is out of date; and on a line of the page that the example does not print. Sees nothing of the
texts beside those lines.

The drawn networks have 2,000 events of the scenario, or 20,000 with `--large`, which also prints the answer of each property. `--fill`
writes the pictures.
"""
from __future__ import annotations

import json
import re
from dataclasses import dataclass
from pathlib import Path
from typing import List, Sequence, Union

from harness import EXAMPLES, TESTS, TOP, Ended, Group, call

ENDINGS = ("check", "refused", "once", "run", "layout")
# The cells of a row of the table that a measurement fills.
FILLED = 1


@dataclass(frozen=True)
class Application:
    """One of the ten applications: pairs of a line of its log and another, and of a text of its program and another, which break its
    property; and the answer that docs/NAME.svg shows, `log` or `layout`."""

    name: str
    picture: str
    wrong: List[str]
    lines: List[List[str]]


APPLICATIONS = [Application(**it) for it in json.loads((TESTS / "applications.json").read_text())]
# Others with a picture; their properties are tried by the group `properties`.
MORE = [Application(name, "layout" if name in ("arp", "balancer", "bfd") else "log", [], []) for name in ("arp", "balancer", "bfd", "bucket", "synguard", "telemetry")]


def run(group: Group) -> None:
    files = sorted(path for path in EXAMPLES.iterdir() if path.suffix[1:] in ENDINGS and not is_script(path))
    group.check("there are examples", len(files) > 20)
    group.side_by_side(lambda path: check_example(group, path), files)
    shown_lines(group)
    group.side_by_side(lambda it: try_application(group, it), APPLICATIONS)
    group.side_by_side(lambda it: picture(group, it), MORE)
    table_of_the_page(group)
    other_texts(group)


def check_example(group: Group, path: Path) -> None:
    """Makes the call of a file's first line, which prints its other lines. A network prints the same on pipelines."""
    first, _, wanted = path.read_bytes().partition(b"\n")
    words = first.decode().split()
    ended = group.call(*words, cwd=TOP)
    group.check(f"examples/{path.name}", ended.out + ended.err == wanted, ended)
    if words[:2] == ["run", "whole"]:
        ended = group.call("run", "pipe", *words[2:], cwd=TOP)
        group.check(f"examples/{path.name} on pipelines", ended.out + ended.err == wanted, ended)


def is_script(path: Path) -> bool:
    return path.exists() and path.read_bytes().startswith(b"#!")


def lines_of(name: str) -> List[str]:
    """All lines that the example of this name prints."""
    files = [EXAMPLES / (name + ending) for ending in (".run", ".ring.run", ".check", ".refused", ".layout")]
    return [line for path in files if path.exists() and not is_script(path) for line in path.read_text().splitlines()]


def in_order(shown: Sequence[str], printed: Sequence[str]) -> bool:
    """Whether the lines are printed in this order, perhaps with others between them."""
    rest = iter(printed)
    return all(line in rest for line in shown)


def shown_lines(group: Group) -> None:
    """Each block of a section shows lines of the example that the section links first; the group `calls` makes the calls of the page."""
    sections = re.split(r"^## ", (EXAMPLES / "README.md").read_text(), flags=re.M)[1:]
    blocks = 0
    for section in sections:
        name = re.search(r"\(([a-z]+)[.]luc\)", section)
        for block in re.findall(r"^```[^\n]*\n(.*?)^```", section, flags=re.S | re.M) if name else []:
            if block.startswith("$ "):
                continue
            blocks += 1
            shown = block.splitlines()
            group.check(f"examples/README.md shows lines of {name.group(1)}", in_order(shown, lines_of(name.group(1))), shown[:1])
    group.check("examples/README.md shows lines", blocks > 0)


# The ten applications --------------------------------------------------------------------------------------------------------------------


def try_application(group: Group, it: Application) -> None:
    changed_logs(group, it)
    drawn_network(group, it)
    picture(group, it)


def judge(group: Group, it: Application, log: Union[str, bytes], name: str) -> Ended:
    """How the property of an application ends for a log."""
    return call([EXAMPLES / f"{it.name}.check", group.file(f"{it.name}-{name}.log", log)])


def is_broken(ended: Ended) -> bool:
    """Whether a property was refused with one line that says why."""
    return ended.status == 1 and ended.err == b"" and re.fullmatch(rb"broken: .+\n", ended.out) is not None


def changed_logs(group: Group, it: Application) -> None:
    """The property holds for the log of the example, and for none of its changed logs."""
    log = (EXAMPLES / f"{it.name}.run").read_text().partition("\n")[2]
    ended = judge(group, it, log, "own")
    group.check(f"{it.name}.check holds", ended.status == 0 and ended.out.startswith(b"holds: "), ended)
    wrong = {"an empty log": "", "a log that is cut off": log[: log.rindex("entered")], "a text that is no log": "event e();\n"}
    for old, new in it.lines:
        group.check(f"{it.name}.run has the line {old}", f"\n{old}\n" in log)
        wrong[f"{old} -> {new}"] = f"\n{log}".replace(f"\n{old}\n", f"\n{new}\n", 1)[1:]
    for number, (name, text) in enumerate(wrong.items()):
        ended = judge(group, it, text, f"changed-{number}")
        group.check(f"{it.name}.check refuses {name}", is_broken(ended), ended)


def drawn_network(group: Group, it: Application) -> None:
    """A drawn network prints one log in all three modes, for which the property holds; that of the wrong program breaks it."""
    events = 20000 if group.options.large else 2000
    scenario = group.file(f"{it.name}.json", call([TOP / "tools/scenario", it.name, str(events), "1"]).out)
    program, limits = EXAMPLES / f"{it.name}.luc", EXAMPLES / f"{it.name}.limits.json"
    whole = group.call("run", "whole", program, limits, scenario)
    entered = re.search(rb"^entered (\d+) ", whole.out, re.M)
    group.check(f"{it.name}, {events} events enter", entered is not None and int(entered[1]) >= events, whole)
    ended = judge(group, it, whole.out, "whole")
    group.check(f"{it.name}, {events} events: the property", ended.status == 0, ended)
    pipe = group.call("run", "pipe", program, limits, scenario)
    group.check(f"{it.name}, {events} events on pipelines", pipe == whole, pipe)
    fit = call([TOP / "tools/explain", program, limits, "--placement", "--lucid", group.options.program])
    places = group.file(f"{it.name}.placement.json", fit.out)
    placed = group.call("run", "placed", program, limits, scenario, places)
    group.check(f"{it.name}, {events} events placed", placed == whole, placed)
    if group.options.large:
        group.note(f"{it.name}: {entered[1].decode() if entered else 'none'} events entered; {ended.out.decode().strip()}")
    text, (old, new) = program.read_text(), it.wrong
    group.check(f"examples/README.md says {new}", f"`{new}` for `{old}`" in (EXAMPLES / "README.md").read_text())
    wrong = group.file(f"{it.name}.wrong.luc", text.replace(old, new))
    ended = judge(group, it, group.call("run", "whole", wrong, limits, scenario).out, "wrong")
    # The reason is an event or a cell, so the log itself was read.
    group.check(f"{it.name}.check refuses {new}", old in text and re.match(rb"broken: (\[|s\d)", ended.out) is not None, ended)


def picture(group: Group, it: Application) -> None:
    """docs/NAME.svg shows the log or the layout of the example."""
    limits, scene = EXAMPLES / f"{it.name}.limits.json", EXAMPLES / f"{it.name}.scenario.json"
    answer = EXAMPLES / f"{it.name}.{'run' if it.picture == 'log' else 'layout'}"
    text = group.file(f"{it.name}.answer", answer.read_bytes().partition(b"\n")[2])
    made = call([TOP / "tools/picture", it.picture, limits, *([scene] if it.picture == "log" else []), text])
    shown = TOP / f"docs/{it.name}.svg"
    if group.options.fill and made.status == 0:
        shown.write_bytes(made.out)
    group.check(f"docs/{it.name}.svg", made.status == 0 and shown.exists() and shown.read_bytes() == made.out, made)


# The table and the tools -----------------------------------------------------------------------------------------------------------------


def cells_of(row: str) -> List[str]:
    return [cell.strip() for cell in row.strip().strip("|").split("|")]


def fill_row(row: List[str]) -> None:
    """Writes the cells of a row into the page, but for the measured ones."""
    path = EXAMPLES / "README.md"
    lines = path.read_text().splitlines(True)
    for number, line in enumerate(lines):
        if line.startswith("| [") and cells_of(line)[:2] == row[:2]:
            lines[number] = f"| {' | '.join([*row[:-FILLED], *cells_of(line)[-FILLED:]])} |\n"
    path.write_text("".join(lines))


def table_of_the_page(group: Group) -> None:
    """The table of the page has the rows that tools/examples-table prints. Its measured cells are a number each, and are not compared.

    With --fill the other cells of the page are written.
    """
    tool = TOP / "tools/examples-table"
    rows, measured = ([cells_of(row) for row in call([tool, *words]).out.decode().splitlines()] for words in ([], [group.options.program, "20"]))
    group.check("tools/examples-table prints a row for each", len(rows) == len(measured) == len(APPLICATIONS) + len(MORE), rows)
    if group.options.fill:
        for row in rows:
            fill_row(row)
    page = [cells_of(line) for line in (EXAMPLES / "README.md").read_text().splitlines() if line.startswith("| [")]
    for row, with_speed in zip(rows, measured):
        sizes, is_number = row[:-FILLED], r"[0-9,]+"
        has_speed = re.fullmatch(is_number, with_speed[-FILLED]) is not None
        is_measured = any(f"{it.name}.luc" in row[1] for it in APPLICATIONS)
        group.check(f"a measured row: {row[0]}", with_speed[:-FILLED] == sizes and has_speed == is_measured, with_speed)
        found = [cells for cells in page if cells[: len(sizes)] == sizes]
        # A cell of the page that was not measured is empty.
        good = len(found) == 1 and re.fullmatch(f"({is_number})?", found[0][-FILLED]) is not None
        group.check(f"a row of examples/README.md: {row[0]}", good, found or sizes)


def other_texts(group: Group) -> None:
    """A property takes one file, and refuses one that is no log of its program."""
    check, end = EXAMPLES / "nat.check", "entered 1 lost 0 pending 0\n"
    group.check("a property of two files", call([check, "a", "b"]).status == 2)
    texts = {"no text": b"\377\n", "fewer arguments": f"[0] s0 out(1)\n{end}", "a number of 5,000 digits": f"[{'9' * 5000}] s0 out(1,1)\n{end}",
             "a log twice": f"[0] s0 dropped(6)\n{end}" * 2}
    files = {**{name: group.file(f"nat.{name}", text) for name, text in texts.items()}, "no file": group.room / "none", "a folder": group.room}
    for name, path in files.items():
        ended = call([check, path])
        group.check(f"a property of {name}", is_broken(ended), ended)
