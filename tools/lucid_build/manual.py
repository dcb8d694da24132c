"""The man page lucid(1), made of the text of `lucid --help`."""
from __future__ import annotations

import re
from typing import List

SECTIONS = {"  check": "FORMS", "  P  ": "WORDS", "  --": "OPTIONS"}
HEAD = """.TH LUCID 1 "{date}" "Copperfinch {version}" "User Commands"
.SH NAME
lucid, lucid\\-tools \\- compile and simulate Lucid programs for switches
.SH SYNOPSIS
.B lucid
.I WORDS
.br
.B lucid\\-tools
.I COMMAND WORDS
.SH DESCRIPTION
Checks a program in Lucid, places it in the stages of a target, and simulates networks of switches that run it. The words have one of the
forms below.
.B lucid\\-tools
explains refusals, draws runs, and writes JSON; its option
.B \\-\\-help
lists its commands.
"""
TAIL = """.SH FILES
The pages that the text above names are in
.IR {documents} .
"""


def quote(text: str) -> str:
    """Returns a text without meaning for roff."""
    text = text.replace("\\", "\\e").replace("-", "\\-").replace("`", "\\(ga")
    return f"\\&{text}" if text[:1] in (".", "'") else text


def entry(name: str, text: str) -> str:
    return f".TP\n.B {quote(name)}\n{quote(text)}\n"


def page(help_text: str, version: str, date: str, documents: str) -> str:
    """Returns the man page. Lines of the help begin with two blanks and have two or more between a name and its text; more go on with it."""
    made = [HEAD.format(version=version, date=date)]
    lines: List[str] = re.sub(r"\n {4,}", " ", help_text).splitlines()[1:]
    last = ""
    for line in lines:
        title = next((name for start, name in SECTIONS.items() if line.startswith(start)), "")
        if title and title != last:
            made.append(f".SH {title}\n")
            last = title
        if line.startswith("  "):
            # a text may have a page in brackets behind it
            cells = re.sub(r"  +\(", " (", line.strip()).split("  ")
            cells = [cell.strip() for cell in cells if cell]
            made += [entry(name, text) for name, text in zip(cells[::2], cells[1::2])]
        elif line.startswith("Exit codes: "):
            made.append(".SH EXIT STATUS\n" + quote(line[len("Exit codes: ") :]) + "\n")
        elif line:
            made.append(quote(line) + "\n")
    return "".join(made) + TAIL.format(documents=quote(documents))
