"""Formats of values and names of switches (`--show`, `--names`) in `json`, its CSV, and pictures; the groups follow, cells and page have theirs.

Expected texts are written out. Seen to fail: an ip with its bytes reversed, a format for another parameter, `signed` of another width, a name
on the target in place of the switch, a picture that keeps one number, a CSV without its last argument.
"""
from __future__ import annotations

import csv
import io
import json
from typing import Any, Dict, List

from harness import TOP, Group
from jsonschema import Draft202012Validator
from samples import scene

from copperfinch.labels import FORMATS

PROGRAM = """global Array.t<<16>> seen = Array.create(4);
event pkt(int src, int<<48>> mac, int<<8>> level);
event note(int src);
handle pkt(int src, int<<48>> mac, int<<8>> level) { Array.set(seen, 1, (int<<16>>)level); generate Event.locate(note(src), 1); }
"""
TEXTS = [("dec", 7, 8, "7"), ("hex", 7, 8, "0x07"), ("hex", 2**64 - 1, 64, "0xffffffffffffffff"), ("bin", 5, 4, "0b0101"), ("ip", 0x0a000102, 32, "10.0.1.2"),
         ("ip", 2**32, 64, "4294967296"), ("mac", 0x0011223344ff, 48, "00:11:22:33:44:ff"), ("signed", 255, 8, "-1"), ("signed", 127, 8, "127"),
         ("signed", 2**63, 64, str(-2**63))]
SHOW = "pkt.src=ip,mac=mac,level=signed,seen=hex"


def test_formats(group: Group) -> None:
    """Each format, at the ends of its range."""
    for form, value, width, text in TEXTS:
        made = FORMATS[form](value, width)
        group.check(f"{form} of {value} in {width} bits is {text}", made == text, made)
    group.check("each format is tried", {it[0] for it in TEXTS} == set(FORMATS))


def test_answers(group: Group) -> None:
    """JSON, CSV and pictures of one network."""
    events = [(0, 0, "pkt", [0x0a000001, 0x0011223344ff, 255])]
    own = scene(group, "t.json", events, 40, switches=2, links=[[0, 1, 3]])
    files = [group.file("p.luc", PROGRAM), group.file("l.json", '{"stages":4}'), own]
    log = group.call("run", "whole", *files).out
    words = ["--program", files[0], "--show", SHOW, "--names", "0=edge,1=core"]
    made = group.tool("json", "log", *words, given=log)
    objects: List[Dict[str, Any]] = [json.loads(it) for it in made.out.splitlines()]
    pkt, note, cell = objects[0], objects[1], objects[2]
    shown = ["10.0.0.1", "00:11:22:33:44:ff", "-1"]
    group.check("an event", (pkt["args"], pkt["shown"], pkt["named"]) == (events[0][3], shown, "edge"), made)
    group.check("what it sent", (pkt["outs"][0]["shown"], pkt["outs"][0]["named"]) == (["167772161"], "core"), made)
    group.check("an event of another name", (note["shown"], note["named"]) == (["167772161"], "core"), made)
    group.check("a cell", (cell["value"], cell["shown"], cell["named"]) == (255, "0x00ff", "edge"), made)
    plain = [json.loads(it) for it in group.tool("json", "log", given=log).out.splitlines()]
    bare = [{key: it[key] for key in it if key not in ("shown", "named", "outs")} for it in objects]
    group.check("without both it is the usual object", bare == [{key: it[key] for key in it if key != "outs"} for it in plain] and "shown" not in plain[0], bare)
    rows = list(csv.DictReader(io.StringIO(group.tool("json", "log", "--csv", *words, given=log).out.decode())))
    group.check("a table", [(it["at"], it["switch"], it["name"], it["arg0"], it["arg2"], it["shown"], it["named"]) for it in rows]
                == [("0", "0", "pkt", "167772161", "255", " ".join(shown), "edge"), ("7", "1", "note", "167772161", "", "167772161", "core")], rows)
    complete = list(csv.DictReader(io.StringIO(group.tool("json", "log", "--csv", "--limits", files[1], "--scenario", files[2], given=log).out.decode())))
    group.check("a complete table", [(it["number"], it["cause"], it["sent"], it["ready"], it["waited"], it["why"]) for it in complete]
                == [("0", "scenario 0", "0", "0", "0", ""), ("1", "event 0 out 0", "4", "7", "0", "")], complete)
    schema = json.loads((TOP / "tools/schema/log.schema.json").read_text())
    lines = group.tool("follow", *files, "0", "--json", "--show", SHOW, "--names", "0=edge", "--lucid", group.options.program).out.splitlines()
    lines += group.tool("json", "log", "--limits", files[1], "--scenario", files[2], *words, given=log).out.splitlines()
    wrong = [it for it in map(json.loads, lines) if not Draft202012Validator(schema).is_valid(it)]
    group.check("texts are in the schema", not wrong and len(lines) > 5 and "shown" in json.loads(lines[0]), wrong)
    change = json.loads(group.tool("cells", *files, "seen", "--json", "--show", SHOW, "--names", "0=edge", "--lucid", group.options.program).out)
    group.check("a change", (change["old"], change["new"], change["shown"], change["named"]) == (0, 255, ["0x0000", "0x00ff"], "edge"), change)
    drawn = group.tool("picture", "log", *files[1:], *words, given=log).out.decode()
    wanted = (">edge<", ">core<", f"pkt({','.join(shown)})", "seen[1] = 0x00ff", "sent at 0 by edge, ready at 7")
    group.check("a picture of a log", all(it in drawn for it in wanted) and "switch 0" not in drawn and "pkt(1677" not in drawn, drawn[-900:])
    moved = scene(group, "m.json", events, 1, steps=[["enter"], *(["go", at] for at in range(4)), ["look", "seen", 1]])
    drive = group.tool("picture", "drive", files[1], moved, *words, given=group.call("drive", *files[:2], moved).out).out.decode()
    group.check("a picture of a drive", all(it in drive for it in ("look seen[1] = 0x00ff", f"[0] edge pkt({','.join(shown)})", "to core")), drive[-900:])
    alone = group.tool("json", "log", "--show", SHOW, given=log)
    group.check("formats without a program are one line", alone.status == 1 and alone.err == b"json: show: formats need the program: name it by --program\n", alone)
    other = group.tool("json", "layout", "--csv", given=b"ops 0 bits 96 nodes 0\n")
    group.check("only a log is a table", other.status == 2 and other.err.startswith(b"usage: "), other)
