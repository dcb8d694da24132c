"""Pictures of logs, layouts and drives: their shapes, their sizes, and logs that do not fit their files.

Sees nothing of colours and fonts; the group examples compares the pictures of docs/. Seen to fail:
- twins: an arrow that is guessed by name or leaves a tick early; ticks, windows of links or pending events that no one compares with the files
- whole_log: no bar for an event that sends nothing, two lines for one arrow
- parts: an option without effect, ticks without the first or the last
- layouts: stages, rows or bits beyond the limits that are drawn, all stages in one row
- drives: a packet one stage too far, another text of the last row, steps, arrays of looks, events, counts or stages that no one compares with the files
- scales: a column for each of 40 switches, labels that are not cut or have no tooltip, one heading, waits of no tick, a name in red
"""
from __future__ import annotations

import json
import xml.dom.minidom
from typing import Dict, List

from harness import Group, Word
from samples import answer_of, example, moves, networks, scene

from copperfinch.files import read_scene
from copperfinch.log import read_log

TWINS = """global Array.t<<32>> last = Array.create(4);
event note(int n);
event send(int n);
handle note(int n) { Array.set(last, 0, n); }
handle send(int n) { generate Event.locate(note(n), 1); }
"""
BROAD = "forward_the_packet_of_a_flow_with_a_rather_long_name_that_no_column_has_room_for_at_all_now"
BROAD_PROGRAM = f"""event {BROAD}(int left, int flow);
event hop(int n, int m);
handle {BROAD}(int left, int flow) {{ if (left > 0) {{ generate Event.locate({BROAD}(left - 1, flow + 1), (SELF + 7) & 31); }} }}
handle hop(int n, int m) {{ printf("hop %d", n); if (n > 0) {{ generate Event.locate(hop(n - 1, m), m); }} }}
"""


def run(group: Group) -> None:
    twins(group)
    group.side_by_side(lambda name: whole_log(group, name), networks())
    parts(group)
    layouts(group)
    drives(group)
    scales(group)


def shapes(svg: bytes, name: str) -> List[Dict[str, str]]:
    """The shapes of a kind, each with its attributes, its text and its tooltip."""
    found = []
    for it in xml.dom.minidom.parseString(svg).getElementsByTagName(name) if svg else []:
        text = "".join(node.data for node in it.childNodes if node.nodeType == node.TEXT_NODE)
        tips = [node.firstChild.data for node in it.getElementsByTagName("title") if node.firstChild]
        found.append({**dict(it.attributes.items()), "text": text, "tip": "".join(tips[:1])})
    return found


def arrows(svg: bytes) -> List[str]:
    """The tooltips of the arrows of a log."""
    return [it["tip"] for kind in ("line", "path") for it in shapes(svg, kind) if " left at " in it["tip"]]


def bars(svg: bytes) -> set:
    """The first lines of the tooltips of the bars of a log."""
    return {it["tip"].split("\n")[0] for it in shapes(svg, "rect") if it["tip"].startswith("[")}


def width(svg: bytes) -> int:
    return int(xml.dom.minidom.parseString(svg).documentElement.getAttribute("width"))


def refuses(group: Group, name: str, why: bytes, words: List[Word], given: bytes) -> None:
    """A picture of an answer that does not fit its files is refused, and nothing is drawn."""
    ended = group.tool("picture", *words, given=given)
    group.check(f"no picture of {name}", ended.status == 1 and ended.err.startswith(b"picture: ") and why in ended.err and not ended.out, ended)


def twins(group: Group) -> None:
    """Two equal events, of which one is sent and one is of the scenario: the arrow goes to the one that was sent."""
    program, limits = group.file("twins.luc", TWINS), group.file("two.json", '{"stages":2}')
    events = [(0, 0, "send", [7]), (20, 1, "note", [7])]
    usual = {"stop": 200, "switches": 2, "links": [[0, 1, 100]]}
    own = scene(group, "twins.json", events, **usual)
    log = group.call("run", "whole", program, limits, own).out
    seen = arrows(group.tool("picture", "log", limits, own, given=log).out)
    group.check("arrows of twins", seen == ["note(7): s0, left at 2, to s1, entered at 102"], seen)
    longer = group.file("longer.json", '{"stages":3}')
    refuses(group, "a log of other limits", b"line 4 does not fit the files: they ask for [103] s1 note(7) there\n", ["log", longer, own], log)
    refuses(group, "a log without its end", b"cut off", ["log", limits, own], log.rpartition(b"entered")[0])
    for name, its, change in (
        ("another latency", events, {"links": [[0, 1, 99]]}), ("no link", events, {"links": []}), ("an event more", events + events[:1], {}),
        ("an event less", events[:1], {}), ("an earlier stop", events, {"stop": 50}), ("one switch", events[:1], {"switches": 1, "links": []}),
        ("a link that is down", events, {"version": 2, "down": [[1, 0, 2, 3]]}),
    ):
        refuses(group, f"a log of {name}", b"fit the files", ["log", limits, scene(group, "other.json", its, **{**usual, **change})], log)


def whole_log(group: Group, name: str) -> None:
    """Every event of an example has a bar, and no more events have an arrow than were sent and entered, by a second count."""
    program, limits, own = example(name)
    log = group.call("run", "whole", program, limits, own).out
    made, read = group.tool("picture", "log", limits, own, given=log), read_log(log)
    group.check(f"bars of {name}", bars(made.out) == {str(it) for it in read.events}, made.err)
    given = len(read_scene(own.read_bytes()).events)
    sent = sum(not out.lost for it in read.events for out in it.sent)
    waits = read.end[2] if read.end else 0
    # What entered is of the scenario or was sent; what is pending did not enter.
    group.check(f"arrows of {name}", len(arrows(made.out)) <= sent and given + sent == len(read.events) + waits, (sent, waits))


def parts(group: Group) -> None:
    """Options choose a part of a log."""
    program, limits, own = example("detector")
    log = group.call("run", "whole", program, limits, own).out
    blocks = [it for it in read_log(log).events if it.switch == 0 and it.name != "pong"]
    first, last = blocks[1].tick, blocks[-2].tick
    made = group.tool("picture", "log", limits, own, "--switches", "0", "--ticks", f"{first}..{last}", "--without", "pong", given=log)
    chosen = [it for it in blocks if first <= it.tick <= last]
    group.check("a part of a log", bars(made.out) == {str(it) for it in chosen} and len(chosen) > 2, made)


def layouts(group: Group) -> None:
    layout = answer_of("nat.layout")
    for key, value in (("stages", 3), ("rows", 3), ("bits", 100)):
        refuses(group, f"a layout of more {key}", b"fit the limits", ["layout", group.file("l", json.dumps({key: value}))], layout)
    long_names = b"ops 1 bits 1 nodes 1\n" + b"".join(b"stage %d table 0 rows 1 ops 1 arrays %s\n" % (k, b"a" * 80) for k in range(21))
    made = group.tool("picture", "layout", group.file("l", '{"stages":21}'), given=long_names)
    group.check("a layout with long names", width(made.out) <= 1260, made.err)


def drives(group: Group) -> None:
    program, limits, own = moves(group)
    for words in (["drive"], ["snap", "5"]):
        answer = group.call(words[0], program, limits, own, *words[1:]).out
        found = shapes(group.tool("picture", "drive", limits, own, given=answer).out, "text")
        texts, tips = [it["text"] for it in found], [it["tip"] for it in found]
        wanted = ("enter 2", "go 2", "at the end", "entered 3 left 0", "look x[1] = 3", "2 steps not done")
        group.check(f"a picture of {words[0]}", all(it in texts for it in wanted) and "2 times empty 9" in tips, texts)
    drive = group.call("drive", program, limits, own).out
    for name, wrong in (
        ("in another order", drive.replace(b"enter 0\nbusy", b"busy\nenter 0")), ("with a step more", b"go 0\n" + drive),
        ("that enters where none can", drive.replace(b"busy", b"enter 1")), ("of another event", drive.replace(b"hit(3)", b"hit(2)")),
        ("of another count", drive.replace(b"left 0", b"left 1")), ("without a look", drive.replace(b"look x[1] = 3\n", b"")),
        ("with another look", drive.replace(b"look x", b"look y")),
    ):
        refuses(group, f"a drive {name}", b"", ["drive", limits, own], wrong)
    refuses(group, "a drive of other limits", b"", ["drive", group.file("l", '{"stages":2}'), own], drive)


def scales(group: Group) -> None:
    """Forty switches, 200 events and names of 90 letters within 1,200 pixels; no label longer than 40 letters; headings repeated."""
    program, limits = group.file("broad.luc", BROAD_PROGRAM), group.file("broad.limits.json", '{"stages":8}')
    links = [[a, b, 1 + (7 * a + 5 * b) % 30] for a in range(40) for b in range(a + 1, 40) if (a * b + a + b) % 5 > 1]
    events = [(it * 37 % 300, it * 11 % 40, BROAD if it % 2 else "hop", [it % 3, it * 13 % 40]) for it in range(200)]
    crowd = scene(group, "crowd.json", [(0, 0, "hop", [0, 0])] * 20, 40)
    broad, waiting = (
        group.tool("picture", "log", limits, own, given=group.call("run", "whole", program, limits, own).out).out
        for own in (scene(group, "broad.json", events, 330, switches=40, links=links), crowd)
    )
    texts = shapes(broad, "text")
    group.check("a broad log is 1,200 pixels wide", width(broad) <= 1200, width(broad))
    group.check("labels are cut", max(len(it["text"]) for it in texts) <= 40 and any(BROAD in it["tip"] for it in texts))
    heads = sorted(float(it["y"]) for it in texts if it["text"] == "tick")
    group.check("headings are repeated", len(heads) > 2 and all(b - a < 1200 for a, b in zip(heads, heads[1:])), heads)
    waits = [it["tip"] for it in shapes(waiting, "line") if " waited from " in it["tip"]]
    group.check("waiting is drawn", len(waits) == 19 and "hop(0,0) waited from 0 to 19" in waits, waits)
    group.check("no bar has the red of a lost event", "#c00" not in [it.get("fill", "") for it in shapes(waiting, "rect")])
