"""`tools/follow`: the tree of what an event caused, and the way back, against a watched network of the second implementation.

Expected lines are made from what the network met (ledger.py) and not from the ledger: who sent what, when it was ready, what entered while it
waited, and the window that took it. Each line of MUTANTS is a change of copperfinch/follow.py that a network must notice. Bad input is one line.
"""
from __future__ import annotations

import json
import sys
from types import ModuleType
from typing import Any, Dict, Iterator, List, Tuple

from harness import TOP, Group, Word
from samples import example

from copperfinch import follow
from copperfinch.files import read_limits, read_scene
from copperfinch.labels import Labels
from copperfinch.log import Log, read_log
from copperfinch.network import Fate, trace
from groups.ledger import Key, Met, cases, watched

LINES = {Fate.NO_SWITCH: "there is no switch ", Fate.NO_LINK: "no link joins switches ", Fate.DOWN: "the link of switches ", Fate.WAITING: "ready at tick ", Fate.LATE: "the run ended before tick "}
MUTANTS = [
    ("tells another sender", "was sent by {self.named(packet.sender)}", "was sent by {self.named(max(0, packet.sender - 1))}"),
    ("waits a tick less", "waited {len(behind)} tick", "waited {len(behind) - 1} tick"),
    ("shows the last that it waited for", "for it in behind[:NAMED]", "for it in behind[-NAMED:]"),
    ("tells the tick of entry as that of readiness", "ready at {packet.ready}, enters", "ready at {packet.entered}, enters"),
    ("ends at the second generation", "left += self.outs(it.number, depth + 2)", "left += []"),
    ("forgets what is printed", "f'prints \"{out.text}\"' if isinstance(out, Said) else sends[at]", "'' if isinstance(out, Said) else sends[at]"),
    ("goes back one step", "self.ledger.back(packet.sender)[::-1]", "self.ledger.back(packet.sender)[:-2:-1]"),
    ("calls what is pending lost", "'lost' if packet.fate.is_lost else", "'lost' if packet.fate else"),
    ("takes other arguments", 'arg in ("_", str(value), text)', 'arg in ("_", str(value), text) or value > 5'),
]


def expected(log: Log, met: Dict[Key, Met]) -> Dict[int, List[str]]:
    """What `follow` must say of each event, without indentation: its line, its wait, and a line for each out; then of each that it caused."""
    by_sender: Dict[int, Dict[int, Tuple[Key, Met]]] = {}
    waits: Dict[int, List[int]] = {}
    for key, it in met.items():
        if it.sender is not None:
            by_sender.setdefault(it.sender, {})[key[4]] = (key, it)
        if it.number is not None:
            waits[it.number] = it.behind
    found: Dict[int, List[str]] = {}
    for number in reversed(range(len(log.events))):
        event, lines = log.events[number], []
        behind = waits[number]
        if behind:
            names = ", ".join(f"{it} {log.events[it].label()}" for it in behind[:5]) + (f" and {len(behind) - 5} more" if len(behind) > 5 else "")
            lines.append(f"waited {len(behind)} tick{'s' * (len(behind) > 1)}, behind event{'s' * (len(behind) > 1)} {names}")
        for at, out in enumerate(event.outs):
            key, it = by_sender.get(number, {}).get(at, (None, None))
            if key is None or it is None:
                lines.append(f'prints "{out.text}"')
            elif it.number is None:
                lines.append(f"sends {out} to s{event.switch if out.to is None else out.to}: {'lost' if key[0] is None else 'pending'}: {LINES[it.fate]}")
                lines[-1] += f"{it.window[2]} {it.window[3]}" if it.window else ""
            else:
                lines += [f"sends {out} to s{log.events[it.number].switch}: ready at {key[0]}, enters as event {it.number}", *found[it.number]]
        found[number] = [f"event {number} {event}", *lines]
    return found


def seen(lines: List[str]) -> Iterator[str]:
    """Lines of `follow` in the form of `expected`: without departures, and with the first words of a reason."""
    for line in map(str.strip, lines):
        if line.startswith(("is ", "was sent by ")):
            continue
        head, _, rest = line.partition(": departs at tick ")
        if not rest or ", ready at " in rest and "enters as" in rest:
            yield f"{head}: {rest.partition(', ')[2]}" if rest else line
            continue
        fate = rest.partition(", ")[2]
        kind, _, why = fate.partition(": ")
        words = next(it for it in LINES.values() if why.startswith(it))
        ticks = why.partition("from tick ")[2].split(" to before ") if "from tick" in why else []
        yield f"{head}: {kind}: {words}{' '.join(ticks)}"


def faults(module: Any, program: bytes, limits: bytes, scene: bytes) -> Iterator[object]:
    """Where the trees and the ways back differ from what a network met."""
    text, met = watched(program, limits, scene)
    log = read_log(text)
    ledger, wanted = trace(log, read_limits(limits), read_scene(scene)), expected(log, met)
    senders = {it.number: (key, it) for key, it in met.items() if it.number is not None}
    for number in range(len(log.events)):
        follower = module.Follower(ledger, Labels())
        made = list(seen(list(follower.tree(ledger.entries[number]))))
        if made != wanted[number]:
            yield "tree", number, made, wanted[number]
        way, at = [], number
        while True:
            key, it = senders[at]
            way.append(f"event {at} {log.events[at]}")
            if it.sender is None:
                way.append(f"  is events[{key[4]}] of the scenario, for tick {key[0]}")
                break
            way.append(f"  was sent by event {it.sender} {log.events[it.sender]}, departed at tick ")
            at = it.sender
        back = [line for line in follower.back(ledger.entries[number]) if not line.startswith("  waited")]
        if [line if it[0] != " " or "is events" in it else line[:len(it)] for line, it in zip(back, way)] != way or len(back) != len(way):
            yield "back", number, back, way
        if [it.number for it in module.found(ledger, Labels(), f"[{log.events[number].tick}] s{log.events[number].switch} {log.events[number].label()}")] != [number]:
            yield "found", number
        same = [at for at, it in enumerate(log.events) if it.label() == log.events[number].label()]
        if sum(it.label() == log.events[number].label() for it in ledger.packets) <= 20 and not set(same) <= {it.number for it in module.found(ledger, Labels(), log.events[number].label())} <= {None, *same}:
            yield "found by its call", number, same


def test_trees(group: Group) -> None:
    """The tree and the way back of each event of each network."""
    for name, *files in cases():
        wrong = next(faults(follow, *files), None)
        group.check(f"follow of {name}", wrong is None, wrong)


def test_mutants(group: Group) -> None:
    """Each mutant of the module differs on the first network."""
    text, files = (TOP / "copperfinch/follow.py").read_text(), list(cases())[:4]
    for name, old, new in MUTANTS:
        made: Any = ModuleType("copperfinch.follow_mutant")
        made.__package__ = "copperfinch"
        sys.modules[made.__name__] = made
        exec(compile(text.replace(old, new), made.__name__, "exec"), made.__dict__)  # noqa: S102
        if group.check(f"a follower that {name} is found in the text", text.count(old) == 1):
            group.check(f"a follower that {name} is noticed", any(notices(made, *it[1:]) for it in files))


def notices(module: Any, *files: bytes) -> bool:
    try:
        return next(faults(module, *files), None) is not None
    except (ValueError, IndexError, TypeError, follow.Error):
        return True


def test_command(group: Group) -> None:
    """The command: a pattern, JSON, a log that is given, and bad input."""
    files: List[Word] = [*example("heavy")]
    log = group.call("run", "whole", *files).out
    own = group.file("own.log", log)
    lines = [json.loads(it) for it in group.tool("json", "log", "--limits", files[1], "--scenario", files[2], given=log).out.splitlines()]
    events = {it["number"]: it for it in lines if it["kind"] == "event"}
    first = next(number for number, it in events.items() if any(out.get("event") for out in it["outs"]))
    tree, left = [], [first]
    while left:
        tree.append(left.pop())
        left += [out["event"] for out in events[tree[-1]]["outs"] if out.get("event") is not None]
    made = group.tool("follow", *files, str(first), "--json", "--log", own)
    group.check("the tree as JSON is that of the complete log", [json.loads(it) for it in made.out.splitlines()] == [events[it] for it in sorted(tree)], made)
    back = group.tool("follow", *files, str(tree[-1]), "--json", "--back", "--log", own)
    group.check("the way back as JSON ends in the scenario", [json.loads(it)["number"] for it in back.out.splitlines()][-1] == first, back)
    same = group.tool("follow", *files, str(first), "--lucid", group.options.program)
    group.check("the log of the program is that which is given", same.out == group.tool("follow", *files, str(first), "--log", "-", given=log).out != b"", same)
    name = events[first]["name"]
    labels = group.tool("follow", *files, str(first), "--names", "0=<b>\"&,1=core", "--log", own)
    group.check("names of switches", b'<b>"&' in labels.out and b" s0 " not in labels.out, labels)
    for title, words, why in (
        ("an event that is not there", ["99999"], "there is no event 99999"), ("a name that is not there", ["nobody"], "no event is nobody"),
        ("another number of arguments", [f"{name}(_,_,_,_,_,_,_,_)"], "no event is"), ("no pattern", ["a b"], "is no event: write"),
        ("a number of 30 digits", ["9" * 30], "is no event: write"), ("a name of 4 KB", ["0", "--names", "0=" + "x" * 4096], "names: 0=xxx"),
        ("two switches of one name", ["0", "--names", "0=a,1=a"], "two switches have one name"), ("a switch 64", ["0", "--names", "64=a"], "names: 64=a"),
        ("a name with a line feed", ["0", "--names", "0=a\tb"], "names: 0=a"), ("an unknown format", ["0", "--show", f"{name}.x=octal"], "has no format: write dec"),
        ("an unknown parameter", ["0", "--show", "nobody=hex"], "no array or parameter nobody"),
    ):
        bad(group, title, why, *files, *words, "--log", own)
    bad(group, "a cut log", "cut off", *files, "0", "--log", group.file("cut.log", log[:-9]))
    bad(group, "the log of another run", "does not fit the files", *files, "0", "--log", group.file("other.log", b"[0] s0 x()\nentered 1 lost 0 pending 0\n"))
    many = [group.file("many.luc", "event e(int n);handle e(int n){}"), group.file("many.json", "{}")]
    own = group.file("t.json", json.dumps({"stop": 10000, "events": [{"at": 0, "switch": 0, "name": "e", "args": [at]} for at in range(10000)]}))
    bad(group, "a pattern that matches 10,000 events", "10000 events are e(_), more than 20: name one by its number; the first are 0, 1, 2, 3, 4", *many, own, "e(_)", "--lucid", group.options.program)


def bad(group: Group, title: str, why: str, *words: Word) -> None:
    """A call ends with one line on standard error and exit code 1."""
    made = group.tool("follow", *words)
    group.check(f"{title} is one line", made.status == 1 and not made.out and made.err.count(b"\n") == 1 and why.encode() in made.err and len(made.err) < 300, made)
