"""Refuses the program each request that it makes: memory, a file to open, a read, a write on the output or on the error stream.

A library that is preloaded does it (refuse.c). Each call is made once without failures, which counts its requests. Then some or, with
`--whole`, all requests are refused in turn, once alone and once with all of that kind behind it. Fails on a signal, on another line or
status, on output that is no beginning of the right one, and on packets or pipes whose requests for memory are not the expected ones. Sees
nothing of programs that no call below has.
"""
from __future__ import annotations

import shutil
from collections import Counter
from dataclasses import dataclass, field
from typing import Dict, List, Sequence

from harness import EXAMPLES, Ended, Group, call, compile_c, table, with_variables

KINDS = {"memory": "REFUSE_MEMORY", "open": "REFUSE_OPEN", "read": "REFUSE_READ", "write": "REFUSE_WRITE", "error": "REFUSE_TELL"}
MEMORY = (11, b"memory\n")
STEP = 50
DRIVEN = """global Array.t<<32>> x = Array.create(2);
global Array.t<<32>> y = Array.create(2);
memop plus(int stored, int a) { return stored + a; }
event hit(int v);
handle hit(int v) { int n = Array.update(x, 0, plus, v, plus, v); Array.set(y, 0, n); }
"""
FILES = {
    "two.luc": """event note(int n);
event send(int to, int n);
handle send(int to, int n) { generate Event.locate(note(n), to); generate Event.locate(note(n), 9); }
""",
    "two.limits": '{"stages":2,"recirc":1}',
    "two.scenario": """{"switches":2,"stop":20,"links":[[0,1,5]],
"events":[{"at":0,"switch":0,"name":"send","args":[1,7]},{"at":8,"switch":1,"name":"note","args":[8]}]}
""",
    "branches.luc": """global Array.t<<32>> x = Array.create(2);
event out(int n);
event e(int v);
handle e(int v) { int n = 0; if (v == 0) { n = Array.get(x, 0); } else { n = Array.get(x, 1); } generate out(n); }
""",
    "default.limits": "{}",
    "driven.luc": DRIVEN,
    "driven.limits": '{"stages":3}',
    "wide.limits": '{"stages":32}',
    "asked.luc": """global Array.t<<32>> x = Array.create(4);
event seen(int n);
event ask();
handle ask() { generate seen(Array.get(x, 0)); }
""",
    "asked.placement": '{"nodes":[[0,1],[1,0]]}',
    "asked.scenario": """{"stop":30,
"events":[{"at":0,"switch":0,"name":"ask","args":[]},{"at":0,"switch":0,"name":"ask","args":[]}]}""",
    "sized.luc": """event out(int<<8>> a, int<<16>> b);
fun <<w>> int<<w>> inc(int<<w>> x) { return x + 1; }
event go();
handle go() { generate out(inc<<8>>(255), inc<<16>>(255)); }
""",
}
CALLS = """once first.luc pkt 5|layout branches.luc default.limits|run whole two.luc two.limits two.scenario
run pipe two.luc two.limits two.scenario|drive driven.luc driven.limits driven.scenario|snap driven.luc driven.limits driven.scenario 3
expand sized.luc|audit asked.luc two.limits asked.placement|run placed asked.luc two.limits asked.scenario asked.placement
gen program 0 2|gen limits 0 2|gen scene 0 2|bench 0 2|check sized.luc"""


def scenario(stop: int, at: int, arguments: Sequence[int], steps: str = "", switches: int = 1) -> str:
    """A scenario of DRIVEN, with one event for each argument."""
    events = ",".join('{"at":%d,"switch":0,"name":"hit","args":[%d]}' % (at, argument) for argument in arguments)
    return '{"switches":%d,"stop":%d,"events":[%s]%s}' % (switches, stop, events, f',"steps":[{steps}]' if steps else "")


SCENARIOS = {
    "driven.scenario": scenario(1, 0, [3, 4], '["enter"],["enter"],["go",0],["enter"],["look","y",0],["go",1],["look","y",0]'),
    "drive.moving": scenario(1, 0, [3, 4, 5], '["enter"],["go",0],["enter"],["go",1],["go",0],["enter"]'),
    "drive.still": scenario(1, 0, [3, 4, 5], '["go",0],["go",0],["go",1],["enter"],["enter"],["enter"]'),
    "run.moving": scenario(4, 0, [3, 4]),
    "run.still": scenario(4, 9, [3, 4]),
    "switches.8": scenario(4, 0, [3, 4], switches=8),
}


@dataclass
class Refusals:
    """One call: how it ended without failures, how many requests of each kind it made, and the outcomes of the refused ones."""

    words: List[str]
    whole: Ended
    requests: Dict[str, int]
    seen: Counter = field(default_factory=Counter)

    def is_as_before(self, ended: Ended) -> bool:
        return ended == self.whole

    def is_read_fault(self, ended: Ended) -> bool:
        """Whether a call ended with the line of a file that its words name, and wrote nothing."""
        lines = [f"read fault: {word}\n".encode() for word in self.words]
        return ended.status == 2 and not ended.out and ended.err in lines

    def is_right(self, kind: str, ended: Ended) -> bool:
        """Whether a call may end so after a refused request of this kind."""
        begins = self.whole.out.startswith(ended.out)
        if kind == "memory" and (ended.status, ended.err) == MEMORY:
            self.seen["begun"] += bool(ended.out)
            return begins and (not ended.out or self.words[0] in ("run", "snap"))
        if kind == "memory" and self.is_as_before(ended):
            self.seen["without"] += 1
            return True
        if kind in ("memory", "open", "read"):
            return self.is_read_fault(ended)
        if kind == "write":
            return (ended.status, ended.err) == (10, b"write fault\n") and begins and ended.out != self.whole.out
        begins_line = self.whole.err.startswith(ended.err) and ended.err != self.whole.err
        return ended.status == self.whole.status and ended.out == self.whole.out and begins_line


def counted(group: Group, words: Sequence[str]) -> Refusals:
    """Makes a call without failures, and counts its requests."""
    count = group.room / "counts" / "-".join(words)
    count.parent.mkdir(exist_ok=True)
    ended = preloaded(group, words, COUNT=count)
    numbers = map(int, count.read_text().split()) if count.exists() else [0] * len(KINDS)
    return Refusals(list(words), ended, dict(zip(KINDS, numbers)))


def preloaded(group: Group, words: Sequence[str], **variables: object) -> Ended:
    return call([group.options.program, *words], cwd=group.room, env=with_variables(LD_PRELOAD="./refuse.so", **variables))


def each_request(group: Group, words: List[str], step: int) -> Refusals:
    """Refuses each `step`-th request for memory of a call, and each of the others, alone and with all behind it."""
    found = counted(group, words)
    name = " ".join(words)
    group.check(f"{name}: requests are counted", found.requests["memory"] > 0, found.whole)
    group.check(f"{name}: is no usage", found.whole.err != b"usage\n" and found.whole.status >= 0, found.whole)
    for kind, variable in KINDS.items():
        numbers = range(1, found.requests[kind] + 1)
        if kind == "memory" and step > 1:
            numbers = sorted({*numbers[::step], *numbers[-1:]})
        for number in numbers:
            for behind in "REFUSE_ONE", "REFUSE_BEHIND":
                ended = preloaded(group, words, **{variable: number, behind: 1})
                group.check(f"{name}: {kind} {number} of {found.requests[kind]}, {behind}", found.is_right(kind, ended), ended)
    ended = preloaded(group, words, SHORT=1)
    group.check(f"{name}: moved byte by byte", found.is_as_before(ended), ended)
    return found


def prepare(group: Group) -> None:
    compile_c(group, "refuse.c", "-fPIC", "-shared").rename(group.room / "refuse.so")
    for path in EXAMPLES.iterdir():
        if path.is_file():
            shutil.copy(path, group.room)
    for name, text in {**FILES, **SCENARIOS}.items():
        group.file(name, text)


def calls(group: Group) -> List[List[str]]:
    """The calls of this run: of each form of words, and with --whole also those of all examples."""
    found = [line.split() for line in CALLS.replace("\n", "|").split("|")]
    found.append("run pipe driven.luc driven.limits run.moving".split())
    if group.options.whole:
        found += [["check", path.name] for path in sorted(group.room.glob("*.luc"))]
        for path in sorted(group.room.glob("*.layout")) + sorted(group.room.glob("*.run")):
            words = path.read_text().split("\n", 1)[0].replace("examples/", "").split()
            found += [words, ["run", "pipe", *words[2:]]] if words[:2] == ["run", "whole"] else [words]
    return found


def memory_of(group: Group, words: str) -> int:
    """The number of requests for memory of a call that ends well."""
    found = counted(group, words.split())
    group.check(f"{words} ends well", found.whole.status == 0 and found.requests["memory"] > 0, found.whole)
    return found.requests["memory"]


def same_requests(group: Group) -> None:
    """Packets that move take no memory: as many requests with packets that move as with fewer or none that do."""
    for words, moving, still in (
        ("drive driven.luc driven.limits", "drive.moving", "drive.still"),
        ("run pipe driven.luc driven.limits", "run.moving", "run.still"),
    ):
        first, second = memory_of(group, f"{words} {moving}"), memory_of(group, f"{words} {still}")
        group.note(f"`{words}`: requests for memory where packets move {first}, and where fewer or none do {second}")
        group.check(f"{words}: as many requests for memory whether packets move or not", first == second, (first, second))


def layouts_take_memory(group: Group) -> None:
    """A `run pipe` takes memory for its layout, which a network without pipes does not take."""
    more = memory_of(group, "run pipe driven.luc driven.limits run.moving") - memory_of(group, "run whole driven.luc driven.limits run.moving")
    layout = memory_of(group, "layout driven.luc driven.limits")
    group.note(f"requests for memory: run pipe {more} more than run whole, layout {layout}")
    group.check("run pipe takes memory for its layout", more > layout // 4, (more, layout))


def pipes_take_memory(group: Group) -> None:
    """A `run pipe` takes memory for a pipe in each switch, which a network without pipes does not take."""
    of = lambda form, file: memory_of(group, f"run {form} driven.luc driven.limits {file}")
    pipe, whole = (of(form, "switches.8") - of(form, "run.moving") for form in ("pipe", "whole"))
    group.note(f"requests for memory of 7 more switches: run pipe {pipe}, run whole {whole}")
    group.check("run pipe takes memory for each of its pipes", pipe > whole, (pipe, whole))


def run(group: Group) -> None:
    prepare(group)
    found = group.side_by_side(lambda words: each_request(group, words, 1 if group.options.whole else STEP), calls(group))
    titles = ["Call", "Ends with", "Memory", "after a write", "done without", "Opened", "Reads", "Writes", "Error writes"]
    counts = lambda it: [it.requests["memory"], it.seen["begun"], it.seen["without"], *list(it.requests.values())[1:]]
    rows = [[f"`{' '.join(it.words)}`", it.whole.status, *counts(it)] for it in found]
    if group.options.whole:
        table(group, titles, rows)
    sums = Counter()
    for it in found:
        sums.update(it.requests)
    group.note(f"refused: {len(found)} calls; requests: " + ", ".join(f"{kind} {count}" for kind, count in sums.items()))
    same_requests(group)
    layouts_take_memory(group)
    pipes_take_memory(group)
