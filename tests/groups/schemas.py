"""The JSON Schemas of tools/schema, by jsonschema: the files of the examples and those below fit as the program accepts them.

Sees no other files; a schema says less than the program. Seen to fail: each type, bound, key, pattern and count of the three schemas, left
out or one greater or less, but for the greatest tick at which a window begins and the most arguments less one; other bounds in files.py.
"""
from __future__ import annotations

import json
import re
from collections import Counter
from typing import Any, Iterator, List, Tuple

from harness import EXAMPLES, TOP, Group
from jsonschema import Draft202012Validator, validators
from samples import HITS

from copperfinch.files import LIMITS, read_limits, read_scene
from copperfinch.layout import read_layout
from copperfinch.log import read_log
from copperfinch.network import trace
from groups.ledger import cases, watched

# In JSON Schema 1.0 is an integer; in the program's files it is none.
TYPES = Draft202012Validator.TYPE_CHECKER.redefine("integer", lambda checker, value: type(value) is int)
CHECKER = validators.extend(Draft202012Validator, type_checker=TYPES)
KNOWN = [*Draft202012Validator.VALIDATORS, "$schema", "title", "description", "default", "then"]
SCENE = {"stop": 3, "switches": 3, "events": [{"at": 0, "switch": 0, "name": "hit", "args": [1]}]}
EVENT = SCENE["events"][0]
# Keys in place of those of the scenario above, and what is in place of all of it.
GOOD = """{} {"version":1} {"version":2,"links":[[0,1,5]],"down":[[1,0,2,3]]} {"steps":[["enter"],["go",31],["look","x",99]]}"""
BAD = """{"link":[]} {"stop":-1} {"stop":"3"} {"version":3} {"switches":0} {"switches":65} {"switches":true} {"links":{}} {"events":null}
{"links":[[0,1]]} {"links":[[0,1,0]]} {"links":[[0,1,5,1]]} {"links":[[0,64,5]]} {"links":[[0,1,5]],"down":[]}
{"version":2,"down":[[0,1,2]]} {"version":2,"down":[[0,1,2,3,4]]} {"steps":["enter"]} {"steps":[[]]} {"steps":[["stop"]]}
{"steps":[["enter",1]]} {"steps":[["go",32]]} {"steps":[["go"]]} {"steps":[["go",1,2]]} {"steps":[["look","x"]]} {"steps":[["look","x",1,2]]}
{"steps":[["lock","x",1]]} {"steps":[["look","x-",1]]} {"steps":[["look",1,1]]} {"steps":5} {"links":[5]} {"events":[5]}
{"version":2,"down":5} {"version":2,"down":[5]} {"version":1,"links":[[0,1,5]],"down":[]} {"version":2,"links":[[0,1,5]],"down":[[0,1,"2",3]]}
{"version":2,"links":[[0,1,5]],"down":[[0,1,-1,3]]} {"version":2,"links":[[0,1,5]],"down":[[0,1,18446744073709551616,5]]}"""
# Keys with a number at `@`, and its least and its greatest value.
NUMBERS = """{"switches":@} 1 64|{"switches":1,"stop":@} 0 131072|{"links":[[0,1,@]]} 1 65536|{"steps":[["go",@]]} 0 31|{"steps":[["look","x",@]]} 0 18446744073709551615
{"switches":64,"links":[[@,5,1]]} 0 63|{"switches":64,"links":[[5,@,1]]} 0 63|{"version":2,"links":[[0,1,5]],"down":[[0,1,0,@]]} 1 18446744073709551615
{"switches":64,"version":2,"links":[[0,5,1],[5,63,1]],"down":[[@,5,0,1]]} 0 63|{"switches":64,"version":2,"links":[[0,5,1],[5,63,1]],"down":[[5,@,0,1]]} 0 63
{"events":[{"at":@,"switch":0,"name":"hit","args":[1]}]} 0 18446744073709551615|{"switches":64,"events":[{"at":0,"switch":@,"name":"hit","args":[1]}]} 0 63"""
BAD_EVENTS: List[Any] = [{"args": 5}, {"args": [-1]}, {"args": ["1"]}, {"x": 1}, {"args": [0] * 9}, {"name": 1}, {"name": "hit-"}]


def run(group: Group) -> None:
    schema = {name: json.loads((TOP / f"tools/schema/{name}.schema.json").read_text()) for name in ("limits", "scenario", "placement")}
    for found in schema.values():
        Draft202012Validator.check_schema(found)
    for path in sorted(EXAMPLES.glob("*.json")):
        kind = "scenario" if ".scenario." in path.name else "limits"
        group.check(f"schema of {path.name}", fits(schema[kind], json.loads(path.read_text())))
    program, limits = group.file("p.luc", HITS), group.file("l.json", "{}")
    for scene, holds in scenes():
        ended = group.call("run", "whole", program, limits, group.file("t.json", json.dumps(scene)))
        group.check(f"scenario {json.dumps(scene)[:120]}", fits(schema["scenario"], scene) == holds == (ended.status == 0), ended)
    for key, bounds in LIMITS.items():
        own = schema["limits"]["properties"][key]
        group.check(f"schema of {key}", (own["minimum"], own["maximum"], own["default"]) == tuple(bounds))
        for value in (*bounds[:2], bounds[0] - 1, bounds[1] + 1, str(bounds[0]), None, 1.5):
            ended = group.call("layout", program, group.file("l2.json", json.dumps({key: value})))
            group.check(f"limits {key} {value!r}", fits(schema["limits"], {key: value}) == (ended.status in (0, 7)), ended)
    group.check("limits other", not fits(schema["limits"], {"stage": 3}) and not fits(schema["limits"], []))
    count = read_layout(group.call("layout", program, limits).out).nodes
    pairs = lambda pair: {"nodes": [pair] * count}
    bad = [{}, [], {"nodes": {}}, pairs([0]), pairs([0, 0, 0]), pairs([0, 2**32]), pairs([0, -1]), {"nodes": [], "more": 1}]
    bad += [pairs([2**32, 0]), pairs([-1, 0]), pairs(["0", 0]), pairs([0, "0"]), pairs("00")]
    for place in [{"nodes": [[number, 0] for number in range(count)]}, pairs([2**32 - 1, 2**32 - 1]), *bad]:
        line = group.call("audit", program, limits, group.file("q.json", json.dumps(place))).err.decode()
        refused = re.match(r"placement: (file|other|nodes)", line) is not None
        group.check(f"placement {json.dumps(place)[:80]}", fits(schema["placement"], place) == (place not in bad) != refused, line)


def test_complete_logs(group: Group) -> None:
    """Each object of a complete log fits its schema, and none does without a key, with one more, or with a value of another kind."""
    schema = json.loads((TOP / "tools/schema/log.schema.json").read_text())
    CHECKER.check_schema(schema)
    judge, tried = CHECKER(schema), Counter()
    for name, program, limits, scene in cases():
        for it in trace(read_log(watched(program, limits, scene)[0]), read_limits(limits), read_scene(scene)).json():
            shape = (it["kind"], it.get("why"), *sorted({(out["kind"], out.get("why")) for out in it.get("outs", [])}, key=str))
            tried[shape] += 1
            if tried[shape] <= 20:
                group.check(f"a line of the complete log of {name}", judge.is_valid(it), it)
            for other in changes(it) if tried[shape] == 1 else []:
                group.check(f"no line of a log: {json.dumps(other)[:160]}", not judge.is_valid(other))
    group.check("objects of all kinds", {it[0] for it in tried} == {"event", "lost", "pending", "cell", "end"} and len(tried) >= 12, tried)


def changes(it: Any) -> Iterator[Any]:
    """An object of a log with one fault, also within its outs."""
    yield {**it, "more": 1}
    for key, value in it.items():
        yield {other: held for other, held in it.items() if other != key}
        yield {**it, key: -1 if type(value) is int or value is None else 1.5 if not isinstance(value, bool) else not value}
    for at, out in enumerate(it.get("outs", [])):
        yield from ({**it, "outs": it["outs"][:at] + [other] + it["outs"][at + 1:]} for other in changes(out))


def scenes() -> List[Tuple[Any, bool]]:
    """Scenarios, each with whether it is accepted."""
    found: List[Tuple[Any, bool]] = [({"stop": 0}, True), ([], False), ({}, False)]
    for text, holds in ((GOOD, True), (BAD, False)):
        found += [({**SCENE, **json.loads(change)}, holds) for change in text.split()]
    for form, least, most in (it.rsplit(" ", 2) for it in NUMBERS.replace("\n", "|").split("|")):
        values = [(least, True), (most, True), (str(int(least) - 1), False), (str(int(most) + 1), False), ('"1"', False)]
        found += [({**SCENE, **json.loads(form.replace("@", value))}, holds) for value, holds in values]
    windows = {"version": 2, "links": [[0, 1, 5]]}
    found += [({**SCENE, **windows, "down": [[0, 1, 2, 3]] * count}, count < 1025) for count in (1024, 1025)]
    found += [({**SCENE, "events": [{**EVENT, **change}]}, False) for change in BAD_EVENTS]
    return found + [({**SCENE, "events": [{key: EVENT[key] for key in ("at", "switch", "name")}]}, False)]


def fits(schema: Any, value: Any) -> bool:
    """Whether a value fits a schema; a keyword that JSON Schema does not have is a failure."""
    for part in parts_of(schema):
        unknown = set(part) - set(KNOWN)
        assert not unknown, unknown
    return CHECKER(schema).is_valid(value)


def parts_of(schema: Any) -> Iterator[Any]:
    """A schema and all schemas within it."""
    yield schema
    within = [*schema.get("properties", {}).values(), *schema.get("prefixItems", []), *schema.get("anyOf", [])]
    for part in within + [schema[key] for key in ("items", "if", "then") if isinstance(schema.get(key), dict)]:
        yield from parts_of(part)
