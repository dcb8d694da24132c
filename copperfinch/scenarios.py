"""Scenarios that are drawn for the ten applications of examples/: packets come so closely that they overlap, and links fail."""
import json
from random import Random
from typing import Any, Callable, Dict, List, Tuple

Scenario = Dict[str, Any]
MOST = 20000


def ticks(random: Random, count: int, gap: int) -> List[int]:
    """Rising ticks, each 0 to `gap` after the one before it."""
    now, rising = 0, []
    for _ in range(count):
        now += random.randrange(gap + 1)
        rising.append(now)
    return rising


def event(at: int, switch: int, name: str, *args: int) -> Dict[str, Any]:
    return {"at": at, "switch": switch, "name": name, "args": list(args)}


def windows(random: Random, link: Tuple[int, int], end: int, pause: int, length: int) -> List[List[int]]:
    """Times when a link is down, until a tick: as long as `length` at most, and about `pause` apart."""
    found, now = [], pause // 2
    while now < end:
        until = now + 1 + random.randrange(length)
        found.append([*link, now, until])
        now = until + pause // 2 + random.randrange(pause)
    return found


def network(switches: int, links: List[List[int]], down: List[List[int]], events: List[Dict[str, Any]], rest: int) -> Scenario:
    """A scenario that runs for `rest` ticks after its last event."""
    stop = max(one["at"] for one in events) + rest
    return {"version": 2, "switches": switches, "stop": stop, "links": links, "down": down, "events": events}


def flow_of(random: Random, phase: int, count: int) -> Tuple[int, int]:
    """One of `count` flows that are in use in a phase."""
    return 1 + random.randrange(count), 100 + phase


def firewall(random: Random, count: int) -> Scenario:
    """Flows are opened, answered at once or later, and asked for by strangers and long after their last packet; a sweep goes round."""
    events = [event(0, 0, "sweep", 0)]
    for at in ticks(random, count - 1, 4):
        here, there = flow_of(random, at // 2000, 16)
        if random.randrange(3) == 0:
            events.append(event(at, 0, "inside", here, there))
        else:
            there = (*[there] * 5, there - 3, 500 + random.randrange(50))[random.randrange(7)]
            events.append(event(at, 0, "outside", there, here))
    return network(3, [[0, 1, 3], [0, 2, 5]], [], events, 60)


def reroute(random: Random, count: int) -> Scenario:
    """The link to the primary neighbour fails again and again; the way by the backup stays."""
    when = ticks(random, count, 3)
    events = [event(0, 0, "probe")] + [event(at, 0, "packet", number) for number, at in enumerate(when[1:], 1)]
    return network(4, [[0, 1, 4], [0, 2, 9], [1, 3, 4], [2, 3, 9]], windows(random, (0, 1), when[-1], 800, 400), events, 150)


def dns(random: Random, count: int) -> Scenario:
    """Clients ask, and an attacker asks in their names; the link to the servers fails, so that questions stay open until a sweep."""
    events, when = [event(0, 0, "sweep", 0)], ticks(random, count - 1, 3)
    for at in when:
        client, number = random.randrange(40), random.randrange(65536)
        events.append(event(at, 0, "question", client, number) if random.randrange(2) else event(at, 2, "ask", client, number))
    return network(4, [[0, 1, 2], [0, 2, 4], [0, 3, 6]], windows(random, (0, 2), when[-1], 100, 120), events, 150)


def nat(random: Random, count: int) -> Scenario:
    """Few hosts at a time send, then others, so that ports fall free."""
    events = []
    for at in ticks(random, count, 4):
        host = 1 + at // 400 * 3 + random.randrange(5)
        events.append(event(at, 0, "out", host, 1) if random.randrange(2) else event(at, 0, "answer", random.randrange(8)))
    return network(3, [[0, 1, 3], [0, 2, 5]], [], events, 60)


def flowcache(random: Random, count: int) -> Scenario:
    """Bursts of packets of some flows at two edges."""
    events, when, flow = [], ticks(random, count, 4), 0
    for number, at in enumerate(when):
        if random.randrange(3) == 0:
            flow = 1 + random.randrange(12 if random.randrange(4) else 400)
        events.append(event(at, random.randrange(2), "packet", flow, number % 65536))
    return network(3, [[0, 2, 4], [1, 2, 6]], windows(random, (1, 2), when[-1], 2000, 300), events, 60)


def sro(random: Random, count: int) -> Scenario:
    """Reads at each switch of the chain, and few writes, of which some come in a row; links of the chain fail, but not in the end."""
    events, when = [], ticks(random, count, 3)
    for at in when:
        register = random.randrange(3)
        if random.randrange(10) == 0:
            events.append(event(at, random.choice((0, 0, 3)), "write", register, random.randrange(1000000)))
        else:
            events.append(event(at, random.randrange(3), "read", register, 3))
    down = windows(random, (0, 1), when[-1], 400, 80) + windows(random, (1, 2), when[-1], 300, 80)
    return network(4, [[0, 1, 5], [1, 2, 5], [0, 2, 9], [0, 3, 3], [1, 3, 3], [2, 3, 3]], down, events, 900)


def gateways(random: Random, count: int) -> Scenario:
    """Flows go out by either gateway, and their answers come by either; the link between the gateways fails."""
    events, when = [], ticks(random, count, 3)
    for at in when:
        here, there = flow_of(random, at // 2000, 20)
        if random.randrange(3) == 0:
            events.append(event(at, random.randrange(2), "out", here, there))
        else:
            events.append(event(at, random.randrange(2), "in", there if random.randrange(8) else 500 + random.randrange(50), here))
    links = [[0, 1, 2], [0, 2, 3], [1, 2, 3], [0, 3, 5], [1, 3, 5]]
    return network(4, links, windows(random, (0, 1), when[-1], 3000, 300), events, 100)


def aging(random: Random, count: int) -> Scenario:
    """As for the gateways, with flows that nobody uses any more but whose answers still come."""
    events = [event(0, switch, "clear", 1, 200) for switch in (0, 1)]
    for at in ticks(random, count - 2, 3):
        here, there = flow_of(random, at // 2000, 12)
        if random.randrange(4) == 0:
            events.append(event(at, random.randrange(2), "out", here, there))
        else:
            there = (there, there, there - 5, 500 + random.randrange(50))[random.randrange(4)]
            events.append(event(at, random.randrange(2), "in", there, here))
    return network(4, [[0, 1, 2], [0, 2, 3], [1, 2, 3], [0, 3, 5], [1, 3, 5]], [], events, 100)


def rip(random: Random, count: int) -> Scenario:
    """Packets between all switches of a ring with a chord, while links fail; one fails for good, and the others not in the end."""
    events = [event(switch, switch, "start") for switch in range(4)]
    when = ticks(random, count - 4, 3)
    for at in when:
        events.append(event(at + 4, random.randrange(4), "packet", random.randrange(4), 6))
    calm = max(when[-1] - 3000, 400)
    down = windows(random, (0, 1), calm, 600, 1500) + windows(random, (1, 2), calm, 700, 1500) + [[0, 3, when[-1] // 3, 1000000]]
    return network(4, [[0, 1, 3], [1, 2, 4], [2, 3, 3], [0, 3, 9], [0, 2, 40]], down, events, 400)


def countmin(random: Random, count: int) -> Scenario:
    """Packets at two edges, and questions for this window and for the last five; links to the collector fail."""
    events = [event(257, switch, "sweep", 0, 0) for switch in (0, 1)]
    when = ticks(random, count - 2, 3)
    for at in when:
        flow, edge, kind = 1 + random.randrange(12 if random.randrange(4) else 500), random.randrange(2), random.randrange(20)
        if kind == 0:
            events.append(event(at, 2, "recall", flow, edge, max((at >> 8) - 1 - random.randrange(5), 0), 3))
        else:
            events.append(event(at, edge, "ask", flow, 3) if kind < 3 else event(at, edge, "packet", flow, 40 + random.randrange(1461)))
    down = windows(random, (0, 2), when[-1], 1500, 100) + windows(random, (1, 2), when[-1], 1200, 100)
    return network(4, [[0, 2, 3], [1, 2, 3], [0, 3, 4], [1, 3, 4], [2, 3, 3]], down, events, 100)


MAKERS: Dict[str, Callable[[Random, int], Scenario]] = {
    maker.__name__: maker for maker in (aging, countmin, dns, firewall, flowcache, gateways, nat, reroute, rip, sro)
}


def draw(name: str, events: int, seed: int) -> Scenario:
    """Draws a scenario of so many events, 10 to MOST, for an application."""
    return MAKERS[name](Random(seed), events)


def text_of(scenario: Scenario) -> str:
    """Returns a scenario as the text of a file, with an event a line."""
    events = ",\n".join(" " + json.dumps(event) for event in scenario["events"])
    rest = json.dumps({key: value for key, value in scenario.items() if key != "events"})
    return rest[:-1] + ', "events": [\n' + events + "]}\n"
