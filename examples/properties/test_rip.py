"""Properties of routing by distance vectors: the tables become shortest paths, and packets arrive over the ways that are known."""
from collections import Counter

from copperfinch.testing import event, network, say, scenarios, send, some

SWITCHES, HERE, PERIOD, PATIENCE = 4, 16, 8, 250
net = network("../rip.luc", "../rip.limits.json")
plan = scenarios(4, {"packet": some(40, (0, 3), (0, 6))}, links=[(0, 1), (1, 2), (2, 3), (0, 3)], failures=3, outage=(1, 900),
                 first=[event(switch, switch, "start") for switch in range(4)], gaps=(0, 20), rest=900)


class Routes:
    """What each switch knows of each destination."""

    def __init__(self):
        self.cells = Counter()

    def at(self, e, dst):
        return [(e.switch, name, dst) for name in ("ways", "near", "heard")]

    def start(self, e):
        self.cells[e.switch, "near", e.switch] = HERE
        return [send("tell", 0)]

    def tell(self, e, dst):
        way, near, heard = (self.cells[cell] for cell in self.at(e, dst))
        after = send("tell", (dst + 1) % SWITCHES, delay=PERIOD)
        if way and e.tick - heard > PATIENCE:
            return [send("expire", dst), after]
        return [send("vector", e.switch, dst, near, way, to=to) for to in range(SWITCHES)] + [after]

    def vector(self, e, source, dst, near, way):
        if e.switch in (source, dst):
            return []
        ways, nears, heard = self.at(e, dst)
        mine = 0 if way == e.switch + 1 else max(near - 1, 0)
        if self.cells[ways] == source + 1:
            self.cells[nears] = mine
            if mine:
                self.cells[heard] = e.tick
        elif self.cells[nears] < mine:
            self.cells[nears] = mine
            return [send("take", dst, source)]

    def take(self, e, dst, source):
        ways, _, heard = self.at(e, dst)
        self.cells[ways], self.cells[heard] = source + 1, e.tick

    def expire(self, e, dst):
        ways, near, _ = self.at(e, dst)
        self.cells[ways] = self.cells[near] = 0

    def packet(self, e, dst, ttl):
        way = self.cells[e.switch, "ways", dst]
        if dst == e.switch:
            return [send("arrived", dst, ttl)]
        if way and ttl:
            return [send("packet", dst, ttl - 1, to=way - 1)]
        return [say(f"switch {e.switch} has no way to {dst}")]


@net.given(plan, runs=60, least={"packet": 100, "vector": 100, "take": 50, "tell": 100})
def test_routes(run):
    """A vector from the route counts, another one if it is better, and a route that is silent expires."""
    run.replay(Routes())


@net.given(plan, runs=60, least={"packet": 100, "arrived": 50})
def test_packets_arrive(run):
    """A packet arrives once at its destination, or a switch says that it has no way, or a link is down; loops end by its time to live."""
    for packet in run.sent("packet"):
        if packet.file is None:
            continue
        ends = run.ends(packet)
        last = ends[0]
        if len(ends) != 1 or last.number is not None and not (
                last.name == "arrived" and last.switch == packet.args[0] or last.name == "packet" and run.log.events[last.number].said):
            run.fail(packet, f"ends as {[it.label() for it in ends]}")
        if last.fate.is_lost and last.window is None:
            run.fail(last, f"goes to no neighbour: {last.why()}")


@net.given(plan, runs=60, least={"vector": 100})
def test_shortest_paths(run):
    """When all links were up for the last 850 ticks, each switch has the distance of each other one, and a way that is nearer."""
    count = len(list(run.events("vector")))
    if count == 0 or any(until > run.scene.stop - 850 for *_, until in run.scene.down):
        return
    for a in range(SWITCHES):
        for b in range(SWITCHES):
            far = min((a - b) % SWITCHES, (b - a) % SWITCHES)
            if run.log.cell(a, "near", b) != HERE - far:
                run.fail(None, f"s{a} is {run.log.cell(a, 'near', b)} near to s{b}, and not {HERE - far}")
            way = run.log.cell(a, "ways", b) - 1
            if a != b and run.log.cell(way, "near", b) != HERE - far + 1:
                run.fail(None, f"s{a} goes to s{b} by s{way}, which is not nearer")
