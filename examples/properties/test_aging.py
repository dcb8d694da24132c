"""Properties of the distributed firewall that forgets: an answer passes while its flow is young, and a flow that is old is forgotten."""
from collections import Counter

from copperfinch.log import hash_of
from copperfinch.testing import event, network, scenarios, send, some
from hypothesis import strategies as st

INNER, WORLD, LAST, LIFETIME = 2, 3, 255, 100
net = network("../aging.luc", "../aging.limits.json")


def forgotten(here, there, gateway, begin, gap):
    """A flow, two turns of its gateway, and a late answer."""
    return [event(0, gateway, "out", here, there), event(30, gateway, "clear", 1, begin), event(gap, gateway, "in", there, here)]


here, there = (1, 10), (100, 103)
old = st.builds(forgotten, st.integers(1, 60), st.integers(100, 110), st.integers(0, 1), st.integers(200, 255), st.integers(20, 500))
first = [event(0, gateway, "clear", 1, 250) for gateway in (0, 1)]
plan = scenarios(4, {"out": some(30, here, there, switch=(0, 1)), "in": some(50, there, here, switch=(0, 1)), "clear": some(2, (0, 1), (0, 255), switch=(0, 1))},
                 links=[(0, 1), (0, 2), (1, 2), (0, 3), (1, 3)], failures=2, groups=[(3, old)], first=first, rest=150,
                 gaps=st.one_of(st.integers(0, 3), st.integers(0, 60)))


class Gateways:
    """The two generations of both gateways, each with a Bloom filter of two rows."""

    def __init__(self):
        self.cells = Counter()

    def bits(self, switch, generation, here, there):
        name = "odd" if generation else "even"
        return [(switch, f"{name}_{row}", hash_of(32, seed, here, there) >> 24) for row, seed in (("first", 1), ("second", 2))]

    def out(self, e, here, there):
        return [send("open", here, there, to=0), send("open", here, there, to=1), send("passed", here, there, to=WORLD)]

    def open(self, e, here, there):
        for bit in self.bits(e.switch, self.cells[e.switch, "newer", 0], here, there):
            self.cells[bit] = 1

    def clear(self, e, generation, cell):
        for row in ("first", "second"):
            self.cells[e.switch, f"{'odd' if generation else 'even'}_{row}", cell] = 0
        return [send("turn") if cell == LAST else send("clear", generation, cell + 1)]

    def turn(self, e):
        self.cells[e.switch, "newer", 0] ^= 1
        return [send("clear", 1 - self.cells[e.switch, "newer", 0], 0, delay=LIFETIME)]


setattr(Gateways, "in", lambda self, e, there, here: [
    send("passed", there, here, to=INNER) if any(all(self.cells[bit] for bit in self.bits(e.switch, age, here, there)) for age in (0, 1))
    else send("dropped", there, here)])


@net.given(plan, least={"out": 50, "open": 50, "in": 100, "clear": 100, "turn": 20})
def test_generations(run):
    """An answer passes exactly if one generation of its gateway has its flow."""
    run.replay(Gateways())


@net.given(plan, least={"open": 50, "passed": 50})
def test_flows_leave(run):
    """A packet from inside leaves at once, and marks its flow at both gateways, unless a link is down or the run ends."""
    run.expect_explained()
    for packet in run.sent("out"):
        sent = [(it.name, it.switch) for it in run.outs(packet, "open", "passed")]
        if packet.number is not None and sent != [("open", 0), ("open", 1), ("passed", WORLD)]:
            run.fail(packet, "does not leave, or is not marked")


@net.given(plan, least={"passed": 50, "in": 100})
def test_young_answers_pass(run):
    """An answer passes within the lifetime of its flow's mark at its gateway, and has one end."""
    marked = {}
    for e in run.events("open", "in"):
        if e.name == "open":
            marked[e.switch, e.args] = e.tick
            continue
        age = e.tick - marked.get((e.switch, e.args[::-1]), -10**9)
        if len(run.outs(e)) != 1 or not run.outs(e, "passed") and age <= LIFETIME and not any(it.name == "clear" for it in run.scene.events[2:]):
            run.fail(e, f"is dropped {age} ticks after its flow was marked, or has no end")
