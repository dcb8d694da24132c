"""Properties of the distributed firewall: a packet from inside leaves when both gateways have its flow, and its answers come in by either."""
from collections import Counter

from copperfinch.log import hash_of
from copperfinch.testing import network, scenarios, send, some

INNER, WORLD = 2, 3
here, there = (1, 12), (100, 103)
net = network("../gateways.luc", "../gateways.limits.json")
plan = scenarios(4, {"out": some(40, here, there, switch=(0, 1)), "in": some(60, there, here, switch=(0, 1))},
                 links=[(0, 1), (0, 2), (1, 2), (0, 3), (1, 3)], failures=3, gaps=(0, 6), rest=100)


class Gateways:
    """The flow in each slot of both gateways."""

    def __init__(self):
        self.cells = Counter()

    def take(self, e, here, there):
        self.cells[e.switch, "flows", hash_of(32, 1, here, there) >> 26] = here << 32 | there

    def out(self, e, here, there):
        self.take(e, here, there)
        return [send("open", here, there, to=1 - e.switch)]

    def open(self, e, here, there):
        self.take(e, here, there)
        return [send("opened", here, there, to=1 - e.switch)]

    def opened(self, e, here, there):
        return [send("passed", here, there, to=WORLD)]


setattr(Gateways, "in", lambda self, e, there, here: [
    send("passed", there, here, to=INNER) if self.cells[e.switch, "flows", hash_of(32, 1, here, there) >> 26] == here << 32 | there
    else send("dropped", there, here)])


@net.given(plan, least={"out": 100, "open": 100, "opened": 100, "in": 100})
def test_slots(run):
    """An answer passes exactly if its flow has its slot at its gateway."""
    run.replay(Gateways())


@net.given(plan, least={"passed": 100})
def test_flows_leave(run):
    """A packet from inside leaves once, after both gateways have its flow, unless a link is down or the run ends."""
    run.expect_explained()
    for packet in run.sent("out"):
        ends = run.ends(packet)
        if len(ends) != 1 or ends[0].number is not None and (ends[0].name, ends[0].switch, ends[0].args) != ("passed", WORLD, packet.args):
            run.fail(packet, f"ends as {[it.label() for it in ends]}")
        if [it.switch for it in run.caused(packet, "open")] not in ([], [1 - packet.switch]):
            run.fail(packet, "does not reach the other gateway")


@net.given(plan, least={"passed": 50, "in": 100})
def test_answers_come_in(run):
    """An answer is let in or dropped, once. It is let in only if a packet of its flow came from inside before."""
    asked = set()
    for e in run.events("out", "in"):
        if e.name == "out":
            asked.add(e.args)
        elif len(run.outs(e)) != 1 or run.outs(e, "passed") and e.args[::-1] not in asked:
            run.fail(e, "passes, and nobody asked for it, or it has no end")
