"""Properties of in-band telemetry: records say where a packet was and how loaded each hop was, and the collector hears of each gap."""
from collections import Counter

from copperfinch.testing import event, network, scenarios, send, some
from hypothesis import strategies as st

SOURCE, SINK, COLLECTOR, SLOW = 0, 3, 4, 40
net = network("../telemetry.luc", "../telemetry.limits.json")
flows = [5, 6, 7]
plan = scenarios(5, {"enter": some(60, flows, switch=SOURCE), "watch": some(6, flows, (0, 1), switch=SOURCE), "way": some(5, [0, 1, 2], switch=SOURCE),
                     "drain": some(4, (1, 4), (10, 40), switch=(0, 2))},
                 links=[(0, 1), (0, 2), (1, 2), (1, 3), (2, 3), (3, 4)], failures=3, first=[event(0, 0, "watch", 5, 1)],
                 groups=[(3, st.builds(lambda at, hop: [event(0, at, "way", hop)], st.integers(1, 2), st.sampled_from([0, 3])))], latency=(1, 20), rest=150)


def pushed(stack, item, width=16):
    return (stack << 4 | item) % 2**width


class Hops:
    """What the source, the hops and the sink know."""

    def __init__(self):
        self.cells = Counter()

    def watch(self, e, flow, on):
        self.cells[e.switch, "watched", flow] = on

    def way(self, e, hop):
        self.cells[e.switch, "ways", 0] = hop

    def drain(self, e, packets, period):
        self.cells[e.switch, "queued", 0] = max(0, self.cells[e.switch, "queued", 0] - packets)
        return [send("drain", packets, period, delay=period)]

    def hop(self, e):
        """The next hop, and the load of this one."""
        self.cells[e.switch, "queued", 0] += 1
        return self.cells[e.switch, "ways", 0] or (1 if e.switch == SOURCE else SINK), min(self.cells[e.switch, "queued", 0], 15)

    def enter(self, e, flow):
        self.cells[e.switch, "numbers", flow] += 1
        (hop, load), number = self.hop(e), self.cells[e.switch, "numbers", flow]
        if self.cells[e.switch, "watched", flow]:
            return [send("packet", flow, number, e.tick, e.switch + 1, load, load, to=hop)]
        return [send("plain", flow, number, to=hop)]

    def seen(self, e, flow, number):
        before = self.cells[e.switch, "newest", flow]
        self.cells[e.switch, "newest", flow] = max(before, number)
        return ([send("gap", flow, before + 1, number - 1, to=COLLECTOR)] if number > before + 1 else []) + [send("deliver", flow, number)]

    def plain(self, e, flow, number):
        return self.seen(e, flow, number) if e.switch == SINK else [send("plain", flow, number, to=self.hop(e)[0])]

    def packet(self, e, flow, number, born, path, loads, peak):
        path = pushed(path, e.switch + 1)
        if e.switch != SINK:
            hop, load = self.hop(e)
            return [send("packet", flow, number, born, path, pushed(loads, load), max(peak, load), to=hop)]
        found, age, before = self.seen(e, flow, number), e.tick - born, self.cells[e.switch, "paths", flow]
        self.cells[e.switch, "counts", flow] += 1
        self.cells[e.switch, "sums", flow] += age
        self.cells[e.switch, "peaks", flow] = max(self.cells[e.switch, "peaks", flow], peak)
        self.cells[e.switch, "paths", flow] = path
        found += [send("moved", flow, number, before, path, to=COLLECTOR)] if before not in (0, path) else []
        return found + ([send("slow", flow, number, age, path, loads, to=COLLECTOR)] if age >= SLOW else [])


@net.given(plan, least={"enter": 100, "packet": 100, "plain": 100, "drain": 50})
def test_hops(run):
    """Each hop writes its record, and the sink sums them up and tells what is new."""
    run.replay(Hops())


@net.given(plan, least={"deliver": 100, "packet": 100})
def test_each_packet_is_delivered(run):
    """A packet is delivered once by the sink, unless a link is down or the run ends; its path are the switches that it entered."""
    run.expect_explained()
    for packet in run.sent("enter"):
        trip = [it for it in run.caused(packet, "packet", "plain", "deliver") if it.number is None or it.name == "deliver"]
        if packet.number is not None and len(trip) != 1:
            run.fail(packet, f"ends as {[it.label() for it in trip]}")
        entered = [SOURCE]
        for it in run.caused(packet, "packet"):
            path = 0
            for switch in entered:
                path = pushed(path, switch + 1)
            if it.args[3] != path:
                run.fail(it, f"has the path {it.args[3]:x}, and was in {entered}")
            entered.append(it.switch)


@net.given(plan, least={"gap": 20, "deliver": 100})
def test_gaps_are_told(run):
    """A number that is missing when a later one comes to the sink is told once in a gap, and no other number is."""
    came, told = {}, Counter()
    for e in run.events("packet", "plain"):
        if e.switch != SINK:
            continue
        flow, number = e.args[:2]
        missing = [it for it in range(max(came.get(flow, [0])) + 1, number)]
        gaps = [it for gap in run.outs(e, "gap") for it in range(gap.args[1], gap.args[2] + 1)]
        told.update((flow, it) for it in gaps)
        if gaps != missing or run.outs(e, "deliver") == []:
            run.fail(e, f"tells of {gaps}, and {missing} are missing")
        came.setdefault(flow, [0]).append(number)
    if any(count > 1 for count in told.values()):
        run.fail(None, "a number is told twice")
