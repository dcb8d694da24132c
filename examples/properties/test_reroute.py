"""Properties of fast reroute: packets go by the primary neighbour while it answers, else by the backup, and all that no outage takes arrive."""
from collections import Counter

from copperfinch.testing import event, network, scenarios, send, some
from hypothesis import strategies as st

PRIMARY, BACKUP, FAR, PATIENCE, PERIOD = 1, 2, 3, 2, 17
net = network("../reroute.luc", "../reroute.limits.json")
plan = scenarios(4, {"packet": some(60, (0, 999), switch=0)}, links=[(0, 1), (0, 2), (1, 3), (2, 3)], first=[event(0, 0, "probe")],
                 failures=4, outage=(1, 300), gaps=st.one_of(st.integers(0, 3), st.integers(0, 30)))


class Neighbours:
    """What the near switch knows of its primary neighbour, and what the far switch counts."""

    def __init__(self):
        self.cells = Counter()

    def probe(self, e):
        self.cells[0, "silent", PRIMARY] += 1
        return [send("hello", 0, to=PRIMARY), send("probe", delay=PERIOD)]

    def hello(self, e, asker):
        return [send("alive", e.switch, to=asker)]

    def alive(self, e, neighbour):
        self.cells[0, "silent", neighbour] = 0

    def packet(self, e, number):
        return [send("transit", number, to=PRIMARY if self.cells[0, "silent", PRIMARY] < PATIENCE else BACKUP)]

    def transit(self, e, number):
        return [send("arrive", number, e.switch, to=FAR)]

    def arrive(self, e, number, by):
        self.cells[FAR, "arrived", by] += 1


@net.given(plan, least={"packet": 100, "transit": 100, "arrive": 100, "alive": 100})
def test_way(run):
    """A packet goes by the backup exactly if two probes were sent since the last answer."""
    run.replay(Neighbours())


@net.given(plan, least={"packet": 100, "arrive": 100})
def test_arrives(run):
    """A packet arrives once at the far switch, unless a link is down or the run ends; each one that arrives was sent."""
    run.expect_explained()
    for packet in run.sent("packet"):
        ends = run.ends(packet)
        if len(ends) != 1 or ends[0].number is not None and (ends[0].name, ends[0].switch, ends[0].args[0]) != ("arrive", FAR, packet.args[0]):
            run.fail(packet, f"ends as {[it.label() for it in ends]}")


@net.given(plan, least={"alive": 100})
def test_hellos_are_answered(run):
    """Each hello that the primary neighbour gets has one answer, and probes go on."""
    for packet in run.sent("hello"):
        if packet.switch != PRIMARY or packet.number is not None and [it.switch for it in run.outs(packet, "alive")] != [0]:
            run.fail(packet, "has no answer, or went elsewhere")
    for packet in run.sent("probe"):
        if packet.number is not None and len(run.outs(packet, "probe")) != 1:
            run.fail(packet, "is the last")
