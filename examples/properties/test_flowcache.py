"""Properties of the flow telemetry cache: each feature of a packet goes to the collector once, in order, in a vector of its flow."""
from collections import Counter, defaultdict

from copperfinch.log import hash_of
from copperfinch.testing import network, scenarios, send, some

COLLECTOR, PARTS = 2, ("first", "second", "third")
net = network("../flowcache.luc", "../flowcache.limits.json")
plan = scenarios(3, {"packet": some(100, [1, 2, 3, 4, 5, 6, 7, 8, 9, 16, 40, 41], (0, 65535), switch=(0, 1))}, links=[(0, 2), (1, 2)], failures=2, rest=60)


def slot_of(flow):
    return hash_of(32, 1, flow) >> 28


class Cache:
    """The slots of both edges, and the lengths that the collector counts."""

    def __init__(self):
        self.cells = Counter()

    def packet(self, e, flow, feature):
        at = lambda name: (e.switch, name, slot_of(flow))  # noqa: E731
        owner, used = self.cells[at("owners")], self.cells[at("used")]
        self.cells[at("owners")] = flow
        index = used if owner == flow else 0
        self.cells[at("used")] = (index + 1) % 4
        if index < 3:
            before = [self.cells[at(part)] for part in PARTS]
            self.cells[at(PARTS[index])] = feature
        else:
            before = [self.cells[at(part)] for part in PARTS]
            return [send("vector", flow, 4, *before, feature, to=COLLECTOR)]
        if owner != flow and used:
            return [send("vector", owner, used, *before, 0, to=COLLECTOR)]

    def vector(self, e, flow, length, *features):
        self.cells[COLLECTOR, "lengths", length] += 1


@net.given(plan, least={"packet": 200, "vector": 50})
def test_slots(run):
    """A packet completes a vector, or evicts the one of another flow, or waits in its slot."""
    run.replay(Cache())


@net.given(plan, least={"packet": 200, "vector": 50})
def test_each_feature_once(run):
    """The vectors of a flow, and then what is left in its slot, are the features of its packets in order. Vectors arrive but for outages."""
    run.expect_explained()
    came, sent = defaultdict(list), defaultdict(list)
    for e in run.events("packet"):
        came[e.switch, e.args[0]].append(e.args[1])
        for packet in run.outs(e, "vector"):
            flow, length, *features = packet.args
            sent[e.switch, flow] += features[:length]
            if packet.switch != COLLECTOR:
                run.fail(packet, "goes to another switch")
    for (switch, flow), features in came.items():
        if run.log.cell(switch, "owners", slot_of(flow)) == flow:
            sent[switch, flow] += [run.log.cell(switch, part, slot_of(flow)) for part in PARTS[:run.log.cell(switch, "used", slot_of(flow))]]
        if sent[switch, flow] != features:
            run.fail(None, f"s{switch} had {features} of flow {flow}, and sent or kept {sent[switch, flow]}")
