"""Properties of the count-min sketch: an estimate is never below the true count, and each question has one answer."""
from collections import Counter

from copperfinch.log import hash_of
from copperfinch.testing import event, network, scenarios, send, some
from hypothesis import strategies as st

COLLECTOR, CLIENT, LAST = 2, 3, 15
net = network("../countmin.luc", "../countmin.limits.json")
flows = [1, 2, 3, 4, 5, 6, 7, 300]
first = [event(257, edge, "sweep", 0, 0) for edge in (0, 1)]
plan = scenarios(4, {"packet": some(50, flows, (40, 1500), switch=(0, 1)), "ask": some(20, flows, CLIENT, switch=(0, 1)),
                     "recall": some(30, flows, (0, 1), (0, 6), CLIENT, switch=COLLECTOR)},
                 links=[(0, 2), (1, 2), (0, 3), (1, 3), (2, 3)], first=first, failures=3, gaps=st.one_of(st.integers(0, 4), st.integers(0, 100)), rest=250)


def cells_of(flow):
    return [(row, hash_of(32, seed, flow) >> 28) for row, seed in (("first", 1), ("second", 2))]


class Sketch:
    """The cells of both edges and of the collector."""

    def __init__(self):
        self.cells = Counter()

    def own(self, e, window, flow):
        return [(e.switch, f"{'odd' if window % 2 else 'even'}_{row}", cell) for row, cell in cells_of(flow)]

    def packet(self, e, flow, count):
        for cell in self.own(e, e.tick >> 8, flow):
            self.cells[cell] += count

    def ask(self, e, flow, asker):
        least = min(self.cells[cell] for cell in self.own(e, e.tick >> 8, flow))
        return [send("estimate", flow, e.tick >> 8, least, to=asker)]

    def sweep(self, e, window, cell):
        own = [(e.switch, f"{'odd' if window % 2 else 'even'}_{row}", cell) for row in ("first", "second")]
        page = send("page", e.switch, window, cell, *(self.cells.pop(it, 0) for it in own), to=COLLECTOR)
        if cell < LAST:
            return [page, send("sweep", window, cell + 1)]
        return [page, send("sweep", window + 1, 0, delay=max((window + 2 << 8) - e.tick, 0))]

    def page(self, e, edge, window, cell, one, two):
        for row, count in ("first", one), ("second", two):
            self.cells[e.switch, f"past_{row}", window % 4 * 64 + edge * 16 + cell] = window + 1 << 32 | count

    def recall(self, e, flow, edge, window, asker):
        found = [self.cells[e.switch, f"past_{row}", window % 4 * 64 + edge * 16 + cell] for row, cell in cells_of(flow)]
        if all(it >> 32 == window + 1 for it in found):
            return [send("estimate", flow, window, min(it % 2**32 for it in found), to=asker)]
        return [send("unknown", flow, window, to=asker)]


@net.given(plan, least={"packet": 100, "ask": 50, "recall": 100, "sweep": 100, "page": 100})
def test_cells(run):
    """A packet adds to a cell of each row of its window, and a window that has ended goes to the collector."""
    run.replay(Sketch())


@net.given(plan, least={"estimate": 50, "unknown": 20, "page": 100})
def test_each_question_is_answered(run):
    """Each question has one answer at its asker, and pages arrive, unless a link is down or the run ends."""
    run.expect_explained()
    for packet in run.sent("ask", "recall"):
        ends = run.ends(packet)
        if packet.number is not None and (len(ends) != 1 or ends[0].name not in ("estimate", "unknown") or ends[0].switch != CLIENT):
            run.fail(packet, f"ends as {[it.label() for it in ends]}")
    for packet in run.sent("page"):
        if packet.switch != COLLECTOR:
            run.fail(packet, "goes elsewhere")


@net.given(plan, least={"estimate": 50, "packet": 100})
def test_never_below(run):
    """An estimate is at least the bytes of its flow in its window, and that of a flow alone is exact. A past window that has its pages is known."""
    counts, cells = Counter(), Counter()
    for e in run.events("packet", "ask", "recall"):
        flow = e.args[0]
        edge, window = (e.switch, e.tick >> 8) if e.name != "recall" else e.args[1:3]
        if e.name == "packet":
            counts[edge, window, flow] += e.args[1]
            cells.update({(edge, window, cell): e.args[1] for cell in cells_of(flow)})
        for answer in run.outs(e, "estimate"):
            least = min(cells[edge, window, cell] for cell in cells_of(flow))
            if not counts[edge, window, flow] <= answer.args[2] == least:
                run.fail(e, f"is answered by {answer.args[2]}, and has {counts[edge, window, flow]} bytes, or {least} with its neighbours")
