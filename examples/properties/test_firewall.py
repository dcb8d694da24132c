"""Properties of the stateful firewall: packets from inside leave, answers to them come in while they are used, and nothing else does."""
from collections import Counter

from copperfinch.log import hash_of
from copperfinch.testing import event, network, scenarios, send, some
from hypothesis import strategies as st

OUTER, INNER, MOST = 2, 1, 8
flows = (1, 9), (100, 104)
gaps = st.one_of(st.integers(0, 3), st.integers(0, 40))
fw = network("../firewall.luc", "../firewall.limits.json")
plan = scenarios(3, {"inside": some(40, *flows, switch=0), "outside": some(60, *flows[::-1], switch=0)}, links=[(0, 1), (0, 2)],
                 first=[event(0, 0, "sweep", 0)], failures=2, gaps=gaps)


class Table:
    """The cuckoo table: a new flow takes its cell of the first row, and one that it meets there moves to the second row, and so on."""

    def __init__(self):
        self.cells = Counter()

    def take(self, row, here, there):
        """Puts a flow into its cell of a row; returns the flow that was there, if another one was."""
        name, cell, flow = ("", "first", "second")[row], hash_of(32, row, here, there) >> 27, here << 32 | there
        before = self.cells[0, name, cell]
        self.cells[0, name, cell] = flow
        return [before >> 32, before % 2**32] if before not in (0, flow) else None

    def has(self, row, here, there):
        return self.cells[0, ("", "first", "second")[row], hash_of(32, row, here, there) >> 27] == here << 32 | there

    def use(self, row, here, there):
        self.cells[0, ("", "first_used", "second_used")[row], hash_of(32, row, here, there) >> 27] = 1

    def inside(self, e, here, there):
        found = None if self.has(2, here, there) else self.take(1, here, there)
        self.use(1, here, there)
        self.use(2, here, there)
        return [send("passed", here, there, to=OUTER)] + ([send("move", *found, 1)] if found else [])

    def move(self, e, here, there, moves):
        row = 2 if moves % 2 else 1
        self.use(row, here, there)
        found = self.take(row, here, there)
        if found:
            return [send("given_up", *found) if moves == MOST else send("move", *found, moves + 1)]

    def outside(self, e, there, here, missed="again"):
        is_open = self.has(1, here, there) or self.has(2, here, there)
        return [send("passed", there, here, to=INNER) if is_open else send(missed, there, here)]

    def again(self, e, there, here):
        return self.outside(e, there, here, "dropped")

    def sweep(self, e, cell):
        for used, row in ("first_used", "first"), ("second_used", "second"):
            if not self.cells[0, used, cell]:
                self.cells[0, row, cell] = 0
            self.cells[0, used, cell] = 0
        return [send("sweep", (cell + 1) % 32)]


@fw.given(plan, least={"inside": 100, "outside": 100, "move": 5, "sweep": 100})
def test_table(run):
    """A packet passes exactly if its flow is in the table."""
    run.replay(Table())


@fw.given(plan, least={"passed": 100})
def test_inside_leaves(run):
    """Each packet from inside leaves once, at once, and arrives unless a link is down or the run ends."""
    run.expect_explained()
    for packet in run.sent("inside"):
        sent = run.outs(packet, "passed")
        if packet.number is not None and [it.switch for it in sent] != [OUTER]:
            run.fail(packet, f"leaves {len(sent)} times, or for another switch")


@fw.given(plan, least={"passed": 30, "dropped": 30})
def test_outside_is_asked_for(run):
    """A packet from outside ends once. It passes only if a packet of its flow came from inside before it."""
    asked = set()
    for e in run.events("inside", "outside", "again"):
        if e.name == "inside":
            asked.add(e.args)
        elif run.outs(e, "passed", "dropped", "again") == [] or len(run.outs(e)) != 1:
            run.fail(e, "has no end, or several")
        elif run.outs(e, "passed") and e.args[::-1] not in asked:
            run.fail(e, "passes, and nobody asked for it")
    for packet in run.sent("outside"):
        ends = run.ends(packet)
        if len(ends) != 1 or packet.number is not None and ends[0].name in ("outside", "again") and ends[0].number is not None:
            run.fail(packet, f"ends as {[it.name for it in ends]}")
