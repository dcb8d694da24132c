"""Properties of network address translation: a host gets a port that no other has, keeps it while it is used, and gets its answers."""
from collections import Counter

from copperfinch.log import hash_of
from copperfinch.testing import network, scenarios, send, some
from hypothesis import strategies as st

INNER, OUTER, IDLE = 1, 2, 60
net = network("../nat.luc", "../nat.limits.json")
plan = scenarios(3, {"out": some(50, (1, 14), 1, switch=0), "answer": some(40, (0, 7), switch=0)}, links=[(0, 1), (0, 2)], failures=2,
                 gaps=st.one_of(st.integers(0, 4), st.integers(0, 80)), rest=60)


def port_of(seed, host):
    return hash_of(32, seed, host) >> 29


class Ports:
    """When each port was last asked for, and who has it."""

    def __init__(self):
        self.cells = Counter()

    def is_free(self, e, before):
        return before == 0 or e.tick - before >= IDLE

    def out(self, e, host, seed):
        port = port_of(seed, host)
        before, owner = self.cells[0, "asked", port], self.cells[0, "owners", port]
        self.cells[0, "asked", port] = e.tick + 1
        if self.is_free(e, before):
            self.cells[0, "owners", port] = owner = host
        return [send("sent", port, to=OUTER) if owner == host else send("out", host, 2) if seed == 1 else send("refused", host)]

    def answer(self, e, port):
        is_free = self.is_free(e, self.cells[0, "asked", port])
        return [send("dropped", port) if is_free else send("deliver", self.cells[0, "owners", port], to=INNER)]


@net.given(plan, least={"out": 100, "answer": 100})
def test_ports(run):
    """A host gets the port of its hash if it is free or its own, else that of a second hash, else none."""
    run.replay(Ports())


@net.given(plan, least={"sent": 100, "deliver": 50, "dropped": 20, "refused": 5})
def test_each_packet_ends(run):
    """A packet leaves by a port or is refused, and an answer is delivered or dropped; both once, and what leaves arrives but for outages."""
    run.expect_explained()
    wanted = {"out": {"sent": OUTER, "refused": 0}, "answer": {"deliver": INNER, "dropped": 0}}
    for packet in run.sent("out", "answer"):
        ends = run.ends(packet)
        if packet.number is not None and (len(ends) != 1 or ends[0].name != "out" and wanted[packet.name].get(ends[0].name) != ends[0].switch):
            run.fail(packet, f"ends as {[it.label() for it in ends]}")


@net.given(plan, least={"deliver": 50, "sent": 100})
def test_one_to_one(run):
    """No two hosts have a port at one time, and an answer goes to the host that has its port."""
    owners, asked = {}, {}
    for e in run.events("out", "answer"):
        port = e.args[0] if e.name == "answer" else port_of(e.args[1], e.args[0])
        owner = owners.get(port) if e.tick - asked.get(port, -IDLE) <= IDLE else None
        if e.name == "out":
            asked[port] = e.tick
            for sent in run.outs(e, "sent"):
                if owner not in (None, e.args[0]) or sent.args[0] != port:
                    run.fail(e, f"gets port {sent.args[0]}, which host {owner} has")
                owners[port] = e.args[0]
        elif [it.args[0] for it in run.outs(e, "deliver")] != ([] if owner is None else [owner]):
            run.fail(e, f"is not delivered to host {owner}")
