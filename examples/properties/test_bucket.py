"""Properties of the token bucket: no user sends more than its tokens, no packet is dropped while its user has one, and noise is told."""
from collections import Counter

from copperfinch.testing import event, network, scenarios, send, some
from hypothesis import strategies as st

UPLINK, OPERATOR, DEPTH, NOISY, PAUSE = 1, 2, 5, 3, 3
net = network("../bucket.luc", "../bucket.limits.json")
plan = scenarios(3, {"packet": some(90, [0, 1, 2, 3, 15], (40, 1500), switch=0)}, links=[(0, 1), (0, 2)], failures=2,
                 first=[event(0, 0, "refill", 0)], gaps=st.one_of(st.integers(0, 2), st.integers(0, 40)), rest=250)


class Buckets:
    """The tokens that each user took, and its drops."""

    def __init__(self):
        self.cells = Counter()

    def packet(self, e, user, size):
        if self.cells[0, "taken", user] < DEPTH:
            self.cells[0, "taken", user] += 1
            return [send("passed", user, size, to=UPLINK)]
        self.cells[0, "denied", user] += 1
        return [send("dropped", user)]

    def refill(self, e, user):
        drops = self.cells.pop((0, "denied", user), 0)
        self.cells[0, "taken", user] = max(0, self.cells[0, "taken", user] - 1)
        warning = [send("warning", user, drops, to=OPERATOR)] if drops >= NOISY else []
        return warning + [send("refill", (user + 1) % 16, delay=PAUSE)]

    def passed(self, e, user, size):
        self.cells[UPLINK, "sent", user] += size


@net.given(plan, least={"packet": 200, "refill": 200, "passed": 100})
def test_buckets(run):
    """A packet takes a token or is dropped, and `refill` gives one."""
    run.replay(Buckets())


@net.given(plan, least={"passed": 100, "dropped": 30})
def test_rate(run):
    """Of a user at most DEPTH packets more pass than tokens came, and none is dropped while it has fewer than that."""
    passed, visits = Counter(), Counter()
    for e in run.events("packet", "refill"):
        user = e.args[0]
        if e.name == "refill":
            passed[user] = max(0, passed[user] - 1)
            continue
        ends = run.outs(e, "passed", "dropped")
        if [it.name for it in ends] != ["passed" if passed[user] < DEPTH else "dropped"]:
            run.fail(e, f"is {[it.name for it in ends]}, and its user took {passed[user]} tokens")
        passed[user] += ends[0].name == "passed"
        visits[user] += 1


@net.given(plan, least={"passed": 100, "refill": 100})
def test_packets_arrive(run):
    """What passes arrives at the uplink, warnings reach the operator, and `refill` goes on, unless a link is down or the run ends."""
    run.expect_explained()
    for packet in run.sent("passed", "warning", "refill"):
        if packet.switch != {"passed": UPLINK, "warning": OPERATOR}.get(packet.name, 0):
            run.fail(packet, "goes elsewhere")
        if packet.name == "refill" and packet.number is not None and len(run.outs(packet, "refill")) != 1:
            run.fail(packet, "is the last")
