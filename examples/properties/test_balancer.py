"""Properties of the load balancer: a connection stays with its backend, a new one gets a backend that is up, and lame ones are told once."""
from collections import Counter

from copperfinch.log import hash_of
from copperfinch.testing import event, network, scenarios, send, some
from hypothesis import strategies as st

BALANCER, PATIENCE, PERIOD = 4, 3, 25
net = network("../balancer.luc", "../balancer.limits.json")
clients = [1, 3, 4, 5, 7, 8, 9, 17, 24]
who = clients, (0, 99)
plan = scenarios(5, {"syn": some(40, *who, switch=BALANCER), "data": some(30, *who, switch=BALANCER), "fin": some(12, *who, switch=BALANCER),
                     "drain": some(3, [1, 2, 4, 8], switch=BALANCER), "admit": some(3, [1, 2, 4, 8], switch=BALANCER), "ail": some(4, (0, 1), switch=(0, 3))},
                 links=[(4, 0), (4, 1), (4, 2), (4, 3)], first=[event(at, BALANCER, "check", at, 1 << at) for at in range(4)], failures=3, outage=(1, 250),
                 gaps=st.one_of(st.integers(0, 3), st.integers(0, 60)), rest=200)


class Balancer:
    """The backends that are up, and the connections with their backends."""

    def __init__(self):
        self.cells = Counter()

    def slot(self, connection):
        return hash_of(32, 1, connection) >> 28

    def on(self, e, name, connection, number, slot):
        if self.cells[e.switch, "owners", slot] == connection:
            return [send("forward", connection, number, to=self.cells[e.switch, "backends", slot])]
        return [send(name, connection, number)]

    def syn(self, e, connection, number):
        slot, place = self.slot(connection), hash_of(2, 2, connection)
        up = [it for it in range(4) if (self.cells[e.switch, "alive", 0] & ~self.cells[e.switch, "drained", 0]) >> it & 1]
        if up and not self.cells[e.switch, "owners", slot]:
            self.cells[e.switch, "owners", slot] = connection
            self.cells[e.switch, "backends", slot] = min(up, key=lambda it: (it < place, it))
        return self.on(e, "refused", connection, number, slot)

    def data(self, e, connection, number):
        return self.on(e, "reset", connection, number, self.slot(connection))

    def fin(self, e, connection, number):
        slot = self.slot(connection)
        found = self.on(e, "reset", connection, number, slot)
        if self.cells[e.switch, "owners", slot] == connection:
            self.cells[e.switch, "owners", slot] = 0
        return found

    def forward(self, e, connection, number):
        self.cells[e.switch, "served", 0] += 1

    def check(self, e, backend, bit):
        self.cells[e.switch, "unanswered", backend] += 1
        asked = self.cells[e.switch, "unanswered", backend]
        if asked > PATIENCE:
            self.cells[e.switch, "alive", 0] &= ~bit
        lame = [send("lame", backend)] if asked == PATIENCE + 1 else []
        return lame + [send("ping", backend, bit, to=backend), send("check", backend, bit, delay=PERIOD)]

    def ping(self, e, backend, bit):
        return [] if self.cells[e.switch, "sick", 0] else [send("pong", backend, bit, to=BALANCER)]

    def pong(self, e, backend, bit):
        self.cells[e.switch, "unanswered", backend] = 0
        self.cells[e.switch, "alive", 0] |= bit

    def drain(self, e, bit):
        self.cells[e.switch, "drained", 0] |= bit

    def admit(self, e, bit):
        self.cells[e.switch, "drained", 0] &= ~bit

    def ail(self, e, on):
        self.cells[e.switch, "sick", 0] = on


@net.given(plan, least={"syn": 100, "data": 100, "fin": 30, "check": 100, "pong": 50})
def test_choice(run):
    """A new connection gets the first backend that is up from its place on, and keeps it to its `fin`."""
    run.replay(Balancer())


@net.given(plan, least={"forward": 100, "refused": 20, "reset": 20})
def test_each_packet_ends(run):
    """Each packet is forwarded to a backend, refused or reset, once, and what is forwarded arrives but for an outage."""
    run.expect_explained()
    for packet in run.sent("syn", "data", "fin"):
        ends = run.outs(packet, "forward", "refused", "reset")
        if packet.number is not None and (len(ends) != 1 or (ends[0].switch < 4) != (ends[0].name == "forward")):
            run.fail(packet, f"ends as {[it.label() for it in ends]}")


@net.given(plan, least={"forward": 100})
def test_connections_stay(run):
    """Between its first `syn` and its `fin` a connection has one backend."""
    backend = {}
    for e in run.events("syn", "data", "fin"):
        for it in run.outs(e, "forward"):
            if backend.setdefault(e.args[0], it.switch) != it.switch:
                run.fail(e, f"goes to {it.switch}, and its connection has {backend[e.args[0]]}")
            if e.name == "fin":
                del backend[e.args[0]]


@net.given(plan, least={"ping": 100, "pong": 50})
def test_checks_go_on(run):
    """Each check sends a ping and the next check, and each ping that a healthy backend gets has an answer."""
    sick = Counter()
    for e in run.events("check", "ping", "ail"):
        if e.name == "ail":
            sick[e.switch] = e.args[0]
        elif e.name == "check" and (len(run.outs(e, "ping")), len(run.outs(e, "check"))) != (1, 1):
            run.fail(e, "is the last")
        elif e.name == "ping" and len(run.outs(e, "pong")) != 1 - sick[e.switch]:
            run.fail(e, "has no answer, or one of a sick backend")
