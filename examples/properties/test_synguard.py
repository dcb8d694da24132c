"""Properties of the guard against SYN floods: a server gets connections of clients that answered a challenge, and of each of these."""
from collections import Counter

from copperfinch.log import hash_of
from copperfinch.testing import event, network, scenarios, send, some
from hypothesis import strategies as st

CLIENTS, SERVER, MOST = 1, 2, 4
net = network("../synguard.luc", "../synguard.limits.json")


def slot_of(client):
    return hash_of(32, 1, client) >> 28


def cookie_of(client):
    return hash_of(32, 77, client)


def honest(client, port, gap, late):
    """A client that answers its challenge, and connects at once and later."""
    return [event(0, 0, "syn", client, port), event(gap, 0, "answer", client, cookie_of(client)), event(gap + 1, 0, "syn", client, port),
            event(gap + late, 0, "syn", client, port + 1)]


clients = [1, 2, 3, 4, 5, 24]
plan = scenarios(3, {"syn": some(50, clients, (1, 9), switch=0), "answer": some(6, clients, (0, 2**32 - 1), switch=0)}, links=[(0, 1), (0, 2)], failures=2,
                 groups=[(14, st.builds(honest, st.sampled_from(clients), st.integers(1, 9), st.integers(1, 40), st.integers(2, 600)))],
                 first=[event(0, 0, "sweep", 0)], gaps=st.one_of(st.integers(0, 3), st.integers(0, 30)), rest=100)


class Guard:
    """The clients that are known, and the challenges of each slot."""

    def __init__(self):
        self.cells = Counter()

    def syn(self, e, client, port):
        slot = slot_of(client)
        if self.cells[0, "known", slot] == client:
            return [send("open", client, port, to=SERVER)]
        if self.cells[0, "asked", slot] == MOST:
            return [send("dropped", client)]
        self.cells[0, "asked", slot] += 1
        return [send("challenge", client, cookie_of(client), to=CLIENTS)]

    def answer(self, e, client, cookie):
        if cookie != cookie_of(client):
            return [send("dropped", client)]
        self.cells[0, "young", slot_of(client)], self.cells[0, "known", slot_of(client)] = 2, client
        return [send("welcome", client, to=CLIENTS)]

    def sweep(self, e, slot):
        if self.cells[0, "young", slot] == 1:
            self.cells[0, "known", slot] = 0
        self.cells[0, "young", slot] = max(0, self.cells[0, "young", slot] - 1)
        self.cells[0, "asked", slot] = 0
        return [send("sweep", (slot + 1) % 16)]

    def open(self, e, client, port):
        self.cells[SERVER, "opened", 0] += 1


@net.given(plan, least={"syn": 200, "answer": 50, "sweep": 200, "open": 50})
def test_slots(run):
    """A client is known from its answer to the second sweep behind it, or until another one takes its slot."""
    run.replay(Guard())


@net.given(plan, least={"open": 50, "challenge": 50, "dropped": 20})
def test_only_known_clients(run):
    """A connection reaches the server only if its client sent its cookie before, and each `syn` has one end."""
    known = set()
    for e in run.events("syn", "answer"):
        if e.name == "answer":
            known |= {e.args[0]} if e.args[1] == cookie_of(e.args[0]) else set()
            continue
        ends = run.outs(e, "open", "challenge", "dropped")
        if len(ends) != 1 or ends[0].name == "open" and e.args[0] not in known:
            run.fail(e, "opens a connection, and did not answer a challenge" if ends else "has no end")


@net.given(plan, least={"open": 50, "welcome": 50, "challenge": 50})
def test_known_clients_connect(run):
    """A client that answered connects until two sweeps came or another took its slot. What is sent arrives but for an outage."""
    run.expect_explained()
    sweeps, since = Counter(), {}
    for e in run.events("syn", "answer", "sweep"):
        slot = e.args[0] if e.name == "sweep" else slot_of(e.args[0])
        if e.name == "sweep":
            sweeps[slot] += 1
        elif run.outs(e, "welcome"):
            since[slot] = e.args[0], sweeps[slot]
        elif e.name == "syn":
            client, then = since.get(slot, (0, 0))
            if client == e.args[0] and sweeps[slot] - then < 2 and [it.switch for it in run.outs(e, "open")] != [SERVER]:
                run.fail(e, "is known, and does not reach the server")
    for packet in run.sent("challenge", "welcome", "open"):
        if packet.switch != (SERVER if packet.name == "open" else CLIENTS):
            run.fail(packet, "goes elsewhere")
