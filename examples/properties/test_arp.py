"""Properties of address resolution: a frame has the address that its host answered, requests are bounded, and each packet ends once."""
from collections import Counter

from copperfinch.log import hash_of
from copperfinch.testing import event, network, say, scenarios, send, some
from hypothesis import strategies as st

ROUTER, HOLD, WAIT, PATIENCE, SEGMENTS = 0, 60, 20, 4, (1, 2, 3)
net = network("../arp.luc", "../arp.limits.json")
hosts = [1, 2, 3, 5, 6, 8, 9, 27, 33]
moved = st.builds(lambda host, card, gap: [event(0, host & 3, "card", host, card), event(gap, 0, "forget", hash_of(32, 1, host) >> 29), event(gap + 1, 0, "packet", host, 77, 0)],
                  st.sampled_from([1, 2, 3, 5, 6]), st.integers(1, 3), st.integers(0, 60))
plan = scenarios(4, {"packet": some(40, hosts, (0, 999), 0, switch=ROUTER), "reply": some(4, hosts, (1, 2**48 - 1), switch=ROUTER)},
                 links=[(0, 1), (0, 2), (0, 3)], failures=2, gaps=st.one_of(st.integers(0, 4), st.integers(0, 60)), groups=[(3, moved)], rest=250)


def mac_of(host, card):
    return 0x020000000000 + (card << 32) + host


class Router:
    """The slots of the router, and the cards of the hosts."""

    def __init__(self):
        self.cells = Counter()

    def packet(self, e, host, number, turns):
        slot = hash_of(32, 1, host) >> 29
        due = self.cells[e.switch, "quiet", slot] <= e.tick
        if due:
            self.cells[e.switch, "quiet", slot] = e.tick + HOLD
            if self.cells[e.switch, "owners", slot] != host:
                self.cells[e.switch, "owners", slot], self.cells[e.switch, "macs", slot] = host, 0
        known = self.cells[e.switch, "macs", slot] if self.cells[e.switch, "owners", slot] == host else 0
        if known:
            return [send("frame", known, host, number, to=host & 3)]
        asks = [send("request", host, to=segment) for segment in SEGMENTS] if due else []
        return asks + [send("unreachable", host, number) if turns == PATIENCE else send("packet", host, number, turns + 1, delay=WAIT)]

    def reply(self, e, host, mac):
        slot = hash_of(32, 1, host) >> 29
        if self.cells[e.switch, "owners", slot] == host and not self.cells[e.switch, "macs", slot]:
            self.cells[e.switch, "macs", slot] = mac

    def forget(self, e, slot):
        self.cells[e.switch, "quiet", slot % 8] = self.cells[e.switch, "owners", slot % 8] = 0

    def request(self, e, host):
        return [send("reply", host, mac_of(host, self.cells[e.switch, "cards", host >> 2]), to=ROUTER)] if host & 3 == e.switch else []

    def card(self, e, host, number):
        self.cells[e.switch, "cards", host >> 2] = number

    def frame(self, e, mac, host, number):
        if mac != mac_of(host, self.cells[e.switch, "cards", host >> 2]):
            return [say(f"packet {number} is for an old card of host {host}")]
        self.cells[e.switch, "arrived", host >> 2] += 1


@net.given(plan, least={"packet": 100, "request": 100, "reply": 50, "frame": 50})
def test_cache(run):
    """A packet becomes a frame exactly if its address has its slot and an answer; requests go out once in a quiet time."""
    run.replay(Router())


@net.given(plan, least={"frame": 50, "unreachable": 20})
def test_each_packet_ends(run):
    """A packet becomes one frame, for the segment of its host, or is unreachable after its fifth turn, unless the run ends."""
    for packet in run.sent("packet"):
        if packet.file is None:
            continue
        ends = [it for it in run.caused(packet, "packet", "frame", "unreachable") if it.name != "packet" or it.number is None]
        if packet.number is not None and len(ends) != 1:
            run.fail(packet, f"ends as {[it.label() for it in ends]}")
        for it in ends:
            if it.name == "frame" and it.switch != packet.args[0] & 3 or it.name == "unreachable" and len(run.caused(packet, "packet")) != PATIENCE:
                run.fail(it, "is too early, or for another segment")


@net.given(plan, least={"request": 100, "reply": 30})
def test_requests_are_answered(run):
    """Each request that reaches the segment of its host has one answer, and no other segment answers."""
    for packet in run.sent("request"):
        wanted = packet.number is not None and packet.args[0] & 3 == packet.switch
        if len(run.outs(packet, "reply")) != wanted:
            run.fail(packet, "has another number of answers")
