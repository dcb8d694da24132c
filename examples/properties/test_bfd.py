"""Properties of bidirectional forwarding detection: sessions come up over links that work, fall when those fail, and data goes over those up."""
from collections import Counter

from copperfinch.testing import event, network, say, scenarios, send, some
from hypothesis import strategies as st

DOWN, INIT, UP, USUAL, PERIOD = 0, 1, 2, 3, 20
net = network("../bfd.luc", "../bfd.limits.json")
ends = [(0, 1), (1, 0), (1, 2), (2, 1), (0, 2), (2, 0)]
data = st.builds(lambda at, number: [event(0, at[0], "data", at[1], number)], st.sampled_from(ends), st.integers(0, 999))
plan = scenarios(3, {"configure": some(3, (0, 2), (0, 4))}, links="all", failures=4, outage=(1, 200), groups=[(30, data)],
                 first=[event(13 * at, a, "tick", b) for at, (a, b) in enumerate(ends)], gaps=st.integers(0, 60), rest=250)


class Sessions:
    """The state of each end, which moves as RFC 5880 says."""

    def __init__(self):
        self.cells = Counter()

    def configure(self, e, neighbour, multiplier):
        self.cells[e.switch, "mine", neighbour] = multiplier

    def tick(self, e, neighbour):
        self.cells[e.switch, "silent", neighbour] += 1
        before, told = self.cells[e.switch, "states", neighbour], []
        if self.cells[e.switch, "silent", neighbour] > (self.cells[e.switch, "theirs", neighbour] or USUAL):
            self.cells[e.switch, "states", neighbour] = DOWN
            told = [send("session_down", neighbour, 1)] if before == UP else []
        state, multiplier = self.cells[e.switch, "states", neighbour], self.cells[e.switch, "mine", neighbour] or USUAL
        return told + [send("control", e.switch, state, multiplier, to=neighbour), send("tick", neighbour, delay=PERIOD)]

    def control(self, e, source, state, multiplier):
        self.cells[e.switch, "theirs", source], self.cells[e.switch, "silent", source] = multiplier, 0
        before = self.cells[e.switch, "states", source]
        after = {(DOWN, DOWN): INIT, (INIT, DOWN): INIT, (UP, DOWN): DOWN, (DOWN, UP): DOWN}.get((before, state), UP)
        self.cells[e.switch, "states", source] = after
        if before != after and UP in (before, after):
            return [send("session_up", source) if after == UP else send("session_down", source, 0)]

    def data(self, e, neighbour, number):
        if self.cells[e.switch, "states", neighbour] == UP:
            return [send("arrive", e.switch, number, to=neighbour)]
        return [say(f"data {number} for switch {neighbour} is dropped")]

    def arrive(self, e, source, number):
        self.cells[e.switch, "arrived", source] += 1


@net.given(plan, least={"tick": 100, "control": 100, "data": 100, "arrive": 50})
def test_states(run):
    """Each end moves by what it hears and by its silence, tells it, and sends data exactly while it is up."""
    run.replay(Sessions())


@net.given(plan, least={"session_up": 50, "session_down": 20})
def test_up_and_down(run):
    """A session goes up and down by turns, comes up only if the neighbour heard this end, and falls only by silence or by a word of it."""
    up, heard = {}, set()
    for e in run.events("tick", "control"):
        if e.name == "control":
            heard.add((e.switch, e.args[0]))
        for it in run.outs(e, "session_up", "session_down"):
            key = e.switch, it.args[0]
            if up.get(key, False) == (it.name == "session_up"):
                run.fail(it, "is told twice")
            if it.name == "session_up" and key[::-1] not in heard:
                run.fail(it, "comes up, and the neighbour never heard it")
            up[key] = it.name == "session_up"


@net.given(plan, least={"arrive": 50})
def test_data_arrives(run):
    """Over links that did not fail for 200 ticks sessions are up, so data goes out, and arrives but for an outage."""
    run.expect_explained()
    for packet in run.sent("data"):
        is_calm = all(until + 200 < packet.sent or start > packet.sent for *_, start, until in run.scene.down)
        if packet.number is not None and packet.sent > 200 and is_calm and len(run.outs(packet, "arrive")) != 1:
            run.fail(packet, "is dropped")
