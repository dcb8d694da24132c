"""Properties of the guard against DNS reflection: each question lets one answer in, nothing else passes, and a victim is reported once."""
from collections import Counter

from copperfinch.log import hash_of
from copperfinch.testing import event, network, scenarios, send, some
from hypothesis import strategies as st

GUARD, CLIENTS, SERVERS, WATCHER, MOST = 0, 1, 2, 3, 3
net = network("../dns.luc", "../dns.limits.json")


def cell_of(client, number):
    return hash_of(10, 1, client, number)


def swept(client, number, ahead, gap):
    """A question, one sweep or two that reach its cell, and a late answer."""
    cell = cell_of(client, number)
    return [event(0, GUARD, "question", client, number), event(gap, GUARD, "sweep", (cell - ahead) % 1024),
            event(gap + 1, GUARD, "sweep", (cell - 2 * ahead) % 1024), event(gap + 30 * ahead, GUARD, "answer", client, number)]


who = (0, 5), (0, 4)
late = st.builds(swept, st.integers(0, 300), st.integers(0, 40), st.integers(0, 4), st.integers(0, 20))
plan = scenarios(4, {"question": some(30, *who, switch=GUARD), "ask": some(40, *who, switch=SERVERS), "answer": some(5, (0, 300), (0, 9), switch=GUARD)},
                 links=[(0, 1), (0, 2), (0, 3)], groups=[(3, late)], failures=3, rest=150)


class Guard:
    """The open questions and the strange answers of each client."""

    def __init__(self):
        self.cells = Counter()

    def question(self, e, client, number):
        self.cells[GUARD, "open", cell_of(client, number)] = 2
        return [send("ask", client, number, to=SERVERS)]

    def ask(self, e, client, number):
        return [send("answer", client, number, to=GUARD)]

    def answer(self, e, client, number):
        cell, count = (GUARD, "open", cell_of(client, number)), (GUARD, "strange", client % 256)
        if self.cells.pop(cell, 0):
            return [send("passed", client, number, to=CLIENTS)]
        self.cells[count] += 1
        return [send("dropped", client, number)] + ([send("attack", client, to=WATCHER)] if self.cells[count] == MOST else [])

    def sweep(self, e, cell):
        self.cells[GUARD, "open", cell] = 1 if self.cells[GUARD, "open", cell] == 2 else 0
        self.cells[GUARD, "strange", cell % 256] = 0
        return [send("sweep", (cell + 1) % 1024)]


@net.given(plan, least={"question": 100, "ask": 100, "answer": 100, "sweep": 100})
def test_answers(run):
    """An answer passes exactly if its question is open, and closes it; the third strange answer is an attack."""
    run.replay(Guard())


@net.given(plan, least={"passed": 50, "answer": 100})
def test_questions_are_answered(run):
    """A question goes to the servers, and its answer comes back, unless a link is down or the run ends."""
    run.expect_explained()
    for packet in run.sent("question", "ask"):
        ends = run.ends(packet)
        names = {it.name for it in ends if it.number is not None}
        if packet.number is not None and not ends or not names <= {"passed", "dropped", "attack"}:
            run.fail(packet, f"ends as {[it.label() for it in ends]}")


@net.given(plan, least={"passed": 50, "question": 100})
def test_one_for_each(run):
    """Of each client and number at most as many answers pass as questions came, but for those that share a cell."""
    asked, passed = Counter(), Counter()
    for e in run.events("question", "answer"):
        counts = asked if e.name == "question" else passed
        counts[cell_of(*e.args)] += e.name == "question" or bool(run.outs(e, "passed"))
        if passed[cell_of(*e.args)] > asked[cell_of(*e.args)]:
            run.fail(e, "passes without a question")
