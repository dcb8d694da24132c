"""Properties of consistent shared state: each read has one reply, replies are strong, and the replicas agree when the links are up."""
from collections import Counter, defaultdict

from copperfinch.testing import network, scenarios, send, some

HEAD, TAIL, READER, PATIENCE = 0, 2, 3, 80
net = network("../sro.luc", "../sro.limits.json")
plan = scenarios(4, {"write": some(14, (0, 2), (1, 99), switch=[0, 0, 3]), "read": some(50, (0, 2), READER, switch=(0, 2))},
                 links=[(0, 1), (1, 2), (0, 2), (0, 3), (1, 3), (2, 3)], failures=3, outage=(1, 90), rest=700)


class Chain:
    """The registers of each switch of the chain."""

    def __init__(self):
        self.cells = Counter()

    def at(self, e, register):
        return [(e.switch, name, register) for name in ("numbers", "pending", "values")]

    def write(self, e, register, value):
        numbers, pending, values = self.at(e, register)
        if e.switch != HEAD:
            return [send("write", register, value, to=HEAD)]
        self.cells[numbers] += 1
        self.cells[pending], self.cells[values] = self.cells[numbers], value
        return [send("chain", register, self.cells[numbers], value, to=1), send("retry", register, self.cells[numbers], delay=PATIENCE)]

    def chain(self, e, register, number, value):
        numbers, pending, values = self.at(e, register)
        if self.cells[numbers] > number:
            return []
        self.cells[numbers], self.cells[values] = number, value
        if e.switch == TAIL:
            return [send("commit", register, number, to=e.switch - 1)]
        self.cells[pending] = number
        return [send("chain", register, number, value, to=e.switch + 1)]

    def commit(self, e, register, number):
        _, pending, _ = self.at(e, register)
        if self.cells[pending] == number:
            self.cells[pending] = 0
        if e.switch != HEAD:
            return [send("commit", register, number, to=e.switch - 1)]

    def retry(self, e, register, number):
        _, pending, values = self.at(e, register)
        if self.cells[pending] == number:
            return [send("chain", register, number, self.cells[values], to=e.switch + 1), send("retry", register, number, delay=PATIENCE)]

    def read(self, e, register, asker):
        numbers, pending, values = self.at(e, register)
        if self.cells[pending]:
            return [send("ask", register, asker, to=TAIL)]
        return [send("reply", register, self.cells[numbers], self.cells[values], to=asker)]

    def ask(self, e, register, asker):
        numbers, _, values = self.at(e, register)
        return [send("reply", register, self.cells[numbers], self.cells[values], to=asker)]


@net.given(plan, least={"read": 100, "write": 100, "chain": 100, "commit": 100, "reply": 100})
def test_chain(run):
    """A write goes down the chain, its commit goes up, and a read is answered here or by the tail."""
    run.replay(Chain())


@net.given(plan, least={"reply": 100})
def test_each_read_is_answered(run):
    """Each read has one reply at its reader, unless a link is down or the run ends."""
    run.expect_explained()
    for packet in run.sent("read"):
        ends = run.ends(packet)
        if len(ends) != 1 or ends[0].number is not None and (ends[0].name, ends[0].switch, ends[0].args[0]) != ("reply", READER, packet.args[0]):
            run.fail(packet, f"ends as {[it.label() for it in ends]}")


@net.given(plan, least={"reply": 100})
def test_reads_are_strong(run):
    """A reply has the value of the write that it names, which is as new as each one that the head knew to be committed or a reader saw."""
    writes, known = defaultdict(lambda: [0]), Counter()
    for e in run.events():
        if e.name == "write" and e.switch == HEAD:
            writes[e.args[0]].append(e.args[1])
        elif e.name == "reply" or e.name == "commit" and e.switch == HEAD:
            known[e.args[0]] = max(known[e.args[0]], e.args[1])
        for reply in run.outs(e, "reply"):
            register, number, value = reply.args
            if number < known[register]:
                run.fail(e, f"reads write {number} of register {register}, and {known[register]} was known")
            if writes[register][number:number + 1] != [value]:
                run.fail(e, f"reads {value}, which is not write {number} of register {register}")


@net.given(plan, least={"write": 100})
def test_replicas_agree(run):
    """When all links were up for the last 400 ticks, all switches of the chain have the newest write."""
    writes = defaultdict(list)
    for e in run.events("write"):
        if e.switch == HEAD:
            writes[e.args[0]].append(e.args[1])
    if any(until > run.scene.stop - 400 for *_, until in run.scene.down):
        return
    for register, values in writes.items():
        for switch in range(TAIL + 1):
            have = run.log.cell(switch, "numbers", register), run.log.cell(switch, "values", register), run.log.cell(switch, "pending", register)
            if have != (len(values), values[-1], 0):
                run.fail(None, f"s{switch} has {have} of register {register}, and not {(len(values), values[-1], 0)}")
