"""Properties of a network, tried on scenarios that are drawn (docs/TESTING.md). It needs pytest and hypothesis.

    from copperfinch.testing import network, scenarios, some
    fw = network("firewall.luc", "firewall.limits.json")

    @fw.given(scenarios(switches=3, links="star", events={"inside": some(40, (1, 4), (9, 12), switch=0)}))
    def test_all_leave(run):
        for event in run.events("inside"):
            run.expect(event, send("passed", *event.args, to=2))

`pytest` runs the tests, `hypothesis` draws and shrinks, and `pytest-xdist` spreads the parts of a test over processes (`-n auto`).
"""
from .plan import Some, event, scenarios, some
from .properties import Network, Property, network
from .run import Run, say, send

__all__ = ["Network", "Property", "Run", "Some", "event", "network", "say", "scenarios", "send", "some"]
