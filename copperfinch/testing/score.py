"""How many small breaks of a program its properties notice."""
import tempfile
from collections import Counter
from dataclasses import dataclass, field
from pathlib import Path
from typing import Dict, List, Optional, Tuple

from ..errors import Error
from ..files import Scene
from ..log import read_log
from ..mutants import Mutant, mutants_of
from ..program import Program
from .properties import Network, Property, load, properties_of
from .run import Run

# How many scenarios each plan draws.
RUNS = 40


@dataclass
class Score:
    """The mutants of a program: those that are refused or do not fit, those that change no log, those that were noticed, and the others."""

    refused: int = 0
    same: int = 0
    noticed: List[Tuple[Mutant, str]] = field(default_factory=list)
    survivors: List[Mutant] = field(default_factory=list)

    @property
    def changing(self) -> int:
        """How many change a log."""
        return len(self.noticed) + len(self.survivors)

    @property
    def percent(self) -> float:
        """The part of these that is noticed; 100 if there are none."""
        return 100 * len(self.noticed) / self.changing if self.changing else 100.0

    def __str__(self) -> str:
        return f"noticed {len(self.noticed)} of {self.changing} that change a log ({self.percent:.1f} %); {self.same} change none, {self.refused} are refused"


class Judges:
    """The properties of one program, and the scenarios on which its mutants run: the largest first, since they show most."""

    def __init__(self, properties: List[Property], runs: int = RUNS) -> None:
        self.properties, self.network = properties, properties[0].network
        plans: Dict[int, List[Property]] = {}
        for it in properties:
            plans.setdefault(id(it.plan), []).append(it)
        self.scenes: List[Tuple[Scene, bytes, List[Property]]] = []
        for them in plans.values():
            for scene in them[0].scenes(runs):
                self.scenes.append((scene, self.log_of(self.network, scene), them))
        self.scenes.sort(key=lambda it: -len(it[0].events))

    @staticmethod
    def log_of(network: Network, scene: Scene) -> bytes:
        """The log of a scenario."""
        return network.lucid.answer("run whole", network.program, network.limits_file, scene)

    def notice(self, scene: Scene, log: bytes, properties: List[Property]) -> str:
        """The name of the first property that does not hold of a log, or nothing."""
        for it in properties:
            try:
                run = Run(scene, self.network.limits, read_log(log))
                run.ledger
                it.claim(run)
            except Exception:  # whatever a property raises, a test of it fails
                return it.name
        return ""

    def judge(self, program: Path) -> Tuple[bool, str]:
        """Whether a program changes a log, and the property that notices it."""
        other = Network(program, self.network.limits_file)
        other.__dict__["lucid"] = self.network.lucid
        is_changed = False
        for scene, log, properties in self.scenes:
            made = self.log_of(other, scene)
            if made != log:
                is_changed = True
                name = self.notice(scene, made, properties)
                if name:
                    return True, name
        return is_changed, ""

    def score(self) -> Score:
        """Judges all mutants."""
        made = Score()
        text = self.network.program.read_bytes().decode("latin-1")
        with tempfile.TemporaryDirectory(prefix="lucid-mutants-") as room:
            path = Path(room) / self.network.program.name
            for mutant in mutants_of(text):
                path.write_bytes(mutant.text.encode("latin-1"))
                if self.network.lucid.call("layout", path, self.network.limits_file).status:
                    made.refused += 1
                    continue
                is_changed, name = self.judge(path)
                if name:
                    made.noticed.append((mutant, name))
                elif is_changed:
                    made.survivors.append(mutant)
                else:
                    made.same += 1
        return made


def score_of(program: Path, tests: Path, runs: int = RUNS, lucid: Optional[Program] = None) -> Score:
    """Scores the properties of a file of tests that are of this program."""
    found = [it for it in properties_of(load(tests)) if it.network.program.resolve() == program.resolve()]
    if not found:
        raise Error(f"{tests} has no properties of {program}")
    for it in found:
        it.network.__dict__.update({"lucid": lucid} if lucid else {})
    return Judges(found, runs).score()


def counts_of(score: Score) -> Dict[str, int]:
    """How many mutants each property was the first to notice."""
    return dict(Counter(name for _, name in score.noticed))
