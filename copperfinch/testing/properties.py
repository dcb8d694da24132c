"""Properties of a network: tests of pytest that run a program on scenarios which hypothesis draws and shrinks."""
import importlib.util
import inspect
import json
import math
import os
import sys
import traceback
import zlib
from collections import Counter
from dataclasses import dataclass, replace
from functools import cached_property
from pathlib import Path
from typing import Any, Callable, Counter as Counts, Dict, List, Mapping, Optional, Union

import hypothesis
import pytest
from hypothesis.strategies import SearchStrategy

from ..errors import Error
from ..files import Limits, Scene, read_limits, read_scene
from ..log import read_log
from ..model.answers import Program as Source
from ..program import Program, ProgramError
from ..scenarios import text_of
from .plan import Plan
from .run import Run

Claim = Callable[[Run], None]
# How many scenarios a test tries, and in how many parts, which `-n` spreads over processes.
RUNS, PARTS = 200, 2


class Vacuous(Error):
    """A property that looked at too little. Its text says at what."""


def near(path: Path) -> str:
    """A path from the current folder, if that is shorter."""
    return min(os.path.relpath(path), str(path), key=len)


def runs_of(usual: int) -> int:
    """How many scenarios a test tries: $COPPERFINCH_RUNS, or its own number."""
    given = os.environ.get("COPPERFINCH_RUNS", "")
    return int(given) if given.isdecimal() and int(given) else usual


@dataclass
class Failure:
    """A scenario for which a property does not hold, or for which it could not be asked."""

    scene: Scene
    run: Optional[Run]
    fault: BaseException


def network(program: Union[str, Path], limits: Union[str, Path]) -> "Network":
    """A program on a target. A relative path is looked for beside the file that calls this, and else in the current folder."""
    caller = inspect.stack()[1].filename
    return Network(beside(program, caller), beside(limits, caller))


def beside(path: Union[str, Path], caller: str) -> Path:
    """Returns the path of a file beside another one, if it is there."""
    there = Path(caller).parent / path
    return there if there.exists() else Path(path)


class Network:
    """A program on a target, which runs scenarios. The program of `lucid` is $LUCID, else that of the checkout or of PATH."""

    def __init__(self, program: Path, limits: Path) -> None:
        self.program, self.limits_file = program, limits

    @cached_property
    def lucid(self) -> Program:
        """The built program."""
        return Program()

    @cached_property
    def limits(self) -> Limits:
        """The limits of the target."""
        return read_limits(self.limits_file.read_bytes())

    @cached_property
    def widths(self) -> Mapping[str, List[int]]:
        """The widths of the parameters of each event. Raises ProgramError if the program is refused."""
        self.lucid.check(self.program)
        core = Source(self.program.read_bytes().decode("latin-1")).check()
        return {event.name: event.params for event in core.events}

    def run(self, scene: Scene) -> Run:
        """Runs a scenario. Raises ProgramError if the program refuses it or was ended."""
        return Run(scene, self.limits, read_log(self.lucid.answer("run whole", self.program, self.limits_file, scene)))

    def given(self, plan: Plan, runs: int = RUNS, parts: int = PARTS, least: Optional[Mapping[str, int]] = None) -> Callable[[Claim], Any]:
        """Makes a property a test, which tries it on so many scenarios.

        A property that is true of an empty log says nothing. So each part of the test fails as well if the property looked at fewer events of a
        name than `least` says (1, of a name that it asked for and that `least` does not have), or at nothing at all.
        """
        def decorate(claim: Claim) -> Any:
            made = Property(self, claim, plan, runs, parts, dict(least or {}))

            @pytest.mark.parametrize("part", range(parts))
            def test(part: int) -> None:
                __tracebackhide__ = True
                made.test(part)
            test.__name__, test.__doc__, test.__module__ = claim.__name__, claim.__doc__, claim.__module__
            test.property = made  # type: ignore[attr-defined]
            return test
        return decorate


@dataclass
class Property:
    """A property of a network, and the scenarios on which it is tried."""

    network: Network
    claim: Claim
    plan: Plan
    runs: int
    parts: int
    least: Dict[str, int]

    @property
    def name(self) -> str:
        """The name of its test."""
        return self.claim.__name__

    @cached_property
    def strategy(self) -> "SearchStrategy[Scene]":
        """What draws its scenarios."""
        return self.plan.strategy(self.network.widths)

    def judge(self, scene: Scene, seen: Counts[str]) -> Optional[Failure]:
        """Runs a scenario and asks the property; adds what it looked at to `seen`. Returns None if it holds."""
        run = None
        try:
            run = self.network.run(scene)
            run.ledger  # a log that does not fit its scenario is refused
            self.claim(run)
        except Exception as fault:
            return Failure(scene, run, fault)
        finally:
            if run:
                seen.update(run.seen)
        return None

    def each(self, runs: int, part: int, use: Callable[[Scene], None]) -> None:
        """Draws scenarios and uses each; hypothesis shrinks one for which this raises. The same part gets the same scenarios."""
        seed = zlib.crc32(f"{self.name} {part} {os.environ.get('COPPERFINCH_SEED', '')}".encode())
        quiet = hypothesis.settings(max_examples=runs, deadline=None, database=None, report_multiple_bugs=False, print_blob=False,
                                    suppress_health_check=list(hypothesis.HealthCheck), verbosity=hypothesis.Verbosity.quiet)

        def tried(scene: Scene) -> None:
            use(scene)
        hypothesis.seed(seed)(quiet(hypothesis.given(self.strategy)(tried)))()

    def scenes(self, runs: int, part: int = 0) -> List[Scene]:
        """Returns scenarios that a part of the test draws."""
        found: List[Scene] = []
        self.each(runs, part, found.append)
        return found

    def test(self, part: int) -> None:
        """Tries the property, and fails the test by a text that says how to repeat it."""
        __tracebackhide__ = True
        seen: Counts[str] = Counter()
        given, said = os.environ.get("COPPERFINCH_SCENARIO"), ""
        try:
            failure = self.judge(read_scene(Path(given).read_bytes()), seen) if given else self.find(part, seen)
            if failure:
                said = self.report(failure, part)
            elif not given:
                self.look_at(seen)
        except (Error, OSError) as fault:
            said = f"{self.name}: {fault}"
        if said:
            pytest.fail(said, pytrace=False)

    def find(self, part: int, seen: Counts[str]) -> Optional[Failure]:
        """Returns the scenario that is left when hypothesis has shrunk one for which the property fails."""
        runs = math.ceil(runs_of(self.runs) / self.parts)
        failures: List[Failure] = []

        def use(scene: Scene) -> None:
            try:
                failure = self.judge(scene, seen)
            except KeyboardInterrupt:
                kept = self.keep(scene, f"{part}.interrupted")
                raise KeyboardInterrupt(f"{self.name} was interrupted in the scenario {kept}") from None
            if failure:
                failures.append(failure)
                raise failure.fault
        try:
            self.each(runs, part, use)
        except Exception:
            if not failures:
                raise
        return self.fewest(failures[-1]) if failures else None

    def fewest(self, failure: Failure) -> Failure:
        """Takes out each event and each outage that the failure does not need, so that none is left over when hypothesis gave up."""
        at = 0
        while at < len(failure.scene.events) + len(failure.scene.down):
            scene, count = failure.scene, len(failure.scene.events)
            events, down = list(scene.events), list(scene.down)
            if at < count:
                del events[at]
            else:
                del down[at - count]
            smaller = self.judge(replace(scene, events=events, down=down), Counter())
            if smaller and type(smaller.fault) is type(failure.fault):
                failure, at = smaller, 0
            else:
                at += 1
        return failure

    def look_at(self, seen: Counts[str]) -> None:
        """Refuses a property that looked at too little to say anything. For fewer or more scenarios than its own, `least` counts as much less."""
        least = {name: max(count * runs_of(self.runs) // self.runs, min(count, 1)) for name, count in self.least.items()}
        for name, count in {**dict.fromkeys(sorted(seen), 1), **least}.items():
            if seen[name] < count:
                raise Vacuous(f"it says too little: it looked at {seen[name]} of {name}, and at least {count} are wanted")
        if not sum(seen.values()):
            raise Vacuous("it says too little: it looked at no event of any scenario")

    def keep(self, scene: Scene, part: object) -> str:
        """Writes a scenario into the folder for those that failed, and returns its path."""
        folder = Path(os.environ.get("COPPERFINCH_FAILED", "failed"))
        path = folder / f"{self.name}.{part}.scenario.json"
        try:
            folder.mkdir(parents=True, exist_ok=True)
            path.write_text(text_of(json.loads(scene.text())))
        except OSError as fault:
            return f"{path} (not written: {fault.strerror})"
        return str(path)

    def report(self, failure: Failure, part: int) -> str:
        """What a test that failed says: the property, the scenario, how to repeat it, and what became of the event that broke it."""
        fault, scene = failure.fault, failure.scene
        is_plain = isinstance(fault, (Error, AssertionError))
        said = str(fault).split("\n")[0] if is_plain else f"{type(fault).__name__}: {fault}"
        verb = "does not hold" if failure.run else "cannot be asked"
        lines = [f"{self.name} {verb}: {said or 'its assert failed'}", *self.place(fault)]
        if self.claim.__doc__:
            lines.insert(1, f"  it says: {' '.join(self.claim.__doc__.split())}")
        path = self.keep(scene, part)
        count = len(scene.events)
        lines += [f"the scenario, of {count} event{'s' * (count != 1)} on {scene.switches} switch{'es' * (scene.switches != 1)}: {path}"]
        lines += text_of(json.loads(scene.text())).splitlines()
        node = os.environ.get("PYTEST_CURRENT_TEST", self.name).split(" ")[0]
        lines += ["to repeat it:", f"  lucid run whole {near(self.network.program)} {near(self.network.limits_file)} {path}", f"  COPPERFINCH_SCENARIO={path} pytest '{node}'"]
        try:
            told = failure.run.told() if failure.run else ""
        except Error as why:
            told = str(why)
        if told:
            lines += ["what became of the event:", *(f"  {line}" for line in told.splitlines())]
        return "\n".join(lines)

    def place(self, fault: BaseException) -> List[str]:
        """The line of the property that raised a fault."""
        own = inspect.getsourcefile(self.claim)
        frames = [it for it in traceback.extract_tb(fault.__traceback__) if it.filename == own]
        return [f"  {frames[-1].filename}:{frames[-1].lineno}: {frames[-1].line}"] if frames else []


def properties_of(module: Any) -> List[Property]:
    """The properties of a module of tests, in the order of their definition."""
    return [it.property for it in vars(module).values() if isinstance(getattr(it, "property", None), Property)]


def load(path: Path) -> Any:
    """Imports a file of tests."""
    spec = importlib.util.spec_from_file_location(path.stem, path)
    if spec is None or spec.loader is None or not path.exists():
        raise Error(f"{path} is no file of Python")
    module = importlib.util.module_from_spec(spec)
    sys.modules[path.stem] = module
    try:
        spec.loader.exec_module(module)
    except (ImportError, SyntaxError, NameError, TypeError) as fault:
        raise Error(f"{path}: {fault}") from None
    return module
