"""What pytest needs to know of these tests: the calls of .rows files are items, each test of tests/groups has a `group`, and counts add up.

A row fails with its file, its line and both answers. A test of tests/groups counts its checks by `group.check`, and fails with those that
failed; `group.note` prints a line at the end. Groups that are on demand run if their file or folder is named.
"""
from __future__ import annotations

import os
import shutil
import subprocess
import sys
import tempfile
from pathlib import Path
from typing import Any, Dict, Iterator, List, Optional

sys.dont_write_bytecode = True
import pytest  # noqa: E402
from harness import TESTS, TOP, Group, Options  # noqa: E402
from rowfile import Row, read_rows  # noqa: E402

ON_DEMAND = "deep", "wide", "speed", "meaning", "mutants"
# These need no program, and tests that measure seconds run one after another.
WITHOUT = "edits", "house", "owed", "modelled", "meaning", "trusted"
MEASURED = "hostile", "collisions", "words"
# The first word of a call of tools.rows is one of these, or the program.
LINKS = {name: TOP / name for name in ("docs", "examples", "tools")}
collect_ignore = [str(TESTS / "groups" / f"{name}.py") for name in ON_DEMAND]


def pytest_addoption(parser: pytest.Parser) -> None:
    group = parser.getgroup("the program under test")
    group.addoption("--program", help="another program than the one that ./lucid runs")
    group.addoption("--whole", action="store_true", help="refused, hostile, collisions: every request, every input")
    group.addoption("--large", action="store_true", help="examples: also the large ones")
    group.addoption("--fill", action="store_true", help="write missing sums, counts and pictures")
    group.addoption("--runs", type=int, help="drawn, generated, meaning: how many")
    group.addoption("--seed", type=int, default=0, help="drawn: the seed; generated: the first number")
    group.addoption("--only", action="append", default=[], metavar="NAME", help="deep, wide, hostile: only these; drawn: this call")


def options_of(config: pytest.Config) -> Options:
    names = "whole", "large", "fill", "runs", "seed"
    program = Path(config.getoption("program")).resolve()
    return Options(program=program, only=tuple(config.getoption("only")), **{name: config.getoption(name) for name in names})


def find_program() -> str:
    """The program that ./lucid runs; it is compiled without its proofs if none is built. Says whether it is proved."""
    found = subprocess.run([TOP / "lucid", "--program"], stdout=subprocess.PIPE, check=False).stdout.decode()
    said = subprocess.run([TOP / "lucid", "--version"], stdout=subprocess.PIPE, check=False).stdout.decode()
    if not found:
        raise pytest.UsageError("./lucid has no program: name one by --program")
    print(f"{found[:-1]}: {'proved' if 'program proved' in said.splitlines() else 'not proved'}", flush=True)
    return found[:-1]


class Failed(Exception):
    """A row or a test failed, with what is printed of it."""


class RowItem(pytest.Item):
    """A call of a file of rows."""

    row: Row

    def runtest(self) -> None:
        from groups.rows import make

        links = {"lucid": options_of(self.config).program, **LINKS} if self.path.name == "tools.rows" else {}
        with tempfile.TemporaryDirectory(prefix="lucid-rows-") as room:
            ended = make(Group("rows", options_of(self.config), Path(room)), self.row, links)
        if not self.row.holds(ended):
            row = self.row
            wanted = f"status 0, length and hash {row.sum}" if row.accepts else f"status {row.status}\n{row.out.decode('utf-8', 'replace')}{row.err.decode('utf-8', 'replace')}"
            got = f"status {ended.status}\n{ended.out[:4000].decode('utf-8', 'replace')}{ended.err[:400].decode('utf-8', 'replace')}"
            raise Failed(f"{row.name}: {row.title}: {' '.join(row.words)[:200]}\n-- wanted: {wanted}\n-- got: {got}")

    def repr_failure(self, excinfo: Any, style: Any = None) -> Any:
        return str(excinfo.value) if isinstance(excinfo.value, Failed) else super().repr_failure(excinfo, style)

    def reportinfo(self) -> Any:
        return self.path, self.row.line - 1, self.name


class RowFile(pytest.File):
    """A file of rows; lines that belong to no call are an error."""

    def collect(self) -> Iterator[RowItem]:
        rows, unread = read_rows(self.path)
        if unread or not rows:
            raise self.CollectError(f"{self.path.name} has no calls, or lines that belong to none: {unread}")
        for row in rows:
            item = RowItem.from_parent(self, name=f"{row.line}: {row.title}: {' '.join(row.words)[:60]}")
            item.row = row
            yield item


def pytest_collect_file(file_path: Path, parent: pytest.Collector) -> Optional[pytest.Collector]:
    if file_path.suffix == ".rows" and (file_path.parent.name == "rows" or file_path.name == "tools.rows"):
        return RowFile.from_parent(parent, path=file_path)
    return None


def pytest_collection_modifyitems(config: pytest.Config, items: List[pytest.Item]) -> None:
    for item in items:
        if item.path.stem in MEASURED:
            item.add_marker(pytest.mark.xdist_group("measured"))


@pytest.fixture
def group(request: pytest.FixtureRequest) -> Iterator[Group]:
    """The checks of a test, with a temporary folder and the program."""
    name = request.path.stem
    made = Group(name, options_of(request.config), Path(tempfile.mkdtemp(prefix=f"lucid-{name}-")))
    yield made
    shutil.rmtree(made.room, ignore_errors=True)


@pytest.hookimpl(tryfirst=True)
def pytest_pyfunc_call(pyfuncitem: pytest.Function) -> Optional[bool]:
    group = pyfuncitem.funcargs.get("group")
    if group is None:
        return None
    names = pyfuncitem._fixtureinfo.argnames
    try:
        pyfuncitem.obj(**{name: pyfuncitem.funcargs[name] for name in names})
    finally:
        pyfuncitem.user_properties += [("passed", group.passed), ("failed", group.failed), ("notes", group.notes)]
    if group.failed:
        pytest.fail("\n".join(group.failures), pytrace=False)
    return True


class Counts:
    """How many checks passed and failed in a session: a row is one check, and so is a test without a group."""

    def __init__(self) -> None:
        self.passed = self.failed = 0
        self.notes: List[str] = []

    def pytest_runtest_logreport(self, report: pytest.TestReport) -> None:
        found: Dict[str, Any] = dict(report.user_properties)
        if report.when == "call" and report.outcome != "skipped":
            failed = found.get("failed", 0)
            self.passed += found.get("passed", int(report.passed))
            self.failed += failed or int(report.failed)
            self.notes += found.get("notes", [])
        elif report.failed:
            self.failed += 1

    def pytest_collectreport(self, report: pytest.CollectReport) -> None:
        self.failed += report.failed

    def pytest_terminal_summary(self, terminalreporter: Any) -> None:
        for note in self.notes:
            terminalreporter.write_line(note)


def pytest_configure(config: pytest.Config) -> None:
    config.counts = Counts()
    if hasattr(config, "workerinput"):
        config.option.program = config.workerinput["program"]
    else:
        config.pluginmanager.register(config.counts)
        asked = [Path(word.split("::")[0]).stem for word in config.args]
        if config.option.program is None and not config.option.collectonly:
            config.option.program = str(TOP) if all(name in WITHOUT for name in asked) else find_program()
        if config.option.program and not Path(config.option.program).exists():
            raise pytest.UsageError(f"there is no program {config.option.program}")


@pytest.hookimpl(optionalhook=True)
def pytest_configure_node(node: Any) -> None:
    """Gives the program to each process of `-n`, which gets only the words of the call."""
    node.workerinput["program"] = node.config.option.program


def pytest_unconfigure(config: pytest.Config) -> None:
    if not hasattr(config, "workerinput"):
        counts = config.counts
        print(f"{counts.passed} passed, {counts.failed} failed", flush=True)


os.environ.setdefault("PYTHONDONTWRITEBYTECODE", "1")
