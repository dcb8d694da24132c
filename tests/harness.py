"""What all tests share: calls of the built program, checks that are counted, measured calls, and work side by side.

A test of tests/groups is a function `run(group)` or `test_NAME(group)`. It calls the program with `group.call` and counts each of its checks
with `group.check`; `group.note` prints a line of its result. It writes its files into `group.room`, which is removed afterwards.
"""
from __future__ import annotations

import hashlib
import os
import re
import shutil
import subprocess
import sys
import tempfile
import threading
from concurrent.futures import ThreadPoolExecutor
from dataclasses import dataclass, field, replace
from pathlib import Path
from typing import Any, Callable, Iterable, List, Optional, Sequence, Union

TOP = Path(__file__).resolve().parent.parent
TESTS = TOP / "tests"
EXAMPLES = TOP / "examples"
PROGRAM = TOP / "crates/lucid_main/out/lucid_main"
sys.path.insert(0, str(TOP))  # for copperfinch
FIRST = EXAMPLES / "first.luc"
FIRST_LOG = b"[0] s0 pkt(5)\n  generate seen(5,7) delay 0 here\ns0 last[1] = 7\n"
Word = Union[str, bytes, Path]


@dataclass(frozen=True)
class Ended:
    """How a call ended: its exit status (a negative one is a signal), its output and its error stream."""

    status: int
    out: bytes
    err: bytes

    def __str__(self) -> str:
        return f"status {self.status}, out {self.out[:80]!r}, err {self.err[:120]!r}"


@dataclass(frozen=True)
class Spent:
    """How a measured call ended, its processor seconds and its peak memory in MB."""

    ended: Ended
    seconds: float
    megabytes: int


@dataclass(frozen=True)
class Options:
    """The options of tests/run, which all groups share."""

    program: Path = PROGRAM
    whole: bool = False
    large: bool = False
    fill: bool = False
    runs: Optional[int] = None
    seed: int = 0
    only: Sequence[str] = ()


class Stopped(Exception):
    """A check failed in a group that stops at its first failure."""


@dataclass
class Group:
    """A test while it runs: the program under test, a temporary folder, and the checks so far; `notes` are printed at the end."""

    name: str
    options: Options
    room: Path
    stops: bool = False
    passed: int = 0
    failed: int = 0
    failures: List[str] = field(default_factory=list)
    notes: List[str] = field(default_factory=list)
    lock: Any = field(default_factory=threading.Lock)

    def check(self, name: str, holds: bool, detail: object = "") -> bool:
        """Counts a check, and keeps its name if it failed; after 20 failures no more of them."""
        with self.lock:
            self.passed += bool(holds)
            self.failed += not holds
            if not holds and self.failed <= 20:
                self.failures.append(f"{self.name}: failed: {name}{': ' if detail else ''}{detail}")
        if self.stops and not holds:
            raise Stopped(name)
        return bool(holds)

    def note(self, text: str) -> None:
        self.notes.append(text)

    def call(self, *words: Word, **how: Any) -> Ended:
        return call([self.options.program, *words], **how)

    def tool(self, name: str, *words: Word, **how: Any) -> Ended:
        """Calls a tool of tools/, in the group's folder."""
        return call([sys.executable, "-B", TOP / "tools" / name, *words], cwd=self.room, **how)

    def expect(self, name: str, ended: Ended, status: int, out: bytes = b"", err: bytes = b"") -> bool:
        """Checks that a call ended with exactly this status, output and error stream."""
        return self.check(name, ended == Ended(status, out, err), ended)

    def file(self, name: str, text: Union[str, bytes]) -> Path:
        """Writes a file of the group's folder."""
        path = self.room / name
        path.write_bytes(text.encode() if isinstance(text, str) else text)
        return path

    def side_by_side(self, work: Callable[[Any], Any], items: Iterable[Any]) -> List[Any]:
        """Applies a function to all items, as many at a time as this process has processors; the results are in the order of the items."""
        with ThreadPoolExecutor(max(1, (os.cpu_count() or 1) // int(os.environ.get("PYTEST_XDIST_WORKER_COUNT", 1)))) as pool:
            return list(pool.map(work, items))

    def under(self, **options: Any) -> "Group":
        """A group of other options with a count and a folder of its own, which prints nothing and stops at its first failure."""
        return Group(self.name, replace(self.options, **options), Path(tempfile.mkdtemp(dir=self.room)), stops=True)


def call(
    words: Sequence[Word],
    cwd: Union[Path, str, None] = None,
    env: Optional[dict] = None,
    given: Optional[bytes] = None,
    stdout: Any = subprocess.PIPE,
    timeout: float = 600,
) -> Ended:
    """Runs a command, with this input if any. One that takes longer than `timeout` seconds is killed, and so ends by a signal."""
    stdin = subprocess.DEVNULL if given is None else subprocess.PIPE
    words = [os.fspath(word) for word in words]
    child = subprocess.Popen(words, cwd=cwd, env=env, stdin=stdin, stdout=stdout, stderr=subprocess.PIPE)
    try:
        out, err = child.communicate(given, timeout=timeout)
    except subprocess.TimeoutExpired:
        child.kill()
        out, err = child.communicate()
    return Ended(child.returncode, out or b"", err or b"")


def shell(text: str, *words: Word, **how: Any) -> Ended:
    """Runs a command of the shell, in which the words are "$@"."""
    return call(["sh", "-c", text, "sh", *words], **how)


def with_variables(**variables: object) -> dict:
    """The environment with these variables added."""
    return {**os.environ, **{name: str(value) for name, value in variables.items()}}


def compile_c(group: Group, source: str, *flags: str) -> Path:
    """Compiles a C file of tests/ into the group's folder."""
    made = group.room / source.replace(".c", "")
    subprocess.run(["cc", "-O1", *flags, "-o", made, TESTS / source], check=True)
    return made


def measure(spent: Path, words: Sequence[Word], cwd: Union[Path, str, None] = None, seconds: int = 120) -> Spent:
    """Runs a command below the compiled spent.c, with at most so many processor seconds, 8 MiB of stack and the memory of the machine."""
    with tempfile.NamedTemporaryFile() as numbers:
        limits = f'ulimit -S -s 8192; ulimit -S -t {seconds}; exec "$@"'
        ended = shell(limits, spent, numbers.name, *words, cwd=cwd, timeout=10 * seconds)
        code, took, most = numbers.read().split() or (128 + 9, 10 * seconds, 0)
    status = int(code) if int(code) < 128 else 128 - int(code)
    return Spent(Ended(status, ended.out, ended.err), float(took), int(most))


def instructions(words: Sequence[Word], cwd: Union[Path, str, None] = None) -> int:
    """The instructions of a call, as valgrind counts them: the same number on a busy machine. 0 if there is no valgrind."""
    if not shutil.which("valgrind"):
        return 0
    ended = call(["valgrind", "--tool=callgrind", "--callgrind-out-file=/dev/null", *words], cwd=cwd)
    found = re.search(rb"Collected : (\d+)", ended.err)
    return int(found[1]) if found else 0


def digest_of_sources() -> str:
    """A digest of the sources of the crates that the built program is made of: src/ of lucid_main and of all below it."""
    lines = [line.split(":") for line in (TOP / "crates.txt").read_text().splitlines() if ":" in line and not line.startswith("#")]
    below = {name.split()[0]: needs.split() for name, needs in lines}
    crates, waiting = set(), ["lucid_main"]
    while waiting:
        crate = waiting.pop()
        if crate in below and crate not in crates:
            crates.add(crate)
            waiting += below[crate]
    files = sorted(path for crate in crates for path in (TOP / "crates" / crate / "src").glob("**/*.rt"))
    return hashlib.sha256(b"".join(path.read_bytes() for path in files)).hexdigest()[:12]


def best(spent: Path, words: Sequence[Word], turns: int, cwd: Union[Path, str, None] = None, seconds: int = 120) -> Spent:
    """The quickest of several calls of a command."""
    return min((measure(spent, words, cwd, seconds) for _ in range(turns)), key=lambda it: it.seconds)


def table(group: Group, titles: Sequence[str], rows: Iterable[Sequence[object]]) -> None:
    """Prints a table of Markdown."""
    for cells in [titles, ["---"] * len(titles), *rows]:
        group.note("|" + "|".join(str(cell) if cell == "---" else f" {cell} " for cell in cells) + "|")
