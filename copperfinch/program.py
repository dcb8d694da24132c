"""Calls of the built program `lucid`.

    lucid = Program()
    log = lucid.run("examples/heavy.luc", "examples/heavy.limits.json", "examples/heavy.scenario.json")

A file is a path, or the `Limits`, `Scene`, `Placement` or `Source` itself. A refused call raises ProgramError.
"""
import os
import re
import resource
import shutil
import subprocess
import tempfile
from dataclasses import dataclass
from pathlib import Path
from typing import Any, Dict, List, Optional, Sequence, Tuple, Union

from .drive import Drive, read_drive
from .errors import Error
from .files import Limits, Placement, Scene
from .layout import Layout, read_layout
from .log import Log, read_log
from .streams import ANSWER, Source

TOP = Path(__file__).resolve().parent.parent
File = Union[str, Path, Source, Limits, Scene, Placement]


class ProgramError(Error):
    """A call that failed: the exit code of `lucid`, the last line that it printed, and the place that this line points to, if it has one.

    `status` is negative if a signal ended the program, and 70 if there is none.
    """

    def __init__(self, text: str, status: int, line: str = "", place: Optional["Place"] = None) -> None:
        super().__init__(text)
        self.status, self.line, self.place = status, line, place


@dataclass(frozen=True)
class Place:
    """A place in a program: line and column, from 1; columns count bytes."""

    line: int
    column: int


@dataclass(frozen=True)
class Ended:
    """How a call ended: exit code, output, and lines on standard error. The output is cut if it was longer than it might be."""

    status: int
    out: bytes
    err: bytes
    is_cut: bool = False

    @property
    def line(self) -> str:
        """The last line on standard error."""
        return (self.err.decode("utf-8", "replace").splitlines() or [""])[-1]


class Running:
    """A call that runs. As a context it ends the program with the block."""

    def __init__(self, words: List[str], names: Dict[str, str], room: "tempfile.TemporaryDirectory[str]", most: int) -> None:
        self.names, self.room, self.most = names, room, most
        self.errors = tempfile.TemporaryFile()
        try:
            self.process = subprocess.Popen(words, stdin=subprocess.DEVNULL, stdout=subprocess.PIPE, stderr=self.errors)
        except (OSError, ValueError):
            self.close()
            raise ProgramError(f"{words[0]}: it can not be run", 70) from None

    def __enter__(self) -> "Running":
        return self

    def __exit__(self, *_: object) -> None:
        self.close()

    def close(self) -> None:
        """Ends the program and removes the copies of its files."""
        if hasattr(self, "process"):
            self.process.kill()
            self.process.wait()
            assert self.process.stdout
            self.process.stdout.close()
        self.errors.close()
        self.room.cleanup()

    def finish(self) -> Ended:
        """Waits for the end. A program that prints more than it may is ended."""
        assert self.process.stdout
        out = self.process.stdout.read(self.most + 1)
        if len(out) > self.most:
            return Ended(0, out[:self.most], b"", True)
        status = self.process.wait()
        self.errors.seek(0)
        err = self.errors.read(2**20)
        for path, name in self.names.items():
            err = err.replace(os.fsencode(path), os.fsencode(name))
        return Ended(status, out, err)


class Program:
    """The built program: `command` if it is given, else $LUCID, else the one of the checkout, which its script names, or `lucid` on PATH."""

    def __init__(self, command: Optional[str] = None) -> None:
        self.command, self.is_proved, self.is_kept = command or os.environ.get("LUCID") or "", True, True
        if not self.command:
            self.command, self.is_proved, self.is_kept = found()

    def start(self, command: str, *files: File, more: Sequence[str] = (), most: int = ANSWER, seconds: Optional[int] = None) -> Running:
        """Begins a call: a command as `run pipe`, its files, and the words after them. It may take so many seconds of a processor."""
        room = tempfile.TemporaryDirectory(prefix="lucid-call-")
        words, names = [self.command, *command.split()], {}
        for number, file in enumerate(files):
            source = source_of(file)
            path = source if isinstance(source, str) else source.name
            if isinstance(source, Source) and not source.is_file():
                path = f"{room.name}/{number}"
                Path(path).write_bytes(source.data)
                names[path] = source.name
            words.append(path)
        running = Running([*words, *more], names, room, most)
        if seconds is not None:
            try:
                resource.prlimit(running.process.pid, resource.RLIMIT_CPU, (seconds, seconds))
            except OSError:
                pass  # it has ended
        return running

    def call(self, command: str, *files: File, more: Sequence[str] = (), most: int = ANSWER) -> Ended:
        """Makes a call."""
        with self.start(command, *files, more=more, most=most) as running:
            ended = running.finish()
        self.is_proved = self.is_proved and b"unproved" not in ended.err
        return ended

    def answer(self, command: str, *files: File, more: Sequence[str] = ()) -> bytes:
        """Returns the output of a call. Raises ProgramError if it is refused, or if the output is too long."""
        ended = self.call(command, *files, more=more)
        if ended.is_cut:
            raise ProgramError(f"lucid {command}: its output is longer than {ANSWER} bytes", 0)
        if ended.status:
            text = f"lucid {command}: {ended.line or f'it ended with {ended.status}'}"
            raise ProgramError(text, ended.status, ended.line, place_of(files[0], ended.line) if files else None)
        return ended.out

    def check(self, program: File) -> None:
        """Raises ProgramError if the program is refused."""
        self.answer("check", program)

    def once(self, program: File, name: str, *args: int) -> Log:
        """Runs one event on arrays of zeros."""
        return read_log(self.answer("once", program, more=[name, *map(str, args)]))

    def layout(self, program: File, limits: File) -> Layout:
        """Places a program in the stages and tables of a target."""
        return read_layout(self.answer("layout", program, limits))

    def audit(self, program: File, limits: File, placement: File) -> Layout:
        """Checks a placement."""
        return read_layout(self.answer("audit", program, limits, placement))

    def run(self, program: File, limits: File, scenario: File, placement: Optional[File] = None, whole: bool = False) -> Log:
        """Runs a network on pipelines, of this placement if one is given; `whole` runs one event after another. The logs are the same."""
        if placement is not None:
            return read_log(self.answer("run placed", program, limits, scenario, placement))
        return read_log(self.answer("run whole" if whole else "run pipe", program, limits, scenario))

    def drive(self, program: File, limits: File, scenario: File, snap_after: Optional[int] = None) -> Drive:
        """Does the steps of a scenario on one pipeline; takes a snapshot after so many steps if a number is given."""
        if snap_after is None:
            return read_drive(self.answer("drive", program, limits, scenario))
        return read_drive(self.answer("snap", program, limits, scenario, more=[str(snap_after)]))


def source_of(file: File) -> Union[str, Source]:
    """Returns a path, or the text of a file that is no path."""
    if isinstance(file, (str, Path)):
        return os.fspath(file)
    return file if isinstance(file, Source) else Source(type(file).__name__.lower(), file.text().encode())


def found() -> Tuple[str, bool, bool]:
    """Returns the program of this checkout or of PATH, whether it is proved, and whether it is kept. The script compiles one if there is none."""
    script, path = TOP / "lucid", shutil.which("lucid")
    if os.access(script, os.X_OK):
        named = subprocess.run([script, "--program"], stdin=subprocess.DEVNULL, stdout=subprocess.PIPE)
        path = os.fsdecode(named.stdout).rstrip("\n")
        if named.returncode or not os.access(path, os.X_OK):
            return str(script), True, False  # the script compiles it again for each call, or says why there is none
    elif path is None:
        raise ProgramError("there is no program: name one by --lucid or in LUCID", 70)
    version = subprocess.run([script if path.startswith(str(TOP)) else path, "--version"], stdin=subprocess.DEVNULL, stdout=subprocess.PIPE)
    return path, b"not proved" not in version.stdout, True


def built() -> Optional[str]:
    """Returns a program that is there already, if one is."""
    given = os.environ.get("LUCID")
    names = ("lucid_main", "crates/lucid_main/out/lucid_main", "crates/lucid_main/out/lucid_unproved")  # installed, proved, unproved
    return next((path for path in ([given] if given else [str(TOP / name) for name in names]) if os.access(path, os.X_OK)), None)


def place_of(program: File, line: str) -> Optional[Place]:
    """Returns the place in a program that a line points to: of a byte, a token or a declaration."""
    from .explain.where import find  # here, since only refusals need it

    source = source_of(program)
    try:
        text = Path(source).read_bytes() if isinstance(source, str) else source.data
        at = find(text, line)
    except (Error, OSError):
        return None
    return None if at is None else Place(text.count(b"\n", 0, at) + 1, at - text.rfind(b"\n", 0, at))
