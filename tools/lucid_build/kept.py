"""Programs that are kept, their records, and the lock of a build.

`tools/record` takes the sums and has the form of a record. A file is written beside its place and then renamed, so that no call meets half
of one.
"""
from __future__ import annotations

import contextlib
import fcntl
import os
import shutil
import subprocess
from pathlib import Path
from typing import Iterator, Optional

from .running import Word, say

TOP = Path(os.path.realpath(__file__)).parent.parent.parent
RECORD = TOP / "tools/record"


def call_record(*words: Word) -> str:
    """Returns what tools/record prints, without the last line feed."""
    ran = subprocess.run([RECORD, *words], stdin=subprocess.DEVNULL, stdout=subprocess.PIPE, check=True)
    return os.fsdecode(ran.stdout).rstrip("\n")


def take_sums(folder: Optional[Path] = None) -> str:
    """Returns two lines: the kit that is here, and the sum of the sources of this checkout or of a copy of its crates."""
    return call_record("sums", *([folder] if folder else []))


def take_compiled_sums() -> str:
    """Returns these two lines for this checkout, and the sum of the tools that compile a program without its proofs."""
    return f"{take_sums()}\n{call_record('tools')}"


def record_of(program: Path) -> Path:
    return program.with_name(f"{program.name}.record")


def is_current(program: Path, sums: str) -> bool:
    """Whether a program has a record of its own bytes and of these sums."""
    return subprocess.run([RECORD, "check", record_of(program), program, sums], stdin=subprocess.DEVNULL).returncode == 0


def keep(made: Path, program: Path, sums: str) -> None:
    """Puts a built program in its place, and then its record."""
    new = program.with_name(f"{program.name}.new")
    try:
        shutil.copyfile(made, new)
        new.chmod(0o755)
        os.replace(new, program)
    finally:
        with contextlib.suppress(OSError):
            new.unlink()
    call_record("write", record_of(program), program, sums)


def write_whole(path: Path, text: str) -> None:
    """Replaces a file by one with this text."""
    new = path.with_name(f"{path.name}.new")
    try:
        new.write_text(text)
        os.replace(new, path)
    finally:
        with contextlib.suppress(OSError):
            new.unlink()


@contextlib.contextmanager
def locked(path: Path, task: str) -> Iterator[bool]:
    """Holds a lock, which the system drops when this process ends; gives whether it had to wait for another call."""
    with open(path, "ab") as file:
        waited = False
        try:
            fcntl.flock(file, fcntl.LOCK_EX | fcntl.LOCK_NB)
        except BlockingIOError:
            waited = True
            say(f"another call {task}; waiting for it")
            fcntl.flock(file, fcntl.LOCK_EX)
        yield waited
