"""Words of the tools, child processes that end with this one, signals, and a line of progress each few seconds."""
from __future__ import annotations

import argparse
import contextlib
import os
import signal
import subprocess
import sys
import threading
import time
from pathlib import Path
from typing import Any, Iterator, NoReturn, Optional, Sequence, Set, Union

Word = Union[str, bytes, Path]
# Seconds between two lines of progress.
PERIOD = 5.0
ENDS = (signal.SIGTERM, signal.SIGHUP, signal.SIGINT, signal.SIGQUIT)
children: "Set[subprocess.Popen[bytes]]" = set()


class Words(argparse.ArgumentParser):
    """A parser that answers wrong words by one line of usage."""

    def __init__(self, description: Optional[str]) -> None:
        name = os.path.relpath(os.path.realpath(sys.argv[0]), Path(__file__).resolve().parent.parent.parent)
        super().__init__(prog=name, description=description, formatter_class=argparse.RawDescriptionHelpFormatter)

    def error(self, message: str) -> NoReturn:
        self.exit(2, " ".join(self.format_usage().split()) + "\n")


def say(text: str) -> None:
    """Prints a line on standard error. A standard error that is closed or full loses the line and nothing else."""
    with contextlib.suppress(OSError, ValueError, AttributeError):
        print(f"lucid: {text}", file=sys.stderr, flush=True)


def heed_signals() -> None:
    """Has TERM, HUP, INT and QUIT unwind this process, so that it removes what it made, and end with 128 and the signal's number."""

    def stop(number: int, _: object) -> NoReturn:
        raise SystemExit(128 + number)

    for number in ENDS:
        signal.signal(number, stop)


@contextlib.contextmanager
def undisturbed() -> Iterator[None]:
    """Ignores these signals meanwhile: a second one must not interrupt the removal of files."""
    before = {number: signal.signal(number, signal.SIG_IGN) for number in ENDS}
    try:
        yield
    finally:
        for number, handler in before.items():
            signal.signal(number, handler)


def start(words: Sequence[Word], **how: Any) -> "subprocess.Popen[bytes]":
    """Starts a child in a session of its own, without input."""
    child = subprocess.Popen([os.fspath(it) for it in words], stdin=subprocess.DEVNULL, start_new_session=True, **how)
    children.add(child)
    return child


def end(child: "subprocess.Popen[bytes]") -> None:
    """Ends a child, with all that it started."""
    with contextlib.suppress(ProcessLookupError):
        os.killpg(child.pid, signal.SIGKILL)
    child.wait()
    children.discard(child)


def end_all() -> None:
    for child in list(children):
        end(child)


class Progress:
    """Prints what is being done, and for how many seconds, each few seconds; on a terminal also at once. `log` has the times of the steps."""

    def __init__(self, task: str) -> None:
        self.task, self.step, self.log = task, "", ""
        self.began = self.last = time.monotonic()
        self.spent = sum(os.times()[:4])
        self.done = threading.Event()
        self.thread = threading.Thread(target=self._tell, daemon=True)

    def __enter__(self) -> "Progress":
        if sys.stderr is not None and sys.stderr.isatty():
            say(self.task)
        self.thread.start()
        return self

    def __exit__(self, *_: object) -> None:
        self.begin("")
        self.done.set()
        self.thread.join()

    def begin(self, step: str) -> None:
        """Begins a step, and notes the time of the one before: by the clock, and of processors."""
        now, spent = time.monotonic(), sum(os.times()[:4])
        if self.step:
            self.log += f"{self.step}: {now - self.last:.1f} s, {spent - self.spent:.1f} s of processors\n"
        self.step, self.last, self.spent = step, now, spent

    def _tell(self) -> None:
        while not self.done.wait(PERIOD):
            say(f"{self.task}: {self.step}, {time.monotonic() - self.began:.0f} s so far")
