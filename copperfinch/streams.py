"""Files and the streams of a tool, each bounded: reading and writing raise Error, with the line that a tool prints."""
import os
import sys
from dataclasses import dataclass
from typing import Optional, Union

from .errors import Error

# The most bytes of a file that `lucid` reads, and of an answer that a tool takes.
FILE, ANSWER = 8 * 2**20, 256 * 2**20


def printable(text: str) -> str:
    """Returns a text as a terminal may show it: control characters other than tabs, and bytes that are not UTF-8, become question marks."""
    return "".join(c if c == "\t" or c.isprintable() else "?" for c in text)


def read(path: Optional[str], most: int = FILE) -> bytes:
    """Returns the bytes of a file, or of standard input if there is no path. Raises Error if it has more than `most`, so none is without an end."""
    name = "standard input" if path is None else path
    try:
        with sys.stdin.buffer if path is None else open(path, "rb") as file:
            data = file.read(most + 1)
    except (AttributeError, OSError, ValueError):  # a closed standard input is None; a path with a byte 0 is no path
        raise Error(f"{name}: it can not be read") from None
    if len(data) > most:
        raise Error(f"{name}: it is longer than {most} bytes")
    return data


def read_again(path: bytes) -> bytes:
    """Returns the bytes of a file for the second implementation, and no more than show that it is too long. Raises OSError."""
    with open(path, "rb") as file:
        return file.read(FILE + 1)


@dataclass(frozen=True)
class Source:
    """A file that was read, or a text that is given in place of one. It is read once, and may be handed on several times."""

    name: str
    data: bytes

    @staticmethod
    def of(path: str) -> "Source":
        """Reads a file."""
        return Source(path, read(path))

    def is_file(self) -> bool:
        """Whether the file can be read again under its name."""
        return os.path.isfile(self.name)


def write(text: Union[str, bytes]) -> None:
    """Writes to standard output. Raises Error if it is closed or full; nothing more is then written to it."""
    if sys.stdout is None:
        raise Error("the output can not be written: it is closed")
    data = memoryview(text.encode("utf-8", "replace") if isinstance(text, str) else text)
    try:
        while data:  # without a buffer, as with PYTHONUNBUFFERED, a write may take a part
            data = data[sys.stdout.buffer.write(data) or 0:]
        sys.stdout.buffer.flush()
    except (OSError, ValueError) as fault:
        os.dup2(os.open(os.devnull, os.O_WRONLY), 1)
        raise Error(f"the output can not be written: {getattr(fault, 'strerror', None) or 'it is closed'}") from None


def complain(text: str) -> None:
    """Writes a line to standard error, if that takes it."""
    try:
        sys.stderr.buffer.write(f"{printable(text)}\n".encode("utf-8", "replace"))
        sys.stderr.buffer.flush()
    except (AttributeError, OSError, ValueError):
        pass
