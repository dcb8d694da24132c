"""Reads the files of tests/rows, whose form tests/rows/README.md describes."""
from __future__ import annotations

import re
from dataclasses import dataclass, field
from pathlib import Path
from typing import Dict, List, Optional, Tuple

from harness import TESTS, Ended
from copperfinch.model.values import fnv

ROWS = TESTS / "rows"
Sum = Tuple[int, int]


@dataclass(frozen=True)
class Row:
    """One call: the files of its folder, its words, and how it must end."""

    path: Path
    line: int
    title: str
    files: Dict[str, bytes]
    words: List[str]
    status: int
    out: bytes
    err: bytes
    accepts: bool = False
    sum: Optional[Sum] = None

    @property
    def name(self) -> str:
        return f"{self.path.name}:{self.line}"

    def holds(self, ended: Ended) -> bool:
        """Whether the call ended as it must. An accepted text (`+`) leaves an output of this length and this hash."""
        if self.accepts:
            return ended.status == 0 and ended.err == b"" and self.sum == sum_of(ended.out)
        return ended == Ended(self.status, self.out, self.err)

    def read(self, name: bytes) -> bytes:
        """Reads a file of the row, as the second implementation asks for it."""
        found = self.files.get(name.decode("utf-8", "surrogateescape"))
        if found is None:
            raise OSError(name)
        return found

    def bytes_read(self) -> int:
        return sum(len(self.files.get(word, b"")) for word in self.words)


def sum_of(out: bytes) -> Sum:
    """The length and the hash that stand for an output."""
    return len(out), fnv(out)


def copies(part: str, count: int) -> str:
    """This many copies of a part; `#` in it is the number of the copy, and `##` the next one."""
    if "#" not in part:
        return part * max(count, 0)
    return "".join(part.replace("##", str(k + 1)).replace("#", str(k)) for k in range(count))


def spelled_out(text: str) -> str:
    """The text with each «COUNT:PART» and each byte «0xHH» written out, the inner ones first."""
    while "»" in text:
        end = text.index("»")
        start = text.rindex("«", 0, end)
        count, colon, part = text[start + 1 : end].partition(":")
        made = copies(part, int(count)) if colon else bytes([int(count, 16)]).decode("utf-8", "surrogateescape")
        text = text[:start] + made + text[end + 1 :]
    return text


def encoded(text: str) -> bytes:
    return spelled_out(text).encode("utf-8", "surrogateescape")


@dataclass
class Reader:
    """The state while a file is read, line by line. `open` is the call or the part whose lines are being read."""

    path: Path
    rows: List[Row] = field(default_factory=list)
    unread: List[int] = field(default_factory=list)
    title: str = ""
    files: Dict[str, str] = field(default_factory=dict)
    file: str = ""
    mode: str = "none"
    open: str = ""
    line: int = 0
    words: str = ""
    status: int = 0
    out: str = ""
    err: str = ""
    sign: str = ""
    part: str = ""
    sum: Optional[Sum] = None

    def finish(self) -> None:
        """Adds the row of the call or of the part that is open."""
        accepts = self.open == "part" and self.sign == "+"
        if self.open:
            files = {
                name: encoded(text.replace("@", self.part) if self.open == "part" else text) for name, text in self.files.items()
            }
            status = 0 if accepts else self.status
            err = b"" if accepts else encoded(self.err)
            words = spelled_out(self.words).split()
            self.rows.append(
                Row(self.path, self.line, self.title, files, words, status, encoded(self.out), err, accepts, self.sum)
            )
        self.open, self.sum = "", None

    def begin_file(self, name: str, text: str) -> None:
        self.file = name
        self.files[name] = text + "\n" if text else ""
        self.mode = "none" if text else "file"

    def begin_block(self, title: str) -> None:
        self.finish()
        self.title, self.files = title, {}
        self.begin_file("p", "")

    def begin_call(self, words: str, number: int) -> None:
        self.finish()
        self.words, self.line, self.status, self.out, self.err = words, number, 0, "", ""
        self.open = self.mode = "call"

    def begin_part(self, line: str, number: int) -> None:
        if self.mode == "parts":
            self.finish()
        self.sign, self.part, self.line = line[0], line[2:], number
        self.open, self.mode = "part", "parts"

    def refusal(self, line: str) -> None:
        """The status and the error line of a call, or of the parts below."""
        if self.mode == "parts":
            self.finish()
        status, _, err = line[2:].partition(" ")
        self.status, self.err = int(status), err + "\n"

    def take(self, line: str, number: int) -> None:
        file = re.match(r"-- (\S+) =(?: (.*)|$)", line)
        if line.startswith("# "):
            return
        if re.match(r"==( |$)", line):
            self.begin_block(line[3:])
        elif file:
            self.finish()
            self.begin_file(file.group(1), file.group(2) or "")
        elif re.match(r"--( |$)", line):
            self.begin_call(line[3:], number)
        elif self.mode == "file":
            self.files[self.file] += line + "\n"
        elif line.startswith("! ") and self.mode in ("call", "parts"):
            self.refusal(line)
        elif re.match(r"[+-]( |$)", line) and (self.mode == "parts" or self.mode == "call" and not self.out):
            self.begin_part(line, number)
        elif re.match(r"[|]( |$)", line) and self.open == "part":
            self.part += "\n" + line[2:]
        elif line.startswith("= ") and self.open == "part" and self.sign == "+":
            length, hash_ = line[2:].split()
            self.sum = int(length), int(hash_, 16)
        elif self.mode == "call":
            self.out += line + "\n" if line else ""
        elif line:
            self.unread.append(number)


def read(path: Path) -> str:
    """The text of a file byte by byte, with its carriage returns, which a file that is opened as text loses."""
    return path.read_bytes().decode("utf-8", "surrogateescape")


def read_rows(path: Path) -> Tuple[List[Row], List[int]]:
    """The rows of a file, and the numbers of lines that have no meaning in it."""
    reader = Reader(path)
    text = read(path)
    for number, line in enumerate(text.split("\n"), 1):
        reader.take(line, number)
    reader.finish()
    return reader.rows, reader.unread


def all_rows() -> List[Row]:
    """The rows of tests/rows."""
    return [row for path in sorted(ROWS.glob("*.rows")) for row in read_rows(path)[0]]


def write_sums(path: Path, sums: Dict[int, str]) -> None:
    """Puts the line of a sum behind the text to which it belongs, whose `+` is on the line of that number."""
    lines = read(path).split("\n")
    for number in sorted(sums, reverse=True):
        behind = number
        while lines[behind].startswith("|"):
            behind += 1
        lines.insert(behind, sums[number])
    path.write_bytes("\n".join(lines).encode("utf-8", "surrogateescape"))
