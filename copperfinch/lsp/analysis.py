"""Judges a program in a process of its own, so that the server answers meanwhile, and an input that is too hard ends only that process."""
import json
import os
import resource
import signal
from pathlib import Path
from typing import Any, Dict, List, Optional

from ..bounded import deeply
from ..explain import Explanation, explain
from ..explain.every import explain_all
from ..explain.places import Edit, Place
from ..lint import lint
from ..streams import read_again

SECONDS, MEGABYTES = 10, 1000
MOST = 200  # diagnostics
Json = Dict[str, Any]
GREATEST = b'{"stages": 32, "tables": 64, "rows": 1024, "arrays": 64, "arms": 64, "bits": 1048576}'


class Lines:
    """The lines of a text, for places as editors count them: lines from 0, and columns in units of UTF-16."""

    def __init__(self, data: bytes) -> None:
        self.data = data
        self.begins = [0]
        at = data.find(b"\n")
        while at >= 0:
            self.begins.append(at + 1)
            at = data.find(b"\n", at + 1)

    def place(self, at: int) -> Json:
        """Returns the position of a byte."""
        low, high = 0, len(self.begins)
        while high - low > 1:
            middle = (low + high) // 2
            low, high = (middle, high) if self.begins[middle] <= at else (low, middle)
        before = self.data[self.begins[low]:at].decode("utf-8", "replace")
        return {"line": low, "character": len(before.encode("utf-16-le")) // 2}

    def range(self, begin: int, end: int) -> Json:
        """Returns the range of some bytes."""
        return {"start": self.place(begin), "end": self.place(end)}

    def at(self, place: Json) -> int:
        """Returns the byte of a position; one behind the end of its line or of the text is there."""
        line, column = int(place["line"]), int(place["character"])
        if line < 0 or column < 0:
            raise ValueError("a position below 0")
        if line >= len(self.begins):
            return len(self.data)
        begin = self.begins[line]
        end = self.begins[line + 1] - 1 if line + 1 < len(self.begins) else len(self.data)
        text = self.data[begin:end].decode("utf-8", "replace")
        return begin + len(text.encode("utf-16-le")[:2 * column].decode("utf-16-le", "ignore").encode("utf-8"))


def limits_beside(path: str) -> str:
    """Returns the name of the limits file of a program."""
    return str(Path(path).with_suffix("")) + ".limits.json"


def diagnose(path: str, data: bytes, lines: Lines) -> Json:
    """Returns the diagnostics of a text with their edits, and its nodes if it is accepted."""
    limits: Optional[bytes] = None
    try:
        limits = read_again(os.fsencode(limits_beside(path)))
    except (OSError, ValueError):
        pass
    files = {"program": data, "limits": limits if limits is not None else GREATEST}
    words = ["check", "program"] if limits is None else ["layout", "program", "limits"]

    def read(name: bytes) -> bytes:
        return files[name.decode()]

    found = [refused(one, lines) for one in explain_all(words, read, MOST)]
    nodes: List[Json] = []
    if not found:
        found = [warned(one.name, one.place, one.text, one.remedy, one.page, one.edits, lines) for one in lint(words, read)[:MOST]]
        nodes = explain(["layout", "program", "limits"], read).nodes
    return {"found": found, "nodes": nodes, "has_limits": limits is not None}


def refused(one: Explanation, lines: Lines) -> Json:
    """Returns the diagnostic of a refusal. One of the limits is at the first byte of the program."""
    words, place = one.words, one.place
    is_here = place is not None and place.file == "program"
    text = [words.problem if is_here or place is None else f"{place.head()}: {words.problem}", f"rule: {words.rule}", f"remedy: {words.remedy}"]
    notes = [f"{note.line}:{note.column}: {said}" for note, said in one.notes]
    return item(1, one.refusal.partition(":")[0], place if is_here else None, "\n".join([*text, *notes, *one.details]), one.edits, lines)


def warned(name: str, place: Place, text: str, remedy: str, page: str, edits: List[Edit], lines: Lines) -> Json:
    """Returns the diagnostic of a warning."""
    return item(2, name, place, f"{text}\nremedy: {remedy}\npage: {page}", edits, lines)


def item(severity: int, code: str, place: Optional[Place], text: str, edits: List[Edit], lines: Lines) -> Json:
    """Returns a diagnostic, and the edits that end it."""
    where = lines.range(place.at, max(place.end, place.at)) if place is not None else lines.range(0, 0)
    changes = [{"range": lines.range(edit.start, edit.end), "newText": edit.text} for edit in edits]
    return {"diagnostic": {"range": where, "severity": severity, "code": code, "source": "lucid", "message": text}, "edits": changes}


class Analysis:
    """The analysis of a version of a text, which runs until its pipe is read to the end or `close` is called."""

    def __init__(self, path: str, data: bytes) -> None:
        self.pipe, end = os.pipe()
        self.got = b""
        self.child = os.fork()
        if self.child == 0:
            work(path, data, end)
        os.close(end)

    def read(self) -> Optional[Json]:
        """Takes what the pipe has. Returns what was found, as soon as all of it is there."""
        more = os.read(self.pipe, 2**20)
        self.got += more
        if more:
            return None
        self.close()
        try:
            made = json.loads(self.got.decode())
            return made if isinstance(made, dict) else None
        except ValueError:
            text = f"not judged: it takes more than {SECONDS} s of a processor or {MEGABYTES} MB"
            return {"found": [item(3, "bounds", None, text, [], Lines(b""))], "nodes": [], "has_limits": False}

    def close(self) -> None:
        """Ends the process, if it still runs."""
        if self.child:
            os.kill(self.child, signal.SIGKILL)
            os.waitpid(self.child, 0)
            os.close(self.pipe)
            self.child = 0


def work(path: str, data: bytes, end: int) -> None:
    """Judges a text in the process that was forked, writes what was found, and ends it."""
    status = 1
    try:
        resource.setrlimit(resource.RLIMIT_CPU, (SECONDS, SECONDS))
        made = json.dumps(deeply(lambda: diagnose(path, data, Lines(data)), None, MEGABYTES)).encode()
        with os.fdopen(end, "wb") as file:
            file.write(made)
        status = 0
    except BaseException:  # the server says that there is no answer
        pass
    finally:
        os._exit(status)
