"""Refusals: the exit code and the line of docs/ERRORS.md, and the broken rule for tools/explain."""
from dataclasses import dataclass
from typing import Any, Optional, Sequence, Tuple


class Fault(Exception):
    """A broken rule: the name of its words in copperfinch.explain.words, its place, what the words name, and notes at places.

    A place is a byte of the expanded program. In a JSON file it is a byte, or the keys and the numbers that lead to a value.
    """

    def __init__(self, rule: str, at: Any, *values: Any, notes: Sequence[Tuple[int, str]] = ()) -> None:
        super().__init__(rule)
        self.rule, self.at, self.values, self.notes = rule, at, values, list(notes)


@dataclass(eq=False)
class Refused(Exception):
    """A refusal of the whole call: exit code, line without its line feed, and the fault in one of the files."""
    status: int
    line: str
    fault: Optional[Fault] = None
    file: str = 'program'
