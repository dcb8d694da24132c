"""Wrappers of the built program with one lie each, and for each lie the checks that must fail on it.

Fails on a check that passes under its liar or fails on another call than the table of tests/README.md says, and on a check that fails under
a wrapper without a lie. So a check that was weakened until it sees nothing, or something else, is seen itself. Sees only the lies below.
"""
from __future__ import annotations

import re
from dataclasses import dataclass
from pathlib import Path
from typing import Callable, Dict, List, Tuple

from drawn.cases import draw_case
from harness import TESTS, Group, Stopped, compile_c
from copperfinch.bounded import deeply

from . import drawn, generated, refused, rows, streams, words

# The wrapper makes the call, lets the lie change its output, its error stream and its status, and ends with these.
WRAPPER = """#!/bin/sh
program='{program}'
t=$(mktemp -d) || exit 99
trap 'rm -rf "$t"' EXIT
{before}
"$program" "$@" >"$t/out" 2>"$t/err"
code=$?
{behind}
cat "$t/err" >&2
cat "$t/out" 2>/dev/null || {{ echo 'write fault' >&2; exit 10; }}
exit $code
"""
# The program takes the place of this wrapper's shell, so its requests for memory and its writes are counted, and not those of the shell.
REPLACED = "#!/bin/sh\nprogram='{program}'\n{before}\nexec \"$program\" \"$@\"\n"
# The same in C, for requests that are refused: this wrapper makes none, so the first one is the program's.
COMPILED = """#include <signal.h>
#include <stdlib.h>
#include <unistd.h>

int main(int count, char **words)
{{
    {before}
    return count ? execv("{program}", words) : 99;
}}
"""


@dataclass(frozen=True)
class Lie:
    """A lie: shell text in front of the call or behind it, the names of the checks that must fail, and the wrapper around the text."""

    checks: List[str]
    before: str = ""
    behind: str = ""
    wrapper: str = WRAPPER


def refusal(status: int, line: str) -> str:
    """Shell text that turns an accepted call into a refusal."""
    return f'[ $code != 0 ] || {{ : >"$t/out"; echo "{line}" >"$t/err"; code={status}; }}'


def of(words_: str, text: str) -> str:
    """Shell text that applies to some commands only."""
    return f'case "$1 $2 " in {words_}) {text} ;; esac'


NO_WINDOWS = r"""sed 's/"down" *: *\[\(\[[^]]*\][, ]*\)*\]/"down":[]/' "$5" >"$t/s"; set -- "$1" "$2" "$3" "$4" "$t/s" """
WHOLE = '"$program" layout "$3" "$4" >/dev/null 2>&1 && { shift 2; set -- run whole "$@"; }'
SWAPPED = r'sed "1{\$!{h;d}};2G" "$t/out" >"$t/new" && mv "$t/new" "$t/out"'
NO_LAST_CELL = 'tac "$t/out" | sed "0,/^s[0-9]/{/^s[0-9]/d}" | tac >"$t/new" && mv "$t/new" "$t/out"'
BUFFERED = 't=$(mktemp) || exit 99; "$program" "$@" >"$t"; code=$?; cat "$t"; rm "$t"; exit $code'
BY_LINES = r"""t=$(mktemp) || exit 99; "$program" "$@" >"$t"; code=$?
while IFS= read -r line; do printf '%s\n' "$line"; done <"$t"; rm "$t"; exit $code"""
LIES: Dict[str, Lie] = {
    "refuses every layout": Lie(["rows layouts", "rows pipelines", "generated", "drawn"], behind=of("layout*|run?pipe*", refusal(7, "nofit: node 0"))),
    "accepts no program": Lie(["rows checks", "generated", "drawn"], behind=of("check*", refusal(5, "types: declaration 1 line 1"))),
    "ignores windows of links": Lie(["rows networks"], before=of("run*", NO_WINDOWS)),
    "runs `run pipe` by running handlers whole": Lie(["refused layouts", "refused pipes"], before=of("run?pipe*", WHOLE), wrapper=REPLACED),
    "accepts every placement": Lie(["rows placements"], behind=of("audit*", '[ $code != 12 ] || { code=0; : >"$t/err"; }')),
    "has no `bench`": Lie(["rows generated", "generated"], before=of("bench*", "echo usage >&2; exit 1")),
    "reports `memory` always": Lie(["rows checks", "drawn", "generated"], before="echo memory >&2; exit 11"),
    "ends by a signal": Lie(["drawn", "rows checks"], before="kill -SEGV $$"),
    "swaps two lines of a log": Lie(["rows networks"], behind=of("run*", SWAPPED)),
    "drops the last cell": Lie(["rows networks"], behind=of("run*", NO_LAST_CELL)),
    "ends with another status": Lie(["rows checks"], behind="[ $code != 6 ] || code=5"),
    "prints errors on its output": Lie(["rows refusals", "drawn"], behind='cat "$t/err" >>"$t/out"; : >"$t/err"'),
    "writes one byte more than it should": Lie(["rows accepted"], behind='[ $code != 0 ] || echo >>"$t/out"'),
    "holds a log until its end": Lie(["streams blocks"], before=BUFFERED, wrapper=REPLACED),
    "writes a block line by line": Lie(["streams blocks"], before=BY_LINES, wrapper=REPLACED),
    "ends by a signal where memory is refused": Lie(["refused requests"], 'if (getenv("REFUSE_MEMORY")) raise(SIGSEGV);', wrapper=COMPILED),
    "goes on after a refused write": Lie(["refused requests"], 'unsetenv("REFUSE_WRITE");', wrapper=COMPILED),
    "is content with a full device": Lie(["streams"], behind='cat "$t/out" 2>/dev/null || exit $code; : >"$t/out"'),
}
OF_SCRIPT = "is a script `lucid` that ends with 70"
SCRIPT_70 = "#!/bin/sh\nexit 70\n"


def of_rows(name: str) -> Callable[[Group], None]:
    def check(group: Group) -> None:
        for row in rows.read_all(group, [rows.ROWS / f"{name}.rows"]):
            rows.check_row(group, row)

    return check


def drawn_calls(group: Group) -> None:
    program, room = str(group.options.program), str(group.room)
    for number in range(100):
        case = deeply(lambda: draw_case(0, number))
        # a changed call may be one of the rows, which others add
        if not case.changed:
            group.check(f"drawn call {number}", not deeply(lambda: drawn.differs(case, program, room)))


def one_network(group: Group) -> None:
    generated.network(group, 7, 20)


def layouts(group: Group) -> None:
    refused.prepare(group)
    refused.layouts_take_memory(group)


def pipes(group: Group) -> None:
    refused.prepare(group)
    refused.pipes_take_memory(group)


def requests(group: Group) -> None:
    refused.prepare(group)
    refused.each_request(group, "once first.luc pkt 5".split(), refused.STEP)


CHECKS: Dict[str, Callable[[Group], None]] = {
    **{f"rows {name}": of_rows(name) for name in "checks layouts pipelines networks placements generated refusals".split()},
    "rows accepted": of_rows("limits"),
    "generated": one_network,
    "streams": streams.faults_of_a_stream,
    "streams blocks": streams.one_write_a_block,
    "refused layouts": layouts,
    "refused pipes": pipes,
    "refused requests": requests,
    "drawn": drawn_calls,
}
TRUTH = "tells the truth"
# Checks that count what the program asks of the machine.
DIRECT = ["refused layouts", "refused pipes", "streams blocks"]
TRUTHS = [
    Lie([name for name in CHECKS if name not in [*DIRECT, "refused requests"]]),
    Lie(DIRECT, wrapper=REPLACED),
    Lie(["refused requests"], wrapper=COMPILED),
]


def wrapper(group: Group, name: str, lie: Lie) -> Path:
    """Writes the wrapper of a lie."""
    text = lie.wrapper.format(program=group.options.program, before=lie.before, behind=lie.behind)
    name = name.replace(" ", "-").replace("`", "")
    if lie.wrapper == COMPILED:
        return compile_c(group, str(group.file(f"{name}.c", text)))
    path = group.file(name, text)
    path.chmod(0o755)
    return path


def run(group: Group) -> None:
    tasks = []
    for title, lie in [(TRUTH, truth) for truth in TRUTHS] + list(LIES.items()):
        program = wrapper(group, f"{title} {len(tasks)}", lie)
        tasks += [(title, program, name) for name in lie.checks]
    found = group.side_by_side(lambda task: failure(group, CHECKS[task[2]], program=task[1]), tasks)
    seen = {}
    for (title, _, name), failed in zip(tasks, found):
        if title == TRUTH:
            group.check(f"`{name}` passes under a wrapper without a lie", not failed, failed)
        else:
            seen[title, name] = failed
    script = group.file("lucid", SCRIPT_70)
    script.chmod(0o755)
    seen[OF_SCRIPT, "words"] = failure(group, lambda below: words.words_of_the_script(below, script))
    listed = table_of_lies()
    group.check("tests/README.md has these lies and checks", list(listed) == list(seen), sorted(set(listed) ^ set(seen)) or "in another order")
    for (title, name), failed in seen.items():
        wanted = listed.get((title, name))
        group.check(f"`{name}` refuses a program that {title}, by: {wanted}", bool(failed) and failed == wanted, failed)


def table_of_lies() -> Dict[Tuple[str, str], str]:
    """The lies and the checks of the table in tests/README.md, each with the call or the check that must fail."""
    part = (TESTS / "README.md").read_text().partition("\n## Liars\n")[2].partition("\n## ")[0]
    rows = [line.strip("| ").split(" | ") for line in part.splitlines() if line.startswith("| ")]
    return {(cells[0], cells[1].replace("`", "")): cells[2] for cells in rows[1:]}


def failure(group: Group, check: Callable[[Group], None], **options: Path) -> str:
    """The name of the first check of a part that fails with this program, without the line of a row, or an empty text."""
    try:
        check(group.under(**options))
    except Stopped as stopped:
        return re.sub(r"(?<=\.rows):\d+", "", str(stopped))
    return ""
