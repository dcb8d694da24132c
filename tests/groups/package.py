"""The package copperfinch: its types, the examples of docs/PYTHON.md, its installation, and faults and bounds of its commands.

Each fault gives one line on standard error and exit code 1, or the explained refusal. Seen to fail, on the tools before this package or on a
change: a traceback for a full or closed output, a closed input, a name that is no UTF-8, a number of 2^64, a layout without tables, a program
that is a pipe, a key with an escape; a page with rounded numbers; first fit that nobody asked for (10 KB took 12 s); an example with another
output; a function without types; a recursion limit that is set back below a thread that is deeper, which ends the process.
"""
from __future__ import annotations

import os
import re
import signal
import subprocess
import sys
import time
from pathlib import Path
from typing import Any, Dict, List

import pytest

from harness import EXAMPLES, TOP, Ended, Group, call, compile_c, measure, with_variables

from copperfinch.bounded import Exceeded, deeply
from copperfinch.draw.log import Choice, LogPicture
from copperfinch.files import FileEvent, Limits, Scene
from copperfinch.log import Event, Log
from copperfinch.network import trace
from copperfinch.page import handlers_of
from copperfinch.program import Program, ProgramError
from copperfinch.streams import Source

from .hostile import SHAPES

SYSTEM = Path("/usr/bin/python3")
# 10 KB whose first fit takes minutes in Python, and whose `check` takes milliseconds.
RETURNS = "".join(f"global Array.t<<8>> g{k} = Array.create(1);" for k in range(64)) + "event e(int z);handle e(int z){" + "".join(
    f"if(z=={k}){{Array.set(g{k % 64},0,0);return;}}" for k in range(200)) + "}"
LOG = b"[0] s0 question(1,18446744073709551616)\nentered 1 lost 0 pending 0\n"


def test_types(group: Group) -> None:
    """mypy --strict passes, and refuses a function without types."""
    mypy = [SYSTEM if SYSTEM.exists() else sys.executable, "-m", "mypy", "--config-file", TOP / "pyproject.toml", "--cache-dir", group.room / "cache"]
    if b"No module named mypy" in call([*mypy, "--version"]).err:
        pytest.skip("mypy is not installed; tests/setup installs it")
    made = call([*mypy, TOP / "copperfinch", TOP / "tools/lucid_build"], cwd=TOP)
    group.check("mypy --strict over the package and tools/lucid_build", made.status == 0, made.out.decode()[-300:])
    wrong = call([*mypy, group.file("wrong.py", "def double(n):\n    return 2 * n\n")], cwd=TOP)
    group.check("mypy refuses a function without types", wrong.status == 1 and b"no-untyped-def" in wrong.out, wrong)


def test_page_of_examples(group: Group) -> None:
    """Each block of docs/PYTHON.md prints what it shows, in the checkout."""
    text = (TOP / "docs/PYTHON.md").read_text()
    blocks = re.findall(r"^```python\n(.*?)^```$", text, re.M | re.S)
    group.check("the page is at most 8 KB and has examples", len(text) <= 8192 and len(blocks) >= 6, (len(text), len(blocks)))
    lines = "".join(blocks).replace('Path("scenario.json")', f"Path({str(group.room / 'scenario.json')!r})")
    script = group.file("page.py", PAGE)
    ended = call([sys.executable, "-B", script, TOP, group.file("page.txt", lines)], cwd=TOP, env=with_variables(LUCID=group.options.program, PYTHONPATH=TOP))
    group.check("the examples of docs/PYTHON.md", ended.status == 0, ended.out.decode()[-1500:] + ended.err.decode()[-500:])
    wrong = call([sys.executable, "-B", script, TOP, group.file("wrong.txt", ">>> 1 + 1\n3\n")], cwd=TOP, env=with_variables(PYTHONPATH=TOP))
    group.check("an example that prints something else fails", wrong.status == 1, wrong)


PAGE = """import doctest, sys
from pathlib import Path
test = doctest.DocTestParser().get_doctest(Path(sys.argv[2]).read_text(), {}, "PYTHON.md", None, 0)
sys.exit(min(1, doctest.DocTestRunner().run(test).failed))
"""


def test_installed(group: Group) -> None:
    """An installation into a fresh environment works in any folder, and takes nothing of the checkout."""
    source, python = group.room / "source", group.room / "venv/bin/python"
    source.mkdir()
    for name in ("copperfinch", "pyproject.toml", "VERSION", "README.md", "LICENSE"):
        subprocess.run(["cp", "-r", TOP / name, source], check=True)
    base = SYSTEM if SYSTEM.exists() else sys.executable
    subprocess.run([base, "-m", "venv", "--system-site-packages", "--without-pip", group.room / "venv"], check=True)
    made = call([python, "-m", "pip", "install", "-q", "--no-build-isolation", "--no-deps", "--no-index", "./source"], cwd=group.room)
    if not group.check("pip install", made.status == 0, made.err.decode()[-300:]):
        return
    tool, env = group.room / "venv/bin/lucid-tools", with_variables(LUCID=group.options.program)
    explained = call([tool, "explain", EXAMPLES / "crossed.luc"], cwd=group.room, env=env)
    group.check("lucid-tools explain", explained.status == 6 and b"remedy: " in explained.out, explained)
    files = [EXAMPLES / f"nat{ending}" for ending in (".luc", ".limits.json", ".scenario.json")]
    page = call([tool, "page", *files], cwd=group.room, env=env)
    group.check("lucid-tools page", page.status == 0 and page.out.startswith(b"<!DOCTYPE html>"), page)
    where = call([python, "-c", "import copperfinch; print(copperfinch.__file__)"], cwd=group.room).out.decode()
    group.check("the package is the installed one", str(group.room) in where, where)
    nothing = call([tool, "page", *files], cwd=group.room, env={"PATH": "/nowhere"})
    group.check("no program", nothing.status == 1 and nothing.err.count(b"\n") == 1 and b"--lucid" in nothing.err, nothing)


def tool(group: Group, line: str, **how: Any) -> Ended:
    """Runs a line of the shell in the group's folder, in which `tools` and `examples` are links."""
    for name in ("tools", "examples"):
        if not (group.room / name).exists():
            (group.room / name).symlink_to(TOP / name)
    return call(["bash", "-c", line], cwd=group.room, env=with_variables(LUCID=group.options.program, PYTHONDONTWRITEBYTECODE=1), **how)


FAULTS: Dict[str, str] = {
    "a full output": "tools/{} > /dev/full", "a closed output": "tools/{} >&-", "--help to a full output": "tools/{} --help > /dev/full",
}
CALLS = {
    "explain": "explain examples/crossed.luc", "where": "where examples/crossed.luc token 1", "json": "json log log",
    "picture": "picture layout empty layout", "scenario": "scenario dns 10 1", "examples-table": "examples-table",
    "fmt": "fmt examples/first.luc", "watch": "watch examples/first.luc --times 1", "page": "page examples/first.luc empty scene",
}


def test_faults(group: Group) -> None:
    """A fault of a file or a stream is one line and exit code 1 in each tool."""
    files(group)
    for name, words in CALLS.items():
        for fault, form in FAULTS.items():
            one_line(group, f"{name}: {fault}", tool(group, form.format(words if "--help" not in form else name)))
    for words in ("json log none", "json log .", "json log /dev/zero", "json log <&-", "json log bytes", "json log cut", "picture log empty scene none",
                  "where none token 1", "where . token 1", "page none empty scene", "page examples/first.luc . scene", "picture layout bytes layout"):
        one_line(group, f"tools/{words}", tool(group, f"tools/{words}"))
    one_line(group, "a closed pipe", tool(group, "trap '' PIPE; tools/scenario dns 20000 1 | head -c 1 >/dev/null; exit ${PIPESTATUS[0]}"))
    for name in ("none", "."):
        ended = tool(group, f"tools/explain {name}")
        group.check(f"explain of {name}", ended.status == 2 and ended.out.startswith(b"read fault: ") and not ended.err, ended)
    odd = tool(group, "cp examples/crossed.luc $'y\\xff.luc'; tools/explain $'y\\xff.luc'")
    group.check("explain of a name that is no UTF-8", odd.status == 1 and odd.out.startswith(b"usage\n") and not odd.err, odd)
    odd = tool(group, "tools/where $'y\\xff.luc' token 1")
    group.check("where of a name that is no UTF-8", odd.status == 0 and odd.out.startswith(b"y?.luc:2:1\n"), odd)
    piped = tool(group, "tools/explain <(cat examples/crossed.luc)")
    group.check("explain of a file that can be read once", piped.status == 6 and b"remedy: swap" in piped.out and not piped.err, piped)
    page = tool(group, "tools/page <(cat examples/first.luc) <(cat empty) <(cat scene)")
    group.check("page of files that can be read once", page.status == 0 and b"</html>" in page.out, page)
    shown = tool(group, "tools/explain examples/first.luc escape")
    group.check("control characters of a key", shown.status == 8 and b"\x1b" not in shown.out and b"no key no key" not in shown.out, shown)
    for name in ("firewall", "dns", "nat"):
        ended = tool(group, f"examples/{name}.check large")
        group.check(f"{name}.check of a number of 2^64", ended.status == 1 and ended.out.startswith(b"broken: line 1 ") and not ended.err, ended)


def files(group: Group) -> None:
    """The files of the calls above."""
    texts: Dict[str, bytes] = {
        "log": b"entered 0 lost 0 pending 0\n", "cut": b"[0] s0 e(", "bytes": b"\xff\xfe\n", "empty": b"{}", "large": LOG,
        "scene": b'{"stop":10,"events":[{"at":0,"switch":0,"name":"pkt","args":[1]}]}', "escape": b'{"stages\\u001b[31m": 1}',
        "layout": b"ops 0 bits 96 nodes 0\n",
    }
    for name, text in texts.items():
        group.file(name, text)


def one_line(group: Group, name: str, ended: Ended) -> None:
    """Checks that a call ended with 1 and one line."""
    group.check(name, ended.status == 1 and ended.err.count(b"\n") == 1 and b"Traceback" not in ended.err, ended)


def test_interrupted(group: Group) -> None:
    """An interrupt is one line and exit code 1."""
    shape = SHAPES["8 matches of 16"]  # takes all its seconds, and little memory
    files = [group.file(name, text) for name, text in shape.files(shape.size)]
    process = subprocess.Popen([TOP / "tools/explain", *files, "--nodes", "--lucid", group.options.program], stdin=subprocess.DEVNULL, stdout=subprocess.PIPE, stderr=subprocess.PIPE)
    while not is_deep(process.pid):
        time.sleep(0.05)
    process.send_signal(signal.SIGINT)
    out, err = process.communicate(timeout=120)
    one_line(group, "an interrupt", Ended(process.returncode, out, err))


def is_deep(pid: int) -> bool:
    """Whether a process works in its thread, or has ended."""
    try:
        return len(os.listdir(f"/proc/{pid}/task")) > 1
    except OSError:
        return True


def test_answers_without_end(group: Group) -> None:
    """An answer beyond its bound ends the program that prints it."""
    loud = group.file("loud", "#!/bin/sh\nexec cat /dev/zero\n")
    loud.chmod(0o755)
    begin = time.process_time()
    cut = Program(str(loud)).call("check", "p", most=1000)
    group.check("a cut answer", cut.is_cut and len(cut.out) == 1000, cut.status)
    with pytest.raises(ProgramError) as refused:
        Program(str(group.options.program)).check(EXAMPLES / "crossed.luc")
    fault = refused.value
    group.check("a refusal has its status, line and place", (fault.status, fault.line, fault.place and fault.place.line) ==
                (6, "order: declaration 4 line 5 cycle x y", 5), (fault.status, fault.line, fault.place))
    explained = group.tool("explain", EXAMPLES / "first.luc", "--lucid", loud)
    group.check("explain of a program without an end", explained.status == 0 and time.process_time() - begin < 60, explained)


def test_bounds(group: Group) -> None:
    """`explain` is bounded: it places no nodes unless asked, and leaves out what takes too long, with the program's own line."""
    program = group.file("returns.luc", RETURNS)
    ended = group.tool("explain", program, "--lucid", group.options.program)
    group.check("explain without a placement", (ended.status, ended.out) == (0, b"nothing is refused\n"), ended)
    limits = group.file("big.json", '{"stages":32,"tables":64,"rows":1024,"bits":1048576,"arrays":64,"arms":64}')
    began = os.times()
    ended = group.tool("explain", program, limits, "--nodes", "--lucid", group.options.program)
    spent = os.times()
    group.check("explain leaves out what takes too long", b"left out: " in ended.out and b"Traceback" not in ended.err, ended)
    seconds = spent.children_user + spent.children_system - began.children_user - began.children_system
    group.check("explain takes at most 20 seconds of processors", seconds < 20, seconds)
    with pytest.raises(Exceeded):
        deeply(lambda: [0] * 10**9, megabytes=300)
    group.check("deep work", deeply(lambda: depth(50000)) == 50000)


# Of the inputs within every limit those that the gate explains: one that is nested deep, one that wants memory, one that wants time.
HARD = "10,000 early returns", "8 MiB of deep lists", "8 matches of 16"


def test_hostile(group: Group) -> None:
    """`explain` answers each input of the group `hostile` in 10 s and in 500 MB or what the program needs: in full, or with the
    part that it left out. Most of them with --whole."""
    spent, tools = compile_c(group, "spent.c"), TOP / "tools/explain"
    for name in SHAPES if group.options.whole else HARD:
        shape = SHAPES[name]
        for file, text in shape.files(shape.size):
            group.file(file, text)
        words = [word for word in shape.words if word in ("p", "l", "s")]
        for asked in [[], ["--nodes"]] if group.options.whole or name == HARD[0] else [[]]:
            found = measure(spent, [tools, *words, *asked, "--lucid", group.options.program], group.room)
            out, title = found.ended.out, f"explain {name} {' '.join(asked)}"
            is_told = bool(asked) or out == b"nothing is refused\n" or b"\nremedy: " in out or b"left out: " in out
            group.check(f"{title}: its answer", found.ended.status == shape.status and is_told, found.ended)
            group.check(f"{title}: its bounds", found.seconds <= 10 + 9 * group.options.whole and found.megabytes <= max(500, shape.megabytes), found)


def depth(count: int) -> int:
    """Calls itself so many times."""
    return 0 if count == 0 else 1 + depth(count - 1)


def test_shapes(group: Group) -> None:
    """Pictures and pages: no tables, numbers above 2^53, many events, many handlers."""
    empty, layout = group.file("l.json", "{}"), group.file("layout", "ops 0 bits 96 nodes 0\n")
    ended = group.tool("picture", "layout", empty, layout)
    group.check("a layout without tables", ended.status == 0 and ended.out.startswith(b"<svg"), ended)
    program = group.file("wide.luc", "global Array.t<<64>> last = Array.create(4);event pkt(int<<64>> n);handle pkt(int<<64>> n){Array.set(last,1,n);}")
    large = [2**64 - 1, 2**53 + 1]
    scene = group.file("wide.json", Scene(1, 40, events=[FileEvent(at, 0, "pkt", (n,)) for at, n in enumerate(large)]).text())
    made = group.tool("page", program, empty, scene, "--lucid", group.options.program)
    wanted = [f'"label":"pkt({n})"'.encode() for n in large] + [f'"{2**53 + 1}"]'.encode()]
    group.check("a page keeps numbers of 64 bits", made.status == 0 and all(it in made.out for it in wanted), made)
    group.check("a log of 4,000 events is drawn in linear time", growth(draw_events, 1000, 4000) < 10)
    group.check("handlers of 20,000 events in linear time", growth(lambda n: handlers_of(b"event e();handle e(){}\n" * n), 5000, 20000) < 10)


def draw_events(count: int) -> None:
    """Draws a log of so many events, of which each is of the scenario."""
    scene, limits = Scene(1, count + 1, events=[FileEvent(at, 0, "e") for at in range(count)]), Limits(4, 4, 4, 4, 4, 1000, 0)
    log = Log([Event(at, 0, "e", (), at + 1) for at in range(count)], [], (count, 0, 0))
    LogPicture(trace(log, limits, scene), limits, scene, Choice()).draw()


def growth(work: Any, few: int, many: int) -> float:
    """How many times longer work takes for many than for few, in processor seconds."""
    took: List[float] = []
    for count in (few, many):
        begin = time.process_time()
        work(count)
        took.append(time.process_time() - begin)
    return took[1] / max(took[0], 0.01)
