"""Streams, files and memory that fail: an output that takes nothing, a file that can not be read or changes, memory that ends.

Fails on a call that ends by a signal, with another line or status, or that leaves more than a beginning of its output. Fails on a program
that buffers a log, or that writes a block in parts: each block has to come by one write. Sees only the faults that this machine can make
from outside; `refused` makes each of the others in turn.
"""
from __future__ import annotations

import os
import re
import subprocess
import threading
import time
from pathlib import Path
from typing import List, Sequence

from harness import FIRST, FIRST_LOG, Ended, Group, Word, call, shell

FAULT = b"write fault\n"
# A line that begins with a bracket and the lines below it that begin with two blanks; and the begin of any such line.
BLOCK = re.compile(rb"(?m)^\[[^\n]*\n(?:  [^\n]*\n)*")
LINE_OF_BLOCK = re.compile(rb"(?m)^(?:\[|  )")
FORMS = """check P|expand P|once P pkt 5|layout P L|run whole P L S|run pipe P L S|run placed P L S Q|drive P L S|audit P L Q|snap P L S 0
gen program 0 1|gen limits 0 1|gen scene 0 1|bench 0 1"""


def run(group: Group) -> None:
    faults_of_a_stream(group)
    each_form(group)
    one_write_a_block(group)
    cut_outputs(group)
    bounds_of_memory(group)
    faults_of_a_file(group)
    pipes_as_files(group)
    moving_files(group)


def faults_of_a_stream(group: Group) -> None:
    program, expect = group.options.program, group.expect
    once: List[Word] = [program, "once", FIRST, "pkt", "5"]
    expect("a full device", shell('exec "$@" >/dev/full', *once), 10, err=FAULT)
    expect("a closed output", shell('exec "$@" >&-', *once), 10, err=FAULT)
    expect("all streams closed", shell('exec "$@" <&- >&- 2>&-', *once), 10)
    expect("a closed error stream", shell('exec "$@" 2>&-', program, "once", FIRST, "nobody", "5"), 1)
    expect("a full error stream", shell('exec "$@" 2>/dev/full', program, "picture"), 1)
    for name, before in ("nobody reads", ""), ("nobody reads, with its signal ignored", "trap '' PIPE; "):
        reader, writer = os.pipe()
        os.close(reader)
        ended = shell(before + 'exec "$@"', *once, stdout=writer)
        os.close(writer)
        expect(f"a pipe that {name}", ended, 10, err=FAULT)


def each_form(group: Group) -> None:
    """Each form of words: its output on a full device, and closed; and a folder in place of each of its files."""
    folder = group.room / "folder"
    folder.mkdir()
    files = {
        "P": FIRST,
        "L": group.file("l", "{}"),
        "S": group.file("s", '{"stop":1}'),
        "Q": group.file("q", '{"nodes":[[0,0],[0,1]]}'),
    }
    for form in FORMS.replace("\n", "|").split("|"):
        words: List[Word] = [files.get(word, word) for word in form.split()]
        group.check(f"{form}, undisturbed", group.call(*words).status == 0)
        for name, where in ("on a full device", ">/dev/full"), ("with its output closed", ">&-"):
            group.expect(f"{form}, {name}", shell(f'exec "$@" {where}', group.options.program, *words), 10, err=FAULT)
        for k, word in enumerate(words):
            if isinstance(word, Path):
                ended = group.call(*words[:k], folder, *words[k + 1 :])
                group.expect(f"{form}, with a folder as its word {k}", ended, 2, err=f"read fault: {folder}\n".encode())


def writes_of(words: Sequence[Word]) -> List[bytes]:
    """The writes of a command on its output, each at most 4,096 bytes: a pipe in packet mode gives one write at a read."""
    reader, writer = os.pipe2(os.O_DIRECT)
    child = subprocess.Popen([os.fspath(word) for word in words], stdin=subprocess.DEVNULL, stdout=writer)
    os.close(writer)
    writes = list(iter(lambda: os.read(reader, 65536), b""))
    os.close(reader)
    child.wait()
    return writes


def one_write_a_block(group: Group) -> None:
    """The logs of all commands that run events: each write is a whole block and nothing else, or has no line of a block."""
    limits = group.file("blocks.limits", "{}")
    events = ",".join('{"at":%d,"switch":0,"name":"pkt","args":[%d]}' % (at, at) for at in range(40))
    network = group.file("blocks.network", '{"stop":60,"events":[%s]}' % events)
    steps = ",".join(['["enter"],["go",0],["go",1]'] * 40)
    driven = group.file("blocks.driven", '{"stop":1,"events":[%s],"steps":[%s]}' % (events, steps))
    for words in (
        ["once", FIRST, "pkt", "5"],
        ["run", "whole", FIRST, limits, network],
        ["run", "pipe", FIRST, limits, network],
        ["drive", FIRST, limits, driven],
    ):
        writes = writes_of([group.options.program, *words])
        blocks = BLOCK.findall(b"".join(writes))
        name = " ".join(word for word in words if isinstance(word, str))
        group.check(f"{name}: all its output", b"".join(writes) == group.call(*words).out)
        lines = any(block.count(b"\n") > 1 for block in blocks)
        alone = [write for write in writes if LINE_OF_BLOCK.search(write)] == blocks
        group.check(f"{name}: one write for each block", lines and alone, writes[0][:200] if writes else "")


def is_cut(ended: Ended, whole: bytes) -> bool:
    """Whether a call ended by a write fault, with a part of the output that is neither empty nor all of it."""
    return (ended.status, ended.err) == (10, FAULT) and 0 < len(ended.out) < len(whole) and whole.startswith(ended.out)


def cut_outputs(group: Group) -> None:
    """A text of a million bytes, of which a pipe or a file takes some."""
    wide = group.file("wide", 'event e();\nhandle e() { printf("%s"); }\n' % ("0123456789 " * 90909))
    whole = group.call("once", wide, "e").out
    child = subprocess.Popen([group.options.program, "once", wide, "e"], stdout=subprocess.PIPE, stderr=subprocess.PIPE)
    begin = child.stdout.read(100)
    child.stdout.close()
    err = child.stderr.read()
    child.stderr.close()
    group.check("a pipe that is closed while it is written", is_cut(Ended(child.wait(), begin, err), whole))
    out = group.room / "out"
    limited = "trap '' XFSZ; ulimit -f 64; exec \"$@\" >" + str(out)
    ended = shell(limited, group.options.program, "once", wide, "e")
    group.check("a file that may not grow", is_cut(Ended(ended.status, out.read_bytes(), ended.err), whole), ended)


def bounded(group: Group, kilobytes: int, words: Sequence[Word]) -> Ended:
    return shell(f'ulimit -v {kilobytes}; exec "$@"', group.options.program, *words)


def bounds_of_memory(group: Group) -> None:
    """Memory that ends before anything is written, and in the midst of a log, whose pending events grow."""
    many = group.file("many", "event e(); handle e() { }\n" * 30000)
    check = ["check", many]
    whole = group.call(*check).out
    group.expect("memory that ends", bounded(group, 20000, check), 11, err=b"memory\n")
    group.expect("memory that suffices", bounded(group, 400000, check), 0, whole)
    sends = "generate e(); " * 4
    files = [
        group.file("sends", f"event e(); handle e() {{ {sends}}}\n"),
        group.file("stages", '{"stages":1}'),
        group.file("long", '{"stop":20000,"events":[{"at":0,"switch":0,"name":"e","args":[]}]}'),
    ]
    whole = group.call("run", "whole", *files).out
    ended = bounded(group, 8000, ["run", "whole", *files])
    begins = 0 < len(ended.out) < len(whole) and whole.startswith(ended.out)
    group.check("memory that ends in a log", (ended.status, ended.err) == (11, b"memory\n") and begins, ended)
    group.expect("memory that suffices for a log", bounded(group, 400000, ["run", "whole", *files]), 0, whole)


def faults_of_a_file(group: Group) -> None:
    room, expect = group.room, group.expect
    locked = group.file("locked", FIRST.read_bytes())
    locked.chmod(0)
    room.chmod(0o711)
    copied = group.file("program", group.options.program.read_bytes())
    copied.chmod(0o755)
    nobody = ["setpriv", "--reuid=65534", "--regid=65534", "--clear-groups"] if os.getuid() == 0 else []
    ended = call([*nobody, copied, "check", locked])
    expect("a file without permission", ended, 2, err=f"read fault: {locked}\n".encode())
    circle = room / "circle"
    circle.symlink_to("circle")
    for name, path in (
        ("a link to itself", circle),
        ("a name below a file", FIRST / "first"),
        ("a file whose reads fail", Path("/proc/self/mem")),
        ("a name of 4,096 bytes", Path("n" * 4096)),
        ("a name of 100,000 bytes", Path("n" * 100000)),
    ):
        expect(name, group.call("check", path), 2, err=f"read fault: {path}\n".encode())
    expect("a device without an end", group.call("check", "/dev/zero"), 3, err=b"too long: /dev/zero\n")
    expect("an empty device", group.call("check", "/dev/null"), 0, b"ok arrays 0 memops 0 events 0 handlers 0 functions 0\n")


def fed(pipe: Path, pieces: Sequence[bytes], endless: bool = False) -> threading.Thread:
    """Writes pieces into a named pipe, beside the call that reads it."""

    def feed() -> None:
        try:
            with open(pipe, "wb", buffering=0) as file:
                for piece in pieces:
                    file.write(piece)
                    time.sleep(0.05)
                while endless:
                    file.write(b";\n" * 1000)
        except BrokenPipeError:
            pass

    thread = threading.Thread(target=feed)
    thread.start()
    return thread


def pipes_as_files(group: Group) -> None:
    pipe = group.room / "pipe"
    os.mkfifo(pipe)
    text = FIRST.read_bytes()
    empty = b"ok arrays 0 memops 0 events 0 handlers 0 functions 0\n"
    for name, pieces, endless, words, status, out, err in (
        ("that gives its text in pieces", [text[:60], text[60:]], False, ["once", pipe, "pkt", "5"], 0, FIRST_LOG, b""),
        ("that gives nothing", [], False, ["check", pipe], 0, empty, b""),
        ("without an end", [], True, ["check", pipe], 3, b"", f"too long: {pipe}\n".encode()),
    ):
        feeder = fed(pipe, pieces, endless)
        group.expect(f"a pipe {name}", group.call(*words), status, out, err)
        feeder.join()


def may_end_so(ended: Ended) -> bool:
    """Whether a `check` of a file that changes meanwhile ended as it may for some text."""
    errors = {0: b"", 3: b"too long: .+\n", 4: rb"syntax: (byte|token|nesting at token) \d+\n"}
    return re.fullmatch(errors.get(ended.status, b"x"), ended.err) is not None and (ended.status == 0 or not ended.out)


def while_changed(group: Group, path: Path, change: str, turns: int) -> bool:
    """Whether this many checks of a file ended well while a loop of the shell changes it."""
    writer = subprocess.Popen(["sh", "-c", f'while :; do {change}; done', "sh", str(path)], stderr=subprocess.DEVNULL)
    try:
        return all(may_end_so(group.call("check", path)) for _ in range(turns))
    finally:
        writer.kill()
        writer.wait()


def moving_files(group: Group) -> None:
    """A file that is cut and written again and again while it is read, and one that grows past its limit."""
    line = "event packet(int a, int b);\n"
    text = group.file("text", line * 2000)
    moving = group.file("moving", "")
    change = f'cat "{text}" >"$1"; : >"$1"'
    group.check("a file that shrinks and grows", while_changed(group, moving, change, 100))
    growing = group.file("growing", (line * 40000)[:1000000])
    group.check("a file that grows", while_changed(group, growing, f'echo "{line.strip()}" >>"$1"', 50))
