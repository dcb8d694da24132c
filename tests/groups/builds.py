"""`tools/prove`: its plan, and builds of small crates with a kit that only says that it proves them.

Sees no proofs, and nothing of what a kit keeps. Seen to fail:
- run: a plan for one job, minutes of a processor that are seconds
- whole: a program without its record; a copy with the tests, the wrong bodies or the out/ of a crate; a copy that is no repository; a program that stays in the copy; other
  words for rt; another line of progress; a folder that stays
- script: a --prove that builds what is built, or nothing at all
- wrong: a build that goes on after a crate that is not proved, ends with 0, or shows the lines of another crate
- interrupted: SIGTERM or SIGHUP without its handler, an rt that outlives the build, another status at an interrupt, a crate that was kept and is
  not counted
"""
from __future__ import annotations

import os
import re
import shutil
import signal
import subprocess
import sys
import time
from pathlib import Path
from typing import List, Tuple

from harness import TOP, Group, call, with_variables
from standin import tool_file

# A crate and those that it depends on. The program needs all but `tests`.
CRATES = {"low": "", "side_a": "low", "side_b": "low", "top": "side_a side_b", "lucid_main": "top", "tests": "top"}
PROGRAM = [crate for crate in CRATES if crate != "tests"]
# `rt ci` says of each crate that it is proved, in a moment, and links the program. It keeps beside itself what it proved, and writes down
# its process and what is in its folder.
KIT = """#!/bin/sh
[ "$1" != version ] || { echo a kit; exit; }
here=${0%/*}
echo $$ >"$here/process"
{ echo "rt $* $RT_JOBS"; find . | LC_ALL=C sort; cat crates.txt; } >"$here/call"
for name in $(sed -n 's/^\\([a-z_]*\\):.*/\\1/p' crates.txt); do
    if [ -e "$here/kept-$name" ]; then
        echo "rt: $name is kept: an earlier run on this machine proved the same files over the same libraries"
        continue
    fi
    sleep 0.3
    echo "== $name"
    for number in 1 2 3 4 5 6; do echo "$name says $number"; done
    [ ! -e "$here/wrong-$name" ] || { echo "rt: $name NOT PROVED"; sleep 60; exit 1; }
    touch "$here/kept-$name"
    echo "rt: $name proved"
done
[ ! -e "$here/wrong" ] || { echo "a program that differs"; exit 1; }
mkdir -p crates/lucid_main/out
echo built >crates/lucid_main/out/lucid_main
chmod +x crates/lucid_main/out/lucid_main
"""
PROGRESS = r"lucid: [0-9]+ of 5 crates built; 0 min gone, about [0-9]+ min left"
PLAN = r"([0-9]+) crates, ([0-9.]+) min of a processor, longest chain ([0-9.]+) min, with 4 jobs ([0-9.]+) min\n"
SIGNALS = {"stopped": signal.SIGTERM, "at the terminal": signal.SIGINT, "without its terminal": signal.SIGHUP, "killed": signal.SIGKILL}


def run(group: Group) -> None:
    ended = group.tool("prove", "--plan", "4")
    plan = re.match(PLAN, ended.out.decode())
    fits = plan is not None and float(plan[2]) / 4 <= float(plan[4]) <= 25 and float(plan[3]) <= float(plan[4])
    group.check("the plan of four jobs is at most 25 minutes", fits, ended)
    whole(group)
    wrong(group)
    for name in SIGNALS:
        interrupted(group, name)


def project(group: Group, name: str) -> Path:
    """A checkout of small crates with tools/prove and that kit. A crate has a source, a wrong body and a library."""
    top = group.room / name.replace(" ", "-")
    for folder in ("tools", "tests", "rooms"):
        (top / folder).mkdir(parents=True)
    for crate in CRATES:
        for path in ("src/lib.rt", "must-fail/a.edit", "out/rlib/stamp"):
            (top / f"crates/{crate}/{path}").parent.mkdir(parents=True)
            (top / f"crates/{crate}/{path}").touch()
    for name in ("prove", "record", "compile"):
        shutil.copy2(TOP / "tools" / name, top / "tools")
    shutil.copytree(TOP / "tools/lucid_build", top / "tools/lucid_build", ignore=shutil.ignore_patterns("__pycache__"))
    (top / "crates.txt").write_text("# A note.\n" + "".join(f"{crate}: {low}\n" for crate, low in CRATES.items()))
    (top / "HANDLES").touch()
    (top / "tests/seconds").write_text("low 1\nside_b 200\n")
    tool_file(top / "bin/rt", KIT)
    return top


def begin(top: Path) -> "subprocess.Popen[bytes]":
    """A build whose copy is in a folder of the project. It takes an interrupt also if the gate runs in the background."""
    env = with_variables(PATH=f"{top}/bin:{os.environ['PATH']}", TMPDIR=top / "rooms")
    heed = lambda: signal.signal(signal.SIGINT, signal.SIG_DFL)
    pipe = subprocess.PIPE
    return subprocess.Popen([sys.executable, top / "tools/prove", "4"], env=env, stdout=pipe, stderr=pipe, start_new_session=True, preexec_fn=heed)


def build(top: Path) -> Tuple[int, List[str]]:
    """The status of a build, and what it says."""
    process = begin(top)
    lines = process.communicate(timeout=120)[1].decode().splitlines()
    return process.returncode, lines


def is_running(top: Path) -> bool:
    """Whether rt still runs, a moment after it should have ended."""
    time.sleep(0.5)
    status = Path(f"/proc/{(top / 'bin/process').read_text().strip()}/status")
    return status.exists() and "State:\tZ" not in status.read_text()


def whole(group: Group) -> None:
    top = project(group, "whole")
    status, lines = build(top)
    said = f"lucid: the proved program is {top}/crates/lucid_main/out/lucid_main"
    group.check("a build says where the program is", lines[-1:] == [said], lines)
    lines = lines[:-1]
    made = top / "crates/lucid_main/out/lucid_main"
    group.check("a build", status == 0 and made.exists() and made.read_text() == "built\n", lines)
    folders = [path for crate in sorted(PROGRAM) for path in (crate, f"{crate}/src", f"{crate}/src/lib.rt")]
    copied = [".", "./.git", "./HANDLES", "./crates", "./crates.txt", *(f"./crates/{path}" for path in folders)]
    wanted = ["rt ci 4", *copied, *(f"{crate}: {CRATES[crate]}" for crate in PROGRAM)]
    call = (top / "bin/call").read_text().splitlines()
    group.check("rt gets the crates of the program", call == wanted, call)
    group.check("a line for each crate", len(lines) > len(PROGRAM) // 2 and all(re.fullmatch(PROGRESS, it) for it in lines), lines)
    group.check("no copy stays", os.listdir(top / "rooms") == [])
    group.check("what was there stays", (top / "crates/low/out/rlib/stamp").exists())
    record = made.with_name("lucid_main.record")
    lines = record.read_text().splitlines() if record.exists() else []
    group.check("a record of kit, sources and program", [line.split()[0] for line in lines] == ["kit", "sources", "program"], lines)
    script(group, top)


def script(group: Group, top: Path) -> None:
    """`./lucid --prove` builds a program of these sources once, and it is called proved."""
    for name in ("lucid", "VERSION"):
        shutil.copy2(TOP / name, top)
    shutil.copy2(TOP / "tools/jobs", top / "tools")
    env = with_variables(PATH=f"{top}/bin:{os.environ['PATH']}", TMPDIR=top / "rooms")
    made = f"lucid: the proved program is {top}/crates/lucid_main/out/lucid_main"
    for what, calls in (("a changed source", True), ("the same sources", False)):
        if calls:
            (top / "crates/low/src/lib.rt").write_text("// new\n")
        (top / "bin/call").unlink(missing_ok=True)
        ended = call([top / "lucid", "--prove"], cwd=top, env=env)
        group.check(f"--prove of {what}: the program", ended.status == 0 and ended.err.decode().splitlines()[-1:] == [made], ended)
        group.check(f"--prove of {what}: calls of the kit", (top / "bin/call").exists() == calls, ended)
    group.check("the program is called proved", b"\nprogram proved\n" in call([top / "lucid", "--version"], env=env).out)
    (top / "tests/seconds").unlink()
    ended = call([top / "tools/prove", "--plan", "4"], env=env)
    group.check("a plan without tests/", ended.status == 0 and ended.out.startswith(b"5 crates, 5.0 min "), ended)
    with open("/dev/full", "wb") as full:
        ended = call([top / "tools/prove", "--plan", "4"], env=env, stdout=full)
    group.check("a plan on a full device", ended.status == 70 and ended.err == b"lucid: No space left on device: standard output\n", ended)


def wrong(group: Group) -> None:
    for name, mark, last in (("a crate that is not proved", "wrong-side_b", "side_b"), ("a program that is refused", "wrong", "the program")):
        top = project(group, name)
        (top / "bin" / mark).touch()
        began = time.monotonic()
        status, lines = build(top)
        shown = [f"side_b says {number}" for number in range(2, 7)] if last == "side_b" else ["a program that differs"]
        group.check(f"{name}: status", status == 70 and time.monotonic() - began < 30, (status, lines))
        at = next((number for number, line in enumerate(lines) if not re.fullmatch(PROGRESS, line)), 0)
        group.check(f"{name}: message", lines[at] == f"lucid: {last} could not be built; {top}/out/prove.log has:", lines)
        group.check(f"{name}: the last lines", lines[-len(shown) :] == shown and len(lines) <= at + 6, lines)
        group.check(f"{name}: nothing stays", os.listdir(top / "rooms") == [] and not is_running(top))


def interrupted(group: Group, name: str) -> None:
    """A build that is stopped or killed ends rt, too. A later build counts the crates that the kit has kept."""
    top, number = project(group, name), SIGNALS[name]
    process = begin(top)
    kept = lambda: len(list((top / "bin").glob("kept-*")))
    for _ in range(600):
        if kept() >= 2:
            break
        time.sleep(0.02)
    os.kill(process.pid, number)
    process.communicate(timeout=60)
    group.check(f"a build is {name} in the middle", process.returncode in (128 + number, -9) and 2 <= kept() < len(PROGRAM), process.returncode)
    group.check(f"rt ends, {name}", not is_running(top))
    group.check(f"no copy of it stays, {name}", number == signal.SIGKILL or os.listdir(top / "rooms") == [])
    found = kept()
    status, lines = build(top)
    group.check(f"a build continues, {name}", status == 0 and (top / "crates/lucid_main/out/lucid_main").exists(), lines)
    group.check(f"it counts what is kept, {name}", any(it.startswith(f"lucid: {found} of 5 ") for it in lines[:2]), lines)
