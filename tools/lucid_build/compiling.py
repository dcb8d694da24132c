"""Compiles the program once, without its proofs, and keeps it.

The front end makes a module, which is split into parts; the kit's clang compiles these side by side, and the kit links them. Each check at
run time stays, so a broken condition stops the program. With -O2 and a small bound on inlining, a program needs little more stack than one
of -O3, and a quarter more time.
"""
from __future__ import annotations

import contextlib
import errno
import os
import shutil
import subprocess
from pathlib import Path
from typing import Iterator, List, Sequence

from . import kept, module, running
from .front import Failed, Kit, Stopped, ended_by_signal, find_kit, make_module
from .running import Progress, Word, say

SERIES = "rattle-kit-13"
NAME = "lucid_unproved"
# Says for which sums the kit failed, and why; `lucid` then calls `rt try`.
REFUSED = f"{NAME}.refused"
TASK = "compiling a program without proofs, once"
# Bytes that the module, its parts and their objects take.
ROOM = 200_000_000
FULL = (errno.ENOSPC, errno.EDQUOT)
LEVEL = ["-O2", "-mllvm", "-inline-threshold=75"]
TARGET = ["--target=x86_64-unknown-linux-gnu", "--no-default-config"]
OBJECT = ["-march=x86-64", "-ffunction-sections", "-fdata-sections", "-fPIE", "-c", "-x", "ir"]


def free_bytes(folder: Path) -> int:
    found = os.statvfs(folder)
    return found.f_bavail * found.f_frsize


def no_room(folder: Path) -> Stopped:
    return Stopped(f"no program could be compiled: {folder} has {free_bytes(folder) >> 20} MB free, and {ROOM // 1_000_000} are needed: make room there")


def finish(child: "subprocess.Popen[bytes]", tool: str) -> bytes:
    """Returns the output of a child; raises Failed if it failed, and Stopped if a signal ended it."""
    out = child.communicate()[0] or b""
    running.children.discard(child)
    if child.returncode < 0:
        raise ended_by_signal(tool, child.returncode)
    if child.returncode:
        last = (out.decode(errors="replace").strip().splitlines() or ["it said nothing"])[-1]
        raise Failed(f"{tool} ended with {child.returncode}: {last[:300]}")
    return out


def read_module(kit: Kit, path: Path) -> str:
    """Returns the text of a module."""
    words: List[Word] = [kit.clang, *TARGET, "-S", "-emit-llvm", "-Xclang", "-disable-llvm-passes", "-x", "ir", path, "-o", "-"]
    return finish(running.start(words, stdout=subprocess.PIPE, stderr=subprocess.DEVNULL), "clang").decode()


def compile_parts(kit: Kit, room: Path, texts: Sequence[str]) -> List[Path]:
    """Compiles the parts, the largest first, with one process for each processor; returns the object files."""
    paths = [room / f"part{number}.ll" for number in range(len(texts))]
    for path, text in zip(paths, texts):
        path.write_text(text)
    left = sorted(paths, key=lambda path: -path.stat().st_size)
    at_work: "List[subprocess.Popen[bytes]]" = []
    jobs = len(os.sched_getaffinity(0))
    while left or at_work:
        while left and len(at_work) < jobs:
            path = left.pop(0)
            words: List[Word] = [kit.clang, *TARGET, *OBJECT, path, "-o", path.with_suffix(".o"), *LEVEL]
            at_work.append(running.start(words, stdout=subprocess.PIPE, stderr=subprocess.STDOUT))
        finish(at_work.pop(0), "clang")
    return [path.with_suffix(".o") for path in paths]


def link(kit: Kit, room: Path, objects: Sequence[Path]) -> Path:
    made = room / NAME
    words: List[Word] = [kit.folder / "bin/rattle-link", "--target", "x86_64-unknown-linux-gnu", "--toolchain", kit.folder / "toolchain"]
    finish(running.start([*words, "-o", made, *objects, *kit.archives()], stdout=subprocess.PIPE, stderr=subprocess.STDOUT), "rattle-link")
    ran = subprocess.run([made], stdin=subprocess.DEVNULL, stdout=subprocess.PIPE, stderr=subprocess.PIPE)
    if (ran.returncode, ran.stdout, ran.stderr) != (1, b"", b"usage\n"):
        raise Failed(f"the program that it makes ends with {ran.returncode} where it should refuse its words")
    return made


def build(kit: Kit, top: Path, room: Path, progress: Progress) -> Path:
    """Returns the compiled program, in the folder `room`."""
    progress.begin("reading the sources")
    path = make_module(kit, top, room)
    progress.begin("splitting the module")
    try:
        hints = module.read_hints([top / "crates", kit.folder / "rattle"])
        texts = module.split(read_module(kit, path), hints, {it.name for it in (top / "crates").iterdir()})
    except module.UnknownModule as error:
        raise Failed(f"its module is of an unknown form: {error}") from error
    path.unlink()
    progress.begin("compiling the module")
    objects = compile_parts(kit, room, texts)
    progress.begin("linking")
    return link(kit, room, objects)


@contextlib.contextmanager
def fresh_folder(path: Path) -> Iterator[Path]:
    """An empty folder, which is removed afterwards, also if a signal ends this process."""
    shutil.rmtree(path, ignore_errors=True)
    try:
        path.mkdir()
        yield path
    finally:
        with running.undisturbed():
            running.end_all()
            shutil.rmtree(path, ignore_errors=True)


def compile_in(top: Path, keep: Path, work: Path) -> None:
    """Compiles the program of the checkout `top` into the folder `keep`, unless another call did so meanwhile."""
    program, refused = keep / NAME, keep / REFUSED
    with kept.locked(work / "compile.lock", "compiles the program"):
        sums = kept.take_compiled_sums()
        if kept.is_current(program, sums):
            return
        kit = find_kit(SERIES)
        with fresh_folder(work / "compiling") as room:
            if free_bytes(room) < ROOM:
                raise no_room(work)
            try:
                with Progress(TASK) as progress:
                    made = build(kit, top, room, progress)
                if kept.take_compiled_sums() != sums:
                    raise Stopped("the sources changed while the program was compiled: call again")
                kept.keep(made, program, sums)
                kept.write_whole(work / "compile.log", progress.log)
            except (Failed, OSError) as error:
                is_full = isinstance(error, OSError) and error.errno in FULL
                if is_full or min(free_bytes(room), free_bytes(keep)) < ROOM // 100:
                    raise no_room(work) from error
                if isinstance(error, OSError) and not str(error.filename).startswith(str(kit.folder)):
                    raise
                say(f"this kit's programs cannot be kept ({error}), so each call compiles anew")
                kept.write_whole(refused, f"{sums}\n{error}\n")


def compile_once(top: Path, keep: Path, work: Path) -> None:
    """Like `compile_in`; raises Stopped, with a line that says what to do, for whatever is missing."""
    try:
        keep.mkdir(parents=True, exist_ok=True)
        work.mkdir(parents=True, exist_ok=True)
        compile_in(top, keep, work)
    except subprocess.SubprocessError as error:
        raise Stopped(f"no program could be compiled: {error}") from error
    except OSError as error:
        if error.errno in FULL:
            raise no_room(work if work.is_dir() else top) from error
        raise Stopped(f"no program could be compiled: {error.strerror or error}: {error.filename or work}") from error
