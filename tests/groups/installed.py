"""Installations by tools/install, in folders of the group, and a Debian package in another root.

Sees no other systems than this one. Seen to fail: an unproved program that is installed unasked, a file that stays after the removal or that the removal takes from others, a
program that was changed afterwards and is called proved, a man page with a warning, a package that lintian refuses.
"""
from __future__ import annotations

import os
import shutil
import sys
from pathlib import Path
from typing import Dict, List

from harness import FIRST_LOG, Ended, Group, Word, call
from standin import Checkout

COPIED = ("tools/install", "tools/completion.bash", "tools/schema", "tools/editor", "README.md", "LICENSE", "docs", "examples", "copperfinch")
UNPROVED = b"lucid: unproved: this answer comes from a build whose proofs were not checked\n"


def tree(folder: Path) -> Dict[str, bytes]:
    """The files of a folder with their bytes, its links with their targets, and its folders."""
    found: Dict[str, bytes] = {}
    for path in folder.rglob("*"):
        is_file = path.is_file() and not path.is_symlink()
        found[str(path.relative_to(folder))] = path.read_bytes() if is_file else os.readlink(path).encode() if path.is_symlink() else b""
    return found


def run(group: Group) -> None:
    it = Checkout(group.room / "install")
    it.copy(*COPIED)
    prefix = it.room / "a prefix"
    for name in ("bin/other", "share/man/man1/other.1"):
        (prefix / name).parent.mkdir(parents=True)
        (prefix / name).write_text("other\n")
    before = tree(prefix)
    install = lambda *words, **how: call([it.top / "tools/install", *words], **{"cwd": it.room, "env": it.env(), **how})
    refused = b"install: the program is not proved: build it by ./lucid --prove, or say --unproved\n"
    group.expect("an unproved program", install(prefix), 1, b"", refused)
    group.check("it changes nothing", tree(prefix) == before)
    unproved(group, prefix, install)
    program = it.top / "crates/lucid_main/out/lucid_main"
    shutil.copy2(group.options.program, program)
    sums = call([it.top / "tools/record", "sums"], env=it.env()).out.decode().rstrip("\n")
    call([it.top / "tools/record", "write", f"{program}.record", program, sums], env=it.env())
    said = f"installed in {prefix}; lucid is {prefix}/bin/lucid\n".encode()
    group.expect("a proved program, over the other", install(prefix), 0, said)
    installed(group, it.room, prefix, sums)
    manual(group, prefix)
    (prefix / "lib/copperfinch/lucid_main").write_text("#!/bin/sh\necho other\n")
    group.check("a changed program is not called proved", b"\nnot proved: " in without_kit(it.room, prefix / "bin/lucid", "--version").out)
    group.expect("a removal", install("--remove", prefix), 0)
    group.check("the removal takes the installation and nothing else", tree(prefix) == before, sorted(tree(prefix).keys() ^ before.keys())[:3])
    group.expect("a second removal", install("--remove", prefix), 1, b"", f"install: nothing of Copperfinch is installed in {prefix}\n".encode())
    (prefix / "bin/lucid").write_text("other\n")
    ended, line = install(prefix), f"install: {prefix}/bin/lucid is there, and no earlier installation has made it: remove it, or take another folder\n"
    group.expect("a file of someone else", ended, 1, b"", line.encode())
    group.expect("a folder that is a file", install("README.md/x", cwd=it.top), 1, b"", f"install: {it.top}/README.md/x: Not a directory\n".encode())
    debian(group, it, install)


def without_kit(room: Path, *words: Word) -> Ended:
    """Calls an installed command where no kit is on the path."""
    rest = ":".join(path for path in os.environ["PATH"].split(":") if not (Path(path) / "rt").exists())
    return call(words, cwd=room, env={**os.environ, "PATH": rest})


def unproved(group: Group, prefix: Path, install) -> None:
    group.check("an unproved program if that is asked for", install("--unproved", prefix).status == 0)
    ended = without_kit(prefix, prefix / "bin/lucid", "check", "p")
    group.expect("it says so with each answer", ended, 0, b"answered check p\n", UNPROVED)
    said = without_kit(prefix, prefix / "bin/lucid", "--version").out
    group.check("and as its version", said.endswith(b"\nprogram not proved\n"), said)


def installed(group: Group, room: Path, prefix: Path, sums: str) -> None:
    """The installed program and tools work in any folder, without the kit."""
    lucid, examples = prefix / "bin/lucid", prefix / "share/doc/copperfinch/examples"
    first = examples / "first.luc"
    group.expect("the installed program", without_kit(room, lucid, "once", first, "pkt", "5"), 0, FIRST_LOG)
    lines = without_kit(room, lucid, "--version").out.decode().splitlines()
    group.check("its version", lines[1:] == [*sums.splitlines(), "program proved"], lines)
    group.check("its help", b"--prove" not in without_kit(room, lucid, "--help").out and b"\n  check P " in without_kit(room, lucid, "--help").out)
    group.expect("--program", without_kit(room, lucid, "--program"), 0, f"{prefix}/lib/copperfinch/lucid_main\n".encode())
    with open("/dev/full", "wb") as full:
        group.expect("--help on a full device", call([lucid, "--help"], stdout=full), 10, b"", b"write fault\n")
    log = room / "log"
    log.write_bytes(FIRST_LOG)
    ended = without_kit(room, prefix / "bin/lucid-tools", "json", "log", log)
    group.check("lucid-tools json", ended.status == 0 and ended.out.startswith(b'{"kind":"event","at":0,'), ended)
    ended = without_kit(room, prefix / "bin/lucid-tools", "explain", examples / "crossed.luc")
    group.check("lucid-tools explain", ended.status == 6 and ended.out.startswith(b"order: declaration 4 line 5 cycle x y\n"), ended)
    ended = without_kit(room, prefix / "bin/lucid-fmt", "--check", first, examples / "crossed.luc")
    group.expect("lucid-fmt", ended, 0)
    ended = call([sys.executable, "-B", prefix / "bin/lucid-lsp"], cwd=room, given=b"Content-Length: 2\r\n\r\n{}")
    group.check("lucid-lsp", ended.status == 1 and b'"code": -32600' in ended.out.replace(b":-", b": -"), ended)
    wanted = ("nvim/site/ftplugin/lucid.lua", "nvim/site/syntax/lucid.vim", "vim/vimfiles/ftplugin/lucid.vim", "vim/vimfiles/ftdetect/lucid.vim",
              "emacs/site-lisp/lucid-mode.el", "copperfinch/editor/vscode/package.json", "copperfinch/editor/vscode/syntaxes/lucid.tmLanguage.json")
    group.check("the files of editors", all((prefix / "share" / name).is_file() for name in wanted))
    page = without_kit(room, prefix / "bin/lucid-tools", "page", *(examples / f"heavy.{it}" for it in ("luc", "limits.json", "scenario.json")))
    group.check("lucid-tools page", page.status == 0 and b"</html>" in page.out and b"not proved" not in page.out, page)
    modes = [oct(path.stat().st_mode & 0o777) for path in (prefix / "lib/copperfinch/lucid_main", first)]
    group.check("the modes of files", modes == ["0o755", "0o644"], modes)


def manual(group: Group, prefix: Path) -> None:
    """The man page has each form of words and no warning."""
    page = prefix / "share/man/man1/lucid.1"
    if not shutil.which("man"):
        group.note("script: man is not installed, so the man page was not shown")
        return
    ended = call(["man", "--warnings", "-l", page], env={**os.environ, "LC_ALL": "C.UTF-8", "MANWIDTH": "100"})
    group.check("the man page", ended.status == 0 and not ended.err and b"run placed P L T Q" in ended.out and b"13 sizes" in ended.out, ended)


def debian(group: Group, it: Checkout, install) -> None:
    """A Debian package has the same files; dpkg installs it into another root, and removes it."""
    if not shutil.which("dpkg-deb"):
        group.note("script: dpkg-deb is not installed, so no package was made")
        return
    made, root = it.room / "made.deb", it.room / "root"
    group.expect("a package", install("--deb", made), 0)
    for name in ("info", "updates", "triggers"):
        (root / "var/lib/dpkg" / name).mkdir(parents=True)
    for name in ("status", "available"):
        (root / "var/lib/dpkg" / name).touch()
    dpkg = ["dpkg", f"--root={root}", "--force-depends", "--force-not-root", "--force-bad-path", "--log=/dev/null"]
    ended = call([*dpkg, "-i", made])
    lucid = root / "usr/bin/lucid"
    group.check("dpkg installs it", ended.status == 0 and lucid.exists(), ended)
    ended = without_kit(it.room, lucid, "once", root / "usr/share/doc/copperfinch/examples/first.luc", "pkt", "5")
    group.expect("the program of the package", ended, 0, FIRST_LOG)
    call([*dpkg, "-P", "copperfinch"])
    group.check("dpkg removes it", not lucid.exists() and not list((root / "usr").rglob("*lucid*")))
    if shutil.which("lintian"):
        ended = call(["lintian", *(["--allow-root"] if not os.geteuid() else []), "--no-cfg", made])
        errors: List[str] = [line for line in ended.out.decode().splitlines() if line.startswith("E:")]
        group.check("lintian finds no error", ended.status == 0 and not errors, errors or ended)
    else:
        group.note("script: lintian is not installed, so the package was not checked by it")
