"""Installs the built program with its tools below a folder, removes it again, and makes a Debian package of the same files."""
from __future__ import annotations

import contextlib
import gzip
import hashlib
import os
import re
import shutil
import subprocess
import tempfile
import time
from dataclasses import dataclass
from pathlib import Path
from typing import Dict, Iterable, Iterator, List, Optional, Set, Union

from . import manual, running
from .kept import TOP

HOME = "lib/copperfinch"
SHARE = "share/copperfinch"
DOCUMENTS = "share/doc/copperfinch"
VIM = "share/vim/vimfiles"
NEOVIM = "share/nvim/site"
COMPLETIONS = "share/bash-completion/completions"
MAN = "share/man/man1/lucid.1"
MAN_OF_TOOLS = "share/man/man1/lucid-tools.1"
# The files that an installation has made, a line each; a folder ends with a slash.
LIST = f"{HOME}/installed"


class Refused(Exception):
    """What cannot be done, with what to do."""


@dataclass(frozen=True)
class Link:
    """A symbolic link."""

    target: str


@dataclass(frozen=True)
class Text:
    """The bytes of a file, and whether it can be called."""

    data: bytes
    is_command: bool = False


Files = Dict[str, Union[Link, Text]]


def call(*words: Union[str, Path]) -> str:
    """Returns what a command prints; raises Refused with its last line if it fails."""
    try:
        ran = subprocess.run(words, stdin=subprocess.DEVNULL, stdout=subprocess.PIPE, stderr=subprocess.PIPE)
    except OSError as error:
        raise Refused(f"{words[0]}: {error.strerror}") from error
    if ran.returncode:
        last = (ran.stderr.decode(errors="replace").strip().splitlines() or [f"it ended with {ran.returncode}"])[-1]
        raise Refused(f"{words[0]}: {last}")
    return ran.stdout.decode()


def read_folder(folder: Path, to: str) -> Files:
    """Returns the files of a folder of the repository, below another name."""
    found: Files = {}
    for path in sorted(folder.rglob("*")):
        if path.is_file() and "__pycache__" not in path.parts:
            found[f"{to}/{path.relative_to(folder)}"] = Text(path.read_bytes(), os.access(path, os.X_OK))
    return found


def read_program(allow_unproved: bool) -> Files:
    """Returns the program, its record and what `--version` prints of it; raises Refused if it is not proved and must be."""
    lucid = TOP / "lucid"
    lines = call(lucid, "--version").splitlines()
    is_proved = "program proved" in lines
    if not is_proved and not allow_unproved:
        raise Refused("the program is not proved: build it by ./lucid --prove, or say --unproved")
    program = Path(call(lucid, "--program")[:-1])
    record = program.with_name(f"{program.name}.record").read_text()
    kit = record.splitlines()[0]
    about = [lines[0], kit, *(line for line in lines if line.startswith("commit "))]
    files: Files = {
        f"{HOME}/lucid_main": Text(program.read_bytes(), True),
        f"{HOME}/record": Text(record.encode()),
        f"{HOME}/version": Text("".join(f"{line}\n" for line in about).encode()),
    }
    if not is_proved:
        files[f"{HOME}/unproved"] = Text(b"")
    return files


def read_help() -> str:
    """Returns the help of the installed program: that of the script, without what needs a checkout."""
    lines = call(TOP / "lucid", "--help").splitlines(True)
    text = "".join(line for line in lines if not line.startswith("  --prove "))
    return re.sub(r" \(a first call .*\)", "", text).replace("./lucid ", "lucid ").replace("JSON are in tools/.", "JSON: lucid-tools --help.")


def collect(allow_unproved: bool, prefix: str) -> Files:
    """Returns all files of an installation, by their names below the prefix."""
    files = read_program(allow_unproved)
    help_text, version = read_help(), (TOP / "VERSION").read_text().strip()
    files[f"{HOME}/help"] = Text(help_text.encode())
    files[f"{HOME}/lucid"] = Text((TOP / "tools/lucid_build/installed.sh").read_bytes(), True)
    files["bin/lucid"] = Link(f"../{HOME}/lucid")
    files[f"{HOME}/lucid-tools"] = Text((TOP / "tools/lucid_build/installed_tools.py").read_bytes(), True)
    for name in ("lucid-tools", "lucid-fmt", "lucid-lsp"):
        files[f"bin/{name}"] = Link(f"../{HOME}/lucid-tools")
    files.update(read_folder(TOP / "copperfinch", f"{HOME}/copperfinch"))
    files[f"{COMPLETIONS}/lucid-tools"] = Link("lucid")
    files[f"{COMPLETIONS}/lucid"] = Text((TOP / "tools/completion.bash").read_bytes())
    files.update(read_folder(TOP / "tools/schema", f"{SHARE}/schema"))
    files.update(read_editors(TOP / "tools/editor"))
    date = time.strftime("%Y-%m-%d", time.gmtime((TOP / "VERSION").stat().st_mtime))
    files[MAN] = Text(manual.page(help_text, version, date, f"{prefix}/{DOCUMENTS}").encode())
    files[MAN_OF_TOOLS] = Link("lucid.1")
    files[f"{DOCUMENTS}/README.md"] = Text((TOP / "README.md").read_bytes())
    for folder in ("docs", "examples"):
        files.update(read_folder(TOP / folder, f"{DOCUMENTS}/{folder}"))
    return files


def read_editors(folder: Path) -> Files:
    """Returns the files of editors, where those look for them; the extension of VS Code is a folder."""
    names = {f"{SHARE}/editor/lucid.tmLanguage.json": "lucid.tmLanguage.json", f"{VIM}/ftplugin/lucid.vim": "ftplugin.vim",
             f"{NEOVIM}/ftplugin/lucid.lua": "lucid.lua", "share/emacs/site-lisp/lucid-mode.el": "lucid-mode.el"}
    files = read_folder(folder / "vscode", f"{SHARE}/editor/vscode")
    for place in (VIM, NEOVIM):
        names[f"{place}/syntax/lucid.vim"] = "lucid.vim"
        files[f"{place}/ftdetect/lucid.vim"] = Text(b"au BufRead,BufNewFile *.luc set filetype=lucid\n")
    files.update({name: Text((folder / file).read_bytes()) for name, file in names.items()})
    return files


def write(path: Path, file: Union[Link, Text]) -> None:
    """Puts a file in its place, whole."""
    new = path.with_name(f".{path.name}.new")
    try:
        with contextlib.suppress(FileNotFoundError):
            new.unlink()
        if isinstance(file, Link):
            new.symlink_to(file.target)
        else:
            new.write_bytes(file.data)
            new.chmod(0o755 if file.is_command else 0o644)
        os.replace(new, path)
    finally:
        with contextlib.suppress(OSError):
            new.unlink()


def make_folders(prefix: Path, name: str) -> Iterator[str]:
    """Makes the folders of a file below the prefix; gives those that were not there."""
    parts = Path(name).parent.parts
    for count in range(1, len(parts) + 1):
        folder = Path(*parts[:count])
        if not (prefix / folder).is_dir():
            (prefix / folder).mkdir()
            (prefix / folder).chmod(0o755)
            yield f"{folder}/"


def read_list(prefix: Path) -> List[str]:
    """Returns the files and folders of the installation that is there, if any."""
    with contextlib.suppress(FileNotFoundError, NotADirectoryError):
        return [name for name in (prefix / LIST).read_text().splitlines() if name and not name.startswith("/") and ".." not in name.split("/")]
    return []


def remove_names(prefix: Path, names: Set[str]) -> None:
    """Removes these files, and those of these folders that are empty then."""
    for name in sorted(names, reverse=True):
        path = prefix / name
        with contextlib.suppress(FileNotFoundError):
            if not name.endswith("/"):
                path.unlink()
            elif not any(path.iterdir()):
                path.rmdir()


def install(prefix: Path, allow_unproved: bool) -> None:
    """Installs below a prefix, in place of an earlier installation there."""
    files = collect(allow_unproved, str(prefix))
    before = read_list(prefix)
    others = sorted(name for name in files if os.path.lexists(prefix / name) and name not in before)
    if others:
        raise Refused(f"{prefix / others[0]} is there, and no earlier installation has made it: remove it, or take another folder")
    prefix.mkdir(parents=True, exist_ok=True)
    names = list(before)
    try:
        # The list names each file before it is there, so that an installation that was cut can be removed.
        for name in (LIST, *files):
            names += make_folders(prefix, name)
        names += [name for name in (*files, LIST) if name not in names]
        write(prefix / LIST, list_of(names))
        for name, file in files.items():
            write(prefix / name, file)
        gone = {name for name in before if name not in files and name != LIST and not name.endswith("/")}
        remove_names(prefix, gone)
        write(prefix / LIST, list_of(name for name in names if name not in gone))
    except BaseException:
        if not before:
            with running.undisturbed():
                remove_names(prefix, set(names))
        raise


def list_of(names: Iterable[str]) -> Text:
    return Text("".join(f"{name}\n" for name in names).encode())


def remove(prefix: Path) -> None:
    """Removes an installation: its files, and the folders that it has made, if nothing else is in them."""
    names = read_list(prefix)
    if not names:
        raise Refused(f"nothing of Copperfinch is installed in {prefix}")
    remove_names(prefix, set(names) - {LIST})
    remove_names(prefix, {LIST, *(name for name in names if name.endswith("/"))})


CONTROL = """Package: copperfinch
Version: {version}
Section: net
Priority: optional
Architecture: {architecture}
Depends: libc6, python3:any
Recommends: python3-pylsp-jsonrpc
Installed-Size: {size}
Maintainer: {maintainer}
Description: compiler and simulator for a variant of Lucid
 Copperfinch checks programs in Lucid, the event-driven language for
 programmable switches, places them in the stages of a model of a
 match-action pipeline, and simulates whole networks. The program
 is proved to print the log of its handlers run one after another.
"""
COPYRIGHT = """Format: https://www.debian.org/doc/packaging-manuals/copyright-format/1.0/
Upstream-Name: Copperfinch

Files: *
Copyright: 2026 The Copperfinch authors
License: Expat

License: Expat
"""
CHANGES = """copperfinch ({version}) unstable; urgency=medium

  * The program as it was built from {commit}.

 -- {maintainer}  {date}
"""
# The record has the sum of the program as it was built, so nothing is stripped from it.
OVERRIDES = """# The record of the proved build has the sum of this file.
copperfinch: unstripped-binary-or-object [usr/lib/copperfinch/lucid_main]
"""


def zipped(text: str) -> Text:
    return Text(gzip.compress(text.encode(), 9, mtime=0))


def debian_files(files: Files, maintainer: str) -> Files:
    """Returns the files of an installation below /usr as Debian wants them: the manual packed, with copyright and changes."""
    version, text = (TOP / "VERSION").read_text().strip(), files.pop(MAN)
    assert isinstance(text, Text)
    files[f"{MAN}.gz"] = zipped(text.data.decode())
    files.pop(MAN_OF_TOOLS)
    files[f"{MAN_OF_TOOLS}.gz"] = Link("lucid.1.gz")
    licence = (TOP / "LICENSE").read_text().partition("\n\n")[2].partition("\n\n")[2]
    indented = "".join(f" {line.strip() or '.'}\n" for line in licence.strip().splitlines())
    files[f"{DOCUMENTS}/copyright"] = Text((COPYRIGHT + indented).encode())
    about = files[f"{HOME}/version"]
    assert isinstance(about, Text)
    commit = next((line for line in about.data.decode().splitlines() if line.startswith("commit ")), "a copy without a commit")
    date = time.strftime("%a, %d %b %Y %H:%M:%S +0000", time.gmtime())
    files[f"{DOCUMENTS}/changelog.gz"] = zipped(CHANGES.format(version=version, commit=commit, maintainer=maintainer, date=date))
    files["share/lintian/overrides/copperfinch"] = Text(OVERRIDES.encode())
    return files


def package(to: Path, allow_unproved: bool, maintainer: Optional[str]) -> None:
    """Writes a Debian package of an installation below /usr."""
    if not shutil.which("dpkg-deb"):
        raise Refused("there is no dpkg-deb on the path: install Debian's package dpkg")
    maintainer = maintainer or "Copperfinch maintainers <maintainers@users.noreply.copperfinch.example>"
    files = debian_files(collect(allow_unproved, "/usr"), maintainer)
    with tempfile.TemporaryDirectory(prefix="lucid-deb-") as folder:
        root = Path(folder) / "root"
        (root / "usr").mkdir(parents=True)
        for path in (root, root / "usr"):
            path.chmod(0o755)
        for name, file in files.items():
            for _ in make_folders(root / "usr", name):
                pass
            write(root / "usr" / name, file)
        texts = {name: file.data for name, file in files.items() if isinstance(file, Text)}
        size = sum(-(-len(data) // 1024) for data in texts.values())
        control = CONTROL.format(
            version=(TOP / "VERSION").read_text().strip(),
            architecture=call("dpkg", "--print-architecture").strip(),
            size=size,
            maintainer=maintainer,
        )
        sums = "".join(f"{hashlib.md5(data).hexdigest()}  usr/{name}\n" for name, data in sorted(texts.items()))
        (root / "DEBIAN").mkdir()
        (root / "DEBIAN").chmod(0o755)
        write(root / "DEBIAN/control", Text(control.encode()))
        write(root / "DEBIAN/md5sums", Text(sums.encode()))
        made = Path(folder) / "made.deb"
        call("dpkg-deb", "--build", "--root-owner-group", root, made)
        write(to, Text(made.read_bytes()))
