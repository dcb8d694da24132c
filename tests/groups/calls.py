"""Makes all calls that the README, the guides and the pages of the examples and tools show, and compares their output, error lines included.

Each page is tried in a folder of its own, in which its first call writes its files, so no page needs another. Fails on another output than
a page shows, and on a file that a page writes outside its folder: a reader makes the calls of all pages in one folder, in any order. Sees
no exit status unless the page prints it.
"""
from __future__ import annotations

from pathlib import Path
from typing import Dict, List, Tuple

from harness import PROGRAM, TOP, Group, call, with_variables

# Each page with the folder that its calls write to, if any.
PAGES = {
    "README.md": "",
    **{f"docs/{name}.md": name.lower() for name in "TOUR LANGUAGE ERRORS SCENARIO".split()},
    "docs/OUTPUT.md": "",
    "examples/README.md": "applications",
    "tools/README.md": "heavy",
    "tools/MISTAKES.md": "mistakes",
}


def run(group: Group) -> None:
    if group.options.program == PROGRAM:
        lucid: Path = TOP / "lucid"
    else:
        lucid = group.options.program
    for page, folder in PAGES.items():
        # The README's calls go through the script itself.
        check_page(group, page, folder, lucid if page == "README.md" else group.options.program)
    drive = group.room / "docs-TOUR.md/tour/drive.svg"
    group.check("docs/drive.svg", drive.exists() and drive.read_bytes() == (TOP / "docs/drive.svg").read_bytes())


def parts(text: str) -> Tuple[Dict[str, str], List[Tuple[str, str]]]:
    """The files of a page, which are the blocks whose fence has a second word, and its calls with the lines that they print."""
    files: Dict[str, str] = {}
    calls: List[Tuple[str, str]] = []
    name, is_output = "", False
    for line in text.splitlines(keepends=True):
        if line.startswith("```"):
            words = line.split()
            name, is_output = words[1] if len(words) == 2 else "", False
            if name:
                files[name] = ""
        elif name:
            files[name] += line
        elif line.startswith("$ "):
            calls.append((line[2:], ""))
            is_output = True
        elif is_output:
            calls[-1] = (calls[-1][0], calls[-1][1] + line)
    return files, calls


def check_page(group: Group, page: str, folder: str, lucid: Path) -> None:
    """Makes the calls of a page in an empty folder, in which `lucid` is this program."""
    room = group.room / page.replace("/", "-")
    room.mkdir()
    links = "docs", "examples", "tools"
    for name in links:
        (room / name).symlink_to(TOP / name)
    (room / "lucid").symlink_to(lucid)
    files, calls = parts((TOP / page).read_text())
    group.check(f"{page} has calls", bool(calls))
    for command, wanted in calls:
        ended = call(["sh", "-c", f"{{ {command}\n}} 2>&1"], cwd=room, env=with_variables(LUCID=group.options.program))
        group.check(f"{page}: {command.strip()}", ended.out == wanted.encode(), ended)
    other = sorted(name for name, text in files.items() if not (room / name).exists() or (room / name).read_text() != text)
    group.check(f"{page}: its first call writes its files", not other, other)
    made = {path.name for path in room.iterdir()} - {"lucid", *links, folder}
    group.check(f"{page}: its calls write in the folder {folder or 'of none'}", not made, made)
