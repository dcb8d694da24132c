"""The order of the house: names of files, names of definitions, links, English, and subjects of commits.

Fails on a file of specs/ or proofs/ that is named after no source, on a trusted name that two pages define, on a type that two crates
export, on a head of a lib.rt that names other users than crates.txt or leaves out what may change, on a call of a law that is not written law::NAME, on a dead link or path
in a page, on a row of a table with other cells than its head, on worse English than the bounds, and on a commit subject that begins with
Say or Tell or passes 72 characters. Today's exceptions are in tests/house.exceptions, which may only shrink: `--fill` drops those that are
gone. No rule may have more of them than before the file's last change, by git. Sees nothing of what the names mean.
"""
from __future__ import annotations

import re
import subprocess
from collections import Counter, defaultdict
from pathlib import Path
from typing import Dict, List, Set, Tuple

import prose
from harness import TESTS, TOP, Group

EXCEPTIONS = TESTS / "house.exceptions"
# Dialect words in 1,000 words, and the percentage of sentences over 30 words, at most. Lower them as the text gets better.
ENGLISH: Dict[str, Tuple[float, float]] = {
    "docs": (8, 3),
    "readmes": (8, 3),
    "src": (10, 2),
    "specs": (12, 1),
    "proofs": (20, 1),
}
# What is wrong with the names of these keys.
REPEATED = {"names": "defined in two trusted pages", "types": "exported by two crates"}
COMMITS = 30
# Commits up to this one are older than the rule.
BEFORE = "678cbd6733dd1182ff16ee4d8f7d91c26fb7e63f"
SUBJECT = 72


def run(group: Group) -> None:
    found = {**misnamed(), "names": repeated_names(), "types": repeated_types()}
    if group.options.fill:
        write_exceptions(found)
    known = read_exceptions()
    for key, names in sorted(found.items()):
        new = sorted(names - known.get(key, set()))
        group.check(f"{key}: {REPEATED.get(key, 'named after no source')}", not new, new)
        gone = sorted(known.get(key, set()) - names)
        group.check(f"{key}: tests/house.exceptions names nothing that is gone", not gone, gone)
    shrinks(group)
    heads(group)
    laws(group)
    links(group)
    tables(group)
    english(group)
    commits(group)


def read_exceptions() -> Dict[str, Set[str]]:
    """Each line has a key, as `lucid_net/specs`, and names."""
    lines = [line.split() for line in EXCEPTIONS.read_text().splitlines() if line and not line.startswith("#")]
    return {line[0]: set(line[1:]) for line in lines}


def write_exceptions(found: Dict[str, Set[str]]) -> None:
    """Keeps the exceptions that are still there; a file without any takes all that are found."""
    known = read_exceptions() if EXCEPTIONS.exists() else found
    head = "# Exceptions of the group `house`, which may only shrink: `tests/run house --fill` drops those that are gone.\n"
    lines = [" ".join([key, *sorted(known.get(key, set()) & names)]) for key, names in sorted(found.items())]
    EXCEPTIONS.write_text(head + "".join(f"{line}\n" for line in lines if " " in line))


def counts_of(text: str) -> Counter:
    """How many exceptions a text of the file has from each rule: specs, proofs, names and types."""
    lines = [line.split() for line in text.splitlines() if line and not line.startswith("#")]
    return sum((Counter({line[0].rpartition("/")[2]: len(line) - 1}) for line in lines), Counter())


def shrinks(group: Group) -> None:
    """No rule has more exceptions than in the commit before the last change of the file; a rule that is new has none there."""
    text, git = EXCEPTIONS.read_text(), ["git", "-C", str(TOP)]
    log = subprocess.run([*git, "log", "-5", "--format=%H", "--", "tests/house.exceptions"], stdout=subprocess.PIPE, check=False)
    for commit in log.stdout.decode().split():
        before = subprocess.run([*git, "show", f"{commit}:tests/house.exceptions"], stdout=subprocess.PIPE, check=False).stdout.decode()
        if before != text:
            now, then = counts_of(text), counts_of(before)
            more = {rule: (then[rule], now[rule]) for rule in then if now[rule] > then[rule]}
            group.check("tests/house.exceptions shrinks", not more, more)
            return


def camel(name: str) -> str:
    return "".join(part.capitalize() for part in name.split("_"))


def misnamed() -> Dict[str, Set[str]]:
    """The files of specs/ and proofs/ that have the name of no source, with Lemmas, Examples or Laws behind it or not.

    Crates of definitions or laws alone, whose one source is laws.rt, are left out: their files have the names of subjects.
    """
    found: Dict[str, Set[str]] = {}
    for crate in sorted(path for path in (TOP / "crates").iterdir() if path.is_dir() and not path.name.endswith(("_spec", "_laws"))):
        sources = {camel(path.stem) for path in crate.glob("src/**/*.rt")} | {"Lib"}
        for kind in "specs", "proofs":
            names = {path.stem for path in crate.glob(f"{kind}/*.antt")}
            others = {name for name in names if not {name, re.sub("(Lemmas|Examples|Laws)$", "", name)} & sources}
            if others:
                found[f"{crate.name}/{kind}"] = others
    return found


def definitions() -> List[Tuple[str, str, str]]:
    """The crate, the page and the name of each definition that clauses of `lucid` rest on."""
    listed = subprocess.run([str(TESTS / "pages"), "--definitions"], stdout=subprocess.PIPE, check=True).stdout.decode()
    return [(crate, page, name) for crate, page, name in (line.split(" ", 2) for line in listed.splitlines())]


def repeated_names() -> Set[str]:
    """Names that clauses of `lucid` rest on and that more than one page of definitions has."""
    pages: Dict[str, Set[str]] = defaultdict(set)
    for crate, page, name in definitions():
        pages[name].add(f"{crate} {page}")
    return {name for name, where in pages.items() if len(where) > 1}


def repeated_types() -> Set[str]:
    """Names of types that two crates define and export: those that a lib.rt takes from modules of its own."""
    crates: Dict[str, Set[str]] = defaultdict(set)
    for source in TOP.glob("crates/*/src/lib.rt"):
        text = source.read_text()
        for module, names in re.findall(r"^pub use (\w+)::([^;]*);", text, re.M):
            if re.search(rf"^(?:pub )?mod {module};", text, re.M):
                for name in re.findall(r"\b[A-Z]\w*[a-z]\w*", names):
                    crates[name].add(source.parts[-3])
    return {name for name, where in crates.items() if len(where) > 1}


def used_by(users: List[str]) -> str:
    """The sentence of a head that names the crates that list a crate in crates.txt."""
    if not users:
        return "No crate uses it."
    if len(users) > 6:
        return "Used by many crates."
    return f"Used by {' and '.join(filter(None, [', '.join(users[:-1]), users[-1]]))}."


def heads(group: Group) -> None:
    """The head of each lib.rt, but those of tests, names its users, whether promises rest on its definitions, and what may change."""
    lines = [line.split(":") for line in (TOP / "crates.txt").read_text().splitlines() if ":" in line and not line.startswith("#")]
    below = {name.split()[0]: needs.split() for name, needs in lines if name != "lucid_tests"}
    trusted = {crate for crate, _, _ in definitions()}
    for crate in below:
        source = TOP / f"crates/{crate}/src/lib.rt"
        if not source.exists():
            continue
        comment = re.match(r"(?://.*\n)*", source.read_text())[0]
        head = " ".join(line[2:].strip() for line in comment.splitlines())
        wanted = used_by([user for user in below if crate in below[user]])
        group.check(f"{crate}: its head says who uses it", wanted in head, wanted)
        group.check(f"{crate}: its head says whether promises rest on it", ("(docs/TRUSTED.md)" in head) == (crate in trusted), crate in trusted)
        group.check(f"{crate}: its head says what may change", bool(re.search(r"may change; a|It changes only to correct", head)))


def laws(group: Group) -> None:
    """A statement that only calls a law is written `law::NAME(..)`, but where laws stand."""
    texts = {path.relative_to(TOP): path.read_text() for path in TOP.glob("crates/*/src/**/*.rt")}
    names = {name for path, text in texts.items() if path.stem == "laws" for name in re.findall(r"^pub(?:\(crate\))? fn (\w+)", text, re.M)}
    call_of = re.compile(rf"^ +({'|'.join(sorted(names))})\(.*\);$", re.M)
    bare: List[str] = []
    for path, text in texts.items():
        if path.stem != "laws" and not path.parts[1].endswith(("_spec", "_laws")):
            bare += [f"{path}: {name}" for name in call_of.findall(text)]
    group.check("calls of laws are written law::NAME", bool(names) and not bare, bare)


def links(group: Group) -> None:
    """The links of all pages lead to files, and the paths that pages name in backticks exist."""
    for page in pages():
        text = re.sub(r"^```.*?^```", "", page.read_text(), flags=re.S | re.M)
        targets = [it.split("#")[0] for it in re.findall(r"\]\(([^)\s]+)\)", text) if not re.match(r"[a-z]+:", it)]
        dead = [it for it in targets if it and not (page.parent / it).exists()]
        named = re.findall(r"`((?:crates|docs|tests|tools|examples)/[\w./-]+)`", text)
        # what a build leaves is in out/
        dead += [it for it in named if "/out/" not in it and not (TOP / it).exists() and not (page.parent / it).exists()]
        group.check(f"{page.relative_to(TOP)}: links and paths exist", not dead, dead)


def pages() -> List[Path]:
    listed = subprocess.run(["git", "ls-files", "-co", "--exclude-standard", "*.md"], cwd=TOP, stdout=subprocess.PIPE, check=True)
    paths = [TOP / name for name in listed.stdout.decode().split()]
    return [path for path in paths if path.exists() and "must-fail" not in path.parts]


def tables(group: Group) -> None:
    """Each row of a table has as many cells as the head of the table: a `|` within a cell needs a backslash."""
    for page in pages():
        text = re.sub(r"^```.*?^```", "", page.read_text(), flags=re.S | re.M)
        found = [
            row
            for rows in re.findall(r"(?:^\|.*\n)+", text, flags=re.M)
            for row in rows.splitlines()
            if len(re.findall(r"(?<!\\)\|", row)) != len(re.findall(r"(?<!\\)\|", rows.splitlines()[0]))
        ]
        group.check(f"{page.relative_to(TOP)}: rows of tables have the cells of their heads", not found, found[:1])


def english(group: Group) -> None:
    found = prose.measured()
    for kind, it in prose.sums(found).items():
        rate, share = ENGLISH[kind]
        own = [(measure, path) for path, its, measure in found if its == kind]
        worst = lambda key: [path for _, path in sorted(own, key=lambda pair: -key(pair[0]))[:5]]
        group.check(f"{kind}: at most {rate} dialect words in 1,000", it.rate <= rate, (it.rate, worst(lambda m: m.dialect)))
        group.check(f"{kind}: at most {share} % of sentences over {prose.LONG} words", it.long_share <= share, (it.long_share, worst(lambda m: m.long)))


def commits(group: Group) -> None:
    """The subjects of the last commits, as far as they are newer than the rule."""
    log = subprocess.run(["git", "log", f"-{COMMITS}", "--format=%s", f"{BEFORE}..HEAD"], cwd=TOP, stdout=subprocess.PIPE)
    subjects = log.stdout.decode().splitlines()
    for subject in subjects:
        group.check(f"commit: {subject[:40]}", len(subject) <= SUBJECT and not re.match("(Say|Tell)[s ]", subject), len(subject))
