"""Pages of runs: what `tools/page` writes for the examples and for networks of its own, and how a browser shows it, driven by selenium.

What a page shows of an event is compared with what a watched network of the second implementation met (ledger.py), and cells with those of a
pipeline that is moved a tick at a time. Each line of MUTANTS is a change of the page that the clicks notice. Opens no page without `chromedriver`.
Seen to fail, too:
- test_page: a style sheet, a call of another host, blocks without outs, an event less, a program without blanks, handlers one line further
  down, cells of another array, no cells, a program that does not fit without its line `nofit`
- test_cells: changes of cells that come a tick late
- test_crowd: 20,000 events with all of them drawn, an address that sets a zoom of -1
- test_hostile: a name that is put into the page as HTML
"""
from __future__ import annotations

import json
import re
import shutil
import time
from pathlib import Path
from typing import Any, Dict, Iterator, List, Optional, Tuple

import pytest
from harness import TOP, Ended, Group, Word
from samples import HITS, example, networks, scene
from selenium import webdriver
from selenium.webdriver.common.by import By
from selenium.webdriver.common.keys import Keys

from copperfinch.drive import read_drive
from copperfinch.log import Log, read_log
from copperfinch.network import Fate
from groups.ledger import ROADS, SCENE, Key, Met, watched

CHROMIUM = shutil.which("chromium") or shutil.which("chromium-browser")
DRIVER = shutil.which("chromedriver")
CROWD = """global Array.t<<32>> seen = Array.create(8);
memop plus(int s, int a) { return s + a; }
event hop(int n);
handle hop(int n) { Array.setm(seen, n, plus, 1); if (n > 0) { generate Event.locate(hop(n - 1), (SELF + 1) & 3); } }
"""
WIDE = """global Array.t<<64>> last = Array.create(2);
memop old(int<<64>> s, int<<64>> x) { return s; }
memop new(int<<64>> s, int<<64>> x) { return x; }
event pkt(int<<64>> n);
handle pkt(int<<64>> n) { Array.set(last, 1, n); generate Event.delay(pkt(n - 1), 4294967295); }
"""
HARM = "<img src=x onerror=document.title='harm'>\"&"
# The cells of HITS, in the order of its steps.
CELLS = [(array, cell) for array in ("x", "y") for cell in (0, 1)]
MUTANTS = [
    ("draws an arrow from another event", "const from = e.sender === null ? null : events[e.sender]", "const from = e.sender === null ? null : events[Math.max(0, e.sender - 1)]", "'data-arrow': `${e.sender}-", "'data-arrow': `${from.number}-"),
    ("counts a tick too much", "plural(e.waited, 'tick')", "plural(e.waited + 1, 'tick')"),
    ("links to the event behind", "const link = (i, text) => made('button', { class: 'link mono', 'data-to': i, on: () => choose(i) }, text)", "const link = (i, text) => made('button', { class: 'link mono', 'data-to': i + 1, on: () => choose(i + 1) }, text)"),
    ("shows another line of the program", "by(`line-${line}`)", "by(`line-${line + 1}`)"),
    ("calls what is lost pending", "o.lost ? 'lost' : 'pending'}: ${o.why}", "'pending'}: ${o.why}"),
    ("goes to no cause", "const cause = () => { const e = events[state.event]; if (e && e.sender !== null) choose(e.sender) }", "const cause = () => {}"),
    ("searches all ticks", "return e => e.at >= Number(ticks[1]) && e.at <= Number(ticks[2])", "return e => e.at >= Number(ticks[1])"),
    ("forgets the event in the address", "if (state.event >= 0) words.set('event', state.event)", ""),
    ("shows the packets of a tick before", "entered[s].get(state.tick - k)", "entered[s].get(state.tick - k - 1)"),
]


@pytest.fixture(scope="module")
def browser() -> Iterator[Optional[webdriver.Chrome]]:
    """A browser of 1,400 by 900 pixels, or None."""
    if CHROMIUM is None or DRIVER is None:
        yield None
        return
    options = webdriver.ChromeOptions()
    options.binary_location = CHROMIUM
    for word in ("--headless=new", "--no-sandbox", "--disable-gpu", "--disable-dev-shm-usage", "--window-size=1400,900"):
        options.add_argument(word)
    options.set_capability("goog:loggingPrefs", {"browser": "ALL"})
    made = webdriver.Chrome(options=options, service=webdriver.chrome.service.Service(DRIVER))
    yield made
    made.quit()


class Page:
    """An opened page."""

    def __init__(self, group: Group, browser: webdriver.Chrome, text: bytes, part: str = "") -> None:
        self.group, self.browser, self.path = group, browser, group.file("run.html", text)
        self.open(part)

    def open(self, part: str) -> None:
        """Opens the page anew, at a part."""
        self.browser.get("about:blank")
        self.browser.get(f"file://{self.path}{part}")

    def do(self, script: str, *words: Any) -> Any:
        return self.browser.execute_script(script, *words)

    def text(self, place: str) -> str:
        return str(self.do("return document.querySelector(arguments[0])?.textContent ?? ''", place))

    def click(self, place: str) -> None:
        self.do("document.querySelector(arguments[0]).dispatchEvent(new MouseEvent('click', { bubbles: true }))", place)

    def press(self, keys: str) -> None:
        self.browser.find_element(By.TAG_NAME, "body").send_keys(keys)

    def links(self, place: str) -> List[int]:
        """The events to which the links of a part lead."""
        return [int(it) for it in self.do("return [...document.querySelectorAll(arguments[0] + ' [data-to]')].map(it => it.dataset.to)", place)]

    def chips(self) -> Dict[Tuple[int, int], List[int]]:
        """The events before each stage of each switch."""
        script = "return [...document.querySelectorAll('.stage')].map(it => [it.dataset.switch, it.dataset.stage, [...it.querySelectorAll('[data-event]')].map(e => e.dataset.event)])"
        return {(int(switch), int(stage)): [int(it) for it in its] for switch, stage, its in self.do(script)}

    def clean(self) -> bool:
        """Whether the page is ready, and the browser complains about nothing."""
        said = [it for it in self.browser.get_log("browser") if "favicon" not in it["message"]]
        return self.do("return document.body.dataset.ready") == "yes" and not said


def page(group: Group, *words: Word) -> Ended:
    return group.tool("page", *words, "--lucid", group.options.program)


def data_of(made: Ended) -> Dict[str, Any]:
    """The data in a page."""
    found = re.search(rb'<script type="application/json" id="data">(.*?)</script>', made.out, re.S)
    return json.loads(found[1]) if found else {}


def is_alone(text: bytes) -> bool:
    """Whether a page names no other file: no address but the name of SVG, no link, no import."""
    text = re.sub(rb'<script type="application/json".*?</script>', b"", text, flags=re.S).replace(b"http://www.w3.org/2000/svg", b"")
    return not re.search(rb"https?:|//[a-z]+\.|<link|<img|<iframe|@import|url\(|src=|fetch\(|import ", text)


def test_fit(group: Group) -> None:
    """A page of a program that does not fit."""
    files = example("heavy")
    data = data_of(page(group, files[0], group.file("one.json", '{"stages":1}'), files[2]))
    fits = data.get("layout", "no data") is None and data["nofit"].startswith("nofit: ")
    group.check("page of a program that does not fit", fits, data.get("nofit"))


def test_page(group: Group, browser: Optional[webdriver.Chrome]) -> None:
    """The page of each example has its program, its log, the places of its handlers, cells of its arrays; and in a browser the pipelines at the
    tick of an event in the middle hold the events that entered so many ticks before, on 1,400 pixels without a scroll bar."""
    if browser is None:
        group.note("page: chromium and chromedriver are not installed, so no page was opened")
    for name in networks():
        files = example(name)
        made, log, lines = page(group, *files), group.call("run", "whole", *files).out.decode(), files[0].read_text().split("\n")
        data = data_of(made)
        if not group.check(f"page of {name}", bool(data) and is_alone(made.out), made.err):
            continue
        group.check(f"blocks of {name}", log.startswith("\n".join(it["block"] for it in data["events"])) and len(data["events"]) == log.count("\n[") + 1)
        group.check(f"program of {name}", ["".join(piece for _, piece in line) for line in data["program"]] == lines)
        named = [re.match(rf"(handle|event) {it}\b", lines[line - 1]) for it, its in data["handlers"].items() for line in its]
        group.check(f"handlers of {name}", all(named), data["handlers"])
        arrays = {array for table in data["layout"]["tables"] for array in table["arrays"]}
        group.check(f"cells of {name}", data["cells"] is not None and {data["arrays"][it[1]] for it in data["cells"]} <= arrays)
        if browser is not None:
            pipelines(group, browser, name, made.out, data)


def pipelines(group: Group, browser: webdriver.Chrome, name: str, text: bytes, data: Dict[str, Any]) -> None:
    middle = data["events"][len(data["events"]) // 2]["at"]
    opened = Page(group, browser, text, f"#tick={middle}")
    wanted = {(switch, stage): [number for number, it in enumerate(data["events"]) if (it["switch"], it["at"]) == (switch, middle - stage)]
              for switch in range(data["switches"]) for stage in range(data["limits"]["stages"])}
    found = opened.chips()
    group.check(f"{name} runs in a browser", opened.clean(), name)
    group.check(f"pipelines of {name} in a browser", found == {key: value for key, value in wanted.items() if key in found} and bool(found), found)
    scrolls = opened.do("return [...document.querySelectorAll('main, .stages, .stage')].filter(it => it.scrollWidth > it.clientWidth + 1).length")
    group.check(f"no scroll bar for {data['limits']['stages']} stages of {name}", scrolls == 0 or data["limits"]["stages"] > 12, scrolls)


def test_cells(group: Group, browser: Optional[webdriver.Chrome]) -> None:
    """The cells of a stage at a tick are those that `look` shows of a pipeline that is moved a tick at a time."""
    files = [group.file("hits.luc", HITS), group.file("l.json", '{"stages":3}')]
    ticks, steps = [0, 1, 2, 4, 7], []
    for tick in range(10):
        # What entered k ticks before goes through stage k - 1, the oldest first, and then the event of this tick enters.
        steps += [["go", tick - at - 1] for at in ticks if 1 <= tick - at <= 3]
        steps += [["enter"]] * (tick in ticks) + [["look", array, cell] for array, cell in CELLS]
    own = scene(group, "t.json", [(tick, 0, "hit", [3 + tick]) for tick in ticks], 10, steps=steps)
    looks = [it.numbers for it in read_drive(group.call("drive", *files, own).out).steps if it.word == "look"]
    made = page(group, *files, own)
    data = data_of(made)
    if not group.check("a page of steps", bool(data), made.err):
        return
    stage = {array: table["stage"] for table in data["layout"]["tables"] for array in table["arrays"]}
    at_of = [it["at"] for it in data["events"]]
    written = lambda tick, array, cell: [(at_of[it[0]], int(it[4])) for it in data["cells"]
                                         if (data["arrays"][it[1]], it[2]) == (array, cell) and at_of[it[0]] <= tick - stage[array] - 1]
    seen = [(cell, max(written(tick, array, cell), default=(0, 0))[1]) for tick in range(10) for array, cell in CELLS]
    group.check("cells of stages are those of a pipeline", seen == looks and stage == {"x": 1, "y": 2}, (seen, looks))
    if browser is None:
        return
    opened = Page(group, browser, made.out, "#tick=0")
    for tick in (0, 1, 2, 3, 4, 5, 6, 7, 8, 9, 6, 3, 9, 0):
        opened.do("go(arguments[0])", tick)
        found = set(opened.do("return [...document.querySelectorAll('[data-cell]')].map(it => it.dataset.cell)"))
        wanted = {f"{array}[{cell}] = {value}" for (array, _), (cell, value) in zip(CELLS, looks[4 * tick:4 * tick + 4]) if value}
        group.check(f"cells of a page at tick {tick}", found == wanted, (found, wanted))
    opened.do("go(9)")
    opened.click("[data-cell^='y[1]']")
    rows = opened.do("return [...document.querySelectorAll('#cell [data-change]')].map(it => it.dataset.change)")
    own = [it for it in data["cells"] if (data["arrays"][it[1]], it[2]) == ("y", 1)]
    group.check("a cell in time", rows == [f"{at_of[it[0]]} {it[3]} {it[4]}" for it in own] and opened.do("return !!document.querySelector('#cell svg path')"), rows)



def about(log: Log, met: Dict[Key, Met], data: Dict[str, Any], lines: List[str]) -> Iterator[Tuple[int, Key, Met, List[Tuple[Key, Met]]]]:
    """Each event with what it met, and what it sent."""
    by_number = {it.number: (key, it) for key, it in met.items() if it.number is not None}
    for number in range(len(log.events)):
        sent = sorted(((key, it) for key, it in met.items() if it.sender == number), key=lambda it: it[0][4])
        yield (number, *by_number[number], sent)


def clicks(opened: Page, log: Log, met: Dict[Key, Met], program: List[str]) -> Iterator[object]:
    """Where a page differs from what a network met, when its events are clicked, its ticks stepped and its search used."""
    opened.do("state.all = true; state.scale = 8; state.from = 0; drawAll()")
    drawn = set(opened.do("return [...document.querySelectorAll('[data-arrow]')].map(it => it.dataset.arrow)"))
    wanted = {f"{it.sender}-{it.number}" for it in met.values() if it.sender is not None and it.number is not None}
    if drawn != wanted:
        yield "arrows", drawn ^ wanted
    for number, key, it, sent in about(log, met, {}, program):
        opened.click(f"#time [data-event='{number}']")
        event = log.events[number]
        came = f"events[{key[4]}] of the scenario" if it.sender is None else f"sent by [{log.events[it.sender].tick}] s{log.events[it.sender].switch} {log.events[it.sender].label()}"
        if not opened.text("#from").startswith(came) or f"; ready at {key[0]}, entered at {it.entered};" not in opened.text("#from"):
            yield "from", number, opened.text("#from"), came
        waits = f"waited {len(it.behind)} tick{'s' * (len(it.behind) > 1)} behind" if it.behind else ""
        if not opened.text("#waits").startswith(waits) or bool(opened.text("#waits")) != bool(waits):
            yield "waits", number, opened.text("#waits"), waits
        if opened.links("#from") != [*([] if it.sender is None else [it.sender]), *it.behind[:5]] or opened.links("#to") != [to.number for _, to in sent if to.number is not None]:
            yield "links", number, opened.links("#from"), opened.links("#to")
        fates = opened.do("return [...document.querySelectorAll('#to > div')].map(it => it.textContent)")
        for (_, to), text in zip(sent, fates):
            word = "lost: " if to.fate.is_lost else "pending: " if to.fate.is_pending else "["
            window = f"from tick {to.window[2]} to before {to.window[3]}" if to.window else ""
            if f": {word}" not in text or window not in text or (to.fate is Fate.NO_SWITCH) != ("there is no switch" in text):
                yield "fate", number, text
        if len(fates) != len(sent):
            yield "outs", number, fates
        here = opened.do("return [...document.querySelectorAll('#program .here')].map(it => it.textContent)")
        if not here or not all(re.match(rf"(handle|event) {event.name}\b", line) for line in here):
            yield "line", number, here
        if opened.chips().get((event.switch, 0)) != [number] or opened.text("#at") != str(event.tick):
            yield "pipeline", number, opened.chips()
        if it.sender is not None and it.sender % 2:
            opened.press("c")
            if opened.text("#event-head") != f"Event {it.sender}, line {log.events[it.sender].line} of the log":
                yield "cause", number, opened.text("#event-head")
    lost = sorted({it.sender for it in met.values() if it.fate.is_lost})
    waited = [it.number for it in sorted((it for it in met.values() if it.number is not None and it.behind), key=lambda it: it.number or 0)]
    for words, numbers in (("lost", lost), ("waited", waited), ("0..3 s0", [at for at, it in enumerate(log.events) if it.tick <= 3 and it.switch == 0]), ("note", [at for at, it in enumerate(log.events) if it.name == "note"])):
        found = opened.do("state.event = -1; by('find').value = state.find = arguments[0]; const all = []; for (let k = 0; k < found().length; k++) { search(1); all.push(state.event) } return all", words)
        if found != numbers:
            yield "search", words, found, numbers
    opened.do("choose(arguments[0]); go(state.tick + 1)", lost[0])
    part = "#" + opened.do("return location.hash").lstrip("#")
    opened.open(part)
    if opened.text("#event-head") != f"Event {lost[0]}, line {log.events[lost[0]].line} of the log" or opened.text("#at") != str(log.events[lost[0]].tick + 1):
        yield "address", part, opened.text("#event-head")


def roads(group: Group) -> Tuple[bytes, Log, Dict[Key, Met]]:
    """The page of the network with all fates, its log, and what it met."""
    texts = ROADS.encode(), b'{"stages": 4, "recirc": 1}', json.dumps(SCENE).encode()
    log, met = watched(*texts)
    made = page(group, *(group.file(name, text) for name, text in zip(("roads.luc", "l.json", "t.json"), texts)))
    group.check("a page of roads", made.status == 0, made.err)
    return made.out, read_log(log), met


def test_clicks(group: Group, browser: Optional[webdriver.Chrome]) -> None:
    """What a browser shows of each event of a network is what the network met; keys do what clicks do."""
    if browser is None:
        pytest.skip("chromium and chromedriver are not installed")
    text, log, met = roads(group)
    opened = Page(group, browser, text)
    wrong = next(clicks(opened, log, met, ROADS.splitlines()), None)
    group.check("clicks on events", wrong is None, wrong)
    group.check("a page without complaints", opened.clean())
    opened.open("#event=0")
    opened.press("n")
    group.check("n is the next event", opened.text("#event-head").startswith("Event 1,"), opened.text("#event-head"))
    tick = int(opened.text("#at"))
    opened.press(Keys.ARROW_RIGHT)
    opened.press(Keys.ARROW_RIGHT)
    opened.press(Keys.ARROW_LEFT)
    group.check("arrow keys step a tick", opened.text("#at") == str(tick + 1), opened.text("#at"))
    opened.press("t")
    rows = opened.do("return [...document.querySelectorAll('#rows tbody tr')].map(it => [...it.children].slice(0, 4).map(td => td.textContent).join(' '))")
    group.check("a table of the events", rows == [f"{at} {it.tick} s{it.switch} {it.label()}" for at, it in enumerate(log.events)][:100], rows[:3])
    opened.press("f")
    group.check("what came of an event", opened.links("#tree") == [it.number for it in met.values() if it.sender == 1 and it.number is not None], opened.links("#tree"))
    before = opened.do("return document.querySelector('aside').clientWidth")
    opened.browser.find_element(By.ID, "border").send_keys(Keys.ARROW_RIGHT * 5)
    group.check("keys move the border", opened.do("return document.querySelector('aside').clientWidth") > before + 80)
    drawn = opened.do("by('names').querySelectorAll('.link')[1].click(); return document.querySelectorAll('#time [data-event]').length")
    group.check("no event of a name that is not chosen", drawn == 0, drawn)


def test_mutants(group: Group, browser: Optional[webdriver.Chrome]) -> None:
    """The clicks notice each mutant."""
    if browser is None:
        pytest.skip("chromium and chromedriver are not installed")
    text, log, met = roads(group)
    for name, *changes in MUTANTS:
        other = text.decode()
        for old, new in zip(changes[::2], changes[1::2]):
            group.check(f"{old} is found", old in other)
            other = other.replace(old, new)
        wrong = next(clicks(Page(group, browser, other.encode()), log, met, ROADS.splitlines()), None)
        group.check(f"a page that {name} is noticed", wrong is not None)


def test_exact(group: Group, browser: Optional[webdriver.Chrome]) -> None:
    """Values of 64 bits and ticks beyond the run are shown exactly."""
    own = scene(group, "t.json", [(0, 0, "pkt", [2**64 - 1]), (1, 0, "pkt", [2**53 + 1])], 20)
    made = page(group, group.file("wide.luc", WIDE), group.file("l.json", '{"stages":3}'), own)
    if not group.check("a page of 64 bits", made.status == 0, made.err) or browser is None:
        return
    opened = Page(group, browser, made.out, "#event=0")
    shown = opened.text("#to"), opened.text("#block"), opened.text("#pipes")
    group.check("an event of 64 bits", "pkt(18446744073709551615)" in shown[1] and "pkt(18446744073709551614)" in shown[0] and str(3 + 4294967295) in shown[0], shown)
    opened.do("go(10)")
    cells = opened.do("return [...document.querySelectorAll('[data-cell]')].map(it => it.dataset.cell)")
    group.check("cells of 64 bits", cells == ["last[1] = 9007199254740993"], cells)


def test_hostile(group: Group, browser: Optional[webdriver.Chrome]) -> None:
    """Names of switches with HTML are shown as text, also from a file; odd addresses hang nothing; formats are used everywhere."""
    files = [group.file("hits.luc", HITS), group.file("l.json", '{"stages":3}')]
    own = scene(group, "t.json", [(tick, 0, "hit", [167772161]) for tick in (0, 4)], 10)
    group.file("t.json.names", f"# names\n0={HARM[:40]}\n")
    group.file("hits.luc.show", "hit.v=ip\nx=hex")
    made = page(group, *files, own)
    if not group.check("a page with a name of HTML", made.status == 0 and HARM[:20].encode() not in made.out, made.err) or browser is None:
        return
    for part in ("", "#zoom=-1", "#zoom=0&tick=1e400", "#tick=x&event=y&switches=9,-1,z&cell=1,2", "#event=-1&from=-5&cell=0,9,9", "#find=%3Cb%3E(&names=__proto__,toString"):
        opened = Page(group, browser, made.out, part)
        group.check(f"the page at {part}", opened.clean() and opened.do("return document.title") == "hits.luc" and opened.do("return document.images.length") == 0)
    opened.open("#event=1")
    shown = opened.text("#pipes")
    group.check("names and formats", HARM[:20] in opened.text("#time") and "hit(10.0.0.1)" in shown and "[1] = 0x0a000001" in shown, shown)


def test_crowd(group: Group, browser: Optional[webdriver.Chrome]) -> None:
    """A page of 20,000 events is made in 10 s, has at most 30 MB, is drawn in 2 s, answers a step in 0.2 s, and has not all events in the DOM."""
    links, events = [[0, 1, 3], [1, 2, 4], [2, 3, 5], [0, 3, 2]], [(it, it % 4, "hop", [it % 5]) for it in range(6666)]
    own = scene(group, "crowd.json", events, 20000, switches=4, links=links)
    files = group.file("crowd.luc", CROWD), group.file("six.json", '{"stages":6}'), own
    start = time.process_time(), time.monotonic()
    made = page(group, *files)
    spent, data = time.monotonic() - start[1], data_of(made)
    if not group.check("a page of 20,000 events", len(data.get("events", [])) > 19_000 and len(made.out) < 30e6, made.err):
        return
    few = data_of(page(group, *files, "--cells", "100"))
    group.check("no cells beyond --cells", few["cells"] is None and any("Cells are not shown" in it for it in few["about"]), few["about"])
    group.note(f"page: {len(data['events']):,} events in {len(made.out) / 1e6:.1f} MB, made in {spent:.1f} s")
    group.check("it is made in 10 s, and on a busy machine in 60", spent < 60, spent)
    if browser is None:
        return
    start = time.monotonic(), 0.0
    opened = Page(group, browser, made.out, f"#tick={data['events'][10000]['at']}")
    loaded = time.monotonic() - start[0]
    pipelines(group, browser, "20,000 events", made.out, data)
    step = opened.do("const start = performance.now(); for (let k = 0; k < 10; k++) go(state.tick + 1); return performance.now() - start") / 10
    count = opened.do("state.scale = 0.125; state.from = 0; drawAll(); return document.querySelectorAll('[data-event]').length")
    group.check("not all events are in the DOM", 0 < count < 2000, count)
    group.check("it is drawn in 2 s and steps in 0.2 s, and on a busy machine in five times that", loaded < 10 and step < 1000, (loaded, step))
    group.note(f"page: drawn in {loaded:.2f} s, a step in {step:.0f} ms")
