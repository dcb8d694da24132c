"""Shapes and texts of a picture. They are collected in layers until the size of the whole picture is known."""
import html
from typing import Dict, List, Optional

# A letter of the two fonts is this wide. Labels have at most CUT letters; a longer text keeps its last TAIL letters, which are arguments or a value.
LETTER, SMALL, CUT, TAIL = 7.25, 6.65, 40, 12
# None of the colours is near the red of what was lost.
SHADES = "#4477aa #ee7733 #228833 #9955bb #3aa0c4 #b8960c #777777 #332288 #7a9a01 #994f00 #00897b #5c6bc0".split()
RED = "#c00"
STYLE = """<style>
text { font: 12px "DejaVu Sans Mono", Menlo, Consolas, monospace; fill: #222; white-space: pre }
.small { font-size: 11px }
.big { font-size: 13px }
.big, .bold { font-weight: bold }
.grey { fill: #777 }
.red { fill: #c00 }
.white { fill: #fff; font-weight: bold }
</style>
"""


def escaped(text: str) -> str:
    return html.escape(text, quote=True)


def number(x: float) -> str:
    return f"{x:.1f}".rstrip("0").rstrip(".") if x != 0 else "0"


def cut(text: str) -> str:
    """A label of at most CUT letters."""
    return text if len(text) <= CUT else text[:CUT - TAIL - 1] + "…" + text[-TAIL:]


def width_of(text: str, letter: float = LETTER) -> float:
    return len(cut(text)) * letter


class Picture:
    """A picture in four layers: a layer is drawn over those of smaller numbers."""

    def __init__(self) -> None:
        self.layers: List[List[str]] = [[] for _ in range(5)]
        self.right = self.foot = 0.0

    def put(self, layer: int, name: str, look: str, title: Optional[str] = None, **places: float) -> None:
        """Adds a shape with these attributes, and with a tooltip if it has a title."""
        words = "".join(f' {key}="{number(value)}"' for key, value in places.items())
        inside = "/>" if title is None else f"><title>{escaped(title)}</title></{name}>"
        self.layers[layer].append(f"<{name}{words}{' ' if look else ''}{look}{inside}")

    def line(self, layer: int, x: float, y: float, x2: float, y2: float, look: str, title: Optional[str] = None) -> None:
        self.put(layer, "line", look, title, x1=x, y1=y, x2=x2, y2=y2)

    def box(self, layer: int, x: float, y: float, width: float, height: float, look: str, title: Optional[str] = None) -> None:
        self.put(layer, "rect", look, title, x=x, y=y, width=width, height=height)

    def dot(self, layer: int, x: float, y: float, radius: float, look: str, title: Optional[str] = None) -> None:
        self.put(layer, "circle", look, title, cx=x, cy=y, r=radius)

    def path(self, layer: int, way: str, look: str, title: Optional[str] = None) -> None:
        self.put(layer, "path", f'd="{way}" {look}', title)

    def cross(self, layer: int, x: float, y: float, title: Optional[str] = None) -> None:
        self.path(layer, f"M{number(x - 4)} {number(y - 4)} l8 8 m0 -8 l-8 8", f'fill="none" stroke="{RED}" stroke-width="2"', title)

    def write(self, layer: int, x: float, y: float, text: str, kind: str = "", middle: bool = False, title: Optional[str] = None) -> None:
        """Writes a text that begins at x, or has its middle there, with its feet at y. A cut text has the whole one as its tooltip."""
        short = cut(text)
        tip = title if title is not None else text if short != text else None
        words = f' class="{kind}"' if kind else ""
        words += ' text-anchor="middle"' if middle else ""
        inside = escaped(short) + ("" if tip is None else f"<title>{escaped(tip)}</title>")
        self.layers[layer].append(f'<text x="{number(x)}" y="{number(y)}"{words}>{inside}</text>')
        wide = len(short) * (SMALL if "small" in kind else LETTER)
        self.right = max(self.right, x + (wide / 2 if middle else wide))
        self.foot = max(self.foot, y + 4)

    def write_all(self, layer: int, x: float, y: float, text: str, kind: str = "") -> None:
        """Writes a line of the picture's own words, which is not cut, however long it is. Its parts end before a blank: some viewers drop the
        blank at the start of a text."""
        at = 0
        while at < len(text):
            end = len(text) if len(text) - at <= CUT else text.rindex(" ", at, at + CUT + 1)
            self.write(layer, x + at * (SMALL if "small" in kind else LETTER), y, text[at:end], kind)
            at = end + 1

    def write_over(self, x: float, y: float, text: str, kind: str = "", title: Optional[str] = None) -> None:
        """Writes a text that stays readable over lines, on a white box through which they show faintly."""
        letter = SMALL if "small" in kind else LETTER
        self.box(3, x - 2, y - 11, width_of(text, letter) + 4, 14, 'fill="#fff" opacity="0.85"')
        self.write(4, x, y, text, kind, title=title)

    def text(self) -> str:
        """The whole picture."""
        width, height = int(self.right + 12), int(self.foot + 14)
        head = f'<svg xmlns="http://www.w3.org/2000/svg" width="{width}" height="{height}" viewBox="0 0 {width} {height}">\n'
        shapes = "\n".join(it for layer in self.layers for it in layer)
        return f'{head}{STYLE}<rect width="100%" height="100%" fill="#fff"/>\n{shapes}\n</svg>\n'


class Colours:
    """A colour for each name, in the order in which names are first seen. The second dozen of names is marked by white stripes."""

    def __init__(self) -> None:
        self.number: Dict[str, int] = {}

    def of(self, name: str) -> str:
        return SHADES[self.number.setdefault(name, len(self.number)) % len(SHADES)]

    def is_striped(self, name: str) -> bool:
        return self.number.setdefault(name, len(self.number)) // len(SHADES) % 2 == 1
