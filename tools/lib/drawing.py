"""A picture of boxes and lines, as SVG that needs nothing else, in light and dark. Tools say what stands in it."""
from __future__ import annotations

import collections
import dataclasses
import html
import math
import pathlib
import re

from spots import Spot, bent, border, sided

HERE = pathlib.Path(__file__).resolve().parent
# In units of the picture: the width of a letter, the height of a line of text, the room around text in a box, the least
# width of a box, and the distance between lines that join the same boxes.
LETTER, TEXT, INSIDE, LEAST, BETWEEN = 6.9, 14.0, 7.0, 46.0, 4.5
# Up to so many boxes, lines pass by boxes that they do not join.
MOST_PASSED = 150
# With more lines, all but those of a way or a credit loop are thin.
MOST_THICK = 250
# The least and the greatest height of the arc of a line within a row, and how far left of a box a line leads down to
# it.
ARC, HIGHEST, HANGS = 14.0, 60.0, 8.0
# Steps of the colours for loads, and how many times the mean the last step begins at.
STEPS, GREATEST = 10, 3.0


@dataclasses.dataclass
class Box:
    """A box with lines of text. Its kind is `switch`, `adapter` or `group`; `marks` are more words of its class."""

    lines: list[str]
    kind: str = "switch"
    marks: str = ""
    title: str = ""
    data: str = ""
    place: Spot = (0.0, 0.0)

    def size(self) -> tuple[float, float]:
        """Returns the width and the height that the text needs."""
        wide = max([LEAST] + [LETTER * len(line) + 2 * INSIDE for line in self.lines])
        return wide, TEXT * max(1, len(self.lines)) + INSIDE

    def box(self) -> tuple[float, float, float, float]:
        """Returns the middle, the width and the height."""
        return *self.place, *self.size()


@dataclasses.dataclass
class Line:
    """A line between the boxes of two keys. `arrows` are the ends that have an arrow: `>` the other one, `<` the first
    one. `ports` are written at its ends, and `label` in its middle. A line that hangs leads down from its first box,
    and then from the left to the other one. `ends` are where it leaves boxes that stand in rows."""

    one: object
    other: object
    marks: str = ""
    arrows: str = ""
    ports: tuple[object, object] | None = None
    label: str = ""
    title: str = ""
    data: str = ""
    rank: float = 0.0
    beside: float = 0.0
    hangs: bool = False
    ends: tuple[Spot, Spot] | None = None

    def hang(self, homes: dict[object, object]) -> None:
        """Lets the line hang from the box that is the home of the other one, which then is its first. Its ports are
        in its title alone."""
        self.hangs, self.ports = True, None
        if homes.get(self.one) == self.other:
            self.one, self.other = self.other, self.one
            self.arrows = self.arrows.translate(str.maketrans("<>", "><"))


def escaped(text: object) -> str:
    """Returns a value as text of HTML or SVG."""
    return html.escape(str(text))


def heat(load: int, mean: float) -> str:
    """Returns the class of the colour for a load, by how many times the mean it is."""
    return f"h{min(STEPS, int(STEPS * load / mean / GREATEST + 0.5))}" if load and mean else "unused"


def style() -> str:
    """Returns the style of pictures."""
    return re.sub(r"/\*.*?\*/\n?", "", (HERE / "picture.css").read_text(), flags=re.DOTALL)


class Drawing:
    """The boxes of a picture by key, its lines, and frames with names: middle, width and height. `rows` has the row of
    each box that stands in one."""

    def __init__(self) -> None:
        self.boxes: dict[object, Box] = {}
        self.lines: list[Line] = []
        self.frames: dict[str, tuple[float, ...]] = {}
        self.rows: dict[object, int] = {}

    def edges(self) -> tuple[float, float, float, float]:
        """Returns the left, top, width and height of what is drawn."""
        boxes = [it.box() for it in self.boxes.values()] + list(self.frames.values()) or [(0, 0, 100, 40)]
        for line in self.lines:
            if line.hangs:
                x, y, wide, _ = self.boxes[line.other].box()
                boxes.append((x - wide / 2 - HANGS, y, 12, 0))
            if line.beside:
                (x, y), (u, v) = self.boxes[line.one].place, self.boxes[line.other].place
                cx, cy = bent((x, y), (u, v), line.beside)
                boxes.append(((x + u) / 4 + cx / 2, (y + v) / 4 + cy / 2, 0, 0))
        left, right = min(x - w / 2 for x, _, w, _ in boxes) - 16, max(x + w / 2 for x, _, w, _ in boxes) + 16
        top, low = min(y - h / 2 for _, y, _, h in boxes) - 16, max(y + h / 2 for _, y, _, h in boxes) + 16
        return left, top, right - left, low - top

    def swing(self) -> None:
        """Lets lines swing past boxes that stand on them, and puts lines beside each other that join the same boxes."""
        passes, swings = len(self.boxes) <= MOST_PASSED, {}
        lines = [line for line in self.lines if not line.hangs and line.one != line.other]
        for line in lines:
            pair = frozenset((line.one, line.other))
            if passes and pair not in swings and not pair <= self.rows.keys():
                others = [it.box() for key, it in self.boxes.items() if key not in pair]
                ends = sorted(self.boxes[key].place for key in pair)
                swings[pair] = sided(*ends, others)
        beside = collections.Counter(frozenset((line.one, line.other)) for line in lines)
        taken = collections.Counter()
        for line in lines:
            pair = frozenset((line.one, line.other))
            is_turned = self.boxes[line.one].place > self.boxes[line.other].place
            own = BETWEEN * (taken[pair] - (beside[pair] - 1) / 2)
            taken[pair] += 1
            line.beside = (-1 if is_turned else 1) * (swings.get(pair, 0.0) + own)
        self.attach([line for line in lines if {line.one, line.other} <= self.rows.keys()])

    def attach(self, lines: list[Line]) -> None:
        """Spreads the ends of lines between rows over the lower and upper borders of boxes, in the order of where they
        lead, so that no line passes behind a box of its rows. Lines within a row are arcs."""
        ends = collections.defaultdict(list)
        for line in lines:
            for own, far in ((line.one, line.other), (line.other, line.one)):
                step = self.rows[far] - self.rows[own]
                ends[own, 1 if step > 0 else -1].append((self.boxes[far].place[0], line.beside, id(line)))
        spots = {}
        for (own, side), found in ends.items():
            x, y, wide, high = self.boxes[own].box()
            for i, (_, _, line) in enumerate(sorted(found)):
                spots[line, own] = x + 0.8 * wide * ((i + 0.5) / len(found) - 0.5), y + side * high / 2
        for line in lines:
            line.ends = spots[id(line), line.one], spots[id(line), line.other]
            if self.rows[line.one] == self.rows[line.other]:
                (x, y), (u, _) = line.ends
                # The middle of an arc over a row lies above it, whichever of its ends is on the left.
                line.beside = math.copysign(min(ARC + 0.05 * abs(x - u), HIGHEST), x - u)
            else:
                line.beside = 0.0

    def svg(self, is_alone: bool = False, name: str = "net") -> str:
        """Returns the picture as an element of a page, or as a file of its own."""
        self.swing()
        left, top, wide, high = self.edges()
        size = f'width="{wide:.0f}" height="{high:.0f}" ' if is_alone else ""
        head = '<?xml version="1.0" encoding="UTF-8"?>\n' if is_alone else ""
        space = ' xmlns="http://www.w3.org/2000/svg"' if is_alone else ""
        dense = " dense" * (len(self.lines) > MOST_THICK)
        parts = [
            f'{head}<svg{space} id="{name}" class="net{dense}" {size}'
            f'viewBox="{left:.0f} {top:.0f} {wide:.0f} {high:.0f}" role="img">'
        ]
        if is_alone:
            parts.append(f"<style>{style()}</style>")
            parts.append(
                f'<rect class="ground" x="{left:.0f}" y="{top:.0f}" width="{wide:.0f}" height="{high:.0f}"/>'
            )
        parts += [self.frame(*frame) for frame in self.frames.items()]
        parts += [self.line(line) for line in sorted(self.lines, key=lambda it: it.rank)]
        parts += [self.box(key) for key in self.boxes]
        return "\n".join(parts) + "</svg>" + ("\n" if is_alone else "")

    def frame(self, name: str, box: tuple[float, ...]) -> str:
        """Returns the frame of a group, with its name."""
        x, y, wide, high = box
        return (
            f'<rect class="frame" x="{x - wide / 2:.1f}" y="{y - high / 2:.1f}" width="{wide:.1f}" '
            f'height="{high:.1f}" rx="8"/><text class="group" x="{x:.1f}" y="{y - high / 2 + 15:.1f}">'
            f"{escaped(name)}</text>"
        )

    def box(self, key: object) -> str:
        """Returns a box with its text."""
        it = self.boxes[key]
        x, y, wide, high = it.box()
        round_by = {"adapter": high / 2, "group": 10}.get(it.kind, 4)
        data = f' data-box="{escaped(it.data)}"' if it.data else ""
        parts = [f'<g class="{escaped(" ".join(filter(None, (it.kind, it.marks))))}"{data}>']
        if it.title:
            parts.append(f"<title>{escaped(it.title)}</title>")
        parts.append(
            f'<rect class="node" x="{x - wide / 2:.1f}" y="{y - high / 2:.1f}" width="{wide:.1f}" '
            f'height="{high:.1f}" rx="{round_by:.0f}"/>'
        )
        top = y - TEXT * len(it.lines) / 2 + TEXT * 0.76
        for i, line in enumerate(it.lines):
            word = ' class="more"' if i else ""
            parts.append(f'<text{word} x="{x:.1f}" y="{top + TEXT * i:.1f}">{escaped(line)}</text>')
        return "".join(parts) + "</g>"

    def line(self, line: Line) -> str:
        """Returns a line with its ends at the borders of its boxes, its arrows and its texts."""
        one, other = self.boxes[line.one].box(), self.boxes[line.other].box()
        if line.one == line.other:
            return self.ring(line, one)
        middle = bent(*(line.ends or (one[:2], other[:2])), line.beside)
        start, end = line.ends or (border(one, middle), border(other, middle))
        way = f"M{start[0]:.1f} {start[1]:.1f}Q{middle[0]:.1f} {middle[1]:.1f} {end[0]:.1f} {end[1]:.1f}"
        if line.hangs:
            end = other[0] - other[2] / 2, other[1]
            middle = start = end[0] - HANGS, max(one[1] + one[3] / 2, end[1] - 12)
            left, low = one[0] - one[2] / 2 + 3, one[1] + one[3] / 2
            way = f"M{max(left, middle[0]):.1f} {low:.1f}L{middle[0]:.1f} {low + 3:.1f}V{end[1]:.1f}H{end[0]:.1f}"
            if line.arrows:
                middle = start = middle[0], end[1]
        elif abs(line.beside) < 0.5:
            middle = (start[0] + end[0]) / 2, (start[1] + end[1]) / 2
            way = f"M{start[0]:.1f} {start[1]:.1f}L{end[0]:.1f} {end[1]:.1f}"
        data = f' data-c="{escaped(line.data)}"' if line.data else ""
        parts = [f'<g class="cable {escaped(line.marks)}"{data}>']
        if line.title:
            parts.append(f"<title>{escaped(line.title)}</title>")
        if line.data:
            parts.append(f'<path class="hit" d="{way}"/>')
        parts.append(f'<path class="way" d="{way}"/>')
        if ">" in line.arrows:
            parts.append(arrow(end, middle if abs(line.beside) >= 0.5 else start))
        if "<" in line.arrows:
            parts.append(arrow(start, middle if abs(line.beside) >= 0.5 else end))
        for port, at, far in zip(line.ports or (), (start, end), (end, start)):
            parts.append(port_text(port, at, middle if abs(line.beside) >= 0.5 else far))
        if line.label:
            x, y = (start[0] + 2 * middle[0] + end[0]) / 4, (start[1] + 2 * middle[1] + end[1]) / 4
            parts.append(f'<text class="number" x="{x:.1f}" y="{y + 4:.1f}">{escaped(line.label)}</text>')
        return "".join(parts) + "</g>"

    def ring(self, line: Line, box: tuple[float, float, float, float]) -> str:
        """Returns the line of a cable that joins a box to itself."""
        x, y, wide, high = box
        return (
            f'<g class="cable {escaped(line.marks)}"><path class="way" d="M{x + wide / 4:.1f} {y - high / 2:.1f}'
            f'C{x + wide / 4:.1f} {y - high - 22:.1f} {x - wide / 4:.1f} {y - high - 22:.1f} {x - wide / 4:.1f} '
            f'{y - high / 2:.1f}"/></g>'
        )


def arrow(tip: Spot, start: Spot) -> str:
    """Returns an arrow's head at a place, as of a line that comes from another place."""
    length = math.hypot(tip[0] - start[0], tip[1] - start[1]) or 1.0
    x, y = (tip[0] - start[0]) / length, (tip[1] - start[1]) / length
    corners = [tip] + [(tip[0] - 13 * x - side * 6 * y, tip[1] - 13 * y + side * 6 * x) for side in (1, -1)]
    return '<path class="head" d="M' + "L".join(f"{u:.1f} {v:.1f}" for u, v in corners) + 'Z"/>'


def port_text(port: object, at: Spot, towards: Spot) -> str:
    """Returns the number of a port beside the end of its line."""
    length = math.hypot(towards[0] - at[0], towards[1] - at[1]) or 1.0
    x, y = (towards[0] - at[0]) / length, (towards[1] - at[1]) / length
    return f'<text class="port" x="{at[0] + 11 * x - 6 * y:.1f}" y="{at[1] + 11 * y + 6 * x + 3:.1f}">{port}</text>'
