"""A picture of the groups of crates, and of the ways of commands through them: for `tests/crates`."""
from __future__ import annotations

import html
from collections.abc import Iterator

# Each command with the color of its line, the crate that does it, and the groups that it goes through, as crates.txt
# names them up to a colon.
WAYS = {
    "plan": ("#1f5fd0", "sm_cli", ("The wire", "Lists", "Facts", "The plan", "The program")),
    "audit": ("#c03020", "audit_run", ("The wire", "Lists", "Facts", "The plan", "The audit", "The program")),
    "next": ("#1a7f37", "next_run", ("The wire", "Lists", "Facts", "The plan", "The audit", "The program")),
    "run": (
        "#a05a00",
        "schedule_run",
        ("The wire", "Lists", "Facts", "The plan", "The manager", "The fabric", "The program"),
    ),
    "serve": (
        "#7a3fb0",
        "serve_task",
        (
            *("The wire", "Lists", "Facts", "The plan", "The manager", "The fabric"),
            *("The lines of a live manager", "The program"),
        ),
    ),
}
WIDTH, MARGIN, GAP = 900, 16, 10
# Where text ends and lines begin, and how far these are apart.
TEXT_WIDTH, FIRST_LINE, LINE_GAP = 610, 664, 46
# A font of fixed width: a letter takes 0.6 of its size, and a little more in some fonts.
SIZE, LETTER, ROW = 12, 7.4, 17
TOP = 58
LABEL = "The groups of crates from the laws down to the wire, and the ways of plan, audit, next, run and serve."
LEGEND = (
    "The lowest groups are at the bottom. A line is the way of a command from what it reads, at the bottom,",
    "to what it prints; each dot is in a group that it goes through. No command goes through the laws.",
)


def rows_of(crates: list[str]) -> list[str]:
    """Returns the names of crates in rows that fit into a box."""
    rows = [""]
    for it in crates:
        longer = f"{rows[-1]}  {it}".strip()
        if len(longer) * LETTER <= TEXT_WIDTH:
            rows[-1] = longer
        else:
            rows.append(it)
    return rows


def text_at(x: float, y: float, said: str, more: str = "") -> str:
    """Returns a text at a point."""
    return f'<text x="{x}" y="{y}"{more} xml:space="preserve">{html.escape(said)}</text>'


def picture(groups: list[tuple[str, list[str]]]) -> str:
    """Returns the picture as SVG. Each group has its heading and its crates."""
    boxes, y = [], TOP
    for heading, crates in reversed(groups):
        rows = rows_of(crates)
        height = 30 + ROW * len(rows) + (12 if len(rows) == 1 else 0)
        boxes.append((heading, rows, y, height))
        y += height + GAP
    height = y - GAP + MARGIN
    return "\n".join(
        (
            f'<svg xmlns="http://www.w3.org/2000/svg" width="{WIDTH}" height="{height}" '
            f'viewBox="0 0 {WIDTH} {height}" role="img" aria-labelledby="crates-title">',
            f'<title id="crates-title">{LABEL}</title>',
            f'<rect width="{WIDTH}" height="{height}" fill="white"/>',
            '<g font-family="sans-serif" font-size="13" fill="#222222">',
            *(text_at(MARGIN, 22 + 18 * number, line) for number, line in enumerate(LEGEND)),
            "</g>",
            *drawn_boxes(boxes),
            *drawn_lines({heading.partition(":")[0]: (top, high) for heading, _, top, high in boxes}),
            "</svg>\n",
        )
    )


def drawn_boxes(boxes: list[tuple[str, list[str], int, int]]) -> Iterator[str]:
    """Yields the boxes with their texts."""
    yield '<g fill="#f3f3f0" stroke="#888888">'
    for _, _, top, high in boxes:
        yield f'<rect x="{MARGIN}" y="{top}" width="{WIDTH - 2 * MARGIN}" height="{high}" rx="6"/>'
    yield '</g>\n<g font-family="sans-serif" font-size="14" font-weight="bold" fill="#222222">'
    for heading, _, top, _ in boxes:
        yield text_at(MARGIN + 12, top + 20, heading)
    yield f'</g>\n<g font-family="monospace" font-size="{SIZE}" fill="#222222">'
    for _, rows, top, _ in boxes:
        for number, row in enumerate(rows):
            yield text_at(MARGIN + 12, top + 20 + ROW * (number + 1), row)
    yield "</g>"


def drawn_lines(boxes: dict[str, tuple[int, int]]) -> Iterator[str]:
    """Yields the line of each command with its dots, and its name at its upper end."""
    for number, (command, (color, _, groups)) in enumerate(WAYS.items()):
        x = FIRST_LINE + LINE_GAP * number
        points = [boxes[it][0] + boxes[it][1] // 2 + (10 if it == "The program" else 0) for it in groups]
        yield f'<g fill="{color}" stroke="{color}">'
        yield f'<line x1="{x}" y1="{points[0]}" x2="{x}" y2="{points[-1]}" stroke-width="3"/>'
        for point in points:
            yield f'<circle cx="{x}" cy="{point}" r="6"/>'
        more = ' stroke="none" font-family="sans-serif" font-size="13" font-weight="bold" text-anchor="middle"'
        yield text_at(x, points[-1] - 13, command, more)
        yield "</g>"


def wrong_ways(groups: list[tuple[str, list[str]]], named: dict[str, list[str]]) -> Iterator[str]:
    """Yields each group on a way that the crate of its command does not stand on."""
    short = {heading.partition(":")[0]: set(crates) for heading, crates in groups}
    for command, (_, crate, way) in WAYS.items():
        met, open_ones = set(), [crate]
        while open_ones:
            it = open_ones.pop()
            if it not in met:
                met.add(it)
                open_ones += named.get(it, ())
        for it in way:
            if not short.get(it, set()) & met:
                yield f"{command} is drawn through the group '{it}', which {crate} does not stand on"
