"""Where the boxes of a picture stand: in rows, in groups, on a circle, or by how far apart they are in cables. Places
are of the middle of boxes, in units of an SVG picture, with y downwards."""
from __future__ import annotations

import math
from collections.abc import Collection, Iterable, Sequence

from rows import components, distances, ordered, places

Spot, Size = tuple[float, float], tuple[float, float]
# The least space between boxes beside each other, between rows, and around the boxes of a group.
BESIDE, BELOW, AROUND = 18.0, 76.0, 14.0
# The space between rows grows with their width, by this part of it and up to this.
FLATTEST, DEEPEST = 0.25, 800.0
# How often places are moved towards the distances that they should have, and apart where boxes overlap.
PULLS, PUSHES = 120, 200
# With so many boxes at most, places follow from distances; more stand on a circle.
MOST_PULLED = 160


def in_rows(beside: dict[int, list[int]], rank: dict[int, int], sizes: dict[int, Size]) -> dict[int, Spot]:
    """Returns the places of boxes in straight rows, each in the order in which few cables cross. Boxes of a row are
    spread over the width of the widest row."""
    rows = ordered(beside, rank) if rank else []
    across = max((sum(sizes[it][0] + BESIDE for it in row) for row in rows), default=0)
    right, found, top = places(rows), {}, 0.0
    for row in rows:
        high = max(sizes[it][1] for it in row)
        wide = sum(sizes[it][0] + BESIDE for it in row)
        # Rows of boxes of one width are spread evenly; others stand side by side, as wide as they are.
        at = 0.0
        for it in row:
            even = across * right[it]
            tight = (across - wide) / 2 + at + (sizes[it][0] + BESIDE) / 2
            at += sizes[it][0] + BESIDE
            is_even = all(abs(sizes[it][0] - sizes[other][0]) < 1 for other in row) or wide < across / 2
            # The tops of a row's boxes are level.
            found[it] = (even if is_even else tight), top + sizes[it][1] / 2
        top += high + max(BELOW, min(DEEPEST, FLATTEST * across / max(1, len(rows) - 1)))
    return found


def by_distance(beside: dict[int, list[int]], sizes: dict[int, Size]) -> dict[int, Spot]:
    """Returns places at which boxes are as far apart as they are in cables, as far as that can be, with the components
    beside each other."""
    found, right = {}, 0.0
    for part in sorted(components(beside, beside), key=lambda it: -len(it)):
        spots = component(beside, part, sizes)
        left = min((x - sizes[it][0] / 2 for it, (x, _) in spots.items()))
        found |= {it: (x - left + right, y) for it, (x, y) in spots.items()}
        right = max(x + sizes[it][0] / 2 for it, (x, _) in found.items()) + 3 * BESIDE
    return found


def component(beside: dict[int, list[int]], part: Sequence[int], sizes: dict[int, Size]) -> dict[int, Spot]:
    """Returns the places of the boxes of a component."""
    wide = max(max(sizes[it]) for it in part) + BESIDE
    cables = sum(len(set(beside[it]) & set(part)) for it in part) / 2
    if len(part) > MOST_PULLED or len(part) > 3 and 2 * cables > 0.7 * len(part) * (len(part) - 1):
        return apart(dict(zip(part, circle(len(part), wide))), sizes)
    away = {it: distances({at: [far for far in beside[at] if far != at] for at in part}, [it]) for it in part}
    step = 1.5 * wide
    spots = dict(zip(by_walk(beside, part), circle(len(part), wide)))
    for _ in range(PULLS):
        spots = {it: pulled(it, spots, away[it], step) for it in part}
    return apart(upright(spots), sizes)


def by_walk(beside: dict[int, list[int]], part: Sequence[int]) -> list[int]:
    """Returns the boxes of a component in the order in which a walk that goes on as long as it can comes to them."""
    seen, stack = {}, [part[0]]
    while stack:
        at = stack.pop()
        if at not in seen:
            seen[at] = None
            stack += sorted((far for far in set(beside[at]) if far not in seen), reverse=True)
    return list(seen)


def pulled(at: int, spots: dict[int, Spot], away: dict[int, int], step: float) -> Spot:
    """Returns the mean of the places at which a box would be as far from each other box as it is in cables, by which
    nearer boxes count more."""
    x, y = spots[at]
    across = down = weights = 0.0
    for far, cables in away.items():
        if cables:
            u, v = spots[far]
            length = math.hypot(x - u, y - v) or 1.0
            weight, scale = 1 / (cables * cables), cables * step / length
            across += weight * (u + scale * (x - u))
            down += weight * (v + scale * (y - v))
            weights += weight
    return (across / weights, down / weights) if weights else (x, y)


def upright(spots: dict[int, Spot]) -> dict[int, Spot]:
    """Returns places turned so that they are spread more across than down."""
    count = len(spots)
    x, y = (sum(it[i] for it in spots.values()) / count for i in (0, 1))
    xx = sum((it[0] - x) ** 2 for it in spots.values())
    yy = sum((it[1] - y) ** 2 for it in spots.values())
    xy = sum((it[0] - x) * (it[1] - y) for it in spots.values())
    turn = -0.5 * math.atan2(2 * xy, xx - yy)
    cos, sin = math.cos(turn), math.sin(turn)
    return {at: (cos * (u - x) - sin * (v - y), sin * (u - x) + cos * (v - y)) for at, (u, v) in spots.items()}


def apart(spots: dict[int, Spot], sizes: dict[int, Size]) -> dict[int, Spot]:
    """Returns places at which no two boxes overlap: boxes that do are pushed apart, and in the end all places are
    spread as far as is left to do."""
    found, order = {it: list(spot) for it, spot in spots.items()}, sorted(spots)
    for _ in range(PUSHES):
        is_moved = False
        for i, one in enumerate(order):
            for other in order[i + 1 :]:
                is_moved |= push(found[one], found[other], sizes[one], sizes[other])
        if not is_moved:
            break
    scale = 1.0
    for i, one in enumerate(order):
        for other in order[i + 1 :]:
            x, y = abs(found[one][0] - found[other][0]), abs(found[one][1] - found[other][1])
            across, down = needed(sizes[one], sizes[other])
            if x < across - 1 and y < down - 1:
                scale = max(scale, min(across / max(x, 1e-3), down / max(y, 1e-3), 3.0))
    return {it: (scale * x, scale * y) for it, (x, y) in found.items()}


def needed(one: Size, other: Size) -> Size:
    """Returns how far the middles of two boxes must be apart across, or else down."""
    return (one[0] + other[0]) / 2 + BESIDE, (one[1] + other[1]) / 2 + BESIDE


def push(one: list[float], other: list[float], size: Size, size_of_other: Size) -> bool:
    """Moves two boxes apart by half of what they overlap, in the direction in which that is less. Returns whether they
    overlap."""
    across, down = needed(size, size_of_other)
    x, y = other[0] - one[0], other[1] - one[1]
    if abs(x) >= across or abs(y) >= down:
        return False
    if across - abs(x) < down - abs(y):
        step, i = math.copysign((across - abs(x)) / 2 + 0.1, x), 0
    else:
        step, i = math.copysign((down - abs(y)) / 2 + 0.1, y), 1
    one[i] -= step
    other[i] += step
    return True


def circle(count: int, wide: float, start: float = -math.pi / 2) -> list[Spot]:
    """Returns places on a circle around (0, 0), `wide` apart, clockwise from an angle."""
    radius = 0 if count < 2 else wide / 2 / math.sin(math.pi / count)
    turns = (start + 2 * math.pi * i / max(count, 1) for i in range(count))
    return [(radius * math.cos(turn), radius * math.sin(turn)) for turn in turns]


def in_grid(groups: Sequence[Sequence[int]], sizes: dict[int, Size]) -> dict[int, Spot]:
    """Returns the places of boxes in a row for each group, one below the other."""
    wide = max(sizes[it][0] for row in groups for it in row) + 4 * BESIDE
    high = max(sizes[it][1] for row in groups for it in row) + BELOW
    return {it: (wide * i, high * row) for row, members in enumerate(groups) for i, it in enumerate(members)}


def in_circles(groups: Sequence[Sequence[int]], sizes: dict[int, Size]) -> dict[int, Spot]:
    """Returns the places of boxes on a circle for each group, whose first member stands towards the middle of the
    picture; the groups stand on a large circle."""
    inner = []
    for members in groups:
        wide = max(max(sizes[it][0], 1.6 * sizes[it][1]) for it in members) + BESIDE
        inner.append((members, wide))
    sides = [2 * reach(len(members), wide) + wide + 3 * AROUND for members, wide in inner]
    found = {}
    for (members, wide), (x, y) in zip(inner, circle(len(groups), 1.15 * max(sides))):
        start = math.atan2(-y, -x) if len(groups) > 1 else -math.pi / 2
        for it, (dx, dy) in zip(members, circle(len(members), wide, start)):
            found[it] = x + dx, y + dy
    return found


def reach(count: int, wide: float) -> float:
    """Returns the radius of a circle on which places are `wide` apart."""
    return 0 if count < 2 else wide / 2 / math.sin(math.pi / count)


def around(members: Iterable[int], spots: dict[int, Spot], sizes: dict[int, Size], head: float) -> tuple[float, ...]:
    """Returns the frame around boxes, as its middle, width and height, with `head` of room for a title."""
    boxes = [(*spots[it], *sizes[it]) for it in members]
    left = min(x - w / 2 for x, _, w, _ in boxes) - AROUND
    right = max(x + w / 2 for x, _, w, _ in boxes) + AROUND
    top, low = min(y - h / 2 for _, y, _, h in boxes) - AROUND - head, max(y + h / 2 for _, y, _, h in boxes) + AROUND
    return (left + right) / 2, (top + low) / 2, right - left, low - top


def sided(one: Spot, other: Spot, spots: Collection[tuple[float, float, float, float]]) -> float:
    """Returns how far aside the line between two places must swing to pass by boxes (middle, width, height) that stand
    on it; 0 if none does."""
    (x, y), (u, v) = one, other
    length = math.hypot(u - x, v - y)
    if length < 1:
        return 0.0
    along, across = ((u - x) / length, (v - y) / length), (-(v - y) / length, (u - x) / length)
    swing, side = 0.0, 0.0
    for mx, my, wide, high in spots:
        at = (mx - x) * along[0] + (my - y) * along[1]
        off = (mx - x) * across[0] + (my - y) * across[1]
        # Half of what the box takes across the line.
        half = abs(across[0]) * wide / 2 + abs(across[1]) * high / 2 + 3
        if 0 < at < length and abs(off) < half:
            part = min(max(at / length, 0.2), 0.8)
            swing, side = max(swing, (half - abs(off) + 4) / (4 * part * (1 - part))), side + off
    return math.copysign(swing, -side) if swing else 0.0


def bent(one: Spot, other: Spot, swing: float) -> Spot:
    """Returns the control point of the arc between two places whose middle is `swing` aside from the straight line."""
    (x, y), (u, v) = one, other
    length = math.hypot(u - x, v - y) or 1.0
    return (x + u) / 2 - 2 * swing * (v - y) / length, (y + v) / 2 + 2 * swing * (u - x) / length


def border(box: tuple[float, float, float, float], towards: Spot) -> Spot:
    """Returns where the line from the middle of a box to a place leaves the box."""
    x, y, wide, high = box
    dx, dy = towards[0] - x, towards[1] - y
    part = min([1.0] + ([wide / 2 / abs(dx)] if dx else []) + ([high / 2 / abs(dy)] if dy else []))
    return x + part * dx, y + part * dy
