"""Switches and adapters in rows, from the top switches down, each row in an order in which few cables cross."""
from __future__ import annotations

import collections
from collections.abc import Collection, Iterable, Iterator, Sequence

# How often rows are ordered by their neighbors, each time from below and from above.
SWEEPS = 6


def distances(beside: dict[int, list[int]], starts: Iterable[int]) -> dict[int, int]:
    """Returns, for each reachable node, how many cables it is away from the nearest of `starts`."""
    found = dict.fromkeys(starts, 0)
    waiting = collections.deque(found)
    while waiting:
        at = waiting.popleft()
        for far in beside[at]:
            if far not in found:
                found[far] = found[at] + 1
                waiting.append(far)
    return found


def components(beside: dict[int, list[int]], nodes: Collection[int]) -> list[list[int]]:
    """Returns the parts of some nodes that cables join, each sorted, in order of their least nodes."""
    left, found = set(nodes), []
    for node in sorted(nodes):
        if node in left:
            left.discard(node)
            part = [node]
            for at in part:
                near = [far for far in beside[at] if far in left]
                left.difference_update(near)
                part += dict.fromkeys(near)
            found.append(sorted(part))
    return found


def tops(beside: dict[int, list[int]], leaves: Iterable[int], roots: Collection[int] = ()) -> Iterator[list[int]]:
    """Yields the top switches of each component: the roots in it; without roots, the switches furthest from those with
    adapters; if none is further than others, the switch whose furthest switch is nearest."""
    levels = distances(beside, sorted(leaves))
    for part in components(beside, beside):
        named = [switch for switch in part if switch in roots]
        high = max((levels.get(switch, 0) for switch in part), default=0)
        if named:
            yield named
        elif high:
            yield [switch for switch in part if levels.get(switch, 0) == high]
        else:
            yield [min(part, key=lambda switch: (max(distances(beside, [switch]).values()), switch))]


def ranks(beside: dict[int, list[int]], leaves: Iterable[int], roots: Collection[int] = ()) -> dict[int, int]:
    """Returns the row of each switch: how many cables it is below the top of its component."""
    return distances(beside, [switch for part in tops(beside, leaves, roots) for switch in part])


def nested(
    beside: dict[int, list[int]], rank: dict[int, int], nodes: Collection[int], row: int, order: list[int]
) -> None:
    """Appends nodes to `order` so that nodes that are joined below a row stand together in all rows below it."""
    order += [node for node in nodes if rank[node] == row]
    for part in components(beside, [node for node in nodes if rank[node] > row]):
        nested(beside, rank, part, min(rank[node] for node in part), order)


def crossings(rows: Sequence[Sequence[int]], beside: dict[int, list[int]], place: dict[int, float]) -> int:
    """Counts the pairs of cables between neighboring rows that cross."""
    count = 0
    for upper, lower in zip(rows, rows[1:]):
        there = set(lower)
        cables = sorted((place[node], place[far]) for node in upper for far in beside[node] if far in there)
        ends = []
        for _, end in cables:
            count += sum(other > end for other in ends)
            ends.append(end)
    return count


def places(rows: Iterable[Sequence[int]]) -> dict[int, float]:
    """Returns how far to the right each node stands. The nodes of a row are spread over the whole width."""
    return {node: (i + 0.5) / len(row) for row in rows for i, node in enumerate(row)}


def by_neighbors(rows: Sequence[Sequence[int]], beside: dict[int, list[int]], is_down: bool) -> list[list[int]]:
    """Orders each row, from the top or from the bottom, by the mean position of its neighbors in the row before."""
    found = [list(row) for row in rows]
    steps = range(1, len(found)) if is_down else range(len(found) - 2, -1, -1)
    for i in steps:
        place = places(found)
        before = set(found[i - 1 if is_down else i + 1])

        def middle(node: int) -> float:
            near = [place[far] for far in beside[node] if far in before]
            return sum(near) / len(near) if near else place[node]

        found[i].sort(key=middle)
    return found


def ordered(beside: dict[int, list[int]], rank: dict[int, int]) -> list[list[int]]:
    """Returns the rows of nodes, each in the order in which the fewest cables were found to cross."""
    order, best = [], None
    for part in components(beside, rank):
        nested(beside, rank, part, min(rank[node] for node in part), order)
    rows = collections.defaultdict(list)
    for node in order:
        rows[rank[node]].append(node)
    rows = [rows[row] for row in sorted(rows)]
    # The first pass goes from below, which keeps nodes together that are together at the bottom.
    for is_down in [None, *[False, True] * SWEEPS]:
        rows = rows if is_down is None else by_neighbors(rows, beside, is_down)
        count = crossings(rows, beside, places(rows))
        if best is None or count < best[0]:
            best = count, rows
    return best[1]
