"""The routing rule `spread`, worked out from its definitions in docs/MODEL.md, independently of the program.

A graph has, for each usable switch by its GUID, the edges of its ports: pairs of a port and the switch that the wire
leads to, in order of port.
"""
from __future__ import annotations

import bisect
import collections
import heapq
import math
from collections.abc import Iterable, Sequence

NO_WAY = 255
Edge = tuple[int, int]
Graph = dict[int, list[Edge]]
Key = tuple[int, ...]


def distances(graph: Graph, starts: Iterable[int]) -> dict[int, int]:
    """Returns the number of wires from each switch that is reached to the nearest of `starts`."""
    far = dict.fromkeys(starts, 0)
    waiting = collections.deque(far)
    while waiting:
        switch = waiting.popleft()
        for _, to in graph[switch]:
            if to not in far:
                far[to] = far[switch] + 1
                waiting.append(to)
    return far


def class_of(far: dict[int, int], leaves: Iterable[int], roots: Iterable[int]) -> int:
    """Returns the distance class of a switch, given the distances from it."""
    to_roots = [far[root] for root in roots if root in far]
    if to_roots:
        return min(to_roots)
    to_leaves = [far[switch] for switch in leaves if switch in far]
    return 4 * sum(to_leaves) // len(to_leaves) if to_leaves else 0


def keys_of(graph: Graph, leaves: Sequence[int], roots: Sequence[int]) -> dict[int, Key]:
    """Returns the key of each switch: class, distance from the first of the component, and GUID."""
    far = {switch: distances(graph, [switch]) for switch in graph}
    classes = {switch: class_of(far[switch], leaves, roots) for switch in graph}
    keys = {}
    for switch in graph:
        first = min(far[switch], key=lambda one: (classes[one], one))
        keys[switch] = classes[switch], far[first][switch], switch
    return keys


def keys_as_named(graph: Graph, named: Sequence[int]) -> dict[int, Key]:
    """Returns the key of each switch: its index in `named` (others come last), and its GUID."""
    numbers = {switch: number for number, switch in enumerate(named)}
    return {switch: (numbers.get(switch, len(named)), switch) for switch in graph}


def positions_of(graph: Graph, keys: dict[int, Key]) -> dict[int, int]:
    """Returns the position of each switch in the order that grows by `keys`."""
    positions, left, beside = {}, sorted(graph, key=keys.get, reverse=True), []
    while left:
        switch = heapq.heappop(beside)[1] if beside else left.pop()
        if switch in positions:
            continue
        positions[switch] = len(positions)
        for _, to in graph[switch]:
            if to not in positions:
                heapq.heappush(beside, (keys[to], to))
    return positions


def rounds(graph: Graph, positions: dict[int, int], target: int) -> tuple[dict[int, int], set[int]]:
    """Returns the round in which each switch that reaches the target is labelled, and the switches labelled Down."""
    cost, down, last = {target: 0}, {target}, [target]
    while last:
        found = collections.defaultdict(bool)
        for switch in last:
            for _, before in graph[switch]:
                if before in cost:
                    continue
                # From `before` the wire leads up, or down to a switch labelled Down.
                if positions[before] > positions[switch]:
                    found[before] = True
                elif positions[before] < positions[switch] and switch in down:
                    found[before] |= False
        for switch, leads_up in found.items():
            cost[switch] = cost[last[0]] + 1
            if not leads_up:
                down.add(switch)
        last = list(found)
    return cost, down


def candidates(
    graph: Graph, positions: dict[int, int], cost: dict[int, int], down: set[int], switch: int
) -> list[Edge]:
    """Returns the edges that gave a switch its label, in order of port."""
    return [
        (port, to) for port, to in graph[switch]
        if to in cost
        and cost[to] < cost[switch]
        and (positions[to] < positions[switch] or positions[to] > positions[switch] and to in down)
    ]


def levels_of(graph: Graph, leaves: Iterable[int]) -> dict[int, int]:
    """Returns the level of each switch: its distance from the nearest leaf switch, 0 if it reaches none."""
    return dict.fromkeys(graph, 0) | distances(graph, leaves)


def weights_of(graph: Graph, levels: dict[int, int]) -> list[int]:
    """Returns the digit weight of each level."""
    widths = collections.defaultdict(lambda: 1)
    for switch, exits in graph.items():
        higher = sum(levels[to] > levels[switch] for _, to in exits)
        widths[levels[switch]] = max(widths[levels[switch]], higher)
    weights = [1]
    for level in range(max(levels.values(), default=0)):
        weights.append(min(weights[-1] * widths[level], 65536))
    return weights


def leaf_numbers_of(graph: Graph, leaves: Iterable[int]) -> dict[int, int]:
    """Returns the leaf number of each switch: how many leaf switches come before it by least neighbor and GUID."""
    def turn(switch: int) -> tuple[float, int]:
        return min((to for _, to in graph[switch]), default=math.inf), switch

    in_turn = sorted(turn(leaf) for leaf in leaves)
    return {switch: bisect.bisect_left(in_turn, turn(switch)) % 65536 for switch in graph}


def numbers_of(
    graph: Graph, leaves: Iterable[int], homes: dict[int, tuple[int, int]], lmc: int
) -> dict[int, int]:
    """Returns the number by which each LID takes its turns: by the number of its switch among the leaf switches, and
    the port there."""
    leaf_numbers = leaf_numbers_of(graph, leaves)
    adapters = collections.Counter(home for home, port in set(homes.values()) if port)
    most = max(adapters.values(), default=0)
    return {
        lid: ((leaf_numbers[home] * most + port) * 2**lmc + lid % 2**lmc) % 65536
        for lid, (home, port) in homes.items()
    }


def tables(
    graph: Graph,
    leaves: Sequence[int],
    homes: dict[int, tuple[int, int]],
    roots: Sequence[int] = (),
    named: Sequence[int] | None = None,
    lmc: int = 0,
) -> dict[int, dict[int, int]]:
    """Returns the port by which packets for each LID leave each switch. `homes` has, for each LID, its owner's switch
    and the port there. The order grows from `roots`, or as switches are `named`."""
    numbers = numbers_of(graph, leaves, homes, lmc)
    positions = positions_of(graph, keys_of(graph, leaves, roots) if named is None else keys_as_named(graph, named))
    levels = levels_of(graph, leaves)
    weights = weights_of(graph, levels)
    found = {switch: {} for switch in graph}
    by_home = collections.defaultdict(list)
    for lid, (home, _) in homes.items():
        by_home[home].append(lid)
    for home, lids in by_home.items():
        cost, down = rounds(graph, positions, home)
        for switch in graph:
            if switch == home:
                found[switch].update((lid, homes[lid][1]) for lid in lids)
            elif switch not in cost:
                found[switch].update((lid, NO_WAY) for lid in lids)
            else:
                exits = candidates(graph, positions, cost, down, switch)
                higher = any(levels[to] > levels[switch] for _, to in exits)
                weight = weights[levels[switch]] if higher else 1
                for lid in lids:
                    found[switch][lid] = exits[(numbers[lid] // weight + switch % 31) % len(exits)][0]
    return found
