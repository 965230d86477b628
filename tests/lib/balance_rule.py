"""The routing rule that spreads with balanced loads in the order of the least trial load, worked out from its
definitions in docs/MODEL.md, independently of the program. Graphs, labels and candidates are those of spread_rule.
`adapters` says how many adapters each switch has, as a Counter by GUID.
"""
from __future__ import annotations

import collections
import math
from collections.abc import Callable, Iterable

import spread_rule
from spread_rule import Edge, Graph

TRIED = 8
PACKETS = 65536
Keys = dict[int, tuple]
Loads = collections.Counter[tuple[int, int]]
Adapters = collections.Counter[int]


def by_depth(graph: Graph, keys: Keys, root: int, backwards: bool = False) -> list[int]:
    """Returns the switches in order of depth from `root`."""
    found, placed = [root], {root}

    def first(switches: Iterable[int], test: Callable[[int, int], bool]) -> int:
        best = None
        for switch in switches:
            if best is None or test(switch, best):
                best = switch
        return best

    def is_before(one: int, other: int) -> bool:
        return keys[other] < keys[one] if backwards else keys[one] < keys[other]

    def goes_before(one: int, other: int) -> bool:
        counts = [sum(to in placed for _, to in graph[switch]) for switch in (one, other)]
        return counts[0] > counts[1] or counts[0] == counts[1] and is_before(one, other)

    while len(found) < len(graph):
        for switch in reversed(found):
            left = [to for _, to in graph[switch] if to not in placed]
            if left:
                following = first(left, goes_before)
                break
        else:
            following = first((switch for switch in sorted(graph) if switch not in placed), is_before)
        found.append(following)
        placed.add(following)
    return found


def is_even(loads: Loads, graph: Graph) -> bool:
    """Returns whether no channel's load exceeds the mean of all channels by more than an eighth of the mean."""
    channels = sum(map(len, graph.values()))
    mean = sum(loads.values()) // channels if channels else 0
    return max(loads.values(), default=0) - mean <= mean // 8


def trial_loads(graph: Graph, keys: Keys, adapters: Adapters) -> Loads:
    """Returns what the channels carry in the order that grows by `keys`, if each adapter sends `PACKETS` packets to
    each adapter, and each switch shares its packets evenly among its candidates."""
    positions = spread_rule.positions_of(graph, keys)
    loads = collections.Counter()
    for target, receivers in adapters.items():
        cost, down = spread_rule.rounds(graph, positions, target)
        packets = collections.Counter({switch: PACKETS * senders * receivers for switch, senders in adapters.items()})
        # A candidate leads to a switch whose cost is one less. So all packets have come to a switch once the switches
        # of greater cost have shared theirs.
        for switch in sorted(cost, key=cost.get, reverse=True):
            exits = spread_rule.candidates(graph, positions, cost, down, switch)
            for port, to in exits:
                share = packets[switch] // len(exits)
                loads[switch, port] += share
                packets[to] += share
    return loads


def keys_by_remoteness(graph: Graph, adapters: Adapters) -> Keys:
    """Returns the key of each switch: how remote it is, its distance from the least remote switch of its component, and
    its GUID. A switch is as remote as the sum of squared distances, each as often as there are adapters at the far
    switch, and once more."""
    far = {switch: spread_rule.distances(graph, [switch]) for switch in graph}
    remote = {
        switch: sum(wires**2 * (1 + adapters[to]) for to, wires in far[switch].items()) for switch in graph
    }
    keys = {}
    for switch in graph:
        first = min(far[switch], key=lambda one: (remote[one], one))
        keys[switch] = remote[switch], far[first][switch], switch
    return keys


def starts_of(graph: Graph, keys: Keys) -> list[int]:
    """Returns the switches from which orders by depth are tried: the first by its key, and then those that are
    farthest from all before them. No wires at all are farther than any."""
    found: list[int] = []
    while len(found) < min(len(graph), TRIED):
        near = spread_rule.distances(graph, found)
        found.append(min(graph, key=lambda switch: (-near.get(switch, math.inf), keys[switch])))
    return found


def keys_of(graph: Graph, adapters: Adapters) -> Keys:
    """Returns the keys that the rule goes by: those by remoteness if their trial loads are even. Otherwise, of these
    and of those by depth, returns the first by which the busiest channel carries least."""
    keys = keys_by_remoteness(graph, adapters)
    if is_even(trial_loads(graph, keys, adapters), graph):
        return keys
    tried = [keys]
    for backwards in False, True:
        for root in starts_of(graph, keys):
            tried.append(spread_rule.keys_as_named(graph, by_depth(graph, keys, root, backwards)))
    return min(tried, key=lambda keys: max(trial_loads(graph, keys, adapters).values(), default=0))


def order_of(graph: Graph, adapters: Adapters) -> list[int]:
    """Returns the switches in the rule's order."""
    positions = spread_rule.positions_of(graph, keys_of(graph, adapters))
    return sorted(graph, key=positions.get)


class Choices:
    """The choices of candidates for each adapter, and the loads of channels by them."""

    def __init__(self, graph: Graph, positions: dict[int, int], adapters: Adapters) -> None:
        self.graph, self.positions, self.adapters = graph, positions, adapters
        self.in_order = sorted(graph, key=positions.get)
        leaves = [switch for switch in self.in_order if adapters[switch]]
        # Each leaf switch takes as many numbers as the greatest number of adapters at a switch, in order of leaf
        # number.
        most = max(adapters.values(), default=0)
        leaf_numbers = spread_rule.leaf_numbers_of(graph, leaves)
        self.first_numbers = {switch: leaf_numbers[switch] * most for switch in graph}
        self.levels = spread_rule.levels_of(graph, leaves)
        weights = spread_rule.weights_of(graph, self.levels)
        self.weights = {switch: weights[self.levels[switch]] for switch in graph}
        self.loads = collections.Counter()
        self.are_counted = False
        self.taken = {(leaf, own): dict.fromkeys(graph, 0) for leaf in leaves for own in range(adapters[leaf])}

    def candidates(self, target: int) -> dict[int, list[Edge]]:
        """Returns the candidates of each switch towards a target."""
        cost, down = spread_rule.rounds(self.graph, self.positions, target)
        found = {switch: [] for switch in self.graph}
        for switch in cost:
            found[switch] = spread_rule.candidates(self.graph, self.positions, cost, down, switch)
        return found

    def near_first(self, exits: dict[int, list[Edge]]) -> list[int]:
        """Returns the switches, each after those that its candidates lead to."""
        def goes_up(switch: int) -> bool:
            return any(self.positions[to] < self.positions[switch] for _, to in exits[switch])

        above = [switch for switch in reversed(self.in_order) if not goes_up(switch)]
        return above + [switch for switch in self.in_order if goes_up(switch)]

    def way(self, exits: dict[int, list[Edge]], taken: dict[int, int], switch: int) -> list[tuple[int, int]]:
        """Returns the channels on the way from a switch."""
        found = []
        while exits[switch]:
            port, to = exits[switch][taken[switch]]
            found.append((switch, port))
            switch = to
        return found

    def add(self, exits: dict[int, list[Edge]], taken: dict[int, int], switch: int, sign: int = 1) -> None:
        """Adds the packets that a switch sends to one adapter, one from each adapter at the switch, to the loads on its
        way. If `sign` is -1, takes them away."""
        if self.adapters[switch]:
            for channel in self.way(exits, taken, switch):
                self.loads[channel] += sign * self.adapters[switch]

    def lightest(self, exits: dict[int, list[Edge]], taken: dict[int, int], switch: int) -> int:
        """Returns the number of the candidate whose way has the least peak load, the first of equals."""
        peaks = [
            max(self.loads[channel] for channel in [(switch, port), *self.way(exits, taken, to)])
            for port, to in exits[switch]
        ]
        return peaks.index(min(peaks)) if peaks else 0

    def first_choice(self, ways: list[Edge], switch: int, target: int, own: int) -> int:
        """Returns the number that a switch takes at first towards adapter `own` of a target, to which `ways` lead."""
        higher = any(self.levels[to] > self.levels[switch] for _, to in ways)
        weight = self.weights[switch] if higher else 1
        return (self.first_numbers[target] + own) // weight + self.positions[switch]

    def choose(
        self, exits: dict[int, list[Edge]], order: list[int], target: int, own: int, is_first: bool
    ) -> None:
        """Makes the choices for adapter `own` of a target: in turn, or anew by the loads of all others."""
        taken = self.taken[target, own]
        if not is_first:
            for switch in self.graph:
                self.add(exits, taken, switch, -1)
        for switch in order:
            if is_first:
                count = len(exits[switch])
                taken[switch] = self.first_choice(exits[switch], switch, target, own) % count if count else 0
            else:
                taken[switch] = self.lightest(exits, taken, switch)
            self.add(exits, taken, switch)

    def make(self) -> None:
        """Makes the first choices, and new ones, at most twice, until loads are even. Keeps the choices by which the
        busiest channel carries least, the first of equals."""
        rounds = []
        for number in range(3):
            if number > 0 and is_even(self.loads, self.graph):
                break
            self.are_counted = number > 0
            for target in self.in_order:
                if not self.adapters[target]:
                    continue
                exits = self.candidates(target)
                order = self.near_first(exits)
                for own in range(self.adapters[target]):
                    self.choose(exits, order, target, own, number == 0)
            taken = {end: dict(choices) for end, choices in self.taken.items()}
            rounds.append((max(self.loads.values(), default=0), taken))
        _, self.taken = min(rounds, key=lambda made: made[0])

    def of(self, ways: list[Edge], number: int, switch: int, target: int) -> int:
        """Returns the number of the candidate that a LID with this number takes at a switch towards a target, to which
        `ways` lead. It is to be taken modulo the number of candidates."""
        if self.adapters[target]:
            return self.taken[target, number % self.adapters[target]][switch]
        return 0 if self.are_counted else self.first_choice(ways, switch, target, 0)


def tables(
    graph: Graph,
    adapters: Adapters,
    homes: dict[int, tuple[int, int]],
    named: list[int] | None = None,
    lmc: int = 0,
) -> dict[int, dict[int, int]]:
    """Returns the port by which packets for each LID leave each switch, in the form of spread_rule.tables. Switches are
    in the rule's order, or in that in which they are `named`."""
    numbers = spread_rule.numbers_of(graph, adapters, homes, lmc)
    named = order_of(graph, adapters) if named is None else named
    positions = spread_rule.positions_of(graph, spread_rule.keys_as_named(graph, named))
    choices = Choices(graph, positions, adapters)
    choices.make()
    found = {switch: {} for switch in graph}
    exits = {home: choices.candidates(home) for home in {home for home, _ in homes.values()}}
    for lid, (home, port) in homes.items():
        for switch in graph:
            ways = exits[home][switch]
            if switch == home:
                found[switch][lid] = port
            elif ways:
                found[switch][lid] = ways[choices.of(ways, numbers[lid], switch, home) % len(ways)][0]
            else:
                found[switch][lid] = spread_rule.NO_WAY
    return found
