"""The fabrics on which routing rules are compared: rings, tori, meshes and cubes, dragonflies, random fabrics, and
trees, whole and with cables missing."""
from __future__ import annotations

import itertools
import random
from collections.abc import Callable, Sequence

import sample_fabrics as make
from sample_fabrics import Fabric


def grid(sizes: Sequence[int], closes: bool) -> Fabric:
    """Returns switches in a grid, with an adapter at each; rows of more than two close into rings if `closes`."""
    points = list(itertools.product(*(range(size) for size in reversed(sizes))))
    fabric = Fabric()
    switches = dict(zip(points, fabric.switches(len(points))))
    fabric.hosts(switches.values())
    for point, switch in switches.items():
        for axis, size in enumerate(sizes):
            at = len(sizes) - 1 - axis
            if point[at] + 1 < size:
                fabric.join(switch, switches[point[:at] + (point[at] + 1,) + point[at + 1 :]])
            elif closes and size > 2:
                fabric.join(switch, switches[point[:at] + (0,) + point[at + 1 :]])
    return fabric


def hyperx(sizes: Sequence[int], hosts: int) -> Fabric:
    """Returns switches in a grid, each wired to all others of its rows, with `hosts` adapters at each."""
    points = list(itertools.product(*map(range, sizes)))
    fabric = Fabric()
    switches = dict(zip(points, fabric.switches(len(points))))
    fabric.hosts([switches[point] for point in points for _ in range(hosts)])
    for one, other in itertools.combinations(points, 2):
        if sum(a != b for a, b in zip(one, other)) == 1:
            fabric.join(switches[one], switches[other])
    return fabric


def palm_dragonfly(size: int, wires: int, hosts: int) -> Fabric:
    """Returns groups of `size` switches, all wired to each other within a group, each with `wires` cables to other
    groups, one for each two groups, and `hosts` adapters at each switch."""
    groups = size * wires + 1
    fabric = Fabric()
    switches = fabric.switches(groups * size)
    fabric.hosts([switch for switch in switches for _ in range(hosts)])
    for group in range(groups):
        for one, other in itertools.combinations(switches[group * size : (group + 1) * size], 2):
            fabric.join(one, other)
    for group, turn in itertools.product(range(groups), range(size * wires)):
        far = (group + turn + 1) % groups
        if group < far:
            back = (groups - 2 - turn) // wires
            fabric.join(switches[group * size + turn // wires], switches[far * size + back])
    return fabric


def is_connected(count: int, pairs: list[tuple[int, int]]) -> bool:
    """Returns whether the pairs connect all numbers below `count`."""
    near = {0}
    while more := {end for pair in pairs if near & set(pair) for end in pair} - near:
        near |= more
    return len(near) == count


def simple_pairs(stubs: list[int], chance: random.Random) -> list[tuple[int, int]] | None:
    """Returns stubs in pairs of different ones, with no pair twice, made by random exchanges. Returns None if 10,000
    exchanges are not enough."""
    pairs = [tuple(sorted(stubs[at : at + 2])) for at in range(0, len(stubs), 2)]
    for _ in range(10000):
        bad = [at for at, pair in enumerate(pairs) if pair[0] == pair[1] or pairs.count(pair) > 1]
        if not bad:
            return pairs
        one, other = bad[0], chance.randrange(len(pairs))
        (a, b), (c, d) = pairs[one], pairs[other]
        pairs[one], pairs[other] = tuple(sorted((a, c))), tuple(sorted((b, d)))
    return None


def regular(count: int, degree: int, hosts: int, seed: int) -> Fabric:
    """Returns a connected random fabric in which each switch has cables to `degree` others, and `hosts` adapters."""
    chance = random.Random(seed)
    pairs = None
    while pairs is None or not is_connected(count, pairs):
        stubs = [switch for switch in range(count) for _ in range(degree)]
        chance.shuffle(stubs)
        pairs = simple_pairs(stubs, chance)
    fabric = Fabric()
    switches = fabric.switches(count)
    fabric.hosts([switch for switch in switches for _ in range(hosts)])
    for one, other in pairs:
        fabric.join(switches[one], switches[other])
    return fabric


def without(fabric: Fabric, cables: int, dead: Sequence[str] = ()) -> Fabric:
    """Returns the fabric without `cables` random cables between switches, and without `dead` switches and their
    adapters."""
    chance = random.Random(3)
    whole = [
        (one, other) for one, other in fabric.peers.items()
        if one < other and fabric.is_switch(one[0]) and fabric.is_switch(other[0])
    ]
    for one, other in chance.sample(whole, cables):
        del fabric.peers[one], fabric.peers[other]
    for name in dead:
        for end in [end for end in fabric.peers if end[0] == name]:
            far = fabric.peers.pop(end)
            del fabric.peers[far]
            if not fabric.is_switch(far[0]):
                del fabric.nodes[far[0]]
        del fabric.nodes[name]
    return fabric


def parallel(low: int, high: int, times: int, hosts: int) -> Fabric:
    """Returns two levels of switches with `times` cables between each lower and each higher one, and `hosts` adapters
    at each lower one."""
    fabric = Fabric()
    switches = fabric.switches(low + high)
    fabric.hosts([switch for switch in switches[:low] for _ in range(hosts)])
    for one, other in itertools.product(switches[:low], switches[low:]):
        for _ in range(times):
            fabric.join(one, other)
    return fabric


def doubled_torus(size: int) -> Fabric:
    """Returns a torus with each cable doubled, and two adapters at each switch."""
    fabric = Fabric()
    switches = fabric.switches(size * size)
    fabric.hosts([switch for switch in switches for _ in range(2)])
    for at, switch in enumerate(switches):
        row, column = divmod(at, size)
        for _ in range(2):
            fabric.join(switch, switches[row * size + (column + 1) % size])
            fabric.join(switch, switches[(row + 1) % size * size + column])
    return fabric


FABRICS: dict[str, Callable[[], Fabric]] = {
    "ring of 16": lambda: make.ring(16),
    "torus, 4 x 4": lambda: grid((4, 4), True),
    "torus, 6 x 6": lambda: grid((6, 6), True),
    "torus, 8 x 8": lambda: grid((8, 8), True),
    "torus, 4 x 4 x 4": lambda: grid((4, 4, 4), True),
    "torus, 6 x 6, three cables and a switch out": lambda: without(grid((6, 6), True), 3, ("S15",)),
    "torus, 6 x 6, cables and adapters twice": lambda: doubled_torus(6),
    "mesh, 6 x 6": lambda: grid((6, 6), False),
    "cube of six dimensions": lambda: grid((2,) * 6, False),
    "HyperX, 4 x 4, 4 adapters a switch": lambda: hyperx((4, 4), 4),
    "dragonfly, 36 switches, 2 adapters a switch": lambda: palm_dragonfly(4, 2, 2),
    "30 switches joined to 4 each, 2 adapters a switch": lambda: regular(30, 4, 2, 1),
    "60 joined to 5": lambda: regular(60, 5, 2, 2),
    "100 joined to 6": lambda: regular(100, 6, 2, 3),
    "random, 50 switches, 200 adapters": lambda: make.random_fabric(50, 5, 200),
    "random, 120 switches, 60 adapters": lambda: make.random_fabric(120, 6, 60, seed=11),
    "two levels, 12 and 6, three cables each, 9 adapters": lambda: parallel(12, 6, 3, 9),
    "two levels, 8 and 12, 12 adapters": lambda: parallel(8, 12, 1, 12),
    "two levels, 8 and 6, two cables each, 12 adapters": lambda: parallel(8, 6, 2, 12),
    "two levels, 8 and 4, three cables each, 12 adapters": lambda: parallel(8, 4, 3, 12),
    "two levels, 8 and 3, four cables each, 12 adapters": lambda: parallel(8, 3, 4, 12),
    "two levels, 8 and 2, six cables each, 12 adapters": lambda: parallel(8, 2, 6, 12),
    "fat tree, 45 switches, 54 adapters": lambda: make.fat_tree(6, 3),
    "fat tree, 320 switches, 640 adapters": lambda: make.fat_tree(16, 5),
    "the same, 1 % of its cables out": lambda: without(make.fat_tree(16, 5), 20),
    "the same, 5 % of its cables out": lambda: without(make.fat_tree(16, 5), 102),
}
