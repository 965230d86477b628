"""The made-up fabrics that `tests/measure` measures with: k-ary fat trees and random fabrics, their recordings and
topologies."""
from __future__ import annotations

import itertools
import pathlib
import random
from collections.abc import Iterator

import paths  # noqa: F401
import record_files as make

# The name, kind, sizes and seed of each set.
SETS = {
    "rnd50": ("random", (50, 5, 200), 7000662),
    "ft300": ("tree", (16, 640), 1000542),
    "ft1000": ("tree", (28, 44), 1000620),
    "rnd1000h": ("random", (1000, 6, 4000), 7000662),
    "ft1300h": ("tree", (32, 8192), 1000542),
    "ft4000h": ("tree", (56, 43904), 1000542),
}
ROOM = 49152
MOST_NODES = 1024


class Fabric:
    """Switches, whose GUIDs follow no order, adapters of one port, and the cables between their ports."""

    def __init__(self, switches: int, dice: random.Random) -> None:
        guids = [0x10 + 0x10 * i for i in range(switches)]
        dice.shuffle(guids)
        self.switches, self.adapters, self.cables = guids, [], []
        self.used = dict.fromkeys(guids, 0)

    def cable(self, one: int, other: int) -> None:
        ends = []
        for guid in (one, other):
            self.used[guid] += 1
            ends.append((guid, self.used[guid]))
        self.cables.append(tuple(ends))

    def adapter(self, switch: int) -> None:
        guid = 0x1000000 + 0x10 * len(self.adapters)
        self.adapters.append(guid)
        self.used[guid] = 0
        self.cable(switch, guid)

    def ports(self, guid: int) -> int:
        """Returns the number of the node's ports. A switch has one to spare."""
        return self.used[guid] + (guid < 0x1000000)

    def far_ends(self) -> dict[tuple[int, int], tuple[int, int]]:
        return {a: b for a, b in self.cables} | {b: a for a, b in self.cables}

    def recording(self) -> Iterator[bytes]:
        """Yields the replies of all nodes, breadth first from the first adapter. A switch replies once for each of its
        cables."""
        far, start = self.far_ends(), self.adapters[0]
        yield make.NO_REPORTS
        yield self.node_info(make.START, start, 1)
        seen, found = {start}, [(start, 1)]
        for guid, arrival in found:
            is_switch = guid in self.used and guid < 0x1000000
            if is_switch:
                yield make.switch_info(guid, ROOM)
                yield make.port_info(guid, 0, make.ACTIVE)
                for port in range(1, self.ports(guid) + 1):
                    yield make.port_info(guid, port, make.INITIALIZE if (guid, port) in far else make.DOWN)
            else:
                yield make.port_info(guid, arrival, make.INITIALIZE)
            if not is_switch and guid != start:
                continue
            for port in range(1, self.used[guid] + 1):
                other, back = far[guid, port]
                yield self.node_info(make.via(guid, port), other, back)
                if other not in seen:
                    seen.add(other)
                    found.append((other, back))

    def node_info(self, context: make.Context, guid: int, port: int) -> bytes:
        if guid < 0x1000000:
            return make.node_info(context, make.SWITCH, self.ports(guid), guid, guid, port)
        return make.node_info(context, make.ADAPTER, 1, guid, guid + port, port)

    def topology(self) -> Iterator[str]:
        far = self.far_ends()
        for guid in self.switches:
            yield f'Switch {self.ports(guid)} "{guid:x}" guid 0x{guid:x} cap {ROOM}\n'
            for port in range(1, self.used[guid] + 1):
                other, back = far[guid, port]
                yield f'[{port}] "{other:x}"[{back}]\n'
        for guid in self.adapters:
            yield f'Hca 1 "{guid:x}" guid 0x{guid:x}\n'


def tree(dice: random.Random, arity: int, adapters: int) -> Fabric:
    """Makes a fat tree of three levels: `arity` pods, each of half as many edge switches and as many above them, and a
    core."""
    half = arity // 2
    fabric = Fabric(5 * half * half, dice)
    edges, middles = fabric.switches[: arity * half], fabric.switches[arity * half : 2 * arity * half]
    core = fabric.switches[2 * arity * half :]
    for number in range(adapters):
        fabric.adapter(edges[number * len(edges) // adapters])
    inside = list(itertools.product(range(arity), range(half), range(half)))
    for pod, one, other in inside:
        fabric.cable(edges[pod * half + one], middles[pod * half + other])
    for pod, one, other in inside:
        fabric.cable(middles[pod * half + one], core[one * half + other])
    return fabric


def tangle(dice: random.Random, switches: int, degree: int, adapters: int) -> Fabric:
    """Makes a random tree, and random wires between switches up to a mean degree."""
    fabric = Fabric(switches, dice)
    for number in range(1, switches):
        fabric.cable(fabric.switches[dice.randrange(number)], fabric.switches[number])
    for _ in range(switches * degree // 2 - (switches - 1)):
        fabric.cable(*dice.sample(fabric.switches, 2))
    for _ in range(adapters):
        fabric.adapter(dice.choice(fabric.switches))
    return fabric


def fabric_of(name: str) -> Fabric:
    """Returns the fabric of a name, by its row in SETS."""
    kind, sizes, seed = SETS[name]
    return (tree if kind == "tree" else tangle)(random.Random(seed), *sizes)


def put(name: str, folder: pathlib.Path) -> None:
    """Writes a set's recording, and its topology if the set has few enough nodes, unless the recording exists."""
    recording, topology = folder / f"{name}.reports", folder / f"{name}.topology"
    if recording.exists():
        return
    made = fabric_of(name)
    if len(made.switches) + len(made.adapters) <= MOST_NODES:
        topology.write_text("".join(made.topology()))
    partial = recording.with_suffix(".partial")
    with open(partial, "wb") as file:
        file.writelines(made.recording())
    partial.rename(recording)
