"""Fabrics for the tests of the tools: their facts and tables as texts, and as ibsim reads them."""
from __future__ import annotations

import collections
import itertools
import random
from collections.abc import Iterable

ADAPTER, SWITCH = "ca", "switch"
# The number of entries in a forwarding table: LIDs 0 to 0xBFFF.
ROOM = 49152
Port = tuple[str, int]
# By the name of a switch, its port for each LID.
Tables = dict[str, list[int]]


class Fabric:
    """Nodes by name, and the cables between their ports."""

    def __init__(self) -> None:
        self.nodes = {}  # name: type, GUID, ports
        self.peers = {}  # (name, port): name and port of the other end
        self.used = collections.Counter()  # name: ports with a cable

    def add(self, kind: str, name: str, guid: int, ports: int = 0) -> str:
        """Adds a node and returns its name. Without `ports` it gets a port for each cable, and a switch one more."""
        self.nodes[name] = kind, guid, ports
        return name

    def switches(self, count: int, ports: int = 0) -> list[str]:
        return [self.add(SWITCH, f"S{i}", 16 * i, ports) for i in range(1, count + 1)]

    def hosts(self, switches: Iterable[str]) -> None:
        """Adds an adapter of one port at each of the switches named."""
        for i, switch in enumerate(switches, 1):
            self.join(self.add(ADAPTER, f"H{i}", 0x1000000 + 16 * i, 1), switch)

    def take(self, name: str) -> Port:
        self.used[name] += 1
        return name, self.used[name]

    def join(self, one: str, other: str) -> None:
        a, b = self.take(one), self.take(other)
        self.peers[a], self.peers[b] = b, a

    def ports(self, name: str) -> int:
        kind, _, ports = self.nodes[name]
        return ports or self.used[name] + (kind == SWITCH)

    def guid(self, name: str) -> int:
        return self.nodes[name][1]

    def is_switch(self, name: str) -> bool:
        return self.nodes[name][0] == SWITCH

    def ends(self) -> list[Port]:
        """Returns the end ports, switches first, in the order in which the texts give them LIDs."""
        adapters = [name for name in self.nodes if not self.is_switch(name)]
        ports = [(name, port) for name in adapters for port in range(1, self.ports(name) + 1)]
        return [(name, 0) for name in self.nodes if self.is_switch(name)] + [end for end in ports if end in self.peers]

    def ibsim(self) -> str:
        """Returns the topology in the form of ibsim, with the seat H1 first."""
        texts = []
        for name in sorted(self.nodes, key=lambda it: it != "H1"):
            head = "switchguid" if self.is_switch(name) else "hcaguids"
            kind = "Switch" if self.is_switch(name) else "Hca"
            lines = [f"{head}=0x{self.guid(name):x}", f'{kind}\t{self.ports(name)} "{name}"']
            for port in range(1, self.ports(name) + 1):
                if (name, port) in self.peers:
                    far, at = self.peers[name, port]
                    lines.append(f'[{port}]\t"{far}"[{at}]\t# lid 0 4xSDR')
            texts.append("\n".join(lines) + "\n")
        return "\n".join(texts)

    def topology(self) -> str:
        """Returns the topology in the form of `ibsm run`."""
        lines = []
        for name, (kind, guid, _) in self.nodes.items():
            head = f'{self.ports(name)} "{name}" guid 0x{guid:x}'
            lines.append(f"Switch {head} cap {ROOM}" if kind == SWITCH else f"Hca {head}")
            for port in range(1, self.ports(name) + 1):
                if (name, port) in self.peers:
                    far, at = self.peers[name, port]
                    lines.append(f'[{port}] "{far}"[{at}]')
        return "\n".join(lines) + "\n"

    def facts(self) -> str:
        """Returns what `ibsm facts` prints of a first sweep, without LIDs and with tables that have room for 1,024
        LIDs."""
        found = collections.defaultdict(list)
        for name, (kind, guid, _) in self.nodes.items():
            least = 0 if kind == SWITCH else 1
            found["node"].append((guid, 0, f"{guid:016x} {kind} {self.ports(name)}"))
            if kind == SWITCH:
                found["cap"].append((guid, 0, f"{guid:016x} 1024"))
            for port in range(least, self.ports(name) + 1):
                end = f"{guid:016x}/{port}"
                if port == 0 or kind == ADAPTER:
                    found["portguid"].append((guid, port, f"{end} {guid + port:016x}"))
                found["claim"].append((guid, port, f"{end} 0"))
                if (name, port) in self.peers:
                    far, at = self.peers[name, port]
                    found["link"].append((guid, port, f"{end} {self.guid(far):016x}/{at}"))
                state = "up" if port == 0 or (name, port) in self.peers else "down"
                found["port"].append((guid, port, f"{end} {state}"))
        kinds = ("node", "portguid", "link", "port", "claim", "cap")
        return "".join(f"{kind} {text} @1\n" for kind in kinds for _, _, text in sorted(found[kind]))

    def shortest(self) -> Tables:
        """Returns tables by which each packet takes a shortest route. In rings these make a credit loop."""
        tables = {name: [255] * (len(self.ends()) // 64 + 1) * 64 for name in self.nodes if self.is_switch(name)}
        for lid, (name, port) in enumerate(self.ends(), 1):
            at, out = (name, 0) if port == 0 else self.peers[name, port]
            if at not in tables:
                continue
            tables[at][lid] = out
            waiting = collections.deque([at])
            while waiting:
                near = waiting.popleft()
                for p in range(1, self.ports(near) + 1):
                    far, back = self.peers.get((near, p), ("", 0))
                    if far in tables and tables[far][lid] == 255:
                        tables[far][lid] = back
                        waiting.append(far)
        return tables

    def exits(self, name: str) -> list[tuple[int, str]]:
        """Returns the ports of a switch that have a cable to a switch, each with the other switch."""
        ends = ((port, self.peers.get((name, port), ("", 0))[0]) for port in range(1, self.ports(name) + 1))
        return [(port, far) for port, far in ends if far and self.is_switch(far)]

    def some_shortest(self, chance: random.Random) -> Tables:
        """Returns tables of shortest routes. If several ports lead nearer, `chance` chooses one."""
        exits = {name: self.exits(name) for name in self.nodes if self.is_switch(name)}
        tables = {name: [255] * (len(self.ends()) // 64 + 1) * 64 for name in exits}
        for lid, (name, port) in enumerate(self.ends(), 1):
            home, out = (name, 0) if port == 0 else self.peers[name, port]
            if home not in tables:
                continue
            steps, reached = {home: 0}, [home]
            for near in reached:
                for _, far in exits[near]:
                    if far not in steps:
                        steps[far] = steps[near] + 1
                        reached.append(far)
            tables[home][lid] = out
            for switch in reached[1:]:
                tables[switch][lid] = chance.choice([port for port, far in exits[switch] if steps[far] < steps[switch]])
        return tables

    def plan(self, tables: Tables) -> str:
        """Returns what the fabric holds with these tables, in the form of a plan."""
        ends = self.ends()
        lines = [f"lid {lid} {self.guid(name):016x}/{port}" for lid, (name, port) in enumerate(ends, 1)]
        for name in sorted(tables, key=self.guid):
            lines.append(f"switch {self.guid(name):016x} top {len(ends)}")
            table = bytes(tables[name])
            lines += [f"block {i // 64} {table[i : i + 64].hex()}" for i in range(0, len(table), 64)]
        return "\n".join(lines) + "\n"


def triangle() -> Fabric:
    """Returns three switches, each wired to both others, and two adapters."""
    fabric = Fabric()
    for i in (1, 2, 3):
        fabric.add(SWITCH, f"S{i}", 16 * i, 4)
    for one, other in (("S1", "S2"), ("S1", "S3"), ("S2", "S3")):
        fabric.join(one, other)
    for i in (1, 2):
        fabric.join(fabric.add(ADAPTER, f"H{i}", 256 * i, 1), f"S{i + 1}")
    return fabric


def star(hosts: int) -> Fabric:
    """Returns a switch with adapters."""
    fabric = Fabric()
    fabric.hosts(fabric.switches(1) * hosts)
    return fabric


def random_fabric(count: int, degree: int, hosts: int, seed: int = 7) -> Fabric:
    """Returns a random tree with more cables up to the mean degree, and adapters at random switches."""
    fabric, chance = Fabric(), random.Random(seed)
    switches = fabric.switches(count)
    for i in range(1, count):
        fabric.join(chance.choice(switches[:i]), switches[i])
    for _ in range(count * degree // 2 - count + 1):
        fabric.join(*chance.sample(switches, 2))
    fabric.hosts([chance.choice(switches) for _ in range(hosts)])
    return fabric


def fat_tree(k: int, hosts: int) -> Fabric:
    """Returns a fat tree: three levels of switches with `k` ports, and `hosts` adapters at each of the lowest."""
    fabric, half = Fabric(), k // 2
    switches = fabric.switches(5 * half * half)
    low, middle, top = switches[: k * half], switches[k * half : 2 * k * half], switches[2 * k * half :]
    fabric.hosts([switch for switch in low for _ in range(hosts)])
    for i, switch in enumerate(middle):
        pod = i // half * half
        for j in range(half):
            fabric.join(low[pod + j], switch)
        for j in range(half):
            fabric.join(switch, top[i % half * half + j])
    return fabric


def in_no_order(fabric: Fabric, seed: int) -> Fabric:
    """Returns a fabric whose switches have exchanged their GUIDs, at random."""
    names = [name for name in fabric.nodes if fabric.is_switch(name)]
    guids = random.Random(seed).sample([fabric.guid(name) for name in names], len(names))
    for name, guid in zip(names, guids):
        kind, _, ports = fabric.nodes[name]
        fabric.add(kind, name, guid, ports)
    return fabric


def line(count: int) -> Fabric:
    """Returns a row of switches, with an adapter at the first."""
    fabric = Fabric()
    switches = fabric.switches(count)
    fabric.hosts(switches[:1])
    for one, other in zip(switches, switches[1:]):
        fabric.join(one, other)
    return fabric


def ring(count: int) -> Fabric:
    """Returns switches in a ring, each with an adapter."""
    fabric = Fabric()
    switches = fabric.switches(count)
    fabric.hosts(switches)
    for one, other in zip(switches, switches[1:] + switches[:1]):
        fabric.join(one, other)
    return fabric


def two_ports(count: int) -> Fabric:
    """Returns two rows of switches, joined at one end, and adapters with a port in each."""
    fabric = Fabric()
    switches = fabric.switches(2 * count)
    for row in (switches[:count], switches[count:]):
        for one, other in zip(row, row[1:]):
            fabric.join(one, other)
    fabric.join(switches[0], switches[count])
    for i in range(count):
        host = fabric.add(ADAPTER, f"H{i + 1}", 0x1000000 + 16 * i)
        fabric.join(host, switches[i])
        fabric.join(host, switches[count + i])
    return fabric


def cabled_adapters() -> Fabric:
    """Returns a switch with two adapters, which also have a cable to each other."""
    fabric = Fabric()
    fabric.switches(1)
    for i in (1, 2):
        fabric.join(fabric.add(ADAPTER, f"H{i}", 0x1000000 + 16 * i), "S1")
    fabric.join("H1", "H2")
    return fabric


def half_linked(count: int) -> Fabric:
    """Returns a ring whose adapters have two ports, one of them without a cable."""
    fabric = Fabric()
    switches = fabric.switches(count)
    for i, switch in enumerate(switches):
        fabric.join(fabric.add(ADAPTER, f"H{i + 1}", 0x1000000 + 16 * i, 2), switch)
    for one, other in zip(switches, switches[1:] + switches[:1]):
        fabric.join(one, other)
    return fabric


def torus(rows: int, columns: int) -> Fabric:
    """Returns switches in rows and columns that close into rings, with an adapter at each."""
    fabric = Fabric()
    switches = fabric.switches(rows * columns)
    fabric.hosts(switches)
    for i, switch in enumerate(switches):
        row, column = divmod(i, columns)
        fabric.join(switch, switches[row * columns + (column + 1) % columns])
        fabric.join(switch, switches[(row + 1) % rows * columns + column])
    return fabric


def mesh(rows: int, columns: int) -> Fabric:
    """Returns switches in rows and columns, with an adapter at each."""
    fabric = Fabric()
    switches = fabric.switches(rows * columns)
    fabric.hosts(switches)
    for i, switch in enumerate(switches):
        if (i + 1) % columns:
            fabric.join(switch, switches[i + 1])
        if i + columns < len(switches):
            fabric.join(switch, switches[i + columns])
    return fabric


def dragonfly(groups: int, size: int, hosts: int) -> Fabric:
    """Returns groups of switches, all wired to each other within a group, with a cable between any two groups, and
    adapters at each switch."""
    fabric = Fabric()
    for i in range(1, groups * size + 1):
        fabric.add(SWITCH, f"G{(i - 1) // size + 1}S{(i - 1) % size + 1}", 16 * i)
    switches = list(fabric.nodes)
    fabric.hosts([switch for switch in switches for _ in range(hosts)])
    for group in range(groups):
        own = switches[group * size : (group + 1) * size]
        for i, one in enumerate(own):
            for other in own[i + 1 :]:
                fabric.join(one, other)
        for other in range(group + 1, groups):
            fabric.join(own[(other - group - 1) % size], switches[other * size + (group - other) % size])
    return fabric


def nearly_complete(count: int, missing: int, seed: int) -> Fabric:
    """Returns switches that are all wired to each other, except for `missing` random pairs, with an adapter at each."""
    fabric = Fabric()
    switches = fabric.switches(count)
    fabric.hosts(switches)
    pairs = list(itertools.combinations(switches, 2))
    unwired = random.Random(seed).sample(pairs, missing)
    for one, other in pairs:
        if (one, other) not in unwired:
            fabric.join(one, other)
    return fabric


def two_levels(low: int, high: int, hosts: int) -> Fabric:
    """Returns two levels, each lower switch wired to each higher one, and `hosts` adapters at each lower one."""
    fabric = Fabric()
    switches = fabric.switches(low + high)
    fabric.hosts([switch for switch in switches[:low] for _ in range(hosts)])
    for one in switches[:low]:
        for other in switches[low:]:
            fabric.join(one, other)
    return fabric


def apart() -> Fabric:
    """Returns a ring of five and a ladder of two rings, with no wire between them, and an adapter at every second
    switch."""
    fabric = Fabric()
    switches = fabric.switches(15)
    fabric.hosts(switches[::2])
    five, rest = switches[::3], switches[1::3] + switches[2::3]
    for one, other in zip(five, five[1:] + five[:1]):
        fabric.join(one, other)
    for i, switch in enumerate(rest):
        row, column = divmod(i, 5)
        fabric.join(switch, rest[row * 5 + (column + 1) % 5])
        if row == 0:
            fabric.join(switch, rest[5 + column])
    return fabric


def without_adapters(count: int) -> Fabric:
    """Returns a ring of switches, with more wires between switches that are three apart."""
    fabric = Fabric()
    switches = fabric.switches(count)
    for step in (1, 3):
        for i, switch in enumerate(switches):
            fabric.join(switch, switches[(i + step) % count])
    return fabric


def with_double_wires() -> Fabric:
    """Returns a tree of two levels with each wire doubled, and a switch with a wire to itself."""
    fabric = Fabric()
    switches = fabric.switches(6)
    fabric.hosts([switch for switch in switches[:4] for _ in range(3)])
    for one in switches[:4]:
        for other in switches[4:]:
            fabric.join(one, other)
            fabric.join(one, other)
    fabric.join(switches[4], switches[4])
    return fabric
