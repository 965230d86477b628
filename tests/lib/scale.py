"""Runs of the program on large inputs, for `tests/at-scale`: what they print and cost, and fabrics whose answers are
known."""
from __future__ import annotations

import itertools
import json
import os
import pathlib
import re
import subprocess
import sys
from collections.abc import Callable, Sequence

import paths  # noqa: F401
import record_files as make
import sample_audits as audits
from built_program import DIGITS, ENTRIES, NO_WAY

# Processor time below which a run says nothing about growth: that of starting.
LEAST_SECONDS = 0.02
# How often a slow command is run again, since the machine may have been busy.
TRIES = 4
MOST_LIDS = 49151

# Runs a command for each line of words, and writes its exit status, processor time and peak memory. A new process
# inherits the peak memory of its parent, so a separate small process starts them.
STARTER = """
import json, os, sys
for line in sys.stdin:
    command, folder, *streams = json.loads(line)
    actions = [(os.POSIX_SPAWN_OPEN, number, path, flags, 0o600) for number, (path, flags) in enumerate(streams)]
    os.chdir(folder)
    _, status, used = os.wait4(os.posix_spawn(command[0], command, os.environ, file_actions=actions), 0)
    ended = os.waitstatus_to_exitcode(status), used.ru_utime + used.ru_stime, used.ru_maxrss * 1024
    print(json.dumps(ended), flush=True)
"""
starters = []

failures = []


def check(holds: object, text: str) -> None:
    """Notes a failure if something does not hold, and says what."""
    if not holds:
        failures.append(text)
        print(f"at-scale: FAILED: {text}")


def started(
    command: Sequence[str | os.PathLike[str]], folder: pathlib.Path, stdout: pathlib.Path, stderr: pathlib.Path
) -> tuple[int, float, int]:
    """Runs a command, and returns its exit status, its processor time and its peak memory. Its last two words may be
    `<` and the name of its standard input."""
    if not starters:
        starters.append(
            subprocess.Popen(
                [sys.executable, "-S", "-E", "-c", STARTER], stdin=subprocess.PIPE, stdout=subprocess.PIPE, text=True
            )
        )
    written = os.O_WRONLY | os.O_CREAT | os.O_TRUNC
    command, given = (command[:-2], str(folder / command[-1])) if "<" in command else (command, os.devnull)
    streams = (given, os.O_RDONLY), (str(stdout), written), (str(stderr), written)
    starters[0].stdin.write(json.dumps([[str(it) for it in command], str(folder), *streams]) + "\n")
    starters[0].stdin.flush()
    return tuple(json.loads(starters[0].stdout.readline()))


class Run:
    """What a command printed, and what it cost."""

    def __init__(
        self, program: pathlib.Path, words: Sequence[str], room: pathlib.Path, out: str, status: int = 0
    ) -> None:
        self.command = [program, *words]
        self.what = " ".join(words)
        self.path = room / out
        self.wanted = status
        self.seconds, self.memory = self.cost()
        self.size = self.path.stat().st_size

    def cost(self) -> tuple[float, int]:
        """Runs the command, and returns its processor time and its peak memory."""
        said = self.path.with_suffix(".said")
        status, seconds, memory = started(self.command, self.path.parent, self.path, said)
        text = said.read_text(errors="replace").strip()
        is_right = status == self.wanted
        check(is_right, f"{self.what}: exit status {status}; {text[:200]}")
        # No step here can make a credit loop. A step by an order that tables imply tells that order.
        said = r"credit loop none(\n0x[0-9a-f]{16})*" if self.command[1] == "next" else ""
        check(not is_right or re.fullmatch(said, text), f"{self.what}: says on standard error: {text[:200]}")
        return seconds, memory

    def again(self) -> None:
        self.seconds = min(self.seconds, self.cost()[0])

    def printed(self) -> bytes:
        return self.path.read_bytes()

    def counts(self) -> dict[str, int]:
        """Returns how many lines begin with each word."""
        found = {}
        with open(self.path, "rb") as lines:
            for line in lines:
                word = line[: line.index(b" ")].decode()
                found[word] = found.get(word, 0) + 1
        return found


class Fabric:
    """Switches in two levels, each lower one cabled to two upper ones, with adapters of one port below."""

    def __init__(self, tops: int, leaves: int, ports: int, adapters: int) -> None:
        self.ports = ports
        self.switches = [0x1000 + i for i in range(tops + leaves)]
        self.adapters = [0x100000 + 16 * i for i in range(adapters)]
        used = dict.fromkeys(self.switches, 0)
        # Each cable is a pair of ends; the second is at least as far from the first adapter's switch.
        self.cables = []

        def take(switch: int) -> tuple[int, int]:
            used[switch] += 1
            return switch, used[switch]

        for i in range(leaves):
            leaf = self.switches[tops + i]
            for k in range(2):
                self.cables.append((take(self.switches[(i + k) % tops]), take(leaf)))
        for i, guid in enumerate(self.adapters):
            self.cables.append((take(self.switches[tops + i % leaves]), (guid, 1)))
        if max(used.values()) > ports:
            raise ValueError("a switch has too few ports")
        self.peers = {a: b for a, b in self.cables} | {b: a for a, b in self.cables}

    def facts(self) -> dict[str, int]:
        """Returns the number of lines of each kind in the facts."""
        switches, adapters = len(self.switches), len(self.adapters)
        ends = switches * (self.ports + 1) + adapters
        return {
            "node": switches + adapters,
            "portguid": switches + adapters,
            "link": 2 * len(self.cables),
            "port": ends,
            "claim": ends,
            "cap": switches,
        }

    def plan(self) -> dict[str, int]:
        """Returns the number of lines of each kind in the plan."""
        lids = len(self.switches) + len(self.adapters)
        blocks = len(self.switches) * (lids // 64 + 1)
        return {"lid": lids, "switch": len(self.switches), "block": blocks}

    def reports(self, path: pathlib.Path) -> int:
        """Writes the replies of a sweep, and returns their number."""
        start = self.adapters[0]
        with open(path, "wb") as file:
            file.write(make.NO_REPORTS)
            file.write(node_info(make.START, start, 1))
            file.write(make.port_info(start, 1, make.INITIALIZE))
            count = 2
            for one, other in self.cables:
                for (node, port), (at, out) in ((one, other), (other, one)):
                    if node in (start,):
                        continue
                    file.write(node_info(make.via(at, out), node, port, self.ports))
                    count += 1
            for guid in self.switches:
                file.write(make.switch_info(guid, MOST_LIDS))
                for port in range(self.ports + 1):
                    wired = make.INITIALIZE if (guid, port) in self.peers else make.DOWN
                    file.write(make.port_info(guid, port, wired if port else make.ACTIVE))
                count += self.ports + 2
            for guid in self.adapters[1:]:
                file.write(make.port_info(guid, 1, make.INITIALIZE))
                count += 1
        return count

    def topology(self) -> str:
        lines = []
        for guid in self.switches:
            lines.append(f'Switch {self.ports} "{guid:x}" guid 0x{guid:x} cap 49152')
            for port in range(1, self.ports + 1):
                if (guid, port) in self.peers:
                    node, other = self.peers[guid, port]
                    lines.append(f'[{port}] "{node:x}"[{other}]')
        lines += [f'Hca 1 "{guid:x}" guid 0x{guid:x}' for guid in self.adapters]
        return "\n".join(lines) + "\n"


def node_info(context: tuple[int, int, int], guid: int, port: int, ports: int = 1) -> bytes:
    """Makes NodeInfo: a switch has `ports` ports, an adapter one."""
    if guid < 0x100000:
        return make.node_info(context, make.SWITCH, ports, guid, guid, port)
    return make.node_info(context, make.ADAPTER, 1, guid, guid + port, port)


class Tree:
    """Switches in a tree, and adapters below some of them, numbered switch by switch. There is one route between any
    two, so every rule plans the same, and the plan and its audit are known."""

    def __init__(self, parents: Sequence[int], hosts: Sequence[int], ports_of_adapters: int = 1) -> None:
        """Takes the index of the parent of each switch but the first, and the number of wires from each to adapters. An
        adapter of several ports has them at different switches in turn."""
        self.count = len(hosts)
        self.switches = [0x10 + i for i in range(self.count)]
        self.wires, used = [], [0] * self.count
        for child, parent in enumerate(parents, 1):
            self.wires.append(((parent, self.next(used, parent)), (child, self.next(used, child))))
        # The adapters' ports, each with its switch and the port there.
        seats = [switch for switch, count in enumerate(hosts) for _ in range(count)]
        width = len(seats) // ports_of_adapters
        self.ends = []
        for number in range(width):
            for port in range(ports_of_adapters):
                switch = seats[number + port * width]
                self.ends.append((0x100000 + 16 * number, port + 1, switch, self.next(used, switch)))
        self.adapters = [0x100000 + 16 * number for number in range(width)]
        self.ports = max(used)
        self.ports_of_adapters = ports_of_adapters
        self.hosts, self.parents = hosts, parents
        self.exits, self.steps = self.ways()

    @staticmethod
    def next(used: list[int], switch: int) -> int:
        used[switch] += 1
        if used[switch] > 254:
            raise ValueError("a switch has too few ports")
        return used[switch]

    def ways(self) -> tuple[list[list[int]], list[list[int]]]:
        """Returns, for each switch, its port towards each switch and the number of wires to it."""
        near = [[] for _ in range(self.count)]
        for (one, port), (other, back) in self.wires:
            near[one].append((port, other))
            near[other].append((back, one))
        exits, steps = [], []
        for start in range(self.count):
            out, far, reached = [None] * self.count, [0] * self.count, [start]
            out[start] = 0
            for switch in reached:
                for port, other in near[switch]:
                    if out[other] is None:
                        out[other] = port if switch == start else out[switch]
                        far[other] = far[switch] + 1
                        reached.append(other)
            exits.append(out)
            steps.append(far)
        return exits, steps

    def links(self) -> list[tuple[tuple[int, int], tuple[int, int]]]:
        """Returns each wire from both ends, by GUID and port."""
        wires = [((self.switches[a], p), (self.switches[b], q)) for (a, p), (b, q) in self.wires]
        wires += [((self.switches[switch], out), (guid, port)) for guid, port, switch, out in self.ends]
        return sorted(wires + [(b, a) for a, b in wires])

    def cells(self, generation: Callable[[int], int] = lambda _: 1) -> list[bytes]:
        """Returns the records of a store file of its facts. `generation` maps a cell's index to its generation."""
        links = self.links()
        keys = [(make.NODE, guid, 0, bytes([make.SWITCH, self.ports])) for guid in self.switches]
        keys += [(make.NODE, guid, 0, bytes([make.ADAPTER, self.ports_of_adapters])) for guid in self.adapters]
        keys += [(make.PORT_GUID, guid, 0, guid.to_bytes(8, "big")) for guid in self.switches]
        keys += [(make.PORT_GUID, guid, port, (guid + port).to_bytes(8, "big")) for guid, port, _, _ in self.ends]
        keys += [(make.LINK, *near, far.to_bytes(8, "big") + bytes([port])) for near, (far, port) in links]
        keys += [(make.PORT, *near, b"\1") for near, _ in links]
        keys += [(make.CAP, guid, 0, (MOST_LIDS + 1).to_bytes(2, "big")) for guid in self.switches]
        return [make.cell(*key, generation(index)) for index, key in enumerate(keys)]

    def topology(self) -> str:
        lines = [
            f'Switch {self.ports} "S{i}" guid 0x{guid:x} cap {MOST_LIDS + 1}' for i, guid in enumerate(self.switches)
        ]
        lines = [[line] for line in lines]
        for (one, port), (other, back) in self.wires:
            lines[one].append(f'[{port}] "S{other}"[{back}]')
        for guid, port, switch, out in self.ends:
            lines[switch].append(f'[{out}] "H{guid:x}"[{port}]')
        lines.append([f'Hca {self.ports_of_adapters} "H{guid:x}" guid 0x{guid:x}' for guid in self.adapters])
        return "".join(f"{line}\n" for its in lines for line in its)

    def lids(self, lmc: int = 0) -> tuple[range, range]:
        """Returns the LIDs of the switches, and the first LIDs of the adapters' ranges."""
        width = 2**lmc
        first = (self.count // width + 1) * width
        return range(1, self.count + 1), range(first, first + width * len(self.ends), width)

    def plan(self, lmc: int = 0) -> bytes:
        """Returns the text of its plan."""
        switches, ranges = self.lids(lmc)
        width = 2**lmc
        top = ranges[-1] + width - 1
        lines = [f"lid {lid} {guid:016x}/0" for lid, guid in zip(switches, self.switches)]
        told = f" lmc {lmc}" if lmc else ""
        lines += [f"lid {lid} {guid:016x}/{port}{told}" for lid, (guid, port, _, _) in zip(ranges, self.ends)]
        # The adapters' ports below the same switch, in a row, with the first one's LID.
        rows = []
        for home, ends in itertools.groupby(zip(ranges, self.ends), key=lambda it: it[1][2]):
            ends = list(ends)
            rows.append((home, ends[0][0], [port for _, (_, _, _, port) in ends]))
        for switch, guid in enumerate(self.switches):
            table = bytearray([NO_WAY]) * (ENTRIES * (top // ENTRIES + 1))
            out = self.exits[switch]
            table[1 : self.count + 1] = bytes(out)
            for home, lid, ports in rows:
                if home == switch:
                    table[lid : lid + width * len(ports)] = bytes(port for port in ports for _ in range(width))
                else:
                    table[lid : lid + width * len(ports)] = bytes([out[home]]) * width * len(ports)
            digits = table.hex()
            lines.append(f"switch {guid:016x} top {top}")
            lines += [f"block {at // DIGITS} {digits[at : at + DIGITS]}" for at in range(0, len(digits), DIGITS)]
        return "".join(f"{line}\n" for line in lines).encode()

    def audit(self) -> tuple[int, int, bytes]:
        """Returns the sums of hops and of loads, and what an audit of its plan prints, for adapters of one port under
        LMC 0."""
        count, adapters = self.count + len(self.ends), len(self.ends)
        sums, most = 0, 0
        for one in range(self.count):
            for other in range(self.count):
                if self.hosts[one] and self.hosts[other]:
                    pairs = self.hosts[one] * (self.hosts[other] - (one == other))
                    sums += pairs * (2 + self.steps[one][other])
                    most = max(most, 2 + self.steps[one][other])
        loads = list(self.loads().values())
        pairs = adapters * (adapters - 1)
        lines = f"hops max {most} mean {hundredths(100 * sums // pairs)}\n"
        lines += f"load max {max(loads)} mean {hundredths(100 * sum(loads) // len(loads))}\n"
        text = audits.counted(count**2, adapters**2) + lines + "credit loop none\n"
        return sums, sum(loads), audits.sound(text).printed

    def loads(self) -> dict[tuple[int, int], int]:
        """Returns the load of each channel, by the GUID and the port that it leaves by, for adapters of one port under
        LMC 0."""
        # The adapters below each switch but the first, and those on the other side.
        below = list(self.hosts)
        for child in range(self.count - 1, 0, -1):
            below[self.parents[child - 1]] += below[child]
        loads = [count * (len(self.ends) - count) for count in below[1:]]
        # Each wire is that of a switch to its parent.
        found = {(self.switches[at], port): load for load, ends in zip(loads, self.wires) for at, port in ends}
        return dict(sorted(found.items()))

    def appendix(self) -> bytes:
        """Returns the lines of `--loads`, and of `--way` from the first adapter to the last one's LID, for adapters of
        one port under LMC 0."""
        lines = [f"channel {guid:016x}/{port} load {load}" for (guid, port), load in self.loads().items()]
        (start, _, at, _), (end, _, home, _) = self.ends[0], self.ends[-1]
        far, words = {one: other for wire in self.wires for one, other in (wire, wire[::-1])}, []
        while at != home:
            words.append(f"{self.switches[at]:016x}/{self.exits[at][home]} ")
            at = far[at, self.exits[at][home]][0]
        lines.append(f"way {start:016x}/1 {self.lids()[1][-1]} {''.join(words)}taken at {end:016x}/1")
        return "".join(f"{line}\n" for line in lines).encode()


def hundredths(number: int) -> str:
    """Returns a number of hundredths as a decimal number."""
    return f"{number // 100}.{number % 100:02}"


def levels(first: int, second: int, hosts: int) -> Tree:
    """Returns a tree: a switch above `first` others, each above `second` others, with adapters at the lowest."""
    parents = [0] * first + [1 + i // second for i in range(first * second)]
    return Tree(parents, [0] * (1 + first) + [hosts] * (first * second))


def chain(count: int, hosts: int) -> Tree:
    """Returns a row of switches with adapters at each."""
    return Tree(list(range(count - 1)), [hosts] * count)
