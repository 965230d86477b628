"""Where packets go by the tables of a plan, over the cables of the facts, and what channels carry, counted LID by LID
for many packets together. `audit_model.py` follows each packet alone.

Switches are numbered in order of their GUIDs. The entries of all switches for a LID are its *column*, one byte each.
LIDs whose owners are at the same switch mostly have the same column except at that switch, so each column is followed
once.
"""
from __future__ import annotations

import collections
import functools
import itertools
import operator
from collections.abc import Iterable, Iterator

from ibsm_texts import ENTRIES, NO_WAY, NONE, Facts, Plan, name_of

Channel = tuple[int, int]


class Routes:
    """The routes of packets by the tables of a plan."""

    def __init__(self, facts: Facts, plan: Plan) -> None:
        self.plan, self.owners = plan, plan.owners
        # A usable switch without tables has no entries.
        self.guids = sorted(plan.tables.keys() | {guid for guid in facts.caps if facts.is_switch(guid)})
        self.index = {guid: i for i, guid in enumerate(self.guids)}
        self.far = [{} for _ in self.guids]  # port: far end
        self.home = {}  # adapter port: its switch and the port there
        self.partners = {}  # adapter port cabled to another one: that one
        adapters = {end for end in facts.end_ports() if end[1]}
        for end in facts.links:
            far = facts.wire(end)
            if far and end[0] in self.index:
                self.far[self.index[end[0]]][end[1]] = far
            elif far and end in adapters:
                if far[0] in self.index:
                    self.home[end] = self.index[far[0]], far[1]
                elif far in adapters:
                    self.partners[end] = far

    def columns(self, lids: Iterable[int]) -> Iterator[tuple[int, bytes]]:
        """Yields each LID with its column. `lids` must rise. Joins only one block of each switch at a time."""
        tables, tops = self.plan.tables, self.plan.tops
        for number, those in itertools.groupby(lids, lambda it: it // ENTRIES):
            start = number * ENTRIES
            stripe = b"".join(
                tables.get(guid, b"")[start : min(start + ENTRIES, tops.get(guid, 0) + 1)].ljust(ENTRIES, NONE)
                for guid in self.guids
            )
            for lid in those:
                yield lid, stripe[lid - start :: ENTRIES]

    def owned(self) -> Iterator[tuple[int, int | None, bytes]]:
        """Yields each LID that has an owner, in rising order, with the owner's switch and the LID's column.

        If packets leave that switch for the owner, the column has 0 there. Otherwise the switch is None.
        """
        for lid, entries in self.columns(sorted(self.owners)):
            owner, column = self.owners[lid], bytearray(entries)
            at, port = (self.index.get(owner[0]), 0) if owner[1] == 0 else self.home.get(owner, (None, None))
            if at is not None and column[at] == port:
                column[at] = 0
            else:
                at = None
            yield lid, at, bytes(column)

    @functools.cached_property
    def groups(self) -> dict[tuple[int | None, bytes], list[int]]:
        """Returns, for each pair of an owner's switch and a column, the LIDs that have both."""
        found = collections.defaultdict(list)
        for lid, at, column in self.owned():
            found[at, column].append(lid)
        return found

    @functools.cached_property
    def nexts(self) -> list[list[int]]:
        """Returns, for each switch and entry, the next switch. The three numbers after those of switches stand for an
        arrival, the entry 255, and a fault."""
        count = len(self.guids)
        found = []
        for ports in self.far:
            row = [count + 2] * (NO_WAY + 1)
            row[NO_WAY] = count + 1
            for port, end in ports.items():
                if 0 < port < NO_WAY:
                    row[port] = self.index.get(end[0], count + 2)
            found.append(row)
        return found

    def ends(self) -> dict[Channel, int]:
        """Returns each channel with the switch that it leads to. A channel is a switch with a port of it whose cable
        leads to a switch."""
        return {(i, port): self.index[end[0]] for i, ports in enumerate(self.far) for port, end in ports.items()
                if end[0] in self.index}

    @functools.cached_property
    def senders(self) -> collections.Counter[int]:
        """Counts the adapter ports at each switch, each of which sends."""
        return collections.Counter(home for home, _ in self.home.values())

    def reached(self, home: int | None, column: bytes) -> dict[int, int]:
        """Returns the switches from which packets arrive by a column, nearest first, each with the number of cables
        between switches that they take."""
        behind = collections.defaultdict(list)
        for at, far in enumerate(map(operator.getitem, self.nexts, column)):
            behind[far].append(at)
        found = {} if home is None else {home: 0}
        order = list(found)
        for near in order:
            if near in behind:
                order += behind[near]
                found |= dict.fromkeys(behind[near], found[near] + 1)
        return found

    @functools.cached_property
    def carried(self) -> dict[Channel, int]:
        """Returns, for each channel, the number of pairs of an adapter port and a LID of another one whose packets take
        it and arrive."""
        carried = dict.fromkeys(self.ends(), 0)
        for (home, column), lids in self.groups.items():
            count = sum(self.owners[lid] in self.home for lid in lids)
            if count:
                self.carry(self.reached(home, column), column, self.senders, count, carried)
        return carried

    def carry(
        self,
        ways: dict[int, int],
        column: bytes,
        sources: collections.Counter[int],
        count: int,
        carried: dict[Channel, int],
    ) -> None:
        """Adds to `carried` the packets of a column from the switches that `reached` returns, `count` packets from each
        source."""
        sent = {at: sources[at] for at in ways}
        for at, cables in reversed(ways.items()):
            if cables:
                port = column[at]
                carried[at, port] += count * sent[at]
                sent[self.nexts[at][port]] += sent[at]

    def load_lines(self) -> str:
        """Returns the lines of the loads of channels, as an audit prints them."""
        loads = ((name_of((self.guids[i], port)), load) for (i, port), load in sorted(self.carried.items()))
        return "".join(f"channel {name} load {load}\n" for name, load in loads)


def hundredths(total: int, count: int) -> str:
    """Returns a mean with two digits after the point, rounded down."""
    return f"{total // count}.{100 * total // count % 100:02}"


def hops_of(ways: Routes) -> collections.Counter[int]:
    """Counts the packets between adapter ports that arrive by the number of wires that they take."""
    hops = collections.Counter()
    for (home, column), lids in ways.groups.items():
        targets = sum(ways.owners[lid] in ways.home for lid in lids)
        for at, cables in ways.reached(home, column).items() if targets else ():
            # A port sends itself no packet.
            hops[cables + 2] += targets * (ways.senders[at] - (at == home))
    lids = collections.Counter(ways.owners.values())
    hops[1] += sum(lids[far] for far in ways.partners.values())
    return +hops


def told_of_ways(ways: Routes) -> str:
    """Returns the lines `hops` and `load` of an audit."""
    hops, loads = hops_of(ways), ways.carried.values()
    pairs, wires = sum(hops.values()), sum(number * count for number, count in hops.items())
    told = f"max {max(hops)} mean {hundredths(wires, pairs)}" if pairs else "none"
    load = f"max {max(loads)} mean {hundredths(sum(loads), len(loads))}" if loads else "none"
    return f"hops {told}\nload {load}\n"
