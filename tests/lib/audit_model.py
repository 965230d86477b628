"""An audit computed packet by packet, as docs/FORMATS.md has it: of pairs, of the loads of channels, and of the way of
a packet.

It knows facts and tables as texts, and shares with the tools nothing but their readers.
"""
from __future__ import annotations

import collections
from collections.abc import Iterator

from ibsm_texts import NO_WAY, End, Facts, Plan, name_of

# Why a packet is lost, in the words of its line; and the heads of the counts of these causes and of other ends.
CAUSES = ("above top", "no entry", "no such port", "no link", "foreign port")
MISSED = ("above-top", "no-entry", "no-port", "no-link", "foreign", "misdelivered", "round")


class Packet:
    """Where a packet goes: its channels, how it ends (`taken`, `lost`, `round`), where, and why."""

    def __init__(self) -> None:
        self.channels, self.end, self.at, self.entry, self.cause = [], "", None, None, ""

    def ended(self, end: str, at: int | End, cause: str = "", entry: int | None = None) -> Packet:
        """Returns the packet, which ends in this way."""
        self.end, self.at, self.cause, self.entry = end, at, cause, entry
        return self

    def tail(self) -> str:
        """Returns where and why it ends, as a line tells it."""
        if self.end == "round":
            return ""
        at = name_of(self.at) if self.end == "taken" else f"{self.at:016x}"
        by = f" by {self.entry}" if self.entry is not None else ""
        return f" at {at}{by}" + (f": {self.cause}" if self.cause else "")


class Subnet:
    """The subnet of facts, with tables."""

    def __init__(self, facts: Facts, held: Plan) -> None:
        self.facts, self.held = facts, held
        self.switches = sorted(guid for guid in facts.caps if facts.is_switch(guid))
        usable = {guid for guid in facts.nodes if not facts.is_switch(guid) or guid in facts.caps}
        self.wires = {
            end: far for end in facts.links
            if (far := facts.wire(end)) and {end[0], far[0]} <= usable and end[1] <= self.ports(end[0])
        }
        self.ends = sorted(facts.end_ports(), key=facts.port_guids.get)
        self.owners = collections.defaultdict(list)
        for lid, end in [*held.owners.items(), *held.shared]:
            if end not in self.owners[lid]:
                self.owners[lid].append(end)
        self.parts = self.components()

    def ports(self, guid: int) -> int:
        """Returns how many ports a node has."""
        return self.facts.nodes[guid][1]

    def home(self, end: End) -> End:
        """Returns the end port at an end: of a switch its port 0."""
        return (end[0], 0) if self.facts.is_switch(end[0]) else end

    def components(self) -> dict[End, End]:
        """Returns, for each end port, one of its component. Wires join end ports; adapters pass nothing on."""
        beside, found = collections.defaultdict(list), {}
        for end, far in self.wires.items():
            beside[self.home(end)].append(self.home(far))
        for start in self.ends:
            waiting = [] if start in found else [start]
            while waiting:
                at = waiting.pop()
                if at not in found:
                    found[at] = start
                    waiting += beside[at]
        return found

    def follow(self, start: End, lid: int) -> Packet:
        """Returns where the packet goes that an end port sends to a LID."""
        packet, at = Packet(), start
        if start[0] not in self.switches:
            if start in self.owners[lid]:
                return packet.ended("taken", start)
            at = self.wires.get(start)
            if at is None:
                return packet.ended("lost", start[0], "no link")
        for _ in range(len(self.switches) + 1):
            if not self.facts.is_switch(at[0]):
                return packet.ended("taken", at) if at in self.owners[lid] else packet.ended("lost", at[0], CAUSES[-1])
            top, entry = self.held.tops.get(at[0], 0), self.held.entry(at[0], lid)
            if entry == 0:
                return packet.ended("taken", (at[0], 0))
            out = at[0], entry
            if entry == NO_WAY or out not in self.wires:
                why = top < lid, entry == NO_WAY, entry > self.ports(at[0]), True
                return packet.ended("lost", at[0], CAUSES[why.index(True)], entry)
            at = self.wires[out]
            if self.facts.is_switch(at[0]):
                packet.channels.append(out)
        packet.channels = packet.channels[: len(self.switches)]
        return packet.ended("round", 0)

    def pairs(self) -> Iterator[tuple[End, int, End, Packet]]:
        """Yields each pair of a sender, a LID and an end port of the same component that holds it, with the packet."""
        for lid in sorted(self.owners):
            for owner in self.owners[lid]:
                for start in self.ends if owner in self.parts else ():
                    if self.parts[start] == self.parts[owner]:
                        yield start, lid, owner, self.follow(start, lid)

    def channels(self) -> list[End]:
        """Returns the channels: wires between usable switches, by their first end."""
        return sorted(end for end, far in self.wires.items() if {end[0], far[0]} <= {*self.switches})

    def load_lines(self) -> str:
        """Returns the lines of `--loads`."""
        loads = dict.fromkeys(self.channels(), 0)
        for start, _, owner, packet in self.pairs():
            if start != owner and start[1] and owner[1] and packet.end == "taken" and packet.at == owner:
                for channel in packet.channels:
                    loads[channel] += 1
        return "".join(f"channel {name_of(end)} load {load}\n" for end, load in sorted(loads.items()))

    def way_line(self, start: End, lid: int) -> str:
        """Returns the line of `--way`."""
        head = f"way {name_of(start)} {lid}"
        if start not in self.ends:
            return f"{head}: no end port\n"
        packet = self.follow(start, lid)
        words = "".join(f" {name_of(end)}" for end in packet.channels)
        return f"{head}{words} {packet.end}{packet.tail()}\n"

    def audit_lines(self, shows_all: bool) -> Iterator[str]:
        """Yields the lines of an audit up to `missed`, and those of packets that do not arrive."""
        counts = {kind: [0, 0] for kind in ("", "between adapters ", "with a switch ")}
        missed, lines = dict.fromkeys(MISSED, 0), collections.defaultdict(list)
        for start, lid, owner, packet in self.pairs():
            arrives = packet.end == "taken" and packet.at == owner
            for kind in "", "between adapters " if start[1] and owner[1] else "with a switch ":
                counts[kind][0] += 1
                counts[kind][1] += arrives
            if not arrives:
                kind = "misdelivered" if packet.end == "taken" else packet.end
                missed[MISSED[CAUSES.index(packet.cause)] if kind == "lost" else kind] += 1
                lines[kind].append(f"{kind} {name_of(start)} {lid}{packet.tail()}")
        yield from (f"{kind}pairs {pairs} arrive {arrive}" for kind, (pairs, arrive) in counts.items())
        yield "missed " + " ".join(f"{cause} {count}" for cause, count in missed.items())
        for kind in ("lost", "misdelivered", "round"):
            yield from lines[kind] if shows_all else lines[kind][:20]
            if not shows_all and len(lines[kind]) > 20:
                yield f"more {kind} {len(lines[kind]) - 20}"
