"""Credit loops lane by lane, worked out from docs/FORMATS.md ("LANES", "Audit by lane") independently of the program:
each packet is followed separately.

A channel is the GUID of a switch, a port by which packets leave it for a switch, and their lane.
"""
from __future__ import annotations

import collections
import re
from typing import NamedTuple

import credit_loops
import paths  # noqa: F401
import spread_rule
from ibsm_texts import ENTRIES, End, Facts
from next_rule import Subnet, Tables

LEVELS, DROPS, NO_LEVEL = 16, 15, 255
MOST_PORT, MOST_BLOCK = 254, 767
Channel = tuple[int, int, int]
Key = tuple[int, ...]
HEX = "[0-9a-fA-F]"
FORMS = {
    "lanes": re.compile(rf"lanes ({HEX}{{32}})"),
    "sl2vl": re.compile(rf"sl2vl ({HEX}{{1,16}}) ([0-9]+) ([0-9]+) ({HEX}{{32}})"),
    "level": re.compile(r"level ([0-9]+)"),
    "levels": re.compile(rf"levels ({HEX}{{1,16}})/([0-9]+) ([0-9]+) ({HEX}{{128}})"),
}


class Line(NamedTuple):
    """A line of a text on lanes: its word, its numbers (a GUID, ports and a block, or a level), and its bytes."""

    word: str
    key: Key
    row: bytes

    def fault(self) -> str:
        """Returns the first fault that the line has by itself, or an empty text."""
        if self.word == "sl2vl" and max(self.key[1:]) > MOST_PORT or self.word == "levels" and self.key[1] > MOST_PORT:
            return "port"
        if self.word == "levels" and self.key[2] > MOST_BLOCK:
            return "block"
        if self.word in ("lanes", "sl2vl") and max(self.row) > DROPS:
            return "lane"
        if self.word == "level" and self.key[0] >= LEVELS:
            return "level"
        if self.word == "levels" and any(LEVELS <= level < NO_LEVEL for level in self.row):
            return "level"
        return ""


def line_of(text: str) -> Line | None:
    """Returns what a line says, or None if it is malformed. Words are separated by one blank."""
    word = text.split(" ")[0]
    form = FORMS[word].fullmatch(text) if word in FORMS else None
    if form is None:
        return None
    words = list(form.groups())
    row = bytes.fromhex(words.pop()) if word != "level" else b""
    guid = [int(words.pop(0), 16)] if word in ("sl2vl", "levels") else []
    return Line(word, (*guid, *map(int, words)), row)


class Lanes:
    """What a text on lanes says, up to its first fault. `fault` has the number of that line, and a word."""

    def __init__(self, text: str = "") -> None:
        self.usual, self.maps = None, {}  # the map of the line `lanes`; by switch, in-port and out-port
        self.level, self.levels = None, {}  # by GUID and port of an end, and block
        self.fault = None
        last = {}
        for number, whole in enumerate(text.removesuffix("\n").split("\n"), 1):
            words = re.findall("[^ \t]+", whole.removesuffix("\r").split("#")[0])
            if not words:
                continue
            line = line_of(" ".join(words))
            word = "syntax" if line is None else line.fault()
            if not word and line.word in last and (len(line.key) < 2 or line.key <= last[line.word]):
                word = "repeated"
            if word:
                self.fault = number, word
                return
            last[line.word] = line.key
            self.take(line)

    def take(self, line: Line) -> None:
        """Takes in a line without a fault."""
        if line.word == "lanes":
            self.usual = line.row
        elif line.word == "sl2vl":
            self.maps[line.key] = line.row
        elif line.word == "level":
            self.level = line.key[0]
        else:
            self.levels[line.key] = line.row

    def lane(self, guid: int, into: int, out: int, level: int) -> int:
        """Returns the lane of packets of a level that come in at a switch by a port and leave by another."""
        row = self.maps.get((guid, into, out), self.usual)
        return DROPS if row is None else row[level]

    def level_of(self, end: End, lid: int) -> int | None:
        """Returns the level of packets from an end port to a LID, or None if they have none."""
        row = self.levels.get((*end, lid // ENTRIES))
        level = NO_LEVEL if row is None else row[lid % ENTRIES]
        return self.level if level == NO_LEVEL else level


class Drop(NamedTuple):
    """Packets of a level for a LID, dropped at a switch where they come in and would leave by these ports."""

    lid: int
    guid: int
    into: int
    out: int
    level: int

    def line(self) -> str:
        """Returns the line that reports these packets."""
        return f"dropped {self.lid} at {self.guid:016x} {self.into} {self.out} level {self.level}"


class Judged(NamedTuple):
    """What an audit by lane finds: for each channel, the channels that packets take next, the length of a shortest
    credit loop or 0, the pairs of an end and a LID without a level, in order, and what is dropped."""

    after: dict[Channel, set[Channel]]
    loop: int
    without: list[tuple[End, int]]
    drops: set[Drop]


class Rule:
    """Facts, tables and lanes, and what packets do by them."""

    def __init__(self, facts: Facts, tables: Tables, lanes: Lanes) -> None:
        self.subnet, self.tables, self.lanes = Subnet(facts), tables, lanes
        # Known GUIDs make end ports only of port 0 of a switch and of the ports of other nodes.
        self.ends = [
            (guid, port)
            for guid, port in self.subnet.ends
            if (port == 0 if facts.is_switch(guid) else 1 <= port <= facts.nodes.get(guid, ("", 0))[1])
        ]
        self.top = max((tables.tops.get(guid, 0) for guid in self.subnet.switches), default=0)
        self.ends.sort(key=lambda end: (facts.port_guids[end], end))
        # Each LID with each end that holds it, in the order of the lines.
        self.lines = list(dict.fromkeys(
            (lid, end) for first, end, lmc in tables.ranges for lid in range(first, first + 2**lmc)
        ))

    def start(self, end: End) -> End | None:
        """Returns the switch at which packets from an end begin, and the port by which they come in there."""
        if end[0] in self.subnet.switches:
            return end[0], 0
        far = self.subnet.wires.get(end)
        return far if far and far[0] in self.subnet.switches else None

    def walk(self, end: End, lid: int, level: int) -> tuple[list[Channel], Drop | None]:
        """Returns the channels that a packet takes in turn, and whether it is dropped then. If the packet loops, the
        list ends with the first channel that it takes again."""
        at, taken, met = self.start(end), [], set()
        while at is not None:
            guid, into = at
            out = self.tables.entry(guid, lid)
            far = self.subnet.wires.get((guid, out)) if out else None
            if far is None or far[0] not in self.subnet.switches:
                break
            lane = self.lanes.lane(guid, into, out, level)
            if lane == DROPS:
                return taken, Drop(lid, guid, into, out, level)
            taken.append((guid, out, lane))
            if at in met:
                break
            met.add(at)
            at = far
        return taken, None

    def own_levels(self, end: End, lid: int) -> set[int]:
        """Returns the level that a text gives to packets from an end to a LID, if it gives one."""
        level = self.lanes.level_of(end, lid)
        return set() if level is None else {level}

    def levels(self, end: End, lid: int, with_answers: bool) -> set[int]:
        """Returns the levels of packets from an end to a LID: their own and, with answers, those on which an end that
        holds the LID asks."""
        found = self.own_levels(end, lid)
        if with_answers:
            askers, lids = self.owners_of(lid), [own for own, holder in self.lines if holder == end]
            found |= {level for asker in askers for own in lids for level in self.own_levels(asker, own)}
        return found

    def owners_of(self, lid: int) -> list[End]:
        """Returns the ends that hold a LID by the tables, whatever the facts know of them."""
        return [end for held, end in self.lines if held == lid]

    def components(self) -> dict[End, End]:
        """Returns, for each end port, the end that stands for its component."""
        graph, found, first = self.subnet.graph(), {}, {}
        for end in self.ends:
            start = self.start(end)
            if start is not None:
                # The least switch that is joined to the one where its packets begin.
                site = min(spread_rule.distances(graph, [start[0]]))
            else:
                site = min(end, self.subnet.wires.get(end, end))
            found[end] = first.setdefault(site, end)
        return found

    def without(self) -> list[tuple[End, int]]:
        """Returns the pairs of an adapter port and a LID, held by another adapter port of its component, without a
        level of their own, in the order of the lines of LIDs and then of port GUIDs."""
        component = self.components()
        return [
            (end, lid)
            for lid, owner in self.lines if owner in self.ends and owner[1]
            for end in self.ends
            if end[1] and end != owner and component[end] == component[owner] and not self.own_levels(end, lid)
        ]

    def judge(self, with_answers: bool = False) -> Judged:
        """Returns what an audit by lane finds. With answers, packets to an end that asked also have the level on which
        it asked."""
        after, drops = collections.defaultdict(set), set()
        for end in self.ends:
            for lid in range(1, self.top + 1):
                for level in self.levels(end, lid, with_answers):
                    taken, drop = self.walk(end, lid, level)
                    for channel, following in zip(taken, taken[1:]):
                        after[channel].add(following)
                    drops.update([drop] if drop else [])
        after = dict(after)
        loop = min(filter(None, (credit_loops.count_round(after, first) for first in list(after))), default=0)
        return Judged(after, loop, self.without(), drops)


def judged(facts: str, tables: str, lanes: str, with_answers: bool = False) -> Judged:
    """Returns what an audit by lane finds in texts of facts, tables and lanes without faults."""
    said = Lanes(lanes)
    assert said.fault is None, said.fault
    return Rule(Facts("", lines=facts.splitlines()), Tables(tables), said).judge(with_answers)
