"""Virtual lanes and service levels as other programs dump them: OpenSM's opensm-sl2vl.dump and
opensm-path-records.dump, the two texts that ibdmchk reads, and what saquery prints of path records.

In OpenSM's dumps a head names a port by its GUID, and the lines below it are of that port. ibdmchk's texts name nodes,
and a level there is for all ports of a node.
"""
from __future__ import annotations

import collections
import re
from collections.abc import Iterator, Sequence

from dump_links import first_of
from ibsm_texts import ENTRIES, GREATEST_LID, NO_WAY, End, Facts, Refused, name_of

LEVELS, DROPS = 16, 15
PORT, NODE, LID = "port", "node", "lid"
GUID = "0x([0-9a-fA-F]{1,16})"
HEAD = re.compile(rf"(Switch|Channel Adapter|Router) {GUID}, base LID \d+, .*")
MAP_ROW = re.compile(r"(\d{1,3})\s+(\d{1,3})\s*:((?:\s+\d{1,3}){16})\s*")
LEVEL_ROW = re.compile(r"0x([0-9a-fA-F]{1,4})\s*:\s*(\d{1,3})\s*(?::.*)?")
NODE_MAP = re.compile(rf"{GUID} (\d{{1,3}}) (\d{{1,3}})((?: 0x[0-9a-fA-F]{{2}}){{8}})\s*")
NODE_LEVEL = re.compile(rf"{GUID} (\d{{1,5}}) (\d{{1,3}})\s*")
RECORD = re.compile(r"PathRecord dump:\s*")
FIELD = re.compile(r"\s+(\w+)\.+(\S+)\s*")
# Whose packets a line is about: those of a port or node by GUID, or of a port by LID.
Whose = tuple[str, int]
Place = tuple[str, int]


def is_lanes(lines: Sequence[str]) -> bool:
    """Returns whether a text is a dump of lanes or of levels."""
    first = first_of(lines)
    return any(form.fullmatch(first) for form in (HEAD, NODE_MAP, NODE_LEVEL, RECORD))


class LaneDumps:
    """The SL-to-VL maps and service levels in dumps, and the line that gave each first."""

    def __init__(self) -> None:
        self.maps = {}  # whose, in-port, out-port: the lane of each level
        self.levels = {}  # whose, LID: the level of packets to it
        self.places = {}  # the key of either: the dump and the line
        self.path, self.number, self.whose = "", 0, None
        self.record = {}  # the fields of a path record so far

    def read(self, path: str, lines: Sequence[str]) -> None:
        """Takes in a dump."""
        self.path, self.whose, self.record = path, None, None
        for self.number, line in enumerate(lines, 1):
            if line.strip() and not line.startswith("#") and not self.take(line):
                raise self.fault(f"is no line of a dump of lanes: {line[:60]}")
        self.close_record()

    def fault(self, why: str, place: Place | None = None) -> Refused:
        """Returns the refusal of the line at `place`, or of the line being read if there is no `place`."""
        path, number = place or (self.path, self.number)
        return Refused(f"{path}: line {number} {why}")

    def take(self, line: str) -> bool:
        """Takes in a line, and returns whether it is understood."""
        if form := HEAD.fullmatch(line):
            # The maps of adapters are not used.
            self.whose = (PORT, int(form[2], 16)), form[1] == "Switch"
        elif self.whose and (form := MAP_ROW.fullmatch(line)):
            if self.whose[1]:
                self.put_map(self.whose[0], form, bytes(min(int(lane), 255) for lane in form[3].split()))
        elif self.whose and (form := LEVEL_ROW.fullmatch(line)):
            self.put_level(self.whose[0], int(form[1], 16), int(form[2]))
        elif form := NODE_MAP.fullmatch(line):
            digits = form[4].replace(" 0x", "")
            self.put_map((NODE, int(form[1], 16)), form, bytes(int(digit, 16) for digit in digits), 2)
        elif form := NODE_LEVEL.fullmatch(line):
            self.put_level((NODE, int(form[1], 16)), int(form[2]), int(form[3]))
        elif RECORD.fullmatch(line):
            self.close_record()
            self.record = {}
        elif self.record is not None and (form := FIELD.fullmatch(line)):
            self.record[form[1]] = form[2]
        else:
            return False
        return True

    def close_record(self) -> None:
        """Takes in the path record whose lines were read."""
        if self.record is None:
            return
        try:
            values = [int(self.record.pop(word), 0) for word in ("slid", "dlid", "sl")]
        except (KeyError, ValueError):
            raise self.fault("ends a path record without its LIDs and its level") from None
        self.put_level((LID, values[0]), *values[1:])

    def put(self, found: dict, key: tuple, value: bytes | int, what: str) -> None:
        """Notes a value that the line gives. Refuses it if an earlier line gives another one."""
        path, number = self.places.setdefault(key, (self.path, self.number))
        if found.setdefault(key, value) != value:
            raise self.fault(f"has another {what} than {path}, line {number}: are these dumps of two times?")

    def put_map(self, whose: Whose, form: re.Match, lanes: bytes, first: int = 1) -> None:
        """Notes the lanes from one port to another. `form` has these ports from its group `first` on."""
        if max(lanes) > DROPS:
            raise self.fault(f"has lane {max(lanes)}")
        self.put(self.maps, (whose, int(form[first]), int(form[first + 1])), lanes, "map")

    def put_level(self, whose: Whose, lid: int, level: int) -> None:
        """Notes the level of packets for a LID."""
        if not 1 <= lid <= GREATEST_LID:
            raise self.fault(f"has LID {lid}")
        if level >= LEVELS:
            raise self.fault(f"has level {level}")
        self.put(self.levels, (whose, lid), level, "level")


class Lanes:
    """The maps of switches and the levels of pairs of an end port and a LID, from facts, the LIDs of end ports, and
    dumps."""

    def __init__(self, facts: Facts, ranges: dict[End, tuple[int, int]], dumps: LaneDumps) -> None:
        self.facts, self.ranges, self.dumps = facts, ranges, dumps
        self.by_guid = collections.defaultdict(list)
        self.by_node = collections.defaultdict(list)
        for end, guid in facts.port_guids.items():
            self.by_guid[guid].append(end)
            self.by_node[end[0]].append(end)
        self.by_lid = {lid: end for end, (first, last) in ranges.items() for lid in range(first, last + 1)}
        self.maps, self.levels, self.told = {}, {}, {}
        for (whose, into, out), lanes in dumps.maps.items():
            self.put_map((whose, into, out), lanes)
        for (whose, lid), level in dumps.levels.items():
            self.put_level((whose, lid), level)

    def ends_of(self, key: tuple) -> list[End]:
        """Returns the end ports that a line names. Refuses a line that names none, or whose port GUID several ports
        have."""
        kind, number = key[0]
        place = self.dumps.places[key]
        if kind == LID:
            found = [self.by_lid[number]] if number in self.by_lid else []
        else:
            # A switch whose port 0 has no known GUID goes by its node GUID.
            found = (self.by_node if kind == NODE else self.by_guid)[number]
            found = found or [(number, 0)] * self.facts.is_switch(number)
        if not found or kind == PORT and len(found) > 1:
            named = f"LID {number}" if kind == LID else f"{kind} GUID {number:016x}"
            many = "several ports have" if found else "no dump of nodes and cables knows"
            raise self.dumps.fault(f"names {named}, which {many}", place)
        return found

    def put_map(self, key: tuple, lanes: bytes) -> None:
        """Notes the lanes of a switch from one port to another."""
        _, into, out = key
        guid = self.node_of(key)
        if max(into, out) > self.facts.nodes[guid][1]:
            raise self.dumps.fault(f"has port {max(into, out)}, which the switch lacks", self.dumps.places[key])
        self.note(self.maps, (guid, into, out), lanes, key)

    def node_of(self, key: tuple) -> int:
        """Returns the switch that a line names. Refuses a node that is not a switch."""
        kind, number = key[0]
        guid = number if kind == NODE and number in self.facts.nodes else self.ends_of(key)[0][0]
        if not self.facts.is_switch(guid):
            raise self.dumps.fault(f"names {guid:016x}, which is no switch", self.dumps.places[key])
        return guid

    def put_level(self, key: tuple, level: int) -> None:
        """Notes the level of packets to a LID from each end port that a line names."""
        for end in self.ends_of(key):
            self.note(self.levels, (end, key[1]), level, key)

    def note(self, found: dict, about: tuple, value: bytes | int, key: tuple) -> None:
        """Notes a value. Refuses it if another line, which names the port in another way, gives a different one."""
        before = self.told.setdefault(about, key)
        if found.setdefault(about, value) != value:
            (path, number), place = self.dumps.places[before], self.dumps.places[key]
            raise self.dumps.fault(f"contradicts {path}, line {number}: are these dumps of two times?", place)

    def lines(self, level: int | None, of_adapters: bool) -> tuple[list[str], list[tuple[bool, str]]]:
        """Returns the lines of a text on lanes, and for each kind of gap whether something is left out, and a sentence.
        If no dump gives a level for packets, they have `level`, unless that is None. With `of_adapters`, packets from
        or to switches are left out."""
        said, lines = [], []
        lines += self.map_lines(said)
        lines += self.level_lines(level, of_adapters, said)
        return lines, said

    def map_lines(self, said: list[tuple[bool, str]]) -> Iterator[str]:
        """Yields the lines of maps. If no dump has a row for two ports, the text drops packets there, and `said` gets a
        sentence on it."""
        if not self.maps:
            said.append((True, "no dump tells the SL-to-VL maps of switches: by the text all packets are dropped"))
            return
        usual = most_frequent(self.maps.values())
        lacking = [
            (guid, into, out)
            for guid in self.facts.nodes if self.facts.is_switch(guid)
            for into in (0, *self.cabled(guid))
            for out in self.cabled(guid) if (guid, into, out) not in self.maps
        ]
        if lacking:
            guid, into, out = min(lacking)
            said.append((True, (
                f"{len(lacking)} pairs of ports have no SL-to-VL map in a dump, first ports {into} and {out} of switch "
                f"{guid:016x}: by the text packets are dropped there"
            )))
        yield f"lanes {usual.hex()}"
        rows = self.maps | dict.fromkeys(lacking, bytes([DROPS]) * LEVELS)
        for (guid, into, out), lanes in sorted(rows.items()):
            if lanes != usual:
                yield f"sl2vl {guid:016x} {into} {out} {lanes.hex()}"

    def cabled(self, guid: int) -> list[int]:
        """Returns the ports of a switch that have a cable."""
        return [port for port in range(1, self.facts.nodes[guid][1] + 1) if (guid, port) in self.facts.links]

    def level_lines(self, level: int | None, of_adapters: bool, said: list[tuple[bool, str]]) -> Iterator[str]:
        """Yields the lines of levels. A level for all other packets is given only if each pair has a level, from a dump
        or by `level`, and `of_adapters` is not set."""
        if not self.levels and level is None:
            said.append((True, "no dump tells the service levels of paths (--level): by the text no packet has one"))
            return
        pairs = {
            (end, lid)
            for end in self.facts.port_guids
            for lid, owner in self.by_lid.items() if owner != end and (not of_adapters or end[1] and owner[1])
        }
        rows = self.levels if not of_adapters else {pair: self.levels[pair] for pair in pairs & self.levels.keys()}
        lacking = pairs - rows.keys()
        if lacking:
            lid, end = min((lid, end) for end, lid in lacking)
            first = f"first {name_of(end)} and LID {lid}"
            what = f"{len(lacking)} pairs of a port and a LID have no level in a dump, {first}"
            said.append((level is None, f"{what} (--level)" if level is None else f"{what}: level {level} is taken"))
        if level is not None:
            rows = dict.fromkeys(lacking, level) | rows
        usual = most_frequent(rows.values()) if pairs <= rows.keys() and rows and not of_adapters else None
        if usual is not None:
            yield f"level {usual}"
        yield from levels_text(rows, usual)


def most_frequent(values: Sequence) -> bytes | int:
    """Returns the most frequent value, or the least of equally frequent ones."""
    counts = collections.Counter(values)
    return min(counts, key=lambda value: (-counts[value], value))


def levels_text(rows: dict[tuple[End, int], int], usual: int | None) -> Iterator[str]:
    """Yields the lines of levels other than the usual one."""
    blocks = collections.defaultdict(lambda: bytearray([NO_WAY]) * ENTRIES)
    for (end, lid), level in rows.items():
        if level != usual:
            blocks[end, lid // ENTRIES][lid % ENTRIES] = level
    for (end, number), row in sorted(blocks.items()):
        yield f"levels {name_of(end)} {number} {row.hex()}"
