"""Forwarding tables as other programs dump them: dump_fts, dump_lfts, ibroute, OpenSM's file opensm-lfts.dump, and the
.fdbs of OpenSM and ibdiagnet.

Each switch has a head with its range of LIDs and its GUID, a line for each LID with a port, and a line that counts
these. A line may name the port GUID of the LID's owner. OpenSM's routing engine `file` reads OpenSM's own file in this
form. In .fdbs a head has no range, the last LID that has a line is the top, and nothing is counted or named.
"""
from __future__ import annotations

import re
from collections.abc import Iterable, Iterator

from ibsm_texts import ENTRIES, GREATEST_LID, NO_WAY, NONE, End, Facts, Refused, each_line

# OpenSM reads each line into a buffer of 1,024 bytes.
LONGEST_LINE = 1022
HEAD = "Unicast lids"
GUID = re.compile(r" guid 0x([0-9a-f]+)(?:\s|$)")
RANGE = re.compile(HEAD + r" \[\w+-(0x[0-9a-f]+|\d+)\]")
ENTRY = re.compile(r"0x([0-9a-f]+)\s+(\d+)(?:\s|$)")
OWNER = re.compile(r"portguid 0x([0-9a-f]+)")
COUNT = re.compile(r"\d+ (?:valid )?lids dumped")
FDBS_HEAD = re.compile(r"(?:osm_ucast_mgr_)?dump_ucast_routes: Switch 0x([0-9a-fA-F]{1,16})\s*")
FDBS_LINE = re.compile(r"0x([0-9a-fA-F]{1,4}) : (?:(\d+) *: \d+ *: .*|UNREACHABLE)\s*")
# Other lines of dumps: the heads of columns, the warning of dump_lfts, and comments of ibdiagnet.
BETWEEN = re.compile(r"|#.*|Lid\s+Out\s+Destination\s*|Port\s+Info\s*|LID\s*: Port\s*: Hops\s*: Optimal\s*|\*\*\*.*")
# A row of entries grows by this many LIDs at a time.
ROOM = 4096
LIDS = 65536


class LineRefused(Refused):
    """A line does not belong to a dump."""


def is_head(line: str) -> bool:
    """Returns whether a line begins the table of a switch, in any form."""
    return line.startswith(HEAD) or FDBS_HEAD.fullmatch(line) is not None


def is_dump(lines: Iterable[str]) -> bool:
    """Returns whether some line begins the table of a switch."""
    return any(is_head(line.lstrip()) for line in lines)


class Entries:
    """The ports of a switch by LID: a byte each, NO_WAY if unknown. `others` has what does not fit there: entries of
    255 or more, and LIDs that are out of range."""

    def __init__(self) -> None:
        self.row, self.others = bytearray(), {}

    def get(self, lid: int) -> int | None:
        """Returns the port, or None if it is unknown."""
        port = self.row[lid] if lid < len(self.row) else NO_WAY
        return self.others.get(lid) if port == NO_WAY else port

    def put(self, lid: int, port: int) -> None:
        """Notes the port for a LID."""
        if port >= NO_WAY or lid >= LIDS:
            self.others[lid] = port
            return
        if lid >= len(self.row):
            self.row += NONE * (lid // ROOM * ROOM + ROOM - len(self.row))
        self.row[lid] = port

    def lacks(self, lids: Iterable[int], top: int) -> list[int]:
        """Returns the LIDs among `lids`, up to a top, whose port is unknown."""
        row = self.row
        return [
            lid
            for lid in lids
            if (lid >= len(row) or row[lid] == NO_WAY) and lid <= top and lid not in self.others
        ]

    def led(self) -> Iterator[int]:
        """Yields the LIDs for which packets leave by a port."""
        yield from (lid for lid, port in enumerate(self.row) if port != NO_WAY)
        yield from (lid for lid, port in self.others.items() if port != NO_WAY)

    def greatest(self) -> int:
        """Returns the greatest LID with a known port, or 0."""
        return max(len(self.row.rstrip(NONE)) - 1, 0, *self.others)


class Dump:
    """The tables, LIDs and owners in dumps."""

    def __init__(self) -> None:
        self.tables = {}  # GUID: entries
        self.tops = {}  # GUID: the last LID of its range
        self.named = {}  # LID: port GUID
        self.whole = set()  # GUIDs of switches whose lines are counted at their end
        self.uncounted = set()  # GUIDs of switches of .fdbs, where lines are not counted
        self.sources = {}  # GUID of a switch, or LID that has an owner: the dump that named it first
        self.tails = {}  # LID: what followed the port in a line that was read
        self.lids = {f"0x{lid:04x}": lid for lid in range(LIDS)}
        self.ports = {f" {port:03d}": port for port in range(NO_WAY)}
        self.begin("")

    def begin(self, path: str) -> None:
        """Begins to read another dump."""
        self.path, self.at, self.is_fdbs, self.is_dump, self.fault = path, None, False, False, None

    def read(self, path: str) -> bool:
        """Takes in a file, and returns whether it is a dump. Adds the lines of a switch to those it already has, and
        skips lines that belong to no dump, as OpenSM does."""
        self.begin(path)
        each_line(path, self.take_loosely, "replace")
        if self.is_dump and self.fault:
            raise self.fault
        return self.is_dump

    def take_loosely(self, number: int, line: str) -> None:
        """Takes in a line of a file that may not be a dump, and keeps the first fault."""
        if self.is_like_one(line):
            return
        line = line.lstrip()
        self.is_dump = self.is_dump or is_head(line)
        if self.fault is None:
            try:
                self.take(number, line)
            except LineRefused as fault:
                self.fault, self.at = fault, None

    def is_like_one(self, line: str) -> bool:
        """Takes in a line that differs only in its port from an earlier one, if the switch's row has a free entry for
        its LID. Returns whether it took the line in."""
        lid = self.lids.get(line[:6])
        port = self.ports.get(line[6:10])
        if lid is None or port is None or self.at is None or self.tails.get(lid) != line[10:]:
            return False
        table = self.tables[self.at]
        is_taken = lid < len(table.row) and table.row[lid] == NO_WAY and lid not in table.others
        if is_taken:
            table.row[lid] = port
        return is_taken

    def read_strictly(self, path: str, lines: Iterable[str]) -> None:
        """Takes in the lines of a file, each of which has to belong to a dump."""
        self.begin(path)
        for number, line in enumerate(lines, 1):
            line = line.lstrip()
            if not self.take(number, line) and not BETWEEN.fullmatch(line):
                raise LineRefused(f"line {number} is no line of a dump of tables: {line[:60]}")

    def take(self, number: int, line: str) -> bool:
        """Takes in a line, and returns whether it belongs to a dump."""
        if len(line) > LONGEST_LINE:
            raise LineRefused(f"line {number} is longer than OpenSM reads")
        if is_head(line):
            self.head(number, line)
        elif self.at is not None and line.startswith("0x"):
            (self.fdbs_entry if self.is_fdbs else self.entry)(number, line)
        elif self.at is not None and COUNT.match(line):
            self.whole.add(self.at)
        else:
            return False
        return True

    def head(self, number: int, line: str) -> None:
        """Takes in the line that begins a switch's table."""
        fdbs = FDBS_HEAD.fullmatch(line)
        guid = fdbs or GUID.search(line)
        if not guid:
            raise LineRefused(f"line {number} has no GUID of a switch")
        self.at, self.is_fdbs = int(guid[1], 16), fdbs is not None
        if self.at not in self.tables:
            self.tables[self.at] = Entries()
            self.sources["switch", self.at] = self.path
        if fdbs:
            self.uncounted.add(self.at)
        elif last := RANGE.match(line):
            self.tops[self.at] = max(self.tops.get(self.at, 0), int(last[1], 16 if last[1].startswith("0x") else 10))

    def elsewhere(self, *key: str | int) -> str:
        """Returns the words that say in which place a value was read before."""
        return "further up" if self.sources[key] == self.path else f"in {self.sources[key]}"

    def put(self, number: int, lid: int, port: int) -> None:
        """Notes the port for a LID at the current switch. Refuses a port other than the one read before."""
        table = self.tables[self.at]
        before = table.get(lid)
        if before is None:
            table.put(lid, port)
        elif before != port:
            source = self.elsewhere("switch", self.at)
            raise LineRefused(
                f"line {number}: switch {self.at:016x} has another port for LID {lid} {source}: are these dumps of two "
                "times?"
            )

    def entry(self, number: int, line: str) -> None:
        """Takes in a line with a LID and its port."""
        entry = ENTRY.match(line)
        if not entry:
            raise LineRefused(f"line {number} has no LID and port")
        lid = int(entry[1], 16)
        self.put(number, lid, int(entry[2]))
        if owner := OWNER.search(line):
            self.sources.setdefault(("lid", lid), self.path)
            if self.named.setdefault(lid, int(owner[1], 16)) != int(owner[1], 16):
                source = self.elsewhere("lid", lid)
                raise LineRefused(f"line {number}: LID {lid} has another owner {source}: are these dumps of two times?")
        if entry.span(1) == (2, 6) and entry.end(2) == 10 and self.lids.get(line[:6]) == lid:
            self.tails[lid] = line[10:]

    def fdbs_entry(self, number: int, line: str) -> None:
        """Takes in a line of a .fdbs with a LID and, if it is reachable, its port."""
        entry = FDBS_LINE.fullmatch(line)
        if not entry:
            raise LineRefused(f"line {number} has no LID and port")
        lid = int(entry[1], 16)
        self.tops[self.at] = max(self.tops.get(self.at, 0), lid)
        if entry[2]:
            self.put(number, lid, int(entry[2]))

    def judge(self) -> None:
        """Refuses tables that no switch can hold."""
        for guid, table in self.tables.items():
            if guid not in self.tops or table.greatest() > self.tops[guid] or self.tops[guid] > GREATEST_LID:
                raise Refused(f"switch {guid:016x} has no range of LIDs in its head, or an entry above it")
            if max(table.others.values(), default=0) > NO_WAY:
                raise Refused(f"switch {guid:016x} has an entry over {NO_WAY}")


def lacks(facts: Facts, dump: Dump, ranges: dict[End, tuple[int, int]]) -> Iterator[tuple[str, str]]:
    """Yields what dumps lack: the kind, and a line that says it."""
    owned = sorted(lid for first, last in ranges.values() for lid in range(first, last + 1))
    for guid in sorted(set(facts.nodes) | set(dump.tables)):
        if guid not in dump.tables:
            if facts.is_switch(guid):
                yield "dump", f"switch {guid:016x} is in no dump"
            continue
        if not facts.is_switch(guid):
            yield "switch", f"switch {guid:016x} is no switch of the facts"
        if guid not in dump.whole | dump.uncounted:
            yield "count", f"switch {guid:016x}: its lines are not counted at their end: is the dump cut?"
        without = dump.tables[guid].lacks(owned, dump.tops[guid])
        if guid not in dump.uncounted and dump.tops[guid] in without and dump.tops[guid] % ENTRIES == 0:
            yield "top", (
                f"switch {guid:016x}: no entry for its top, LID {without.pop()}: infiniband-diags leave out the entry "
                f"of a top that is a multiple of {ENTRIES}; `record --tables` reads it"
            )
        if without:
            count, least = len(without), without[0]
            yield "entry", (
                f"switch {guid:016x}: no entries for {count} LIDs that ports have, from LID {least} on: "
                "no way, or left out"
            )
