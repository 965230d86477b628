"""The file of tables that OpenSM's routing engine `file` reads: made one switch at a time, and read back by OpenSM's
rules.

It has the form of OpenSM's own dump, without node types and names. The entry 255 of an unreachable LID is left out:
OpenSM takes it for a bad port, and drops the whole file. All lines of entries have the same length, so each digit is in
the same column in all of them.
"""
from __future__ import annotations

import array
import itertools
import os
import sys
from collections.abc import Iterator, Sequence

from dump_tables import GUID, HEAD
from ibsm_texts import NO_WAY, NONE, Facts, Plan, Refused

# The hundreds, tens and ones of ports: the digit of each port, and the value of each digit.
WEIGHTS = 100, 10, 1
DIGITS = [bytes(ord("0") + port // weight % 10 for port in range(256)) for weight in WEIGHTS]
COUNTS = [bytes(max(0, digit - ord("0")) * weight % 256 for digit in range(256)) for weight in WEIGHTS]
# The columns of the digits of ports and LIDs in a line.
PORT_AT, LID_AT = (7, 8, 9), (2, 3, 4, 5)


class Lfts:
    """The file of a plan."""

    def __init__(self, facts: Facts, plan: Plan) -> None:
        self.plan, self.lids = plan, array.array("H", sorted(plan.owners))
        lines = [f"0x{lid:04x} 000 # portguid 0x{facts.port_guids[plan.owners[lid]]:016x}\n" for lid in self.lids]
        self.lines = "".join(lines).encode()
        self.width = len(lines[0])
        # The runs of consecutive LIDs: the first LID of each, and the number after its last.
        spans = itertools.groupby(enumerate(self.lids), lambda it: it[1] - it[0])
        rows = [[lid for _, lid in those] for _, those in spans]
        self.spans = [(row[0], row[-1] + 1) for row in rows]

    def entries(self, guid: int) -> bytes:
        """Returns the entries of a switch for the plan's LIDs, in order of LID."""
        row = self.plan.row(guid)
        return b"".join(row[first:behind].ljust(behind - first, NONE) for first, behind in self.spans)

    def section(self, guid: int) -> bytes:
        """Returns the lines of a switch."""
        entries, lines = self.entries(guid), bytearray(self.lines)
        for at, digits in zip(PORT_AT, DIGITS):
            lines[at :: self.width] = entries.translate(digits)
        if NO_WAY in entries:
            begins = itertools.compress(range(0, len(lines), self.width), map(NO_WAY.__ne__, entries))
            lines = b"".join(lines[at : at + self.width] for at in begins)
        first = self.plan.ranges.get((guid, 0), (0, 0))[0]
        head = f"{HEAD} [0-{self.plan.tops[guid]}] of switch Lid {first} guid 0x{guid:016x} ('{guid:016x}'):\n"
        return b"%b%b%d lids dumped\n" % (head.encode(), lines, len(lines) // self.width)

    def sections(self) -> Iterator[bytes]:
        """Yields the lines of each switch, after a check that OpenSM reads the switch's entries from them."""
        for guid in sorted(self.plan.tables):
            section, entries = self.section(guid), self.entries(guid)
            lids = self.lids
            if NO_WAY in entries:
                lids = array.array("H", itertools.compress(lids, map(NO_WAY.__ne__, entries)))
            if read(section) != (guid, lids, entries.translate(None, NONE)):
                raise Refused("what OpenSM would read is not the plan, which is a fault of this program")
            yield section

    def is_held_by(self, path: str | os.PathLike) -> bool:
        """Returns whether a file has exactly these lines."""
        with open(path, "rb") as file:
            sections = map(self.section, sorted(self.plan.tables))
            return all(file.read(len(section)) == section for section in sections) and not file.read(1)


def read(section: bytes) -> tuple[int, array.array, bytes] | None:
    """Returns the switch, LIDs and ports that OpenSM reads from a section whose lines of entries have the same length,
    or None if the section has another form."""
    first, last = section.find(b"\n"), section.rfind(b"\n", 0, len(section) - 1)
    head, lines = section[:first], section[first + 1 : last + 1]
    guid = GUID.search(head.decode())
    if not head.startswith(HEAD.encode()) or not guid:
        return None
    width = lines.find(b"\n") + 1
    count = len(lines) // width if width else 0
    fixed = {0: b"0", 1: b"x", 6: b" ", 10: b" ", width - 1: b"\n"}
    if len(lines) != count * width or lines.count(b"\n") != count:
        return None
    if any(lines[at::width] != byte * count for at, byte in fixed.items() if width):
        return None
    digits = bytearray(4 * count)
    for number, at in enumerate(LID_AT if width else ()):
        digits[number::4] = lines[at::width]
    try:
        lids = array.array("H", bytes.fromhex(digits.decode()))
    except ValueError:
        return None
    if sys.byteorder == "little":
        lids.byteswap()
    return int(guid[1], 16), lids, ports_in([lines[at::width] for at in PORT_AT] if width else [b"", b"", b""])


def ports_in(digits: Sequence[bytes]) -> bytes | None:
    """Returns the ports that have these hundreds, tens and ones, or None if some of these are not digits."""
    if not all(row.isdigit() or not row for row in digits):
        return None
    # A port is at most 254, so no byte of the sum carries into the next.
    counts = (int.from_bytes(row.translate(count), "big") for row, count in zip(digits, COUNTS))
    return sum(counts).to_bytes(len(digits[0]), "big")
