"""The usable switches of a subnet and the wires between them, by indices in order of GUID; and ORDER texts."""
from __future__ import annotations

import os
import re
from collections.abc import Iterable

from ibsm_texts import End, Facts, Refused, each_line


class SwitchGraph:
    """Usable switches, those of known table size; their channels; and the switch ports that have adapters."""

    def __init__(self, facts: Facts) -> None:
        self.guids = sorted(guid for guid in facts.caps if facts.is_switch(guid))
        index = {guid: i for i, guid in enumerate(self.guids)}
        self.channels = []  # switch, port, switch at the other end
        self.adapters = []  # switch, port
        end_ports = set(facts.end_ports())
        for guid, port in sorted(end for end in facts.links if end[0] in index):
            far = facts.wire((guid, port))
            if far is None or not all(is_port(facts, end) for end in ((guid, port), far)):
                continue
            if far[0] in index:
                self.channels.append((index[guid], port, index[far[0]]))
            elif far in end_ports and not facts.is_switch(far[0]):
                self.adapters.append((index[guid], port))

    def text(self, start: Iterable[int] | None = None) -> str:
        """Returns the graph as the program `search` reads it, with the switches in the order to start with, if there is
        one."""
        rows = [(len(self.guids), int(self.guids[:1] == [0]))]
        for part in self.channels, self.adapters:
            rows += [(len(part),), *part]
        rows += [(0,)] if start is None else [(1,), tuple(start)]
        return "".join(" ".join(map(str, row)) + "\n" for row in rows)

    def listed(self, named: Iterable[int]) -> list[int]:
        """Returns the indices of all switches: first those named, then the others by GUID."""
        index = {guid: i for i, guid in enumerate(self.guids)}
        first = {index[guid]: None for guid in named if guid in index}
        return [*first, *(i for i in range(len(self.guids)) if i not in first)]

    def order_text(self, order: Iterable[int]) -> str:
        """Returns the switches of an order as an ORDER text, which cannot name GUID 0."""
        return "".join(f"0x{self.guids[i]:016x}\n" for i in order if self.guids[i])


def is_port(facts: Facts, end: End) -> bool:
    """Returns whether an end is a port of its node other than port 0."""
    return 1 <= end[1] <= facts.nodes.get(end[0], ("", 0))[1]


def order_in(path: str | os.PathLike) -> list[int]:
    """Returns the GUIDs of an ORDER text, and refuses a line that `ibsm` refuses."""
    found = {}

    def take(number: int, line: str) -> None:
        words = line.partition("#")[0].split()
        if not words:
            return
        form = re.fullmatch("(?:0[xX])?([0-9a-fA-F]+)", words[0])
        fault = None
        if len(words) > 1 or not form:
            fault = "syntax"
        elif len(form[1]) > 16 or not int(form[1], 16):
            fault = "guid"
        elif int(form[1], 16) in found:
            fault = "repeated"
        if fault:
            raise Refused(f"{path}: line {number}: {fault}: {line[:60]}")
        found[int(form[1], 16)] = None

    each_line(path, take)
    return list(found)
