"""Nodes, cables and LIDs as other programs dump them: ibnetdiscover's output, OpenSM's opensm-subnet.lst and
ibdiagnet's .lst.

A line describes both ends of a cable. Lines about the same key must agree, within a dump and between dumps.
"""
from __future__ import annotations

import re
from collections.abc import Sequence

from ibsm_texts import End, Refused, name_of

MOST_PORTS, MOST_LMC = 254, 7
TYPES = {"S": "switch", "H": "ca", "R": "router", "Switch": "switch", "Ca": "ca", "Hca": "ca", "Rt": "router"}
GUID_LINE = re.compile(r"(?:switch|ca|rt)guid=0x([0-9a-f]{1,16})(?:\(([0-9a-f]{1,16})\))?\s*(?:#.*)?")
NODE_LINE = re.compile(
    r'(Switch|Ca|Hca|Rt)\s+(\d{1,3})\s+"([SHR])-([0-9a-f]{16})"\s*#\s*"(?:.*)"'
    r"(?: \w+ port 0 lid (\d{1,5}) lmc (\d))?\s*(?:\(scp\)\s*)?"
)
PORT = r"\[(\d{1,3})\](?:\[ext \d+\])?\s*(?:\(([0-9a-f]{1,16})\))?"
PORT_LINE = re.compile(
    PORT + r'\s+"([SHR])-([0-9a-f]{16})"' + PORT + r'\s*#\s*(?:lid (\d{1,5}) lmc (\d) )?"(?:.*)" lid (\d{1,5})(?:\s.*)?'
)
# What else ibnetdiscover prints.
ASIDE = re.compile(r"\s*|#.*|(?:vendid|devid|sysimgguid)=.*|Chassis \d.*|Non-Chassis Nodes\s*")
HEX = "[0-9A-Fa-f]"
SIDE = (
    rf"\{{\s*(CA|SW|R\w*)(?:-SM)?\s+Ports:({HEX}{{1,2}})\s+SystemGUID:{HEX}+"
    rf"\s+NodeGUID:({HEX}{{1,16}})\s+PortGUID:({HEX}{{1,16}})"
    rf"\s+VenID:{HEX}+\s+DevID:{HEX}+\s+Rev:{HEX}+\s+\{{.*?\}}\s+LID:({HEX}{{1,4}})\s+PN:({HEX}{{1,2}})\s*\}}"
)
LST_LINE = re.compile(rf"\s*{SIDE}\s*{SIDE}\s*PHY=\S+\s+LOG=(\S+)\s+SPD=\S+\s*")
STATES = {"NOC": "down", "DWN": "down", "INI": "up", "ARM": "up", "ACT": "up"}


def first_of(lines: Sequence[str]) -> str:
    """Returns the first line that is neither empty nor a comment, or an empty text if there is none."""
    return next((line for line in lines if line.strip() and not line.startswith("#")), "")


def is_links(lines: Sequence[str]) -> bool:
    """Returns whether a text is a dump of nodes and cables."""
    return re.match(r"\s*\{|(?:vendid|devid|\w+guid)=0x|Chassis \d|Non-Chassis", first_of(lines)) is not None


class Told:
    """What dumps say of each node and port, and in which line."""

    def __init__(self) -> None:
        self.values = {}  # kind, GUID, port: the words that a line of facts has for it, or an LMC
        self.sources = {}  # kind, GUID, port: the dump and the line that said it first
        self.path, self.number = "", 0

    def read(self, path: str, lines: Sequence[str]) -> None:
        """Takes in a dump, whose lines must all be of the same form."""
        self.path, take = path, Netdiscovered(self).line
        if first_of(lines).lstrip().startswith("{"):
            take = self.lst_line
        for self.number, line in enumerate(lines, 1):
            if not take(line):
                raise self.fault(f"is not understood: {line[:60]}")

    def fault(self, why: str) -> Refused:
        """Returns the refusal of the line being read."""
        return Refused(f"{self.path}: line {self.number} {why}")

    def put(self, kind: str, guid: int, port: int, value: str | int) -> None:
        """Notes what the line says of a node or port. Refuses it if an earlier line says otherwise."""
        key = kind, guid, port
        before = self.values.setdefault(key, value)
        path, number = self.sources.setdefault(key, (self.path, self.number))
        if before != value:
            about = f"{guid:016x}" if kind == "node" else name_of((guid, port))
            raise self.fault(
                f"says `{value}` for the {kind} of {about}, and {path}, line {number}, `{before}`: "
                "are these dumps of two times?"
            )

    def node(self, guid: int, kind: str, ports: int) -> None:
        """Notes a node, with its kind and its number of ports."""
        if not 1 <= ports <= MOST_PORTS:
            raise self.fault(f"has a node with {ports} ports")
        self.put("node", guid, 0, f"{kind} {ports}")

    def cable(self, end: End, far: End) -> None:
        """Notes a cable between two ports."""
        for near, other in ((end, far), (far, end)):
            if not 1 <= near[1] <= MOST_PORTS:
                raise self.fault(f"has a cable in port {near[1]}")
            self.put("link", *near, name_of(other))

    def lid(self, end: End, lid: str | int, lmc: str | None = None) -> None:
        """Notes the LID of an end port and, if it is given, its LMC."""
        if int(lid) > 0xFFFF or lmc is not None and int(lmc) > MOST_LMC:
            raise self.fault(f"has LID {lid}" + (f" with LMC {lmc}" if lmc else ""))
        self.put("claim", *end, str(int(lid)))
        if lmc is not None:
            self.put("lmc", *end, int(lmc))

    def far(self, guid: int, port: int) -> End:
        """Returns the far end of the cable in a port."""
        far, at = self.values["link", guid, port].split("/")
        return int(far, 16), int(at)

    def lst_line(self, line: str) -> bool:
        """Takes in a line of a .lst, and returns whether it is understood. All numbers are hex; the state is that of
        the first end."""
        if not line.strip() or line.startswith("#"):
            return True
        form = LST_LINE.fullmatch(line)
        if not form or form[13] not in STATES:
            return False
        sides = [form.groups()[:6], form.groups()[6:12]]
        ends = []
        for kind, ports, guid, port_guid, lid, port in sides:
            guid, kind = int(guid, 16), {"CA": "ca", "SW": "switch"}.get(kind, "router")
            self.node(guid, kind, int(ports, 16))
            ends.append((guid, int(port, 16)))
            own = guid, 0 if kind == "switch" else int(port, 16)
            self.put("portguid", *own, f"{int(port_guid, 16):016x}")
            self.lid(own, int(lid, 16))
        self.cable(*ends)
        self.put("port", *ends[0], STATES[form[13]])
        return True

    def judge(self) -> None:
        """Refuses lines that name a node that no dump describes, or a port that its node lacks."""
        for (kind, guid, port), (self.path, self.number) in self.sources.items():
            if kind != "node":
                node = self.values.get(("node", guid, 0))
                if node is None:
                    raise self.fault(f"names {guid:016x}, which no line describes: is the dump cut?")
                if port > int(node.split(" ")[1]):
                    raise self.fault(f"names port {name_of((guid, port))}, and the node has {node.split(' ')[1]} ports")


class Netdiscovered:
    """The lines of ibnetdiscover: GUIDs, then a node, then its ports that have a cable."""

    def __init__(self, told: Told) -> None:
        self.told, self.guids, self.at = told, None, None

    def line(self, line: str) -> bool:
        """Takes in a line, and returns whether it is understood."""
        if form := GUID_LINE.fullmatch(line):
            self.guids, self.at = form, None
            return True
        if form := NODE_LINE.fullmatch(line):
            return self.node(*form.groups())
        if form := PORT_LINE.fullmatch(line):
            return self.at is not None and self.port(*form.groups())
        return ASIDE.fullmatch(line) is not None

    def node(self, word: str, ports: str, letter: str, guid: str, lid: str | None, lmc: str | None) -> bool:
        """Takes in the line of a node, and returns whether it agrees with the lines of GUIDs before it."""
        guids, self.guids, self.at = self.guids, None, (int(guid, 16), TYPES[letter])
        if TYPES[word] != TYPES[letter] or guids and int(guids[1], 16) != self.at[0]:
            return False
        self.told.node(*self.at, int(ports))
        if lid is not None:
            self.told.lid((self.at[0], 0), lid, lmc)
        if self.at[1] == "switch" and guids and guids[2]:
            self.told.put("portguid", self.at[0], 0, f"{int(guids[2], 16):016x}")
        return True

    def port(
        self, port: str, own: str | None, letter: str, far: str, far_port: str, far_own: str | None, lid: str | None,
        lmc: str | None, far_lid: str,
    ) -> bool:
        """Takes in the line of a port, and returns whether it has what ports of this kind of node have."""
        near, far, told = (self.at[0], int(port)), (int(far, 16), int(far_port)), self.told
        is_switch, is_far_switch = self.at[1] == "switch", TYPES[letter] == "switch"
        if is_switch != (lid is None) or is_switch != (own is None):
            return False
        told.cable(near, far)
        if not is_switch:
            told.put("portguid", *near, f"{int(own, 16):016x}")
            told.lid(near, lid, lmc)
        if far_own:
            told.put("portguid", *far, f"{int(far_own, 16):016x}")
        told.lid((far[0], 0) if is_far_switch else far, far_lid)
        return True
