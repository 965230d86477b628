"""Recordings and store files, made record by record in the form that docs/FORMATS.md gives."""
from __future__ import annotations

import struct

NO_REPORTS, NO_CELLS = b"IBSMREP1", b"IBSMSTO1"
# The attributes that facts come from, the types of nodes, the states of ports, and the kinds of facts.
NODE_INFO, SWITCH_INFO, PORT_INFO = 0x0011, 0x0012, 0x0015
ADAPTER, SWITCH, ROUTER = 1, 2, 3
DOWN, INITIALIZE, ACTIVE = 1, 2, 4
NODE, PORT_GUID, LINK, PORT, CLAIM, CAP = 1, 2, 3, 4, 5, 6
KINDS = {"node": NODE, "portguid": PORT_GUID, "link": LINK, "port": PORT, "claim": CLAIM, "cap": CAP}
TYPES = {"ca": ADAPTER, "switch": SWITCH, "router": ROUTER}
KNOWN, DISPUTED = 1, 2

Context = tuple[int, int, int]
# The context of a reply: its kind, port and GUID.
START = 0, 0, 0


def via(guid: int, port: int) -> Context:
    """Returns the context of a reply over a path whose last step leaves this node by this port."""
    return 1, port, guid


def about(guid: int) -> Context:
    """Returns the context of a reply that is about this node."""
    return 2, 0, guid


def report(
    context: Context, attribute: int, modifier: int, value: bytes, generation: int = 1, hops: int | None = None
) -> bytes:
    """Returns the record of a reply with status 0 that is back at its sender. Without `hops` it took one hop, or none
    if its context is START."""
    kind, port, guid = context
    if hops is None:
        hops = 0 if context == START else 1
    packet = bytearray(256)
    packet[0:8] = bytes([1, 0x81, 1, 0x81, 0x80, 0, 0, hops])
    packet[8:18] = struct.pack(">QH", 0x0000000100000001, attribute)
    packet[20:24] = struct.pack(">I", modifier)
    packet[32:36] = b"\xff\xff\xff\xff"
    packet[64 : 64 + len(value)] = value
    return struct.pack(">IBBHQ", generation, kind, port, 0, guid) + packet


def node_info(
    context: Context,
    kind: int,
    ports: int,
    guid: int,
    port_guid: int,
    local_port: int,
    generation: int = 1,
    hops: int | None = None,
) -> bytes:
    """Returns the record of a node's NodeInfo, in reply to a request that came in at `local_port`."""
    value = struct.pack(">BBBBQQQHHIB", 1, 1, kind, ports, guid, guid, port_guid, 1, 0, 0, local_port)
    return report(context, NODE_INFO, 0, value, generation, hops)


def switch_info(guid: int, room: int, generation: int = 1) -> bytes:
    """Returns the record that says how many LIDs a switch's table has room for."""
    return report(about(guid), SWITCH_INFO, 0, struct.pack(">H", room), generation)


def port_info(guid: int, port: int, state: int, lid: int = 0, generation: int = 1) -> bytes:
    """Returns the record of a port's state and of the LID that it claims."""
    value = bytearray(64)
    value[16:18] = struct.pack(">H", lid)
    value[32] = state
    return report(about(guid), PORT_INFO, port, value, generation)


def reports(*records: bytes) -> bytes:
    """Returns a recording of these records."""
    return NO_REPORTS + b"".join(records)


def cell(kind: int, guid: int, port: int, value: bytes, generation: int = 1, state: int = KNOWN) -> bytes:
    """Returns the record of a cell: what a store has for a key."""
    return struct.pack(">BBBBIQ16s", kind, state, port, 0, generation, guid, value)


def cell_of(line: str) -> bytes:
    """Returns the record of the cell that a line of facts spells."""
    word, subject, *value, at = line.split()
    guid, _, port = subject.partition("/")
    key = KINDS[word], int(guid, 16), int(port or 0)
    return (
        cell(*key, b"", int(at[1:]), DISPUTED)
        if value == ["disputed"]
        else cell(*key, spelled(word, *value), int(at[1:]))
    )


def spelled(word: str, first: str, second: str | None = None) -> bytes:
    """Returns the bytes of a value from its words in a line of facts."""
    if word == "node":
        return struct.pack(">BB", TYPES[first], int(second))
    if word == "portguid":
        return struct.pack(">Q", int(first, 16))
    if word == "link":
        guid, port = first.split("/")
        return struct.pack(">QB", int(guid, 16), int(port))
    if word == "port":
        return struct.pack(">B", first == "up")
    return struct.pack(">H", int(first))


def store(*cells: bytes, floor: int = 1) -> bytes:
    """Returns a store file of these cells, which must be in order."""
    return b"IBSMSTO2" + struct.pack(">II", floor, 0) + b"".join(cells)


def store_of(facts: str) -> bytes:
    """Returns the store file of a text of facts."""
    lines = facts.splitlines()
    floor = int(lines.pop(0).split()[1]) if facts.startswith("floor ") else 1
    return store(*map(cell_of, lines), floor=floor)


def older(stored: bytes) -> bytes:
    """Returns the store file in the older form, which has no floor."""
    return NO_CELLS + stored[16:]
