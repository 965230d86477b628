"""Recordings, store files and two texts, whole and damaged, and how runs of the program over them end.

A row has the words after `ibsm` on the command line, and how the run ends by docs/FORMATS.md. A word in capitals is a
file, which `files` makes. Or a row has the bytes of a file called FILE, and how `facts` of it ends.
"""
from __future__ import annotations

from collections.abc import Iterator

import paths  # noqa: F401
import record_files as make
from built_program import Ended, prints, refused, says

MOST = 2**32 - 1


def changed(data: bytes, offset: int, byte: int) -> bytes:
    """Returns the file with `byte` at `offset`."""
    return data[:offset] + bytes([byte]) + data[offset + 1 :]


# Files -----------------------------------------------------------------------------------------------

# An adapter of one port, asked through that port, and what it says.
ADAPTER = make.node_info(make.START, make.ADAPTER, 1, 0x100, 0x101, 1)
ADAPTER_NODE = "node 0000000000000100 ca 1 @1\n"
ADAPTER_PORT = "portguid 0000000000000100/1 0000000000000101 @1\n"
ADAPTER_FACTS = ADAPTER_NODE + ADAPTER_PORT

# A claim in which each number is the greatest possible.
GREATEST = f"claim ffffffffffffffff/254 65535 @{MOST}\n"

# The facts of the sample fabric from generation 2 on, with another adapter in place of the first.
RENEWED = """\
floor 2
node 0000000000000300 ca 1 @2
portguid 0000000000000300/1 0000000000000301 @2
link 0000000000000020/3 0000000000000300/1 @2
link 0000000000000300/1 0000000000000020/3 @2
port 0000000000000300/1 up @2
claim 0000000000000300/1 0 @2
"""


def swept() -> list[bytes]:
    """Returns the 27 replies of a first sweep of the sample fabric: switches 0x10, 0x20 and 0x30 of four ports in a
    triangle, and adapters 0x100, the manager's, and 0x200 at the second and the third."""
    found = [ADAPTER]
    for guid, at, port, local in (
        (0x20, 0x100, 1, 3), (0x10, 0x20, 1, 1), (0x30, 0x20, 2, 2), (0x30, 0x10, 2, 1), (0x10, 0x30, 1, 2),
    ):
        found.append(make.node_info(make.via(at, port), make.SWITCH, 4, guid, guid, local))
    found.append(make.node_info(make.via(0x30, 3), make.ADAPTER, 1, 0x200, 0x201, 1))
    found += [make.switch_info(guid, 1024) for guid in (0x10, 0x20, 0x30)]
    for guid, wired in (0x10, 2), (0x20, 3), (0x30, 3):
        states = [make.ACTIVE] + [make.INITIALIZE] * wired + [make.DOWN] * (4 - wired)
        found += [make.port_info(guid, port, state) for port, state in enumerate(states)]
    return found + [make.port_info(guid, 1, make.INITIALIZE) for guid in (0x100, 0x200)]


def files(facts: str) -> dict[str, bytes]:
    """Returns the files that rows name. `facts` has the facts of the sample fabric."""
    records = swept()
    doubled = make.reports(ADAPTER, ADAPTER)
    of_adapter = [make.cell_of(line) for line in (ADAPTER_NODE, ADAPTER_PORT)]
    whole = make.store_of(facts)
    return {
        "NO_REPORTS": make.NO_REPORTS,
        "NO_CELLS": make.NO_CELLS,
        "ADAPTER": make.reports(ADAPTER),
        "DOUBLED": doubled,
        "STORE": make.store(*of_adapter),
        "OLDER": make.older(make.store(*of_adapter)),
        # The adapter's two cells, each in a file of its own.
        "NODE": make.older(make.store(of_adapter[0])),
        "PORT_GUID": make.store(of_adapter[1]),
        "GREATEST": make.store_of(GREATEST),
        "RAISED": make.store_of("floor 2\n" + GREATEST),
        "LATE": make.store_of(f"floor {MOST}\n" + GREATEST),
        "FORGETTING": make.store(floor=2),
        "EMPTY": b"",
        "SHORT": b"IBSM",
        "CUT": doubled[:551],
        "CUT_CELL": make.NO_CELLS + b"\x01",
        "CUT_HEADER": make.store()[:8],
        "FLOORLESS": make.store(floor=0),
        # A second record with an attribute that yields no facts, and one of zeros.
        "HALF_BAD": changed(doubled, 280 + 16 + 17, 0x10),
        "HALF_ZERO": make.reports(ADAPTER, bytes(272)),
        "EXCHANGED": make.NO_CELLS + of_adapter[1] + of_adapter[0],
        "TWICE": make.store(of_adapter[0], of_adapter[0]),
        "FABRIC": make.reports(*records),
        "REVERSED": make.reports(*reversed(records)),
        "WHOLE": whole,
        # A bad last record, and the last two cells exchanged.
        "LATE_BAD": changed(make.reports(*records), 8 + 26 * 272 + 16 + 7, 64),
        "LATE_EXCHANGED": whole[:-64] + whole[-32:] + whole[-64:-32],
        "RENEWED": make.reports(
            make.node_info(make.via(0x20, 3), make.ADAPTER, 1, 0x300, 0x301, 1, generation=2),
            make.port_info(0x300, 1, make.INITIALIZE, generation=2),
        ),
        "JOINED": make.store_of(RENEWED),
        **{f"PART_{i}": make.reports(*records[9 * i : 9 * i + 9]) for i in range(3)},
        # The table size of a switch: reported twice in one sweep, and then in the next.
        "FIRST": make.reports(make.switch_info(0x10, 1024)),
        "OTHER": make.reports(make.switch_info(0x10, 2048)),
        "NEWER": make.reports(make.switch_info(0x10, 4096, generation=2)),
        "DISPUTED": make.store_of("cap 0000000000000010 disputed @1\n"),
        "TOPOLOGY": b'Hca 1 "H" guid 0x100\n',
        "SCHEDULE": b'manager M "H"[1] 0\nprogress M\ndeliver 1\n',
        "FAULTY": b"tables\nx",
        "BYTES": b"\xff",
        "UNSEATED": b'flight\ntables\nmanager M "H"[2] 0\n',
        "CROWDED": b"".join(b'Hca 1 "%d" guid 0x1\n' % i for i in range(1025)),
        "MANY": b'Hca 1 "H" guid 0x100\n' + b"".join(b'Hca 1 "%d" guid 0x1\n' % i for i in range(1023)),
    }


# Rows ------------------------------------------------------------------------------------------------


def taken(held: dict[str, bytes], facts: str) -> Iterator[tuple[str, Ended]]:
    """Yields files that are accepted, in any order, and their facts together. `held` has the files."""
    floor_2 = "floor 2\n"
    for files_named, text in (
        ("NO_REPORTS NO_REPORTS", ""),
        ("ADAPTER NO_REPORTS", ADAPTER_FACTS),
        ("NO_CELLS DOUBLED", ADAPTER_FACTS),
        ("STORE DOUBLED", ADAPTER_FACTS),
        ("OLDER STORE", ADAPTER_FACTS),
        ("OLDER NO_REPORTS", ADAPTER_FACTS),
        ("NODE PORT_GUID NO_REPORTS", ADAPTER_FACTS),
        ("NO_REPORTS PORT_GUID NODE", ADAPTER_FACTS),
        ("PORT_GUID NODE NODE", ADAPTER_FACTS),
        ("NODE " * 69 + "PORT_GUID", ADAPTER_FACTS),
        ("NO_REPORTS GREATEST", GREATEST),
        ("GREATEST STORE", ADAPTER_FACTS + GREATEST),
        ("OLDER FORGETTING", floor_2),
        ("FORGETTING ADAPTER", floor_2),
        ("RAISED ADAPTER", floor_2 + GREATEST),
        ("STORE RAISED", floor_2 + GREATEST),
        ("LATE GREATEST RAISED", f"floor {MOST}\n" + GREATEST),
        ("FABRIC FABRIC", facts),
        ("REVERSED NO_REPORTS", facts),
        ("FABRIC REVERSED", facts),
        ("PART_2 PART_0 PART_1", facts),
        ("WHOLE", facts),
        ("WHOLE PART_1", facts),
        ("JOINED FABRIC", RENEWED),
        ("FIRST FIRST FIRST", "cap 0000000000000010 1024 @1\n"),
        ("FIRST OTHER FIRST", "cap 0000000000000010 disputed @1\n"),
        ("OTHER FIRST OTHER", "cap 0000000000000010 disputed @1\n"),
        ("DISPUTED FIRST", "cap 0000000000000010 disputed @1\n"),
        ("FIRST OTHER NEWER", "cap 0000000000000010 4096 @2\n"),
        ("NEWER OTHER FIRST", "cap 0000000000000010 4096 @2\n"),
        ("NEWER DISPUTED", "cap 0000000000000010 4096 @2\n"),
    ):
        yield f"facts {files_named}", prints(text)
        yield f"join {files_named}", prints(make.store_of(text))
    for both in "GREATEST ADAPTER", "ADAPTER GREATEST":
        yield f"facts --floor 1 {both}", prints(ADAPTER_FACTS + GREATEST)
        yield f"facts --floor 2 {both}", prints(floor_2 + GREATEST)
        yield f"join {both} --floor=2", prints(held["RAISED"])
        yield f"plan --floor 2 {both}", prints("")
        yield f"facts --floor {MOST} {both}", prints(f"floor {MOST}\n" + GREATEST)
    yield "facts --floor 2 LATE GREATEST", prints(f"floor {MOST}\n" + GREATEST)
    for both in "FABRIC RENEWED", "RENEWED FABRIC":
        yield f"facts --floor 2 {both}", prints(RENEWED)
        yield f"join --floor 2 {both}", prints(held["JOINED"])
        yield f"plan --floor 2 {both}", prints("lid 1 0000000000000300/1\n")
    yield "plan JOINED FABRIC", prints("lid 1 0000000000000300/1\n")
    yield "facts --floor 3 JOINED FABRIC", prints("floor 3\n")


def first_faults() -> Iterator[tuple[str, Ended]]:
    """Yields files of which one or more are refused. The first fault is named, and nothing is printed."""
    for files_named, ends in (
        ("EMPTY ADAPTER", refused("EMPTY: bad magic")),
        ("ADAPTER SHORT", refused("SHORT: bad magic")),
        ("CUT ADAPTER", refused("CUT: truncated at 280")),
        ("ADAPTER CUT", refused("CUT: truncated at 280")),
        ("HALF_BAD CUT", refused("HALF_BAD: bad report 1: Attribute")),
        ("ADAPTER HALF_BAD", refused("HALF_BAD: bad report 1: Attribute")),
        ("HALF_ZERO", refused("HALF_ZERO: bad report 1: Generation")),
        ("FABRIC LATE_BAD", refused("LATE_BAD: bad report 26: HopCount")),
        ("EXCHANGED EMPTY", refused("EXCHANGED: cell out of order 1")),
        ("ADAPTER EXCHANGED", refused("EXCHANGED: cell out of order 1")),
        ("TWICE", refused("TWICE: cell out of order 1")),
        ("LATE_EXCHANGED", refused("LATE_EXCHANGED: cell out of order 56")),
        ("ADAPTER CUT_CELL", refused("CUT_CELL: truncated at 8")),
        ("NODE SHORT CUT_CELL", refused("SHORT: bad magic")),
        ("CUT_CELL SHORT NODE", refused("CUT_CELL: truncated at 8")),
        ("NODE NO_REPORTS CUT_CELL", refused("CUT_CELL: truncated at 8")),
        ("ADAPTER CUT_HEADER", refused("CUT_HEADER: truncated at 8")),
        ("FLOORLESS HALF_BAD", refused("FLOORLESS: bad floor")),
        ("ADAPTER " * 69 + "EMPTY", refused("EMPTY: bad magic")),
        # Folders can be opened and not read. All files are opened before one is read.
        ("NODE . CUT_CELL", says(4, ".: read failed")),
        ("SHORT . missing", says(4, "missing: cannot open")),
        ("missing none", says(4, "missing: cannot open")),
        ("ADAPTER/none", says(4, "ADAPTER/none: cannot open")),
        ("ADAPTER " * 69 + "missing", says(4, "missing: cannot open")),
    ):
        for command in "facts", "join", "plan":
            yield f"{command} {files_named}", ends


def schedules() -> list[tuple[str, Ended]]:
    """Returns runs of two texts. Both are opened, then both read, and then judged, each time in their order."""
    return [
        ("run TOPOLOGY SCHEDULE", prints("progress M never\nrefused NoSuchPacket\n")),
        ("run MANY SCHEDULE", prints("progress M never\nrefused NoSuchPacket\n")),
        ("run TOPOLOGY EMPTY", prints("")),
        ("run EMPTY EMPTY", prints("")),
        ("run TOPOLOGY FAULTY", refused("FAULTY: line 2: syntax")),
        ("run FAULTY BYTES", refused("FAULTY: line 1: syntax")),
        ("run TOPOLOGY BYTES", refused("BYTES: not UTF-8")),
        ("run BYTES FAULTY", refused("BYTES: not UTF-8")),
        ("run TOPOLOGY UNSEATED", refused("UNSEATED: line 3: seat")),
        ("run CROWDED FAULTY", refused("CROWDED: line 1025: too many nodes")),
        ("run FAULTY .", says(4, ".: read failed")),
        ("run . BYTES", says(4, ".: read failed")),
        ("run BYTES missing", says(4, "missing: cannot open")),
        ("run missing none", says(4, "missing: cannot open")),
    ]


# Damaged files ---------------------------------------------------------------------------------------


def cut(data: bytes, head: int, size: int, lines: list[str]) -> Iterator[tuple[bytes, Ended]]:
    """Yields each beginning of a file with a head and records of fixed size, and how a run over it ends. `lines` has
    what each record says."""
    for length in range(len(data) + 1):
        records, rest = divmod(max(0, length - head), size)
        if length < 8:
            ends = refused("FILE: bad magic")
        elif length < head:
            ends = refused("FILE: truncated at 8")
        elif rest:
            ends = refused(f"FILE: truncated at {length - rest}")
        else:
            ends = prints("".join(dict.fromkeys(lines[:records])))
        yield data[:length], ends


def cuts(held: dict[str, bytes]) -> Iterator[tuple[bytes, Ended]]:
    """Yields files cut short at each length, and how a run that reads them ends."""
    yield from cut(held["DOUBLED"], 8, 272, [ADAPTER_FACTS, ADAPTER_FACTS])
    yield from cut(held["OLDER"], 8, 32, [ADAPTER_NODE, ADAPTER_PORT])
    yield from cut(held["STORE"], 16, 32, [ADAPTER_NODE, ADAPTER_PORT])


def damages(held: dict[str, bytes]) -> Iterator[tuple[bytes, Ended]]:
    """Yields a store file with one byte changed, and how a run over it ends."""
    bad_cell, bad_floor = refused("FILE: bad cell 0"), refused("FILE: bad floor")
    for offset, byte, ends in (
        # The magic: an unknown one, and that of files without a floor.
        (7, ord("3"), refused("FILE: bad magic")),
        (7, ord("1"), bad_cell),
        # A floor above the cells, a floor of 0, and each zero byte after it.
        *((offset, 1, bad_cell) for offset in (8, 9, 10)),
        (8, 255, bad_cell),
        (11, 2, bad_cell),
        (11, 0, bad_floor),
        *((offset, byte, bad_floor) for offset in (12, 13, 14, 15) for byte in (1, 128, 255)),
        # The first cell: kind; state, also disputed with a value kept; port; zero; generation; node type; number of
        # ports; zeros. The second: kind.
        *((16, byte, bad_cell) for byte in (0, 7, 255)),
        *((17, byte, bad_cell) for byte in (0, 2, 3)),
        (18, 1, bad_cell),
        (19, 1, bad_cell),
        (23, 0, bad_cell),
        *((32, byte, bad_cell) for byte in (0, 4)),
        *((33, byte, bad_cell) for byte in (0, 255)),
        *((offset, 1, bad_cell) for offset in range(34, 48)),
        (48, 7, refused("FILE: bad cell 1")),
        (48, 1, refused("FILE: bad cell 1")),
    ):
        yield changed(held["STORE"], offset, byte), ends
    # In a file without a floor, the first bytes of the first cell make no valid header.
    yield changed(held["OLDER"], 7, ord("2")), bad_floor


def overwritten(file: bytes) -> Iterator[tuple[bytes, Ended]]:
    """Yields the adapter's file with ff at each offset."""
    names = {90: "NodeType", 91: "Port", 124: "Port", 24: "BaseVersion", 25: "Class", 26: "ClassVersion", 27: "Method"}
    names |= {28: "Status", 29: "Status", 30: "HopPointer", 31: "HopCount", 40: "Attribute", 41: "Attribute"}
    names |= dict.fromkeys(range(12, 24), "Context")
    for offset in range(len(file)):
        data = changed(file, offset, 255)
        if offset < 8:
            ends = refused("FILE: bad magic")
        elif offset in names:
            ends = refused(f"FILE: bad report 0: {names[offset]}")
        else:
            # The generation and, in the attribute at 88, the GUIDs of the node and of its port.
            at, node, port = (int.from_bytes(data[a:b], "big") for a, b in ((8, 12), (100, 108), (108, 116)))
            ends = prints(f"node {node:016x} ca 1 @{at}\nportguid {node:016x}/1 {port:016x} @{at}\n")
        yield data, ends


# What reports say ------------------------------------------------------------------------------------


def reply(
    context: make.Context = make.via(0x100, 1),
    kind: int = make.SWITCH,
    ports: int = 4,
    local: int = 3,
    offset: int | None = None,
    byte: int = 0,
    **other: int,
) -> bytes:
    """Returns the record of a reply with NodeInfo of switch 0x20, asked through port 1 of the adapter and port 3 of the
    switch. If `offset` is given, the packet has `byte` there."""
    record = make.node_info(context, kind, ports, 0x20, 0x20, local, **other)
    return record if offset is None else changed(record, 16 + offset, byte)


def node_facts(
    word: str = "switch", ports: int = 4, port_guid: int = 0, local: int = 3, via: str = "0000000000000100/1"
) -> str:
    """Returns the facts that NodeInfo of switch 0x20 yields."""
    end = f"0000000000000020/{local}"
    links = [f"link {end} {via} @1", f"link {via} {end} @1"]
    lines = [
        f"node 0000000000000020 {word} {ports} @1", f"portguid 0000000000000020/{port_guid} 0000000000000020 @1", *links
    ]
    return "".join(f"{line}\n" for line in lines)


def port_facts(port: int, state: str, lid: int = 0) -> str:
    """Returns the facts that PortInfo of a port of switch 0x10 yields."""
    return f"port 0000000000000010/{port} {state} @1\nclaim 0000000000000010/{port} {lid} @1\n"


def told() -> Iterator[tuple[bytes, str]]:
    """Yields a report, and what it says or why it is refused."""
    yield from told_of_packets()
    yield from told_of_contexts()
    yield from told_of_attributes()


def told_of_packets() -> Iterator[tuple[bytes, str]]:
    """Yields a report with other fields of its packet, and what it says or why it is refused."""
    yield from (
        (reply(), node_facts()),
        (reply(generation=0), "Generation"),
        (reply(offset=0, byte=2), "BaseVersion"),
        (reply(offset=1, byte=0x02), "Class"),
        (reply(offset=2, byte=2), "ClassVersion"),
        (reply(offset=7, byte=63), node_facts()),
        (reply(offset=7, byte=64), "HopCount"),
        (reply(offset=6, byte=3), "HopPointer"),
        *((reply(offset=offset, byte=0xFE), "DrLid") for offset in (32, 33, 34, 35)),
        # A packet that is not directed, packets that are not answers, one on its way out, and those that are not at
        # their end.
        (reply(offset=1, byte=0x01), "Class"),
        *((reply(offset=3, byte=byte), "Method") for byte in (0x01, 0x02, 0x82)),
        (reply(offset=4, byte=0), "Direction"),
        *((reply(offset=6, byte=byte), "Direction") for byte in (1, 2)),
        (reply(offset=5, byte=0x1C), "Status"),
        (reply(offset=4, byte=0x81), "Status"),
        *((reply(offset=17, byte=byte), "Attribute") for byte in (0x10, 0x13, 0x14, 0x16, 0x20)),
        (reply(offset=16, byte=1), "Attribute"),
    )


def told_of_contexts() -> Iterator[tuple[bytes, str]]:
    """Yields a report whose context does not fit the attribute or the hops, or has no valid form, and why it is
    refused."""
    start, about, via = make.START, make.about(0x20), make.via
    yield from (
        *((reply(context=context, hops=1), "Context") for context in (start, about)),
        (reply(offset=7, byte=0), "Context"),
        (make.node_info(via(0x20, 3), make.ADAPTER, 1, 0x100, 0x101, 1, hops=0), "Context"),
        (changed(ADAPTER, 16 + 7, 1), "Context"),
        *((make.report(context, make.SWITCH_INFO, 0, b"\4\0", hops=1), "Context") for context in (start, via(0x10, 3))),
        *((make.report(context, make.PORT_INFO, 0, bytes(64), hops=1), "Context") for context in (start, via(0x10, 3))),
        *((reply(context=(kind, 1, 0x100)), "Context") for kind in (0, 2, 3, 255)),
        (reply(context=(0, 0, 1)), "Context"),
        *((changed(reply(), offset, 1), "Context") for offset in (6, 7)),
    )


def told_of_attributes() -> Iterator[tuple[bytes, str]]:
    """Yields a report with another modifier or other fields of its attribute, and what it says or why it is refused."""
    via, port = make.via, make.port_info(0x10, 0, 0)
    yield from (
        # The modifier, which matters only in PortInfo.
        (reply(offset=23, byte=255), node_facts()),
        (changed(port, 16 + 23, 254), port_facts(254, "down")),
        (changed(port, 16 + 23, 255), "Modifier"),
        *((changed(port, 16 + offset, 1), "Modifier") for offset in (20, 21, 22)),
        # The node type, the number of ports, the local port and the port of via.
        (reply(kind=3), node_facts("router", port_guid=3)),
        (reply(kind=1), node_facts("ca", port_guid=3)),
        *((reply(kind=kind), "NodeType") for kind in (0, 4, 255)),
        (reply(ports=254), node_facts(ports=254)),
        (reply(ports=3), node_facts(ports=3)),
        *((reply(ports=ports), "Port") for ports in (0, 2, 255)),
        (reply(local=4), node_facts(local=4)),
        *((reply(local=local), "Port") for local in (0, 5, 255)),
        (changed(ADAPTER, 16 + 64 + 36, 0), "Port"),
        (make.node_info(make.START, make.SWITCH, 4, 0x20, 0x20, 0), "".join(node_facts().splitlines(True)[:2])),
        (reply(context=via(0x100, 254)), node_facts(via="0000000000000100/254")),
        *((reply(context=via(0x100, number)), "Port") for number in (0, 255)),
        # The states of ports, which are four bits; claims; tables.
        *((make.port_info(0x10, 7, state), port_facts(7, "up")) for state in (2, 3, 4, 0x12, 0xF4)),
        *((make.port_info(0x10, 7, state), port_facts(7, "down")) for state in (0, 1, 5, 8, 15, 0x20)),
        *((make.port_info(0x10, 7, 1, lid), port_facts(7, "down", lid)) for lid in (1, 258, 49151, 65535)),
        (make.switch_info(0x10, 1024), "cap 0000000000000010 1024 @1\n"),
        (make.switch_info(0x10, 0), "cap 0000000000000010 0 @1\n"),
        (make.switch_info(2**64 - 1, 65535, MOST), f"cap ffffffffffffffff 65535 @{MOST}\n"),
    )


def cells() -> Iterator[tuple[bytes, Ended]]:
    """Yields a cell by kind, port and value, and its line, or None if it is malformed."""
    end = bytes.fromhex("0123456789abcdef")
    for kind, port, value, line in (
        (make.NODE, 0, b"\1\1", "node 0000000000000010 ca 1"),
        (make.NODE, 0, b"\2\xfe", "node 0000000000000010 switch 254"),
        (make.NODE, 0, b"\3\x10", "node 0000000000000010 router 16"),
        (make.NODE, 1, b"\1\1", None),
        (make.PORT_GUID, 0, end, "portguid 0000000000000010/0 0123456789abcdef"),
        (make.PORT_GUID, 254, end, "portguid 0000000000000010/254 0123456789abcdef"),
        (make.PORT_GUID, 255, end, None),
        (make.PORT_GUID, 1, end + b"\1", None),
        (make.LINK, 1, end + b"\1", "link 0000000000000010/1 0123456789abcdef/1"),
        (make.LINK, 254, end + b"\xfe", "link 0000000000000010/254 0123456789abcdef/254"),
        (make.LINK, 0, end + b"\1", None),
        (make.LINK, 255, end + b"\1", None),
        (make.LINK, 1, end + b"\0", None),
        (make.LINK, 1, end + b"\xff", None),
        (make.LINK, 1, end + b"\1\1", None),
        (make.PORT, 0, b"\0", "port 0000000000000010/0 down"),
        (make.PORT, 254, b"\1", "port 0000000000000010/254 up"),
        (make.PORT, 255, b"\1", None),
        (make.PORT, 1, b"\2", None),
        (make.PORT, 1, b"\1\1", None),
        (make.CLAIM, 0, b"\0\0", "claim 0000000000000010/0 0"),
        (make.CLAIM, 254, b"\1\2", "claim 0000000000000010/254 258"),
        (make.CLAIM, 255, b"\1\2", None),
        (make.CLAIM, 1, b"\1\2\1", None),
        (make.CAP, 0, b"\xff\xff", "cap 0000000000000010 65535"),
        (make.CAP, 1, b"\1\1", None),
        (make.CAP, 0, b"\1\1" + bytes(13) + b"\1", None),
    ):
        known = make.cell(kind, 0x10, port, value)
        yield make.store(known), refused("FILE: bad cell 0") if line is None else prints(f"{line} @1\n")
        if line is not None:
            disputed = make.cell(kind, 0x10, port, b"", state=make.DISPUTED)
            yield make.store(disputed), prints(" ".join(line.split()[:2]) + " disputed @1\n")
