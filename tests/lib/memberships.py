"""Requests of hosts to subnet administration: to join and leave multicast groups, and which groups there are."""
from __future__ import annotations

# A request of subnet administration: its class and version, and where its record begins.
SA_HEAD, RECORD = bytes([1, 3, 2]), 56
SA_SET, DELETE, GET_TABLE, MEMBER = 2, 0x15, 0x12, 0x38
PREFIX = 0xFE80 << 48
BROADCAST = 0xFF12401BFFFF00000000 << 48 | 0xFFFFFFFF
# What a host's kernel gives when its IPoIB comes up, and for each further group: the bits of the components.
COMES_UP, FURTHER = 0x10083, 0x173F7


def membership(method: int, mask: int, group: int, guid: int, numbers: dict[int, bytes] | None = None) -> bytes:
    """Returns a request for a membership: of the port with a GUID, as full member, in the default partition. `numbers`
    has other bytes of the record, by their offset."""
    packet = bytearray(256)
    packet[:4] = *SA_HEAD, method
    packet[8:16], packet[16:18], packet[48:56] = bytes(range(8)), MEMBER.to_bytes(2, "big"), mask.to_bytes(8, "big")
    record = bytearray(64)
    record[:16], record[16:24] = group.to_bytes(16, "big"), PREFIX.to_bytes(8, "big")
    record[24:32] = guid.to_bytes(8, "big")
    record[40:42], record[48] = b"\xff\xff", 0x21
    for at, some in (numbers or {}).items():
        record[at : at + len(some)] = some
    packet[RECORD : RECORD + 64] = record
    return bytes(packet)
