"""Agents of a fabric, written for the tests of `serve` and `manage`: what each answers to a directed request, and what
it then holds."""
from __future__ import annotations

import random
import struct

from sample_fabrics import ROOM, Fabric, Port

NODE_INFO, SWITCH_INFO, PORT_INFO, TABLE, GROUPS = 0x11, 0x12, 0x15, 0x19, 0x1B
GET, SET, ANSWER = 1, 2, 0x81
DIRECTED, PERMISSIVE = 0x81, 65535
DOWN, INITIALIZE, ACTIVE = 1, 2, 4
BLOCK = 64


def field(packet: bytes, at: int, size: int) -> int:
    """Returns the number in `size` bytes of a packet, from `at` on."""
    return int.from_bytes(packet[at : at + size], "big")


class Agents:
    """The agents of a fabric of sample_fabrics, all in their first state.

    `images` is a source of random numbers for all other values that ports and switches report. Without it they are 0.
    `room` is the size of each table.
    `read` has each attribute as it was first reported, and `sets` each one that was set, by node, attribute and
    modifier. `groups` has blocks of multicast tables by node and modifier, `group_room` how many groups a switch has
    room for, and `group_top` its greatest one, 0 if it tells none."""

    def __init__(self, fabric: Fabric, seat: Port, images: random.Random | None = None) -> None:
        self.fabric, self.seat, self.images = fabric, seat, images
        self.read, self.sets = {}, []
        self.lids, self.masters, self.tops, self.tables = {}, {}, {}, {}
        self.states, self.room = {}, ROOM
        self.groups, self.group_room, self.group_top = {}, None, 0
        for name in fabric.nodes:
            for port in range(fabric.ports(name) + 1):
                wired = (name, port) in fabric.peers
                self.states[name, port] = ACTIVE if port == 0 else INITIALIZE if wired else DOWN

    def answer(self, packet: bytes, seat: Port | None = None) -> bytes | None:
        """Returns the answer to a directed request from a seat, as it arrives back there, or None if it is lost. The
        seat is the agents' own one if none is given."""
        if packet[1] != DIRECTED or packet[3] not in (GET, SET):
            return None
        way = self.way(packet, seat or self.seat)
        return way and self.answer_at(packet, *way)

    def way(self, packet: bytes, seat: Port) -> tuple[str, int, bytes] | None:
        """Returns the node that a directed request from a seat comes to, the port by which it comes there, and the
        path back, or None if it is lost."""
        (name, came_by), back = seat, bytearray(64)
        for hop in range(1, packet[7] + 1):
            if hop > 1 and not self.fabric.is_switch(name):
                return None
            far = self.fabric.peers.get((name, packet[128 + hop]))
            if far is None:
                return None
            (name, came_by) = far
            back[hop] = came_by
        return name, came_by, bytes(back)

    def answer_at(self, packet: bytes, name: str, came_by: int, back: bytes) -> bytes | None:
        """Returns the answer of a node to a directed request that came by a port, with the path back, or None if the
        node does not answer."""
        status = self.refusal(name, came_by, packet)
        data = packet[64:128] if status else self.told(name, came_by, packet)
        if data is None:
            return None
        if not status:
            self.note(name, came_by, packet, data)
        head = bytearray(packet[:64])
        head[3], head[4], head[5], head[6] = ANSWER, 0x80, status, 0
        return bytes(head) + data + packet[128:192] + back

    def refusal(self, name: str, came_by: int, packet: bytes) -> int:
        """Returns the status of an answer: 0, since these agents take each Set."""
        return 0

    def note(self, name: str, came_by: int, packet: bytes, data: bytes) -> None:
        """Notes what was reported first, and what was set."""
        attribute, modifier = field(packet, 16, 2), field(packet, 20, 4)
        if attribute == PORT_INFO and not self.fabric.is_switch(name):
            modifier = modifier or came_by
        self.read.setdefault((name, attribute, modifier), data)
        if packet[3] == SET:
            self.sets.append((name, attribute, modifier, packet[64:128]))

    def blank(self, name: str, attribute: int, modifier: int) -> bytearray:
        """Returns an attribute before its known values are filled in: zeros, or a random image, the same at each
        request."""
        known = self.read.get((name, attribute, modifier))
        if self.images is None or attribute not in (SWITCH_INFO, PORT_INFO):
            return bytearray(64)
        if known:
            return bytearray(known)
        data = bytearray(self.images.randbytes(64))
        if attribute == SWITCH_INFO:
            data[11] = self.images.choice((0, 7, data[11]))
        else:
            data[8:16] = self.images.choice((bytes(8), data[8:16]))
            data[16:24] = bytes(8)
            data[42] &= self.images.choice((0xE0, 0xFF))
            data[51] &= self.images.choice((0xE0, 0xFF))
            data[41] &= self.images.choice((0xF0, 0xFF, 0xFF))
        return data

    def told(self, name: str, came_by: int, packet: bytes) -> bytes | None:
        """Returns the 64 bytes of the attribute."""
        attribute, modifier, is_set = field(packet, 16, 2), field(packet, 20, 4), packet[3] == SET
        guid, ports = self.fabric.guid(name), self.fabric.ports(name)
        is_switch = self.fabric.is_switch(name)
        data = self.blank(name, attribute, modifier if is_switch or attribute != PORT_INFO else modifier or came_by)
        if attribute == NODE_INFO:
            head = struct.pack(
                ">BBBBQQQHHI", 1, 1, 2 if is_switch else 1, ports, guid, guid, guid + (0 if is_switch else came_by), 1,
                0, 0,
            )
            data[: len(head)] = head
            data[36] = came_by
        elif attribute == SWITCH_INFO and is_switch:
            if is_set:
                self.tops[name] = field(packet, 64 + 6, 2)
            data[0:2] = self.room.to_bytes(2, "big")
            if self.group_room is not None:
                data[4:6], data[18:20] = self.group_room.to_bytes(2, "big"), self.group_top.to_bytes(2, "big")
            data[6:8] = self.tops.get(name, 0).to_bytes(2, "big")
        elif attribute == PORT_INFO:
            port = modifier if is_switch else modifier or came_by
            if port > ports:
                return None
            if is_set:
                if not is_switch or port == 0:
                    self.lids[name, port] = field(packet, 64 + 16, 2), packet[64 + 34] & 7
                    self.masters[name, port] = packet[64 + 18 : 64 + 20]
                self.states[name, port] = packet[64 + 32] & 15 or self.states[name, port]
            lid, lmc = self.lids.get((name, port), (0, 0))
            data[16:18] = lid.to_bytes(2, "big")
            data[18:20] = self.masters.get((name, port), bytes(2))
            data[28] = came_by
            data[32] = data[32] & 0xF0 | self.states[name, port]
            data[34] = data[34] & 0xF8 | lmc
        elif attribute == TABLE and is_switch:
            if is_set:
                self.tables[name, modifier] = packet[64:128]
            data[:] = self.tables.get((name, modifier), b"\xff" * BLOCK)
        elif attribute == GROUPS and is_switch:
            if is_set:
                self.groups[name, modifier] = packet[64:128]
            data[:] = self.groups.get((name, modifier), bytes(BLOCK))
        else:
            return None
        return bytes(data)

    def held(self) -> str:
        """Returns what the agents hold, in the form of a plan."""
        lines = []
        for (name, port), (lid, lmc) in sorted(self.lids.items(), key=lambda it: it[1]):
            lines.append(f"lid {lid} {self.fabric.guid(name):016x}/{port}" + (f" lmc {lmc}" if lmc else ""))
        for name in sorted((it for it in self.fabric.nodes if self.fabric.is_switch(it)), key=self.fabric.guid):
            top = self.tops.get(name, 0)
            lines.append(f"switch {self.fabric.guid(name):016x} top {top}")
            for block in range(top // BLOCK + 1):
                lines.append(f"block {block} {self.tables.get((name, block), bytes([255]) * BLOCK).hex()}")
        return "".join(f"{line}\n" for line in lines)
