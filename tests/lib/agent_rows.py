"""Rows for `record` and `send` whole, in place of whose library for ports stands one that asks agents of the test."""
from __future__ import annotations

import os
import pathlib
import socket
import subprocess
import threading
from collections.abc import Callable

import live_agents
import paths
import sample_fabrics
from live_agents import GET, GROUPS, PORT_INFO, SET, SWITCH_INFO, TABLE, field

TIMED_OUT = 110
SEAT = "H1", 1
# A request, and what its agent tells; what a bend makes of that is what comes, and None is no answer.
Bend = Callable[[bytes, bytes], "bytes | None"]
SHARED = "common.c port.c keys.c ask.c report.c sweep.c names.c".split()
SOURCES = {
    "record": ["record.c", "generation.c", "lanes.c", "trees.c", "levels.c", *SHARED],
    "send": ["send.c", "subnet.c", "wanted.c", "judge.c", *SHARED],
}


def build(folder: pathlib.Path, flags: tuple[str, ...]) -> None:
    """Builds record and send on the stand-in of the library, in a folder."""
    stand_in = paths.ROOT / "tests/c"
    for tool, names in SOURCES.items():
        sources = [paths.TOOLS / "record" / name for name in names]
        words = ["cc", *flags, f"-I{stand_in}", '-DVERSION="test"', "-o", folder / tool, stand_in / "umad.c", *sources]
        subprocess.run(words, check=True)


class Subnet:
    """Agents of a fabric, and how record and send run there."""

    def __init__(self, folder: pathlib.Path, fabric: sample_fabrics.Fabric, bend: Bend | None = None) -> None:
        self.folder, self.fabric, self.bend = folder, fabric, bend
        self.agents = live_agents.Agents(fabric, SEAT)
        self.asked, self.status, self.said, self.printed = [], 0, "", ""

    def answers(self, door: socket.socket) -> None:
        """Answers each request, until the tool ends."""
        with door:
            while packet := door.recv(4096):
                self.asked.append(packet)
                told = self.agents.answer(packet)
                if told and self.bend:
                    told = self.bend(packet, told)
                door.send(bytes([0]) + told if told else bytes([TIMED_OUT]) + packet)

    def run(self, tool: str, *words: object) -> int:
        """Runs a tool, and returns its status."""
        ours, its = socket.socketpair(socket.AF_UNIX, socket.SOCK_SEQPACKET)
        self.asked.clear()
        thread = threading.Thread(target=self.answers, args=(ours,))
        thread.start()
        environment = os.environ | {"AGENTS": str(its.fileno())}
        how = {"cwd": self.folder, "env": environment, "pass_fds": [its.fileno()], "text": True, "capture_output": True}
        run = subprocess.run([str(it) for it in (self.folder / tool, *words)], timeout=120, **how)
        its.close()
        thread.join()
        self.status, self.said, self.printed = run.returncode, run.stderr, run.stdout
        return run.returncode

    def sets(self) -> list[tuple[int, int]]:
        """Returns attribute and modifier of each Set that was sent."""
        return [(field(it, 16, 2), field(it, 20, 4)) for it in self.asked if it[3] == SET]


def with_status(attribute: int, modifier: int, status: int, hops: int = -1) -> Bend:
    """Returns the bend that gives answers of an attribute another status, also only those over so many hops."""

    def bend(packet: bytes, told: bytes) -> bytes:
        is_meant = field(packet, 16, 2) == attribute and field(packet, 20, 4) == modifier and hops in (-1, packet[7])
        return told[:4] + bytes([0x80, status]) + told[6:] if is_meant else told

    return bend


def silent(attribute: int, modifier: int, method: int = GET, hops: int = -1) -> Bend:
    """Returns the bend that lets requests for an attribute have no answer."""

    def bend(packet: bytes, told: bytes) -> bytes | None:
        is_meant = (field(packet, 16, 2), field(packet, 20, 4), packet[3]) == (attribute, modifier, method)
        return None if is_meant and hops in (-1, packet[7]) else told

    return bend


def changed(attribute: int, at: int, value: int, method: int) -> Bend:
    """Returns the bend that changes a byte of an attribute in answers."""

    def bend(packet: bytes, told: bytes) -> bytes:
        if (field(packet, 16, 2), packet[3]) != (attribute, method):
            return told
        return told[: 64 + at] + bytes([value]) + told[65 + at :]

    return bend


def recorded(folder: pathlib.Path) -> list[tuple[bool, str]]:
    """Returns what holds of recordings: status, what is said, and that tables are those that agents hold."""
    found = []
    for fabric in sample_fabrics.triangle(), sample_fabrics.torus(3, 3), sample_fabrics.two_ports(5):
        subnet = Subnet(folder, fabric)
        plan = fabric.plan(fabric.shortest())
        (folder / "plan").write_text(plan)
        for out in 1, 4, 64:
            status = subnet.run("record", "-g", 7, "-n", out, "-T", "held", f"{out}.reports")
            found.append((status == 0, f"record: {status} {subnet.said}"))
            same = (folder / f"{out}.reports").read_bytes() == (folder / "1.reports").read_bytes()
            found.append((same or out == 64, f"{out} requests at a time: the same recording"))
        found.append((not subnet.sets(), "record sets nothing"))
        status = subnet.run("send", "--dry-run", "plan")
        found.append((status == 0 and not subnet.sets(), "send --dry-run sets nothing"))
        found.append((subnet.run("send", "plan") == 0, f"send: {subnet.said}"))
        found.append((subnet.agents.held() == plan, "the agents hold the plan"))
        order = [attribute for attribute, _ in subnet.sets()]
        wanted = sorted(order, key=[PORT_INFO, TABLE, SWITCH_INFO].index)
        found.append((order == wanted != [], "LIDs come first, then blocks, then tops"))
        found.append((subnet.run("send", "plan") == 0 and not subnet.sets(), "then nothing is left to send"))
        found.append((subnet.run("record", "-g", 7, "-T", "held", "x.reports") == 0, "it is recorded"))
        found.append(((folder / "held").read_text() == plan, "and what is held is the plan"))
    return found


# What record says and how it ends where answers are otherwise than they should be.
GAPS = (
    (silent(PORT_INFO, 2), 1, "no answer"),
    (with_status(PORT_INFO, 2, 0x1C), 1, "left out: Status 0x001c"),
    (changed(live_agents.NODE_INFO, 2, 9, GET), 4, "left out: NodeType"),
    (silent(live_agents.NODE_INFO, 0, hops=2), 1, "NodeInfo behind port"),
    (silent(live_agents.NODE_INFO, 0, hops=0), 4, "nothing answered, not even this machine's own port"),
    (silent(SWITCH_INFO, 0), 1, "SwitchInfo of node"),
    (silent(TABLE, 0), 1, "LinearForwardingTable block 0 of node"),
)
# Tables that send refuses, by what is replaced in the plan of the triangle, with what it says.
REFUSED = (
    ("lid 4 0000000000000100/1", "lid 4 0000000000000300/1", "there is no end port 0000000000000300/1"),
    ("lid 5 0000000000000200/1\n", "", "port 0000000000000200/1 has no LID in the tables"),
    ("lid 4 ", "lid 6 ", "LID 5 is given to a second port, or is out of order"),
    ("switch 0000000000000010", "switch 0000000000000011", "switch 0000000000000011 is none of this subnet"),
    ("top 5\nblock 0 ff0001", "top 4\nblock 0 ff0001", "has top 4, and the greatest LID is 5: is it cut?"),
    ("block 0 ff0001", "block 0 ff0004", "leaves switch 0000000000000010 by port 4, which has no cable that is up"),
    ("block 0 ff0001", "block 0 ff00ff", "1 pairs of a switch and a LID have no way: is the subnet in pieces?"),
    ("block 0 ff0001", "block 0 ff0000", "LID 2 ends at switch 0000000000000010, which does not own it"),
    ("block 0 ff0100", "block 0 ff0300", "leaves switch 0000000000000020 by port 3 to a port that does not own it"),
)


def of_groups(folder: pathlib.Path) -> list[tuple[bool, str]]:
    """Returns what holds of multicast tables that are recorded: entries over 16 ports, more than one block, up to the
    greatest group that a switch tells, and none where an answer is missing."""
    found = []
    subnet = Subnet(folder, sample_fabrics.star(20))
    agents, first, last = subnet.agents, bytearray(64), bytearray(64)
    first[0:2], first[62:64] = (1 << 1 | 1 << 15).to_bytes(2, "big"), (1 << 2).to_bytes(2, "big")
    last[0:2] = (1 << 1 | 1 << 4).to_bytes(2, "big")
    agents.groups = {("S1", 0): bytes(first), ("S1", 1 << 28): bytes(last), ("S1", 1): bytes(first)}
    zero, end = "group c000 0000000000000010 1 15 17 20\n", "group c01f 0000000000000010 2\n"
    above = "group c020 0000000000000010 1 15\ngroup c03f 0000000000000010 2\n"
    for room, top, wanted, asked in (
        (64, 0, zero + end + above, 4), (64, 0xC01F, zero + end, 2), (64, 0xC000, zero, 2), (64, 0xBFFF, "", 0),
        (33, 0, zero + end + above.split("\n", 1)[0] + "\n", 4), (64, 0xC040, zero + end + above, 4), (0, 0, "", 0),
    ):
        agents.group_room, agents.group_top = room, top
        status = subnet.run("record", "-g", 7, "-M", "groups", "x.reports")
        text, count = (folder / "groups").read_text(), [field(it, 16, 2) for it in subnet.asked].count(GROUPS)
        found.append((status == 0 and text == f"groups\n{wanted}", f"groups up to {top:x} of {room}: {text}"))
        found.append((count == asked, f"groups up to {top:x} of {room}: {count} blocks are asked for"))
        (folder / "groups").unlink()
    subnet.bend = silent(GROUPS, 1 << 28)
    agents.group_room, agents.group_top = 32, 0
    why = "MulticastForwardingTable block 0 position 1 of node 0000000000000010: no answer"
    for words, is_there in ((), False), (("-p",), True):
        status = subnet.run("record", "-g", 7, "-r", 0, "-M", "groups", "-T", "held", *words, "x.reports")
        found.append((status == 1 and why in subnet.said, f"a block without an answer: {status} {subnet.said}"))
        found.append(((folder / "groups").exists() == is_there and (folder / "held").exists(), f"written: {words}"))
        (folder / "held").unlink()
    found.append((subnet.run("record", "-M", "x.reports", "x.reports") == 2, "one file for two outputs"))
    return found


def judged(folder: pathlib.Path) -> list[tuple[bool, str]]:
    """Returns what holds of gaps in recordings, of refused tables, and of Sets that fail."""
    fabric, found = sample_fabrics.triangle(), []
    plan = fabric.plan(fabric.shortest())
    for bend, wanted, why in GAPS:
        subnet = Subnet(folder, fabric, bend)
        (folder / "gap.held").unlink(missing_ok=True)
        status = subnet.run("record", "-g", 7, "-r", 1, "-T", "gap.held", "gap.reports")
        is_whole = not (folder / "gap.held").exists()
        found.append((status == wanted and why in subnet.said, f"record, `{why}`: status {status}: {subnet.said}"))
        found.append((is_whole or "NodeInfo behind" in why, f"record, `{why}`: no tables"))
    subnet = Subnet(folder, fabric)
    for old, new, why in REFUSED:
        (folder / "bad").write_text(plan.replace(old, new, 1))
        status = subnet.run("send", "bad")
        found.append((plan.count(old) > 0 and status == 3 and why in subnet.said, f"send, `{why}`: {subnet.said}"))
        found.append((not subnet.sets() and subnet.agents.held().count("lid") == 0, f"send, `{why}`: nothing is set"))
    (folder / "plan").write_text(plan)
    (folder / "holes").write_text(plan.replace("block 0 ff0001", "block 0 ff00ff", 1))
    found.append((subnet.run("send", "--holes", "holes") == 0, f"send --holes: {subnet.said}"))
    found.append((subnet.run("send", "plan") == 0 and len(subnet.sets()) == 1, f"then one block: {subnet.sets()}"))
    moved = plan.replace("lid 4 0000000000000100/1\nlid 5 0", "lid 4 0000000000000200/1\nlid 5 1", 1)
    (folder / "moved").write_text(moved.replace("lid 5 1000000000000200/1", "lid 5 0000000000000100/1"))
    status = subnet.run("send", "--holes", "moved")
    found.append((status == 3 and "(--move-lids)" in subnet.said, f"a LID that moves: {subnet.said}"))
    for bend, wanted, why in (
        (with_status(TABLE, 0, 0x1C), 4, ""),
        (silent(TABLE, 0, SET), 1, "NOT WRITTEN: 5 of"),
        (silent(SWITCH_INFO, 0, SET), 1, "NOT WRITTEN: 8 of"),
        (changed(TABLE, 1, 7, SET), 1, "the answer is otherwise than what was set"),
        (changed(PORT_INFO, 17, 7, SET), 1, "the answer is otherwise than what was set"),
    ):
        subnet = Subnet(folder, fabric, bend)
        status = subnet.run("send", "-n", 1, "-r", 1, "plan")
        if why:
            found.append((status == wanted and why in subnet.said, f"send, `{why}`: status {status}: {subnet.said}"))
        else:
            found.append((status == 3 and not subnet.sets(), f"send, tables that cannot be read: {subnet.said}"))
    return found
