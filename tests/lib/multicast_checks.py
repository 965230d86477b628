"""What `tests/test-serve` checks of `--multicast`: that each packet comes to each adapter once, when masks are set, and
who joins groups."""
from __future__ import annotations

import os
from collections import Counter
from collections.abc import Sequence

import sample_fabrics
from built_program import check
from live_agents import BLOCK, GROUPS, SWITCH_INFO, TABLE, Agents
from memberships import BROADCAST, COMES_UP, DELETE, FURTHER, GET_TABLE, RECORD, SA_SET, membership
from sample_fabrics import Fabric, Port
from served_lines import managed_up, seat
from served_process import Served

Program = str | os.PathLike[str]

# Ports at a position, the bits of a modifier below it, and room for the LIDs of one block.
POSITION, BLOCKS, ONE_BLOCK = 16, 28, 32
# The most switches on the way of a copy.
FAR = 64


def written(program: Program, fabric: Fabric, room: int | None, *options: str) -> Agents:
    """Returns the agents of a fabric after a new manager that decides by itself has written its plan. `room` is the
    number of multicast LIDs that switches have masks for; None if they tell none."""
    agents = Agents(fabric, ("H1", 1))
    agents.group_room = room
    served = Served(program, [*seat(fabric), *options], command="manage")
    managed_up(lambda line: served.ask(line.encode()).decode().splitlines(), agents)
    served.end()
    return agents


def ports_of(agents: Agents, name: str, block: int = 0) -> list[int]:
    """Returns the ports in the mask that a switch has for the first LID of a block."""
    ports = []
    for (switch, modifier), masks in agents.groups.items():
        mask = int.from_bytes(masks[:2], "big")
        if switch == name and modifier % (1 << BLOCKS) == block:
            first = (modifier >> BLOCKS) * POSITION
            ports += [first + it for it in range(POSITION) if mask >> it & 1]
    return sorted(ports)


def copies(agents: Agents, sender: Port) -> Counter[Port]:
    """Returns how many copies of what an adapter port sends come to each adapter port."""
    came, going = Counter(), [(agents.fabric.peers[sender], 0)]
    while going:
        (name, port), hops = going.pop()
        if not agents.fabric.is_switch(name):
            came[name, port] += 1
            continue
        check(hops < FAR, f"a packet from {sender} goes round")
        for out in ports_of(agents, name):
            if out not in (0, port) and (name, out) in agents.fabric.peers:
                going.append((agents.fabric.peers[name, out], hops + 1))
    return came


def check_tree(program: Program, fabric: Fabric, *options: str) -> None:
    """Checks the masks that a manager writes, when it sets them, and that it asks nothing of switches without masks."""
    agents = written(program, fabric, ONE_BLOCK, "--multicast", *options)
    adapters = [it for it in fabric.peers if not fabric.is_switch(it[0])]
    for sender in adapters:
        wanted = Counter(it for it in adapters if it != sender)
        came = copies(agents, sender)
        check(came == wanted, f"{options}: from {sender} copies come to {came} and not {wanted}")
    check(all(not any(it[2:]) for it in agents.groups.values()), "other multicast LIDs have masks")
    kinds = [
        (attribute, any(data)) for _, attribute, _, data in agents.sets if attribute in (GROUPS, SWITCH_INFO, TABLE)
    ]
    blocks = [it for it, (attribute, _) in enumerate(kinds) if attribute in (SWITCH_INFO, TABLE)]
    full = [it for it, kind in enumerate(kinds) if kind == (GROUPS, True)]
    switches = [it for it in fabric.nodes if fabric.is_switch(it)]
    positions = sum(fabric.ports(it) // POSITION + 1 for it in switches)
    first = kinds[:positions]
    check(first == [(GROUPS, False)] * positions, f"{options}: masks are cleared first: {first}")
    check(full and full[0] > blocks[-1], f"{options}: masks are set before tables")
    check(sum(attribute == GROUPS for attribute, _ in kinds) == 2 * positions, f"{options}: masks are set twice")
    for room, words in (None, ["--multicast"]), (0, ["--multicast"]), (ONE_BLOCK, []):
        agents = written(program, fabric, room, *words, *options)
        check(not agents.groups, f"room for {room}, {words}: masks are set")


# The statuses of answers.
DONE, REFUSED, INVALID, NONE, NO_GID, TOO_FEW = 0, 0x0C, 0x0200, 0x0300, 0x0500, 0x0600


def check_joins(program: Program) -> None:
    """Checks who joins which groups, and what is told."""
    fabric = sample_fabrics.star(3)
    guid, switch = fabric.guid("H2") + 1, fabric.guid("S1")
    other = 0xFF12401BFFFF << 80 | 0xE0000001
    further = {32: bytes.fromhex("00000b1b"), 38: b"\x84", 42: b"\x83"}
    rows = [
        # The title, the request, the status, and bytes of the record told, by their offset.
        ("IPoIB comes up", membership(SA_SET, COMES_UP, BROADCAST, guid), DONE, {32: "00000b1bc00084"}),
        ("a further group", membership(SA_SET, FURTHER, other, guid, further), DONE, {36: "c00084"}),
        (
            "a group with a Q_Key of its own",
            membership(SA_SET, FURTHER, other, guid, further | {32: b"\1\x23\x45\x67"}), DONE, {32: "01234567c000"},
        ),
        ("it leaves", membership(DELETE, 0x10003, BROADCAST, guid), DONE, {36: "c000", 48: "21"}),
        ("nothing names the port", membership(SA_SET, 0x10081, BROADCAST, guid), TOO_FEW, {}),
        ("too little of a new group", membership(SA_SET, COMES_UP, other, guid), TOO_FEW, {}),
        ("no multicast GID", membership(SA_SET, FURTHER, 0xFE << 120, guid, further), NO_GID, {}),
        ("a port that there is not", membership(SA_SET, COMES_UP, BROADCAST, guid + 1000), NO_GID, {}),
        ("a switch", membership(SA_SET, COMES_UP, BROADCAST, switch), NO_GID, {}),
        ("another prefix", membership(SA_SET, COMES_UP, BROADCAST, guid, {16: bytes(8)}), NO_GID, {}),
        ("another partition", membership(SA_SET, COMES_UP, BROADCAST, guid, {40: b"\x80\1"}), INVALID, {}),
        (
            "packets of 4096 bytes alone",
            membership(SA_SET, FURTHER, other, guid, further | {38: b"\x85"}), INVALID, {},
        ),
        ("another service level", membership(SA_SET, FURTHER, other, guid, further | {44: b"\x10"}), INVALID, {}),
        ("the broadcast group", membership(1, 1, BROADCAST, 0), DONE, {24: "00" * 8, 36: "c000", 48: "20"}),
        ("another group", membership(1, 1, other, 0), NONE, {}),
        ("all groups", membership(GET_TABLE, 0, 0, 0), DONE, {0: f"{BROADCAST:032x}", 36: "c000"}),
    ]
    for has_tree in True, False:
        served = Served(program, [*seat(fabric), *["--multicast"] * has_tree], command="manage")
        agents = Agents(fabric, ("H1", 1))
        agents.group_room = ONE_BLOCK
        lines = managed_up(lambda line: served.ask(line.encode()).decode().splitlines(), agents)
        time = int(lines[-1].split()[0])
        for title, request, status, told in rows:
            words = served.ask(f"{time} sa {request.hex()} from 9".encode()).decode().split()
            answer = bytes.fromhex(words[1])
            wanted = status if has_tree else REFUSED
            check(words[0] == "sa" and words[2:4] == ["to", "9"], f"{title}: it is answered")
            found, method = int.from_bytes(answer[4:6], "big"), 0x81 if request[3] == SA_SET else 0x80 | request[3]
            check(found == wanted, f"{title}, {has_tree=}: status {found:04x}, and not {wanted:04x}")
            check(answer[3] == method, f"{title}: method {answer[3]:02x}")
            check(answer[8:18] == request[8:18], f"{title}: the answer is the request's")
            for at, digits in told.items() if has_tree else ():
                some = answer[RECORD + at : RECORD + at + len(digits) // 2].hex()
                check(some == digits, f"{title}: {some} at {at}, and not {digits}")
            if request[3] in (SA_SET, DELETE) and answer[4:6] == bytes(2):
                check(answer[RECORD : RECORD + 32] == request[RECORD : RECORD + 32], f"{title}: group and port")
                check(answer[RECORD + 48] == request[RECORD + 48], f"{title}: the state")
        served.end()


def check_multicast(program: Program) -> None:
    """Checks trees of fabrics with few and many ports, with parallel cables and circles, by each rule."""
    ways: Sequence[tuple[str, ...]] = (), ("--routing", "spread"), ("--routing", "balance")
    for fabric in (
        sample_fabrics.triangle(), sample_fabrics.star(3), sample_fabrics.two_levels(2, 3, 2),
        sample_fabrics.two_levels(1, 2, 40), sample_fabrics.torus(3, 3),
    ):
        for options in ways:
            check_tree(program, fabric, *options)
    check(BLOCK == 2 * ONE_BLOCK, "a block has two bytes a LID")
    check_joins(program)
