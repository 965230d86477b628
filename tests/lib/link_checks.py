"""What `tests/test-files` checks of widths and speeds of links, with recordings that are made here."""
from __future__ import annotations

from collections.abc import Iterable

import record_files
import sample_fabrics
from sample_fabrics import Fabric, Port
from tool_room import Room

# By name: the bits of widths, and the bits of speeds with whether they are in the extended field.
WIDTHS = {"1x": 1, "2x": 16, "4x": 2, "8x": 4, "12x": 8}
SPEEDS = {"SDR": (1, 0), "DDR": (2, 0), "QDR": (4, 0), "FDR": (1, 1), "EDR": (2, 1), "HDR": (4, 1), "NDR": (8, 1)}
RATES = {"SDR": 2.5, "DDR": 5, "QDR": 10, "FDR": 14, "EDR": 25, "HDR": 50, "NDR": 100}


def info(state: int, active: tuple[str, str] | None = None, supported: Iterable[tuple[str, str]] = ()) -> bytes:
    """Returns the PortInfo of a port in a state, with its active width and speed and the supported ones."""
    value = bytearray(64)
    value[32] = state
    for width, speed in supported:
        value[30] |= WIDTHS[width]
        bit, is_extended = SPEEDS[speed]
        value[62 if is_extended else 32] |= bit if is_extended else bit << 4
    if active:
        value[31] = WIDTHS[active[0]]
        bit, is_extended = SPEEDS[active[1]]
        value[62 if is_extended else 35] |= bit << 4
    return bytes(value)


def recording(fabric: Fabric, said: dict[Port | None, bytes | None], generation: int = 1) -> bytes:
    """Returns a recording of a fabric's links. `said` has the PortInfo of each port, and under None that of all
    others."""
    records = []
    for (name, port), (far, back) in sorted(fabric.peers.items()):
        kind = record_files.SWITCH if fabric.is_switch(far) else record_files.ADAPTER
        via = record_files.via(fabric.guid(name), port)
        records.append(
            record_files.node_info(via, kind, fabric.ports(far), fabric.guid(far), fabric.guid(far), back, generation)
        )
        value = said.get((name, port), said[None])
        if value is not None:
            records.append(
                record_files.report(
                    record_files.about(fabric.guid(name)), record_files.PORT_INFO, port, value, generation
                )
            )
    return record_files.reports(*records)


def links(room: Room) -> None:
    """Checks widths and speeds of links, what compare says of them, and odd links."""
    fabric = sample_fabrics.triangle()
    can = [("1x", "SDR"), ("4x", "QDR"), ("4x", "EDR")]
    edr = info(4, ("4x", "EDR"), can)
    (room.path / "golden").write_bytes(recording(fabric, {None: edr}))
    printed = room.run("links golden --names all.names", 0)
    room.check(
        printed.count(" 4x EDR 100 Gb/s\n") == 5 and " below 4x" not in printed, f"all links as they can be: {printed}"
    )
    room.check(printed.endswith("5 links: 5 of 4x EDR 100 Gb/s; below what both ends can, or not told: 0\n"), "counted")
    room.check('link 0000000000000010/1 "S1" 0000000000000020/1 "S2" 4x EDR' in printed, "names")
    room.check(room.run("links golden --slow", 0).count("\n") == 1, "none is slow")
    slow, far = ("S2", 2), fabric.peers["S2", 2]
    one = info(4, ("1x", "QDR"), can)
    old = info(4, ("4x", "QDR"), [("4x", "QDR")])
    adapter = [end for end in fabric.peers if end[0] == "H1"][0]
    said = {None: edr, slow: one, far: one, adapter: old, fabric.peers[adapter]: info(4, ("4x", "QDR"), can)}
    (room.path / "now").write_bytes(recording(fabric, said, 7))
    printed = room.run("links now --slow", 1)
    room.check(
        printed.startswith(
            "link 0000000000000020/2 0000000000000030/2 1x QDR 10 Gb/s below 4x EDR 100 Gb/s\n5 links: "
        ),
        f"a slow link: {printed}",
    )
    printed = room.run("links now", 1)
    room.check(
        "0000000000000020/3 0000000000000100/1 4x QDR 40 Gb/s\n" in printed, "an adapter that can no more is not below"
    )
    printed = room.run("compare golden now --names all.names", 1)
    lines = ['slow cable 0000000000000020/2 "S2" 0000000000000030/2 "S3" 4x EDR 100 Gb/s > 1x QDR 10 Gb/s']
    lines.append('slow cable 0000000000000020/3 "S2" 0000000000000100/1 "H1" 4x EDR 100 Gb/s > 4x QDR 40 Gb/s')
    room.check(printed.splitlines() == [*lines, "slow cable 2"], f"slow cables by a golden recording: {printed}")
    room.put(it=printed)
    told = room.run("json it", 0)
    room.check(
        '"change": "slow", "what": "cable", "ends": ["0000000000000020/2", ' in told
        and '"new": "1x QDR 10 Gb/s"' in told,
        f"as JSON: {told}",
    )
    room.check(
        room.run("compare now golden", 1).endswith("fast cable 2\n") and room.run("compare now now", 0) == "equal\n",
        "and faster, and equal",
    )
    odd_links(room, fabric, edr)
    every_rate(room, fabric)


def odd_links(room: Room, fabric: Fabric, edr: bytes) -> None:
    """Checks links that are gone, down, or reported by one end or by none, and files that are not recordings."""
    end, far = ("S1", 1), fabric.peers["S1", 1]
    for said, status, last in (
        ({end: info(1)}, 0, "4 links: 4 of 4x EDR 100 Gb/s; below what both ends can, or not told: 0\n"),
        ({end: None}, 0, "5 links: 5 of 4x EDR 100 Gb/s; below what both ends can, or not told: 0\n"),
        ({end: None, far: None}, 0, "4 links: 4 of 4x EDR 100 Gb/s; below what both ends can, or not told: 0\n"),
        ({end: info(4), far: info(4)}, 1,
         "5 links: 4 of 4x EDR 100 Gb/s, 1 not told; below what both ends can, or not told: 1\n"),
        ({end: info(4, ("2x", "HDR"), [("4x", "HDR")])}, 0,
         "5 links: 4 of 4x EDR 100 Gb/s, 1 of 2x HDR 100 Gb/s; below what both ends can, or not told: 0\n"),
    ):
        (room.path / "odd").write_bytes(recording(fabric, {None: edr} | said))
        printed = room.run("links odd", status)
        room.check(printed.endswith(last), f"{printed} and not {last}")
    (room.path / "odd").write_bytes(recording(fabric, {None: edr, end: info(1)}))
    gone = "gone cable 0000000000000010/1 0000000000000020/1\ngone cable 1\n"
    room.check(room.run("compare golden odd", 1) == gone, "a link that is gone")
    both = recording(fabric, {None: edr}, 2) + recording(fabric, {None: info(4, ("1x", "SDR"))}, 1)[8:]
    (room.path / "two").write_bytes(both)
    room.check("5 of 4x EDR" in room.run("links two", 0), "the newest generation counts")
    (room.path / "short").write_bytes(both[:-1])
    room.refused("links short", "short: it ends within a record: is it cut?")
    room.refused("links t.facts", "t.facts: this is a text of facts")
    room.refused("links nothing", "nothing", 4)
    room.run("links", 2)
    room.check(room.run("links -", 0, stdin="golden") == room.run("links golden", 0), "from standard input")


def every_rate(room: Room, fabric: Fabric) -> None:
    """Checks each width with each speed."""
    for width in WIDTHS:
        for speed, gigabits in RATES.items():
            (room.path / "odd").write_bytes(recording(fabric, {None: info(4, (width, speed), [(width, speed)])}))
            told = f"{width} {speed} {int(width[:-1]) * gigabits:g} Gb/s"
            room.check(room.run("links odd", 0).count(f" {told}\n") == 5, f"five links of {told}")
