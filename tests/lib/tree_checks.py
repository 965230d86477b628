"""What `tests/test-files` checks of multicast tables: trees, circles, pieces, one way, and cables that are gone."""
from __future__ import annotations

import sample_fabrics
from tool_room import Room

# Entries of the triangle by its switches: S1 between S2 and S3, with H1 at S2 and H2 at S3.
LINE = {0x10: "1 2", 0x20: "1 3", 0x30: "1 3"}
GOOD = "group c000: 2 adapter ports, 3 switches, 1 pieces\n"
APART = "group c000: 2 adapter ports, 3 switches, 2 pieces\n"
PIECES = (
    "piece c000 0000000000000100/1 adapter ports 1\n",
    "piece c000 0000000000000200/1 adapter ports 1\n",
)
ALL = "adapter ports in none of these groups: 0\n"
ONE = "adapter ports in none of these groups: 1\n"
# The title of a row, its entries, the status, and what is printed.
ROWS = (
    ("a tree", LINE, 0, GOOD + ALL + "passes yes\n"),
    ("port 0 is of no cable", LINE | {0x10: "0 1 2"}, 0, GOOD + ALL + "passes yes\n"),
    (
        "a circle", LINE | {0x20: "1 2 3", 0x30: "1 2 3"}, 1,
        GOOD + "round c000 0000000000000020 0000000000000010 0000000000000030\n" + ALL + "passes no: round\n",
    ),
    (
        "a switch that does not copy back", LINE | {0x20: "3"}, 1,
        APART + "".join(PIECES) + "one way c000 0000000000000010/1 to 0000000000000020/1\n" + ALL
        + "passes no: pieces, one way\n",
    ),
    (
        "a switch without an entry", {0x20: "1 3", 0x30: "1 3"}, 1,
        APART.replace("3 switches", "2 switches") + "".join(PIECES)
        + "one way c000 0000000000000020/1 to 0000000000000010/1\n"
        + "one way c000 0000000000000030/1 to 0000000000000010/2\n" + ALL + "passes no: pieces, one way\n",
    ),
    (
        "a port without a cable", LINE | {0x10: "1 2 3"}, 1,
        GOOD + "no cable c000 0000000000000010/3\n" + ALL + "passes no: no cable\n",
    ),
    (
        "an adapter that is left out", LINE | {0x30: "1"}, 0,
        "group c000: 1 adapter ports, 3 switches, 1 pieces\n" + ONE + "passes yes\n",
    ),
    ("a tree over both ports of an adapter's neighbour", {0x20: "2 3", 0x30: "2 3"}, 0,
     GOOD.replace("3 switches", "2 switches") + ALL + "passes yes\n"),
)


def groups(entries: dict[int, str], group: int = 0xC000) -> str:
    """Returns lines of entries."""
    return "".join(f"group {group:04x} {guid:016x} {ports}\n" for guid, ports in entries.items())


def trees(room: Room) -> None:
    """Checks what trees says of entries in the triangle, whole and cut, and which texts it refuses."""
    facts = sample_fabrics.triangle().facts()
    room.put(tri_facts=facts)
    for title, entries, status, printed in ROWS:
        room.put(it=f"groups\n{groups(entries)}")
        room.check(room.run("trees it tri.facts", status) == printed, f"{title}: {room.out} and not {printed}")
    down = "port 0000000000000010/1 up @"
    room.check(down in facts, "S1's first port is up")
    room.put(it=f"groups\n{groups(LINE)}", cut_facts=facts.replace(down, "port 0000000000000010/1 down @"))
    gone = "".join(f"no cable c000 {end}\n" for end in ("0000000000000010/1", "0000000000000020/1"))
    printed = APART + "".join(PIECES) + gone + ALL + "passes no: pieces, no cable\n"
    room.check(room.run("trees it cut.facts", 1) == printed, f"a cut: {room.out} and not {printed}")
    several(room)
    for text, why in (
        ("", "it: it is empty"),
        ("group c000 0000000000000010 1\n", "it: line 1 is not of what `record --multicast` writes: group c000"),
        ("groups\ngroup bfff 0000000000000010 1\n", "it: line 2 is not of what `record --multicast` writes"),
        ("groups\ngroup c000 0000000000000010\n", "it: line 2 is not of what"),
    ):
        room.put(it=text)
        room.refused("trees it tri.facts", why)
    room.run("trees it", 2)
    room.run("trees it tri.facts --group bfff", 2)
    room.run("trees it tri.facts --rows -1", 2)
    room.refused("trees nothing tri.facts", "nothing", 4)
    room.put(it=f"groups\n{groups(LINE)}")
    room.refused("links it", "it: this is a text of multicast tables: trees takes it; RECORDING is")


def several(room: Room) -> None:
    """Checks several groups, one of them alone, names, and how many lines are printed."""
    circle = LINE | {0x20: "1 2 3", 0x30: "1 2 3"}
    room.put(it=f"groups\n{groups(LINE)}{groups(circle, 0xC123)}")
    printed = room.run("trees it tri.facts", 1)
    room.check(printed.startswith(GOOD + GOOD.replace("c000", "c123") + "round c123 "), f"two groups: {printed}")
    room.check(room.run("trees it tri.facts --group c000", 0).startswith(GOOD), "the first alone")
    room.check("round c123" in room.run("trees it tri.facts --group c123", 1), "the second alone")
    none = "group c001: 0 adapter ports, 0 switches, 0 pieces\n"
    room.check(room.run("trees it tri.facts --group c001", 0).startswith(none), "one that is not there")
    room.put(it="groups\n")
    room.check(room.run("trees it tri.facts", 0) == "passes yes\n", "no group at all")
    room.put(it=f"groups\n{groups(LINE | {0x20: '3', 0x30: '3'})}", some_names='0x10 "middle"\n')
    printed = room.run("trees it tri.facts --names some.names --rows 1", 1)
    room.check(
        printed.count("piece ") == 1 and 'one way c000 0000000000000010/1 "middle" to' in printed
        and printed.count("one way c000") == 1 and printed.endswith("passes no: pieces, one way\n"),
        f"names, and one line of each kind: {printed}",
    )
