"""What `tests/test-files` checks of lanes in from-dumps. tests/dumps/ has what OpenSM with its engine dfsssp dumped of
the triangle, and what saquery printed of each pair."""
from __future__ import annotations

import re

import dump_checks
from lane_rule import DROPS, LEVELS, Lanes
from tool_room import Room

IDENTITY = "".join(f"{level % 8:02x}" for level in range(LEVELS))
TRIANGLE, LIDS = dump_checks.FABRICS["triangle"], dump_checks.LIDS["triangle"]
ENDS = {lid: (TRIANGLE.guid(name), port) for (name, port), lid in LIDS.items()}
DOTS = "." * 20
LINKS = "triangle.lst --cap 1024 --lanes lanes"


def pairs_of(text: str) -> dict[tuple[int, int], int]:
    """Returns the level of each pair of LIDs that saquery printed."""
    found = {}
    for record in text.split("PathRecord dump:\n")[1:]:
        fields = dict(re.findall(r"\s+(\w+)\.+(\S+)\n", record))
        found[int(fields["slid"]), int(fields["dlid"])] = int(fields["sl"], 0)
    return found


def told(room: Room, words: str, status: int = 0) -> Lanes:
    """Returns the lanes that from-dumps writes."""
    room.run(f"from-dumps {words}", status)
    lanes = Lanes(room.text("lanes"))
    room.check(lanes.fault is None, f"from-dumps {words}: lanes without a fault")
    return lanes


def lanes_of_dumps(room: Room) -> None:
    """Checks what from-dumps makes of each form of dump of lanes and levels, and of what they lack."""
    levels = pairs_of(room.text("triangle.saquery"))
    room.check(len(levels) == 20, "the levels of 20 pairs")
    lanes = told(room, f"triangle.sl2vl triangle.saquery {LINKS}")
    text = room.text("lanes")
    room.check(text.startswith(f"lanes {IDENTITY}\nlevel ") and "sl2vl" not in text, "one map and one level for most")
    found = {(slid, dlid): lanes.level_of(ENDS[slid], dlid) for slid, dlid in levels}
    room.check(found == levels and lanes.level is not None, "the level of each pair")
    other_forms(room, levels, text)
    other_maps(room)
    gaps(room, levels)
    faults(room)


def other_forms(room: Room, levels: dict[tuple[int, int], int], text: str) -> None:
    """Checks the texts that ibdmchk reads, and OpenSM's dump of path records."""
    rows = "".join(f"0x{ENDS[slid][0]:016x} {dlid} {level}\n" for (slid, dlid), level in levels.items())
    maps = "".join(
        f"0x{guid:016x} {into} {out} 0x01 0x23 0x45 0x67 0x01 0x23 0x45 0x67\n"
        for guid in (0x10, 0x20, 0x30) for into in range(5) for out in range(1, 5)
    )
    paths = ""
    for slid, (guid, port) in ENDS.items():
        kind = "Channel Adapter" if port else "Switch"
        paths += f'{kind} 0x{guid + port:016x}, base LID {slid}, "a : name"\n# LID : SL : MTU : RATE\n'
        paths += "".join(f"0x{dlid:04x} : {level} : 4 : 3\n" for (near, dlid), level in levels.items() if near == slid)
    room.put(psl=rows, slvl=maps, paths=paths, heads=re.sub(r" : 4 : 3\n", "\n", paths))
    for words in ("psl slvl", "psl triangle.sl2vl", "paths triangle.sl2vl", "slvl heads", "psl paths slvl"):
        told(room, f"{words} {LINKS}")
        room.check(room.text("lanes") == text, f"{words}: the same lanes")


def other_maps(room: Room) -> None:
    """Checks a map that only one pair of ports has, and switches whose port 0 has no GUID in the dump."""
    changed = room.text("triangle.sl2vl").replace("3   2   : 0  1 ", "3   2   : 15 14", 1)
    room.put(some_sl2vl=changed)
    lanes = told(room, f"some.sl2vl triangle.saquery {LINKS}")
    switch = int(re.search(r"^Switch 0x(\w+),", changed, re.M)[1], 16)
    room.check(lanes.maps == {(switch, 3, 2): bytes([15, 14, *range(2, 8), *range(8)])}, "the map of one pair of ports")
    lines = [line for line in room.text("triangle.ibnetdiscover").splitlines() if line]
    room.put(bare_ibnd="\n".join(re.sub(r"^(switchguid=0x\w+)\(\w+\)", r"\1", line) for line in lines) + "\n")
    text = room.text("lanes").replace(re.search("sl2vl .*\n", room.text("lanes"))[0], "")
    for words in ("slvl psl", "triangle.sl2vl paths"):
        told(room, f"bare.ibnd {words} {LINKS.replace('triangle.lst', '')}", 1)
        room.check(room.text("lanes") == text, f"{words}: switches go by their own GUIDs")


def gaps(room: Room, levels: dict[tuple[int, int], int]) -> None:
    """Checks that what no dump has is reported, and is not made up."""
    lanes = told(room, f"triangle.saquery {LINKS}", 1)
    room.check("by the text all packets are dropped" in room.said and lanes.usual is None, "no maps")
    lanes = told(room, f"triangle.sl2vl {LINKS}", 1)
    room.check("by the text no packet has one" in room.said and not lanes.levels and lanes.level is None, "no levels")
    lanes = told(room, f"triangle.sl2vl {LINKS} --level 5")
    room.check("20 pairs of a port and a LID have no level in a dump" in room.said and lanes.level == 5, "level 5")
    text = room.text("triangle.saquery")
    room.put(fewer_saquery=text[text.index("PathRecord", 1) :])
    (slid, dlid), level = next(iter(levels.items()))
    lanes = told(room, f"triangle.sl2vl fewer.saquery {LINKS}", 1)
    room.check("1 pairs of a port and a LID have no level" in room.said, "a pair that lacks a level is told")
    found = {(near, far): lanes.level_of(ENDS[near], far) for near, far in levels}
    room.check(found == levels | {(slid, dlid): None}, "it has none, and the others have theirs")
    lanes = told(room, f"triangle.sl2vl fewer.saquery {LINKS} --level {(level + 1) % 8}")
    found = {(near, far): lanes.level_of(ENDS[near], far) for near, far in levels}
    room.check(found == levels | {(slid, dlid): (level + 1) % 8}, "or the level that is given")
    lanes = told(room, f"triangle.sl2vl triangle.saquery {LINKS} --adapters")
    found = {(near, far): lanes.level_of(ENDS[near], far) for near, far in levels}
    between = {pair: level if ENDS[pair[0]][1] and ENDS[pair[1]][1] else None for pair, level in levels.items()}
    room.check(found == between and lanes.level is None, "with --adapters the levels between adapters alone")
    row = re.search(r"^1   2 .*\n", room.text("triangle.sl2vl"), re.M)[0]
    room.put(fewer_sl2vl=room.text("triangle.sl2vl").replace(row, "", 1))
    lanes = told(room, f"fewer.sl2vl triangle.saquery {LINKS}", 1)
    room.check("1 pairs of ports have no SL-to-VL map in a dump, first ports 1 and 2 of" in room.said, "a row lacks")
    room.check(list(lanes.maps.values()) == [bytes([DROPS]) * LEVELS], "packets are dropped there")


def faults(room: Room) -> None:
    """Checks that nothing is written if lines of lanes are not understood or contradict each other."""
    for source, old, new, why in (
        ("triangle.sl2vl", "0   1   : 0 ", "0   1   : 16", "line 16 has lane 16"),
        ("triangle.sl2vl", "0   1   : ", "0   1   ; ", "line 16 is no line of a dump of lanes: 0   1   ; "),
        ("triangle.sl2vl", "1   2   :", "5   2   :", "has port 5, which the switch lacks"),
        ("triangle.sl2vl", "2   1   : 0 ", "1   1   : 1 ", "has another map than bad, line 17: are these dumps"),
        ("triangle.sl2vl", f"Switch 0x{0x10:016x}", f"Switch 0x{0x19:016x}", f"names port GUID {0x19:016x}, which no"),
        ("triangle.saquery", f"slid{DOTS}1\n", f"slid{DOTS}9\n", "names LID 9, which no dump of"),
        ("triangle.saquery", f"dlid{DOTS}2\n", f"dlid{DOTS}0\n", "has LID 0"),
        ("triangle.saquery", "sl......................0x", "sl......................0x1", "has level 2"),
        ("triangle.saquery", "\t\tsl....", "\t\tls....", "ends a path record without its LIDs and its level"),
        ("triangle.saquery", f"dlid{DOTS}3\n", f"dlid{DOTS}2\n", "has another level than bad"),
        ("psl", " 2 ", " 49152 ", "line 1 has LID 49152"),
        ("psl", f"{0x100:016x}", f"{0x101:016x}", "line 1 names node GUID 0000000000000101, which no dump of nodes"),
        ("slvl", "0x0000000000000010 0 1", "0x0000000000000100 0 1", "names 0000000000000100, which is no switch"),
        ("slvl", " 0x01", " 0x1", "this is none of the files and texts"),
        ("paths", "0x0002 : ", "0x0002 ; ", "line 3 is no line of a dump of lanes"),
    ):
        text = room.text(source)
        room.check(old in text, f"{source} has `{old}`")
        room.put(bad=text.replace(old, new, 1), lanes="before")
        room.refused(f"from-dumps bad {LINKS}", why)
        room.check(room.out == "" and room.text("lanes") == "before", f"nothing is written: {why}")
    room.put(other_psl=re.sub(r"(\d)\n", lambda it: f"{(int(it[1]) + 1) % 8}\n", room.text("psl"), count=1))
    room.refused(f"from-dumps psl other.psl {LINKS}", "other.psl: line 1 has another level than psl, line 1")
    room.refused(f"from-dumps other.psl triangle.saquery {LINKS}", "contradicts other.psl, line 1")
    room.refused(f"from-dumps {LINKS}", "--lanes: no dump is one of lanes or levels")
    for words in ("", "--level 1", "--adapters", "--lanes lanes --level 16", "--lanes lanes --tables lanes"):
        room.run(f"from-dumps triangle.lst psl {words}", 2)
    room.run("from-dumps triangle.lst psl --lanes ./psl", 2)
