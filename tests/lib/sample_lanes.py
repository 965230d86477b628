"""Texts of lanes, what is wrong with some of them, and audits by lane. Worked out by hand from docs/FORMATS.md."""
from __future__ import annotations

from collections.abc import Callable, Iterator

import sample_audits as audits
from built_program import Ended, refused, says

# Lane 0 for each service level, and level 0 for each LID of a block.
LANES, LEVELS = "00" * 16, "00" * 64

# A text of lanes and what is wrong with it. `%` stands for the lanes, `$` for the levels.
FAULTS = (
    *((line, "line 1: syntax") for line in (
        "lane %", "LANES %", "lanes", "lanes 0", "lanes %0", "lanes %00", "lanes % %", "lanes $", f"lanes {'0g' * 16}",
        f"lanes {'0x' * 16}", "lanes=%", "sl2vl", "sl2vl 10 1 2", "sl2vl 10 1 %", "sl2vl 10 1 2 % 3",
        "sl2vl 10 1 2 $", "sl2vl 10/1 2 %", "sl2vl g 1 2 %", "sl2vl 0x10 1 2 %", "sl2vl 00000000000000001 1 2 %",
        "sl2vl 10 -1 2 %", "sl2vl 10 1 +2 %", "sl2vl 10 1 0x2 %", "sl2vl 10 255 1 x", "level", "level x", "level -1",
        "level 0 0", "level 0x0", "Level 0", "levels", "levels 10/1 0", "levels 10/1 $", "levels 10/1 0 %",
        "levels 10/1 0 $ 0", "levels 10 1 0 $", "levels 10 0 $", "levels 10/ 0 $", "levels /1 0 $",
        "levels 10/1/1 0 $", "levels 0x10/1 0 $", "levels 00000000000000001/1 0 $", "levels 10/1 -1 $",
        f"levels 10/1 0 {'fg' * 64}",
    )),
    ("\nsl2vl 10 255 1 %", "line 2: port"),
    ("sl2vl 10 1 255 %", "line 1: port"),
    (f"sl2vl 10 {'9' * 23} 1 %", "line 1: port"),
    ("sl2vl 10 256 256 %", "line 1: port"),
    (f"sl2vl 10 255 1 {'10' * 16}", "line 1: port"),
    ("levels 10/255 0 $", "line 1: port"),
    (f"levels 10/255 768 {'fe' * 64}", "line 1: port"),
    ("levels 10/1 768 $", "line 1: block"),
    (f"levels 10/1 {'9' * 23} $", "line 1: block"),
    (f"levels 10/1 768 {'fe' * 64}", "line 1: block"),
    (f"lanes 10{'00' * 15}", "line 1: lane"),
    (f"lanes {'0f' * 15}10", "line 1: lane"),
    (f"lanes {'ff' * 16}", "line 1: lane"),
    (f"sl2vl 10 1 2 {'00' * 15}10", "line 1: lane"),
    ("level 16", "line 1: level"),
    (f"level {'9' * 23}", "line 1: level"),
    (f"levels 10/1 0 10{'00' * 63}", "line 1: level"),
    (f"levels 10/1 0 {'ff' * 63}fe", "line 1: level"),
    ("lanes %\n# lanes\nlanes %", "line 3: repeated"),
    (f"lanes %\r\nlanes {'10' * 16}", "line 2: lane"),
    ("level 0\nlevel 0", "line 2: repeated"),
    ("level 1\nlevel 16", "line 2: level"),
    ("sl2vl 10 1 2 %\nsl2vl 10 1 2 %", "line 2: repeated"),
    ("sl2vl 10 1 2 %\nlanes %\nsl2vl 10 1 1 %", "line 3: repeated"),
    ("sl2vl 10 2 1 %\nsl2vl 10 1 2 %", "line 2: repeated"),
    ("sl2vl 10 1 2 %\nsl2vl f 3 3 %", "line 2: repeated"),
    (f"sl2vl 10 1 2 %\nsl2vl 10 1 2 {'10' * 16}", "line 2: lane"),
    ("levels 10/1 0 $\nlevels 10/1 0 $", "line 2: repeated"),
    ("levels 10/1 1 $\nlevel 0\nlevels 10/1 0 $", "line 3: repeated"),
    ("levels 10/2 0 $\nlevels 10/1 1 $", "line 2: repeated"),
    ("levels 10/1 0 $\nlevels f/2 1 $", "line 2: repeated"),
    (f"levels 10/1 0 $\nlevels 10/1 0 {'fe' * 64}", "line 2: level"),
    ("level 0\nlevel 0\nx", "line 2: repeated"),
)

# Texts of lanes that are accepted.
TAKEN = (
    "", "# lanes %", "\r\n \t \r\n", "lanes %", f"lanes {'0f' * 16}", f"lanes {'0F' * 16}", "level 0", "level 15",
    f"level {'0' * 30}15", "sl2vl 10 0 0 %", f"sl2vl {'F' * 16} 254 0254 {'0E' * 16}#", "levels 10/0 0 $",
    f"levels {'0' * 15}a/254 767 {'FF' * 32}{'0f' * 32}", "\tlanes  % # all\r\nlevel\t7",
    "sl2vl f 9 9 %\nsl2vl 10 0 0 %\nsl2vl 10 0 1 %\nsl2vl 10 1 0 %",
    "levels f/9 9 $\nlevels 10/0 0 $\nlevels 10/0 1 $\nlevels 10/1 0 $",
    "levels 20/1 0 $\nsl2vl 20 1 2 %\nlevel 3\nlevels 20/1 1 $\nlanes %\nsl2vl 20 1 3 %",
)


def spelled(text: str) -> bytes:
    """Returns a text of lanes with lanes for `%` and levels for `$`."""
    return text.replace("%", LANES).replace("$", LEVELS).encode()


def faults() -> Iterator[tuple[bytes, Ended]]:
    """Yields texts that are not texts of lanes, and how audits by them end."""
    for text, said in FAULTS:
        yield spelled(text), refused(f"LANES: {said}")


def orders() -> list[tuple[str, Ended]]:
    """Returns the words after `--lanes`, and which fault is reported first for each: all files are opened, then the
    lanes are read and judged, then the tables, and then the other files in turn."""
    return [
        ("NONE TABLES KNOWN", says(4, "NONE: cannot open")),
        ("NONE FAULTY NONE", says(4, "NONE: cannot open")),
        ("FAULTY TABLES NONE", says(4, "NONE: cannot open")),
        (". TABLES KNOWN", says(4, ".: read failed")),
        (". FAULTY EMPTY", says(4, ".: read failed")),
        ("FAULTY TABLES KNOWN", refused("FAULTY: line 1: syntax")),
        ("FAULTY . EMPTY", refused("FAULTY: line 1: syntax")),
        ("TABLES FAULTY .", refused("FAULTY: line 1: syntax")),
        ("TABLES . EMPTY", says(4, ".: read failed")),
        ("TABLES TABLES .", says(4, ".: read failed")),
        ("TABLES TABLES EMPTY", refused("EMPTY: bad magic")),
        ("TABLES TABLES KNOWN EMPTY", refused("EMPTY: bad magic")),
        ("FAULTY --all FAULTY EMPTY", refused("FAULTY: line 1: syntax")),
    ]


# A row: a title, a text of tables, a text of lanes, options, and how the audit ends.
Row = tuple[str, str, str, str, Ended]

# What is said of answers that use the level of what they answer, if they wait in no loop and none is dropped.
NO_ANSWERS = "answers credit loop none\n"
NO_LOOPS = "credit loop none\n" + NO_ANSWERS

# What an audit of the two switches, with tables by which all packets arrive, says before its lines by lane.
HEAD = audits.counted(16, 4) + audits.BOTH
ONE_LEVEL = "lanes %\nlevel 0\n"
# Their end ports, by their LIDs.
ENDS = "10/0", "20/0", "100/1", "200/1"


def bytes_in(numbers: dict[int, int], count: int, otherwise: int) -> str:
    """Returns the digits of `count` bytes: those of `numbers` by their indices, and `otherwise` for all others."""
    return "".join(f"{numbers.get(index, otherwise):02x}" for index in range(count))


def levels(numbers: dict[int, int], otherwise: int = 0xFF) -> str:
    """Returns the digits of the levels for LIDs 0 to 63: those of `numbers`, and `otherwise` for all others."""
    return bytes_in(numbers, 64, otherwise)


def pairs(plan: Callable[..., Ended]) -> Iterator[Row]:
    """Yields audits of two switches and two adapters: with a lane and a level for all packets, without levels, with a
    packet that is dropped for lack of a lane, and of packets for a LID that nobody holds."""
    good = plan(audits.LIDS, *audits.GOOD).printed.decode()
    yield "one lane", good, ONE_LEVEL, "", audits.sound(HEAD + NO_LOOPS)
    yield "a greatest load", good, ONE_LEVEL, "--max-load=1", audits.sound(HEAD + NO_LOOPS)
    yield "a lower one", good, ONE_LEVEL, "--max-load=0", audits.found(HEAD + NO_LOOPS, "load")
    # Only packets between different adapter ports need a level.
    lacking = ["200/1 3", "100/1 4"]
    for text in "", "lanes %\n":
        yield "no levels", good, text, "", audits.found(HEAD + without_level(*lacking) + NO_LOOPS, "no-level")
    one = "".join(f"levels {end} 0 $\n" for end in ENDS[:3]) + f"levels 200/1 0 {levels({1: 0, 2: 15, 4: 0})}\n"
    yield (
        "one packet without a level", good, f"lanes %\n{one}", "",
        audits.found(HEAD + without_level("200/1 3") + NO_LOOPS, "no-level"),
    )
    # Of what 100/1 sends by switch 10, only the packets for LID 2 have level 1.
    dropping = f"lanes %\nsl2vl 10 2 1 {bytes_in({1: 15}, 16, 0)}\nlevel 0\nlevels 100/1 0 {levels({2: 1})}\n"
    dropped = f"dropped 2 at {audits.AT_10} 2 1 level 1\n"
    yield "a lane that lacks", good, dropping, "", audits.found(
        f"{HEAD}{dropped}credit loop none\nanswers {dropped}{NO_ANSWERS}", "dropped"
    )
    yield (
        "a lane that lacks, where no packet has the level", good, dropping.replace(levels({2: 1}), levels({2: 2})), "",
        audits.sound(HEAD + NO_LOOPS),
    )
    # Switch 20 asks 100/1 at level 1, and would get its answer at the same level by switch 10.
    asking = dropping.replace("levels 100/1", "levels 20/0").replace(levels({2: 1}), levels({3: 1}))
    yield "a lane that lacks for answers alone", good, asking, "", audits.sound(
        f"{HEAD}credit loop none\nanswers {dropped}{NO_ANSWERS}"
    )
    unheld = plan(f"{audits.LIDS} 5 300/1", *(f"{row} 1" for row in audits.GOOD)).printed.decode().replace(
        f"lid 5 {0x300:016x}/1\n", ""
    )
    yield "a loop for a LID that nobody holds", unheld, ONE_LEVEL, "", audits.found(
        waiting(HEAD, "10/1 vl 0 20/1 vl 0"), "credit loop"
    )
    yield "the same on another lane", unheld, f"lanes {'0e' * 16}\nlevel 15\n", "", audits.found(
        waiting(HEAD, "10/1 vl 14 20/1 vl 14"), "credit loop"
    )
    yield "that loop cut by a lane that lacks", unheld, f"{ONE_LEVEL}sl2vl 20 1 1 {'0f' * 16}\n", "", audits.found(
        f"{HEAD}dropped 5 at {audits.AT_20} 1 1 level 0\ncredit loop none\n"
        f"answers dropped 5 at {audits.AT_20} 1 1 level 0\n{NO_ANSWERS}",
        "dropped",
    )


def astray(plan: Callable[..., Ended]) -> tuple[str, str]:
    """Returns tables and lanes of the two switches, of switch 30 at port 4 of switch 10, and of adapter 300 at switch
    30. Switch 30 has no tables, adapter 300 no LID, and packets no level but those from 10/0 and 100/1. One of 100/1 is
    dropped, and those of 10/0 for LID 5, which nobody holds, go round."""
    tables = plan(f"{audits.LIDS} 5 500/1", *(f"{row} 1" for row in audits.GOOD)).printed.decode()
    levels_of = f"levels 10/0 0 $\nlevels 100/1 0 {levels({2: 1})}\n"
    return (
        tables.replace(f"lid 5 {0x500:016x}/1\n", ""),
        f"lanes %\nsl2vl 10 2 1 {bytes_in({1: 15}, 16, 0)}\n{levels_of}",
    )


def waiting(head: str, channels: str) -> str:
    """Returns the text of an audit whose packets wait in a loop of channels, and so with their answers."""
    return f"{head}credit loop by lane {channels}\nanswers credit loop by lane {channels}\n"


def without_level(*packets: str) -> str:
    """Returns the lines of packets without a level."""
    return "".join(f"no-level {packet}\n" for packet in packets)


def rings(plan: Callable[..., Ended]) -> Iterator[Row]:
    """Yields audits of the ring of five, where all packets go the short way and wait on one lane in a loop each way
    round. Packets that come to switch 10 and go on take another lane, or those of one switch have another level."""
    short = audits.ring("0 1 1 2 2", "2 0 1 1 2", "2 2 0 1 1", "1 2 2 0 1", "1 1 2 2 0")
    tables = plan(audits.RING_LIDS, *short).printed.decode()
    head = audits.counted(25, 0) + audits.NEITHER
    none = audits.sound(head + NO_LOOPS)
    round_once = " ".join(f"{guid:x}/1 vl 0" for guid in audits.RING)
    loop = audits.found(waiting(head, round_once), "credit loop")
    back, forth = f"sl2vl 10 1 2 {'01' * 16}\n", f"sl2vl 10 2 1 {'01' * 16}\n"
    yield "one way round cut", tables, ONE_LEVEL + back, "", loop
    yield "both ways round cut", tables, ONE_LEVEL + back + forth, "", none
    # What 40 sends for LIDs 1 and 2 is a part of the loop, once each way round.
    two = f"lanes {bytes_in({1: 1}, 16, 0)}\nlevel 0\n"
    # Answers to 10 and 20, which ask at level 0, close the loop again.
    answers = audits.sound(f"{head}credit loop none\nanswers credit loop by lane {round_once}\n")
    yield "another level both ways", tables, f"{two}levels 40/0 0 {levels({1: 1, 2: 1})}\n", "", answers
    yield "another level one way", tables, f"{two}{back}levels 40/0 0 {levels({1: 1})}\n", "", answers


def rings_and_two(plan: Callable[..., Ended]) -> Iterator[Row]:
    """Yields an audit of the ring and two switches beside it, without levels: packets of switches need none."""
    short = audits.ring("0 1 1 2 2 - -", "2 0 1 1 2 - -", "2 2 0 1 1 - -", "1 2 2 0 1 - -", "1 1 2 2 0 - -")
    lids = f"{audits.RING_LIDS} 6 60/0 7 70/0"
    tables = plan(lids, *short, "60 - - - - - 0 1", "70 - - - - - 1 0").printed.decode()
    head = audits.counted(29, 0) + audits.NEITHER
    yield "packets of switches without a level", tables, "lanes %\n", "", audits.sound(head + NO_LOOPS)


# Two switches with three adapters each.
SIX = (0x10, 0x20), tuple(range(0x100, 0x700, 0x100))
SIX_WIRES = "10/1-20/1 " + " ".join(
    f"{SIX[0][index // 3]:x}/{2 + index % 3}-{guid:x}/1" for index, guid in enumerate(SIX[1])
)


def sixes(plan: Callable[..., Ended]) -> Iterator[Row]:
    """Yields audits of two switches with three adapters each, without levels: 30 packets need one."""
    lids = "1 10/0 2 20/0 " + " ".join(f"{lid} {guid:x}/1" for lid, guid in enumerate(SIX[1], 3))
    tables = plan(lids, "10 0 1 2 3 4 1 1 1", "20 1 0 1 1 1 2 3 4").printed.decode()
    lacking = [f"{guid:x}/1 {lid}" for lid, own in enumerate(SIX[1], 3) for guid in SIX[1] if guid != own]
    # Of 30 packets between different adapters 12 take two wires, and 18 three: nine each way between the switches.
    head = audits.counted(64, 36) + "hops max 3 mean 2.60\nload max 9 mean 9.00\n"
    yield "30 packets without a level", tables, "lanes %\n", "", audits.found(
        head + without_level(*lacking[:20]) + "more no-level 10\n" + NO_LOOPS, "no-level"
    )
    yield "all packets without a level", tables, "lanes %\n", "--all", audits.found(
        head + without_level(*lacking) + NO_LOOPS, "no-level"
    )
