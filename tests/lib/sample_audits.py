"""Tables of two switches and of a ring of five, and how an audit of them ends. Worked out by hand from
docs/FORMATS.md."""
from __future__ import annotations

from collections.abc import Callable, Iterator

from built_program import Ended, prints, refused, says

# Adapters 100 at port 2 of switch 10 and 200 at port 2 of switch 20. A wire joins the switches' ports 1.
SWITCHES, ADAPTERS = (0x10, 0x20), (0x100, 0x200)
WIRES = "10/1-20/1 10/2-100/1 20/2-200/1"
LIDS = "1 10/0 2 20/0 3 100/1 4 200/1"
GOOD = "10 0 1 2 1", "20 1 0 1 2"

# A ring of five switches, with a wire from port 1 of each to port 2 of the next.
RING = tuple(range(0x10, 0x60, 0x10))
RING_WIRES = " ".join(f"{guid:x}/1-{RING[(i + 1) % 5]:x}/2" for i, guid in enumerate(RING))
RING_LIDS = " ".join(f"{i + 1} {guid:x}/0" for i, guid in enumerate(RING))


def ring(*entries: str) -> list[str]:
    """Returns the rows of tables of the ring's switches, each with its GUID."""
    return [f"{guid:x} {row}" for guid, row in zip(RING, entries)]


def named(word: str) -> str:
    """Returns an end port with all digits of its GUID."""
    guid, port = word.split("/")
    return f"{guid.rjust(16, '0')}/{port}"


def spelled(text: str) -> str:
    """Returns the lines of an audit with GUIDs and ports in full."""
    words = [[named(word) if "/" in word else word for word in line.split(" ")] for line in text.split("\n")]
    return "\n".join(" ".join(line) for line in words)


def sound(text: str) -> Ended:
    """Returns the end of an audit that passes, by its text without the last line."""
    return prints(f"{spelled(text)}passes yes\n")


def found(text: str, *flaws: str) -> Ended:
    """Returns the end of an audit that does not pass, by its text without the last line, and the words of that line."""
    return Ended(1, b"", f"{spelled(text)}passes no: {', '.join(flaws)}\n".encode())


def lost(at: str, *packets: str) -> str:
    """Returns the lines of packets that are lost at `at`."""
    return "".join(f"lost {packet} at {at}\n" for packet in packets)


# What becomes of packets that do not arrive, in the order of the line that counts them.
KINDS = "above-top", "no-entry", "no-port", "no-link", "foreign", "misdelivered", "round"


def counted(sent: int, between: int, **missed: int) -> str:
    """Returns the first lines of an audit: the number of packets, how many of them are between adapters, and for each
    kind in `missed` how many do not arrive. Of the packets that do not arrive, `apart` are between adapters."""
    apart = missed.pop("apart", 0)
    counts = [missed.pop(kind.replace("-", "_"), 0) for kind in KINDS]
    assert not missed, missed
    arrived = sent - sum(counts)
    lines = [
        f"pairs {sent} arrive {arrived}",
        f"between adapters pairs {between} arrive {between - apart}",
        f"with a switch pairs {sent - between} arrive {arrived - (between - apart)}",
        " ".join(["missed", *(f"{kind} {count}" for kind, count in zip(KINDS, counts))]),
    ]
    return "".join(f"{line}\n" for line in lines)


# The hops of packets between the adapters, and the loads of channels: 10/1 and 20/1 here, and the ten of the ring.
BOTH = "hops max 3 mean 3.00\nload max 1 mean 1.00\n"
ONE = "hops max 3 mean 3.00\nload max 1 mean 0.50\n"
NEITHER = "hops none\nload max 0 mean 0.00\n"
ALL_ARRIVE = sound(counted(16, 4) + BOTH + "credit loop none\n")
AT_10, AT_20, AT_100 = f"{0x10:016x}", f"{0x20:016x}", f"{0x100:016x}"

# An audit of the two switches and two adapters without tables.
NOTHING = (
    f"{counted(0, 0)}tableless {AT_10}\ntableless {AT_20}\nlidless 10/0\nlidless 20/0\nlidless 100/1\nlidless 200/1\n"
    f"{NEITHER}credit loop none\n"
)

# An audit of a single fact: the claim of the last port of the node with the greatest GUID.
CLAIM_ALONE = found(
    f"{counted(0, 0)}unusable {'f' * 16}\nunjoined {'f' * 16}/254\nhops none\nload none\ncredit loop none\n", "unusable"
)


def tables(plan: Callable[..., Ended]) -> Iterator[tuple[str, str, Ended]]:
    """Yields titles, texts of tables, and how their audits end."""
    good = plan(LIDS, *GOOD).printed.decode()
    yield "tables by which all arrive", good, ALL_ARRIVE
    yield "the same, spelled otherwise", otherwise(good), ALL_ARRIVE
    yield from tables_astray(plan)
    yield from tables_cut_short(good)
    yield from tables_with_other_lids(plan, good)
    yield "nothing", "", found(NOTHING, "tableless", "lidless")


def tables_astray(plan: Callable[..., Ended]) -> Iterator[tuple[str, str, Ended]]:
    """Yields titles, texts of tables in which an entry leads astray, and how their audits end."""
    yield (
        "an entry to a port without a wire",
        plan(LIDS, "10 0 1 2 3", GOOD[1]).printed.decode(),
        found(
            counted(16, 4, no_link=2, apart=1)
            + lost(f"{AT_10} by 3: no link", "10/0 4", "100/1 4")
            + ONE
            + "credit loop none\n",
            "pairs",
        ),
    )
    yield (
        "an entry to the last port, and to one that the switch lacks",
        plan(LIDS, "10 0 1 2 4", "20 5 0 1 2").printed.decode(),
        found(
            counted(16, 4, no_port=2, no_link=2, apart=1) + lost(f"{AT_20} by 5: no such port", "20/0 1", "200/1 1")
            + lost(f"{AT_10} by 4: no link", "10/0 4", "100/1 4") + ONE + "credit loop none\n", "pairs"
        ),
    )
    yield (
        "an entry to the wrong neighbor",
        plan(LIDS, "10 0 2 2 1", GOOD[1]).printed.decode(),
        found(
            counted(16, 4, foreign=2)
            + lost(f"{AT_100}: foreign port", "10/0 2", "100/1 2")
            + BOTH
            + "credit loop none\n",
            "pairs",
        ),
    )
    yield (
        "round between two switches",
        plan(LIDS, GOOD[0], "20 1 0 1 1").printed.decode(),
        found(
            counted(16, 4, round=3, apart=1)
            + "round 10/0 4\nround 20/0 4\nround 100/1 4\n"
            + ONE
            + "credit loop on one lane 10/1 20/1\n",
            "pairs",
            "credit loop",
        ),
    )


def tables_cut_short(good: str) -> Iterator[tuple[str, str, Ended]]:
    """Yields titles, texts of tables in which a switch lacks blocks or has too low a top, and how their audits end. By
    the tables in `good` all packets arrive."""
    lines = good.splitlines()
    # The greatest LID and the last block that a text may have.
    edges = [*lines, f"block 767 {'f' * 128}"]
    edges.insert(4, f"lid 49151 {0x200:016x}/1")
    yield "with the greatest LID", "\n".join(edges), found(
        counted(20, 6, above_top=3, apart=1) + lost(f"{AT_10} by 255: above top", "10/0 49151")
        + lost(f"{AT_20} by 255: above top", "20/0 49151")
        + lost(f"{AT_10} by 255: above top", "100/1 49151")
        + BOTH
        + "credit loop none\n",
        "pairs",
    )
    all_lost = (
        "20/0 1", "200/1 1", "10/0 2", "20/0 2", "100/1 2", "200/1 2", "20/0 3", "200/1 3", "10/0 4", "20/0 4",
        "100/1 4",
    )
    without = (
        counted(16, 4, no_entry=11, apart=2)
        + lost(f"{AT_20} by 255: no entry", *all_lost)
        + NEITHER
        + "credit loop none\n"
    )
    yield "a switch without its block", "\n".join(lines[:-1]) + "\n", found(without, "pairs")
    # A switch without tables has a top of 0.
    tableless = (
        counted(16, 4, above_top=11, apart=2) + lost(f"{AT_20} by 255: above top", *all_lost) + f"tableless {AT_20}\n"
    )
    yield "a switch without tables", "\n".join(lines[:-2]) + "\n", found(
        tableless + NEITHER + "credit loop none\n", "pairs", "tableless"
    )
    yield (
        "a top too low",
        good.replace(f"switch {AT_10} top 4", f"switch {AT_10} top 3"),
        found(
            counted(16, 4, above_top=2, apart=1)
            + lost(f"{AT_10} by 255: above top", "10/0 4", "100/1 4")
            + ONE
            + "credit loop none\n",
            "pairs",
        ),
    )


def tables_with_other_lids(plan: Callable[..., Ended], good: str) -> Iterator[tuple[str, str, Ended]]:
    """Yields titles, texts of tables, and how their audits end. Several end ports hold the same LID, or none holds it,
    or there are ports and switches that the facts lack. By the tables in `good` all packets arrive."""
    lines = good.splitlines()
    twice = good.replace("lid 4 ", "lid 3 ")
    misdelivered = "200/1 3 at 200/1", "10/0 3 at 100/1", "20/0 3 at 100/1", "100/1 3 at 100/1"
    yield (
        "a LID that two ports hold",
        twice,
        found(
            counted(16, 4, misdelivered=4, apart=2) + "".join(f"misdelivered {line}\n" for line in misdelivered)
            + "twice 3 100/1\ntwice 3 200/1\n" + NEITHER + "credit loop none\n",
            "pairs",
        ),
    )
    # A port and a switch unknown to the facts are reported, and change nothing.
    strange = "\n".join([*lines[:4], f"lid 5 {0x300:016x}/1", *lines[4:], f"switch {0x30:016x} top 4"]) + "\n"
    yield (
        "a port and a switch that the facts don't know",
        strange,
        sound(f"{counted(16, 4)}unowned 5 300/1\nunknown {0x30:016x}\n" + BOTH + "credit loop none\n"),
    )
    # No packet is for an end port that no line names.
    yield (
        "an end port without a LID",
        good.replace(f"lid 4 {0x200:016x}/1\n", ""),
        found(counted(12, 2) + "lidless 200/1\n" + ONE + "credit loop none\n", "lidless"),
    )
    # The two switches send each other packets for LID 5, which nobody holds.
    unheld = plan(f"{LIDS} 5 300/1", *(f"{row} 1" for row in GOOD)).printed.decode().replace(
        f"lid 5 {0x300:016x}/1\n", ""
    )
    yield (
        "a loop for a LID that nobody holds",
        unheld,
        found(counted(16, 4) + BOTH + "credit loop on one lane 10/1 20/1\n", "credit loop"),
    )
    yield (
        "the same, above the top of one switch",
        unheld.replace(f"switch {AT_20} top 5", f"switch {AT_20} top 4"),
        ALL_ARRIVE,
    )


def ranges(plan: Callable[..., Ended]) -> Iterator[tuple[str, str, Ended]]:
    """Yields titles, tables and ends of audits if each adapter's port has two LIDs: 100/1 has 4 and 5, 200/1 has 6 and
    7."""
    good = plan("1 10/0 2 20/0 4 100/1 6 200/1", *GOOD, lmc=1).printed.decode()
    all_four = "hops max 3 mean 3.00\nload max 2 mean 2.00\n"
    yield "tables for two LIDs a port", good, sound(counted(24, 8) + all_four + "credit loop none\n")
    yield "the same, told one by one", one_by_one(good), sound(counted(24, 8) + all_four + "credit loop none\n")
    table = good.index(f"switch {AT_10}")
    entry = good.index("block 0 ", table) + len("block 0 ") + 2 * 7
    yield (
        "the second LID of a port leads to no wire",
        good[:entry] + "03" + good[entry + 2 :],
        found(
            counted(24, 8, no_link=2, apart=1) + lost(f"{AT_10} by 3: no link", "10/0 7", "100/1 7")
            + "hops max 3 mean 3.00\nload max 2 mean 1.50\ncredit loop none\n",
            "pairs",
        ),
    )
    # Packets for 5 arrive at 100/1; 7 has no owner.
    in_common = found(
        counted(24, 8, misdelivered=4, apart=2)
        + "misdelivered 200/1 5 at 200/1\nmisdelivered 10/0 5 at 100/1\nmisdelivered 20/0 5 at 100/1\n"
        "misdelivered 100/1 5 at 100/1\ntwice 5 100/1\ntwice 5 200/1\nhops max 3 mean 3.00\nload max 1 mean 1.00\n"
        "credit loop none\n",
        "pairs",
    )
    shared = good.replace("lid 6 ", "lid 5 ")
    yield "ranges that have a LID in common", shared, in_common
    # A second line for a LID of a range counts once.
    again = f"lid 5 {0x100:016x}/1\n"
    yield (
        "a LID of a range that is told once more",
        told_again(good, again),
        sound(counted(24, 8) + all_four + "credit loop none\n"),
    )
    yield "ranges that have a LID in common, which is told once more", told_again(shared, again), in_common
    strange = f"lid 8 {0x300:016x}/1 lmc 1\nlid 9 {0x300:016x}/1\n"
    yield (
        "a LID of a port that the facts don't know, told once more",
        good.replace(f"switch {AT_10}", f"{strange}switch {AT_10}"),
        sound(f"{counted(24, 8)}unowned 8 300/1\nunowned 9 300/1\n{all_four}credit loop none\n"),
    )


def told_again(text: str, again: str) -> str:
    """Returns the text with the line `again` after that of 100/1."""
    line = f"lid 4 {0x100:016x}/1 lmc 1\n"
    assert line in text
    return text.replace(line, line + again)


def unclear() -> Iterator[tuple[str, Ended]]:
    """Yields titles and ends of audits by the good tables of facts with gaps: the table size of 20 is unknown, its type
    is disputed, nothing is known of 200, or too little of the wire between the switches, of 20, or of other nodes."""
    ports = "unjoined 20/1\nunjoined 20/2\nunjoined 200/1\n"
    # Only the packets of each port to itself, and those between 10 and 100, are counted.
    yield "no room", found(
        f"{counted(6, 2)}unknown {AT_20}\nunusable {AT_20}\nunjoined 10/1\n{ports}hops none\nload none\n"
        "credit loop none\n",
        "unusable",
    )
    yield "disputed type", found(
        f"{counted(5, 2)}unowned 2 20/0\nunknown {AT_20}\nunusable {AT_20}\nunjoined 10/1\nunjoined 20/0\n"
        f"{ports}disputed 1\nhops none\nload none\ncredit loop none\n",
        "unusable",
    )
    yield "silent adapter", sound(
        f"{counted(9, 1)}unowned 4 200/1\nunjoined 20/2\nhops none\nload max 0 mean 0.00\ncredit loop none\n"
    )
    # Without the wire, 10 and 100 are apart from 20 and 200.
    apart = f"{counted(8, 2)}unjoined 10/1\nunjoined 20/1\n"
    yield "wire without states", sound(f"{apart}hops none\nload none\ncredit loop none\n")
    yield "wire with a disputed state", sound(f"{apart}disputed 1\nhops none\nload none\ncredit loop none\n")
    # Nobody owns the LID of 20, and packets for the others pass through it.
    nameless = f"{counted(9, 4)}unowned 2 20/0\nunjoined 20/0\n"
    yield "switch without a GUID", sound(f"{nameless}{BOTH}credit loop none\n")
    yield "switch with a disputed GUID", sound(f"{nameless}disputed 1\n{BOTH}credit loop none\n")
    whole = counted(16, 4)
    yield "table of nobody", found(
        f"{whole}unusable {0x300:016x}\n{BOTH}credit loop none\n", "unusable"
    )
    strangers = "".join(f"unusable {guid:016x}\n" for guid in range(0x301, 0x306))
    yield "name for each node", found(
        f"{whole}{strangers}unjoined 301/1\nunjoined 303/1\nunjoined 304/1\nunjoined 305/2\n{BOTH}credit loop none\n",
        "unusable",
    )
    yield "cable that is down", sound(f"{whole}{BOTH}credit loop none\n")
    yield "disputed link", sound(f"{whole}unjoined 10/3\ndisputed 1\n{BOTH}credit loop none\n")


def otherwise(text: str) -> str:
    """Returns the text with CRLF, comments, empty lines, blanks, tabs, short GUIDs and upper case."""
    lines = []
    for line in text.splitlines():
        head, *rest = line.split()
        rest = [word.upper() if len(word) == 128 else word.lstrip("0") if len(word) > 15 else word for word in rest]
        lines += ["# " + head, "\t" + head + " \t " + "  ".join(rest) + "\t# as above", " "]
    return "\r\n".join(lines)


def one_by_one(text: str) -> str:
    """Returns the text with a line for each LID of a range."""
    lines = []
    for line in text.splitlines():
        words = line.split()
        if words[0] == "lid" and len(words) == 5:
            lines += [f"lid {number} {words[2]}" for number in range(int(words[1]), int(words[1]) + 2 ** int(words[4]))]
        else:
            lines.append(line)
    return "\n".join(lines) + "\n"


def rings(plan: Callable[..., Ended]) -> Iterator[tuple[str, str, Ended]]:
    """Yields titles, tables and ends of audits of the ring: by the shorter routes in both directions, and without the
    wire from the last to the first."""
    short = ring("0 1 1 2 2", "2 0 1 1 2", "2 2 0 1 1", "1 2 2 0 1", "1 1 2 2 0")
    cut = ring("0 1 1 1 1", "2 0 1 1 1", "2 2 0 1 1", "2 2 2 0 1", "2 2 2 2 0")
    yield (
        "the short way both ways",
        plan(RING_LIDS, *short).printed.decode(),
        found(counted(25, 0) + NEITHER + "credit loop on one lane 10/1 20/1 30/1 40/1 50/1\n", "credit loop"),
    )
    # Each sends only to its neighbors: no packet takes two channels in a row.
    beside = ring("0 1 - - 2", "2 0 1 - -", "- 2 0 1 -", "- - 2 0 1", "1 - - 2 0")
    far = (0x30, 1), (0x40, 1), (0x40, 2), (0x50, 2), (0x10, 3), (0x50, 3), (0x10, 4), (0x20, 4), (0x20, 5), (0x30, 5)
    missing = "".join(f"lost {guid:x}/0 {lid} at {guid:016x} by 255: no entry\n" for guid, lid in far)
    yield "one wire far", plan(RING_LIDS, *beside).printed.decode(), found(
        counted(25, 0, no_entry=10) + missing + NEITHER + "credit loop none\n", "pairs"
    )
    yield (
        "not across one wire",
        plan(RING_LIDS, *cut).printed.decode(),
        sound(counted(25, 0) + NEITHER + "credit loop none\n"),
    )
    # Of 25 packets of the same kind, 20 are listed.
    first = [f"{guid:x}/0 {lid}" for lid in range(1, 5) for guid in RING]
    nowhere = "".join(lost(f"{int(packet.split('/')[0], 16):016x} by 9: no such port", packet) for packet in first)
    yield "no port of any switch", plan(RING_LIDS, *ring(*["9 9 9 9 9"] * 5)).printed.decode(), found(
        counted(25, 0, no_port=25) + nowhere + "more lost 5\n" + NEITHER + "credit loop none\n", "pairs"
    )
    yield "round for ever", plan(RING_LIDS, *ring(*["1 1 1 1 1"] * 5)).printed.decode(), found(
        counted(25, 0, round=25) + "".join(f"round {packet}\n" for packet in first) + "more round 5\n"
        + NEITHER + "credit loop on one lane 10/1 20/1 30/1 40/1 50/1\n",
        "pairs",
        "credit loop",
    )
    yield "each to itself", plan(RING_LIDS, *ring(*["0 0 0 0 0"] * 5)).printed.decode(), found(
        counted(25, 0, misdelivered=20)
        + "".join(
            f"misdelivered {guid:x}/0 {lid} at {guid:x}/0\n"
            for lid, own in enumerate(RING, 1)
            for guid in RING
            if guid != own
        )
        + NEITHER + "credit loop none\n",
        "pairs",
    )


# The ring, and beside it two switches with a wire between their ports 1.
RING_AND_TWO = *RING, 0x60, 0x70
RING_AND_TWO_WIRES = f"{RING_WIRES} 60/1-70/1"


def ring_and_two(plan: Callable[..., Ended]) -> Iterator[tuple[str, str, Ended]]:
    """Yields tables by which all packets of both arrive. The two switches send each other packets for the ring, which
    makes a loop of two."""
    short = ring("0 1 1 2 2 - -", "2 0 1 1 2 - -", "2 2 0 1 1 - -", "1 2 2 0 1 - -", "1 1 2 2 0 - -")
    lids = f"{RING_LIDS} 6 60/0 7 70/0"
    whole = plan(lids, *short, "60 1 - - - - 0 1", "70 1 - - - - 1 0").printed.decode()
    yield "a ring beside a loop of two", whole, found(
        counted(29, 0) + NEITHER + "credit loop on one lane 60/1 70/1\n", "credit loop"
    )
    apart = plan(lids, *short, "60 - - - - - 0 1", "70 - - - - - 1 0").printed.decode()
    yield (
        "a ring beside two",
        apart,
        found(counted(29, 0) + NEITHER + "credit loop on one lane 10/1 20/1 30/1 40/1 50/1\n", "credit loop"),
    )


# Two adapters with a wire between them, and no switch.
PAIR_WIRES = "100/1-200/1"


def pairs() -> Iterator[tuple[str, str, Ended]]:
    """Yields the audit of two adapters without a switch."""
    lids = f"lid 3 {0x100:016x}/1\nlid 4 {0x200:016x}/1\n"
    yield (
        "two adapters and no switch",
        lids,
        sound(counted(4, 4) + "hops max 1 mean 1.00\nload none\ncredit loop none\n"),
    )


# Switches 10, 20 and 30 in a row, with the adapters 100 and 300 at 10 and 200 at 30: six pairs of adapters, of which
# two take two wires and four take four, and four channels of two packets each.
ROW = (0x10, 0x20, 0x30)
ROW_ADAPTERS = (0x100, 0x200, 0x300)
ROW_WIRES = "10/1-20/2 20/1-30/2 10/3-100/1 10/4-300/1 30/3-200/1"


def rows(plan: Callable[..., Ended]) -> Iterator[tuple[str, str, Ended]]:
    """Yields audits of three switches in a row with three adapters."""
    lids = "1 100/1 2 200/1 3 300/1 4 10/0 5 20/0 6 30/0"
    all_arrive = plan(lids, "10 3 1 4 0 1 1", "20 2 1 2 2 0 1", "30 2 3 2 2 2 0").printed.decode()
    yield (
        "three in a row",
        all_arrive,
        sound(counted(36, 9) + "hops max 4 mean 3.33\nload max 2 mean 2.00\ncredit loop none\n"),
    )
    # Packets for 200 are lost at 20 and count nowhere.
    cut = plan(lids, "10 3 1 4 0 1 1", "20 2 9 2 2 0 1", "30 2 3 2 2 2 0").printed.decode()
    there = lost(f"{AT_20} by 9: no such port", "10/0 2", "20/0 2", "100/1 2", "300/1 2")
    yield "three in a row, the middle one without a way to 200", cut, found(
        counted(36, 9, no_port=4, apart=2) + there + "hops max 4 mean 3.00\nload max 2 mean 1.00\ncredit loop none\n",
        "pairs",
    )


# A text of tables and what is wrong with it. `%` stands for the entries of a block.
FAULTS = (
    ("lid 1", "line 1: syntax"),
    ("LID 1 10/1", "line 1: syntax"),
    ("lid 1 10/1 x", "line 1: syntax"),
    ("lid 1 10", "line 1: syntax"),
    ("lid 1 /1", "line 1: syntax"),
    ("lid 1 10/", "line 1: syntax"),
    ("lid 1 10/1/1", "line 1: syntax"),
    ("lid -1 10/1", "line 1: syntax"),
    ("lid 1 0x10/1", "line 1: syntax"),
    ("lid 1 00000000000000001/1", "line 1: syntax"),
    ("lid 4 10/1 lmc", "line 1: syntax"),
    ("lid 4 10/1 LMC 1", "line 1: syntax"),
    ("lid 4 10/1 lmc 1 1", "line 1: syntax"),
    ("lid 4 10/1 lmc x", "line 1: syntax"),
    ("lid 0 10/0", "line 1: lid"),
    ("\nlid 49152 10/1", "line 2: lid"),
    (f"lid {'9' * 23} 10/255", "line 1: lid"),
    ("lid 1 10/255", "line 1: port"),
    ("lid 4 10/1 lmc 8", "line 1: lmc"),
    ("lid 0 10/1 lmc 8", "line 1: lid"),
    ("lid 49151 10/255 lmc 8", "line 1: port"),
    ("lid 49151 10/1 lmc 1", "line 1: lid"),
    ("lid 49025 10/1 lmc 7", "line 1: lid"),
    ("# tables\nlid 2 10/0\nlid 1 20/0", "line 3: lid"),
    ("lid 1 20/1\nlid 1 10/2", "line 2: port"),
    ("lid 1 10/1\r\nlid 1 10/1\nlid 0 10/1", "line 2: port"),
    ("lid 4 10/1 lmc 1\nlid 4 10/1 lmc 0", "line 2: port"),
    ("switch 10 top", "line 1: syntax"),
    ("switch 10 Top 1", "line 1: syntax"),
    ("switch g top 1", "line 1: syntax"),
    ("switch 10 top 49152", "line 1: lid"),
    ("switch 10 top 1\nswitch 10 top 1", "line 2: switch"),
    ("switch 20 top 1\nswitch 10 top 1", "line 2: switch"),
    ("block 0 %", "line 1: syntax"),
    ("switch 10 top 1\nblock 0 %f", "line 2: syntax"),
    ("switch 10 top 1\nblock 0 f", "line 2: syntax"),
    ("switch 10 top 1\nblock 768 %", "line 2: block"),
    ("switch 10 top 1\nblock 1 %\nblock 1 %", "line 3: block"),
    ("switch 10 top 1\nblock 1 %\nblock 0 %", "line 3: block"),
)


def faults() -> Iterator[tuple[str, Ended]]:
    """Yields texts that are not tables, and how their audits end."""
    for text, said in FAULTS:
        yield text.replace("%", "f" * 128), refused(f"TABLES: {said}")


def orders() -> list[tuple[str, Ended]]:
    """Returns command lines and which fault each reports first: all files are opened, then the tables are read and
    judged, then the other files in turn."""
    return [
        ("NONE KNOWN", says(4, "NONE: cannot open")),
        ("TABLES NONE", says(4, "NONE: cannot open")),
        ("FAULTY NONE", says(4, "NONE: cannot open")),
        (". KNOWN", says(4, ".: read failed")),
        (". EMPTY", says(4, ".: read failed")),
        ("FAULTY .", refused("FAULTY: line 1: syntax")),
        ("FAULTY EMPTY", refused("FAULTY: line 1: syntax")),
        ("TABLES .", says(4, ".: read failed")),
        ("TABLES EMPTY", refused("EMPTY: bad magic")),
        ("TABLES KNOWN EMPTY", refused("EMPTY: bad magic")),
        ("TABLES EMPTY .", refused("EMPTY: bad magic")),
    ]
