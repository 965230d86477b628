"""Lanes of a ring of four, worked out by hand, and of small random fabrics."""
from __future__ import annotations

import random
from collections.abc import Callable, Iterable, Iterator
from typing import NamedTuple

import paths  # noqa: F401
import sample_fabrics as make
from ibsm_texts import ENTRIES, End, name_of
from lane_rule import DROPS, LEVELS, NO_LEVEL
from next_rule import Tables

# Four maps: each level has its own lane; all have lane 0; level 1 has lane 1, and all others lane 0; all packets are
# dropped.
IDENTITY, PLAIN = bytes(range(LEVELS)), bytes(LEVELS)
ONE_APART, NONE = bytes([0, 1, *bytes(LEVELS - 2)]), bytes([DROPS]) * LEVELS
Maps = dict[tuple[int, int, int], bytes]
LevelOf = Callable[[End, int], int]


class Case(NamedTuple):
    """A fabric's facts, tables and lanes as texts."""

    facts: str
    tables: str
    lanes: str


class Row(NamedTuple):
    """A case, and what an audit finds, with answers or not: the length of a shortest loop, how many pairs have no
    level, and whether packets are dropped."""

    title: str
    case: Case
    with_answers: bool
    loop: int = 0
    without: int = 0
    drops: bool = False


def level_lines(ends: Iterable[End], top: int, level_of: LevelOf) -> Iterator[str]:
    """Yields the lines that give a level to packets from each end to each LID up to `top`."""
    for end in sorted(ends):
        for block in range(top // ENTRIES + 1):
            lids = range(ENTRIES * block, ENTRIES * (block + 1))
            row = bytes(level_of(end, lid) if 0 < lid <= top else NO_LEVEL for lid in lids)
            if row.count(NO_LEVEL) < ENTRIES:
                yield f"levels {name_of(end)} {block} {row.hex()}"


def text_of(usual: bytes | None, maps: Maps, level: int | None, levels: Iterable[str] = ()) -> str:
    """Returns a text on lanes."""
    lines = [f"lanes {usual.hex()}"] if usual is not None else []
    lines += [f"sl2vl {guid:016x} {into} {out} {row.hex()}" for (guid, into, out), row in sorted(maps.items())]
    lines += [f"level {level}"] if level is not None else []
    return "".join(f"{line}\n" for line in [*lines, *levels])


def clockwise(fabric: make.Fabric, count: int) -> make.Tables:
    """Returns tables of a ring by which each packet goes the same way round. The LIDs of each switch and of its adapter
    are `count` apart."""
    tables = {}
    for i in range(1, count + 1):
        ways = [2 if i == 1 else 3] * (2 * count)
        ways[i - 1], ways[count + i - 1] = 0, 1
        tables[f"S{i}"] = [255, *ways, *[255] * (ENTRIES - 1 - 2 * count)]
    return tables


def rows() -> Iterator[Row]:
    """Yields cases of a ring of four. Each packet goes round by port 2 of S1 and port 3 of the others, and comes in by
    port 3 at S1 and by port 2 at the others. An adapter is at port 1."""
    fabric = make.ring(4)
    facts, tables = fabric.facts(), fabric.plan(clockwise(fabric, 4))
    ends = [(fabric.guid(name), port) for name, port in fabric.ends()]
    place = {end: number % 4 for number, end in enumerate(ends)}

    def row(title: str, lanes: str, answers: bool = False, **found: int) -> Row:
        return Row(title, Case(facts, tables, lanes), answers, **found)

    def passes_s4(end: End, lid: int) -> bool:
        """Returns whether packets from an end to a LID go from S4 to S1."""
        return (lid - 1) % 4 < place[end]

    levels = [*level_lines(ends, 8, lambda end, lid: int(passes_s4(end, lid)))]
    yield row("one lane and one level", text_of(PLAIN, {}, 3), loop=4)
    yield row("the same with answers", text_of(PLAIN, {}, 3), True, loop=4)
    yield row("a lane for each level", text_of(IDENTITY, {}, None, levels), loop=4)
    # Packets that come from S4 go on in lane 1: one can only go from S4 by S1 and S2 to S3.
    one, two = fabric.guid("S1"), fabric.guid("S2")
    behind = {(one, into, 2): ONE_APART for into in (0, 1, 3)} | {(two, 2, 3): ONE_APART}
    yield row("another lane behind S4", text_of(PLAIN, behind, None, levels))
    yield row("the same with level 0 as it is usual", text_of(PLAIN, behind, 0, levels))
    # Then packets to S4 also go on from S1 and S2 in lane 1, and from S3 in lane 0.
    yield row("the same with answers", text_of(PLAIN, behind, None, levels), True, loop=4)
    fewer = {key: lanes for key, lanes in behind.items() if key[0] == one}
    yield row("back to lane 0 at S2", text_of(PLAIN, fewer, None, levels), loop=4)
    # Packets from S3 end at S2, and those from S2 at S1. So no packet waits at S1 for what S1 itself sends.
    dropped = {(one, 3, 2): NONE}
    yield row("packets are dropped at S1", text_of(PLAIN, dropped, 0), drops=True)
    yield row("no lane at all", text_of(None, {}, 0), drops=True)
    yield row("no level at all", text_of(PLAIN, {}, None), without=12)
    yield row("an empty text", "", without=12)
    some = [line for line in levels if line.startswith(f"levels {fabric.guid('S4'):016x}/0 ")]
    yield row("the levels of one sender", text_of(PLAIN, {}, None, some), without=12)
    # The seven others answer S4, and none of these packets goes on from S3 to S4 and further.
    yield row("the levels of one sender, with answers", text_of(PLAIN, {}, None, some), True, without=12)


def a_fabric(chance: random.Random) -> make.Fabric:
    """Returns a fabric that is mostly a ring of some switches with wires across. Adapters are at some of them, or wired
    to each other."""
    fabric = make.Fabric()
    switches = fabric.switches(chance.choice((1, 2, 3, 4, 4, 5, 5, 6, 6)), 16)
    for one, other in zip(switches, switches[1:] + switches[:1]):
        if chance.random() < 0.95:
            fabric.join(one, other)
    for _ in range(chance.choice((0, 0, 1, 2, 3))):
        fabric.join(chance.choice(switches), chance.choice(switches))
    for number in range(1, chance.randint(1, 5)):
        adapter = fabric.add(make.ADAPTER, f"H{number}", 0x100000 + 16 * number, 2)
        for _ in range(chance.choice((1, 1, 2))):
            fabric.join(adapter, chance.choice(switches))
    if chance.random() < 0.1:
        fabric.join(fabric.add(make.ADAPTER, "H8", 0x200000, 1), fabric.add(make.ADAPTER, "H9", 0x200010, 1))
    return fabric


def some_facts(chance: random.Random, fabric: make.Fabric) -> str:
    """Returns the facts of a fabric. Sometimes some of them are missing, or some ports are down."""
    share = chance.choice((0, 0, 0, 0.05))
    lines = []
    for line in fabric.facts().splitlines(True):
        if chance.random() < share:
            line = line.replace(" up @", " down @") if line.startswith("port ") else ""
        lines.append(line)
    return "".join(lines)


def some_tables(chance: random.Random, fabric: make.Fabric) -> Tables:
    """Returns tables of shortest routes or of routes round a ring, mostly with some other entries, LIDs or tops."""
    tables = Tables(fabric.plan(fabric.some_shortest(chance)))
    names = [name for name in fabric.nodes if fabric.is_switch(name)]
    kind, share = chance.randrange(8), chance.choice((0, 0, 0, 0, 0.05, 0.5))
    for place, name in enumerate(names):
        guid, exits = fabric.guid(name), fabric.exits(name)
        # Round the ring, whichever way is shorter: to the next switch, or to the one before.
        beside = names[(place + (1 if kind < 3 else -1)) % len(names)] if kind < 4 else ""
        turn, blocks = [port for port, far in exits if far == beside], tables.blocks[guid]
        for number, entries in blocks.items():
            row = bytearray(entries)
            for at in range(1, len(fabric.ends()) + 3):
                if turn and row[at] in dict(exits):
                    row[at] = turn[0]
                if chance.random() < share:
                    row[at] = chance.choice([*dict(exits), 0, 1, 9, 255])
            blocks[number] = bytes(row)
        if chance.random() < 0.3:
            tables.tops[guid] += chance.choice((-1, 1, 2))
    if kind == 6 and len(tables.ranges) > 1:
        # Two ends exchange LIDs, or one has the other's, or several.
        one, other = chance.sample(range(len(tables.ranges)), 2)
        (first, end, _), (second, far, _) = tables.ranges[one], tables.ranges[other]
        tables.ranges[one] = first, chance.choice((end, far)), chance.choice((0, 1))
        tables.ranges[other] = second, end, 0
    if kind == 7 and tables.ranges:
        tables.ranges.pop(chance.randrange(len(tables.ranges)))
    return tables


def some_maps(chance: random.Random, fabric: make.Fabric, many: int) -> tuple[bytes | None, Maps]:
    """Returns a usual map, and those of some pairs of ports, with lanes below `many` and sometimes lane 15."""

    def a_map() -> bytes:
        if chance.random() < 0.3:
            return bytes(level % many for level in range(LEVELS))
        drops = chance.choice((0, 0, 0, 0.1))
        return bytes(DROPS if chance.random() < drops else chance.randrange(many) for _ in range(LEVELS))

    usual = None if chance.random() < 0.05 else a_map()
    few, share, maps = [a_map() for _ in range(2)], chance.choice((0, 0.1, 0.5, 1)), {}
    for name in fabric.nodes:
        ports = range(fabric.ports(name) + 1) if fabric.is_switch(name) else ()
        for into in ports:
            for out in ports:
                if chance.random() < share:
                    maps[fabric.guid(name), into, out] = chance.choice(few)
    return usual, maps


def some_levels(chance: random.Random, fabric: make.Fabric, many: int) -> tuple[int | None, list[str]]:
    """Returns the usual level, and lines that give levels below `many`: by pair, by sender, by LID, or none."""
    ends = [(fabric.guid(name), port) for name, port in fabric.ends()]
    kind, lacks = chance.randrange(5), chance.choice((0, 0, 0.02, 0.3))
    salt = chance.random()

    def level_of(end: End, lid: int) -> int:
        if chance.random() < lacks:
            return NO_LEVEL
        about = {0: (end, lid), 1: end, 2: lid}.get(kind, (tuple(sorted((ends.index(end) + 1, lid)))))
        return random.Random(f"{salt} {about}").randrange(many)

    lines = [] if kind == 4 else [*level_lines(ends, len(ends) + chance.choice((0, 2)), level_of)]
    return chance.choice((None, chance.randrange(many), chance.randrange(many))), lines


def a_case(seed: str) -> Case:
    """Returns a random case, made from a seed."""
    chance = random.Random(seed)
    fabric = a_fabric(chance)
    lanes, levels = chance.choice((1, 2, 2, 3, 8)), chance.choice((1, 2, 2, 4, 16))
    usual, maps = some_maps(chance, fabric, lanes)
    level, lines = some_levels(chance, fabric, levels)
    return Case(some_facts(chance, fabric), some_tables(chance, fabric).text(), text_of(usual, maps, level, lines))
