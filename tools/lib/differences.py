"""The differences between two plans, or between a plan and what a fabric holds: LIDs, tops and entries. Also those
between two texts of facts."""
from __future__ import annotations

from collections.abc import Callable, Iterator
from typing import Any

from ibsm_texts import ENTRIES, NONE, End, Facts, Plan, name_of


def names_differ(plan: Plan, held: Plan, called: tuple[str, str] = ("plan", "fabric")) -> Iterator[str]:
    """Yields a line for each LID or top that differs, and for each LID that a second port has in `held`. `called` has
    the names of the two texts."""
    first, second = called
    for lid in sorted(set(plan.owners) | set(held.owners)):
        one, other = (text.owners.get(lid) for text in (plan, held))
        if one != other:
            one, other = (name_of(end) if end else "nobody" for end in (one, other))
            yield f"LID {lid}: {first} {one}, {second} {other}"
    for lid, end in held.shared:
        yield f"LID {lid}: in the {second} {name_of(end)} has it too"
    for guid in sorted(set(plan.tops) & set(held.tops)):
        if plan.tops[guid] != held.tops[guid]:
            yield f"switch {guid:016x}: {first} top {plan.tops[guid]}, {second} {held.tops[guid]}"


def apart(one: bytes | bytearray, other: bytes | bytearray) -> bytes:
    """Returns a byte for each entry of the longer of two rows: 0 if the two entries are equal. A row that has ended
    counts as 255."""
    length = max(len(one), len(other))
    one, other = (int.from_bytes(row.ljust(length, NONE), "big") for row in (one, other))
    return (one ^ other).to_bytes(length, "big")


def blocks_to_write(old: bytes, new: bytes) -> int:
    """Returns how many blocks of a new table differ from those of the old one."""
    if old == new:
        return 0
    return sum(new[i : i + ENTRIES] != old[i : i + ENTRIES] for i in range(0, len(new), ENTRIES))


def nodes_apart(old: Facts, new: Facts) -> Iterator[str]:
    """Yields a line for each node that is gone, has come, or has another type or number of ports."""
    for guid in sorted(set(old.nodes) | set(new.nodes)):
        one, other = (facts.nodes.get(guid) for facts in (old, new))
        if one != other:
            word = "gone" if not other else "come" if not one else "other"
            told = " > ".join(f"{kind} {ports}" for kind, ports in filter(None, (one, other)))
            yield f"{word} node {guid:016x} {told}"


def cables_of(facts: Facts) -> set[tuple[End, End]]:
    """Returns the cables that are up, each by its two ends."""
    return {(end, far) for end, far, kind in facts.cables() if kind == "up"}


def facts_apart(old: Facts, new: Facts) -> Iterator[str]:
    """Yields the lines that say how two texts of facts differ."""
    before, after = cables_of(old), cables_of(new)
    yield from nodes_apart(old, new)
    for word, cables in (("gone", before - after), ("come", after - before)):
        for end, far in sorted(cables):
            yield f"{word} cable {name_of(end)} {name_of(far)}"
    told = {end for cable in before ^ after for end in cable}
    shared = set(old.nodes) & set(new.nodes)

    def values(
        what: str,
        one: dict[Any, Any],
        other: dict[Any, Any],
        spell: Callable[[Any], str],
        about: Callable[[Any], str] = name_of,
    ) -> Iterator[str]:
        for key in sorted(set(one) & set(other)):
            if (key[0] if isinstance(key, tuple) else key) in shared and one[key] != other[key]:
                yield f"{what} {about(key)} {spell(one[key])} > {spell(other[key])}"

    states = [{end: up for end, up in facts.up.items() if end not in told} for facts in (old, new)]
    yield from values("port", *states, lambda up: "up" if up else "down")
    yield from values("lid", old.claims, new.claims, str)
    yield from values("portguid", old.port_guids, new.port_guids, lambda it: f"{it:016x}")
    yield from values("cap", old.caps, new.caps, str, lambda it: f"{it:016x}")
    for kind, guid, port in new.disputed:
        yield f"disputed {kind} {guid:016x}" + ("" if kind in ("node", "cap") else f"/{port}")


def plans_apart(old: Plan, new: Plan) -> tuple[list[str], str]:
    """Returns the lines that say how plans differ, and a last line with how many blocks a manager has to write."""
    lines = list(names_differ(old, new, ("old", "new")))
    entries, switches, blocks = 0, 0, 0
    for guid in sorted(set(old.tables) | set(new.tables)):
        if guid not in new.tables:
            lines.append(f"gone switch {guid:016x}")
            continue
        written = blocks_to_write(old.tables.get(guid, b""), new.tables[guid])
        blocks += written
        if guid not in old.tables:
            lines.append(f"come switch {guid:016x} blocks {written}")
            continue
        different = apart(old.row(guid), new.row(guid))
        count = len(different) - different.count(0)
        entries += count
        switches += count > 0
        if count or written:
            lines.append(f"switch {guid:016x} entries {count} blocks {written}")
    return lines, f"{entries} entries differ on {switches} switches, blocks to write: {blocks}"
