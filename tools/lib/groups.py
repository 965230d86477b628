"""Switches in groups, such as those of a dragonfly or the rows of a torus."""
from __future__ import annotations

import collections
import re
from collections.abc import Iterable, Sequence

from ibsm_texts import Names

# The members of each group, and the switches at both ends of a cable.
Groups, Wire = dict[str, list[int]], tuple[int, int]
# Switches form a grid if at least this part of their cables joins neighbors in it.
IN_GRID = 0.9


def by_names(guids: Iterable[int], names: Names) -> dict[int, str]:
    """Returns the group of each GUID: its name up to and including the last number but one, or up to its only number,
    or the whole name if it has no number. If nothing is left of it, the group is `?`."""
    found = {}
    for guid in guids:
        name = names.get(guid, "")
        form = re.fullmatch(r"(.*\d)\D+\d+\D*", name) or re.fullmatch(r"(.*?)\d+\D*", name)
        found[guid] = (form[1] if form else name).rstrip(" -_./:") or "?"
    return found


def in_order(guids: Iterable[int], group_of: dict[int, str], names: Names) -> Groups:
    """Returns the groups in order of name, and the members of each in order of name and then of GUID. Numbers in names
    count by value."""
    def by_numbers(name: str) -> list[tuple[int, int, str]]:
        return [(0, int(part), "") if part.isdigit() else (1, 0, part) for part in re.split(r"(\d+)", name)]

    found = collections.defaultdict(list)
    for guid in guids:
        found[group_of[guid]].append(guid)
    return {
        name: sorted(found[name], key=lambda it: (by_numbers(names.get(it, "")), it))
        for name in sorted(found, key=by_numbers)
    }


def is_grid(groups: Groups, wires: Sequence[Wire]) -> bool:
    """Returns whether there are several groups of the same size, and most cables between them join members with the
    same index, as in a torus."""
    if len({len(members) for members in groups.values()}) != 1 or len(groups) < 2:
        return False
    member = {guid: (name, i) for name, members in groups.items() for i, guid in enumerate(members)}
    between = [(member[a][1], member[b][1]) for a, b in wires if member[a][0] != member[b][0]]
    return bool(between) and 2 * sum(one == other for one, other in between) > len(between)


def grid_in(switches: Sequence[int], wires: Sequence[Wire], names: Names) -> list[list[int]] | None:
    """Returns the rows of a grid that switches form, whose rows and columns may close into rings, or None. Rows are
    found by names, or by equal parts of the switches in order of GUID."""
    named = list(in_order(switches, by_names(switches, names), names).values()) if names else []
    order = sorted(switches)
    cuts = [
        [order[at : at + size] for at in range(0, len(order), size)]
        for size in range(2, len(order) // 2 + 1)
        if len(order) % size == 0
    ]
    found = [(neighborly(rows, wires), -abs(len(rows) - len(rows[0])), rows) for rows in [named, *cuts] if rows]
    best = max(found, key=lambda it: it[:2], default=(0, 0, None))
    return best[2] if best[0] >= IN_GRID else None


def neighborly(rows: Sequence[Sequence[int]], wires: Sequence[Wire]) -> float:
    """Returns which part of the cables joins neighbors in a grid of these rows, of which the last is the neighbor of
    the first. It is 0 if rows differ in length, or if there is one row or column."""
    if len({len(row) for row in rows}) != 1 or len(rows) < 2 or len(rows[0]) < 2 or not wires:
        return 0.0
    at = {guid: (i, j) for i, row in enumerate(rows) for j, guid in enumerate(row)}
    deep, wide, count = len(rows), len(rows[0]), 0
    for one, other in wires:
        (i, j), (k, l) = at[one], at[other]
        steps = min((i - k) % deep, (k - i) % deep), min((j - l) % wide, (l - j) % wide)
        count += steps in ((0, 1), (1, 0))
    return count / len(wires)
