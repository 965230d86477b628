"""How the switches of facts are laid out in a picture, in rows or in groups; and which switches a word or a file
names."""
from __future__ import annotations

import collections
import re
from collections.abc import Iterable, Sequence

import folds
import groups
import spots
from drawing import HANGS, Box, Drawing
from ibsm_texts import Facts, Names, Refused, lines_of
from rows import ranks
from spots import Size, Spot

# The height of a group's title in its frame, and the distance between the boxes of adapters below their switch. So many
# of these stand in a column at most.
TITLE, UNDER, IN_COLUMN = 18.0, 4.0, 8


def wires_of(facts: Facts) -> dict[int, list[int]]:
    """Returns, for each switch, the switches at the other ends of its wires."""
    wires = {guid: [] for guid in facts.nodes if facts.is_switch(guid)}
    for end in sorted(facts.links):
        far = facts.wire(end)
        if far and end[0] in wires and far[0] in wires:
            wires[end[0]].append(far[0])
    return wires


def homes_in(facts: Facts, wires: dict[int, list[int]]) -> set[int]:
    """Returns the switches that have adapters or routers."""
    fars = (facts.wire(end) for end in facts.links if not facts.is_switch(end[0]))
    return {far[0] for far in fars if far and far[0] in wires}


def rows_of(facts: Facts, wires: dict[int, list[int]], roots: Iterable[int]) -> dict[int, int]:
    """Returns the row of each switch, from the top of its component down."""
    leaves = homes_in(facts, wires)
    for root in roots:
        if root not in wires:
            raise Refused(f"there is no switch {root:016x}, which --roots names")
    return ranks(wires, leaves, roots)


def groups_in(path: str, facts: Facts, names: Names) -> dict[int, str]:
    """Returns the group of each switch: by names if `path` is `names`, and otherwise by the lines of a file."""
    if path == "names":
        return groups.by_names([guid for guid in facts.nodes if facts.is_switch(guid)], names)
    found = {}
    for number, line in enumerate(lines_of(path, "replace", "utf-8"), 1):
        words = line.partition("#")[0].split(None, 1)
        form = words and re.fullmatch("(?:0[xX])?([0-9a-fA-F]{1,16})", words[0])
        if words and not (form and len(words) == 2):
            raise Refused(f"{path}: line {number} is no GUID with a group: {line[:60]}")
        if words:
            found[int(form[1], 16)] = words[1].strip().strip('"')
    return found


def switch_named(facts: Facts, names: Names, word: str) -> int:
    """Returns the only switch that a GUID or a name names."""
    form = re.fullmatch("(?:0x)?([0-9a-fA-F]{1,16})", word)
    called = [guid for guid, name in names.items() if name == word and facts.is_switch(guid)]
    if len(called) > 1:
        raise Refused(f"{word} may be {' or '.join(f'{guid:016x}' for guid in called[:4])}: say which")
    if not called and not form:
        raise Refused(f"no switch is called {word}")
    return called[0] if called else int(form[1], 16)


def roots_in(path: str) -> list[int]:
    """Returns the switches in a text of roots: one GUID on each line, and comments after `#`."""
    found = []
    for number, line in enumerate(lines_of(path, "replace"), 1):
        words = line.partition("#")[0].split()
        if words:
            form = re.fullmatch("(?:0[xX])?([0-9a-fA-F]{1,16})", words[0])
            if len(words) > 1 or not form:
                raise Refused(f"{path}: line {number} is no GUID: {line[:60]}")
            found.append(int(form[1], 16))
    return found


def columns(boxes: Sequence[Box]) -> tuple[list[Spot], Size]:
    """Returns the places of boxes in columns below (0, 0), and the size that they take."""
    count = -(-len(boxes) // IN_COLUMN)
    wide = max((box.size()[0] for box in boxes), default=0) + UNDER + 2 * HANGS
    high = max((box.size()[1] for box in boxes), default=0) + UNDER
    # The first row is filled first, from the left. On the left is room for lines that lead down.
    found = [
        (wide * (i % count - (count - 1) / 2) + HANGS, high * (i // count) + high / 2 + UNDER)
        for i in range(len(boxes))
    ]
    return found, (wide * count, high * -(-len(boxes) // max(count, 1)) + UNDER if boxes else 0)


def arrange(
    drawing: Drawing, beside: dict[int, list[int]], below: dict[int, list[int]], rank: dict[int, int] | None,
    members: groups.Groups | None = None,
) -> None:
    """Places the boxes of a drawing: in rows by `rank`, in groups, or else as far apart as they are in cables. `below`
    has the boxes that stand below another one, as adapters do."""
    sizes, hanging = {}, {guid: columns([drawing.boxes[it] for it in own]) for guid, own in below.items()}
    for guid in beside:
        wide, high = drawing.boxes[guid].size()
        _, (columns_wide, columns_high) = hanging.get(guid, ([], (0, 0)))
        sizes[guid] = max(wide, columns_wide), high + columns_high
    if members is not None:
        found = in_groups(drawing, members, beside, sizes)
    elif rank:
        found, drawing.rows = spots.in_rows(beside, rank, sizes), rank
    else:
        found = spots.by_distance(beside, sizes)
    for guid, (x, y) in found.items():
        box = drawing.boxes[guid]
        high = box.size()[1]
        box.place = x, y - sizes[guid][1] / 2 + high / 2
        for it, (across, down) in zip(below.get(guid, ()), hanging.get(guid, ([], 0))[0]):
            drawing.boxes[it].place = x + across, box.place[1] + high / 2 + down


def grouped(
    beside: dict[int, list[int]], group_of: dict[int, str] | None, names: Names
) -> groups.Groups | None:
    """Returns the groups in which switches are drawn: those that are asked for, or else the rows of a grid, or switches
    with nearly the same neighbors, or None if there are no such groups. The names of groups that were found in rows
    of a grid begin with a blank: they are not drawn."""
    switches = sorted(beside)
    if group_of is not None:
        return groups.in_order(switches, {guid: group_of.get(guid, "?") for guid in switches}, names)
    wires = [(one, far) for one, near in beside.items() for far in near if one < far]
    if rows := groups.grid_in(switches, wires, names):
        return {f" {i}": row for i, row in enumerate(rows)}
    parts = folds.alike({guid: {guid, *beside[guid]} for guid in switches})
    if len(parts) < 3 or min(map(len, parts)) < 2:
        return None
    return folds.named("group", parts, names)


def in_groups(
    drawing: Drawing, members: groups.Groups, beside: dict[int, list[int]], sizes: dict[int, Size]
) -> dict[int, Spot]:
    """Returns the places of boxes in groups, and frames the groups. Boxes in no group stand below."""
    wires = [(one, far) for one, near in beside.items() for far in near if one < far]
    own = [guid for guids in members.values() for guid in guids]
    inner = [(one, far) for one, far in wires if {one, far} <= set(own)]
    if groups.is_grid(members, inner):
        found = spots.in_grid(list(members.values()), sizes)
    else:
        found = spots.in_circles(list(members.values()), sizes) if own else {}
    for name, guids in members.items():
        if not name.startswith(" "):
            drawing.frames[name] = spots.around(guids, found, sizes, TITLE)
    low = max((found[guid][1] + sizes[guid][1] / 2 for guid in found), default=0)
    right = 0.0
    for guid in beside.keys() - found.keys():
        found[guid] = right + sizes[guid][0] / 2, low + spots.BELOW + sizes[guid][1] / 2
        right += sizes[guid][0] + spots.BESIDE
    return found


def folded_in(
    facts: Facts, wires: dict[int, list[int]], rank: dict[int, int] | None, group_of: dict[int, str] | None,
    names: Names,
) -> tuple[dict[str, list[int]], dict[str, int] | None]:
    """Returns the groups of a folded picture, and the row of each group if the switches have rows."""
    if group_of is not None:
        return folds.groups_by_name(group_of, sorted(wires)), None
    found = folds.found_groups(wires, rank, names)
    return found, rank and {name: min(1, min(rank[guid] for guid in guids)) for name, guids in found.items()}


def arrange_groups(drawing: Drawing, joined: Iterable[tuple[str, str]], rows: dict[str, int] | None) -> None:
    """Places the boxes of a folded picture, whose keys are names of groups."""
    number = {name: i for i, name in enumerate(drawing.boxes)}
    beside = collections.defaultdict(list, {i: [] for i in number.values()})
    for one, other in joined:
        if one != other:
            beside[number[one]].append(number[other])
            beside[number[other]].append(number[one])
    sizes = {i: drawing.boxes[name].size() for name, i in number.items()}
    rank = rows and {number[name]: row for name, row in rows.items()}
    drawing.rows = rows or {}
    found = spots.in_rows(beside, rank, sizes) if rank else spots.by_distance(beside, sizes)
    for name, i in number.items():
        drawing.boxes[name].place = found[i]
