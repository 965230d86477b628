"""Switches of a large subnet in groups that are drawn as one box each: those that are asked for, or pods and tops of a
tree, switches with nearly the same neighbors, or else parts of the subnet."""
from __future__ import annotations

import collections
import os
from collections.abc import Iterable, Sequence

import groups
from ibsm_texts import Names
from rows import components

# Above this many switches a picture is folded, and a group that is found has at most so many.
MOST_SWITCHES, MOST_IN_GROUP = 100, 40
# Sets of neighbors are alike if they have at least this part of their members in common.
ALIKE = 0.45
# If more groups than this were found by neighbors, the subnet is cut into this many parts at most.
MOST_GROUPS, PARTS = 64, 32
# A subnet is a tree if at most this part of its cables and switches is otherwise.
STRAY = 0.1

Wires = dict[int, list[int]]


def is_tree(wires: Wires, rank: dict[int, int], homes: Iterable[int]) -> bool:
    """Returns whether switches form a tree of rows: cables join neighboring rows, and switches with adapters, the
    homes, have none below them. A few may be otherwise. A graph without circles is a tree, whatever has adapters."""
    cables = [(one, far) for one, beside in wires.items() for far in beside if one < far]
    if not cables:
        return False
    parts = components(wires, wires)
    if len(set(cables)) == len(wires) - len(parts):
        return True
    home = set(homes)
    level = sum(abs(rank[one] - rank[far]) != 1 for one, far in cables)
    above = sum(any(rank[far] > rank[it] for far in wires[it]) for it in home)
    return len(home) < len(wires) and level <= STRAY * len(cables) and above <= STRAY * len(wires)


def groups_by_name(group_of: dict[int, str], switches: Sequence[int]) -> dict[str, list[int]]:
    """Returns the groups that are asked for; switches in none are the group `?`."""
    found = collections.defaultdict(list)
    for guid in switches:
        found[group_of.get(guid, "?")].append(guid)
    return dict(sorted(found.items()))


def found_groups(wires: Wires, rank: dict[int, int] | None, names: Names) -> dict[str, list[int]]:
    """Returns groups of switches, by the names that they get. `rank` has the rows of a tree, or is None."""
    switches = sorted(wires)
    if rank is None:
        parts = alike({guid: {guid, *wires[guid]} for guid in switches})
        if len(parts) > MOST_GROUPS or len(parts) > len(switches) / 2:
            return named("part", by_nearness(wires, -(-len(switches) // PARTS)), names)
        return named("group", cut(parts), names)
    top = [guid for guid in switches if rank[guid] == 0]
    pods = components(wires, [guid for guid in switches if rank[guid] > 0])
    if 2 * len(pods) > len(switches) - len(top):
        pods = alike({guid: set(wires[guid]) for guid in switches if rank[guid] > 0})
    tops = alike({guid: set(wires[guid]) for guid in top})
    if len(tops) > MOST_GROUPS / 2:
        pod_of = {guid: i for i, pod in enumerate(pods) for guid in pod}
        tops = alike({guid: {pod_of[far] for far in wires[guid] if far in pod_of} for guid in top})
    return named("top", cut(tops), names) | named("pod", cut(pods), names)


def alike(neighbors: dict[int, set[int]]) -> list[list[int]]:
    """Returns switches in groups whose sets of neighbors are alike, each judged by the first one of its group."""
    found, by_neighbor = [], collections.defaultdict(list)
    for guid, near in neighbors.items():
        common = collections.Counter(i for far in near for i in by_neighbor[far])
        best = None
        for i, count in sorted(common.items()):
            first = neighbors[found[i][0]]
            if count >= ALIKE * len(first | near) and (best is None or count > best[0]):
                best = count, i
        if best is None:
            for far in near:
                by_neighbor[far].append(len(found))
            found.append([guid])
        else:
            found[best[1]].append(guid)
    return found


def by_nearness(wires: Wires, size: int) -> list[list[int]]:
    """Returns parts of some `size` switches, each grown from its first switch over cables. What is less than half of
    that goes to the smallest part beside it."""
    left, found = dict.fromkeys(sorted(wires)), []
    for start in sorted(wires):
        if start not in left:
            continue
        part = [start]
        del left[start]
        for at in part:
            for far in wires[at]:
                if len(part) < size and far in left:
                    del left[far]
                    part.append(far)
        found.append(part)
    part_of = {guid: part for part in found for guid in part}
    for part in [it for it in found if 2 * len(it) < size]:
        beside = [part_of[far] for guid in part for far in wires[guid] if part_of[far] is not part]
        if beside:
            into = min(beside, key=len)
            into += part
            part_of.update(dict.fromkeys(part, into))
            found = [it for it in found if it is not part]
    return [sorted(part) for part in found]


def cut(parts: Sequence[list[int]]) -> list[list[int]]:
    """Returns groups of which none is too large: a larger one is cut into parts of about the same size."""
    found = []
    for part in parts:
        count = -(-len(part) // MOST_IN_GROUP)
        size = -(-len(part) // count)
        found += [part[at : at + size] for at in range(0, len(part), size)]
    return found


def named(word: str, parts: Sequence[list[int]], names: Names) -> dict[str, list[int]]:
    """Returns groups with names: that by which the names of all members group them, or what these begin with, if no
    other group has that; or else a word and a number."""
    starts = []
    for part in parts:
        by_name = set(groups.by_names(part, names).values())
        if len(part) > 1 and len(by_name) == 1 and "?" not in by_name:
            starts += by_name
            continue
        own = [names.get(guid, "") for guid in part]
        common = os.path.commonprefix(own) if len(part) > 1 else ""
        if any(name[len(common) : len(common) + 1].isdigit() for name in own):
            # It ends within a number.
            common = common.rstrip("0123456789")
        starts.append(common.rstrip(" -_./:"))
    counts = collections.Counter(starts)
    return {
        start if len(start) > 1 and counts[start] == 1 else f"{word} {i}": part
        for i, (start, part) in enumerate(zip(starts, parts), 1)
    }


def bundles(
    group_of: dict[int, str], cables: Iterable[tuple[tuple[int, int], tuple[int, int]]]
) -> dict[tuple[str, str], list[tuple[tuple[int, int], tuple[int, int]]]]:
    """Returns the cables between each two groups, and those within each one, by the names of both."""
    found = collections.defaultdict(list)
    for one, other in cables:
        pair = group_of[one[0]], group_of[other[0]]
        found[pair if pair[0] <= pair[1] else pair[::-1]].append((one, other))
    return dict(found)
