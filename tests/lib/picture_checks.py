"""What `tests/test-files` checks of how pictures are laid out: what overlaps, what passes behind what, and groups."""
from __future__ import annotations

import itertools
import re

import figure_fabrics
import sample_fabrics
from folds import MOST_IN_GROUP, found_groups, is_tree
from ibsm_texts import Facts
from layout import homes_in, rows_of, wires_of
from sample_fabrics import Fabric
from tool_room import Room

Box = tuple[float, float, float, float]


def boxes_in(text: str) -> list[Box]:
    """Returns the boxes of a picture: left, top, width and height."""
    found = re.findall(r'<rect class="node" x="([-.\d]+)" y="([-.\d]+)" width="([.\d]+)" height="([.\d]+)"', text)
    return [tuple(map(float, it)) for it in found]


def frames_in(text: str) -> list[Box]:
    """Returns the frames of a picture."""
    found = re.findall(r'<rect class="frame" x="([-.\d]+)" y="([-.\d]+)" width="([.\d]+)" height="([.\d]+)"', text)
    return [tuple(map(float, it)) for it in found]


def overlap(one: Box, other: Box) -> bool:
    """Returns whether two boxes have a place in common."""
    (x, y, wide, high), (u, v, wide_other, high_other) = one, other
    return x < u + wide_other and u < x + wide and y < v + high_other and v < y + high


def apart(room: Room, words: str) -> None:
    """Checks that no box of the last picture covers another one, and that text is no wider than its box."""
    text = room.text("t.svg")
    boxes = boxes_in(text)
    over = [pair for pair in itertools.combinations(boxes, 2) if overlap(*pair)]
    room.check(boxes and not over, f"{words}: {len(boxes)} boxes, of which some overlap: {over[:2]}")
    for box in re.findall(r'<g class="(?:switch|adapter|group)[^"]*"[^>]*>.*?</g>', text):
        wide = float(re.search(r'width="([.\d]+)"', box)[1])
        most = max(map(len, re.findall(r"<text[^>]*>(.*?)</text>", box)))
        room.check(6.5 * most < wide, f"{words}: {most} letters in a box {wide} wide")


def behind(text: str, above: float) -> int:
    """Returns how many straight lines pass through a box further than `above` from both their ends."""
    count, boxes = 0, boxes_in(text)
    for x, y, u, v in re.findall(r'class="way" d="M([-.\d]+) ([-.\d]+)L([-.\d]+) ([-.\d]+)"', text):
        x, y, u, v = map(float, (x, y, u, v))
        for i in range(1, 60):
            at = x + (u - x) * i / 60, y + (v - y) * i / 60
            ends = min(abs(at[0] - x) + abs(at[1] - y), abs(at[0] - u) + abs(at[1] - v))
            if ends > above and any(a < at[0] < a + w and b < at[1] < b + h for a, b, w, h in boxes):
                count += 1
                break
    return count


def pictures(room: Room) -> None:
    """Checks the pictures of some fabrics."""
    for name, fabric in (
        ("tree", sample_fabrics.fat_tree(4, 2)), ("two", sample_fabrics.two_levels(16, 4, 3)),
        ("torus", sample_fabrics.torus(5, 5)), ("fly", figure_fabrics.palm_dragonfly(4, 2, 2)),
        ("some", sample_fabrics.random_fabric(40, 5, 60)), ("lone", sample_fabrics.line(1)),
    ):
        room.put(p_facts=fabric.facts())
        room.run("draw p.facts --svg t.svg", 0)
        apart(room, name)
        text = room.text("t.svg")
        room.check("prefers-color-scheme: dark" in text, "a picture is light or dark")
        if name != "some":
            room.check(behind(text, 4) == 0, f"{name}: no line passes behind a box")
        rows = len({round(y, 1) for _, y, _, _ in boxes_in(text)})
        if name in ("tree", "two"):
            # Two adapters stand below each lower switch of the smaller tree.
            room.check(rows == {"tree": 5, "two": 2}[name], f"a tree stands in rows: {rows}")
        if name == "torus":
            room.check(rows == 10, f"a torus is a grid, with an adapter below each switch: {rows}")
        if name == "fly":
            frames = frames_in(text)
            inside = [sum(overlap(frame, box) for frame in frames) for box in boxes_in(text)]
            room.check(len(frames) == 9 and inside == [1] * 36, f"a dragonfly's groups have frames: {inside}")
            room.check(not any(overlap(*pair) for pair in itertools.combinations(frames, 2)), "that are apart")
    groups_found(room)


def groups_of(fabric: Fabric, names: dict[int, str] | None = None) -> tuple[dict[str, list[int]], bool]:
    """Returns the groups of a fabric's switches, and whether it is a tree."""
    facts = Facts("-", lines=fabric.facts().splitlines())
    wires = wires_of(facts)
    rows = rows_of(facts, wires, ())
    tree = is_tree(wires, rows, homes_in(facts, wires))
    return found_groups(wires, rows if tree else None, names or {}), tree


def groups_found(room: Room) -> None:
    """Checks in which groups the switches of large fabrics are drawn."""
    tree = sample_fabrics.fat_tree(16, 2)
    wanted = sorted([*([16] * 16), *([8] * 8)])
    for what, fabric in (("whole", tree), ("with cables out", figure_fabrics.without(tree, 30))):
        found, is_one = groups_of(fabric)
        sizes = sorted(map(len, found.values()))
        room.check(is_one and (sizes == wanted if what == "whole" else len(sizes) < 40), f"a tree, {what}: {sizes}")
        room.check(sum(sizes) == 320, f"each switch is in one group, {what}")
    found, is_one = groups_of(sample_fabrics.two_levels(108, 18, 1))
    sizes = sorted(map(len, found.values()))
    room.check(is_one and sizes == [18, 36, 36, 36] and max(sizes) <= MOST_IN_GROUP, f"two levels: {sizes}")
    fly = figure_fabrics.palm_dragonfly(8, 4, 1)
    found, is_one = groups_of(fly)
    room.check(not is_one and sorted(map(len, found.values())) == [8] * 33, f"a dragonfly: {found.keys()}")
    called, _ = groups_of(fly, {fly.guid(f"S{i + 1}"): f"g{i // 8}s{i % 8}" for i in range(264)})
    room.check(list(called) == [f"g{i}" for i in range(33)], f"which are called by its names: {list(called)}")
    for guids in found.values():
        room.check(len({(guid // 16 - 1) // 8 for guid in guids}) == 1, "by its own groups")
    found, is_one = groups_of(sample_fabrics.torus(12, 12))
    room.check(not is_one and len(found) < 40 and sum(map(len, found.values())) == 144, f"a torus: {len(found)}")
    names = {tree.guid(f"S{i}"): f"rack{(i - 1) // 8}-leaf{i % 8}" for i in range(1, 129)}
    names |= {tree.guid(f"S{i}"): f"rack{(i - 129) // 8}-mid{i % 8}" for i in range(129, 257)}
    names |= {tree.guid(f"S{i}"): f"core{i}" for i in range(257, 321)}
    found, _ = groups_of(tree, names)
    room.check(
        [name for name in found if name.startswith("rack")] == [f"rack{i}" for i in range(16)]
        and [name for name in found if not name.startswith("rack")] == [f"top {i}" for i in range(1, 9)],
        f"groups are called by what the names of their switches begin with: {list(found)}",
    )
