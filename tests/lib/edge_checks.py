"""What `tests/test-files` checks of the tools at the limits of their numbers."""
from __future__ import annotations

import os
import re

import sample_fabrics
from built_program import plan_lines
from tool_checks import FAKE, dumped
from tool_room import Room

GREATEST = 49151
SWITCHES = (0x10, 0), (0x20, 0), (0x30, 0)


def triangle_plan(
    first: int, second: int, lmc: int = 0
) -> tuple[dict[int, tuple[int, int]], dict[int, dict[int, int]], str]:
    """Returns tables of the triangle. `first` and `second` are the LIDs of the adapters' ports, or begin their
    ranges."""
    lids = {lid: end for lid, end in enumerate(SWITCHES, 1)} | {first: (0x100, 1), second: (0x200, 1)}
    ways = {0x10: (0, 1, 2, 1, 2), 0x20: (1, 0, 2, 3, 2), 0x30: (1, 2, 0, 2, 3)}
    tables = {}
    for switch, (*own, one, other) in ways.items():
        tables[switch] = dict(enumerate(own, 1))
        for begin, port in ((first, one), (second, other)):
            tables[switch] |= dict.fromkeys(range(begin, begin + 2**lmc), port)
    return lids, tables, "\n".join(plan_lines(lids, tables, lmc)) + "\n"


def greatest_lid(room: Room) -> None:
    """Checks plans, dumps and differences up to the greatest LID, in tables of 768 blocks, and none above it."""
    room.put(wide_facts=room.text("t.facts").replace(" 1024 @1", " 49152 @1"), far_plan=triangle_plan(4, GREATEST)[2])
    room.put(over_plan=triangle_plan(4, GREATEST + 1)[2])
    os.mkdir(room.path / "far")
    said = "3 switches, 5 LIDs, top 49151: 5 ports get their first LID, 0 another\n"
    room.prints("opensm-files write wide.facts far.plan far", 0, said)
    room.check(
        "\n0xbfff 002 # portguid 0x0000000000000201\n" in room.text("far/plan.lfts"), "the entry of the greatest LID"
    )
    room.refused("opensm-files write wide.facts over.plan far", "LID 49152 is no unicast LID")
    lines = room.text("far/plan.lfts").splitlines(True)
    room.check(lines[0].startswith("Unicast lids [0-49151] of switch "), "the range of a table")
    room.put(far_dump="".join(lines), over_dump="".join(lines).replace("[0-49151]", "[0-49152]"))
    room.check(
        room.run("opensm-files tables wide.facts far.dump", 0) == room.text("far.plan"), "a dump up to the greatest LID"
    )
    room.refused("opensm-files tables wide.facts over.dump", "has no range of LIDs in its head")


def several_blocks(room: Room) -> None:
    """Checks that each block that differs counts as one to write: the first, one in between, and the last."""
    lids, tables, _ = triangle_plan(4, GREATEST)
    for entries, blocks in (
        ({GREATEST: 1}, 1), ({1: 3, GREATEST: 1}, 2), ({1: 3, 2: 3, 20000: 3, GREATEST - 63: 3, GREATEST: 1}, 3)
    ):
        room.put(near_plan="\n".join(plan_lines(lids, tables | {0x10: tables[0x10] | entries})) + "\n")
        told = (
            f"entries {len(entries)} blocks {blocks}\n{len(entries)} entries differ on 1 switches, blocks to write: "
            f"{blocks}\n"
        )
        room.check(
            room.run("compare far.plan near.plan", 1) == f"switch 0000000000000010 {told}", f"{blocks} blocks of many"
        )
    room.put(less_plan=triangle_plan(4, 65)[2], more_plan=triangle_plan(4, 64)[2].replace("top 64", "top 65"))
    printed = room.run("compare less.plan more.plan", 1).splitlines()
    room.check(printed[-1] == "6 entries differ on 3 switches, blocks to write: 3", "the second of two blocks")


def table_sizes(room: Room) -> None:
    """Checks table sizes in a topology: from one to 49,152 entries."""
    for size, status, told in ((1, 0, 1), (49152, 0, 49152), (49153, 1, 1024), (0, 1, 1024)):
        room.put(size_facts=room.text("t.facts").replace("cap 0000000000000020 1024", f"cap 0000000000000020 {size}"))
        printed = room.run("topology size.facts", status)
        caps = re.findall(r"^Switch .* cap (\d+)$", printed, re.M)
        room.check(caps == ["1024", str(told), "1024"], f"a table of {size} entries is one of {told}")
        room.check(("the size of its table is not known" in room.said) == bool(status), "what is otherwise is said")


def largest_picture(room: Room) -> None:
    """Checks that a picture has at most 300 nodes, and that it has each switch up to 100."""
    for hosts, status in ((200, 0), (201, 3)):
        room.put(many_facts=sample_fabrics.random_fabric(100, 3, hosts).facts())
        text = room.run("draw many.facts --hosts all", status)
        room.check(len(re.findall(r"shape=(?:box|ellipse)", text)) == (0 if status else 300), f"{100 + hosts} nodes")
    room.check("--hosts fold" in room.said, "what to do is told")
    room.run("draw many.facts --hosts fold", 0)
    for switches, most in ((100, 100), (101, 40)):
        room.put(many_facts=sample_fabrics.random_fabric(switches, 3, 10).facts())
        boxes = room.run("draw many.facts", 0).count("shape=box")
        own = sum(map(int, re.findall(r"(\d+) switches", room.out))) if boxes < switches else boxes
        room.check(boxes == most or most / 4 < boxes < most, f"{switches} switches in {boxes} boxes")
        room.check(own == switches, f"{own} of {switches} switches are counted")


def ranges_planned(room: Room) -> None:
    """Checks that what-if plans without a cable by the LMC of the tables. Switches have none."""
    for lmc in 0, 1, 3:
        plan = triangle_plan(8, 16, lmc)[2]
        room.put(lmc_plan=plan, fake_plan=plan, calls="")
        room.scripts(fake=FAKE)
        room.run("what-if t.facts lmc.plan --ibsm ./fake --rows 1", 0)
        calls = room.text("calls").splitlines()
        room.check(len(calls) == 2 and all(f" --lmc {lmc} " in it for it in calls), f"plans are made under LMC {lmc}")


def parts_of_dumps(room: Room) -> None:
    """Checks a dump of each switch in two parts: its top is the greater one, in either order."""
    text, _ = dumped(sample_fabrics.triangle(), sample_fabrics.triangle().shortest(), "fts", lmc=1)
    room.put(whole_dump=text)
    whole = room.run("opensm-files tables t.facts whole.dump", 0)
    parts = [], []
    for line in text.splitlines(True):
        lid = re.match(r"0x([0-9a-f]{4}) ", line)
        for number, span in enumerate(("0x0-0x3", "0x4-0x7")):
            if not lid or (int(lid[1], 16) > 3) == bool(number):
                parts[number].append(line.replace("0x0-0x7", span))
    room.put(low_dump="".join(parts[0]), high_dump="".join(parts[1]))
    for names in "low.dump high.dump", "high.dump low.dump":
        room.check(room.run(f"opensm-files tables t.facts {names}", 0) == whole, f"two parts of a dump, {names}")


def written_through(room: Room) -> None:
    """Checks that tools sync a file to disk before they rename it, so that none is empty after a power cut."""
    fsync, rename = os.fsync, os.rename

    def note(*words: object) -> None:
        with open(room.path / "noted", "a") as file:
            print(*words, file=file)

    def noted_fsync(number: int) -> None:
        note("sync", os.path.basename(os.readlink(f"/proc/self/fd/{number}")), os.fstat(number).st_size)
        fsync(number)

    def noted_rename(old: str | os.PathLike[str], new: str | os.PathLike[str]) -> None:
        note("name", os.path.basename(old), os.path.getsize(old))
        rename(old, new)

    os.mkdir(room.path / "s")
    os.fsync, os.rename = noted_fsync, noted_rename
    try:
        room.run("opensm-files write t.facts t.plan s", 0)
    finally:
        os.fsync, os.rename = fsync, rename
    lines = [line.split(" ", 1) for line in room.text("noted").splitlines()]
    named = [rest for word, rest in lines if word == "name"]
    room.check(len(named) == 2 and all(not it.endswith(" 0") for it in named), "two files are named")
    room.check(all(["sync", it] in lines[: lines.index(["name", it])] for it in named), "each is on the disk before")


def edges(room: Room) -> None:
    """Checks the tools at their limits."""
    for part in (
        greatest_lid,
        several_blocks,
        table_sizes,
        largest_picture,
        ranges_planned,
        parts_of_dumps,
        written_through,
    ):
        part(room)
