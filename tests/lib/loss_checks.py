"""What `tests/test-files` checks of tools that follow packets, by tables that lose some of them."""
from __future__ import annotations

import os
import pathlib
import re
import subprocess

import sample_fabrics
from record_files import store_of
from sample_fabrics import Fabric, Tables
from tool_checks import FAKE
from tool_room import Room

Rows = dict[str, tuple[str, str, str]]


def without_cable(facts: str, *ends: str) -> str:
    """Returns facts in which the ports of a cable are down."""
    for end in ends:
        facts = facts.replace(f"port {end} up", f"port {end} down")
    return facts


def row_of_three() -> tuple[Fabric, Tables]:
    """Returns three switches in a row, with an adapter at each end, and tables of its ways. The LIDs of the adapters
    are 4 and 5."""
    fabric = sample_fabrics.line(3)
    fabric.join(fabric.add(sample_fabrics.ADAPTER, "H2", 0x1000020, 1), "S3")
    return fabric, fabric.shortest()


def cut_tree() -> tuple[str, str]:
    """Returns facts and tables of two leaves, each with two adapters, and two spines. All ways to the other leaf lead
    over the first spine, but for those to the last LID, and the cable from there to the second leaf is cut."""
    fabric = sample_fabrics.two_levels(2, 2, 2)
    tables = fabric.shortest()
    tables["S1"][8] = 4
    return without_cable(fabric.facts(), "0000000000000020/3", "0000000000000030/2"), fabric.plan(tables)


def of_two(many: int) -> tuple[str, str]:
    """Returns facts and tables of two switches, with so many adapters at the first, and one at the other."""
    fabric = sample_fabrics.Fabric()
    fabric.switches(2)
    fabric.join("S1", "S2")
    fabric.hosts(["S1"] * many + ["S2"])
    return fabric.facts(), fabric.plan(fabric.shortest())


def cases(room: Room) -> Rows:
    """Returns, by what is tried, facts, tables, the lines of an audit on ways and loads, and how many channels of how
    many carry nothing."""
    facts, plan = room.text("t.facts"), room.text("t.plan")
    row, tables = row_of_three()
    whole = row.plan(tables)
    tables["S2"][5] = 255
    cabled = sample_fabrics.cabled_adapters()
    tableless = plan[: plan.index("switch 0000000000000010")] + plan[plan.index("switch 0000000000000020") :]
    # On the row one packet takes four wires and two of four channels. On the triangle one takes three wires and one of
    # six channels; if both arrive, they take both channels of a cable.
    one_on_row = "hops max 4 mean 4.00\nload max 1 mean 0.50\nunused 2 of 4\n"
    both = "hops max 3 mean 3.00\nload max 1 mean 0.33\nunused 4 of 6\n"
    return {
        "a cable that is cut": (
            without_cable(facts, "0000000000000020/2", "0000000000000030/2"),
            plan,
            "hops none\nload max 0 mean 0.00\nunused 4 of 4\n",
        ),
        "packets that go round": (
            facts, room.text("round.plan"), "hops max 3 mean 3.00\nload max 1 mean 0.16\nunused 5 of 6\n"
        ),
        "packets lost behind a channel": (row.facts(), row.plan(tables), one_on_row),
        "an adapter without a LID": (row.facts(), whole.replace("lid 5 0000000001000020/1\n", ""), one_on_row),
        "a switch without tables": (facts, tableless, both),
        # Four pairs of adapters at one switch or leaf take two wires, and two pairs take four.
        "a tree with a cut": (*cut_tree(), "hops max 4 mean 2.66\nload max 2 mean 0.66\nunused 4 of 6\n"),
        # Two pairs take two wires, and two take the cable between the adapters.
        "adapters cabled to each other": (
            cabled.facts(), cabled.plan(cabled.shortest()), "hops max 2 mean 1.50\nload none\nunused 0 of 0\n"
        ),
        # 49 * 48 packets take two wires, and 98 take three. Each channel carries 49.
        "means with two digits behind the point": (
            *of_two(49), "hops max 3 mean 2.04\nload max 49 mean 49.00\nunused 0 of 2\n"
        ),
    }


def figures(room: Room, program: pathlib.Path) -> None:
    """Checks what an audit tells of ways, and of the loads of all channels."""
    for what, (facts, plan, told) in cases(room).items() if os.access(program, os.X_OK) else ():
        (room.path / "lossy.store").write_bytes(store_of(facts))
        room.put(lossy_plan=plan)
        words = [program, "audit", "--loads", "lossy.plan", "lossy.store"]
        printed = subprocess.run(words, cwd=room.path, text=True, capture_output=True).stdout
        loads = re.findall(r"^channel \w+/\d+ load (\d+)$", printed, re.M)
        unused = f"unused {loads.count('0')} of {len(loads)}\n"
        ways = told.removesuffix(unused)
        room.check(ways != told and ways in printed, f"the audit of {what}: {printed}, and not {told}")


def page(room: Room) -> None:
    """Checks that a page tells the loads of an audit, in which packets that do not arrive do not count."""
    facts, plan = cut_tree()
    room.put(lossy_facts=facts, lossy_plan=plan, fake_plan=plan)
    room.scripts(fake=FAKE)
    room.run("report lossy.facts lossy.plan -o lossy.html --ibsm ./fake", 1)
    text = room.text("lossy.html")
    for channel, pairs in ("10 port 4 \u2192 40 port 1", 2), ("10 port 3 \u2192 30 port 1", 0):
        room.check(f"{channel}: {pairs} pairs" in text, f"{channel} carries {pairs} pairs")
    room.check("10 port 4 \u2192 40 port 1: 2 pairs, 3.00 times the mean of 0.66" in text, "and how busy it is")


def the_only_switch(room: Room) -> None:
    """Checks what is lost without the only switch of a subnet, if nothing else is there: its packet to itself is not
    lost."""
    lone = sample_fabrics.Fabric()
    lone.switches(1)
    room.put(lone_facts=lone.facts(), lone_plan=lone.plan(lone.shortest()), fake_plan="")
    room.scripts(fake=FAKE)
    printed = room.run("what-if lone.facts lone.plan --switches --ibsm ./fake", 0).splitlines()
    room.check(printed[1].split() == ["0"] * 5 + ["0000000000000010"], f"without the only switch: {printed}")


def losses(room: Room, program: pathlib.Path) -> None:
    """Checks tools that follow packets, by tables that lose some of them."""
    figures(room, program)
    the_only_switch(room)
    page(room)
