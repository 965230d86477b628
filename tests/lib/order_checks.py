"""What `tests/test-files` checks of the search for an order of switches."""
from __future__ import annotations

import os
import pathlib
import re
import shutil
import signal
import subprocess
import sys
import time

import paths
import sample_fabrics as make
from sample_fabrics import SWITCH, Fabric
from tool_room import Room

TOLD = re.compile(r"busiest channel ([0-9]+) at the start, ([0-9]+) now.*; nothing can be below ([0-9]+)\n")
QUICK = "--trials 200 --threads 2 --search c/search"
# Notes that it has begun, and then runs the search.
SLOW = """#!/bin/sh
: >begun
exec c/search "$@"
"""
ORDERS = (
    ("10\n# a comment\n\n0x20 30\n", "line 4: syntax"),
    ("0x10\nten\n", "line 2: syntax"),
    ("10\n0x00\n", "line 2: guid"),
    ("12345678901234567\n", "line 1: guid"),
    ("10\n0x20\n0x0010\n", "line 3: repeated"),
)


def with_gaps() -> Fabric:
    """Returns a ring of six in which each switch has adapters at ports 1, 3 and 5."""
    fabric = Fabric()
    switches = fabric.switches(6)
    fabric.hosts(switches)
    for one, other in zip(switches, switches[1:] + switches[:1]):
        fabric.join(one, other)
    for i, switch in enumerate(switches * 2):
        fabric.join(fabric.add(make.ADAPTER, f"X{i}", 0x2000000 + 16 * i, 1), switch)
        if i < 3:
            fabric.join(switch, switches[i + 3])
    return fabric


def with_guid_zero() -> Fabric:
    """Returns a torus in which a switch has the GUID 0, which no order can name."""
    fabric = make.torus(3, 3)
    kind, _, ports = fabric.nodes["S5"]
    fabric.add(kind, "S5", 0, ports)
    return fabric


def switches_alone(count: int) -> Fabric:
    """Returns switches without any cable."""
    fabric = Fabric()
    for i in range(1, count + 1):
        fabric.add(SWITCH, f"S{i}", 16 * i, 2)
    return fabric


FABRICS = {
    "a triangle": make.triangle(),
    "a torus": make.torus(5, 4),
    "a dragonfly": make.dragonfly(5, 4, 2),
    "a tree": make.two_levels(5, 3, 4),
    "a random fabric": make.random_fabric(14, 4, 40),
    "gaps between ports of adapters": with_gaps(),
    "two components": make.apart(),
    "wires side by side, and from a switch to itself": make.with_double_wires(),
    "adapters with two ports": make.two_ports(4),
    "GUID 0": with_guid_zero(),
    "no adapters": make.without_adapters(9),
    "one switch": make.line(1),
    "no cable": switches_alone(3),
    "no switch": switches_alone(0),
}


def told(room: Room) -> tuple[int, int, int]:
    """Returns what the last search said of the busiest channel: at the start, now, and at least."""
    found = TOLD.search(room.said)
    room.check(found, "the search tells of the busiest channel")
    return tuple(map(int, found.groups()))


def orders_found(room: Room, program: pathlib.Path) -> None:
    """Checks that what is printed is an order of all switches, and that what is told of it is what an audit counts."""
    is_there = os.access(program, os.X_OK)
    if not is_there:
        print("test-files: there is no program here, so no audit of a plan by an order is tried")
    for what, fabric in FABRICS.items():
        room.put(o_facts=fabric.facts())
        words = f"--ibsm {program}" if is_there else "--no-audit"
        printed = room.run(f"find-order o.facts {QUICK} {words}", 0).splitlines()
        guids = sorted(fabric.guid(name) for name in fabric.nodes if fabric.is_switch(name) and fabric.guid(name))
        room.check(sorted(int(line, 16) for line in printed) == guids, f"{what}: all switches are in the order")
        room.check(all(re.fullmatch("0x[0-9a-f]{16}", line) for line in printed), f"{what}: the form of an order")
        start, found, least = told(room)
        room.check(least <= found <= start, f"{what}: {start}, {found}, at least {least}")
        room.check(not is_there or "counts the same" in room.said, f"{what}: an audit counts the same")


def searches_repeated(room: Room) -> None:
    """Checks that equal searches print equal orders, that a search goes on from an order, and what it brings."""
    room.put(o_facts=make.random_fabric(50, 5, 200).facts())
    words = f"find-order o.facts {QUICK} --no-audit"
    printed = room.run(f"{words} --seed 3", 0)
    first = told(room)
    room.check(first[1] < 0.9 * first[0], f"a random fabric gets a tenth less busy: {first}")
    room.check(room.run(f"{words} --seed 3 -o o.order", 0) == "" and room.text("o.order") == printed, "the same order")
    room.check(told(room) == first, "the same figures")
    room.check(room.run(f"{words} --seed 4", 0) != printed, "another seed, another order")
    room.run(f"{words} --from o.order", 0)
    room.check(told(room)[0] == first[1], f"it begins with the order that it is given: {told(room)}")
    again = room.run("find-order o.facts --seconds 0 --search c/search --no-audit --from o.order", 0)
    room.check(again == printed, "without time the order stays")
    room.put(some_order="0x50\n# no more\nffff\n")
    room.run(f"{words} --from some.order", 0)
    room.check(len(room.out.splitlines()) == 50, "an order that names one of the switches is completed")


def searches_refused(room: Room) -> None:
    """Checks which orders, facts and options are refused."""
    fabric = make.triangle()
    facts = fabric.facts()
    room.put(o_facts=facts, o_cut=facts[:-3], o_plan=fabric.plan(fabric.shortest()))
    for text, why in ORDERS:
        room.put(bad_order=text)
        room.refused(f"find-order o.facts {QUICK} --from bad.order", why)
    room.refused(f"find-order o.plan {QUICK}", "this is a text of tables")
    room.refused(f"find-order o.cut {QUICK}", "is it cut?")
    room.refused(f"find-order nothing {QUICK}", "nothing", 4)
    room.refused(f"find-order o.facts {QUICK} --from nothing", "nothing", 4)
    room.refused(f"find-order o.facts {QUICK} -o nowhere/order", "nowhere", 4)
    room.refused("find-order o.facts --search ./nothing", "no program ./nothing", 4)
    room.refused(f"find-order o.facts {QUICK} --ibsm ./nothing", "no program ./nothing", 4)
    for words in ("", "--seconds one", "--trials 0", "--seconds 1 --trials 1", "--threads 0", "--sing"):
        room.run(f"find-order {'o.facts ' if words else ''}{words}", 2)


def signal_sent(room: Room) -> None:
    """Checks that a signal ends the search, and that the order so far is written."""
    room.put(o_facts=make.dragonfly(9, 4, 2).facts(), slow=SLOW)
    (room.path / "slow").chmod(0o755)
    for number in (signal.SIGTERM, signal.SIGINT):
        words = [sys.executable, paths.TOOLS / "find-order", "o.facts", "--search", "./slow", "-o", "stopped"]
        with subprocess.Popen(words, cwd=room.path, stderr=subprocess.PIPE, text=True) as run:
            began = time.monotonic()
            while not (room.path / "begun").exists() and time.monotonic() - began < 20:
                time.sleep(0.02)
            time.sleep(0.4)
            run.send_signal(number)
            said = run.stderr.read()
        room.check(run.returncode == 0 and time.monotonic() - began < 20, f"{number.name} ends it: {said}")
        room.check(len(room.text("stopped").splitlines()) == 36 and TOLD.search(said), "the order is written")
        for name in ("begun", "stopped"):
            (room.path / name).unlink()


def orders(room: Room, program: pathlib.Path) -> None:
    """Makes the search, and checks what it prints and refuses."""
    if not (shutil.which("make") and shutil.which("cc")):
        print("test-files: there is no make or C compiler here, so no search for an order is tried")
        return
    words = [f"BUILD={room.path / 'c'}", "CFLAGS=-O2 -Wall -Wextra -Werror"]
    made = subprocess.run(["make", "-s", "-C", paths.TOOLS / "search", *words], capture_output=True, text=True)
    room.check(made.returncode == 0, f"the search is made: {made.stderr}")
    orders_found(room, program)
    searches_repeated(room)
    searches_refused(room)
    signal_sent(room)
