"""What `tests/test-files` checks of inputs of tools: files of each kind, and what is said of those that are none."""
from __future__ import annotations

import json
import os
import pathlib

import paths
import sample_fabrics
import tool_checks
from record_files import store_of
from tool_room import Room

# Stands in for `ibsm`: prints facts that lie beside it, of any recording, and audits.
PRINTS_FACTS = """#!/bin/sh
[ "$1" = facts ] && echo "$*" >>calls && exec cat t.facts
[ "$1" = plan ] && exec cat t.plan
exec AUDITOR "$@"
"""
DUMPS = paths.ROOT / "tests/dumps"


def inputs(room: Room, program: pathlib.Path) -> None:
    """Checks what tools take in place of texts of facts and of tables, and what they say of other files."""
    room.scripts(prints=PRINTS_FACTS)
    (room.path / "t.reports").write_bytes((paths.ROOT / "examples/triangle.reports").read_bytes())
    (room.path / "t.store").write_bytes(store_of(room.text("t.facts")))
    for name in ("ibnetdiscover", "lst", "fts", "lfts", "fdbs", "ibroute", "sl2vl"):
        (room.path / f"dump.{name}").write_bytes((DUMPS / f"triangle.{name}").read_bytes())
    room.put(in_dump=tool_checks.dumped(sample_fabrics.triangle(), sample_fabrics.triangle().shortest(), "fts")[0])
    recorded(room)
    if os.access(program, os.X_OK):
        by_the_program(room, program)
    dumped(room)
    others(room)


def recorded(room: Room) -> None:
    """Checks that tools take a recording or a store file in place of its facts."""
    for words, status in (
        ("draw FACTS", 0), ("draw FACTS --plan t.plan --way 100/1 5 --text", 0), ("draw t.facts --was FACTS", 0),
        ("what-if FACTS t.plan --rows 2", 0), ("topology FACTS", 0), ("json FACTS", 0),
        ("opensm-files check FACTS t.plan t.plan", 0), ("opensm-files tables FACTS in.dump", 0),
    ):
        by_facts = room.run(words.replace("FACTS", "t.facts") + " --ibsm ./prints", status)
        for name in ("t.reports", "t.store"):
            room.put(calls="")
            printed = room.run(words.replace("FACTS", name) + " --ibsm ./prints", status)
            room.check(printed == by_facts, f"{words} of {name}")
            room.check(room.text("calls") == f"facts {name}\n", f"{words}: {name} is read by the program, once")
    room.run("report t.store t.plan -o of.html --ibsm ./prints", 0)
    room.run("report t.facts t.plan -o by.html --ibsm ./prints", 0)
    room.check(room.text("of.html") == room.text("by.html"), "a page of a store file")
    room.check(room.run("compare t.store t.facts --ibsm ./prints", 0) == "equal\n", "a store file and its facts")
    room.prints("compare cut.facts t.reports --ibsm ./prints", 1, "come cable 1\n")
    room.put(calls="")
    room.check(room.run("compare t.reports t.reports --ibsm ./prints", 0) == "equal\n", "recordings by their links")
    room.check(room.text("calls") == "", "which no facts tell")
    room.refused("draw - --ibsm ./prints", "no facts")


def by_the_program(room: Room, program: pathlib.Path) -> None:
    """Checks that the program's own facts are taken."""
    of_facts = room.run("draw t.facts", 0)
    for name in ("t.reports", "t.store"):
        room.check(room.run(f"draw {name} --ibsm {program}", 0) == of_facts, f"{name} as the program reads it")
    room.put(cut_reports="IBSMREP1 and no more")
    room.refused(f"draw cut.reports --ibsm {program}", "truncated at 8")


def dumped(room: Room) -> None:
    """Checks that dumps of other tools are taken where they have what is needed."""
    whole = json.loads(room.run("json t.facts", 0))
    for name in ("dump.ibnetdiscover", "dump.lst"):
        text = room.run(f"draw {name} --hosts none", 0)
        room.check(text.count("shape=box") == 3 and text.count(" -- ") == 3, f"a picture of {name}")
        room.check(room.run(f"topology {name}", 1).count("Switch") == len(whole["caps"]), f"a topology of {name}")
        room.refused(f"report {name} t.plan -o x.html --ibsm ./prints", "a dump of nodes and cables: from-dumps takes")
        room.refused(f"draw {name} --plan t.plan --way 1 2 --text", "FACTS is a recording, a store file, or what")
    room.run("compare dump.ibnetdiscover dump.ibnetdiscover", 0)
    for name in ("fts", "ibroute", "opensm"):
        dump, claims = tool_checks.dumped(sample_fabrics.triangle(), sample_fabrics.triangle().shortest(), name)
        room.put(a_dump=dump, claims_facts=claims)
        printed = room.run("what-if claims.facts a.dump --ibsm ./prints --rows 2", 0)
        room.check(
            printed == room.run("what-if claims.facts t.plan --ibsm ./prints --rows 2", 0), f"tables that {name} wrote"
        )
    text = room.run("draw claims.facts --plan a.dump --way 100/1 5 --text --ibsm ./prints", 0)
    room.check(text.endswith("LID 5 is 0000000000000200/1, 3 cables\n"), "a way by a dump of tables")


def others(room: Room) -> None:
    """Checks that what is no input is told with what it is, and what is wanted."""
    room.run("draw t.facts", 0)
    room.put(a_dot=room.out, an_audit="pairs 1 arrive 1\n", packed="\x1f", a_topology=room.run("topology t.facts", 0))
    (room.path / "packed").write_bytes(b"\x1f\x8b\x08\x00")
    for words, told in (
        ("draw t.plan", "t.plan: this is a text of tables: it is TABLES of report, what-if and `ibsm audit`, and draw "
         "takes it by --plan; FACTS is a recording, a store file, what `ibsm facts` prints of them, or a dump"),
        ("draw dump.fts", "this is a dump of forwarding tables: from-dumps and `opensm-files tables` take it; FACTS"),
        ("draw an.audit", "this is an audit: json and names take it; FACTS"),
        ("draw a.topology", "this is a topology: `ibsm run` takes it; FACTS"),
        ("draw a.dot", "this is a picture as DOT"),
        ("draw packed", "this is packed: unpack it first; FACTS"),
        ("draw t.svg", "this is a page or a picture: a browser shows it; FACTS"),
        ("draw all.names", "this is a node name map: tools take it by --names; FACTS"),
        ("draw tops", "this is a list of GUIDs, as roots or an order: plans take it by --roots or --order; FACTS"),
        ("report t.facts t.facts -o x.html --ibsm ./prints", "this is a text of facts: draw, report, what-if,"),
        ("what-if t.facts t.store --ibsm ./prints", "this is a store file: `ibsm facts` prints its facts; TABLES is"),
        ("opensm-files check t.facts t.plan t.facts", "this is a text of facts"),
        ("opensm-files tables t.facts t.plan", "this is a text of tables"),
        ("links t.facts", "this is a text of facts: draw, report, what-if, topology, find-order and compare take it, "
         "and so does json; RECORDING is what `record` wrote, since no text has widths and speeds"),
        ("links t.store", "this is a store file"),
        ("from-dumps t.reports", "this is a recording: `ibsm facts` prints its facts, and links its widths and speeds; "
         "DUMP is what another tool dumped"),
        ("from-dumps t.facts", "this is a text of facts"),
        ("compare t.plan t.facts", "one has tables, and t.facts: this is a text of facts"),
        ("compare dump.sl2vl t.facts", "this is a dump of lanes or service levels"),
        ("json tops", "this is a list of GUIDs, as roots or an order: plans take it by --roots or --order; FILE is"),
        ("names t.facts", "this is a text of facts"),
        ("topology map2", "line 1 is no fact: nothing of the kind"),
        ("json map2", "this is none of the files and texts that ibsm and its tools know; FILE is one of"),
    ):
        room.put(map2="nothing of the kind\n")
        room.refused(words, told)
