"""What `tests/test-files` checks of from-dumps, and of topologies for ibsim. tests/dumps/ has what ibnetdiscover,
OpenSM and dump_fts wrote of two fabrics of ibsim: the triangle, also with LMC 1, and a tree of two lower switches below
two higher ones."""
from __future__ import annotations

import shutil

import paths
import record_files
import sample_fabrics
from built_program import plan_lines
from tool_room import Room

# For each fabric, as `record --tables` read it: the LID of each end port, and the ports of each switch for all LIDs
# from the least on.
LIDS = {
    "triangle": {("H1", 1): 1, ("H2", 1): 2, ("S1", 0): 3, ("S2", 0): 4, ("S3", 0): 5},
    "triangle-lmc": {("H1", 1): 2, ("H2", 1): 4, ("S1", 0): 6, ("S2", 0): 7, ("S3", 0): 8},
    "tree": {
        **{("H1", 1): 1, ("H2", 1): 4, ("H3", 1): 6, ("H4", 1): 8},
        **{("S1", 0): 2, ("S2", 0): 3, ("S3", 0): 5, ("S4", 0): 7},
    },
}
WAYS = {
    "triangle": {"S1": (1, 2, 0, 1, 2), "S2": (3, 2, 1, 0, 2), "S3": (2, 3, 1, 2, 0)},
    "triangle-lmc": {"S1": (1, 1, 2, 2, 0, 1, 2), "S2": (3, 3, 2, 2, 1, 0, 2), "S3": (2, 2, 3, 3, 1, 2, 0)},
    "tree": {
        "S1": (1, 0, 3, 2, 3, 3, 4, 4),
        "S2": (3, 3, 0, 4, 3, 1, 4, 2),
        "S3": (1, 1, 2, 1, 0, 2, 1, 2),
        "S4": (1, 1, 2, 1, 1, 2, 0, 2),
    },
}
FABRICS = {"triangle": sample_fabrics.triangle(), "tree": sample_fabrics.two_levels(2, 2, 2)}
DOWN = {"triangle": 4, "tree": 4}


def wanted(name: str, cap: int = 1024, generation: int = 1) -> tuple[str, str]:
    """Returns the facts and the tables of fabric `name` at the time of its dumps."""
    fabric, lids = FABRICS[name.partition("-")[0]], LIDS[name]
    facts = fabric.facts().replace(" 1024 @1", f" {cap} @1")
    for (node, port), lid in lids.items():
        claim = f"claim {fabric.guid(node):016x}/{port}"
        facts = facts.replace(f"{claim} 0 ", f"{claim} {lid} ")
    least, lmc = min(lids.values()), int(name.endswith("-lmc"))
    tables = {fabric.guid(switch): dict(enumerate(ports, least)) for switch, ports in WAYS[name].items()}
    ends = {lid: (fabric.guid(node), port) for (node, port), lid in lids.items()}
    return facts.replace("@1\n", f"@{generation}\n"), "\n".join(plan_lines(ends, tables, lmc)) + "\n"


def turned(room: Room, words: str, facts: str, status: int = 0) -> None:
    """Checks that from-dumps writes the store file of `facts`."""
    printed = room.run(f"from-dumps {words}", status).encode(errors="surrogateescape")
    room.check(printed == record_files.store_of(facts), f"from-dumps {words}: the facts")


def from_dumps(room: Room) -> None:
    """Checks what from-dumps makes of each form of dump, of parts of dumps, and of LMCs."""
    shutil.copytree(paths.ROOT / "tests/dumps", room.path, dirs_exist_ok=True)
    for name in FABRICS:
        facts, tables = wanted(name)
        for links in ("ibnetdiscover", "lst"):
            for form in ("fts", "lfts", "fdbs"):
                turned(room, f"{name}.{links} {name}.{form} --cap 1024 --tables held", facts)
                room.check(room.text("held") == tables, f"the tables of {name}.{form}, with {name}.{links}")
        turned(room, f"{name}.lst {name}.ibnetdiscover --cap 1024", facts)
        said = f"{DOWN[name]} ports of switches are taken as down: "
        room.check(said in room.said, "what is taken for granted is said")
    turned(room, "triangle.lst --cap 49152 --generation 77", wanted("triangle", 49152, 77)[0])
    facts = "".join(line for line in wanted("triangle")[0].splitlines(True) if not line.startswith("cap "))
    turned(room, "triangle.lst", facts, 1)
    room.check("3 switches: no dump tells the size of a forwarding table" in room.said, "no size is made up")
    lmcs(room)
    parts(room)
    forms(room)
    faults(room)


def lmcs(room: Room) -> None:
    """Checks the ways to give an LMC: by ibnetdiscover, by the names of dump_fts, or by an option."""
    facts, tables = wanted("triangle-lmc")
    dumps = "triangle-lmc.lst triangle-lmc.fdbs --cap 1024 --tables held"
    turned(room, f"{dumps} --lmc 1", facts)
    room.check(room.text("held") == tables and "LMC" not in room.said, "both LIDs of an adapter's port")
    turned(room, dumps, facts, 1)
    room.check(room.text("held") == tables.replace(" lmc 1", ""), "without an LMC the other LIDs have entries alone")
    room.check("2 ports of adapters are taken to have LMC 0" in room.said, "an LMC is not made up in silence")
    room.check("2 LIDs, from 3 on, have entries, and no dump tells whose they are" in room.said, "LIDs of nobody")
    turned(room, "triangle-lmc.ibnetdiscover triangle-lmc.fdbs --cap 1024 --tables held", facts)
    room.check(room.text("held") == tables, "the LMC that ibnetdiscover tells")
    named_lids(room)


# A switch with LID 1 and an adapter with LID 2, and what dump_fts prints of the switch if no packet for the adapter's
# first LID leaves it.
LST = (
    "{ SW Ports:02 SystemGUID:10 NodeGUID:10 PortGUID:10 VenID:0 DevID:0 Rev:0 {s} LID:0001 PN:01 } "
    "{ CA Ports:01 SystemGUID:20 NodeGUID:20 PortGUID:21 VenID:0 DevID:0 Rev:0 {h} LID:0002 PN:01 } "
    "PHY=4x LOG=ACT SPD=10\n"
)
FTS = """Unicast lids [0x0-0x3] of switch Lid 1 guid 0x0000000000000010 (s):
0x0001 000 : (Switch portguid 0x0000000000000010: 's')
0x0003 001 : (Channel Adapter portguid 0x0000000000000021: 'h')
2 valid lids dumped
"""


def named_lids(room: Room) -> None:
    """Checks the LMC of an adapter's port of which a dump of tables names the second LID, the first one, or both."""
    both = FTS.replace("0x0003", "0x0002 001 : (Channel Adapter portguid 0x0000000000000021: 'h')\n0x0003")
    both = both.replace("2 valid", "3 valid")
    room.put(one_lst=LST, second_fts=FTS, first_fts=FTS.replace("0x0003", "0x0002"), both_fts=both)
    for dump, options, lmc in (
        ("second.fts", "--lmc 1", " lmc 1"),
        ("first.fts", "--lmc 1", " lmc 1"),
        ("first.fts", "--lmc 0", ""),
        ("first.fts", "", ""),
        ("both.fts", "", " lmc 1"),
        ("both.fts", "--lmc 0", " lmc 1"),
        ("both.fts", "--lmc 2", " lmc 1"),
    ):
        room.run(f"from-dumps one.lst {dump} --cap 64 --tables held {options}", int(dump != "both.fts" and bool(lmc)))
        lids = [line for line in room.text("held").splitlines() if line.startswith("lid ")]
        room.check(lids == ["lid 1 0000000000000010/0", f"lid 2 0000000000000020/1{lmc}"], f"{dump} {options}: {lids}")
        room.check("LMC" not in room.said, f"{dump} {options}: no LMC is assumed")
    for options in "", "--lmc 0":
        room.refused(
            f"from-dumps one.lst second.fts --cap 64 --tables held {options}",
            "port 0000000000000020/1 claims LID 2, and the dumps give it 3: are they of one time?",
        )


def parts(room: Room) -> None:
    """Checks tables of a single switch, a port that is down, and an unknown GUID."""
    facts, tables = wanted("triangle")
    turned(room, "triangle.lst triangle.ibroute --cap 1024 --tables held", facts, 1)
    head = tables.index("switch ")
    room.check(
        room.text("held") == tables[:head] + tables[head : tables.index("switch ", head + 1)], "the tables of a switch"
    )
    room.check("switch 0000000000000020 is in no dump; so it is 2 times\n" in room.said, "the others are told")
    room.put(dark_lst=room.text("triangle.lst").replace("LOG=ACT", "LOG=DWN"))
    down = facts.replace(" up @", " down @").replace("0/0 down @", "0/0 up @")
    turned(room, "dark.lst --cap 1024", down)
    room.put(old_ibnd="".join(room.text("triangle.ibnetdiscover").replace(f"({it})\n", "\n") for it in ("30",)))
    without = facts.replace("portguid 0000000000000030/0 0000000000000030 @1\n", "")
    turned(room, "old.ibnd --cap 1024", without, 1)
    room.check("1 switches: no dump tells the GUID of port 0" in room.said, "old ibnetdiscover tells no port GUIDs")
    for dump in "triangle.fts", "triangle.lfts", "triangle.fdbs":
        turned(room, f"old.ibnd {dump} --cap 1024 --tables held", without, 1)
        room.check(room.text("held") == tables, f"its LID is that of port 0, beside {dump}")
        room.check("whose they are" not in room.said, f"and has an owner: {room.said}")
    other = room.text("triangle.fts").replace("portguid 0x0000000000000030", "portguid 0x0000000000000020")
    room.put(other_fts=other)
    room.refused("from-dumps old.ibnd other.fts --cap 1024 --tables held", "claims LID 4, and the dumps give it 4, 5")
    last = "{ SW Ports:04 SystemGUID:0000000000000030"
    half = "".join(line for line in room.text("triangle.lst").splitlines(True) if not line.startswith(last))
    room.put(half_lst=half)
    turned(room, "half.lst --cap 1024", facts)


def forms(room: Room) -> None:
    """Checks other forms that the dumping tools write, and node names that look like something else."""
    facts, _ = wanted("triangle")
    text = room.text("triangle.ibnetdiscover")
    grouped = text.replace("\nvendid", "\nNon-Chassis Nodes\n\nvendid", 1).replace("(30)\n", "(30)\t# \n")
    grouped = grouped.replace("sysimgguid=0x30\n", "sysimgguid=0x30\t\t# Chassis 1\n")
    grouped = grouped.replace("4xSDR\n", "4xSDR s=1 w=2 v=4\n")
    grouped = grouped.replace('[1]\t"S-0000000000000010"[2]\t', '[1][ext 5]\t"S-0000000000000010"[2][ext 6]\t')
    room.put(grouped_ibnd=grouped.replace('"S1"', '"a "lid 7" [3] # \xfc"'))
    room.put(osm_fdbs=room.text("triangle.fdbs").replace("dump_", "osm_ucast_mgr_dump_"))
    turned(room, "grouped.ibnd --cap 1024", facts)
    head = "# This database file was automatically generated by IBDIAG\n# Timestamp : 1\n"
    room.put(diag_lst=head + room.text("triangle.lst"), diag_fdbs=head + room.text("osm.fdbs"))
    turned(room, "diag.lst diag.fdbs --cap 1024 --tables held", facts)
    room.put(odd_lst=room.text("triangle.lst").replace("{S1}", "{} LID: {x}").replace("\n", "\r\n"))
    turned(room, "odd.lst osm.fdbs --cap 1024 --tables held", facts)
    room.check(
        room.run("opensm-files tables t.facts triangle.fdbs", 0) != "" and "block 0 ff0102000102ff" in room.out,
        "opensm-files reads .fdbs too",
    )


def faults(room: Room) -> None:
    """Checks that nothing is written if lines are not understood or dumps contradict each other."""
    one, two = f"{0x10:016x}", f"{0x20:016x}"
    for source, old, new, why in (
        ("triangle.ibnetdiscover", "[3]\t", "[3] to ", "line 13 is not understood: [3] to "),
        ("triangle.ibnetdiscover", 'Switch\t4 "S-', 'Switch\t255 "S-', "line 10 has a node with 255 ports"),
        ("triangle.ibnetdiscover", 'Switch\t4 "S-', 'Ca\t4 "S-', "line 10 is not understood"),
        ("triangle.ibnetdiscover", "switchguid=0x30", "switchguid=0x31", "line 10 is not understood"),
        ("triangle.ibnetdiscover", '"S1" lid 3', '"S1" lid 9', f"`3` for the claim of {one}/0, and bad, line 11, `9`"),
        (
            "triangle.ibnetdiscover",
            '0010"[2]',
            '0010"[1]',
            f"line 20 says `{two}/1` for the link of {one}/1, and bad, line 11",
        ),
        ("triangle.ibnetdiscover", '"S-0000000000000010"[2]', '"S-00000000000000aa"[2]', "line 21 says"),
        ("triangle.ibnetdiscover", "\nCa\t1", "\nCa\t0", "has a node with 0 ports"),
        ("triangle.ibnetdiscover", "# lid 2 lmc 0", "# lid 65536 lmc 0", "has LID 65536"),
        ("triangle.lst", "LOG=ACT", "LOG=ODD", "line 1 is not understood: { CA-SM Ports:01"),
        ("triangle.lst", "PN:03 }", "PN:05 }", "line 7 says"),
        ("triangle.lst", "{H1} LID:0001", "{H1} LID:0009", "line 7 says `1` for the claim of 0000000000000100/1, and"),
        ("triangle.lst", "CA Ports:01", "SW Ports:01", "line 10 says `ca 1` for the node of 0000000000000200, and bad"),
        ("triangle.fdbs", "0x0001 : 001", "0x0001 ; 001", "line 3 has no LID and port"),
        ("triangle.fdbs", "0x0002 : 002", "0x0001 : 002", f"line 4: switch {one} has another port for LID 1 further"),
        ("triangle.fdbs", "LID    : Port", "LID    : Gate", "line 2 is no line of a dump of tables: LID    : Gat"),
        ("triangle.fdbs", ": 001 ", ": 256 ", "has an entry over 255"),
        ("triangle.fts", "  Lid  Out", "  Lib  Out", "line 2 is no line of a dump of tables"),
    ):
        text = room.text(source)
        room.check(old in text, f"{source} has `{old}`")
        room.put(bad=text.replace(old, new, 1), held="before")
        others = "" if source.endswith(("lst", "ibnetdiscover")) else "triangle.lst"
        room.refused(f"from-dumps {others} bad --cap 1024" + (" --tables held" if others else ""), why)
        room.check(room.out == "" and room.text("held") == "before", f"nothing is written: {why}")
    lines = room.text("triangle.ibnetdiscover").splitlines(True)
    room.put(cut_ibnd="".join(lines[:30]), short_ibnd="".join(lines)[:-3], empty="\n")
    room.refused("from-dumps cut.ibnd", "cut.ibnd: line 13 names 0000000000000200, which no line describes: is the")
    room.refused("from-dumps short.ibnd", "is it cut?")
    room.put(low_lst=room.text("triangle.lst").replace("PN:03", "PN:06"))
    room.refused("from-dumps low.lst", "line 1 names port 0000000000000020/6, and the node has 4 ports")
    contradictions(room)
    room.refused("from-dumps empty", "this is empty")
    room.refused("from-dumps t.plan", "this is a text of tables")
    room.refused("from-dumps triangle.fts --tables held", "no dump tells of nodes and cables")
    room.refused("from-dumps triangle.lst --tables held", "no dump is one of tables")
    room.refused("from-dumps nothing", "nothing", 4)
    room.refused("from-dumps triangle.lst triangle.fts --tables nowhere/held", "nowhere", 4)
    room.check(room.out == "", "no store is written without the tables")
    room.run("from-dumps triangle.lst triangle.fts --tables ./triangle.fts", 2)
    for words in ("", "triangle.lst triangle.fts", "triangle.lst --cap 0", "triangle.lst --cap 49153"):
        room.run(f"from-dumps {words}", 2)
    for words in ("--generation 0", "--generation 4294967296", "--lmc 8", "--cap -1", "--cap x"):
        room.run(f"from-dumps triangle.lst {words}", 2)
    room.check(room.text("held") == "before", "tables are as they were")


def contradictions(room: Room) -> None:
    """Checks dumps that were taken at different times."""
    moved = room.text("triangle.lst").replace("{S3} LID:0005", "{S3} LID:0006")
    room.put(moved_lst=moved, other_fts=room.text("triangle.fts").replace("0x0001 002", "0x0001 001", 1))
    room.refused(
        "from-dumps triangle.ibnetdiscover moved.lst",
        "moved.lst: line 2 says `6` for the claim of 0000000000000030/0, and triangle.ibnetdiscover, line 10, `5`: "
        "are these dumps of two times?",
    )
    room.refused(
        "from-dumps triangle.lst triangle.fts other.fts --tables held",
        "other.fts: line 4: switch 0000000000000030 has another port for LID 1 in triangle.fts: are these dumps of two",
    )
    room.refused(
        "from-dumps triangle-lmc.lst triangle.fts --tables held",
        "claims LID 6, and the dumps give it 3: are they of one time?",
    )
    room.check(room.text("held") == "before", "tables of two times are not written")


# The triangle for ibsim. The ports claim LIDs 3, 4, 5, 1 and 2.
NETLIST = """# ibsim -s -N 5 -S 3 -P 19 -L 512 FILE
# and for programs under libumad2sim.so: SIM_HOST="H-0000000000000100"

caguid=0x100
Ca\t1 "H-0000000000000100"\t\t# "one"
[1](101)\t"S-0000000000000020"[3]\t\t# lid 1 lmc 0 "0000000000000020" lid 4 4xSDR

caguid=0x200
Ca\t1 "H-0000000000000200"\t\t# "10"
[1](201)\t"S-0000000000000030"[3]\t\t# lid 2 lmc 0 "0000000000000030" lid 5 4xSDR

switchguid=0x10(10)
Switch\t4 "S-0000000000000010"\t\t# "root" base port 0 lid 3 lmc 0
[1]\t"S-0000000000000020"[1]\t\t# "0000000000000020" lid 4 4xSDR
[2]\t"S-0000000000000030"[1]\t\t# "0000000000000030" lid 5 4xSDR

switchguid=0x20(20)
Switch\t4 "S-0000000000000020"\t\t# "0000000000000020" base port 0 lid 4 lmc 0
[1]\t"S-0000000000000010"[1]\t\t# "root" lid 3 4xSDR
[2]\t"S-0000000000000030"[2]\t\t# "0000000000000030" lid 5 4xSDR
[3]\t"H-0000000000000100"[1](101)\t\t# "one" lid 1 4xSDR

switchguid=0x30(30)
Switch\t4 "S-0000000000000030"\t\t# "0000000000000030" base port 0 lid 5 lmc 0
[1]\t"S-0000000000000010"[2]\t\t# "root" lid 3 4xSDR
[2]\t"S-0000000000000020"[2]\t\t# "0000000000000020" lid 4 4xSDR
[3]\t"H-0000000000000200"[1](201)\t\t# "10" lid 2 4xSDR
"""


def netlists(room: Room) -> None:
    """Checks facts written as a netlist of ibsim."""
    facts = room.text("t.facts").replace(" 1024 @1", " 512 @1")
    for end, lid in (("10/0", 3), ("20/0", 4), ("30/0", 5), ("100/1", 1), ("200/1", 2)):
        claim = f"claim {end.rjust(18, '0')}"
        room.check(f"{claim} 0 @" in facts, f"{claim} stands in the facts")
        facts = facts.replace(f"{claim} 0 ", f"{claim} {lid} ")
    room.put(lids_facts=facts)
    room.check(room.run("topology lids.facts --names plain --ibsim", 0) == NETLIST, "the triangle for ibsim")
    room.put(net=NETLIST)
    printed = room.run("from-dumps net --cap 512", 0).encode(errors="surrogateescape")
    room.check(printed == record_files.store_of(facts), "it reads as ibnetdiscover's output, with these facts")
    room.put(other_facts=facts.replace("cap 0000000000000020 512", "cap 0000000000000020 1024"))
    room.check(room.run("topology other.facts --names plain --ibsim", 1) == NETLIST, "tables are as the smallest")
    said = "switch 0000000000000020: its table has room for 1024 LIDs, and for 512 here"
    room.check(said in room.said, "which is said")
    room.put(no_caps="".join(line for line in facts.splitlines(True) if not line.startswith("cap")))
    room.check(" -L 49152 FILE\n" in room.run("topology no.caps --ibsim", 1), "tables whose size is not known")
    said = "switch 0000000000000010: the size of its table is not known, and is 49152 here"
    room.check(said in room.said, "are said")
    room.check("# \"0000000000000100\"\n" in room.out, "without a map a node is described by its GUID")
    for texts, why in (("down.facts", "left out: it is down"), ("twins.facts", "has port GUID 0000000000000101")):
        room.run(f"topology {texts} --ibsim", 1)
        room.check(why in room.said, f"what is left out for ibsim is said: {why}")
    room.prints("topology many.facts --ibsim", 0, "# ibsim -s -N 1025 -S 300 -P ")
    room.refused("topology none --ibsim", "no nodes")
