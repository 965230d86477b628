"""What `tests/test-files` checks of json: each line of each text, and texts that are cut or of no form."""
from __future__ import annotations

import json

from tool_checks import FAKE
from tool_room import Room

ONE, TWO, THREE, HOST, OTHER = (f"{guid:016x}" for guid in (0x10, 0x20, 0x30, 0x100, 0x200))
FACTS = f"""floor 3
node {ONE} switch 4 @3
node {TWO} disputed @4
node {HOST} ca 1 @3
portguid {HOST}/1 0000000000000101 @3
link {HOST}/1 {ONE}/2 @3
port {ONE}/2 up @3
port {ONE}/3 disputed @4
port {ONE}/4 down @4
claim {HOST}/1 7 @3
cap {ONE} 1024 @3
"""
FACTS_VALUE = {
    "form": "facts",
    "floor": 3,
    "nodes": [
        {"guid": ONE, "type": "switch", "ports": 4, "generation": 3},
        {"guid": TWO, "disputed": True, "generation": 4},
        {"guid": HOST, "type": "ca", "ports": 1, "generation": 3},
    ],
    "portguids": [{"end": f"{HOST}/1", "portguid": "0000000000000101", "generation": 3}],
    "links": [{"end": f"{HOST}/1", "far": f"{ONE}/2", "generation": 3}],
    "ports": [
        {"end": f"{ONE}/2", "state": "up", "generation": 3},
        {"end": f"{ONE}/3", "disputed": True, "generation": 4},
        {"end": f"{ONE}/4", "state": "down", "generation": 4},
    ],
    "claims": [{"end": f"{HOST}/1", "lid": 7, "generation": 3}],
    "caps": [{"guid": ONE, "size": 1024, "generation": 3}],
}
TABLES = f"lid 1 {ONE}/0\nlid 4 {HOST}/1 lmc 2\nswitch {ONE} top 70\nblock 1 {'02' * 64}\nswitch {TWO} top 0\n"
TABLES_VALUE = {
    "form": "tables",
    "lids": [{"lid": 1, "end": f"{ONE}/0", "lmc": 0}, {"lid": 4, "end": f"{HOST}/1", "lmc": 2}],
    "switches": [
        {"guid": ONE, "top": 70, "blocks": [{"block": 1, "entries": [2] * 64}]},
        {"guid": TWO, "top": 0, "blocks": []},
    ],
}


def judged(lines: str, *fails: str) -> str:
    """Returns the text of an audit with these lines, and the last one, with what fails."""
    return f"{lines}passes {'no: ' + ', '.join(fails) if fails else 'yes'}\n"


SOUND_LINES = """pairs 25 arrive 25
between adapters pairs 4 arrive 4
with a switch pairs 21 arrive 21
missed above-top 0 no-entry 0 no-port 0 no-link 0 foreign 0 misdelivered 0 round 0
hops max 3 mean 3.00
load max 1 mean 0.33
credit loop none
"""
UNSOUND_LINES = f"""pairs 25 arrive 9
between adapters pairs 4 arrive 2
with a switch pairs 21 arrive 7
missed above-top 1 no-entry 2 no-port 3 no-link 4 foreign 5 misdelivered 6 round 7
lost {HOST}/1 2 at {TWO} by 9: no such port
lost {HOST}/1 3 at {OTHER}: foreign port
more lost 18
misdelivered {HOST}/1 4 at {OTHER}/1
round {HOST}/1 5
unowned 6 {OTHER}/2
twice 4 {OTHER}/1
unknown 00000000000000aa
tableless {THREE}
unusable 00000000000000bb
lidless {THREE}/0
unjoined {ONE}/4
disputed 2
hops none
load none
credit loop on one lane {ONE}/1 {TWO}/2 {THREE}/1
"""
UNSOUND_FAILS = "pairs", "tableless", "unusable", "lidless", "credit loop"
SOUND, UNSOUND = judged(SOUND_LINES), judged(UNSOUND_LINES, *UNSOUND_FAILS)
NOTHING = {"lost": [], "misdelivered": [], "round": [], "unowned": [], "twice": [], "unknown": [], "tableless": []}
NOTHING |= {"unusable": [], "lidless": [], "unjoined": []}
CAUSES = ("above_top", "no_entry", "no_port", "no_link", "foreign", "misdelivered", "round")
SOUND_VALUE = {
    **{"form": "audit", "passes": True, "fails": [], "pairs": 25, "arrive": 25},
    "between_adapters": {"pairs": 4, "arrive": 4},
    "with_a_switch": {"pairs": 21, "arrive": 21},
    "missed": dict.fromkeys(CAUSES, 0),
    **NOTHING,
    "more": {},
    "disputed": 0,
    "hops": {"max": 3, "mean": 3.0},
    "load": {"max": 1, "mean": 0.33},
    "credit_loop": [],
    **{"lanes": None, "loads": [], "way": None},
}
UNSOUND_VALUE = {
    **{"form": "audit", "passes": False, "fails": [*UNSOUND_FAILS], "pairs": 25, "arrive": 9},
    "between_adapters": {"pairs": 4, "arrive": 2},
    "with_a_switch": {"pairs": 21, "arrive": 7},
    "missed": dict(zip(CAUSES, range(1, 8))),
    "lost": [
        {"from": f"{HOST}/1", "lid": 2, "at": TWO, "entry": 9, "cause": "no such port"},
        {"from": f"{HOST}/1", "lid": 3, "at": OTHER, "cause": "foreign port"},
    ],
    "misdelivered": [{"from": f"{HOST}/1", "lid": 4, "at": f"{OTHER}/1"}],
    "round": [{"from": f"{HOST}/1", "lid": 5}],
    "unowned": [{"lid": 6, "end": f"{OTHER}/2"}],
    "twice": [{"lid": 4, "end": f"{OTHER}/1"}],
    "unknown": ["00000000000000aa"],
    "tableless": [THREE],
    "unusable": ["00000000000000bb"],
    "lidless": [f"{THREE}/0"],
    "unjoined": [f"{ONE}/4"],
    "more": {"lost": 18},
    "disputed": 2,
    "hops": None,
    "load": None,
    "credit_loop": [f"{ONE}/1", f"{TWO}/2", f"{THREE}/1"],
    **{"lanes": None, "loads": [], "way": None},
}
# The lines by lane, and the parts of their value. In the second text all is wrong, and otherwise with answers.
BY_LANE = "answers credit loop none\n"
BY_LANE_VALUE = {"no_level": [], "more_no_level": 0, "dropped": None, "credit_loop": []}
BY_LANE_VALUE |= {"answers": {"dropped": None, "credit_loop": []}}
WRONG_BY_LANE = f"""no-level {HOST}/1 3
no-level {OTHER}/1 2
more no-level 7
dropped 4 at {ONE} 1 2 level 5
credit loop by lane {ONE}/1 vl 0 {TWO}/2 vl 14
answers dropped 6 at {TWO} 3 4 level 7
answers credit loop by lane {TWO}/1 vl 2 {THREE}/2 vl 3
"""
WRONG_BY_LANE_VALUE = {
    "no_level": [{"from": f"{HOST}/1", "lid": 3}, {"from": f"{OTHER}/1", "lid": 2}],
    "more_no_level": 7,
    "dropped": {"lid": 4, "at": ONE, "in": 1, "out": 2, "level": 5},
    "credit_loop": [{"channel": f"{ONE}/1", "lane": 0}, {"channel": f"{TWO}/2", "lane": 14}],
    "answers": {
        "dropped": {"lid": 6, "at": TWO, "in": 3, "out": 4, "level": 7},
        "credit_loop": [{"channel": f"{TWO}/1", "lane": 2}, {"channel": f"{THREE}/2", "lane": 3}],
    },
}
ANSWERS_WRONG = f"credit loop none\nanswers dropped 6 at {TWO} 3 4 level 7\nanswers credit loop none\n"
LOADS = f"channel {ONE}/1 load 0\nchannel {ONE}/2 load 17\n"
LOADS_VALUE = [{"channel": f"{ONE}/1", "load": 0}, {"channel": f"{ONE}/2", "load": 17}]
# The line of a way, and its value behind `from` and `lid`.
WAYS = (
    (f"{ONE}/1 {TWO}/3 taken at {OTHER}/1", {"channels": [f"{ONE}/1", f"{TWO}/3"], "end": "taken", "at": f"{OTHER}/1"}),
    (f"taken at {HOST}/1", {"channels": [], "end": "taken", "at": f"{HOST}/1"}),
    (
        f"{ONE}/1 lost at {TWO} by 255: above top",
        {"channels": [f"{ONE}/1"], "end": "lost", "at": TWO, "entry": 255, "cause": "above top"},
    ),
    (f"lost at {OTHER}: foreign port", {"channels": [], "end": "lost", "at": OTHER, "cause": "foreign port"}),
    (f"lost at {HOST}: no link", {"channels": [], "end": "lost", "at": HOST, "cause": "no link"}),
    (f"{ONE}/1 {TWO}/3 round", {"channels": [f"{ONE}/1", f"{TWO}/3"], "end": "round"}),
)
CHANGED = f"""gone node {HOST} ca 1
other node {THREE} switch 4 > switch 5
gone cable {ONE}/1 {TWO}/1
port {ONE}/4 down > up
lid {OTHER}/1 0 > 5
portguid {OTHER}/1 0000000000000201 > 00000000000002ff
cap {ONE} 1024 > 64
disputed cap {TWO}
disputed link {TWO}/3
gone node 1, other node 1, gone cable 1, port 1, lid 1, portguid 1, cap 1, disputed 2
"""
CHANGED_VALUE = {
    "form": "compare",
    "equal": False,
    "changes": [
        {"change": "gone", "what": "node", "guid": HOST, "type": "ca", "ports": 1},
        {
            **{"change": "other", "what": "node", "guid": THREE},
            "old": {"type": "switch", "ports": 4},
            "new": {"type": "switch", "ports": 5},
        },
        {"change": "gone", "what": "cable", "ends": [f"{ONE}/1", f"{TWO}/1"]},
        {"change": "other", "what": "port", "end": f"{ONE}/4", "old": "down", "new": "up"},
        {"change": "other", "what": "lid", "end": f"{OTHER}/1", "old": 0, "new": 5},
        {
            **{"change": "other", "what": "portguid", "end": f"{OTHER}/1"},
            **{"old": "0000000000000201", "new": "00000000000002ff"},
        },
        {"change": "other", "what": "cap", "guid": ONE, "old": 1024, "new": 64},
        {"change": "disputed", "what": "cap", "guid": TWO},
        {"change": "disputed", "what": "link", "end": f"{TWO}/3"},
    ],
}
REWRITTEN = f"""LID 5: old {OTHER}/1, new nobody
LID 6: in the new {HOST}/1 has it too
switch {ONE}: old top 5, new 6
switch {ONE} entries 2 blocks 1
gone switch {TWO}
come switch {THREE} blocks 1
2 entries differ on 1 switches, blocks to write: 2
"""
REWRITTEN_VALUE = {
    "form": "compare",
    "equal": False,
    "changes": [
        {"change": "other", "what": "owner", "lid": 5, "old": f"{OTHER}/1", "new": None},
        {"change": "shared", "what": "owner", "lid": 6, "end": f"{HOST}/1"},
        {"change": "other", "what": "top", "guid": ONE, "old": 5, "new": 6},
        {"change": "other", "what": "table", "guid": ONE, "entries": 2, "blocks": 1},
        {"change": "gone", "what": "switch", "guid": TWO},
        {"change": "come", "what": "switch", "guid": THREE, "blocks": 1},
    ],
    **{"entries": 2, "switches": 1, "blocks": 2},
}
CUTS = f""" adapters       all   cut off   entries  switches  cable
        2         8         0         3         2  {TWO}/2 "leaf" - {THREE}/2
5 cables; without 1 of them no packet between adapters is lost; a plan by spread without any cut changes 7 entries \
on 6 switches
"""
CUTS_VALUE = {
    "form": "what-if",
    "cables": [
        {"ends": [f"{TWO}/2", f"{THREE}/2"], "adapters": 2, "all": 8, "cut_off": 0, "entries": 3, "switches": 2}
    ],
    **{"count": 5, "harmless": 1, "uncut": {"routing": "spread", "entries": 7, "switches": 6}, "names": {TWO: "leaf"}},
}
BOTH = CUTS.replace("cable\n", "cables\n").replace(f"{THREE}/2", f"{THREE}/2, {ONE}/1 - {TWO}/3").replace(
    "5 cables", "5 pairs of cables"
)
BOTH_VALUE = CUTS_VALUE | {
    "cables": [CUTS_VALUE["cables"][0] | {"ends": [f"{TWO}/2", f"{THREE}/2", f"{ONE}/1", f"{TWO}/3"]}]
}
AWAY = CUTS.replace("cable\n", "switch\n").replace(f'{TWO}/2 "leaf" - {THREE}/2', f'{TWO} "leaf"').replace(
    "5 cables", "5 switches"
)
AWAY_VALUE = {
    "form": "what-if",
    "switches": [{"guid": TWO} | {word: value for word, value in CUTS_VALUE["cables"][0].items() if word != "ends"}],
    **{word: CUTS_VALUE[word] for word in ("count", "harmless", "uncut", "names")},
}
LOOP = f"credit loop on one lane {ONE}/1 {TWO}/2\nlids 300 3\n"
TEXTS = (
    ("facts", FACTS, FACTS_VALUE),
    ("tables", TABLES, TABLES_VALUE),
    ("tables", TABLES[TABLES.index("switch") :], TABLES_VALUE | {"lids": []}),
    ("audit", SOUND, SOUND_VALUE),
    ("audit", UNSOUND, UNSOUND_VALUE),
    ("audit", judged(SOUND_LINES + LOADS), SOUND_VALUE | {"loads": LOADS_VALUE}),
    *(
        (
            "audit",
            judged(f"{SOUND_LINES}way {HOST}/1 7 {line}\n"),
            SOUND_VALUE | {"way": {"from": f"{HOST}/1", "lid": 7} | value},
        )
        for line, value in WAYS
    ),
    (
        "audit",
        judged(f"{SOUND_LINES}{LOADS}way {HOST}/1 7: no end port\n"),
        SOUND_VALUE | {"loads": LOADS_VALUE, "way": {"from": f"{HOST}/1", "lid": 7, "channels": [], "end": None}},
    ),
    ("audit", judged(SOUND_LINES + BY_LANE), SOUND_VALUE | {"lanes": BY_LANE_VALUE}),
    (
        "audit",
        judged(SOUND_LINES.replace("credit loop none\n", WRONG_BY_LANE), "no-level", "dropped", "credit loop"),
        SOUND_VALUE
        | {"passes": False, "fails": ["no-level", "dropped", "credit loop"], "lanes": WRONG_BY_LANE_VALUE}
        | {"credit_loop": [f"{ONE}/1", f"{TWO}/2"]},
    ),
    (
        "audit",
        SOUND.replace("credit loop none\n", ANSWERS_WRONG),
        SOUND_VALUE
        | {"lanes": BY_LANE_VALUE
           | {"answers": {"dropped": WRONG_BY_LANE_VALUE["answers"]["dropped"], "credit_loop": []}}},
    ),
    *(
        (
            "audit",
            judged(SOUND_LINES.replace("credit loop none\n", f"{line}\ncredit loop none\n{BY_LANE}"), fails),
            SOUND_VALUE
            | {"passes": False, "fails": [fails], "lanes": BY_LANE_VALUE | {name: WRONG_BY_LANE_VALUE[name]}},
        )
        for name, fails, line in (
            ("dropped", "dropped", f"dropped 4 at {ONE} 1 2 level 5"),
            ("no_level", "no-level", f"no-level {HOST}/1 3\nno-level {OTHER}/1 2"),
        )
    ),
    ("next", "credit loop none\n", {"form": "next", "credit_loop": [], "lids": [], "order": []}),
    ("next", LOOP, {"form": "next", "credit_loop": [f"{ONE}/1", f"{TWO}/2"], "lids": [300, 3], "order": []}),
    (
        "next",
        f"credit loop none\n0x{TWO}\n0x{ONE}\n",
        {"form": "next", "credit_loop": [], "lids": [], "order": [TWO, ONE]},
    ),
    ("compare", "equal\n", {"form": "compare", "equal": True, "changes": []}),
    ("compare", CHANGED, CHANGED_VALUE),
    ("compare", REWRITTEN, REWRITTEN_VALUE),
    ("what-if", CUTS, CUTS_VALUE),
    ("what-if", BOTH, BOTH_VALUE),
    ("what-if", AWAY, AWAY_VALUE),
)
GAUGES = """ibsm_audit_passes 0
ibsm_audit_pairs{between="all"} 25
ibsm_audit_pairs{between="adapters"} 4
ibsm_audit_pairs{between="switch"} 21
ibsm_audit_arrive{between="all"} 9
ibsm_audit_arrive{between="adapters"} 2
ibsm_audit_arrive{between="switch"} 7
ibsm_audit_missed{cause="above_top"} 1
ibsm_audit_missed{cause="no_entry"} 2
ibsm_audit_missed{cause="no_port"} 3
ibsm_audit_missed{cause="no_link"} 4
ibsm_audit_missed{cause="foreign"} 5
ibsm_audit_missed{cause="misdelivered"} 6
ibsm_audit_missed{cause="round"} 7
ibsm_audit_findings{kind="lost"} 20
ibsm_audit_findings{kind="misdelivered"} 1
ibsm_audit_findings{kind="round"} 1
ibsm_audit_findings{kind="unowned"} 1
ibsm_audit_findings{kind="twice"} 1
ibsm_audit_findings{kind="unknown"} 1
ibsm_audit_findings{kind="tableless"} 1
ibsm_audit_findings{kind="unusable"} 1
ibsm_audit_findings{kind="lidless"} 1
ibsm_audit_findings{kind="unjoined"} 1
ibsm_audit_disputed_facts 2
ibsm_audit_credit_loop_channels 3
"""


def as_json(room: Room) -> None:
    """Checks each form of text as JSON, verdicts, gauges, names, and what is refused."""
    for form, text, wanted in TEXTS:
        room.put(it=text)
        for words in ("it", f"it --form {form}", "/dev/stdin"):
            printed = room.run(f"json {words}", 0, stdin="it")
            room.check(json.loads(printed) == wanted, f"json {words} of {form}: {text[:40]}")
            room.check(printed.count("\n") == 1 and list(json.loads(printed))[0] == "form", "one line, its form first")
    verdicts(room)
    gauges(room)
    faults(room)
    named(room)
    of_the_tools(room)


def verdicts(room: Room) -> None:
    """Checks that the verdict is that of the last line, whatever else the text says."""
    words = ["pairs", "tableless", "unusable", "lidless", "load", "no-level", "dropped", "credit loop"]
    for lines in SOUND_LINES, UNSOUND_LINES:
        for fails in [], *([word] for word in words), words:
            room.put(it=judged(lines, *fails))
            told = json.loads(room.run("json it", 0))
            room.check(told["passes"] == (not fails) and told["fails"] == fails, f"the verdict where {fails} fail")


def gauges(room: Room) -> None:
    """Checks an audit's counts as Prometheus reads them."""
    room.put(it=UNSOUND, sound=SOUND)
    printed = room.run("json it --prometheus", 0)
    samples = "".join(line for line in printed.splitlines(True) if not line.startswith("#"))
    room.check(samples == GAUGES, "the gauges of an audit")
    heads = [line.split(" ")[2] for line in printed.splitlines() if line.startswith("# HELP ")]
    kinds = [line.split(" ")[2:] for line in printed.splitlines() if line.startswith("# TYPE ")]
    room.check(kinds == [[name, "gauge"] for name in heads], "each gauge has a line of help and of its type")
    wanted = {line.split(" ")[0].split("{")[0] for line in GAUGES.splitlines()}
    room.check(sorted(wanted) == sorted(heads), "and is there")
    printed = room.run("json --prometheus --form audit", 0, stdin="sound")
    for line in ("passes 1", "hops_max 3", "hops_mean 3.0", "load_max 1", "load_mean 0.33", "credit_loop_channels 0"):
        room.check(f"\nibsm_audit_{line}\n" in printed, f"of a sound audit: {line}")


def faults(room: Room) -> None:
    """Checks that cut texts, and texts of no form or of another one, print nothing."""
    for text, words, why in (
        (SOUND.replace("credit loop none\n", ""), "it", "it: it is no whole text of audit: is it cut?"),
        (SOUND_LINES, "it", "it: it is no whole text of audit: is it cut?"),
        (SOUND_LINES + LOADS, "it", "no whole text of audit"),
        (SOUND.replace("hops max 3 mean 3.00\n", ""), "it", "no whole text of audit"),
        (SOUND.replace("credit loop none\n", WRONG_BY_LANE.rsplit("answers c")[0]), "it", "no whole text of audit"),
        (SOUND[:-1], "it", "its last line has no end"),
        (SOUND.replace("load max 1", "load min 1"), "it", "it: line 6 is no line of a text of audit: load min"),
        (SOUND.replace("round 0", "round 0y"), "it", "line 4 is no line of a text of audit"),
        (UNSOUND.replace("no such port", "no port"), "it", "line 5 is no line of a text of audit"),
        (f"{SOUND_LINES}channel {ONE}/1 load\n", "it", "line 8 is no line of a text of audit"),
        (f"{SOUND_LINES}way {HOST}/1 7 {ONE}/1\n", "it", "line 8 is no line of a text of audit"),
        *(
            (f"{SOUND_LINES}passes {words}\n", "it", "line 8 is no line of a text of audit")
            for words in ("", "no", "no: ", "no: lost", "no: pairs,", "no: pairs lidless", "yes: load", "yes, load")
        ),
        (FACTS.replace("claim", "claims"), "it", "line 10 is no line of a text of facts"),
        (FACTS + "floor 3\n", "it", "line 12 is no line"),
        (TABLES.replace("02" * 64, "02" * 63), "it", "line 4 is no line of a text of tables"),
        ("block 0 " + "02" * 64 + "\n", "it --form tables", "line 1 is no line of a text of tables"),
        (LOOP.replace("lids 300 3\n", ""), "it", "no whole text of next"),
        (CHANGED, "it --form audit", "line 1 is no line of a text of audit"),
        ("".join(CHANGED.splitlines(True)[:-1]), "it", "no whole text of compare"),
        (CHANGED + CHANGED, "it", "line 11 is no line of a text of compare"),
        ("".join(CHANGED.splitlines(True)[:-1]) + "equal\n", "it", "line 10 is no line of a text of compare"),
        ("gone node 1\n", "it --form compare", "line 1 is no line of a text of compare"),
        ("equal\nequal\n", "it", "line 2 is no line of a text of compare"),
        ("".join(CUTS.splitlines(True)[:-1]), "it", "no whole text of what-if"),
        ("", "it", "it: no text"),
        ("", "it --form audit", "no whole text of audit"),
        ("nonsense\n", "it", "it: this is none of the files and texts"),
        (FACTS, "it --prometheus", "it is a text of facts, and --prometheus takes an audit or a status file"),
        (FACTS, "it --form tables", "line 1 is no line of a text of tables"),
        (SOUND, "nothing", "nothing"),
    ):
        room.put(it=text)
        room.refused(f"json {words}", why, 4 if words == "nothing" else 3)
        room.check(room.out == "", "nothing is printed")
    room.put(none="")
    nothing = {"form": "tables", "lids": [], "switches": []}
    room.check(json.loads(room.run("json none --form tables", 0)) == nothing, "no tables")
    room.check(json.loads(room.run("json none --form facts", 0))["nodes"] == [], "no facts")
    (room.path / "bytes").write_bytes(b"\xff\xfe\x00")
    room.refused("json bytes", "not a text")
    for words in ("it it", "it --form sing", "it --prometheus --form facts"):
        room.run(f"json {words}", 2)


def named(room: Room) -> None:
    """Checks that names after GUIDs become a separate member, whatever they contain."""
    room.put(map=f'0x{ONE} "the [1] \xfc"\n0x{HOST} "node {TWO}"\n', facts=FACTS)
    room.put(it=room.run("names map", 0, stdin="facts"))
    names = {ONE: "the [1] \xfc", HOST: f"node {TWO}"}
    room.check(json.loads(room.run("json it", 0)) == FACTS_VALUE | {"names": names}, "names behind GUIDs")
    room.put(said=f"credit loop none\n0x{TWO}\n0x{ONE}\n")
    room.put(it=room.run("names map", 0, stdin="said"))
    room.check(room.text("it").endswith(f'\n0x{TWO}\n0x{ONE} "the [1] \xfc"\n'), "a name behind a GUID after 0x")
    value = {"form": "next", "credit_loop": [], "lids": [], "order": [TWO, ONE], "names": {ONE: names[ONE]}}
    for words in "json it", "json it --form next":
        room.check(json.loads(room.run(words, 0)) == value, "names behind GUIDs after 0x")


def of_the_tools(room: Room) -> None:
    """Checks that texts printed by the tools are taken."""
    for words, status, wanted in (
        ("compare t.facts cut.facts --names all.names", 1, "compare"),
        ("compare t.facts others.facts", 1, "compare"),
        ("compare t.plan round.plan", 1, "compare"),
        ("compare t.plan other.lids", 1, "compare"),
        ("compare fewer.tables t.plan", 1, "compare"),
        ("what-if t.facts t.plan --ibsm ./what --names all.names", 0, "what-if"),
        ("what-if t.facts t.plan --ibsm ./what --two", 0, "what-if"),
        ("what-if t.facts t.plan --ibsm ./what --switches --names all.names", 0, "what-if"),
    ):
        room.scripts(what=FAKE.replace("fake.plan", "t.plan"))
        room.put(it=room.run(words, status))
        room.check(json.loads(room.run("json it", 0))["form"] == wanted, f"json of {words}")
    facts = json.loads(room.run("json t.facts", 0))
    counts = [len(facts[kind]) for kind in ("nodes", "links", "ports", "caps")]
    room.check(counts == [5, 10, 17, 3], "the triangle's facts")
