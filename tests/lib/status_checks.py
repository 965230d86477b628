"""What `tests/test-files` checks of status files: as JSON, and as Prometheus reads them, worked out by hand."""
from __future__ import annotations

import json
import re

from tool_room import Room

SEAT = r"""{"version": "0.1.0", "state": "master", "since": 1700000000,
 "port": "mlx5_\"0 port 1", "guid": "0000000000000101", "priority": 8,
 "sweep": {"count": 7, "light": 9, "generation": 1700000100, "began": 1700000100, "ended": 1700000101, "whole": true,
  "unanswered": 1, "managers_silent": 1, "too_far": 0},
 "silent": ["path 0,1 Get 0x0020 modifier 0"],
 "writing": {"count": 2, "ended": null, "written": false, "settled": false, "lids": 5, "switches": 3},
 "managers": [{"guid": "0000000000000201", "priority": 3, "state": "standby"},
  {"guid": "0000000000000301", "priority": 3, "state": "9"}],
 "packets": {"sent": 12, "sets": 4}
}
"""
OWN = r'port="mlx5_\"0 port 1",guid="0000000000000101"'
# Of each series its type, and its lines behind the prefix.
OF_SEAT = {
    "state": ("gauge", [
        f'{{{OWN},state="{state}"}} {int(state == "master")}'
        for state in ("discovering", "standby", "master", "not-active")
    ]),
    "state_since_seconds": ("gauge", [f"{{{OWN}}} 1700000000"]),
    "priority": ("gauge", [f"{{{OWN}}} 8"]),
    "sweeps_total": ("counter", [f"{{{OWN}}} 7"]),
    "light_sweeps_total": ("counter", [f"{{{OWN}}} 9"]),
    "sweep_ended_seconds": ("gauge", [f"{{{OWN}}} 1700000101"]),
    "sweep_whole": ("gauge", [f"{{{OWN}}} 1"]),
    "sweep_unanswered": ("gauge", [f"{{{OWN}}} 1"]),
    "sweep_managers_silent": ("gauge", [f"{{{OWN}}} 1"]),
    "sweep_too_far": ("gauge", [f"{{{OWN}}} 0"]),
    "writings_total": ("counter", [f"{{{OWN}}} 2"]),
    "writing_written": ("gauge", [f"{{{OWN}}} 0"]),
    "writing_settled": ("gauge", [f"{{{OWN}}} 0"]),
    "lids": ("gauge", [f"{{{OWN}}} 5"]),
    "switches": ("gauge", [f"{{{OWN}}} 3"]),
    "managers": ("gauge", [
        f'{{{OWN},state="{state}"}} {count}'
        for state, count in (("discovering", 0), ("standby", 1), ("master", 0), ("not-active", 0), ("9", 1))
    ]),
    "packets_total": ("counter", [f'{{{OWN},kind="sent"}} 12', f'{{{OWN},kind="sets"}} 4']),
}
ROUND = """{
  "began": "2023-11-14T22:13:20Z",
  "ended": "2023-11-14T22:13:21.500Z",
  "step": "audit",
  "verdict": "the subnet holds the plan",
  "status": 0,
  "line": "the subnet holds the plan",
  "seconds": {"record": 0.25, "audit": 1},
  "counts": {"entries": 87},
  "changes": [],
  "lost": {"pairs": 6, "since": null, "seconds": null, "is_back": true},
  "whole": "2023-11-14T22:13:21Z",
  "load": {"held": {"max": 4, "mean": 1.5}},
  "silent": null,
  "steps": [{}, {}],
  "said": []
}
"""
OF_ROUND = {
    "status": ("gauge", [" 0"]),
    "began_seconds": ("gauge", [" 1700000000.0"]),
    "ended_seconds": ("gauge", [" 1700000001.5"]),
    "whole_seconds": ("gauge", [" 1700000001.0"]),
    "lost_pairs": ("gauge", [" 6"]),
    "steps": ("gauge", [" 2"]),
    "silent": ("gauge", [" 0"]),
    "step_seconds": ("gauge", ['{step="record"} 0.25', '{step="audit"} 1']),
    "counts": ("gauge", ['{of="entries"} 87']),
    "load": ("gauge", ['{tables="held",of="max"} 4', '{tables="held",of="mean"} 1.5']),
}


def is_exposition(printed: str) -> bool:
    """Returns whether a text has the form that Prometheus reads: of each name HELP, TYPE and its values, once."""
    names = []
    for line in printed.splitlines():
        if help_line := re.fullmatch(r"# HELP (ibsm_\w+) [^\\]+", line):
            names.append(help_line[1])
        elif type_line := re.fullmatch(r"# TYPE (ibsm_\w+) (gauge|counter)", line):
            if type_line[1] != names[-1] or (type_line[2] == "counter") != names[-1].endswith("_total"):
                return False
        elif not re.fullmatch(rf'{names[-1]}(\{{(\w+="([^"\\]|\\.)*",?)+\}})? -?[\d.e+]+', line):
            return False
    return len(names) == len(set(names)) > 0 and printed.endswith("\n")


def series_in(printed: str) -> dict[str, tuple[str, list[str]]]:
    """Returns of each series in a text its type, and its lines, without the name's beginning."""
    found = {}
    for line in printed.splitlines():
        if form := re.fullmatch(r"# TYPE ibsm_[a-z]+_(\w+) (\w+)", line):
            found[form[1]] = form[2], []
        elif form := re.fullmatch(r"ibsm_[a-z]+_(\w+)(.*)", line):
            found[form[1]][1].append(form[2])
    return found


def statuses(room: Room) -> None:
    """Checks the two status files: as JSON, as series, and what is refused."""
    for form, text, wanted in (("seat", SEAT, OF_SEAT), ("round", ROUND, OF_ROUND)):
        room.put(it=text)
        for words in ("it", f"it --form {form}", "-"):
            printed = room.run(f"json {words}", 0, stdin="it")
            room.check(json.loads(printed) == {"form": form} | json.loads(text), f"json {words} of {form}")
            room.check(printed.count("\n") == 1 and list(json.loads(printed))[0] == "form", "one line, its form first")
        for words in ("it", f"it --form {form}"):
            printed = room.run(f"json {words} --prometheus", 0)
            room.check(is_exposition(printed), f"{form}: its form is that of Prometheus: {printed}")
            told = series_in(printed)
            apart = [name for name in {*told, *wanted} if told.get(name) != wanted.get(name)]
            room.check(not apart, f"{form}: {[(told.get(name), wanted.get(name)) for name in apart]}")
    refused(room)


def refused(room: Room) -> None:
    """Checks status files that are cut, of another form, or of another version: nothing is printed."""
    for text, words, why in (
        (SEAT[:-3], "it", "its last line has no end: is it cut?"),
        (SEAT[: SEAT.index(' "packets')], "it", "it is no whole object of JSON: is it cut?"),
        (SEAT + SEAT, "it", "it is no whole object of JSON"),
        ("{\n", "it", "it is no whole object of JSON"),
        ("{" * 100000 + "\n", "it", "it is no whole object of JSON"),
        ("{}\n", "it", "it is no status file of a seat or a round"),
        ("[]\n", "it --form seat", "it is no status file of seat"),
        ("3\n", "it --form round", "it is no status file of round"),
        (SEAT, "it --form round", "it is no status file of round"),
        (ROUND, "it --form seat", "it is no status file of seat"),
        (SEAT, "it --form audit", "line 1 is no line of a text of audit"),
        (SEAT.replace('"packets": {', '"packet": {'), "it", "it is no status file of a seat or a round"),
        (SEAT.replace('"priority": 8', '"prio": 8'), "it --prometheus", "no status file of a seat of this version"),
        (SEAT.replace('"count": 7', '"count": "7"'), "it --prometheus", "no status file of a seat of this version"),
        (ROUND.replace("2023-11-14T22:13:20Z", "then"), "it --prometheus", "no status file of a round of this version"),
    ):
        room.put(it=text)
        room.refused(f"json {words}", why)
        room.check(room.out == "", "nothing is printed")
