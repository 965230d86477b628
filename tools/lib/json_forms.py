"""The texts of ibsm and its tools as values for JSON. The help of tools/json has the schema.

A reader takes the lines of a text one by one, and returns for each whether it belongs to the text's form.
"""
from __future__ import annotations

import re
from collections.abc import Iterable, Sequence
from typing import Any

from ibsm_texts import END, FLOOR, FORMS, GUID, NUMBER

PORT = "([0-9a-f]{16}/[0-9]{1,3})"
RATE = r"\d+x [A-Z]+ [0-9.]+ Gb/s"
KINDS = ("lost", "misdelivered", "round", "unowned", "twice", "unknown", "tableless", "unusable", "lidless", "unjoined")
MISSED = ("above-top", "no-entry", "no-port", "no-link", "foreign", "misdelivered", "round")
LOSSES = "above top|no entry|no such port|no link"
# What the last line of an audit says that fails, in its order.
FAILS = ("pairs", "tableless", "unusable", "lidless", "load", "no-level", "dropped", "credit loop")
# The head of the line of a packet's way: its sender, its LID and its channels.
WAY = rf"way {PORT} {NUMBER}((?: [0-9a-f]{{16}}/[0-9]{{1,3}})*)"
# The line of a credit loop, with the method that takes it.
LOOP = rf"credit loop (?:none|on one lane ({PORT}(?: {PORT})*))", "loop"
# The line of a credit loop by lane, or of answers, with the method that takes it: each channel with its lane.
LANE_LOOP = rf"(answers )?credit loop (none|by lane(?: {PORT} vl \d+)+)", "lane_loop"
# A name after a GUID or an end.
NAMED = re.compile(r'(?<![0-9A-Za-z_"])((?:0x)?([0-9a-f]{16})(?:/[0-9]{1,3})?) "([^"]*)"')


def typed(words: str) -> dict[str, str | int]:
    """Returns a node's type and number of ports from the words of a line."""
    kind, ports = words.split(" ")
    return {"type": kind, "ports": int(ports)}


def fault_of_lines(reader: Rules, lines: Iterable[str]) -> int:
    """Reads a text, and returns the number of the first line that is not of its form, or 0."""
    return next((number for number, line in enumerate(lines, 1) if not reader.take(line)), 0)


class Rules:
    """A reader by a table of patterns, each for a whole line, with the method that takes the groups."""

    rules = ()

    def take(self, line: str) -> bool:
        """Takes in a line, and returns whether it is one of this form."""
        for pattern, method in self.rules:
            if form := re.fullmatch(pattern, line):
                return getattr(self, method)(*form.groups()) is not False
        return False

    def lacks(self) -> bool:
        """Returns whether the text ends too early."""
        return False


class FactsRead(Rules):
    """A reader of facts."""

    lists = {kind: f"{kind}s" for kind in FORMS}

    def __init__(self) -> None:
        self.floor, self.is_first = 1, True
        self.found = {name: [] for name in self.lists.values()}

    def take(self, line: str) -> bool:
        floor, self.is_first = FLOOR.fullmatch(line) if self.is_first else None, False
        if floor:
            self.floor = int(floor[1])
            return True
        kind = line.split(" ", 1)[0]
        form = kind in FORMS and FORMS[kind].fullmatch(line)
        if not form:
            return False
        about, value = line.split(" ")[1], " ".join(line.split(" ")[2:-1])
        told = {"guid" if kind in ("node", "cap") else "end": about}
        told |= {"disputed": True} if value == "disputed" else self.value(kind, value)
        self.found[self.lists[kind]].append(told | {"generation": int(form.groups()[-1])})
        return True

    def value(self, kind: str, value: str) -> dict[str, str | int]:
        if kind == "node":
            return typed(value)
        name = {"portguid": "portguid", "link": "far", "port": "state", "claim": "lid", "cap": "size"}[kind]
        return {name: int(value) if kind in ("claim", "cap") else value}

    def value_of_text(self) -> dict[str, Any]:
        return {"floor": self.floor} | self.found


class TablesRead(Rules):
    """A reader of a plan's text."""

    rules = (
        (rf"lid {NUMBER} {PORT}(?: lmc ([0-7]))?", "lid"),
        (rf"switch {GUID} top {NUMBER}", "switch"),
        (rf"block {NUMBER} ([0-9a-f]{{128}})", "block"),
    )

    def __init__(self) -> None:
        self.lids, self.switches = [], []

    def lid(self, lid: str, end: str, lmc: str | None) -> None:
        self.lids.append({"lid": int(lid), "end": end, "lmc": int(lmc or 0)})

    def switch(self, guid: str, top: str) -> None:
        self.switches.append({"guid": guid, "top": int(top), "blocks": []})

    def block(self, number: str, digits: str) -> bool:
        if not self.switches:
            return False
        self.switches[-1]["blocks"].append({"block": int(number), "entries": list(bytes.fromhex(digits))})
        return True

    def value_of_text(self) -> dict[str, Any]:
        return {"lids": self.lids, "switches": self.switches}


def ending(at: str | None, entry: str | None, cause: str | None) -> dict[str, str | int]:
    """Returns where and why a packet ends, as far as its line tells."""
    told = {"at": at, "entry": int(entry) if entry else None, "cause": cause}
    return {name: value for name, value in told.items() if value is not None}


class AuditRead(Rules):
    """A reader of an audit."""

    rules = (
        # Of a large subnet most lines are of channels.
        (rf"channel {PORT} load {NUMBER}", "channel"),
        (rf"()pairs {NUMBER} arrive {NUMBER}", "pairs"),
        (rf"(between adapters|with a switch) pairs {NUMBER} arrive {NUMBER}", "pairs"),
        ("missed " + " ".join(f"{cause} {NUMBER}" for cause in MISSED), "missed"),
        (rf"(lost) {PORT} {NUMBER} at {GUID} by {NUMBER}: ({LOSSES})", "lost"),
        (rf"(lost) {PORT} {NUMBER} at {GUID}()(?:: (foreign port))", "lost"),
        (rf"(misdelivered) {PORT} {NUMBER} at {PORT}", "lost"),
        (rf"(round) {PORT} {NUMBER}", "lost"),
        (rf"(unowned|twice) {NUMBER} {PORT}", "held"),
        (rf"(unknown|tableless|unusable) {GUID}", "named"),
        (rf"(lidless|unjoined) {PORT}", "named"),
        (rf"more ({'|'.join(KINDS)}) {NUMBER}", "more"),
        (rf"(disputed) {NUMBER}", "count"),
        (r"(hops|load) (?:none|max (\d+) mean (\d+\.\d+))", "spread"),
        (rf"{WAY} (taken) at {PORT}", "went"),
        (rf"{WAY} (lost) at {GUID} by {NUMBER}: ({LOSSES})", "went"),
        (rf"{WAY} (lost) at {GUID}()(?:: (foreign port|no link))", "went"),
        (rf"{WAY} (round)", "went"),
        (rf"way {PORT} {NUMBER}()(): no end port", "went"),
        LOOP,
        LANE_LOOP,
        (rf"no-level {PORT} {NUMBER}", "unleveled"),
        (rf"(more no-level) {NUMBER}", "count"),
        (rf"(answers )?dropped {NUMBER} at {GUID} {NUMBER} {NUMBER} level {NUMBER}", "drop"),
        (rf"passes (?:yes|no: ((?:{'|'.join(FAILS)})(?:, (?:{'|'.join(FAILS)}))*))", "verdict"),
    )

    def __init__(self) -> None:
        self.fails, self.cycle = None, None
        self.told, self.counts, self.spreads = {}, {"disputed": 0, "more no-level": 0}, {}
        self.no_level, self.drops, self.lane_loops = [], {}, {}
        self.found, self.others = {kind: [] for kind in KINDS}, {}
        self.loads, self.way = {}, None

    def channel(self, end: str, load: str) -> None:
        self.loads[end] = int(load)

    def pairs(self, which: str, pairs: str, arrive: str) -> None:
        self.told[which.replace(" ", "_")] = {"pairs": int(pairs), "arrive": int(arrive)}

    def missed(self, *counts: str) -> None:
        self.told["missed"] = {cause.replace("-", "_"): int(count) for cause, count in zip(MISSED, counts)}

    def lost(
        self, kind: str, start: str, lid: str, at: str | None = None, entry: str | None = None, cause: str | None = None
    ) -> None:
        self.found[kind].append({"from": start, "lid": int(lid)} | ending(at, entry, cause))

    def went(
        self, start: str, lid: str, channels: str, end: str | None, at: str | None = None, entry: str | None = None,
        cause: str | None = None,
    ) -> None:
        told = {"from": start, "lid": int(lid), "channels": channels.split(), "end": end or None}
        self.way = told | ending(at, entry, cause)

    def held(self, kind: str, lid: str, end: str) -> None:
        self.found[kind].append({"lid": int(lid), "end": end})

    def named(self, kind: str, about: str) -> None:
        self.found[kind].append(about)

    def more(self, kind: str, count: str) -> None:
        self.others[kind] = int(count)

    def count(self, kind: str, count: str) -> None:
        self.counts[kind] = int(count)

    def spread(self, kind: str, most: str | None, mean: str | None) -> None:
        self.spreads[kind] = None if most is None else {"max": int(most), "mean": float(mean)}

    def loop(self, ends: str | None, *_: str | None) -> None:
        self.cycle = ends.split(" ") if ends else []

    def lane_loop(self, answers: str | None, loop: str, _: str | None) -> None:
        channels = [{"channel": end, "lane": int(lane)} for end, lane in re.findall(r"(\S+/\d+) vl (\d+)", loop)]
        self.lane_loops[bool(answers)] = channels
        if not answers:
            self.cycle = [channel["channel"] for channel in channels]

    def unleveled(self, start: str, lid: str) -> None:
        self.no_level.append({"from": start, "lid": int(lid)})

    def drop(self, answers: str | None, lid: str, at: str, into: str, out: str, level: str) -> None:
        told = {"lid": int(lid), "at": at, "in": int(into), "out": int(out), "level": int(level)}
        self.drops[bool(answers)] = told

    def lanes(self) -> dict[str, Any] | None:
        """Returns what was found by lane, or None for an audit on one lane."""
        if True not in self.lane_loops:
            return None
        both = [
            {"dropped": self.drops.get(answers), "credit_loop": self.lane_loops.get(answers, [])}
            for answers in (False, True)
        ]
        missing = {"no_level": self.no_level, "more_no_level": self.counts["more no-level"]}
        return missing | both[0] | {"answers": both[1]}

    def lacks(self) -> bool:
        parts = {"", "between_adapters", "with_a_switch", "missed"}
        by_lane = self.no_level or self.drops or self.lane_loops.get(False)
        is_cut = None in (self.fails, self.cycle) or bool(by_lane) and True not in self.lane_loops
        return is_cut or set(self.told) != parts or set(self.spreads) != {"hops", "load"}

    def verdict(self, fails: str | None) -> None:
        self.fails = fails.split(", ") if fails else []

    def passes(self) -> bool:
        """Returns whether the audit ended with status 0, by its last line."""
        return not self.fails

    def value_of_text(self) -> dict[str, Any]:
        told = {"passes": self.passes(), "fails": self.fails} | self.told[""]
        told |= {name: self.told[name] for name in ("between_adapters", "with_a_switch", "missed")}
        told |= self.found | {"more": self.others, "disputed": self.counts["disputed"]} | self.spreads
        told |= {"credit_loop": self.cycle, "lanes": self.lanes()}
        return told | {"loads": [{"channel": end, "load": load} for end, load in self.loads.items()], "way": self.way}


class NextRead(Rules):
    """A reader of what `ibsm next` says of a step."""

    rules = (
        LOOP,
        (r"lids (\d+(?: \d+)*)", "waiting"),
        (rf"0x{GUID}", "by_order"),
    )

    def __init__(self) -> None:
        self.cycle, self.lids, self.order = None, [], []

    def loop(self, ends: str | None, *_: str | None) -> None:
        self.cycle = ends.split(" ") if ends else []

    def waiting(self, lids: str) -> None:
        self.lids = [int(lid) for lid in lids.split(" ")]

    def by_order(self, switch: str) -> None:
        self.order.append(switch)

    def lacks(self) -> bool:
        return self.cycle is None or len(self.cycle) != len(self.lids)

    def value_of_text(self) -> dict[str, Any]:
        return {"credit_loop": self.cycle, "lids": self.lids, "order": self.order}


class CompareRead(Rules):
    """A reader of what compare prints."""

    KIND = "(?:node|portguid|link|port|claim|cap)"
    rules = (
        (r"(equal)", "ends"),
        (rf"(gone|come) node {GUID} ([a-z]+ \d+)", "node"),
        (rf"(other) node {GUID} ([a-z]+ \d+) > ([a-z]+ \d+)", "node"),
        (rf"(gone|come) cable {PORT} {PORT}", "cable"),
        (rf"(slow|fast) cable {PORT} {PORT} ({RATE}) > ({RATE})", "rate"),
        (rf"(port|portguid|lid) {PORT} (\w+) > (\w+)", "other"),
        (rf"(cap) {GUID} (\w+) > (\w+)", "other"),
        (rf"disputed (node|cap) {GUID}", "disputed"),
        (rf"disputed ({KIND}) {PORT}", "disputed"),
        (rf"LID {NUMBER}: old ({END}|nobody), new ({END}|nobody)", "owner"),
        (rf"LID {NUMBER}: in the new {PORT} has it too", "shared"),
        (rf"switch {GUID}: old top {NUMBER}, new {NUMBER}", "top"),
        (rf"(gone|come) switch {GUID}(?: blocks {NUMBER})?", "switch"),
        (rf"switch {GUID} entries {NUMBER} blocks {NUMBER}", "table"),
        (rf"{NUMBER} entries differ on {NUMBER} switches, blocks to write: {NUMBER}", "written"),
        (r"((?:(?:gone|come|other|slow|fast) (?:node|cable)|[a-z]+) \d+(?:, [a-z]+ ?[a-z]* \d+)*)", "ends"),
    )

    def __init__(self) -> None:
        self.changes, self.counts, self.end = [], {}, None

    def take(self, line: str) -> bool:
        return self.end is None and super().take(line)

    def change(self, word: str, what: str, **told: object) -> None:
        self.changes.append({"change": word, "what": what} | told)

    def node(self, word: str, guid: str, one: str, new: str | None = None) -> None:
        told = typed(one) if new is None else {"old": typed(one), "new": typed(new)}
        self.change(word, "node", guid=guid, **told)

    def cable(self, word: str, end: str, far: str) -> None:
        self.change(word, "cable", ends=[end, far])

    def rate(self, word: str, end: str, far: str, old: str, new: str) -> None:
        self.change(word, "cable", ends=[end, far], old=old, new=new)

    def other(self, what: str, about: str, old: str, new: str) -> None:
        values = [int(it) if what in ("lid", "cap") else it for it in (old, new)]
        self.change("other", what, **{"guid" if what == "cap" else "end": about}, old=values[0], new=values[1])

    def disputed(self, what: str, about: str) -> None:
        self.change("disputed", what, **{"end" if "/" in about else "guid": about})

    def owner(self, lid: str, old: str, _: str | None, __: str | None, new: str, *___: str | None) -> None:
        ends = [None if end == "nobody" else end for end in (old, new)]
        self.change("other", "owner", lid=int(lid), old=ends[0], new=ends[1])

    def shared(self, lid: str, end: str) -> None:
        self.change("shared", "owner", lid=int(lid), end=end)

    def top(self, guid: str, old: str, new: str) -> None:
        self.change("other", "top", guid=guid, old=int(old), new=int(new))

    def switch(self, word: str, guid: str, blocks: str | None) -> None:
        self.change(word, "switch", guid=guid, **({"blocks": int(blocks)} if blocks else {}))

    def table(self, guid: str, entries: str, blocks: str) -> None:
        self.change("other", "table", guid=guid, entries=int(entries), blocks=int(blocks))

    def written(self, entries: str, switches: str, blocks: str) -> bool:
        self.counts = {"entries": int(entries), "switches": int(switches), "blocks": int(blocks)}
        self.end = "written"
        return bool(self.changes)

    def ends(self, line: str) -> bool:
        self.end = line
        return (line == "equal") == (not self.changes)

    def lacks(self) -> bool:
        return self.end is None

    def value_of_text(self) -> dict[str, Any]:
        return {"equal": self.end == "equal", "changes": self.changes} | self.counts


class WhatIfRead(Rules):
    """A reader of what what-if prints."""

    rules = (
        (r" *adapters +all +cut off +entries +switches +(cables?|switch)", "head"),
        (rf" *(\d+) +(\d+) +(\d+) +(\d+) +(\d+)  {PORT} - {PORT}", "row"),
        (rf" *(\d+) +(\d+) +(\d+) +(\d+) +(\d+)  {PORT} - {PORT}, {PORT} - {PORT}", "row"),
        (rf" *(\d+) +(\d+) +(\d+) +(\d+) +(\d+)  {GUID}", "switch"),
        (
            r"(\d+) (?:cables|pairs of cables|switches); without (\d+) of them no packet between adapters is lost; "
            r"a plan by (\w+) without any cut changes (\d+) entries on (\d+) switches",
            "end",
        ),
    )

    def __init__(self) -> None:
        self.rows, self.last, self.kind = [], None, "cables"

    def head(self, kind: str) -> bool:
        is_first = not self.rows and self.last is None
        self.kind = "switches" if kind == "switch" else "cables"
        return is_first

    def take_row(self, told: dict[str, Any], words: Sequence[str]) -> bool:
        names = ("adapters", "all", "cut_off", "entries", "switches")
        self.rows.append(told | {name: int(word) for name, word in zip(names, words)})
        return self.last is None

    def row(self, *words: str) -> bool:
        return self.kind == "cables" and self.take_row({"ends": list(words[5:])}, words)

    def switch(self, *words: str) -> bool:
        return self.kind == "switches" and self.take_row({"guid": words[5]}, words)

    def end(self, count: str, harmless: str, rule: str, entries: str, switches: str) -> None:
        uncut = {"routing": rule, "entries": int(entries), "switches": int(switches)}
        self.last = {"count": int(count), "harmless": int(harmless), "uncut": uncut}

    def lacks(self) -> bool:
        return self.last is None

    def value_of_text(self) -> dict[str, Any]:
        return {self.kind: self.rows} | self.last


# By the name of a form: its reader, and how the first line of a text of that form begins.
READERS = {
    "facts": (FactsRead, r"(floor \d|node |portguid .*@|link |port .*@|claim |cap .*@)"),
    "tables": (TablesRead, r"(lid \d{1,10} [0-9a-f]{16}/|switch [0-9a-f]{16} top )"),
    "audit": (AuditRead, r"pairs \d"),
    "next": (NextRead, r"credit loop "),
    "what-if": (WhatIfRead, r" *adapters +all "),
    "compare": (
        CompareRead,
        r"(equal$|gone |come |other |slow cable |fast cable |disputed |LID |(port|portguid|lid|cap) \S+ .*>"
        r"|switch [0-9a-f]{16}(:| entries))",
    ),
}


def form_of(line: str) -> str | None:
    """Returns the name of a text's form by its first line, or None."""
    return next((name for name, (_, begins) in READERS.items() if re.match(begins, line)), None)


def without_names(lines: Iterable[str]) -> tuple[list[str], dict[str, str]]:
    """Returns the lines without the names after GUIDs and ends, and these names by GUID."""
    names = {}

    def taken(found: re.Match) -> str:
        names[found[2]] = found[3]
        return found[1]

    return [NAMED.sub(taken, line) for line in lines], names
