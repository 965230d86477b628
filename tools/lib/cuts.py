"""What the loss of cables or switches would do: which packets the held tables would lose, by audits of the facts
without them, and which entries a new plan would change."""
from __future__ import annotations

import collections
import functools
import itertools
import multiprocessing
import os
import pathlib
import struct
from collections.abc import Callable, Collection, Iterator, Sequence
from itertools import compress
from typing import Any

import progress
from audits import Auditor, audit_in, stored
from differences import apart
from ibsm_texts import End, Facts, Plan, end_in, name_of
from json_forms import AuditRead
from program import printed_by
from record_files import CLAIM, LINK, PORT

Cable = tuple[End, End]
# The rules of plans; those of them that take roots or an order.
RULES = "updown", "spread", "balance"
TAKERS = {"roots": ("spread",), "order": ("spread", "balance")}
# How many of the worst cables are cut two at a time, each together with each other one.
MOST_IN_TWO = 24
# A store file: the length of its head, the length of a record, and where a record has its kind, port and GUID.
HEAD, RECORD, KIND_AT, PORT_AT, GUID_AT, VALUE_AT = 16, 32, 0, 2, 8, 16


class Cut:
    """Cables or switches that are taken away together, with all cables of the switches."""

    def __init__(self, cables: Sequence[Cable], switches: Sequence[int] = ()) -> None:
        self.cables, self.switches = tuple(cables), tuple(switches)
        self.ends = {end for cable in cables for end in cable}

    def text(self) -> str:
        """Returns the switches or cables that are taken away, as they stand in a printed table."""
        cables = ", ".join(f"{name_of(near)} - {name_of(far)}" for near, far in self.cables)
        return " ".join(f"{guid:016x}" for guid in self.switches) or cables


class Store:
    """The store file of facts, in which end ports claim the LIDs that they hold."""

    def __init__(self, facts: Facts, held: Plan) -> None:
        self.data = bytearray(stored(facts))
        self.records = collections.defaultdict(list)  # GUID: where its records begin
        for at in range(HEAD, len(self.data), RECORD):
            (guid,) = struct.unpack_from(">Q", self.data, at + GUID_AT)
            self.records[guid].append(at)
            lids = held.ranges.get((guid, self.data[at + PORT_AT]))
            if self.data[at + KIND_AT] == CLAIM and lids:
                self.data[at + 1] = 1
                struct.pack_into(">H", self.data, at + VALUE_AT, lids[0])

    def without(self, ends: Collection[End] = (), switches: Collection[int] = ()) -> bytes:
        """Returns the store file without the cables in ports, which are then down, and without switches."""
        data, gone = bytearray(self.data), []
        for guid in {guid for guid, _ in ends} | {*switches}:
            for at in self.records.get(guid, ()):
                is_cut, kind = (guid, data[at + PORT_AT]) in ends, data[at + KIND_AT]
                if guid in switches or is_cut and kind == LINK:
                    gone.append(at)
                elif is_cut and kind == PORT:
                    data[at + VALUE_AT] = 0
        for at in sorted(gone, reverse=True):
            del data[at : at + RECORD]
        return bytes(data)


class Uncut:
    """What a plan by a rule changes if nothing is cut, and whether the rule was asked for or found."""

    def __init__(self, rule: str, entries: int, switches: int, is_asked: bool) -> None:
        self.rule, self.entries, self.switches, self.is_asked = rule, entries, switches, is_asked


class Losses:
    """What is lost by cuts, found by the program, whose runs for several cuts are side by side."""

    def __init__(self, program: str, room: str | os.PathLike, facts: Facts, held: Plan) -> None:
        self.auditor = Auditor(program, room, held)
        self.facts, self.held, self.rule, self.missed = facts, held, [], []
        self.store = Store(facts, held)
        with progress.doing("audits"):
            self.now = self.auditor.audit(self.store.without(), "--loads")

    def follow(self, routing: str | None, **starts: str | None) -> Uncut:
        """Plans from now on by a rule, and by the `roots` or the `order` that are given. Without a rule it is the first
        one by which a plan changes no entry if nothing is cut, or else the one by which it changes the fewest."""
        given = {word: path for word, path in starts.items() if path}
        options = [it for word, path in given.items() for it in (f"--{word}", path)] + lmc_of(self.held)
        able = [rule for rule in RULES if all(rule in TAKERS[word] for word in given)]
        best = None
        for rule in [routing] if routing else able:
            self.rule = ["--routing", rule, *options]
            with progress.doing(f"plans by {rule}"):
                found = Uncut(rule, *self.changed(Cut([])), routing is not None)
            if best is None or found.entries < best.entries:
                best = found
            if not best.entries:
                break
        self.rule = ["--routing", best.rule, *options]
        return best

    def load(self, cable: Cable) -> int:
        """Returns how many pairs of adapters send over a cable between switches, in either direction. A packet that
        arrives crosses a cable at most once."""
        return sum(self.now.loads.get(name_of(end), 0) for end in cable)

    def lost(self, cut: Cut) -> tuple[int, int, int]:
        """Returns how many pairs are lost by a cut: those of adapters, all, and of these those that nothing joins then.
        A switch that is taken away keeps the packet to itself."""
        then = self.auditor.audit(self.store.without(cut.ends))
        adapters, every = (
            self.now.told[which]["arrive"] - then.told[which]["arrive"] for which in ("between_adapters", "")
        )
        parted = self.now.told[""]["pairs"] - then.told[""]["pairs"]
        if parted and len(cut.cables) == 1:
            # Where one cable joins two parts, the packets that cross it are those between the parts.
            return adapters, every, every
        now, then = (self.pieces(ends) for ends in (frozenset(), frozenset(cut.ends)))
        # Pairs that the cut parts, and of which no packet arrives now.
        others = sum(now[one] == now.get(other) and then[one] != then[other] for one, other in self.missed)
        return adapters, every, parted - others

    def note_missed(self) -> None:
        """Notes the pairs of which packets do not arrive now, each as its two end ports."""
        if self.now.told[""]["pairs"] != self.now.told[""]["arrive"]:
            self.missed = list(missed_pairs(self.auditor.audit(self.store.without(), "--all"), self.held))

    @functools.lru_cache(maxsize=2)
    def pieces(self, cut: frozenset[End]) -> dict[End, End]:
        """Returns, for each end port, an end port of its piece of the subnet without the cables in some ports. Adapters
        forward nothing from port to port."""
        beside = collections.defaultdict(list)
        for end in self.facts.links:
            if end not in cut and (far := self.facts.wire(end)):
                beside[self.port(end)].append(self.port(far))
        found = {}
        for start in map(self.port, self.facts.end_ports()):
            waiting = [] if start in found else [start]
            while waiting:
                at = waiting.pop()
                if at not in found:
                    found[at] = start
                    waiting += beside[at]
        return found

    def port(self, end: End) -> End:
        """Returns the end port at an end: of a switch its port 0."""
        return (end[0], 0) if self.facts.is_switch(end[0]) else end

    def changed(self, cut: Cut) -> tuple[int, int]:
        """Returns how many entries a plan without what is cut changes, and on how many switches."""
        store = self.auditor.put(self.store.without(cut.ends, cut.switches))
        plan = pathlib.Path(f"{store}.plan")
        plan.write_text(printed_by(self.auditor.program, "plan", *self.rule, store))
        return changed(self.held, Plan(plan))

    def load_by(self, rule: str) -> dict[str, float] | None:
        """Returns how busy channels are by a plan by a rule if nothing is cut: the most on one, and the mean."""
        store = self.auditor.put(self.store.without())
        plan = self.auditor.room / f"{rule}.plan"
        plan.write_text(printed_by(self.auditor.program, "plan", "--routing", rule, *lmc_of(self.held), store))
        return audit_in(printed_by(self.auditor.program, "audit", plan, store, statuses=(0, 1))).spreads["load"]

    def row(self, cut: Cut) -> tuple[int, ...]:
        """Returns what is lost by a cut, and what a plan without it changes."""
        return *self.lost(cut), *self.changed(cut)

    def each(self, what: str, find: Callable[[Cut], Any], cuts: Sequence[Cut]) -> list[Any]:
        """Returns what `find` returns of each cut, by a process for each processor."""
        if not cuts:
            return []
        with multiprocessing.get_context("fork").Pool(min(os.cpu_count() or 1, len(cuts)), note, (find, cuts)) as pool:
            return list(progress.counted(what, pool.imap(found_of, range(len(cuts))), len(cuts)))


_noted = []


def note(find: Callable[[Cut], Any], cuts: Sequence[Cut]) -> None:
    """Notes in a process what it finds, and of which cuts."""
    _noted[:] = find, cuts


def found_of(number: int) -> Any:
    """Returns what is found of the cut of a number."""
    find, cuts = _noted
    return find(cuts[number])


def missed_pairs(audit: AuditRead, held: Plan) -> Iterator[Cable]:
    """Yields the pairs of which packets do not arrive by the lines of an audit, each as its two end ports. Where two
    end ports hold a LID, a packet for one of them comes to the other."""
    owners = collections.defaultdict(set)
    for lid, end in [*held.owners.items(), *held.shared]:
        owners[lid].add(end)
    seen = set()
    for kind in ("lost", "misdelivered", "round"):
        for told in audit.found[kind]:
            start, lid = end_in(told["from"]), told["lid"]
            if (start, lid) not in seen:
                seen.add((start, lid))
                there = {end_in(told["at"])} if kind == "misdelivered" else set()
                yield from ((start, owner) for owner in sorted(owners[lid] - there))


def changed(old: Plan, new: Plan) -> tuple[int, int]:
    """Returns how many entries for the old tables' LIDs differ on switches that both tables have, and on how many of
    these."""
    owned, counts = bytearray(old.greatest + 1), []
    for lid in old.owners:
        owned[lid] = 1
    for guid in old.tables.keys() & new.tables.keys():
        different = apart(old.row(guid), new.row(guid))
        counts.append(sum(compress(map(bool, different), owned)) if any(different) else 0)
    return sum(counts), sum(count > 0 for count in counts)


def lmc_of(held: Plan) -> list[object]:
    """Returns the option of plans that gives their LMC, the greatest one that tables have."""
    most = max(last - first for first, last in held.ranges.values())
    return ["--lmc", (most + 1).bit_length() - 1]


def cables_of(facts: Facts) -> list[Cable]:
    """Returns the cables that are up, but for one in a single port."""
    return [(end, far) for end, far, kind in facts.cables() if kind == "up" and end != far]


def is_between_switches(facts: Facts, cable: Cable) -> bool:
    """Returns whether both ends of a cable are ports of switches."""
    return all(facts.is_switch(end[0]) for end in cable)


def worst_cables(losses: Losses, of_adapters: bool = False) -> list[tuple[Cut, int]]:
    """Returns the cut of each cable between switches, worst first, with the pairs of adapters that are lost by it. If
    asked, cables of adapters are among them, each of which takes an audit."""
    cables = cables_of(losses.facts)
    found = [(Cut([it]), losses.load(it)) for it in cables if is_between_switches(losses.facts, it)]
    if of_adapters:
        others = [Cut([it]) for it in cables if not is_between_switches(losses.facts, it)]
        found += zip(others, (lost[0] for lost in losses.each("audits without a cable", losses.lost, others)))
    return sorted(found, key=lambda it: (-it[1], it[0].cables))


def worst_switches(losses: Losses) -> list[tuple[Cut, int]]:
    """Returns a cut of each switch, worst first, with the pairs of adapters that are lost by it."""
    beside = {guid: [] for guid in sorted(losses.facts.nodes) if losses.facts.is_switch(guid)}
    for cable in cables_of(losses.facts):
        for guid in {end[0] for end in cable} & beside.keys():
            beside[guid].append(cable)
    return by_audits(losses, "audits without a switch", [Cut(cables, (guid,)) for guid, cables in beside.items()])


def worst_of_two(losses: Losses) -> list[tuple[Cut, int]]:
    """Returns cuts of two cables, worst first, with the pairs of adapters that are lost by them: any two of the worst
    cables, and both of each switch that has exactly two to other switches."""
    ranked, beside = worst_cables(losses), collections.defaultdict(list)
    for cut, _ in ranked:
        for guid in {end[0] for end in cut.ends}:
            beside[guid].append(cut.cables[0])
    worst = [cut.cables[0] for cut, _ in ranked[:MOST_IN_TWO]]
    twos = {tuple(sorted(two)) for two in itertools.combinations(worst, 2)}
    twos |= {tuple(sorted(two)) for two in beside.values() if len(two) == 2}
    return by_audits(losses, "audits without two cables", [Cut(two) for two in sorted(twos)])


def by_audits(losses: Losses, what: str, cuts: Sequence[Cut]) -> list[tuple[Cut, int]]:
    """Returns cuts in the order of what is lost by each, found by audits, with the pairs of adapters lost."""
    losses.note_missed()
    found = list(zip(cuts, losses.each(what, losses.lost, cuts)))
    found.sort(key=lambda it: ([-count for count in it[1]], it[0].switches, it[0].cables))
    return [(cut, lost[0]) for cut, lost in found]
