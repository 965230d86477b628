"""The picture of a page of `tools/report`: where switches stand, what each channel carries, and what was found."""
from __future__ import annotations

import collections
from collections.abc import Iterable
from typing import Any

import folds
import layout
import spots
from drawing import Box, Drawing, Line, heat
from ibsm_texts import End, Facts, Names, Refused, end_in
from layout import homes_in, rows_of, wires_of


def hundredths(total: int, count: int) -> str:
    """Returns a mean with two digits after the point, cut off as in an audit."""
    return f"{total // count:,}.{100 * total // count % 100:02}"


class Picture:
    """What the picture shows: its switches with their positions, and the loads of channels. A channel is the end that
    packets leave by."""

    def __init__(
        self, facts: Facts, loads: dict[str, int], names: Names, group_of: dict[int, str] | None,
        roots: Iterable[int], most: int, loop: Iterable[str] = (), lids_lost: dict[int, set[int]] | None = None,
    ) -> None:
        """`loads` has the load of each channel, and `loop` the channels of a credit loop, as an audit names them.
        `lids_lost` has the LIDs that switches lose."""
        self.facts, self.names, self.group_of, self.roots = facts, names, group_of, roots
        self.lids_lost = lids_lost or {}
        self.loads = {end_in(word): load for word, load in loads.items()}
        self.loop = [end_in(word) for word in loop]
        self.ends = {end: far for end in [*self.loads, *self.loop] if (far := facts.wire(end))}
        if not self.loads.keys() <= self.ends.keys():
            raise Refused("the audit tells of a channel that the facts do not have")
        self.total, self.count = sum(self.loads.values()), len(self.loads)
        self.mean = self.total / self.count if self.count else 0.0
        self.busiest = sorted(self.loads, key=lambda end: (-self.loads[end], end))[:most]
        self.at_home = collections.Counter(
            far[0] for end in facts.end_ports() if end[1] and (far := facts.wire(end)) and facts.is_switch(far[0])
        )
        self.wires = wires_of(facts)
        self.switches = sorted(self.wires)
        rows = rows_of(facts, self.wires, roots)
        is_tree = bool(roots) or folds.is_tree(self.wires, rows, homes_in(facts, self.wires))
        self.rank = rows if group_of is None and is_tree else None
        self.is_folded = len(self.switches) > folds.MOST_SWITCHES
        self.groups = None
        self.drawing = self.folded() if self.is_folded else self.whole()

    def name(self, guid: int) -> str:
        """Returns the name of a switch, or its GUID."""
        return self.names.get(guid, f"{guid:x}")

    def channel_name(self, channel: End) -> str:
        """Returns a channel by the names of its switches and their ports."""
        (guid, port), (far, back) = channel, self.ends[channel]
        return f"{self.name(guid)} port {port} \u2192 {self.name(far)} port {back}"

    def times_mean(self, channel: End) -> str:
        """Returns how many times the mean a channel carries."""
        return hundredths(self.loads[channel] * self.count, self.total) if self.total else "0"

    def told(self, channel: End) -> str:
        """Returns what a click on a channel tells: what it carries, and how many times the mean that is."""
        load = self.loads.get(channel, 0)
        mean = hundredths(self.total, self.count) if self.count else "0"
        more = f", {self.times_mean(channel)} times the mean of {mean}" if load else ""
        return f"{self.channel_name(channel)}: {load:,} pair{'' if load == 1 else 's'}{more}"

    def box(self, guid: int) -> Box:
        """Returns the box of a switch."""
        lines, count, lost = [self.name(guid)], self.at_home[guid], sorted(self.lids_lost.get(guid, ()))
        if count:
            lines.append(f"{count} adapter{'' if count == 1 else 's'}")
        if lost:
            more = ",.." if len(lost) > 4 else ""
            lines.append(f"loses LID{'' if len(lost) == 1 else 's'} {','.join(map(str, lost[:4]))}{more}")
        marks = " ".join(
            word for word, holds in (("lost", lost), ("loop", any(end[0] == guid for end in self.loop))) if holds
        )
        return Box(lines, "switch", marks, f"{guid:016x}")

    def whole(self) -> Drawing:
        """Returns all switches at their places, with a line for each channel."""
        drawing = Drawing()
        drawing.boxes = {guid: self.box(guid) for guid in self.switches}
        beside = {guid: [far for far in near if far != guid] for guid, near in self.wires.items()}
        members = None if self.rank else layout.grouped(beside, self.group_of, self.names)
        if self.switches:
            layout.arrange(drawing, beside, {}, self.rank, members)
        loop = set(self.loop)
        for channel, far in sorted(self.ends.items(), key=lambda it: (min(it), it[0])):
            load = self.loads.get(channel, 0)
            is_loop = channel in loop
            line = Line(channel[0], far[0], heat(load, self.mean) + " loop" * is_loop, ">" * is_loop)
            line.title, line.data, line.rank = self.told(channel), self.short(channel), load + is_loop * 2 * self.total
            drawing.lines.append(line)
        return drawing

    def folded(self) -> Drawing:
        """Returns the boxes of groups at their places, with a line for all cables between two of them."""
        found, rows = layout.folded_in(self.facts, self.wires, self.rank, self.group_of, self.names)
        self.groups = found
        group_of = {guid: name for name, guids in found.items() for guid in guids}
        number = {name: i for i, name in enumerate(found)}
        bundles = folds.bundles(group_of, self.ends.items())
        drawing = Drawing()
        for name, guids in found.items():
            inner = [one for one, _ in bundles.get((name, name), ())]
            most = max((self.loads.get(it, 0) for it in inner), default=0)
            hosts, lost = sum(self.at_home[guid] for guid in guids), [it for it in guids if it in self.lids_lost]
            lines = [name, f"{len(guids)} switches"] + ([f"{hosts} adapters"] if hosts else [])
            lines += [f"{len(lost)} lose{'s' if len(lost) == 1 else ''} packets"] if lost else []
            marks = heat(most, self.mean) if inner else ""
            marks += " lost" * bool(lost) + " loop" * bool(set(inner) & set(self.loop))
            told = f"{name}: {len(guids)} switches, {len(inner) // 2} cables inside"
            told += f", the busiest channel with {most:,} pairs" if inner else ""
            drawing.boxes[name] = Box(lines, "group", marks, told, str(number[name]))
        between = {pair: own for pair, own in bundles.items() if pair[0] != pair[1]}
        layout.arrange_groups(drawing, between, rows)
        drawing.lines = [self.bundle(*pair, own, group_of) for pair, own in between.items()]
        return drawing

    def bundle(self, one: str, other: str, own: list[tuple[End, End]], group_of: dict[int, str]) -> Line:
        """Returns the line of all channels between two groups, in the colour of the busiest one."""
        channels = [channel for channel, _ in own]
        busiest = max(channels, key=lambda it: self.loads.get(it, 0))
        looped = [it for it in channels if it in set(self.loop)]
        arrows = "".join({">" if group_of[it[0]] == one else "<" for it in looped})
        marks = f"bundle {heat(self.loads.get(busiest, 0), self.mean)}{' loop' if looped else ''}"
        told = f"{one} - {other}: {len(channels)} channels; the busiest: {self.told(busiest)}"
        rank = self.loads.get(busiest, 0) + bool(looped) * 2 * self.total
        return Line(one, other, marks, arrows, title=told, data=f"{one}|{other}", rank=rank)

    def ring(self) -> Drawing:
        """Returns the credit loop alone: its switches on a circle, with an arrow for each channel."""
        drawing = Drawing()
        drawing.boxes = {guid: self.box(guid) for guid, _ in self.loop}
        wide = max(box.size()[0] for box in drawing.boxes.values()) + 60
        for box, place in zip(drawing.boxes.values(), spots.circle(len(drawing.boxes), wide)):
            box.place = place[0], 0.6 * place[1]
        for channel in self.loop:
            if far := self.ends.get(channel):
                if far[0] in drawing.boxes:
                    drawing.lines.append(Line(channel[0], far[0], "loop", ">", title=self.channel_name(channel)))
        return drawing

    def data(self) -> dict[str, Any]:
        """Returns what the page's script needs to unfold groups: switches, groups, and channels with their loads."""
        number = {guid: i for i, guid in enumerate(self.switches)}
        loop = set(self.loop)
        lines = {guid: self.box(guid).lines for guid in self.switches}
        return {
            "switches": [[self.rank[guid] if self.rank else 0, *lines[guid]] for guid in self.switches],
            "lost": [number[guid] for guid in self.lids_lost if guid in number],
            "groups": [[name, *(number[guid] for guid in guids)] for name, guids in self.groups.items()],
            "channels": [
                [number[end[0]], end[1], number[far[0]], far[1], self.loads.get(end, 0), *([1] if end in loop else [])]
                for end, far in sorted(self.ends.items())
            ],
            "total": self.total, "count": self.count, "isTree": self.rank is not None,
        }

    def short(self, channel: End) -> str:
        """Returns a channel as the page's script names it: by its switch, or its number if the picture is folded."""
        at = self.switches.index(channel[0]) if self.is_folded else f"{channel[0]:x}"
        return f"{at}/{channel[1]}"
