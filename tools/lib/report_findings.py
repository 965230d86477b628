"""What a page of `tools/report` tells of the findings of an audit: by cause, by LID and by switch, names first."""
from __future__ import annotations

import collections
import dataclasses
import html
from collections.abc import Container

from ibsm_texts import End, Facts, Names, Plan, end_in
from json_forms import AuditRead

# If no more packets than this are lost, all lines of the audit are read, and otherwise the first ones.
MOST_LINES = 100_000
# Lines of one cause that the page shows at once; the others are folded away.
SHOWN = 12
# Causes of loss: in the counts of an audit, and as the page tells them.
CAUSES = {
    "above_top": "LID above the switch's top",
    "no_entry": "no entry",
    "no_port": "a port that the switch does not have",
    "no_link": "a port without a link",
    "foreign": "an adapter that does not have the LID",
    "misdelivered": "delivered at another port",
    "round": "go round for ever",
}
LOST = {
    "above top": "above its top",
    "no entry": "no entry",
    "no such port": "sent to port {}, which it does not have,",
    "no link": "sent to port {}, which has no link,",
    "foreign port": "comes to an adapter that does not have it",
}
# Other findings, by the first words of their lines.
OTHERS = {
    "unowned": "LIDs of ports that the facts do not know",
    "twice": "LIDs that two ports hold",
    "unknown": "Tables of what is no switch of the facts",
    "tableless": "Switches without tables",
    "unusable": "Nodes that the facts do not know enough of",
    "lidless": "Ports without a LID",
    "unjoined": "Ports that are up and lead to nothing known",
}


@dataclasses.dataclass
class Finding:
    """Lines of HTML on one subject, and how many lines the audit left out."""

    title: str
    lines: list[str]
    left_out: int = 0


def counted(count: int, word: str) -> str:
    """Returns a number with a word in singular or plural."""
    return f"{count:,} {word}{'' if count == 1 else 's'}"


class Findings:
    """What an audit found, for a reader who knows nodes by name."""

    def __init__(self, facts: Facts, held: Plan, audit: AuditRead, names: Names) -> None:
        self.facts, self.held, self.audit, self.names = facts, held, audit, names
        self.lids_lost = collections.defaultdict(set)  # the LIDs that a switch loses
        self.listed = [*self.losses(), *self.others()]

    def called(self, guid: int) -> str:
        """Returns a node's name, or its GUID."""
        return self.names.get(guid, f"{guid:016x}")

    def named(self, guid: int) -> str:
        """Returns a node as HTML: its name with the GUID small behind it, or its GUID."""
        told = html.escape(self.called(guid))
        return f"{told} <small>{guid:016x}</small>" if guid in self.names else told

    def end(self, word: str) -> str:
        """Returns a port as HTML."""
        guid, port = end_in(word)
        at = f"{self.named(guid)} port {port}"
        return self.named(guid) if port == 0 and self.facts.is_switch(guid) else at

    def cable(self, cable: tuple[End, End]) -> str:
        """Returns a cable as HTML."""
        return " \u2013 ".join(f"{self.named(guid)} port {port}" for guid, port in cable)

    def lid(self, lid: int) -> str:
        """Returns a LID with its owner as HTML."""
        owner = self.held.owners.get(lid)
        if owner is None:
            return f"<b>LID {lid}</b>"
        return f"<b>LID {lid}</b> ({self.named(owner[0])})"

    def losses(self) -> list[Finding]:
        """Returns the findings on packets that do not arrive: a line for each LID, place and cause."""
        left_out, found = self.audit.others, []
        for kind, title in (
            ("lost", "Packets are lost"), ("round", "Packets go round for ever"),
            ("misdelivered", "Packets are delivered at another port"),
        ):
            senders = collections.defaultdict(set)
            for told in self.audit.found[kind]:
                senders[told["lid"], told.get("at", ""), told.get("cause", ""), told.get("entry")].add(told["from"])
                if kind == "lost" and self.facts.is_switch(int(told["at"], 16)):
                    self.lids_lost[int(told["at"], 16)].add(told["lid"])
            lines = []
            for (lid, at, cause, entry), own in sorted(senders.items(), key=lambda it: (-len(it[1]), it[0][:3])):
                where = self.place(kind, at, cause, entry)
                more = "at least " if left_out.get(kind) else ""
                lines.append(f"{self.lid(lid)}: {where}; {more}{counted(len(own), 'sender')}")
            if lines:
                found.append(Finding(title, lines, left_out.get(kind, 0)))
        return found

    def place(self, kind: str, at: str, cause: str, entry: int | None) -> str:
        """Returns what becomes of packets as HTML: where they end, and why."""
        if kind == "round":
            return "goes round and does not arrive"
        if kind == "misdelivered":
            return f"delivered at {self.end(at)}"
        what = LOST[cause].format(entry)
        return f"{what} at {self.named(int(at, 16))}"

    def others(self) -> list[Finding]:
        """Returns the findings on LIDs, nodes and ports."""
        found = []
        for kind, title in OTHERS.items():
            lines = []
            for told in self.audit.found[kind]:
                if isinstance(told, dict):
                    lines.append(f"<b>LID {told['lid']}</b>: {self.end(told['end'])}")
                else:
                    lines.append(self.end(told) if "/" in told else self.named(int(told, 16)))
            if lines:
                found.append(Finding(title, lines, self.audit.others.get(kind, 0)))
        return found

    def missed(self, leaves_out: Container[str] = ()) -> str:
        """Returns how many packets of each cause do not arrive."""
        told = self.audit.told["missed"]
        causes = ((cause, word) for cause, word in CAUSES.items() if told.get(cause) and cause not in leaves_out)
        return ", ".join(f"{told[cause]:,} {word}" for cause, word in causes)

    def loop(self) -> list[str]:
        """Returns the ports of the credit loop as text: each with the one at the other end of its cable."""
        found = []
        for word in self.audit.cycle:
            end = end_in(word)
            far = self.facts.wire(end)
            to = f" \u2192 {self.called(far[0])}" if far else ""
            found.append(f"{self.called(end[0])} port {end[1]}{to}")
        return found

    def reasons(self) -> list[str]:
        """Returns why the tables do not pass the audit, a text for each reason; none if they pass."""
        pairs, found = self.audit.told[""], []
        if self.audit.cycle:
            way = [self.called(end_in(word)[0]) for word in self.audit.cycle[:8]]
            way.append(".." if len(self.audit.cycle) > 8 else way[0])
            found.append(f"a credit loop of {counted(len(self.audit.cycle), 'channel')}: " + " \u2192 ".join(way))
        if pairs["pairs"] != pairs["arrive"]:
            lost = pairs["pairs"] - pairs["arrive"]
            found.append(f"{lost:,} of {pairs['pairs']:,} packets do not arrive: {self.missed()}")
        for kind, word in (
            ("tableless", "switch{} without tables"), ("unusable", "node{} of which not enough is known"),
            ("lidless", "port{} without a LID"),
        ):
            count = len(self.audit.found[kind]) + self.audit.others.get(kind, 0)
            if count:
                plural = ("es" if kind == "tableless" else "s") if count > 1 else ""
                found.append(f"{count:,} {word.format(plural)}")
        return found if not self.audit.passes() else []
