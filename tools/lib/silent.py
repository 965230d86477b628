"""Completes the facts of a recording in which something was silent: adds what was known of adapters that are still
plugged in."""
from __future__ import annotations

from collections.abc import Container
from pathlib import Path
from typing import Any

from ibsm_texts import End, Facts, name_of, put
from record_files import KINDS


def key_of(line: str) -> tuple[int, int, int]:
    """Returns what a fact is about, as a key that sorts in the order of a text of facts."""
    kind, about = line.split(" ", 2)[:2]
    guid, _, port = about.partition("/")
    return KINDS[kind], int(guid, 16), int(port or 0)


class Completed:
    """The facts to plan from.

    A switch without a known table or table size is left out, with the nodes that only it joins. A silent adapter is
    kept if the port where it was before is up.
    """

    def __init__(self, facts: Facts, before: Facts | None, tables: Container[int]) -> None:
        """Takes facts, older ones or None, both with their lines, and the switches whose tables are known."""
        self.facts, self.before = facts, before
        self.lines = {key_of(line): line for line in facts.lines if not line.startswith("floor ")}
        lacking = [
            guid for guid in facts.nodes if facts.is_switch(guid) and not (guid in facts.caps and guid in tables)
        ]
        self.left_out = sorted(lacking)
        self.leave_out(set(lacking))
        self.kept = {}
        if before:
            self.keep()
        links = {key[1:] for key in self.lines if key[0] == KINDS["link"]}
        ups = [key[1:] for key, line in self.lines.items() if key[0] == KINDS["port"] and " up " in line]
        self.ports = sorted(end for end in ups if end[1] and end not in links)

    def leave_out(self, lacking: set[int]) -> None:
        """Removes nodes, and other nodes whose links all lead to removed ones."""
        beside = {}
        for end, far in self.facts.links.items():
            beside.setdefault(end[0], set()).add(far[0])
        while True:
            alone = {guid for guid, near in beside.items() if guid not in lacking and near and near <= lacking}
            if not alone:
                break
            lacking |= alone
            self.left_out += sorted(alone)
        about = {f"{guid:016x}" for guid in lacking}
        self.lines = {
            key: line
            for key, line in self.lines.items()
            if f"{key[1]:016x}" not in about
            and not (key[0] == KINDS["link"] and line.split(" ")[2].split("/")[0] in about)
        }

    def keep(self) -> None:
        """Adds what was known of adapters that are silent, or did not report the state of their port."""
        old = {key_of(line): line for line in self.before.lines if not line.startswith("floor ")}
        for end, far in sorted(self.before.links.items()):
            if self.before.wire(end) != far or self.before.type_of(far[0]) != "ca" or far[0] in self.left_out:
                continue
            now, is_up = self.facts.links.get(end), self.facts.up.get(end)
            if not is_up or now not in (None, far) or self.facts.links.get(far, end) != end or far in self.facts.up:
                continue
            about = [
                ("node", far[0], 0), *((kind, *far) for kind in ("portguid", "link", "port", "claim")), ("link", *end)
            ]
            for kind, *at in about:
                key = (KINDS[kind], *at)
                if key in old:
                    self.lines.setdefault(key, old[key])
            self.kept[far] = self.before.claims.get(far, 0)

    def is_other(self) -> bool:
        """Returns whether the facts differ from those that were recorded."""
        return bool(self.kept or self.left_out)

    def text(self) -> str:
        """Returns the text of the facts."""
        floor = [f"floor {self.facts.floor}"] if self.facts.floor > 1 else []
        return "".join(f"{line}\n" for line in [*floor, *(self.lines[key] for key in sorted(self.lines))])

    def told(self) -> dict[str, Any]:
        """Returns what is silent, for status.json."""
        return {
            "ports": list(map(name_of, self.ports)),
            "kept": [{"end": name_of(end), "lid": lid} for end, lid in sorted(self.kept.items())],
            "left_out": [f"{guid:016x}" for guid in self.left_out],
        }


def line_of(told: dict[str, Any]) -> str:
    """Returns what is silent, as a line."""
    parts = []
    if ports := told["ports"]:
        parts.append(f"ports to what is silent: {len(ports)}, as {ports[0]}")
    if kept := told["kept"]:
        parts.append(f"silent ports that keep their LIDs: {len(kept)}, as {kept[0]['end']} with {kept[0]['lid']}")
    if nodes := told["left_out"]:
        parts.append(f"nodes left out: {len(nodes)}, as {nodes[0]}")
    return "; ".join(parts)


def add_lids(path: Path, kept: dict[End, int], lmc: int | None) -> None:
    """Adds to held tables the LIDs of kept ports, which cannot report them now."""
    with open(path) as file:
        lines = file.read().splitlines(True)
    lids = [line for line in lines if line.startswith("lid ")]
    tail = f" lmc {lmc}\n" if lmc else "\n"
    lids += [f"lid {lid} {name_of(end)}{tail}" for end, lid in kept.items() if lid]

    def order(line: str) -> tuple[int, int, int]:
        _, lid, end, *_ = line.split()
        guid, port = end.split("/")
        return int(lid), int(guid, 16), int(port)

    put(path, "".join(sorted(lids, key=order) + [line for line in lines if not line.startswith("lid ")]))


def completed(facts_path: Path, before_path: Path | None, tables: Container[int]) -> Completed:
    """Returns the facts of a recording, completed by those of the recording before it, if there is one. `tables` are
    the switches whose tables were read."""
    before = Facts(before_path, keeps_lines=True) if before_path else None
    return Completed(Facts(facts_path, keeps_lines=True), before, tables)
