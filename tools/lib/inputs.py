"""What kind of file an input of a tool is, by its first bytes, and facts and tables from any file that has them."""
from __future__ import annotations

import os
import re

from dump_lanes import is_lanes
from dump_lids import lids_of
from dump_links import Told, is_links
from dump_tables import Dump, is_head
from ibsm_texts import Facts, Plan, Refused, lines_of, name_of, opened_bytes, plan_lines
from json_forms import form_of
from program import printed_by, the_program
from record_files import KINDS

# How many bytes of a file tell its kind, and the first bytes of files that are no text.
MOST_BYTES = 16384
MAGIC = (
    (b"IBSMREP1", "recording"), (b"IBSMSTO1", "store"), (b"IBSMSTO2", "store"),
    *((magic, "packed") for magic in (b"\x1f\x8b", b"BZh", b"\xfd7zXZ", b"(\xb5/\xfd", b"PK\x03\x04")),
)
# How the first line of other texts begins, by kind.
BEGINS = {
    "names": r'\s*0x[0-9a-fA-F]{1,16}\s+"',
    "lanes": r"lanes [0-9a-f]{32}|sl2vl [0-9a-f]{16} |levels? \d|levels [0-9a-f]{16}/",
    "groups": r"groups$",
    "topology": r'(Switch|Hca) \d+ "',
    "JSON": r'\{"',
    "page": r"<!doctype html|<\?xml|<svg",
    "picture": r"graph \w+ \{",
    "list of switches": r"(0[xX])?[0-9a-fA-F]{1,16}\s*(#.*)?$",
}
# What a file is, by its kind, and what takes it.
TOLD = {
    "recording": "a recording: `ibsm facts` prints its facts, and links its widths and speeds",
    "store": "a store file: `ibsm facts` prints its facts",
    "facts": "a text of facts: draw, report, what-if, topology, find-order and compare take it, and so does json",
    "tables": "a text of tables: it is TABLES of report, what-if and `ibsm audit`, and draw takes it by --plan",
    "audit": "an audit: json and names take it",
    "next": "what `ibsm next` says of credit loops: json takes it",
    "compare": "what compare printed: json and names take it",
    "what-if": "what what-if printed: json and names take it",
    "dump of links": "a dump of nodes and cables: from-dumps takes it",
    "dump of tables": "a dump of forwarding tables: from-dumps and `opensm-files tables` take it",
    "dump of lanes": "a dump of lanes or service levels: `from-dumps --lanes` takes it",
    "names": "a node name map: tools take it by --names",
    "lanes": "a text of lanes: `ibsm audit --lanes` takes it",
    "groups": "a text of multicast tables: trees takes it",
    "topology": "a topology: `ibsm run` takes it",
    "list of switches": "a list of GUIDs, as roots or an order: plans take it by --roots or --order",
    "JSON": "JSON: it is the end of a way, and jq reads it",
    "page": "a page or a picture: a browser shows it",
    "picture": "a picture as DOT: graphviz takes it",
    "packed": "packed: unpack it first",
    "empty": "empty: did what should have written it fail?",
}
# What tools take, by the name that their usage has for it.
WANTED = {
    "FACTS": "a recording, a store file, or what `ibsm facts` prints of them",
    "CABLES": "a recording, a store file, what `ibsm facts` prints of them, or a dump of nodes and cables",
    "TABLES": "what `record --tables` writes or `ibsm plan` prints, or a dump of forwarding tables",
    "RECORDING": "what `record` wrote, since no text has widths and speeds",
    "FILE": "one of the texts that --help names",
    "DUMP": "what another tool dumped; `ibsm` itself takes recordings and store files",
    "MAP": 'lines `0xGUID "name"`',
}


def kind_of(path: str | os.PathLike) -> str:
    """Returns the kind of a file by its first bytes, or an empty text if it is of none of the kinds."""
    head = opened_bytes(path, MOST_BYTES)
    if not head.strip():
        return "empty"
    for magic, kind in MAGIC:
        if head.startswith(magic):
            return kind
    lines = head.decode("utf-8", "replace").splitlines()
    first = next((line for line in lines if line.strip() and not line.lstrip().startswith("#")), "")
    if form := form_of(first):
        return form
    for kind, begins in BEGINS.items():
        if re.match(begins, first):
            return kind
    if any(is_head(line.lstrip()) for line in lines):
        return "dump of tables"
    if is_links(lines):
        return "dump of links"
    return "dump of lanes" if is_lanes(lines) else ""


def wrong(path: str | os.PathLike, role: str, kind: str | None = None) -> Refused:
    """Returns the refusal of a file that is no input of a tool: what it is, and what is wanted."""
    kind = kind_of(path) if kind is None else kind
    told = f"this is {TOLD[kind]}" if kind else "this is none of the files and texts that ibsm and its tools know"
    return Refused(f"{path}: {told}; {'FACTS' if role == 'CABLES' else role} is {WANTED[role]}")


def of_links(path: str | os.PathLike) -> list[str]:
    """Returns the lines of facts of a dump of nodes and cables. No dump tells the sizes of forwarding tables."""
    told = Told()
    told.read(str(path), lines_of(path, "replace"))
    told.judge()
    return facts_of(told, None, 1)[0]


def facts_of(told: Told, cap: int | None, generation: int) -> tuple[list[str], dict[str, int]]:
    """Returns the lines of facts of dumps of nodes and cables, and how many gaps of each kind these have. `cap` is the
    room of each forwarding table, if it is known."""
    cells, said = dict(told.values), dict.fromkeys(("taken", "down", "claims", "guids", "caps"), 0)
    nodes = {guid: value.split(" ") for (kind, guid, _), value in told.values.items() if kind == "node"}
    for guid, (kind, ports) in nodes.items():
        linked = [port for port in range(1, int(ports) + 1) if ("link", guid, port) in told.values]
        for port in linked:
            state = told.values.get(("port", guid, port)) or told.values.get(("port", *told.far(guid, port)))
            said["taken"] += state is None
            cells["port", guid, port] = state or "up"
        if kind != "switch":
            continue
        if cap:
            cells["cap", guid, 0] = str(cap)
        said["caps"] += not cap
        said["guids"] += ("portguid", guid, 0) not in cells
        cells["port", guid, 0] = "up"
        for port in range(1, int(ports) + 1):
            said["down"] += port not in linked
            cells.setdefault(("port", guid, port), "down")
            cells["claim", guid, port] = "0"
            said["claims"] += 1
    lines = []
    keys = [key for key in cells if key[0] in KINDS]
    for kind, guid, port in sorted(keys, key=lambda key: (KINDS[key[0]], *key[1:])):
        about = f"{guid:016x}" if kind in ("node", "cap") else name_of((guid, port))
        lines.append(f"{kind} {about} {cells[kind, guid, port]} @{generation}")
    return lines, said


def facts_at(
    path: str | os.PathLike, program: str | None = None, keeps_lines: bool = False, has_sizes: bool = True
) -> Facts:
    """Returns the facts of a file: of a text of facts, of a recording or a store file by `ibsm facts`, or of a dump of
    nodes and cables, unless the facts must have the sizes of forwarding tables. `program` names `ibsm`."""
    kind = kind_of(path)
    if kind in ("recording", "store"):
        return Facts(path, keeps_lines, of_the_program(path, program))
    if kind == "dump of links" and not has_sizes:
        return Facts(path, keeps_lines, of_links(path))
    if kind not in ("facts", "empty", ""):
        raise wrong(path, "FACTS" if has_sizes else "CABLES", kind)
    return Facts(path, keeps_lines)


def of_the_program(path: str | os.PathLike, program: str | None) -> list[str]:
    """Returns the lines of facts that `ibsm facts` prints of a recording or a store file."""
    if path == "-":
        raise Refused("standard input is a recording or a store file: name it, or pipe what `ibsm facts` prints of it")
    return printed_by(the_program(program), "facts", path).splitlines()


def tables_at(path: str | os.PathLike, facts: Facts | None = None) -> Plan:
    """Returns the tables of a file: of a text of tables, or, if there are facts, of a dump of forwarding tables, in
    which ports have the LIDs that they claim by the facts."""
    kind = kind_of(path)
    if kind == "dump of tables" and facts:
        dump = Dump()
        dump.read_strictly(str(path), lines_of(path, "replace"))
        dump.judge()
        ranges, faults = lids_of(facts, dump)
        if faults:
            raise Refused(f"{path}: {faults[0]}")
        rows = {guid: table.row for guid, table in dump.tables.items()}
        return Plan(path, list(plan_lines(ranges, dump.tops, rows)))
    if kind not in ("tables", "empty", ""):
        raise wrong(path, "TABLES", kind)
    return Plan(path)
