"""The LIDs of end ports, by the facts and by dumps of forwarding tables that name the owners of LIDs."""
from __future__ import annotations

from dump_tables import Dump
from ibsm_texts import End, Facts, name_of


def port_guids(facts: Facts, dump: Dump) -> dict[End, int | None]:
    """Returns the GUIDs of end ports. If the facts do not have a port's GUID, as of port 0 in an older ibnetdiscover's
    output, it is that of the owner, by the dumps, of the LID that the port claims; None if no dump names the owner, or
    the facts know this GUID as another port's."""
    known, found = set(facts.port_guids.values()), dict(facts.port_guids)
    for end, lid in facts.claims.items():
        if lid and end not in found and facts.is_switch(end[0]) == (end[1] == 0):
            found[end] = None if dump.named.get(lid) in known else dump.named.get(lid)
    return found


def lids_of(
    facts: Facts, dump: Dump, lmcs: dict[End, int] | None = None, lmc: int | None = None
) -> tuple[dict[End, tuple[int, int]], list[str]]:
    """Returns the first and the last LID of each end port, by facts, dumps and known LMCs, and a line for each case in
    which these disagree. `lmc` is that of an adapter's port if it is not known, and dumps do not name several LIDs of
    the port that are a whole range."""
    by_guid, ranges, found, lmcs = {}, {}, [], lmcs or {}
    for lid, guid in sorted(dump.named.items()):
        by_guid.setdefault(guid, []).append(lid)
    for end, guid in sorted(port_guids(facts, dump).items()):
        claimed, named = facts.claims.get(end, 0), by_guid.pop(guid, [])
        first = claimed or (named[0] if named else 0)
        count = len(named) or 1
        goes = not named or named == [*range(first, first + count)] and not count & (count - 1)
        known = lmcs.get(end, lmc if end[1] and not (goes and count > 1) else None)
        if known is not None:
            count = 2**known
            goes = not named or first <= named[0] and named[-1] < first + count
        if not goes:
            given = ", ".join(map(str, named[:8]))
            told = f"claims LID {claimed}, and the dumps give it {given}: are they of one time?"
            found.append(f"port {name_of(end)} {told}")
            count = 1
        if first:
            ranges[end] = first, first + count - 1
    found += [
        f"LID {lids[0]} is of port GUID {guid:016x}, which the facts do not know" for guid, lids in by_guid.items()
    ]
    return ranges, found
