"""The tables to write next, worked out from docs/MODEL.md, "From the tables that switches hold to a plan",
independently of the program. Also, what becomes of packets that meet an entry of any of several tables, at each switch
and at each visit.

A hop of a packet is a pair: ON and a switch, TAKEN and the end that took it, or LOST and None.
"""
from __future__ import annotations

import collections
from collections.abc import Collection, Iterable

import paths  # noqa: F401
import spread_rule
from ibsm_texts import ENTRIES, NO_WAY, End, Facts, name_of

ON, TAKEN, LOST = "on", "taken", "lost"
NOWHERE = LOST, None
Hop = tuple[str, object]


class Tables:
    """The contents of a text in the form of a plan: the LIDs of ends, and the tops and blocks of switches."""

    def __init__(self, text: str = "") -> None:
        self.ranges = []  # first LID, end, LMC
        self.tops, self.blocks = {}, {}  # by GUID; by GUID and then by number
        for line in text.splitlines():
            head, first, *rest = line.split(" ")
            if head == "lid":
                guid, port = rest[0].split("/")
                self.ranges.append((int(first), (int(guid, 16), int(port)), int(rest[2]) if rest[1:] else 0))
            elif head == "switch":
                at = int(first, 16)
                self.tops[at], self.blocks[at] = int(rest[1]), {}
            else:
                self.blocks[at][int(first)] = bytes.fromhex(rest[0])

    def owners(self) -> dict[int, list[End]]:
        """Returns, for each LID, the ends that hold it, without repetition."""
        found = collections.defaultdict(list)
        for first, end, lmc in self.ranges:
            for lid in range(first, first + 2**lmc):
                if end not in found[lid]:
                    found[lid].append(end)
        return found

    def entry(self, guid: int, lid: int) -> int:
        """Returns the switch's entry for a LID, as the switch applies it."""
        block = self.blocks.get(guid, {}).get(lid // ENTRIES)
        return NO_WAY if block is None or lid == 0 or lid > self.tops[guid] else block[lid % ENTRIES]

    def column(self, switches: Iterable[int], lid: int) -> dict[int, int]:
        return {guid: self.entry(guid, lid) for guid in switches}

    def text(self) -> str:
        lines = [f"lid {lid} {name_of(end)}" + (f" lmc {lmc}" if lmc else "") for lid, end, lmc in sorted(self.ranges)]
        for guid, top in sorted(self.tops.items()):
            lines.append(f"switch {guid:016x} top {top}")
            lines += [f"block {number} {entries.hex()}" for number, entries in sorted(self.blocks[guid].items())]
        return "".join(f"{line}\n" for line in lines)


class Subnet:
    """What counts among facts: the usable switches (those with a known table size), the end ports, and where the wires
    in ports lead."""

    def __init__(self, facts: Facts) -> None:
        self.switches = sorted(guid for guid in facts.caps if facts.is_switch(guid))
        self.ends = sorted(facts.port_guids)
        wired = [end for end in facts.links if end[0] in self.switches or end in facts.port_guids]
        self.wires = {end: far for end in wired if (far := facts.wire(end)) in wired}

    def graph(self) -> dict[int, list[tuple[int, int]]]:
        """Returns, for each switch, its ports with a wire to a switch, each with that switch, in order of port."""
        found = {guid: [] for guid in self.switches}
        for (guid, port), (far, _) in sorted(self.wires.items()):
            if guid in found and far in found:
                found[guid].append((port, far))
        return found

    def leaves(self) -> list[int]:
        """Returns the switches that have a wire to an adapter."""
        return sorted(
            {far[0] for end, far in self.wires.items() if end[0] not in self.switches and far[0] in self.switches}
        )

    def over(self, end: End, owners: list[End]) -> Hop:
        """Returns the hop over the wire in a port."""
        far = self.wires.get(end)
        if far is None:
            return NOWHERE
        if far[0] in self.switches:
            return ON, far[0]
        return (TAKEN, far) if far in owners else NOWHERE

    def hop(self, guid: int, entry: int, owners: list[End]) -> Hop:
        """Returns what a switch does with a packet for a LID that `owners` hold."""
        return (TAKEN, (guid, 0)) if entry == 0 else self.over((guid, entry), owners)

    def hops(self, column: dict[int, int], owners: list[End]) -> dict[int, Hop]:
        return {guid: self.hop(guid, entry, owners) for guid, entry in column.items()}

    def sent(self, end: End, owners: list[End]) -> Hop:
        """Returns the first hop of a packet from an end port."""
        if end[0] in self.switches:
            return ON, end[0]
        return (TAKEN, end) if end in owners else self.over(end, owners)


def walk(hops: dict[int, Hop], hop: Hop) -> tuple[list[int], Hop | None]:
    """Returns the switches that a packet meets from a hop on, and its last hop, or None if it loops."""
    met = []
    while hop[0] == ON:
        if hop[1] in met:
            return met, None
        met.append(hop[1])
        hop = hops[hop[1]]
    return met, hop


def ways(tables: list[dict[int, Hop]], hop: Hop) -> tuple[set[Hop], set[int], bool]:
    """Returns how a packet may end if each switch takes any of its hops in `tables`, the switches that it may meet, and
    whether it may loop."""
    met, ends, waiting = set(), set(), [hop]
    while waiting:
        kind, at = waiting.pop()
        if kind != ON:
            ends.add((kind, at))
        elif at not in met:
            met.add(at)
            waiting += [hops[at] for hops in tables]
    after = {guid: {hops[guid][1] for hops in tables if hops[guid][0] == ON} for guid in met}
    over = set()
    # Finds, step by step, the switches from which every way ends.
    while more := {guid for guid in met - over if after[guid] <= over}:
        over |= more
    return ends, met, over != met


def turns(subnet: Subnet, tables: Tables) -> dict[int, set[tuple[int, int]]]:
    """Returns, for each switch, the pairs of switches between which it forwards packets: for some LID, packets come
    from the first and leave for the second."""
    found = {guid: set() for guid in subnet.switches}
    for lid in range(1, max(tables.tops.values(), default=0) + 1):
        hops = subnet.hops(tables.column(subnet.switches, lid), [])
        for guid, (kind, at) in hops.items():
            if kind == ON and hops[at][0] == ON:
                found[at].add((guid, hops[at][1]))
    return found


def told_order(subnet: Subnet, tables: Tables, preferred: list[int] | None = None) -> list[int] | None:
    """Returns an order of the switches by which the tables lead packets up and then down, or None if there is none. The
    order is built from its last switch backwards. Each step takes a switch at which no packet turns between two
    switches that are left: of several, the last in `preferred`, or the one with the greatest GUID."""
    found, left, taken = turns(subnet, tables), set(subnet.switches), []
    rank = {guid: number for number, guid in enumerate(preferred or subnet.switches)}
    while left:
        free = [guid for guid in left if not any(one in left and other in left for one, other in found[guid])]
        if not free:
            return None
        taken.append(max(free, key=rank.get))
        left.remove(taken[-1])
    return taken[::-1]


def next_column(subnet: Subnet, held: dict[int, int], planned: dict[int, int], end: End) -> dict[int, int]:
    """Returns the next entries for a LID that `end` alone holds, from the held entries and those of the plan."""
    by_held, by_plan, there = subnet.hops(held, [end]), subnet.hops(planned, [end]), (TAKEN, end)
    agreed = {guid: by_plan[guid] if held[guid] == planned[guid] else NOWHERE for guid in held}
    delivers = {guid for guid in held if walk(by_held, (ON, guid))[1] == there}
    mended = {guid: held[guid] if by_held[guid][0] == ON else planned[guid] for guid in held}
    mending = {guid: there if guid in delivers else hop for guid, hop in subnet.hops(mended, [end]).items()}

    def entry(guid: int) -> int:
        if walk(agreed, by_plan[guid])[1] == there:
            return planned[guid]
        if guid in delivers:
            return held[guid]
        return mended[guid] if walk(mending, (ON, guid))[1] == there else NO_WAY

    return {guid: entry(guid) for guid in held}


class Order:
    """An order of the usable switches, by the position of each."""

    def __init__(self, positions: dict[int, int]) -> None:
        self.positions = positions

    def is_up(self, one: int, other: int) -> bool:
        return self.positions[other] <= self.positions[one]

    def is_down(self, one: int, other: int) -> bool:
        return self.positions[one] <= self.positions[other]

    def is_right(self, subnet: Subnet, tables: Tables) -> bool:
        """Returns whether no packet goes down and then up again, for any LID."""
        for lid in range(1, max((tables.tops.get(guid, 0) for guid in subnet.switches), default=0) + 1):
            to = {
                guid: hop[1]
                for guid, hop in subnet.hops(tables.column(subnet.switches, lid), []).items()
                if hop[0] == ON
            }
            if any(self.is_down(guid, far) and far in to and self.is_up(far, to[far]) for guid, far in to.items()):
                return False
        return True

    def next_column(
        self, subnet: Subnet, held: dict[int, int], owners: list[End], planned: dict[int, int], end: End
    ) -> dict[int, int]:
        """Returns the next entries for a LID of the plan that `owners` hold, from the held entries and those of the
        plan."""
        by_held, by_plan, there = subnet.hops(held, owners), subnet.hops(planned, [end]), (TAKEN, end)
        delivers = {guid for guid in held if walk(by_held, (ON, guid))[1] == there}
        differs = {guid for guid in held if held[guid] != planned[guid]}
        onward = {guid: hop[1] for guid, hop in by_held.items() if hop[0] == ON}
        # The switches to which packets come down by an entry that is not the plan's, and the switches that send packets
        # up by such an entry.
        entered = {far for guid, far in onward.items() if guid in differs and self.is_down(guid, far)}
        going_up = {guid for guid, far in onward.items() if guid in differs and self.is_up(guid, far)}

        def may_change(guid: int) -> bool:
            kind, at = by_plan[guid]
            if kind == ON and (self.is_up(guid, at) and guid in entered or self.is_down(guid, at) and at in going_up):
                return False
            return guid not in delivers or (at in delivers if kind == ON else by_plan[guid] == there)

        takes = {guid for guid in held if may_change(guid)}
        tried = {guid: by_plan[guid] if guid in takes else by_held[guid] for guid in held}
        return {
            guid: NO_WAY if walk(tried, (ON, guid))[1] != there else planned[guid] if guid in takes else held[guid]
            for guid in held
        }


def by_rank(subnet: Subnet) -> Order:
    """Returns the order of up/down routing: by distance from the least GUID of the component, and then by GUID."""
    graph = subnet.graph()
    far = {}
    for guid in subnet.switches:
        if guid not in far:
            far.update(spread_rule.distances(graph, [guid]))
    return Order(
        {guid: position for position, guid in enumerate(sorted(subnet.switches, key=lambda it: (far[it], it)))}
    )


def by_spread(subnet: Subnet, roots: Iterable[int]) -> Order:
    """Returns the order of the rule `spread`."""
    graph = subnet.graph()
    return Order(spread_rule.positions_of(graph, spread_rule.keys_of(graph, subnet.leaves(), roots)))


def as_named(subnet: Subnet, named: Iterable[int]) -> Order:
    """Returns the order of the rule `spread`, if `named` switches are given."""
    graph = subnet.graph()
    return Order(spread_rule.positions_of(graph, spread_rule.keys_as_named(graph, named)))


def grown(graph: dict[int, list[tuple[int, int]]], order: Order) -> Order:
    """Returns the order that grows by the positions of another."""
    return Order(spread_rule.positions_of(graph, {guid: (order.positions[guid], guid) for guid in graph}))


def tree_of(graph: dict[int, list[tuple[int, int]]], order: Order) -> dict[int, list[tuple[int, int]]]:
    """Returns the edges between each switch and the earliest one beside it, if that is earlier than it."""
    parents = {guid: min([guid, *(far for _, far in graph[guid])], key=order.positions.get) for guid in graph}
    return {
        guid: [(port, far) for port, far in edges if parents[guid] == far or parents[far] == guid]
        for guid, edges in graph.items()
    }


def two_orders(subnet: Subnet, held: Tables, plan: Order, preferred: Order) -> tuple[Order, Order] | None:
    """Returns the order by which a step goes from the held tables, and the next order, or None if the held tables imply
    no order. Of several orders that they imply, it is the one nearest to `preferred`."""
    graph = subnet.graph()
    told = told_order(subnet, held, sorted(graph, key=grown(graph, preferred).positions.get))
    if told is None:
        return None
    first = Order({guid: position for position, guid in enumerate(told)})
    second = grown(graph, first)
    if not second.is_right(subnet, held):
        return first, second
    return second, grown(tree_of(graph, second), plan)


def labels_to(subnet: Subnet, orders: tuple[Order, Order], targets: set[int]) -> dict[int, tuple[bool, bool]]:
    """Returns, for each switch from which packets get to the targets, whether its channel towards them leads up by each
    order. A packet that has come down by an order does not go up by it again. Labels are given in four rounds, each of
    which goes on until no switch gets one."""
    graph, found = subnet.graph(), dict.fromkeys(targets, (False, False))
    for label in (False, False), (True, False), (False, True), (True, True):
        while more := [
            guid
            for guid in graph
            if guid not in found and any(leads_on(orders, found, label, guid, far) for _, far in graph[guid])
        ]:
            found.update(dict.fromkeys(more, label))
    return found


def leads_on(
    orders: tuple[Order, Order], labels: dict[int, tuple[bool, bool]], label: tuple[bool, bool], one: int, other: int
) -> bool:
    """Returns whether a channel leads up by the orders that its label names and down by the others, to a switch whose
    label names no order besides these."""
    if one == other or other not in labels:
        return False
    up = tuple(order.positions[other] < order.positions[one] for order in orders)
    return up == label and all(before or not after for before, after in zip(label, labels[other]))


def column_between(
    subnet: Subnet,
    orders: tuple[Order, Order],
    held: dict[int, int],
    owners: list[End],
    planned: dict[int, int],
    end: End,
) -> dict[int, int]:
    """Returns entries that lead packets to `end` up and then down by both orders: the held ones that do so, else the
    plan's, else the entries of the least ports."""
    by_held, by_plan, there = subnet.hops(held, owners), subnet.hops(planned, [end]), (TAKEN, end)
    targets = {guid for guid, hop in by_plan.items() if hop == there}
    labels, graph = labels_to(subnet, orders, targets), subnet.graph()

    def entry(guid: int) -> int:
        if guid in targets:
            return planned[guid]
        if guid not in labels:
            return NO_WAY
        for entries, hops in (held, by_held), (planned, by_plan):
            kind, at = hops[guid]
            if kind == ON and leads_on(orders, labels, labels[guid], guid, at):
                return entries[guid]
        return min(port for port, far in graph[guid] if leads_on(orders, labels, labels[guid], guid, far))

    return {guid: entry(guid) for guid in held}


def tables_between(subnet: Subnet, held: Tables, plan: Tables, orders: tuple[Order, Order]) -> Tables:
    """Returns tables that lead packets up and then down by both orders."""
    before, columns = held.owners(), {}
    for lid, (end,) in plan.owners().items():
        entries, planned = held.column(subnet.switches, lid), plan.column(subnet.switches, lid)
        columns[lid] = column_between(subnet, orders, entries, before[lid], planned, end)
    return assembled(subnet, held, plan, columns)


def step(
    subnet: Subnet, held: Tables, plan: Tables, order: Order, last: list[int] | None = None
) -> tuple[Tables, Order | None]:
    """Returns the next tables and, if the step goes by an order that the held tables imply, that order. Of several such
    orders, it is the one nearest to the order of the last step, if `last` gives that one's switches, as long as a step
    by it changes something; and otherwise the one nearest to the plan's order."""
    if not order.is_right(subnet, held):
        for preferred in [order] if last is None else [in_turn(subnet, last), order]:
            orders = two_orders(subnet, held, order, preferred)
            if orders is None:
                break
            wanted = next_tables(subnet, held, tables_between(subnet, held, plan, orders), orders[0])
            if preferred is order or wanted.text() != held.text():
                return wanted, orders[0]
    return next_tables(subnet, held, plan, order), None


def in_turn(subnet: Subnet, named: list[int]) -> Order:
    """Returns the order in which a list names switches. Switches that are not named come after all others, with equal
    positions."""
    return Order({guid: named.index(guid) if guid in named else len(named) for guid in subnet.switches})


def first_moved(held: Tables, plan: Tables) -> int | None:
    """Returns the least LID that the plan gives to an end and that another end holds, or None."""
    owners = held.owners()
    return next((lid for lid, ends in sorted(plan.owners().items()) if set(owners[lid]) - set(ends)), None)


def next_tables(subnet: Subnet, held: Tables, plan: Tables, order: Order) -> Tables:
    """Returns the next tables. They follow the plan's order if, by that order, the held tables lead no packet down and
    then up."""
    before, after, is_right = held.owners(), plan.owners(), order.is_right(subnet, held)
    columns = {}
    for lid, (end,) in after.items():
        entries, planned = held.column(subnet.switches, lid), plan.column(subnet.switches, lid)
        if is_right:
            columns[lid] = order.next_column(subnet, entries, before[lid], planned, end)
        else:
            columns[lid] = next_column(subnet, entries, planned, end) if before[lid] == [end] else planned
    return assembled(subnet, held, plan, columns)


def assembled(subnet: Subnet, held: Tables, plan: Tables, columns: dict[int, dict[int, int]]) -> Tables:
    """Returns the tables of these columns, with the plan's LIDs and the greater of both tops."""
    made = Tables()
    made.ranges = plan.ranges
    made.tops = {guid: max(held.tops.get(guid, 0), plan.tops[guid]) for guid in subnet.switches}
    for guid, top in made.tops.items():
        entries = bytes(
            columns[lid][guid] if lid in columns else NO_WAY for lid in range((top // ENTRIES + 1) * ENTRIES)
        )
        made.blocks[guid] = {at // ENTRIES: entries[at : at + ENTRIES] for at in range(0, len(entries), ENTRIES)}
    return made


def waits(subnet: Subnet, tables: Collection[Tables]) -> dict[End, dict[End, int]]:
    """Returns, for each channel, the channels that packets may take after it, each with the least LID of such a packet.
    The first is taken by an entry of any of `tables`, and the next by an entry of any. A channel is a switch and its
    port with a wire to a switch."""
    found = collections.defaultdict(dict)
    for lid in range(1, max((max(them.tops.values(), default=0) for them in tables), default=0) + 1):
        taken = {guid: set() for guid in subnet.switches}  # its ports with the switches there
        for guid, ports in taken.items():
            for entry in {them.entry(guid, lid) for them in tables} - {0}:
                far = subnet.wires.get((guid, entry))
                if far and far[0] in taken:
                    ports.add((entry, far[0]))
        for guid, ports in taken.items():
            for port, far in ports:
                for further, _ in taken[far]:
                    found[guid, port].setdefault((far, further), lid)
    return found
