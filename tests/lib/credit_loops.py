"""Credit loops, found by a search over channels and the channels that packets take next."""
from __future__ import annotations

import collections
from collections.abc import Callable, Collection, Mapping

from built_program import check
from ibsm_texts import End, end_in
from packet_routes import Channel, Routes


def followers(ways: Routes) -> dict[Channel, set[Channel]]:
    """Returns, for each channel (a switch and its port), the channels that packets take next, for any LID up to the
    greatest top."""
    ends, found = ways.ends(), collections.defaultdict(set)
    last = max(*ways.owners, *ways.plan.tops.values())
    unowned = {column for _, column in ways.columns(lid for lid in range(1, last + 1) if lid not in ways.owners)}
    for home, column in [*ways.groups, *((None, column) for column in unowned)]:
        for at, port in enumerate(column):
            far = ends.get((at, port)) if at != home else None
            if far is not None and far != home and (far, column[far]) in ends:
                found[at, port].add((far, column[far]))
    return found


def count_round(after: Mapping[Channel, Collection[Channel]], first: Channel) -> int:
    """Returns the number of channels in the shortest cycle through `first`, by breadth-first search; 0 if there is
    none."""
    counts, reached = {first: 1}, [first]
    for near in reached:
        for channel in after.get(near, ()):
            if channel == first:
                return counts[near]
            if channel not in counts:
                counts[channel] = counts[near] + 1
                reached.append(channel)
    return 0


def check_told(
    line: str, after: Mapping[Channel, Collection[Channel]], channel_of: Callable[[End], Channel], what: str
) -> int:
    """Checks that `line` reports a loop with the fewest channels, or none if there is none, and returns its length.
    `channel_of` maps an end to its channel."""
    least = min(filter(None, (count_round(after, first) for first in list(after))), default=0)
    told = line.split(" ")
    head = ["credit", "loop", "on", "one", "lane"] if least else ["credit", "loop", "none"]
    check(
        told[: len(head)] == head and (least or told == head),
        f"{what}: the shortest loop has {least} channels, and it tells {told}",
    )
    loop = [channel_of(end_in(word)) for word in told[len(head) :]]
    check(len(loop) == least, f"{what}: a loop of {len(loop)} channels, by the search one of {least}")
    for channel, following in zip(loop, loop[1:] + loop[:1]):
        check(following in after.get(channel, ()), f"{what}: {following} does not follow {channel}")
    return least
