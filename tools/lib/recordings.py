"""Reads from recordings what facts do not have: the widths and speeds of links. docs/FORMATS.md has their form."""
from __future__ import annotations

import dataclasses
from collections.abc import Iterator
from typing import TypeVar

from ibsm_texts import End, Refused, name_of, opened_bytes
from inputs import wrong
from record_files import NODE_INFO, NO_REPORTS, PORT_INFO

RECORD, HEAD, ATTRIBUTE, VIA = 272, 16, 64, 1
Cable = tuple[End, End]
Said = TypeVar("Said")
# By the bits of PortInfo: the number of lanes, and the name and the rate of a lane in Gb/s. LinkSpeedExtActive takes
# precedence.
WIDTHS = {1: 1, 16: 2, 2: 4, 4: 8, 8: 12}
SPEEDS = {1: ("SDR", 2.5), 2: ("DDR", 5), 4: ("QDR", 10)}
FAST = {1: ("FDR", 14), 2: ("EDR", 25), 4: ("HDR", 50), 8: ("NDR", 100)}


@dataclasses.dataclass(frozen=True, order=True)
class Rate:
    """The rate of a link. Rates compare by their gigabits first."""

    gigabits: float
    lanes: int
    speed: str

    def __str__(self) -> str:
        return f"{self.lanes}x {self.speed} {self.gigabits:g} Gb/s"


def rate(lanes: int, speed: tuple[str, float]) -> Rate:
    """Returns the rate of a link of `lanes` lanes, given the name of a speed and the gigabits of a lane."""
    name, gigabits = speed
    return Rate(lanes * gigabits, lanes, name)


class Port:
    """What a port says of its link."""

    def __init__(self, info: bytes) -> None:
        self.lanes = WIDTHS.get(info[31])
        self.speed = FAST.get(info[62] >> 4) or SPEEDS.get(info[35] >> 4)
        self.widths = {lanes for bit, lanes in WIDTHS.items() if info[30] & bit}
        self.speeds = {speed for bit, speed in SPEEDS.items() if info[32] >> 4 & bit}
        self.speeds |= {speed for bit, speed in FAST.items() if info[62] & 15 & bit}
        self.is_up = 2 <= info[32] & 15 <= 4

    def rate(self) -> Rate | None:
        """Returns the rate of the port, or None if it does not report a width and a speed."""
        return rate(self.lanes, self.speed) if self.lanes and self.speed else None


class Recording:
    """The links in a recording, each once, with what both ends say of it in the newest generation."""

    def __init__(self, path: str) -> None:
        data = opened_bytes(path)
        if not data.startswith(NO_REPORTS):
            raise wrong(path, "RECORDING")
        if (len(data) - len(NO_REPORTS)) % RECORD:
            raise Refused(f"{path}: it ends within a record: is it cut?")
        self.ports, self.fars, self.ages = {}, {}, {}
        for at in range(len(NO_REPORTS), len(data), RECORD):
            self.take(data[at : at + RECORD])

    def take(self, record: bytes) -> None:
        """Takes in a record."""
        age, context, port = int.from_bytes(record[:4], "big"), record[4], record[5]
        guid = int.from_bytes(record[8:16], "big")
        packet = record[HEAD:]
        attribute, modifier = int.from_bytes(packet[16:18], "big"), int.from_bytes(packet[20:24], "big")
        value = packet[ATTRIBUTE : ATTRIBUTE + 64]
        if attribute == PORT_INFO:
            self.note(self.ports, (guid, modifier), Port(value), age)
        elif attribute == NODE_INFO and context == VIA:
            far = int.from_bytes(value[12:20], "big"), value[36]
            self.note(self.fars, (guid, port), far, age)
            self.note(self.fars, far, (guid, port), age)

    def note(self, known: dict[End, Said], key: End, value: Said, age: int) -> None:
        """Notes what a record says of a key, unless a record of a newer generation was noted for it."""
        if age >= self.ages.get((id(known), key), 0):
            known[key], self.ages[id(known), key] = value, age

    def links(self) -> dict[Cable, list[Port]]:
        """Returns each link that is up, its lesser end first, with what its ports say of it."""
        found = {}
        for end, far in sorted(self.fars.items()):
            known = [port for it in (end, far) if (port := self.ports.get(it))]
            if end < far and self.fars.get(far) == end and known and all(port.is_up for port in known):
                found[end, far] = known
        return found

    def rates(self) -> dict[Cable, tuple[Rate | None, Rate | None]]:
        """Returns each link with its rate (None if neither end reports it) and the greatest rate that both ends support
        (None if it is not known)."""
        return {cable: (rate_of(known), most_of(known)) for cable, known in self.links().items()}


def rate_of(known: list[Port]) -> Rate | None:
    """Returns the least rate that the ends report, or None if none does."""
    return min((told for port in known if (told := port.rate())), default=None)


def most_of(known: list[Port]) -> Rate | None:
    """Returns the rate of the greatest width and speed that both ends support, or None if one end is not known or they
    have none in common."""
    widths = set.intersection(*(port.widths for port in known))
    speeds = set.intersection(*(port.speeds for port in known))
    if len(known) < 2 or not widths or not speeds:
        return None
    return rate(max(widths), max(speeds, key=lambda speed: speed[1]))


def rates_apart(old: Recording, new: Recording) -> Iterator[str]:
    """Yields the lines that say which links differ in two recordings: gone, come, slower or faster."""
    before, after = old.rates(), new.rates()
    for word, cables in (("gone", before.keys() - after.keys()), ("come", after.keys() - before.keys())):
        for end, far in sorted(cables):
            yield f"{word} cable {name_of(end)} {name_of(far)}"
    for cable in sorted(before.keys() & after.keys()):
        one, other = before[cable][0], after[cable][0]
        if one != other and one and other:
            yield f"{'slow' if other < one else 'fast'} cable {name_of(cable[0])} {name_of(cable[1])} {one} > {other}"
