"""What `tests/test-serve` checks of `ibsm manage`: its lines, by rows, and what its options do."""
from __future__ import annotations

import os
from collections.abc import Sequence

import sample_fabrics
from built_program import check
from live_agents import GET, PORT_INFO, SWITCH_INFO, Agents, field
from sample_fabrics import Fabric
from served_lines import (
    ASKED, ASKS, FIRST_TIME, MASTER, REPRESS, TRAPPED, WHO, asked_path, first_request, managed_up, seat, tells,
)
from served_process import MOST, Served

Program = str | os.PathLike[str]

# Lines that are wrong for a manager that decides by itself: they are no lines, they lack the time, or it is no number
# of 64 bits.
NO_TIMES = "-1", "+1", "1.5", "1e3", "0x10", "ten", "18446744073709551616", "1" + 40 * "0", "\u0661", '"1"', "1\r"
WRONG = (
    *NO_TIMES, *(f"{word} state" for word in NO_TIMES), "state", "look", "leave", "managers", ASKED, "sweep",
    *(f"0 {word}" for word in (
        "sweep", "write", "handover", "yield", "rediscover", "poll", "timeout", "floor 1", "poll 5", "0", "Look",
        "look\r", "look now", "leave 1", "state 0", "managers 1", "facts A", f"packet {ASKS}", f"packet {ASKS} to 7",
        f"packet {ASKS} from", f"packet {ASKS} from 65536", f"packet {ASKS} from 7 7", f"packet {ASKS[2:]} from 7",
        f"packet {ASKS}00 from 7", f"packet g{ASKS[1:]} from 7", f"sa {ASKS}", f"sa {ASKS} to 7",
        f"sa {ASKS} from 65536", f"sa {ASKS[2:]} from 7", f"sa packet {ASKS} from 7", f"{ASKED} 0",
        "Light", "light light", f"light {ASKS[2:]}", f"light {ASKS}00", f"light {ASKS} from 7", f"look {ASKS}",
        "state".ljust(MOST - 1), "look " * 200,
    )),
    "0".ljust(MOST + 1), " " * (MOST + 1), "#" * (MOST + 1), "0 #" * MOST,
)
# What asks a manager that decides by itself, and changes nothing: at any time.
ASKING = {
    "state": "state discovering\n", "progress": "progress never\n", "silent": "silent never\n",
    "written": "written no\n", "managers": "", "facts": "", "plan": "",
}
LATEST = (1 << 64) - 1
FIRST, SECOND = first_request(1), first_request(2)
GIVEN_UP = f"note unanswered {FIRST}\n"
# Lines told to a manager that decides by itself, the answers without the time at which it is to be told the time next,
# and that time: at first it is to be told at once.
MANAGED_ROWS = [
    ("", "", 0),
    (" \t # nothing", "", 0),
    *((line, "syntax\n", 0) for line in WRONG),
    *((f"{time} {word}", told, 0) for time in (0, 5000, LATEST) for word, told in ASKING.items()),
    ("0001000  # a time, with zeros in front", f"note sweep\nsend {FIRST}\n", 1500),
    *((f"{time} state", "state discovering\n", 1500) for time in (0, LATEST)),
    # A time that goes back is the last one.
    ("999", "", 1500),
    ("0", "", 1500),
    ("1".ljust(MOST), "", 1500),
    ("", "", 1500),
    # What is no packet, and answers to nothing that was asked.
    (f"1000 packet {'02' + ASKS[2:]} from 7", "", 1500),
    (f"1000 packet {'00' * 256} from 0", "", 1500),
    (f"1000 packet {SECOND[:6]}81{SECOND[8:]} from 65535", "", 1500),
    (f"1000 packet {tells(9)} from 7", "", 1500),
    (f"0 {ASKED}", f"send {tells(2)} to 7\n", 1500),
    (f"1000 packet {ASKS.upper()} from 65535", f"send {tells(3)} to 65535\n", 1500),
    # No master, which tells hosts nothing.
    (f"1000 sa {ASKS} from 7", "", 1500),
    # Nor does it sweep lightly.
    ("1000 light", "", 1500),
    (f"1000 light {FIRST}", "light changed\n", 1500),
    (f"1000 light {'00' * 256}", "light changed\n", 1500),
    # Not a master, which would repress it. That it asks for a sweep shows only later.
    (f"1000 {TRAPPED}", "", 1500),
    ("1000 look", "", 1500),
    ("1499", "", 1500),
    ("1500", f"send {FIRST}\n", 2000),
    ("2200", f"send {FIRST}\n", 2700),
    ("2700", f"send {FIRST}\n", 3200),
    ("3199", "", 3200),
    ("3200", f"{GIVEN_UP}note state master\nnote swept no\n", 4200),
    ("3200 state", "state master\n", 4200),
    ("3200 progress", "progress done unanswered 1 toofar 0\n", 4200),
    ("3200 silent", "silent 0\n", 4200),
    # It has waited long enough since its sweep began: the trap asks for one, as the answer to nothing does not.
    (f"3300 packet {tells(9)} from 7", "", 4200),
    (f"3300 {TRAPPED}", f"note sweep\nsend {REPRESS} to 9\nsend {SECOND}\n", 3800),
    ("3300 facts", "floor 2\n", 3800),
    # It leaves once its sweep is over, and is there still.
    ("3300 leave", "", 3800),
    ("3300 leave", "", 3800),
    *((f"{time}", f"send {SECOND}\n", time + 500) for time in (3800, 4300, 4800)),
    ("5300", f"note unanswered {SECOND}\n", None),
    ("5300 look", "", None),
    (f"{LATEST} {ASKED}", f"send {tells(5, state=MASTER)} to 7\n", None),
    (f"{LATEST} {TRAPPED}", f"send {REPRESS} to 9\n", None),
    (f"{LATEST} leave", "", None),
    (f"{LATEST}", "", None),
]


def waking(answer: str, wake: int | None) -> str:
    """Returns the answer of a manager that decides by itself, up to the dot."""
    return f"{answer}wake {'never' if wake is None else wake}\n"


def told_first(program: Program, lines: Sequence[str], *options: str) -> list[str]:
    """Returns the answers of a new manager that decides by itself to lines."""
    served = Served(program, [*WHO, *options], command="manage")
    told = [served.ask(line.encode()).decode() for line in lines]
    served.end()
    return told


def settled(program: Program, fabric: Fabric, *options: str) -> tuple[list[str], int, int, int]:
    """Has a new manager that decides by itself bring a subnet up. Returns the lines, the last time, when it is then to
    be told the time, and how many requests were out at most."""
    served, most = Served(program, [*seat(fabric), *options], command="manage"), [0, 0]
    answers = []

    def ask(line: str) -> list[str]:
        answers.append(served.ask(line.encode()).decode().splitlines())
        most[0] += sum(it.startswith("send ") for it in answers[-1]) - ("packet" in line)
        most[1] = max(most)
        return answers[-1]

    lines = managed_up(ask, Agents(fabric, ("H1", 1)))
    served.end()
    return lines, int(lines[-1].split()[0]), int(answers[-1][-1].split()[1]), most[1]


def check_paces(program: Program) -> None:
    """Checks what each number in the options of `manage` does, at both ends of its range and between."""
    one, some, many = (sample_fabrics.two_levels(1, 1, hosts) for hosts in (1, 9, 66))
    for wait in 1, 2, 255, 256, 500, 65535, 65536, 600000:
        answers = told_first(program, ["1000", f"{1000 + wait - 1}", f"{1000 + wait}"], "--timeout", str(wait))
        wanted = [waking(f"note sweep\nsend {FIRST}\n", 1000 + wait), waking("", 1000 + wait)]
        wanted.append(waking(f"send {FIRST}\n", 1000 + 2 * wait))
        check(answers == wanted, f"--timeout {wait}: {answers}")
    for count in 1, 2, 4, 100, 101:
        times = [str(1000 + 500 * it) for it in range(count + 1)]
        answers = told_first(program, times, "--tries", str(count))
        sent = [f"send {FIRST}\n" in it for it in answers]
        check(sent == [True] * count + [False] and GIVEN_UP in answers[-1], f"--tries {count}: {sent}")
    for newest in 0, 1, 255, 65535, (1 << 31) - 1, (1 << 31), (1 << 32) - 2:
        answers = told_first(program, ["1000", "1000 facts"], "--newest", str(newest))
        wanted = [waking(f"note sweep\nsend {first_request(newest + 1)}\n", 1500)]
        wanted.append(waking(f"floor {newest + 1}\n" if newest else "", 1500))
        check(answers == wanted, f"--newest {newest}: {answers}")
    for every in 1000, 1001, 4096, 10000, 3599999, 3600000:
        _, last, wake, _ = settled(program, one, "--every", str(every))
        check(wake == last + every, f"--every {every}: from {last} to {wake}")
    for count in 1, 2, 5, 64:
        _, _, _, most = settled(program, some if count < 9 else many, "--outstanding", str(count))
        check(most == count, f"--outstanding {count}: {most} are out")
    usual = settled(program, some)
    for words in ("--every", "10000"), ("--poll", "1000"), ("--timeout", "500"), ("--tries", "4"), ("--newest", "0"):
        check(settled(program, some, *words) == usual, f"{' '.join(words)} is not what holds without it")
    check(settled(program, some, "--outstanding", "4", "--strict") == usual and usual[3] == 4, "four requests are out")
    # What is known is written after the fourth sweep that lacks answers, except by a manager that is strict.
    times = [str(1000 + 500 * it) for it in range(60)]
    for words in (), ("--strict",):
        text = "".join(told_first(program, times, "--tries", "1", *words))
        places = [text.find(it) for it in ("note write new\n", "note written yes\n")]
        swept = text[: places[0]].count("note swept no\n")
        check(
            places == [-1, -1] if words else 0 < places[0] < places[1] and swept == 4,
            f"sweeps that lack answers {words}: {swept} before a writing at {places}",
        )


def check_refusals(program: Program) -> None:
    """Checks that an answer which its manager refuses is noted as none, and what no generation is left for."""
    refused = f"{FIRST[:6]}81801c{FIRST[12:]}"
    told = told_first(program, ["1000", f"1100 packet {refused} from 65535"])
    wanted = waking(f"{GIVEN_UP}note state master\nnote swept no\n", 2100)
    check(told[1] == wanted, f"an answer with a status: {told[1]}")
    # The last generation has a fact, from the node itself, whose port does not answer; there is none above it.
    last = first_request((1 << 32) - 1)
    agents = Agents(sample_fabrics.star(1), ("H1", 1))
    lines = ["1000", f"1000 packet {agents.answer(bytes.fromhex(last)).hex()} from 65535", "1500", "2500", "4500"]
    told = told_first(program, lines, "--newest", str((1 << 32) - 2), "--tries", "1")
    check("note state master\nnote swept no\nwake 2500\n" in told[2], f"a sweep of the last generation: {told}")
    wanted = [waking("note refused sweep\n", 4500), waking("note refused sweep\n", 8500)]
    check(told[3:] == wanted, f"after the last generation: {told[3:]}")


# The number of the rate of a link, by LinkWidthActive, LinkSpeedActive and LinkSpeedExtActive. InfiniBand Architecture
# Specification, Volume 1: subnet administration, PathRecord.
RATES = {
    (1, 1, 0): 2, (16, 1, 0): 5, (2, 1, 0): 3, (4, 1, 0): 6, (8, 1, 0): 4,
    (1, 2, 0): 5, (16, 2, 0): 3, (2, 2, 0): 6, (4, 2, 0): 7, (8, 2, 0): 8,
    (1, 4, 0): 3, (16, 4, 0): 6, (2, 4, 0): 7, (4, 4, 0): 9, (8, 4, 0): 10,
    (1, 4, 1): 11, (16, 4, 1): 19, (2, 4, 1): 12, (4, 4, 1): 13, (8, 4, 1): 14,
    (1, 4, 2): 15, (16, 4, 2): 20, (2, 4, 2): 16, (4, 4, 2): 17, (8, 4, 2): 18,
    (1, 4, 4): 20, (16, 4, 4): 16, (2, 4, 4): 17, (4, 4, 4): 21, (8, 4, 4): 22,
    (1, 4, 8): 16, (16, 4, 8): 17, (2, 4, 8): 21, (4, 4, 8): 23, (8, 4, 8): 24,
}


class Linked(Agents):
    """The agents of a fabric whose links all have one width and speed."""

    link = 0, 0, 0

    def told(self, name: str, came_by: int, packet: bytes) -> bytes | None:
        data = super().told(name, came_by, packet)
        if data is None or field(packet, 16, 2) != PORT_INFO:
            return data
        changed, (width, speed, extended) = bytearray(data), self.link
        changed[31], changed[35], changed[62] = width, changed[35] & 15 | speed << 4, changed[62] & 15 | extended << 4
        return bytes(changed)


def check_rates(program: Program) -> None:
    """Checks the number of the rate of each link in the path that a host is told."""
    fabric = sample_fabrics.two_levels(1, 1, 2)
    for link, rate in RATES.items():
        served, agents = Served(program, seat(fabric), command="manage"), Linked(fabric, ("H1", 1))
        agents.link = link
        lines = managed_up(lambda line: served.ask(line.encode()).decode().splitlines(), agents)
        told = served.ask(f"{lines[-1].split()[0]} {asked_path(fabric)}".encode()).decode().split()
        served.end()
        answer = bytes.fromhex(told[1])
        check(answer[4:6] == bytes(2) and answer[111] == 0x80 | rate, f"the rate of {link}: {answer[111]}, not {rate}")


class Flapped(Agents):
    """The agents of a fabric, whose switches say that a port has changed its state if `has_changed`."""

    has_changed = False

    def told(self, name: str, came_by: int, packet: bytes) -> bytes | None:
        data = super().told(name, came_by, packet)
        if data is None or field(packet, 16, 2) != SWITCH_INFO or not self.has_changed:
            return data
        return data[:11] + bytes([data[11] | 4]) + data[12:]


def lightly(served: Served, time: int) -> tuple[list[bytes], int]:
    """Returns the requests of a light sweep, and how many other lines are printed."""
    lines = served.ask(f"{time} light".encode()).decode().splitlines()
    asked = [bytes.fromhex(it.removeprefix("light ")) for it in lines if it.startswith("light ")]
    return asked, len(lines) - len(asked)


# What is bent in an answer to a light sweep: a byte, and bits of it.
BENT = {
    "no packet": (0, 2), "a request": (3, 0x80), "a status": (5, 4), "an earlier sweep": (11, 0x80),
    "no such vertex": (12, 0x80), "another attribute": (17, 1), "the first byte": (64, 0x80),
    "PortStateChange": (75, 4), "the last byte": (127, 1),
}


def check_light_sweeps(program: Program) -> None:
    """Checks whom a master asks in a light sweep, and what it says of answers: that nothing changed only if a switch
    answers without a fault as it did in the last sweep, where it did not say that a port had changed its state."""
    fabric = sample_fabrics.two_levels(2, 3, 4)
    switches = [name for name in fabric.nodes if fabric.is_switch(name)]
    for has_changed in False, True:
        served, agents = Served(program, seat(fabric), command="manage"), Flapped(fabric, ("H1", 1))
        agents.has_changed = has_changed
        lines = managed_up(lambda line: served.ask(line.encode()).decode().splitlines(), agents)
        time = int(lines[-1].split()[0])
        requests, others = lightly(served, time)

        def said(packet: bytes) -> str:
            return served.ask(f"{time} light {packet.hex()}".encode()).decode().splitlines()[0]

        check(len(requests) == len(switches) and others == 1, f"a light sweep asks {len(requests)} of {len(switches)}")
        gets = {(it[3], field(it, 16, 4), it[64:128]) for it in requests}
        check(gets == {(GET, SWITCH_INFO << 16, bytes(64))}, f"SwitchInfo is asked for: {gets}")
        check({agents.way(it, ("H1", 1))[0] for it in requests} == set(switches), "each switch is asked")
        check(len({it[8:16] for it in requests}) == len(requests), "each request has a TransactionID of its own")
        check(lightly(served, time) == (requests, 1), "a light sweep changes nothing")
        for request in requests:
            told, wanted = agents.answer(request), "light changed" if has_changed else "light same"
            check(said(told) == wanted, f"a switch that is as it was, {has_changed=}: {said(told)}")
            for what, (at, bits) in BENT.items():
                bent = told[:at] + bytes([told[at] ^ bits]) + told[at + 1 :]
                check(said(bent) == "light changed", f"{what} is taken for the same")
        # While it sweeps, it asks nobody, and knows nothing.
        served.ask(f"{time + 10000}".encode())
        check(lightly(served, time) == ([], 1), "there is no light sweep while a sweep runs")
        check(said(agents.answer(requests[0])) == "light changed", "nothing is known while a sweep runs")
        served.end()


def check_pauses(program: Program) -> None:
    """Checks what a manager that decides by itself takes for a pause."""
    for late, noted in (2000, ""), (2001, "note paused\n"), (LATEST - FIRST_TIME - 500, "note paused\n"):
        answers = told_first(program, [f"{FIRST_TIME}", f"{FIRST_TIME + 500 + late}"])
        wanted = waking(f"{noted}send {FIRST}\n", min(FIRST_TIME + 1000 + late, LATEST))
        check(answers[1] == wanted, f"told {late} milliseconds late: {answers[1]!r}, and not {wanted!r}")


