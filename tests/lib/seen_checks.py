"""What `tests/test-serve` checks of a manager among others, by rows: whom it hands over to, yields to and polls, by
what the others said of themselves, and how it answers them. By hand from docs/FORMATS.md and docs/MODEL.md ("States of
managers")."""
from __future__ import annotations

import collections
import os
import struct

import sample_fabrics
from built_program import check
from live_agents import ANSWER, DIRECTED, GET, PERMISSIVE, PORT_INFO, SET, Agents, field
from served_lines import tells
from served_process import Served

SM_INFO, NOTICE = 0x20, 0x02
SEND, TRAP, REPORT, REPRESS = 3, 5, 6, 7
NOT_ACTIVE, DISCOVERING, STANDBY, MASTER = range(4)
STATES = "not-active", "discovering", "standby", "master"
# The statuses of answers to a wrong method, and to a wrong field.
WRONG_METHOD, WRONG_FIELD = 0x08, 0x1C
OWN_KEY, OWN_PRIORITY = 0x71, 5
# What another manager says of itself: the adapter at which it sits, its port GUID, priority, SM_Key and state.
Other = collections.namedtuple("Other", "host guid priority key state")


def other(host: int, priority: int, state: int, guid: int = 0, key: int = OWN_KEY) -> Other:
    """Returns a manager at an adapter, whose port GUID is greater than the own one if none is given."""
    return Other(f"H{host}", guid or 0x2000000 + host, priority, key, state)


# Managers that the first sweep of a manager of priority 5 and GUID 0x1000011 saw, in this order; the state that it then
# is in, and the adapter of the manager that it polls as standby.
FIRST_SWEEPS = [
    ("nobody", [], MASTER, None),
    ("a lesser standby", [other(2, 4, STANDBY)], MASTER, None),
    ("an equal priority and a greater GUID", [other(2, 5, STANDBY)], MASTER, None),
    ("an equal priority and a lesser GUID", [other(2, 5, STANDBY, 0x1000010)], STANDBY, "H2"),
    ("a greater standby", [other(2, 6, STANDBY)], STANDBY, "H2"),
    ("a greater one that discovers", [other(2, 6, DISCOVERING)], STANDBY, "H2"),
    ("a greater one that is not active", [other(2, 6, NOT_ACTIVE)], MASTER, None),
    ("a lesser master", [other(2, 4, MASTER)], STANDBY, "H2"),
    ("a greater one in a state of no name", [other(2, 6, 4)], STANDBY, "H2"),
    ("a lesser one in a state of no name", [other(2, 4, 15)], MASTER, None),
    ("a greater master of another key", [other(2, 6, MASTER, key=0x72)], MASTER, None),
    ("a greater master of key 0", [other(2, 6, MASTER, key=0)], MASTER, None),
    ("the first master, though others are greater",
     [other(2, 8, STANDBY), other(3, 2, MASTER), other(4, 9, MASTER)], STANDBY, "H3"),
    ("the first master that is heard", [other(2, 8, MASTER, key=0x70), other(3, 2, MASTER)], STANDBY, "H3"),
    ("the greatest, by priority", [other(2, 7, STANDBY), other(3, 9, DISCOVERING), other(4, 8, STANDBY)],
     STANDBY, "H3"),
    ("the greatest, by GUID",
     [other(2, 7, STANDBY, 0x92), other(3, 7, STANDBY, 0x91), other(4, 7, STANDBY, 0x93)], STANDBY, "H3"),
    ("of equals the first", [other(2, 6, STANDBY), other(3, 7, STANDBY, 0x91), other(4, 7, STANDBY, 0x91)],
     STANDBY, "H3"),
    ("the greatest that is heard and active",
     [other(2, 9, STANDBY, key=1), other(3, 8, NOT_ACTIVE), other(4, 6, STANDBY)], STANDBY, "H4"),
]
# Managers that the second sweep of the same manager, a master, saw; the adapter of the one to which it hands over, and
# of the one to which it yields.
SECOND_SWEEPS = [
    ("nobody", [], None, None),
    ("a lesser standby", [other(2, 4, STANDBY)], None, "H2"),
    ("an equal priority and a greater GUID", [other(2, 5, STANDBY)], None, "H2"),
    ("an equal priority and a lesser GUID", [other(2, 5, STANDBY, 0x1000010)], "H2", "H2"),
    ("greater ones that are not active, discover, or have a state of no name",
     [other(2, 9, NOT_ACTIVE), other(3, 8, DISCOVERING), other(4, 7, 4)], None, None),
    ("the greatest of those that win",
     [other(2, 6, STANDBY), other(3, 8, MASTER), other(4, 7, STANDBY)], "H3", "H3"),
    ("a greater standby, and a lesser master", [other(2, 6, STANDBY), other(3, 4, MASTER)], "H2", "H3"),
    ("the greatest of two masters", [other(2, 3, MASTER), other(3, 4, MASTER), other(4, 2, MASTER)], None, "H3"),
    ("the greatest of two standbys", [other(2, 3, STANDBY), other(3, 4, STANDBY), other(4, 2, STANDBY)], None, "H3"),
    ("of equals the first", [other(2, 7, STANDBY, 0x91), other(3, 7, STANDBY, 0x91)], "H2", "H2"),
    ("of equal priorities the lesser GUID", [other(2, 7, STANDBY, 0x92), other(3, 7, STANDBY, 0x91)], "H3", "H3"),
    ("one that is heard", [other(2, 9, STANDBY, key=0x72), other(3, 8, MASTER, key=0), other(4, 6, STANDBY)],
     "H4", "H4"),
]


class Others(Agents):
    """Agents beside some of which managers sit."""

    def __init__(self, fabric: sample_fabrics.Fabric, others: list[Other]) -> None:
        super().__init__(fabric, ("H1", 1))
        self.others = {it.host: it for it in others}

    def told(self, name: str, came_by: int, packet: bytes) -> bytes | None:
        there = self.others.get(name)
        if field(packet, 16, 2) == SM_INFO:
            state = there.priority << 4 | there.state
            return struct.pack(">QQIB", there.guid, there.key, 0x61626364, state).ljust(64, b"\0")
        data = super().told(name, came_by, packet)
        if field(packet, 16, 2) == PORT_INFO and there:
            data = data[:20] + (2).to_bytes(4, "big") + data[24:]
        return data


class Manager:
    """A served manager at H1 of a star of five adapters."""

    def __init__(self, program: str | os.PathLike[str]) -> None:
        self.fabric = sample_fabrics.star(5)
        words = f"{self.fabric.guid('H1') + 1:x}", "1", str(OWN_PRIORITY), "--sm-key", f"{OWN_KEY:x}"
        self.served = Served(program, words)

    def ask(self, line: str) -> list[str]:
        return self.served.ask(line.encode()).decode().splitlines()

    def sweep(self, floor: int, others: list[Other]) -> None:
        """Has the manager sweep. The other managers answer last, in their order."""
        agents, waiting = Others(self.fabric, others), {}
        out = self.ask(f"floor {floor}") + self.ask("sweep")
        while out:
            packet = bytes.fromhex(out.pop(0).split()[1])
            told = f"packet {agents.answer(packet).hex()} from {PERMISSIVE}"
            if field(packet, 16, 2) == SM_INFO:
                waiting[self.host_of(packet)] = told
            else:
                out += self.ask(told)
        for it in others:
            check(self.ask(waiting.pop(it.host)) == [], "an answer to the request for SMInfo is told of")
        check(not waiting, f"nobody asks {waiting}")
        check(self.ask("progress") == ["progress done unanswered 0 toofar 0"], "the sweep is not over")

    def host_of(self, packet: bytes) -> str:
        """Returns the adapter that a packet over S1 comes to."""
        check(packet[7] == 2 and packet[129] == 1, f"a path of {packet[7]} hops: {packet[128:131].hex()}")
        return self.fabric.peers["S1", packet[130]][0]


def lines_of(fabric: sample_fabrics.Fabric, others: list[Other]) -> list[str]:
    """Returns the lines of managers that were seen."""
    return [
        f"manager {fabric.guid(it.host):016x}/1 guid {it.guid:016x} priority {it.priority} key {it.key} state "
        + (STATES[it.state] if it.state < 4 else str(it.state))
        for it in others
    ]


def check_first_sweeps(program: str | os.PathLike[str]) -> None:
    """Checks the state of a manager after its first sweep, what it tells of the others, and whom it polls."""
    for title, others, state, polled in FIRST_SWEEPS:
        manager = Manager(program)
        manager.sweep(1, others)
        told = manager.ask("managers")
        check(told == lines_of(manager.fabric, others), f"{title}: managers are {told}")
        check(manager.ask("state") == [f"state {STATES[state]}"], f"{title}: it is {manager.ask('state')}")
        told = manager.ask("poll")
        if polled:
            packet = bytes.fromhex(told[0].split()[1])
            check(len(told) == 1 and " to " not in told[0] and packet[1] == DIRECTED, f"{title}: it sends {told}")
            wanted = GET, SM_INFO, 0, polled
            asked = packet[3], field(packet, 16, 2), field(packet, 20, 4), manager.host_of(packet)
            check(asked == wanted, f"{title}: it polls by {asked}, and not {wanted}")
        else:
            check(told == ["refused NotStandby"], f"{title}: a master polls: {told}")
        manager.served.end()


def check_second_sweeps(program: str | os.PathLike[str]) -> None:
    """Checks to whom a master hands over and yields after its second sweep."""
    for title, others, *owners in SECOND_SWEEPS:
        for word, owner in zip(("handover", "yield"), owners):
            manager = Manager(program)
            manager.sweep(1, [])
            manager.sweep(2, others)
            check(manager.ask("state") == ["state master"], f"{title}: it is {manager.ask('state')}")
            told = manager.ask(word)
            if owner is None:
                check(told == ["refused Nobody"], f"{title}: {word}: {told}")
            else:
                digits = told[0].split()[1]
                packet = bytes.fromhex(digits)
                there = manager.host_of(packet)
                is_alone = told == [f"send {digits}"]
                check(is_alone and there == owner, f"{title}: {word} goes to {there}, and not to {owner}")
                # HANDOVER along the path by which it was seen, with the own SMInfo: it has begun two sweeps.
                data = struct.pack(">QQIB", 0x1000011, OWN_KEY, 2, OWN_PRIORITY << 4 | MASTER).ljust(64, b"\0")
                head = struct.pack(">BBBBHBBQHHI", 1, DIRECTED, 1, SET, 0, 0, 2, field(packet, 8, 8), SM_INFO, 0, 1)
                head = head.ljust(32, b"\0") + struct.pack(">HH", PERMISSIVE, PERMISSIVE)
                path = bytes([0, 1, packet[130]]).ljust(64, b"\0")
                wanted = head.ljust(64, b"\0") + data + path + bytes(64)
                check(packet == wanted and field(packet, 8, 8) < 1 << 32, f"{title}: {word} sends {digits}")
            manager.served.end()


# Controls ----------------------------------------------------------------------------------------------------

HANDOVER, ACKNOWLEDGE, DISABLE = 1, 2, 3
# For each state, the state after each control from 0 on, of live conduct, or None where that is refused.
MOVES = {
    DISCOVERING: (None, None, None, None, None, None, None),
    STANDBY: (None, MASTER, STANDBY, NOT_ACTIVE, None, DISCOVERING, None),
    NOT_ACTIVE: (None, None, None, None, STANDBY, None, None),
    MASTER: (None, MASTER, STANDBY, None, None, DISCOVERING, None),
}
# The controls by which a master that has swept once comes into a state. A new manager discovers.
WAYS = {MASTER: (), STANDBY: (ACKNOWLEDGE,), NOT_ACTIVE: (ACKNOWLEDGE, DISABLE)}
SENDER = 9


def info(state: int, count: int) -> str:
    """Returns the digits of the manager's SMInfo."""
    return struct.pack(">QQIB", 0x1000011, OWN_KEY, count, OWN_PRIORITY << 4 | state).ljust(64, b"\0").hex()


def in_state(program: str | os.PathLike[str], state: int) -> tuple[Manager, int]:
    """Returns a manager in a state, and its ActCount: sweeps and requests for SMInfo."""
    manager = Manager(program)
    if state != DISCOVERING:
        manager.sweep(1, [])
    for modifier in WAYS.get(state, ()):
        manager.ask(f"packet {packet_of(SET, SM_INFO, modifier)} from {SENDER}")
    check(manager.ask("state") == [f"state {STATES[state]}"], f"it is {manager.ask('state')}, and not {STATES[state]}")
    return manager, (state != DISCOVERING) + len(WAYS.get(state, ()))


def check_control(
    program: str | os.PathLike[str], state: int, modifier: int, to: int | None, is_directed: bool
) -> None:
    """Checks the answer to a control, the state afterwards, and the acknowledgement of a handover by LIDs."""
    manager, count = in_state(program, state)
    control = packet_of(SET, SM_INFO, modifier, is_directed)
    told = manager.ask(f"packet {control} from {PERMISSIVE if is_directed else SENDER}")
    way = "" if is_directed else f" to {SENDER}"
    if to is None:
        wanted = [f"send {answered(control, WRONG_FIELD)}{way}"]
    else:
        wanted = [f"send {answered(control, 0)[:128]}{info(to, count + 1)}{control[256:]}{way}"]
    if to is not None and modifier == HANDOVER and not is_directed:
        # It is the first request but for those of sweeps, and says that its sender is standby.
        number = int(told[-1].split()[1][16:32], 16)
        head = struct.pack(">BBBBHHQHHI", 1, 1, 1, SET, 0, 0, number, SM_INFO, 0, ACKNOWLEDGE).hex().ljust(128, "0")
        wanted.append(f"send {head}{info(STANDBY, count + 1)}".ljust(5 + 512, "0") + way)
        check(0 < number < 1 << 32, f"the acknowledgement has the number {number}")
    title = f"the control {modifier} in {STATES[state]}{' by a path' if is_directed else ''}"
    check(told == wanted, f"{title} is answered {told}\nand should be answered {wanted}")
    after = manager.ask("state")
    check(after == [f"state {STATES[state if to is None else to]}"], f"{title}: it then is {after}")
    manager.served.end()


def check_controls(program: str | os.PathLike[str]) -> int:
    """Checks each control in each state, and returns how many."""
    rows = [(state, it, to, by) for state in MOVES for it, to in enumerate(MOVES[state]) for by in (False, True)]
    for row in rows:
        check_control(program, *row)
    return len(rows)


def check_poll(program: str | os.PathLike[str]) -> None:
    """Checks the poll of a manager at a LID."""
    manager, _ = in_state(program, STANDBY)
    told = manager.ask("poll 513")
    number = int(told[0].split()[1][16:32], 16)
    head = struct.pack(">BBBBHHQHHI", 1, 1, 1, GET, 0, 0, number, SM_INFO, 0, 0).hex()
    check(told == [f"send {head.ljust(512, '0')} to 513"] and 0 < number < 1 << 32, f"a poll is {told}")
    manager.served.end()


# Answers -----------------------------------------------------------------------------------------------------

# What stands in a packet where nothing is said of a field: no two bytes are equal, and none is 0.
TRANSACTION, KEY, DATA = 0x5152535455565758, 0xC1C2C3C4C5C6C7C8, bytes(range(0x81, 0xC1))
PATH, BACK = "00010203" + "00" * 60, "00040506" + "00" * 60


def packet_of(method: int, attribute: int, modifier: int, is_directed: bool = False) -> str:
    """Returns the digits of a packet by LIDs, or over three hops."""
    kind, route, lids = (DIRECTED, 3, "ffffffff") if is_directed else (1, 0, "")
    head = struct.pack(">BBBBHBBQHHIQ", 1, kind, 1, method, 0, 0, route, TRANSACTION, attribute, 0, modifier, KEY)
    whole = (head.hex() + lids).ljust(128, "0") + DATA.hex() + (PATH + BACK if is_directed else "")
    return whole.ljust(512, "0")


def answered(digits: str, status: int) -> str:
    """Returns a packet as it is answered with a status and its own data."""
    flags = 0x80 if digits[2:4] == f"{DIRECTED:02x}" else 0
    return f"{digits[:6]}{ANSWER:02x}{flags:02x}{status:02x}{digits[12:]}"


def repressed(digits: str) -> str:
    """Returns what represses a trap: its attribute, modifier, TransactionID and data."""
    return f"{digits[:6]}{REPRESS:02x}{digits[8:48]}{'0' * 80}{digits[128:]}"


# Lines of a manager that discovers, and their answers.
ANSWER_ROWS = [
    *((f"packet {packet_of(SET, SM_INFO, it)} from 9",
       f"send {answered(packet_of(SET, SM_INFO, it), WRONG_FIELD)} to 9") for it in (
          0, 1, 2, 3, 4, 5, 6, 0x1000000, 0xFFFFFFFF,
      )),
    *((f"packet {packet_of(it, SM_INFO, 1)} from 9",
       f"send {answered(packet_of(it, SM_INFO, 1), WRONG_METHOD)} to 9") for it in (SEND, REPORT, REPRESS, TRAP, 0x7F)),
    (f"packet {packet_of(SET, SM_INFO, 5, True)} from 65535",
     f"send {answered(packet_of(SET, SM_INFO, 5, True), WRONG_FIELD)}"),
    (f"packet {packet_of(SEND, SM_INFO, 5, True)} from 9",
     f"send {answered(packet_of(SEND, SM_INFO, 5, True), WRONG_METHOD)}"),
    # What is no request for SMInfo, and no trap by LIDs.
    *((f"packet {it} from 9", "refused Unasked") for it in (
        packet_of(GET, PORT_INFO, 1), packet_of(SET, NOTICE, 1), packet_of(REPRESS, NOTICE, 1),
        packet_of(TRAP, NOTICE, 1, True), packet_of(ANSWER, SM_INFO, 1), packet_of(ANSWER, NOTICE, 1),
        packet_of(ANSWER, SM_INFO, 1, True),
    )),
    # The notice has its IssuerLID in bytes 6 and 7.
    *((f"packet {it} from 9", f"trap {0x8788}\nsend {repressed(it)} to 9")
      for it in (packet_of(TRAP, NOTICE, 0x61626364), packet_of(TRAP, 0x99, 0))),
]
# Gets with any modifier, and the LIDs from which they come. Each request for SMInfo counts as activity.
GETS = [(1, 0x21), (0xFFFFFFFF, 0xFFFE)]


def check_answers(program: str | os.PathLike[str]) -> None:
    """Checks how a manager answers what comes from others."""
    served, asked = Served(program), 0
    for line, wanted in ANSWER_ROWS:
        told = served.ask(line.encode()).decode()
        check(told == f"{wanted}\n", f"{line} is answered {told}\nand should be answered {wanted}")
        asked += "send" in wanted and "trap" not in wanted
    for modifier, lid in GETS:
        asked += 1
        told = served.ask(f"packet {packet_of(GET, SM_INFO, modifier)} from {lid}".encode()).decode()
        head = answered(packet_of(GET, SM_INFO, modifier), 0)[:128]
        wanted = f"send {head}{tells(asked)[128:]} to {lid}\n"
        check(told == wanted, f"a Get with the modifier {modifier} is answered {told}\nand should be answered {wanted}")
    served.end()


def check_others(program: str | os.PathLike[str]) -> int:
    """Checks a manager among others, and returns the number of rows."""
    check_first_sweeps(program)
    check_second_sweeps(program)
    check_answers(program)
    check_poll(program)
    return check_controls(program) + len(FIRST_SWEEPS) + len(SECOND_SWEEPS) + len(ANSWER_ROWS) + len(GETS)
