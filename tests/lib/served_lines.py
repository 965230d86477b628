"""Lines for `ibsm serve` and `ibsm manage`: those by which a subnet is brought up, as a program that carries packets
would write them, and a question with its answer."""
from __future__ import annotations

import collections
import os
import pathlib
import re
import struct
import subprocess
from collections.abc import Callable, Sequence

from live_agents import PERMISSIVE, Agents
from memberships import BROADCAST, COMES_UP, SA_SET, membership
from sample_fabrics import ADAPTER, Fabric

# The end of an answer.
END = b".\n"
# The time of the first line of a manager that decides by itself, and how many lines are more than any bring-up needs.
FIRST_TIME, MOST_LINES = 5000, 1000000
# The numbers of states in SMInfo.
DISCOVERING, MASTER = 1, 3
# How many multicast LIDs a switch has room for.
GROUPS = 1024
# A manager with GUID 0x101 and priority 5.
WHO = "101", "1", "5"
# A Get of SMInfo by LIDs from LID 7.
ASKS = "0101010100000000" + "0000000000000005" + "0020000000000000" + "00" * 232
ASKED = f"packet {ASKS} from 7"
# A trap by LIDs from LID 9, issued by LID 0x5a5a.
TRAP = "0101010500000000" + "0000000000000031" + "0002000000000000" + "00" * 40 + "018402000080" + "5a" * 58
TRAP += "00" * 128
TRAPPED = f"packet {TRAP} from 9"
# What represses this trap.
REPRESS = TRAP[:6] + "07" + TRAP[8:]
# The prefix of link-local GIDs.
PREFIX = 0xFE80000000000000


def tells(count: int, key: int = 1, state: int = DISCOVERING) -> str:
    """Returns the answer to ASKS of a manager: GUID 0x101, the SM_Key, the ActCount `count`, priority 5, the state."""
    head = "01010181" + "00" * 4 + "0000000000000005" + "0020000000000000" + "00" * 40
    return head + f"{0x101:016x}{key:016x}{count:08x}" + f"5{state}" + "00" * 171


def first_request(generation: int) -> str:
    """Returns the first request of a sweep of a generation: NodeInfo over no hops."""
    head = "0181010100000000" + f"{generation:08x}00000001" + "0011000000000000"
    return head + "00" * 8 + "ffffffff" + "00" * 220


def seat(fabric: Fabric) -> tuple[str, str, str]:
    """Returns the words of a command line that seat a manager at the adapter H1."""
    return f"{fabric.guid('H1') + 1:x}", "1", "5"


# Asks a process by a line, and returns the lines of its answer.
Ask = Callable[[str], list[str]]


def asking(process: subprocess.Popen) -> Ask:
    """Returns the function that asks a process by a line, and returns the lines of its answer, without the last one."""

    def ask(line: str) -> list[str]:
        process.stdin.write(line.encode() + b"\n")
        process.stdin.flush()
        answer = []
        while (told := process.stdout.readline()) not in (END, b""):
            answer.append(told.decode().rstrip("\n"))
        return answer

    return ask


def answers_to(agents: Agents, told: Sequence[str]) -> list[bytes]:
    """Returns what agents answer to the packets that an answer has."""
    sent = [agents.answer(bytes.fromhex(it.split()[1])) for it in told if it.startswith("send ")]
    return [it for it in sent if it]


def served_up(ask: Ask, agents: Agents) -> list[str]:
    """Has a manager that does what lines say sweep, and write its plan. Returns the lines."""
    lines, waiting, told = [], collections.deque(["sweep", "write", "written"]), []
    while waiting:
        lines.append(waiting.popleft())
        told = ask(lines[-1])
        # Whatever waits is answered before the next command.
        waiting.extendleft(f"packet {it.hex()} from {PERMISSIVE}" for it in reversed(answers_to(agents, told)))
    if told != ["written yes"]:
        raise ValueError(f"a served manager does not write its plan: {told}")
    return lines


def asked_path(fabric: Fabric) -> str:
    """Returns the line by which a host asks for the path between the ports of the first and the last adapter, by their
    GIDs."""
    hosts = [name for name, (kind, *_) in fabric.nodes.items() if kind == ADAPTER]
    ends = PREFIX, fabric.guid(hosts[-1]) + 1, PREFIX, fabric.guid(hosts[0]) + 1
    head = struct.pack(">BBBBHHQHHI", 1, 3, 2, 1, 0, 0, 1, 0x0035, 0, 0)
    request = head + bytes(24) + struct.pack(">Q", 1 << 2 | 1 << 3) + bytes(8) + struct.pack(">QQQQ", *ends)
    return f"sa {request.ljust(256, bytes(1)).hex()} from 7"


def asked_to_join(fabric: Fabric) -> str:
    """Returns the line by which the first adapter asks to join the group of the broadcasts of IPoIB."""
    host = next(name for name, (kind, *_) in fabric.nodes.items() if kind == ADAPTER)
    return f"sa {membership(SA_SET, COMES_UP, BROADCAST, fabric.guid(host) + 1).hex()} from 7"


def managed_up(ask: Ask, agents: Agents) -> list[str]:
    """Tells a manager that decides by itself the time and the answers of agents until nothing is left to write. Returns
    the lines. Each answer comes a millisecond after the line before it; if none waits, the time is told when the
    manager is to be told it."""
    lines, waiting, time, told = [], collections.deque(), FIRST_TIME, []
    while "note settled inactive 0 foreign 0" not in told:
        lines.append(f"{time} {waiting.popleft()}" if waiting else str(time))
        told = ask(lines[-1])
        noted = [it for it in told if re.match("note (refused|unanswered|paused)|note .* no$|syntax", it)]
        if noted or len(lines) > MOST_LINES:
            raise ValueError(f"a manager that decides by itself brings up no subnet: {len(lines)} lines, {noted}")
        waiting.extend(f"packet {it.hex()} from {PERMISSIVE}" for it in answers_to(agents, told))
        time = time + 1 if waiting else max(time, int(told[-1].removeprefix("wake ")))
    return lines


def bringing_up(
    program: str | os.PathLike[str], folder: pathlib.Path, words: Sequence[str], fabric: Fabric
) -> list[str]:
    """Returns the lines by which a manager at H1 sweeps a fabric and writes its plan, with the answers of agents. The
    program, with these words, `serve` or `manage` first, is asked line by line, since what it answers is what the
    agents get."""
    agents = Agents(fabric, ("H1", 1))
    agents.group_room = GROUPS if "--multicast" in words else None
    with subprocess.Popen([program, *words], cwd=folder, stdin=subprocess.PIPE, stdout=subprocess.PIPE) as process:
        return (served_up if words[0] == "serve" else managed_up)(asking(process), agents)
