"""A subnet in virtual time: the agents of a fabric, and processes of `ibsm manage` at its adapters, each told the time
and its packets by lines. Nothing depends on a clock, so that a seed gives the same run each time."""
from __future__ import annotations

import contextlib
import heapq
import os
import random
import struct
import subprocess
from collections.abc import Callable, Iterator

from live_agents import (
    ACTIVE, ANSWER, BLOCK, DIRECTED, DOWN, GET, INITIALIZE, PERMISSIVE, PORT_INFO, SET, Agents, field
)
from sample_fabrics import Fabric, Port

SM_INFO, NOTICE = 0x20, 2
TRAP, REPRESS = 5, 7
LINK_CHANGED, CAPABILITY_CHANGED = 128, 144
INVALID_FIELD = 0x1C
# TransactionIDs from here on are those of sweeps.
SWEEPS = 1 << 32
# In milliseconds: how long a trap waits to be repressed, and how often it is sent.
REPEATED, TIMES = 5000, 3
# In milliseconds: how long a manager that has left is still told what comes, and asked.
LINGERS = 1000
# In milliseconds: how soon after a note something happens that waits for it.
SOON = 150
# The most switches on a way by LIDs.
FAR = 64
# At how many lines with nothing but the time, told at one time, a manager must be done: seven phases of a writing are
# dropped and the writing ends, one line each; then it polls, announces itself and begins a sweep. One is to spare.
MOST_LINES = 12
# How many lines in a row with nothing but the time may have no effect: none but those that end a wait.
MOST_VAIN = 3


class Wrong(Exception):
    """Something that a manager must not do."""


class ManagedAgents(Agents):
    """Agents that keep the LID of their manager, say at which ports managers sit that do not leave, refuse wrong
    states, and forward packets by LIDs."""

    def __init__(self, fabric: Fabric) -> None:
        super().__init__(fabric, next((name, 1) for name in fabric.nodes if not fabric.is_switch(name)))
        self.managed: dict[Port, Seat] = {}
        self.links: dict[Port, tuple[int, int, int, int]] = {}

    def meant(self, name: str, came_by: int, packet: bytes) -> Port:
        """Returns the port that a request for PortInfo is about."""
        modifier = field(packet, 20, 4)
        return name, modifier if self.fabric.is_switch(name) else modifier or came_by

    def refusal(self, name: str, came_by: int, packet: bytes) -> int:
        """Returns the status of an answer: that of a wrong field if a port cannot come into the state of a Set."""
        if packet[3] != SET or field(packet, 16, 2) != PORT_INFO:
            return 0
        now, wish = self.states.get(self.meant(name, came_by, packet), DOWN), packet[64 + 32] & 15
        return 0 if wish in (0, now) or (now >= INITIALIZE and wish == now + 1) else INVALID_FIELD

    def told(self, name: str, came_by: int, packet: bytes) -> bytes | None:
        """Returns the 64 bytes of the attribute."""
        data = super().told(name, came_by, packet)
        if data is None or field(packet, 16, 2) != PORT_INFO:
            return data
        port = self.meant(name, came_by, packet)
        data = bytearray(data)
        mtu, cap, width, speed = self.links.get(port, (0, 0, 0, 0))
        data[31], data[35], data[36], data[41] = width, speed << 4, mtu << 4, cap
        data[23] = data[23] & ~2 | 2 * (port in self.managed and not self.managed[port].is_leaving)
        return bytes(data)

    def lid(self, port: Port) -> int:
        """Returns the LID of a port, or 0 if it has none."""
        return self.lids.get(port, (0, 0))[0]

    def master_of(self, port: Port) -> int:
        """Returns the MasterSMLID of a port, or 0 if it has none."""
        return int.from_bytes(self.masters.get(port, bytes(2)), "big")

    def has(self, port: Port, lid: int) -> bool:
        """Returns whether a LID is one of those of a port."""
        least, lmc = self.lids.get(port, (0, 0))
        return least <= lid < least + (1 << lmc if least else 1)

    def entry(self, name: str, lid: int) -> int | None:
        """Returns the port of a switch's table for a LID, or None if there is none."""
        if not 0 < lid <= self.tops.get(name, 0) or (name, lid // BLOCK) not in self.tables:
            return None
        port = self.tables[name, lid // BLOCK][lid % BLOCK]
        return port if port <= self.fabric.ports(name) else None

    def arrival(self, port: Port, lid: int) -> Port | None:
        """Returns the port where a packet arrives that is sent from a port to a LID, or None if it is lost."""
        if not self.fabric.is_switch(port[0]):
            if self.has(port, lid):
                return port
            port = self.fabric.peers.get(port)
        for _ in range(FAR):
            if port is None:
                return None
            if not self.fabric.is_switch(port[0]):
                return port if self.has(port, lid) else None
            out = self.entry(port[0], lid)
            if not out:
                return None if out is None else (port[0], 0)
            port = self.fabric.peers.get((port[0], out))
        return None

    def reached(self, seat: Port) -> list[Port]:
        """Returns the end ports that directed paths from a seat reach, in the order in which they are found."""
        found, waiting = [seat], [self.fabric.peers.get(seat)]
        for port in waiting:
            if port is None:
                continue
            name = port[0]
            end = (name, 0) if self.fabric.is_switch(name) else port
            if end not in found:
                found.append(end)
                if end[1] == 0:
                    waiting += [self.fabric.peers.get((name, it)) for it in range(1, self.fabric.ports(name) + 1)]
        return found


def notice(number: int, lid: int, transaction: int) -> bytes:
    """Returns a trap of a switch or an adapter with a LID."""
    is_switch = number == LINK_CHANGED
    head = struct.pack(">BBBBHHQHHI", 1, 1, 1, TRAP, 0, 0, transaction, NOTICE, 0, 0)
    told = struct.pack(">BBHHHHHH", 0x81 if is_switch else 0x84, 0, 2 if is_switch else 1, number, lid, 0, 0, 0)
    details = struct.pack(">HH", lid, 0) if is_switch else struct.pack(">HH", 0, lid)
    return (head.ljust(64, b"\0") + told[:10] + details).ljust(256, b"\0")


class Seat:
    """A manager at a port of an adapter: its process, if it runs, and what it has said."""

    def __init__(self, world: World, name: str, port: Port, priority: int, words: tuple[str, ...]) -> None:
        self.world, self.name, self.port, self.priority, self.words = world, name, port, priority, words
        self.guid = world.agents.fabric.guid(port[0]) + port[1]
        self.process: subprocess.Popen[bytes] | None = None
        self.life, self.state, self.plan, self.box = 0, "", "", []
        self.is_paused = self.is_leaving = self.has_left = self.may_set = False
        self.wake: int | None = None
        self.token = self.lines = self.vain = 0
        self.lines_at = -1

    def rank(self) -> tuple[int, int]:
        """Returns the priority and the GUID, in an order in which the greatest manager wins."""
        return self.priority, -self.guid

    def start(self) -> None:
        """Starts the manager anew. Its port says that a manager is here, and sends a trap about that."""
        words = [self.world.program, "manage", *self.words, f"{self.guid:x}", str(self.port[1]), str(self.priority)]
        self.process = subprocess.Popen(words, stdin=subprocess.PIPE, stdout=subprocess.PIPE)
        self.life, self.state, self.plan, self.box = self.life + 1, "discovering", "", []
        self.is_paused = self.is_leaving = self.has_left = self.may_set = False
        self.world.agents.managed[self.port] = self
        self.world.trap(self.port, CAPABILITY_CHANGED)
        self.tell("")

    def start_if_gone(self) -> None:
        """Starts the manager anew if it does not run."""
        if not self.process:
            self.start()

    def kill(self) -> None:
        """Ends the process at once, if it runs."""
        if self.process:
            self.process.kill()
            self.gone()

    def end(self, life: int) -> None:
        """Ends a process that has left, by the end of its lines, if it was not killed meanwhile."""
        if self.process and self.life == life:
            status = self.gone()
            if status != 0:
                raise Wrong(f"{self.name} ends with the status {status}")

    def gone(self) -> int:
        """Waits for the end of the process, at the end of its lines, and returns its status. No manager is at the port
        then."""
        with contextlib.suppress(BrokenPipeError):
            self.process.stdin.close()
        self.process.stdout.close()
        status = self.process.wait()
        self.process, self.state, self.token = None, "", self.token + 1
        self.world.agents.managed.pop(self.port, None)
        return status

    def go_on(self) -> None:
        """Ends a pause: all lines that wait are told."""
        if self.process and self.is_paused:
            self.is_paused, box, self.box = False, self.box, []
            for what in box:
                self.tell(what)
            if self.wake is not None and self.wake <= self.world.now:
                self.woken(self.token)

    def woken(self, token: int) -> None:
        """Tells the time if it was asked for and the manager was not told anything since then."""
        if token == self.token and not self.is_paused:
            self.tell("")

    def tell(self, what: str) -> None:
        """Tells the manager something, or nothing but the time, and does what it says."""
        if not self.process:
            return
        if self.is_paused:
            self.box.append(what)
            return
        self.is_leaving |= what == "leave"
        self.obey(what, *self.asked(what))
        if self.is_leaving and self.wake is None and not self.has_left:
            self.has_left = True
            self.world.note(self, "left")
            self.world.at(self.world.now + LINGERS, lambda life=self.life: self.end(life))

    def asked(self, what: str) -> tuple[list[str], int | None]:
        """Writes a line, and returns the lines of its answer without `wake`, and when the manager is to be woken."""
        try:
            self.process.stdin.write(f"{self.world.now} {what}\n".encode())
            self.process.stdin.flush()
        except BrokenPipeError:
            raise Wrong(f"{self.name} ends before {what[:60]!r}") from None
        told, wakes = [], []
        while (line := self.process.stdout.readline()) != b".\n":
            if not line:
                raise Wrong(f"{self.name} ends at {what[:60]!r}")
            text = line.decode().rstrip("\n")
            if wakes:
                raise Wrong(f"{self.name}: {text!r} comes after `wake`")
            (wakes if text.startswith("wake ") else told).append(text)
        if len(wakes) != 1:
            raise Wrong(f"{self.name}: no `wake` after {what[:60]!r}: {told}")
        word = wakes[0][5:]
        return told, None if word == "never" else int(word)

    def shown(self, word: str) -> str:
        """Returns what the manager prints to a question, which changes nothing."""
        told, wake = self.asked(word)
        if wake != self.wake:
            raise Wrong(f"{self.name}: `{word}` changes `wake` from {self.wake} to {wake}")
        return "".join(f"{line}\n" for line in told)

    def obey(self, what: str, told: list[str], wake: int | None) -> None:
        """Does what the answer to a line says, and waits for the time that it asks for."""
        if wake is not None and wake < self.world.now:
            raise Wrong(f"{self.name} wants to be woken at a time that is past, at {self.world.since()}")
        self.count_lines(what, told, wake)
        sends = [line.split() for line in told if line.startswith("send ")]
        notes = [line[5:] for line in told if line.startswith("note ")]
        if told != [f"note {it}" for it in notes] + [" ".join(it) for it in sends]:
            raise Wrong(f"{self.name}: the answer to {what[:60]!r} has other lines or another order: {told}")
        for it in notes:
            self.noted(it)
        packets = [(bytes.fromhex(it[1]), int(it[3]) if len(it) > 2 else None) for it in sends]
        self.count_packets([packet for packet, _ in packets])
        for packet, to in packets:
            self.world.send(self, packet, to)
        self.wake, self.token = wake, self.token + 1
        if wake is not None:
            self.world.at(wake, lambda token=self.token: self.woken(token))
        if any(it.split()[0] in ("write", "settled") for it in notes):
            self.plan = self.shown("plan")

    def noted(self, note: str) -> None:
        """Does what a note says."""
        words = note.split()
        self.world.note(self, "unanswered" if words[0] == "unanswered" else note)
        if words[0] == "state":
            self.state = words[1]
        elif words[0] == "announce":
            self.world.trap(self.port, CAPABILITY_CHANGED)
        if words[0] in ("paused", "write"):
            self.may_set = words[0] == "write"

    def count_lines(self, what: str, told: list[str], wake: int | None) -> None:
        """Checks that the manager is not woken without end."""
        if what or self.lines_at != self.world.now:
            self.lines, self.lines_at = 0, self.world.now
        self.lines += 1
        self.vain = 0 if what or told else self.vain + 1
        if self.lines > MOST_LINES and wake is not None and wake <= self.world.now:
            raise Wrong(f"{self.name} is told the time {self.lines} times at {self.world.since()}")
        if self.vain > MOST_VAIN:
            raise Wrong(f"{self.name} is told the time {self.vain} times in vain until {self.world.since()}")

    def count_packets(self, packets: list[bytes]) -> None:
        """Notes Sets and polls, and checks that only a master writes, and only what it began to write."""
        sets = [it for it in packets if it[3] == SET and field(it, 16, 2) != SM_INFO]
        if sets:
            self.world.note(self, f"sets {len(sets)}")
            if self.state != "master" or not self.may_set:
                raise Wrong(f"{self.name} sends Sets at {self.world.since()}, and may not")
        for it in packets:
            if field(it, 16, 2) == SM_INFO and it[3] == GET and field(it, 8, 8) < SWEEPS:
                self.world.note(self, "poll")


class World:
    """A subnet in virtual time, and what its managers have said: the time, the manager and a text. Each packet takes a
    random time between two bounds, and is lost with the probability `loss`. The next `losing` packets are lost,
    too."""

    def __init__(self, program: str | os.PathLike[str], fabric: Fabric, seed: int, delays: tuple[int, int]) -> None:
        self.program, self.fabric, self.delays = program, fabric, delays
        self.chance, self.agents = random.Random(seed), ManagedAgents(fabric)
        self.origin = self.now = self.chance.randrange(1, 1 << 40)
        self.events: list[tuple[int, int, Callable[[], object]]] = []
        self.seats: list[Seat] = []
        self.deaf: dict[str, bool] = {}
        self.cables: list[tuple[Port, Port]] = []
        self.traps: dict[Port, int] = {}
        self.loss, self.losing, self.count, self.transactions = 0.0, 0, 0, 0
        self.log: list[tuple[int, str, str]] = []
        self.hooks: list[tuple[str, Callable[[], object]]] = []

    def seat(self, name: str, port: Port, priority: int, *words: str) -> Seat:
        """Adds a manager, which is to be started."""
        self.seats.append(Seat(self, name, port, priority, words))
        return self.seats[-1]

    def end(self) -> None:
        """Ends all processes."""
        for seat in self.seats:
            seat.kill()

    # time ------------------------------------------------------------------------------------------

    def since(self) -> int:
        """Returns the time since the beginning."""
        return self.now - self.origin

    def at(self, time: int, what: Callable[[], object]) -> None:
        """Has something done at a time, or now if that is past."""
        self.count += 1
        heapq.heappush(self.events, (max(time, self.now), self.count, what))

    def run(self, time: int) -> None:
        """Lets so many milliseconds pass."""
        until = self.now + time
        while self.events and self.events[0][0] <= until:
            self.now, _, what = heapq.heappop(self.events)
            what()
        self.now = until

    def note(self, seat: Seat, text: str) -> None:
        """Notes what a manager said. What waits for a note with this word is done soon afterwards."""
        self.log.append((self.since(), seat.name, text))
        for hook in [it for it in self.hooks if it[0] == text.split()[0]]:
            self.hooks.remove(hook)
            self.at(self.now + self.chance.randint(0, SOON), hook[1])

    # packets ---------------------------------------------------------------------------------------

    def carry(self, what: Callable[[], object]) -> None:
        """Has something done when a packet has arrived, if that is not lost."""
        if self.losing:
            self.losing -= 1
        elif self.chance.random() >= self.loss:
            self.at(self.now + self.chance.randint(*self.delays), what)

    def send(self, seat: Seat, packet: bytes, to: int | None) -> None:
        """Sends a packet of a manager: to a LID, or by the path that it carries."""
        if to is not None:
            self.carry(lambda: self.by_lids(seat.port, packet, to))
        elif packet[1] != DIRECTED:
            raise Wrong(f"{seat.name} sends a packet without a LID: {packet.hex()}")
        elif packet[3] == ANSWER:
            self.carry(lambda: self.goes_back(seat.port, packet))
        else:
            self.carry(lambda life=seat.life: self.directed(seat, life, packet))

    def directed(self, seat: Seat, life: int, packet: bytes) -> None:
        """Does what a directed request does where it arrives."""
        way = self.agents.way(packet, seat.port)
        if way is None or way[0] in self.deaf:
            return
        name, came_by, back = way
        other = self.agents.managed.get((name, came_by))
        if field(packet, 16, 2) == SM_INFO:
            if other:
                packet = packet[:6] + bytes([packet[7] + 1]) + packet[7:192] + back
                other.tell(f"packet {packet.hex()} from {PERMISSIVE}")
            return
        answer = self.agents.answer_at(packet, name, came_by, back)
        if answer:
            self.carry(lambda: life == seat.life and seat.tell(f"packet {answer.hex()} from {PERMISSIVE}"))

    def goes_back(self, port: Port, packet: bytes) -> None:
        """Has a manager take the answer of another one that goes back by the path that it carries."""
        if packet[6] != packet[7] + 1:
            raise Wrong(f"a directed answer has the hop pointer {packet[6]} of {packet[7]} hops")
        for hop in range(packet[7], 0, -1):
            port = self.fabric.peers.get((port[0], packet[192 + hop]))
            if port is None or (hop > 1 and not self.fabric.is_switch(port[0])):
                return
        seat = self.agents.managed.get(port)
        if seat:
            seat.tell(f"packet {(packet[:6] + bytes(1) + packet[7:]).hex()} from {PERMISSIVE}")

    def by_lids(self, port: Port, packet: bytes, to: int) -> None:
        """Does what a packet from a port to a LID does where it arrives."""
        there = self.agents.arrival(port, to)
        if there is None or there[0] in self.deaf:
            return
        if packet[3] == REPRESS:
            if self.traps.get(there) == field(packet, 8, 8):
                del self.traps[there]
        elif there in self.agents.managed and (packet[3] == TRAP or field(packet, 16, 2) == SM_INFO):
            self.agents.managed[there].tell(f"packet {packet.hex()} from {self.agents.lid(port)}")

    def trap(self, port: Port, number: int) -> None:
        """Has the agent of a port send a trap, until that is repressed or was sent a few times."""
        self.transactions += 1
        self.traps[port] = self.transactions
        self.sends_trap(port, number, self.transactions, TIMES)

    def sends_trap(self, port: Port, number: int, transaction: int, times: int) -> None:
        """Sends a trap that waits, so many times in all. It is not sent while there is no LID to send it to, and an
        adapter gives it up then."""
        if self.traps.get(port) != transaction or times == 0:
            return
        lid, to = self.agents.lid(port), self.agents.master_of(port)
        if not (lid and to):
            times = times if number == LINK_CHANGED else 1
        else:
            packet = notice(number, lid, transaction)
            self.carry(lambda: self.by_lids(port, packet, to))
        self.at(self.now + REPEATED, lambda: self.sends_trap(port, number, transaction, times - 1))

    # cables ----------------------------------------------------------------------------------------

    def cut(self, port: Port) -> None:
        """Takes out the cable at a port, which is kept."""
        cable = port, self.fabric.peers[port]
        self.cables.append(cable)
        for it in cable:
            del self.fabric.peers[it]
        self.changes(cable, DOWN)

    def plug(self, cable: tuple[Port, Port]) -> None:
        """Puts a cable that was taken out back in."""
        self.cables.remove(cable)
        self.fabric.peers[cable[0]], self.fabric.peers[cable[1]] = cable[1], cable[0]
        self.changes(cable, INITIALIZE)

    def changes(self, cable: tuple[Port, Port], state: int) -> None:
        """Has ports come into a state. A switch sends a trap about that."""
        for port in cable:
            self.agents.states[port] = state
            if self.fabric.is_switch(port[0]):
                self.trap((port[0], 0), LINK_CHANGED)

    # what is right ---------------------------------------------------------------------------------

    def faults(self) -> list[str]:
        """Returns what is not as it should be once all is calm, each in a few words."""
        seats = [it for it in self.seats if it.process]
        masters = [it for it in seats if it.state == "master"]
        if len(masters) != 1:
            return [f"{len(masters)} masters"]
        best = max(seats, key=Seat.rank)
        if masters != [best]:
            return [f"{masters[0].name} is master, {best.name} is greater"]
        others = [it for it in seats if it is not best and it.state != "standby"]
        if others:
            return [f"{others[0].name} is {others[0].state}"]
        return list(self.faults_of(best))

    def faults_of(self, master: Seat) -> Iterator[str]:
        """Yields what is not as it should be of what a master writes."""
        ends = [it for it in self.agents.reached(master.port) if it[0] not in self.deaf]
        own = self.agents.lid(master.port)
        for end in ends:
            there = self.agents.master_of(end)
            if there != own:
                yield f"{end[0]}/{end[1]} has MasterSMLID {there}, not {own}"
        yield from self.unheld(master, ends)
        for one in ends:
            yield from self.inactive(one)
            for other in ends:
                least, lmc = self.agents.lids.get(other, (0, 0))
                for lid in range(least, least + (1 << lmc)):
                    if self.agents.arrival(one, lid) != other:
                        yield f"no way from {one[0]}/{one[1]} to {other[0]}/{other[1]}, LID {lid}"

    def inactive(self, end: Port) -> Iterator[str]:
        """Yields ports of the node of an end port that are wired to one that answers, and not Active."""
        count = self.fabric.ports(end[0])
        for port in [end] if end[1] else [(end[0], it) for it in range(1, count + 1)]:
            far = self.fabric.peers.get(port)
            if far and far[0] not in self.deaf and self.agents.states[port] != ACTIVE:
                yield f"{port[0]}[{port[1]}] is in state {self.agents.states[port]}"

    def unheld(self, master: Seat, ends: list[Port]) -> Iterator[str]:
        """Yields what agents do not hold of the plan that a master settled on last, and what this plan lacks."""
        held, fabric = set(self.agents.held().splitlines()), self.fabric
        guids = {f"{fabric.guid(name):016x}": name for name in fabric.nodes}
        switch, lacking = "", {f"{fabric.guid(name):016x}/{port}" for name, port in ends}
        for line in master.plan.splitlines():
            words = line.split()
            if words[0] == "lid":
                lacking.discard(words[2])
            if words[0] == "switch":
                switch = guids[words[1]]
            if words[0] == "block":
                is_held = self.agents.tables.get((switch, int(words[1]))) == bytes.fromhex(words[2])
            else:
                is_held = line in held
            if not is_held:
                yield f"not held: {line[:60]} {switch}"
        for end in sorted(lacking):
            yield f"not in the plan: {end}"
