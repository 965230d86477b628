"""What `tests/test` checks of seats over ibsim for hours, while cables, processes and packets are lost at random."""
from __future__ import annotations

import contextlib
import os
import pathlib
import random
import re
import signal
import statistics
import time

import sample_fabrics
from bench import Bench
from rival_checks import ruled_by, stopped
from sample_fabrics import Port
from seat_checks import held, seated, some_ways, until

# Seconds of events between two recordings, and those in which the seats have to settle after them.
ROUND, SETTLED = 20, 90
# Seconds that a seat or its process stands still: less than makes a standby take over, and more. A process that stands
# still for five seconds while its answer is waited for is killed by its seat.
PAUSES = 0.3, 1, 2.5, 6, 9
# Of a hundred packets over a port, how many are lost.
LOSSES = 5, 20, 60, 100
# What the greatest memory in the last third of the rounds may be, over that in the first third, where there are enough.
MOST_GROWTH, ENOUGH = 1.1, 9
# What was freed is used again soon, so that memory tells what is kept.
USED_AGAIN = ":quarantine_size_mb=1:thread_local_quarantine_size_kb=64"


def resident(process: int) -> int:
    """Returns the kilobytes of memory in which a process resides."""
    return int(re.search(r"^VmRSS:\s+(\d+)", pathlib.Path(f"/proc/{process}/status").read_text(), re.M)[1])


class Soak:
    """Three seats on a torus. At random its cables are cut and plugged in, ports lose packets, and seats and their
    processes stand still or are killed; but the seat of middle priority and its process are never killed."""

    MOST_CUT = 3  # a torus without three cables is still in one piece
    MOST_LOSSY = 2
    MOST_KILLED = 3  # between two recordings: ibsim has room for ten clients
    TIMING = ("-s", 3, "-m", 200, "-r", 1)
    NO_FABRIC = 4  # the exit status of a seat that cannot go on

    def __init__(self, bench: Bench, stack: contextlib.ExitStack, chance: random.Random) -> None:
        self.bench, self.stack, self.chance = bench, stack, chance
        adapters = [node for node in bench.fabric.nodes if not bench.fabric.is_switch(node)]
        self.spared = adapters[len(adapters) // 2]
        self.greatest = adapters[0]
        self.hosts, self.seats, self.done = {self.greatest: 5, self.spared: 4, adapters[-1]: 3}, {}, []
        self.dropped, self.totals = 0, {}
        # After each round: the seconds in which the seats settled, and how many processes wanted a processor.
        self.settled, self.loads = [], []
        # The kilobytes of the seat that is spared and of its process after each round, and the most of any other.
        self.memory, self.most = {"seat": [], "process": []}, {"seat": 0, "process": 0}
        used = {end for end in bench.fabric.peers if end[0] in self.hosts}
        ends = {min(end, far) for end, far in bench.fabric.peers.items() if not {end, far} & used}
        self.whole, self.cut, self.lossy = sorted(ends), [], []
        for host in self.hosts:
            self.start(host)

    def start(self, host: str) -> None:
        words = ["-p", self.hosts[host], *self.TIMING]
        self.seats[host] = self.stack.enter_context(seated(self.bench, host, *words))

    def note(self, kind: str, what: str) -> None:
        """Notes what was done, and counts how often the like was."""
        self.done.append(f"{kind} {what}")
        self.totals[kind] = self.totals.get(kind, 0) + 1

    def command(self, kind: str, end: Port, *more: int) -> None:
        """Has ibsim do something at a port."""
        self.bench.console.write(" ".join((f'{kind} "{end[0]}"[{end[1]}]', *map(str, more))) + "\n")
        self.bench.console.flush()
        self.note(kind, "/".join(map(str, (*end, *more))))

    def move(self, one: list[Port], other: list[Port], end: Port, kind: str) -> None:
        one.remove(end)
        other.append(end)
        self.command(kind, end)

    def cable(self) -> None:
        """Cuts a cable or plugs one in."""
        if self.cut and (self.chance.random() < 0.4 or len(self.cut) == self.MOST_CUT):
            self.move(self.cut, self.whole, self.chance.choice(self.cut), "ReLink")
        else:
            self.move(self.whole, self.cut, self.chance.choice(self.whole), "Unlink")

    def lose(self) -> None:
        """Has a port lose packets, or all of them, in place of one that does so if there are enough."""
        if len(self.lossy) == self.MOST_LOSSY:
            self.command("Error", self.lossy.pop(0), 0)
        self.lossy.append(self.chance.choice(sorted(self.bench.fabric.peers)))
        self.command("Error", self.lossy[-1], self.chance.choice(LOSSES))

    def pause(self, host: str) -> None:
        """Has a seat stand still, or its process if it is not spared, while a cable may move."""
        seat, seconds = self.seats[host], self.chance.choice(PAUSES)
        is_child = host != self.spared and self.chance.random() < 0.3
        number = (seat.children() or [seat.process.pid])[0] if is_child else seat.process.pid
        with stopped(number):
            self.note("stop", f"{'the process of ' if is_child else ''}{host} for {seconds} s")
            if self.chance.random() < 0.5:
                self.cable()
            time.sleep(seconds)

    def kill(self, host: str) -> None:
        self.seats[host].end(signal.SIGKILL)
        self.note("kill", host)
        time.sleep(self.chance.choice((0, 1, 4)))
        self.start(host)

    def kill_child(self, host: str) -> None:
        children = self.seats[host].children()
        self.note("end", f"the process of {host}")
        if children:
            os.kill(children[0], signal.SIGKILL)

    def drop_killed(self) -> None:
        """Has ibsim disconnect clients that were killed. By itself it may keep one for good."""
        log = self.bench.path / "ibsim.log"
        seen = log.stat().st_size
        self.bench.tell("Attached")
        listed = log.read_bytes()[seen:].decode(errors="replace")
        for client, process in re.findall(r"Client (\d+): pid (\d+) connected", listed):
            if not pathlib.Path(f"/proc/{process}").exists():
                self.bench.tell(f"X {client}")
                self.dropped += 1

    def restart_ended(self) -> None:
        """Starts each seat again that ended, as its systemd unit would. It may end only because its processes ended
        soon each time."""
        for host, seat in self.seats.items():
            status = seat.process.poll()
            if status is None:
                continue
            if status != self.NO_FABRIC or "ends soon, each time" not in seat.said():
                self.bench.check(False, f"{host} ended with status {status}: {seat.said().splitlines()[-5:]}")
            self.note("start", f"{host} again")
            self.start(host)

    def event(self) -> None:
        """Does one thing at random."""
        self.restart_ended()
        kind, host = self.chance.random(), self.chance.choice(sorted(self.hosts))
        killed = sum(it.startswith("kill ") for it in self.done)
        if kind < 0.15 and killed < self.MOST_KILLED and host != self.spared:
            self.kill(host)
        elif kind < 0.2 and host != self.spared:
            self.kill_child(host)
        elif kind < 0.35:
            self.pause(host)
        elif kind < 0.5:
            self.lose()
        else:
            self.cable()

    def mend(self) -> None:
        while self.cut:
            self.move(self.cut, self.whole, self.cut[0], "ReLink")
        while self.lossy:
            self.command("Error", self.lossy.pop(), 0)

    def is_settled(self, since: float) -> bool:
        """Returns whether the greatest seat is master and settled, and has swept since a time, and the others stand
        by."""
        self.restart_ended()
        states = {host: seat.state() for host, seat in self.seats.items()}
        if states != {host: "master" if host == self.greatest else "standby" for host in self.hosts}:
            return False
        master = self.seats[self.greatest].status()
        sweep = master["sweep"]
        return master["writing"]["settled"] and sweep["whole"] and sweep["ended"] >= sweep["began"] > since

    def settles(self) -> float | None:
        """Waits until the seats are settled, and returns the seconds that this took, or None."""
        began, took = time.monotonic(), None
        for _ in range(2):  # the first sweep may have found what is now to be written
            since = time.time()
            took = until(lambda: self.is_settled(since), SETTLED)
            if took is None:
                return None
        return time.monotonic() - began

    def weigh(self) -> None:
        """Notes the memory of all seats and processes."""
        for host, seat in self.seats.items():
            for kind, number in (("seat", seat.process.pid), *(("process", it) for it in seat.children())):
                if host == self.spared:
                    self.memory[kind].append(resident(number))
                else:
                    self.most[kind] = max(self.most[kind], resident(number))

    def end(self) -> bool:
        """Makes cables and ports whole, and checks that the seats settle. Returns whether they do."""
        self.mend()
        self.drop_killed()
        took = self.settles()
        what = f"{len(self.done)} events: {', '.join(self.done)}"
        self.bench.check(took is not None, f"settled after {took or -1:.1f} s: {what}")
        self.done.clear()
        if took is None:
            for host, seat in self.seats.items():
                print(f"{host}: {seat.status()}\n" + "\n".join(seat.said().splitlines()[-30:]))
            return False
        self.settled.append(took)
        self.loads.append(os.getloadavg()[0])
        self.weigh()
        return True

    def left(self) -> None:
        """Checks that memory is flat, ends the seats, and keeps the figures."""
        third = len(self.settled) // 3
        for kind, kilobytes in self.memory.items():
            if len(self.settled) >= ENOUGH:
                first, last = max(kilobytes[:third]), max(kilobytes[-third:])
                what = f"at most {first} kB in the first third of rounds, {last} in the last"
                self.bench.check(last <= MOST_GROWTH * first, f"memory of the {kind} that is never killed: {what}")
            self.bench.figures.append(f"{kind}: {kilobytes[0]} to {kilobytes[-1]} kB; others {self.most[kind]} at most")
        for host, seat in self.seats.items():
            self.bench.check(seat.end() == 0, f"{host} ends by SIGTERM: status 0, and nothing leaked")
        logs = [log.read_text(errors="replace") for log in self.bench.path.glob("seat*.log")]
        counts = [sum(log.count(word) for log in logs) for word in (" MASTER\n", "SUBNET UP", "hangs, and is killed")]
        self.bench.figures += [
            f"done: {', '.join(f'{kind} {count}' for kind, count in self.totals.items())}",
            "seats became master {} times, wrote {} plans, and killed {} processes that hung".format(*counts),
            f"soak: {len(self.settled) - 1} rounds; settled after {statistics.median(self.settled):.1f} s, at most "
            f"{max(self.settled):.1f} s; ibsim had kept {self.dropped} clients that were killed; load "
            f"{statistics.median(self.loads):.1f}",
        ]


def soak(bench: Bench, seconds: int, seed: int) -> None:
    """Checks three seats for some time, and each half minute what is held."""
    name = f"soak of a torus of 16 switches, {seconds} s, by seat"
    print(f"== {name}: SEED={seed}", flush=True)
    os.environ["ASAN_OPTIONS"] += USED_AGAIN
    with bench.simulated(sample_fabrics.torus(4, 4), name), contextlib.ExitStack() as stack:
        soaked = Soak(bench, stack, random.Random(seed))
        soaked.end()
        first, now = held(bench, "soak0"), "soak0"
        end, rounds = time.monotonic() + seconds, 0
        while time.monotonic() < end:
            rounds += 1
            pause = min(end, time.monotonic() + ROUND)
            while time.monotonic() < pause:
                soaked.event()
                time.sleep(soaked.chance.choice((0, 0.2, 1, 3)))
            if soaked.end():
                now = f"soak{rounds}"
                ruled_by(bench, now, soaked.greatest)
                bench.check((bench.path / now).read_text() == first, f"{now}: tables are as at first")
        some_ways(bench, now)
        soaked.left()
