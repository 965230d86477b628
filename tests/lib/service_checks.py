"""What `tests/test` checks of `seat` as a service over ibsim: once, watched, in the journal, with limits, by names."""
from __future__ import annotations

import contextlib
import os
import pathlib
import re
import signal
import socket
import threading
import time
from collections.abc import Iterator

import sample_fabrics
from bench import Bench
from seat_checks import SELDOM, Seat, held, port_guid, seated, until

TIMING = ("-m", 200, "-r", 1)
# Answers a seat's lines as one that knows nothing, and works without end once it is told the time, if it is called so.
BUSY = """#!/usr/bin/env python3
import sys
for line in iter(sys.stdin.readline, ""):
    words = line.split()[1:]
    while not words and sys.argv[0].endswith("busy"):
        pass
    print("state discovering" if words else "note state discovering", "wake never", ".", sep="\\n", flush=True)
"""
# What is in a program that was compiled without its proofs: it cannot run in a limited address space.
SANITIZED = b"AddressSanitizer"
# Seconds between two words to systemd that are asked for each second.
HALF, LATE = 0.5, 0.9


def once(bench: Bench) -> None:
    """Checks that --once brings a subnet up, or says why not."""
    words = [bench.room / "out/seat", "--ibsm", bench.program, "--once", "--routing", "spread", *TIMING]
    status = bench.run(*words, "-p", 5, simulated=True)
    lines = bench.said.splitlines()
    bench.check(
        status == 0 and "SUBNET UP" in bench.said and lines[-1].endswith("ended, since --once says so"),
        f"--once: status {status}: {lines[-3:]}",
    )
    bench.record("-q", "-g", 1, "-T", "once", "once.reports", seat="H3")
    bench.run(bench.program, "plan", "--routing", "spread", "once.reports")
    bench.check(bench.printed == (bench.path / "once").read_text(), "the subnet holds the plan")
    bench.check(bench.run(*words, "--dry-run", simulated=True) == 2, "with --dry-run: status 2")
    bench.tell('Error "H6"[1] 100')
    status = bench.run(*words, simulated=True)
    bench.check(
        status == 1 and "NOT UP: it failed too often" in bench.said and bench.said.count("NOT WHOLE") == 4,
        f"an adapter is deaf: status {status}: {bench.said.splitlines()[-3:]}",
    )
    status = bench.run(*words, "--partial", simulated=True)
    bench.check(
        status == 1 and "NOT UP: requests have no answer" in bench.said and "SUBNET UP" in bench.said,
        f"with --partial: status {status}: {bench.said.splitlines()[-3:]}",
    )
    bench.tell('Error "H6"[1] 0')
    with seated(bench, "H2", "-p", 8, *TIMING) as greater:
        bench.check(greater.settles(), "another seat is master")
        status = bench.run(*words, "-p", 5, simulated=True)
        bench.check(status == 1 and "NOT UP: another manager is master" in bench.said, f"beside it: status {status}")
        status = bench.run(*words, "-p", 9, simulated=True)
        lines = [line for line in bench.said.splitlines() if "YIELDS to" in line]
        bench.check(
            status == 0 and len(lines) == 1 and f"{port_guid(bench, 'H2'):016x}, priority 8" in lines[0],
            f"above it: status {status}, and it hands over at its end: {lines} {bench.said.splitlines()[-4:]}",
        )
        bench.check(until(lambda: greater.state() == "master", 20) is not None, "that one is master again")


class Heard:
    """What a seat tells a socket, each line with its time."""

    def __init__(self, name: str) -> None:
        self.lines, self.name = [], name
        self.address = "\0" + name[1:] if name.startswith("@") else name
        self.door = socket.socket(socket.AF_UNIX, socket.SOCK_DGRAM)
        self.door.bind(self.address)
        self.listener = threading.Thread(target=self.listen, daemon=True)
        self.listener.start()

    def listen(self) -> None:
        while text := self.door.recv(4096).decode():
            self.lines.append((time.monotonic(), text))

    def end(self) -> None:
        """Ends the thread that listens, by an empty word, and closes the socket."""
        with socket.socket(socket.AF_UNIX, socket.SOCK_DGRAM) as teller:
            teller.sendto(b"", self.address)
        self.listener.join()
        self.door.close()

    def times(self, word: str) -> list[float]:
        return [at for at, text in self.lines if text == word]

    def gap(self, since: float, until_then: float) -> float:
        """Returns the longest time without a word that the seat runs."""
        times = [since, *(at for at in self.times("WATCHDOG=1") if since < at < until_then), until_then]
        return max(later - earlier for earlier, later in zip(times, times[1:]))


def watched(bench: Bench) -> None:
    """Checks what systemd is told: that the seat is ready, what it is at, and in time that it runs, also while its
    process hangs."""
    for name in (str(bench.path / "notify"), f"@tools-test-{os.getpid()}"):
        heard = Heard(name)
        variables = {"NOTIFY_SOCKET": name, "WATCHDOG_USEC": "1000000"}
        with seated(bench, "H1", "-p", 5, *SELDOM, *TIMING, variables=variables) as seat:
            bench.check(seat.settles(), "SUBNET UP")
            bench.check(len(heard.times("READY=1")) == 1, f"it is ready, once: {heard.lines[:3]}")
            words = pathlib.Path(f"/proc/{seat.children()[0]}/environ").read_bytes()
            bench.check(b"NOTIFY_SOCKET" not in words and b"WATCHDOG" not in words, "its process is told of no socket")
            count = len(bench.fabric.nodes)
            told = [text for _, text in heard.lines if text.startswith("STATUS=master")]
            wanted = f"STATUS=master; {count} LIDs and 9 switches are written; the last sweep had every answer"
            bench.check(told[-1:] == [wanted], f"what it is at: {told[-1:]}")
            os.kill(seat.children()[0], signal.SIGSTOP)
            seat.process.send_signal(signal.SIGHUP)
            began = time.monotonic()
            bench.check(until(lambda: seat.count("hangs, and is killed")) is not None, "its process hangs")
            gap = heard.gap(began, time.monotonic())
            bench.check(gap < LATE, f"it says all the while that it runs: {gap:.2f} s at most")
            bench.check(until(lambda: seat.count("SUBNET UP") > 1) is not None, "a new one brings the subnet up")
            times = heard.times("WATCHDOG=1")
            often = (times[-1] - times[0]) / HALF + 2
            bench.check(len(times) < often, f"not more often than asked for: {len(times)} times of {often:.0f}")
            bench.check(seat.end() == 0 and heard.times("STOPPING=1"), "and that it ends")
        heard.end()
    variables = {"NOTIFY_SOCKET": str(bench.path / "nobody"), "WATCHDOG_USEC": "1000000", "WATCHDOG_PID": "1"}
    with seated(bench, "H1", "-p", 5, *TIMING, variables=variables) as seat:
        bench.check(seat.settles() and "cannot tell" in seat.said(), "where nobody hears, it goes on")


@contextlib.contextmanager
def in_a_journal(bench: Bench, *words: object, is_ours: bool) -> Iterator[Seat]:
    """Runs a seat whose standard error is, or is not, the file that JOURNAL_STREAM names."""
    log = bench.path / f"seat{bench.seats + 1}.log"
    log.write_text("")
    file = log.stat()
    stream = f"{file.st_dev}:{file.st_ino + (not is_ours)}"
    with seated(bench, "H1", *words, variables={"JOURNAL_STREAM": stream}) as seat:
        yield seat


def levels(bench: Bench) -> None:
    """Checks that lines begin with a level of syslog if they go to the journal, and else do not."""
    for is_ours in True, False:
        with in_a_journal(bench, "-p", 5, "-s", 1, *TIMING, is_ours=is_ours) as seat:
            bench.check(seat.settles(), "SUBNET UP")
            bench.tell('Error "H6"[1] 100')
            bench.check(until(lambda: seat.count("NOT WHOLE")) is not None, "an adapter is deaf")
            bench.tell('Error "H6"[1] 0')
            seat.end()
        lines = seat.said().splitlines()
        wanted = {"MASTER": "5", "SUBNET UP": "5", "NOT WHOLE": "4", "no answer": "4", "GUID": "6", "swept in": "6"}
        for word, level in wanted.items():
            begins = {line.split("seat:")[0] for line in lines if word in line}
            bench.check(begins == ({f"<{level}>"} if is_ours else {""}), f"{word}: {begins}")
        bench.check(all(re.match(r"<\d>seat: " if is_ours else "seat: ", line) for line in lines), "each line")


def limits(bench: Bench) -> None:
    """Checks the limits of the process: memory, and processor time for an answer."""
    for name in "busy", "idle":
        (bench.path / name).write_text(BUSY)
        (bench.path / name).chmod(0o755)
    is_sanitized = SANITIZED in bench.program.read_bytes()
    program = bench.path / "idle" if is_sanitized else bench.program
    words = "--child-memory", 4000, "--child-time", 60, *TIMING
    with seated(bench, "H1", "-p", 5, *words, program=program) as seat:
        is_up = until(lambda: seat.count("DISCOVERING")) is not None if is_sanitized else seat.settles()
        bench.check(is_up, f"within its limits: {'it runs' if is_sanitized else 'SUBNET UP'}")
        told = pathlib.Path(f"/proc/{seat.children()[0]}/limits").read_text()
        bench.check(re.search(rf"^Max address space +{4000 << 20} ", told, re.M), "its memory is limited")
        told = pathlib.Path(f"/proc/{seat.process.pid}/limits").read_text()
        bench.check(re.search(r"^Max address space +unlimited ", told, re.M), "and not that of the seat")
    with seated(bench, "H1", "-p", 5, "--child-memory", 1, *TIMING) as seat:
        took = until(lambda: seat.process.poll() is not None, 30)
        bench.check(seat.process.poll() == 4, f"with little memory after {took} s: {seat.said().splitlines()[-1:]}")
    with seated(bench, "H1", "-p", 5, "--child-time", 1, *TIMING, program=bench.path / "busy") as seat:
        took = until(lambda: seat.count("takes longer than --child-time for an answer, and is killed") == 2)
        bench.check(took is not None, f"a process that is busy for long is killed: {seat.said().splitlines()[-1:]}")
    words = [bench.room / "out/seat", "--child-memory", 0], [bench.room / "out/seat", "--child-time", "x"]
    bench.check([bench.run(*it) for it in words] == [2, 2], "limits that are none: status 2")


def names(bench: Bench) -> None:
    """Checks that the log calls managers by the names of their nodes, and tells their GUIDs too."""
    lines = [f'0x{guid:016x} "node {name}"\n' for name, (_, guid, _) in bench.fabric.nodes.items() if name != "H3"]
    (bench.path / "seat.names").write_text("".join(lines))
    words = "-s", 3, *TIMING, "--names", "seat.names"
    with seated(bench, "H1", "-p", 3, *words) as one:
        bench.check(one.settles(), "a seat is master")
        before = held(bench, "named", "H4")
        for host, priority, name in (("H2", 5, "node H2 ({})"), ("H3", 8, "{}")):
            called = name.format(f"{port_guid(bench, host):016x}")
            with seated(bench, host, "-p", priority, *words) as greater:
                took = until(lambda: greater.state() == "master", 40)
                bench.check(took is not None and greater.settles(), f"one of priority {priority} gets it")
                line = f"HANDOVER to {called}, priority {priority}\n"
                bench.check(one.count(line) == 1, f"{line.strip()}: {one.said().splitlines()[-3:]}")
                greater.end()
            bench.check(until(lambda: one.state() == "master", 40) is not None and one.settles(), "it gets it back")
            called = f"node H1 ({port_guid(bench, 'H1'):016x})"
            bench.check(greater.count(f"YIELDS to {called}, priority 3\n") == 1, f"from it by {called}")
        bench.check(held(bench, "named.again", "H4") == before, "tables are as they were")


SEATED = (
    ("a torus of 9 switches, brought up once", lambda: sample_fabrics.torus(3, 3), (once,)),
    ("a torus of 9 switches with a service", lambda: sample_fabrics.torus(3, 3), (watched, levels)),
    ("a torus of 9 switches with limits and names", lambda: sample_fabrics.torus(3, 3), (limits, names)),
)
