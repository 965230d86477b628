"""Rows for a whole `seat` with its process: in place of its library for ports stands one that asks agents of a test."""
from __future__ import annotations

import json
import os
import pathlib
import signal
import socket
import subprocess
import threading
import time
from collections.abc import Callable
from typing import Any

import live_agents
import paths
import sample_fabrics
from live_agents import GET, SWITCH_INFO, field

SEAT = "H1", 1
OWN = "seat.c manager.c carry.c administration.c light.c notes.c others.c changes.c program.c status.c notify.c".split()
SHARED = "common.c port.c keys.c report.c generation.c".split()
# What a step may take, in seconds.
PATIENCE = 60.0


def build(folder: pathlib.Path, flags: tuple[str, ...]) -> None:
    """Builds seat on the stand-in of the library, in a folder."""
    stand_in = paths.ROOT / "tests/c"
    sources = [*(paths.TOOLS / "seat" / name for name in OWN), *(paths.TOOLS / "record" / name for name in SHARED)]
    words = ["cc", *flags, f"-I{stand_in}", '-DVERSION="test"', "-o", folder / "seat", stand_in / "umad.c", *sources]
    subprocess.run(words, check=True)


class Flapped(live_agents.Agents):
    """Agents whose switches say that a port has changed its state if `has_changed`, and do not answer if `is_deaf`."""

    has_changed = is_deaf = False

    def told(self, name: str, came_by: int, packet: bytes) -> bytes | None:
        data = super().told(name, came_by, packet)
        if data is None or field(packet, 16, 2) != SWITCH_INFO:
            return data
        if self.is_deaf:
            return None
        return data[:11] + bytes([data[11] | 4 * self.has_changed]) + data[12:]


class Seat:
    """A seat at H1 of a fabric whose agents answer it, what it asked, and what it says."""

    def __init__(self, folder: pathlib.Path, program: str, fabric: sample_fabrics.Fabric, *words: object) -> None:
        self.agents, self.asked = Flapped(fabric, SEAT), []
        self.status_file, self.log = folder / "seat.json", folder / "seat.log"
        ours, its = socket.socketpair(socket.AF_UNIX, socket.SOCK_SEQPACKET)
        self.thread = threading.Thread(target=self.answers, args=(ours,))
        self.thread.start()
        environment = os.environ | {"AGENTS": str(its.fileno()), "PORT_GUID": f"{fabric.guid('H1') + 1:x}"}
        line = [str(it) for it in (folder / "seat", "--ibsm", program, "--status", self.status_file, "-v", *words)]
        with self.log.open("w") as log:
            self.process = subprocess.Popen(line, cwd=folder, env=environment, pass_fds=[its.fileno()], stderr=log)
        its.close()

    def answers(self, door: socket.socket) -> None:
        """Answers each request, until the seat ends."""
        with door:
            while packet := door.recv(4096):
                self.asked.append(packet)
                told = self.agents.answer(packet)
                if told:
                    door.send(bytes([0]) + told)

    def status(self) -> dict[str, Any]:
        return json.loads(self.status_file.read_text()) if self.status_file.exists() else {}

    def until(self, holds: Callable[[dict[str, Any]], object]) -> bool:
        """Returns whether something holds of the status before long."""
        end = time.monotonic() + PATIENCE
        while time.monotonic() < end and self.process.poll() is None:
            status = self.status()
            if status and holds(status):
                return True
            time.sleep(0.05)
        return False

    def end(self) -> tuple[int, str]:
        """Ends the seat, and returns its status and what it said."""
        self.process.send_signal(signal.SIGTERM)
        status = self.process.wait(PATIENCE)
        self.thread.join()
        return status, self.log.read_text()


def swept_lightly(folder: pathlib.Path, program: str) -> list[tuple[bool, str]]:
    """Returns what holds of light sweeps: they ask for SwitchInfo alone, and a sweep follows where a switch says that a
    port has changed its state, or does not answer."""
    fabric, found = sample_fabrics.two_levels(2, 3, 4), []
    seat = Seat(folder, program, fabric, "--sweep", 1, "--heavy", 3600, "--timeout", 100, "--retries", 1)
    found.append((seat.until(lambda it: it["sweep"]["light"] >= 1), "a light sweep is counted"))
    sweep, asked = seat.status()["sweep"], len(seat.asked)
    sweeps, first = sweep["count"], sweep["light"]
    found.append((seat.until(lambda it: it["sweep"]["light"] >= first + 2), "and then one each second"))
    since = seat.asked[asked:]
    only = {(it[3], field(it, 16, 2)) for it in since}
    found.append((only == {(GET, SWITCH_INFO)}, f"light sweeps ask for SwitchInfo alone: {only}"))
    switches = sum(fabric.is_switch(name) for name in fabric.nodes)
    found.append((len(since) >= 2 * switches, f"each switch is asked in each: {len(since)} requests"))
    found.append((seat.status()["sweep"]["count"] == sweeps, "meanwhile it does not sweep"))
    for change in "has_changed", "is_deaf":
        setattr(seat.agents, change, True)
        found.append((seat.until(lambda it: it["sweep"]["count"] > sweeps), f"it sweeps, since a switch {change}"))
        setattr(seat.agents, change, False)
        light = seat.status()["sweep"]["light"]
        found.append((seat.until(lambda it: it["sweep"]["light"] > light), f"it sweeps lightly once none {change}"))
        sweeps = seat.status()["sweep"]["count"]
    status, said = seat.end()
    found.append((status == 0 and "SUBNET UP" in said, f"seat ends with {status}: {said[-2000:]}"))
    return found
