"""What `tests/test-files` checks of how tools in C are built and started, and of what counts their cost."""
from __future__ import annotations

import contextlib
import io
import os
import pathlib
import re
import shutil
import subprocess

import growth
import key_checks
import paths
import scale
from tool_room import Room

# What a unit must have: nothing may be written but its state, and no right may be won.
SANDBOX = (
    "NoNewPrivileges=yes", "ProtectSystem=strict", "ProtectHome=yes", "PrivateTmp=yes", "DevicePolicy=closed",
    "DeviceAllow=char-infiniband_mad rw", "RestrictAddressFamilies=AF_UNIX", "MemoryDenyWriteExecute=yes",
    "SystemCallFilter=@system-service", "RestrictNamespaces=yes", "ProtectKernelTunables=yes",
)


UNITS = "ibsm-seat.service", "ibsm-seat@.service", "ibsm-round.service", "ibsm-round@.service"
# What a unit for one of several ports has otherwise: its files, its port, and that it is not in OpenSM's place.
OF_ONE = r"#|ConditionPathExists=|Description=|EnvironmentFile=|(Runtime|State)Directory=|ExecStart=|Conflicts=opensm"
BEFORE = "Before=network.target network-online.target remote-fs-pre.target"


def built(room: Room) -> None:
    """Checks that programs in C are built against faults of their own, if there is a compiler and readelf."""
    if not shutil.which("cc") or not shutil.which("readelf"):
        print("test-files: there is no cc or readelf here, so nothing is looked at that is built in C")
        return
    has_umad = pathlib.Path("/usr/include/infiniband/umad.h").exists()
    for folder, names in (("search", ["search"]), ("record", ["record", "send"]), ("seat", ["seat"])):
        if folder != "search" and not has_umad:
            continue
        words = ["make", "-s", "-C", paths.TOOLS / folder, f"BUILD={room.path}/hard"]
        subprocess.run(words, check=True, capture_output=True)
        for name in names:
            said = [
                subprocess.run(["readelf", how, room.path / "hard" / name], capture_output=True, text=True).stdout
                for how in ("-hW", "-dW", "-lW", "-sW")
            ]
            for what, holds in (
                ("its addresses are at random", re.search(r"Type:\s+DYN", said[0])),
                ("what it calls is found at its start", re.search(r"\bNOW\b", said[1])),
                ("and then not written any more", "GNU_RELRO" in said[2]),
                ("its stack is guarded", "__stack_chk_fail" in said[3]),
                ("calls of the library are checked", re.search(r"__\w*(printf|mem|str)\w*_chk", said[3])),
            ):
                room.check(holds, f"{name}: {what}")


def units(room: Room) -> None:
    """Checks the sandbox of units, by systemd too if it is there."""
    for name in UNITS:
        text = (paths.TOOLS / name).read_text()
        plain = (paths.TOOLS / name.replace("@", "")).read_text()
        apart = set(text.splitlines()) ^ set(plain.splitlines())
        room.check(all(re.match(OF_ONE, line) for line in apart), f"{name} differs from the plain one in {apart}")
        told = [f"\n{line}\n" in text for line in ("Type=notify", "WatchdogSec=30", BEFORE)]
        room.check(told == [name.startswith("ibsm-seat")] * 3, f"{name} is told of, and ordered: {told}")
        for line in SANDBOX:
            room.check(f"\n{line}\n" in text, f"{name} has {line}")
        bound = re.findall(r"^CapabilityBoundingSet=(.*)$", text, re.M)
        room.check(bound == ["" if "seat" in name else "CAP_SYS_PTRACE"], f"{name} has capabilities {bound}")
        if shutil.which("systemd-analyze"):
            (room.path / name).write_text(text.replace("/usr/local/bin/ibsm-", "/bin/true #"))
            run = subprocess.run(["systemd-analyze", "verify", room.path / name], capture_output=True, text=True)
            room.check("Unknown" not in run.stderr, f"systemd knows all lines of {name}: {run.stderr}")


def counters(room: Room) -> None:
    """Checks that at-scale fails if valgrind is there and does not work, and not if it is not there."""
    folder = room.path / "counters"
    folder.mkdir()
    program = folder / "program"
    program.write_text("#!/bin/sh\n")
    program.chmod(0o755)
    path, before = os.environ["PATH"], list(scale.failures)
    made = {"strip": "shift $(($# - 2)); cp $2 $1", "valgrind": "echo 'cannot be used here' >${4#--log-file=}; exit 1"}
    try:
        for names, failures in ((("strip",), 0), (("strip", "valgrind"), 1), (("valgrind",), 1)):
            own = folder / "-".join(names)
            own.mkdir()
            for name in names:
                (own / name).write_text(f"#!/bin/sh\nPATH={path}\n{made[name]}\n")
                (own / name).chmod(0o755)
            os.environ["PATH"] = str(own)
            scale.failures.clear()
            with contextlib.redirect_stdout(io.StringIO()):
                costs = growth.Costs(program, own)
            told = " ".join(scale.failures)
            room.check(len(scale.failures) == failures, f"with {names}: {told}")
            room.check(("valgrind is there and does not work" in told) == bool(failures), f"it says so: {told}")
            room.check(("cannot be used here" in told) == (len(names) == 2), f"and why: {told}")
            room.check(costs.counter.name == "processor time", "and time is measured")
    finally:
        os.environ["PATH"] = path
        scale.failures[:] = before


def of_c(room: Room) -> None:
    """Checks tools in C, their units, and what counts costs."""
    built(room)
    if (room.path / "hard/seat").exists():
        key_checks.files(room, room.path / "hard")
    units(room)
    counters(room)
