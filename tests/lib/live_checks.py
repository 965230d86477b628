"""What `tests/test` checks of `send`, and of rounds that write by it, in fabrics that ibsim simulates."""
from __future__ import annotations

import contextlib
import json
import os
import pathlib
import re
import subprocess
import sys
from typing import Any

import paths
import record_files
import sample_fabrics
from bench import RULE, Bench

# The bytes of PortInfo that a Set of LIDs changes: the LID, the manager's LID, and the byte that holds the LMC.
CHANGED = {16, 17, 18, 19, 34}
PORT_INFO = record_files.PORT_INFO


def send(bench: Bench, *words: object, **how: Any) -> int:
    """Runs send in the simulated fabric, and returns its exit status."""
    return bench.run(bench.room / "out/send", *words, simulated=True, **how)


def one_round(bench: Bench, *words: object) -> tuple[int, dict[str, Any]]:
    """Runs a round in the folder that OpenSM reads. Returns its exit status and what status.json says."""
    words = [*RULE, *bench.programs(), *words]
    status = bench.run(sys.executable, paths.TOOLS / "round", "d", *words, simulated=True)
    return status, json.loads((bench.path / "d/status.json").read_text())


def port_infos(path: pathlib.Path) -> dict[tuple[bytes, bytes], bytes]:
    """Returns each PortInfo in a recording, by node and port."""
    data, found = path.read_bytes(), {}
    for at in range(8, len(data), 272):
        record = data[at : at + 272]
        if int.from_bytes(record[32:34], "big") == PORT_INFO:
            found[record[8:16], record[36:40]] = record[80:144]
    return found


def from_nothing(bench: Bench) -> None:
    """Checks that `send` writes a plan into a subnet without LIDs and tables, and changes nothing in ports but their
    LIDs."""
    bench.record("-q", "-g", 1, "-T", "none", "none.reports")
    bench.texts("none")
    before = port_infos(bench.path / "none.reports")
    bench.check(
        send(bench, "--dry-run", "none.plan") == 0 and "to write: " in bench.printed,
        f"send --dry-run: {bench.printed.splitlines()[-1]}",
    )
    bench.record("-q", "-g", 1, "-T", "dry", "dry.reports")
    bench.check(bench.same("none", "dry") or not (bench.path / "none").read_text().strip(), "it writes nothing")
    bench.check(send(bench, "none.plan") == 0, f"send: {bench.said.strip()}")
    bench.record("-q", "-g", 1, "-T", "sent", "sent.reports")
    bench.check(bench.same("none.plan", "sent"), "the fabric holds the plan, byte for byte")
    bench.check(bench.run(bench.program, "audit", "sent", "sent.reports") == 0, "and the audit passes it")
    after = port_infos(bench.path / "sent.reports")
    others = {i for key in before for i in range(64) if before[key][i] != after[key][i]} - CHANGED
    bench.check(before.keys() == after.keys() and not others, f"PortInfo is otherwise as it was: {others}")
    bench.check(
        send(bench, "none.plan") == 0 and " 0 LIDs, 0 blocks, 0 tops " in bench.said, "again there is nothing to write"
    )


def widths(bench: Bench) -> None:
    """Checks what ibsim's ports say of their links."""
    status = bench.run(sys.executable, paths.TOOLS / "links", "sent.reports")
    count = len(bench.fabric.peers) // 2
    bench.check(
        status in (0, 1) and bench.printed.count("\nlink ") == count - 1 and f"{count} links: " in bench.printed,
        f"links: {bench.printed.splitlines()[-1]}",
    )
    status = bench.run(sys.executable, paths.TOOLS / "compare", "none.reports", "sent.reports")
    bench.check(status == 0 and bench.printed == "equal\n", "compare: the same links")


def first_round(bench: Bench) -> None:
    """Checks that rounds bring a subnet without LIDs and tables to a plan, and that the second one has nothing to
    do."""
    for _ in range(2):
        status, told = one_round(bench, "--direct", "--settle", 0)
        bench.check(status == 0 and told["step"] == "audit", f"from nothing: {told['line']}, {told['steps']}")
    bench.check(bench.same("d/after.plan", "d/after.held") and told["steps"] == [], "the fabric holds the plan")
    status, told = one_round(bench, "--direct", "--at-once", "--lmc", 1, "--accept", "lids")
    bench.check(
        status == 0 and bench.same("d/after.plan", "d/after.held"), f"with two LIDs for each port: {told['line']}"
    )
    name, port = next(
        end
        for end, far in bench.fabric.peers.items()
        if bench.fabric.is_switch(end[0]) and bench.fabric.is_switch(far[0])
    )
    bench.tell(f'Error "{name}"[{port}] 20')
    bench.record("-q", "-g", 1, "-r", 20, "first.reports")
    bench.texts("first")
    bench.check(send(bench, "-r", 20, "--move-lids", "first.plan") == 0, f"where a fifth is lost: {bench.said.strip()}")
    bench.tell(f'Error "{name}"[{port}] 0')


def refusals(bench: Bench) -> None:
    """Checks what `send` refuses to write."""
    for name, told in ("none.reports", "a recording"), ("none.facts", "a text of facts"):
        bench.check(
            send(bench, name) == 3 and f"{name}: this is {told}; TABLES is what" in bench.said, f"send refuses {told}"
        )
    plan = (bench.path / "none.plan").read_text()
    texts = {
        "cut": (plan[: plan.rindex("block")], "is it cut?"),
        "short": (plan[:-1], "its last line has no end"),
        "empty": ("", "the tables have no LIDs"),
        "low": (re.sub(r"top \d+", "top 2", plan, count=1), "is it cut?"),
        "none": (plan.replace("switch 0000000000000010", "switch 0000000000000011"), "is none of this subnet"),
        "moved": (plan.replace("lid 4 ", "lid 6 ").replace("lid 5 ", "lid 4 "), "or is out of order"),
        "dark": (plan.replace("block 0 ff0001", "block 0 ff0004", 1), "which has no cable that is up"),
        "hole": (plan.replace("block 0 ff0001", "block 0 ff00ff", 1), "1 pairs of a switch and a LID have no way"),
        "own": (plan.replace("block 0 ff0001", "block 0 ff0000", 1), "which does not own it"),
        "round": (plan.replace("ff0001020102", "ff0001020101").replace("ff0100020302", "ff0100020301"), "goes round"),
    }
    for name, (text, why) in texts.items():
        (bench.path / f"bad.{name}").write_text(text)
        status = send(bench, f"bad.{name}")
        bench.check(
            status == 3 and why in bench.said and text != plan, f"send refuses {name}: {bench.said.splitlines()[0]}"
        )
        bench.check(all(line.startswith("send: ") for line in bench.said.splitlines()), "it says so line by line")
    bench.record("-q", "-g", 1, "-T", "kept", "kept.reports")
    bench.check(bench.same("none.plan", "kept"), "none of these writes")
    bench.check(send(bench, "bad.hole", "--holes") == 0 and send(bench, "none.plan") == 0, "with --holes it is written")
    bench.check(
        send(bench, "nowhere") == 4 and send(bench) == 2 and send(bench, "-n", 65, "none.plan") == 2,
        "no file, wrong usage",
    )
    bench.check(bench.run(bench.room / "out/send", "none.plan") == 4, "no adapter: status 4")
    with open(bench.path / "none.plan") as text:
        bench.check(send(bench, "-", stdin=text) == 0, "TABLES from standard input")
    moved = plan.replace("lid 4 0000000000000100", "lid 4 000000000000000X").replace(
        "lid 5 0000000000000200", "lid 5 0000000000000100"
    )
    (bench.path / "swapped").write_text(moved.replace("000000000000000X", "0000000000000200"))
    bench.check(send(bench, "swapped", "--holes") == 3 and "(--move-lids)" in bench.said, "a LID that moves is refused")


def seen_on_a_terminal(bench: Bench) -> None:
    """Checks that a terminal shows the progress of `record` after two seconds, in a line that is gone at the end."""
    for bend, is_seen in (("slow", True), (None, False)):
        ours, its = os.openpty()
        preload = f"{bench.room}/out/bent_replies.so:{bench.library}"
        environment = bench.environment() | ({"BEND": bend, "LD_PRELOAD": preload} if bend else {})
        process = subprocess.Popen(
            [bench.room / "out/record", "-n", "1", "seen.reports"],
            cwd=bench.path,
            env=environment,
            stderr=its,
            stdin=subprocess.DEVNULL,
        )
        os.close(its)
        said = b""
        with contextlib.suppress(OSError):
            while piece := os.read(ours, 4096):
                said += piece
        os.close(ours)
        told = said.decode()
        lines = re.findall(r"\r\x1b\[Krecord: asks, \d+ replies, \d+ nodes, \d+ requests wait, 0 without a reply", told)
        is_right = bool(lines) == is_seen and ("\r\x1b[Krecord: seen.reports: generation" in told) == is_seen
        bench.check(process.wait() == 0 and is_right, f"on a terminal, {bend or 'at once'}: {len(lines)} lines")


def healed(bench: Bench) -> None:
    """Checks that --watch heals the loss of a cable without help, and also its return."""
    send(bench, "-q", "min.plan")
    words = [
        sys.executable, paths.TOOLS / "round", "d", *RULE, *bench.programs(), "--direct", "--accept", "busier",
        "--settle", "0.1", "--watch", "0.2",
    ]
    process = subprocess.Popen(
        [str(word) for word in words],
        cwd=bench.path,
        env=bench.environment(),
        stdout=subprocess.PIPE,
        text=True,
        stdin=subprocess.DEVNULL,
    )
    try:
        bench.check(" status 0 audit: the subnet holds the plan" in next_round(process), "rounds go on")
        name, port = next(
            end
            for end, far in bench.fabric.peers.items()
            if bench.fabric.is_switch(end[0]) and bench.fabric.is_switch(far[0])
        )
        for command, word in (("Unlink", "gone cable"), ("ReLink", "come cable")):
            bench.tell(f'{command} "{name}"[{port}]')
            lines = [next_round(process)]
            while len(lines) < 5 and word not in lines[-1]:
                lines.append(next_round(process))
            is_right = word in lines[-1] and " status 0 audit: " in lines[-1]
            is_told = command == "ReLink" or "pairs were lost, for " in lines[-1]
            bench.check(is_right and is_told, f"{command}: " + lines[-1].strip().partition(" ")[2])
    finally:
        process.terminate()
        process.communicate()


def next_round(process: subprocess.Popen[str]) -> str:
    """Returns the line of the next round, without the lines of its steps."""
    while re.match(r"\S+ step \d+: ", line := process.stdout.readline()):
        pass
    return line


def interrupted(bench: Bench) -> None:
    """Checks going from the plan to minhop's tables: `send`, if stopped half-way, leaves each block old or new, and can
    go on from there."""
    plan, minhop = ((bench.path / name).read_text().splitlines() for name in ("min.plan", "min.held"))
    told = {
        "stop": (130, "send: stopped: 5 of", "each of a whole block, LID or top"),
        "other": (1, "the answer is otherwise than what was set", "NOT WRITTEN: "),
        "refuse": (1, "Set of LinearForwardingTable block ", "left out: Status 0x001c"),
    }
    for bend, (wanted, *words) in told.items():
        send(bench, "-q", "min.plan")
        status = send(bench, "-n", 1, "min.held", bend=bend)
        bench.check(
            status == wanted and all(word in bench.said for word in words),
            f"send, {bend}: status {status}, {bench.said.strip()}",
        )
        bench.record("-q", "-g", 1, "-T", "half", "half.reports")
        half = (bench.path / "half").read_text().splitlines()
        is_either = len(half) == len(plan) and all(line in pair for line, pair in zip(half, zip(plan, minhop)))
        bench.check(
            half not in (plan, minhop) and is_either,
            "each block is the old one or the new one, and it is neither of both",
        )
    bench.check(send(bench, "-q", "min.held") == 0, "it goes on from there")
    bench.record("-q", "-g", 1, "-T", "half", "half.reports")
    bench.check(bench.same("min.held", "half"), "to the tables that were wanted")


def to_a_plan(bench: Bench) -> None:
    """Checks going from OpenSM's minhop to a plan by Sets while OpenSM runs, and what both do at once."""
    with bench.opensm("minhop") as opensm:
        bench.record("-q", "-g", 1, "-T", "min.held", "min.reports")
        bench.texts("min")
        status, told = one_round(bench, "--direct", "--look")
        bench.check(status == 0 and told["counts"]["entries"] > 0, f"from minhop: {told['verdict']}")
        status, told = one_round(bench, "--direct", "--at-once", "--accept", "busier")
        bench.check(status == 0 and told["step"] == "audit", f"round --direct: {told['verdict']}, {told['steps']}")
        bench.check(
            bench.same("d/after.held", "d/after.plan") and bench.same("d/after.held", "min.plan"),
            "the fabric holds the plan",
        )
        before = bench.sweeps()
        status, told = one_round(bench, "--direct")
        bench.check(
            status == 0 and told["steps"] == [] and bench.sweeps() == before,
            "again there is nothing to do, and OpenSM was not asked",
        )
        # OpenSM writes only what differs from what it wrote itself, so it writes nothing.
        bench.check(bench.sweep_again(opensm), "OpenSM sweeps again")
        bench.record("-q", "-g", 1, "-T", "sweep.held", "sweep.reports")
        bench.check(bench.same("sweep.held", "min.plan"), "and leaves the tables")
    with bench.opensm("file,no_fallback", "-U", "d/plan.lfts") as opensm:
        bench.record("-q", "-g", 1, "-T", "again.held", "again.reports")
        bench.check(
            bench.same("again.held", "min.plan"), "OpenSM, started anew on the files of the round, keeps the tables"
        )
        send(bench, "-q", "min.held")
        bench.check(bench.sweep_again(opensm), "other tables are sent, and OpenSM sweeps")
        status, told = one_round(bench, "--opensm", opensm.pid, "--log", "osm.log", "--at-once", "--accept", "busier")
        bench.check(
            status == 1 and told["step"] == "holds", f"by OpenSM a round does not mend it: {told['verdict'][:60]}"
        )
        status, told = one_round(bench, "--direct", "--at-once", "--accept", "busier")
        bench.check(status == 0, f"by Sets one does: {told['verdict']}")


def silent_cable(bench: Bench) -> None:
    """Checks a cable that loses some or all packets, and a silent adapter: with --accept silent a round goes on
    without them."""
    send(bench, "-q", "min.plan")
    words = ["--direct", "--accept", "busier", "--settle", 0]
    status, told = one_round(bench, *words)
    bench.check(status == 0, f"before: {told['verdict']}")
    (name, port), (far, back) = next(
        (end, peer)
        for end, peer in bench.fabric.peers.items()
        if bench.fabric.is_switch(end[0]) and bench.fabric.is_switch(peer[0])
    )
    ends = {f"{bench.fabric.guid(node):016x}/{p}" for node, p in ((name, port), (far, back))}
    for percent in (30, 100):
        bench.tell(f'Error "{name}"[{port}] {percent}')
        status, told = one_round(bench, *words)
        bench.check(
            percent < 100 or status == 1 and told["step"] == "record", f"{percent} % are lost: {told['verdict'][:60]}"
        )
        status, told = one_round(bench, *words, "--accept", "silent")
        silent = set(told["silent"]["ports"]) if told["silent"] else set()
        bench.check(status == 0 and silent == (ends if percent == 100 else set()), f"--accept silent: {told['line']}")
    bench.run(bench.program, "audit", "d/after.held", "d/after.reports")
    bench.check(
        bench.printed.startswith("pairs ") and len(set(bench.printed.split()[1:4:2])) == 1, "and every packet arrives"
    )
    bench.tell(f'Error "{name}"[{port}] 0')
    status, told = one_round(bench, *words)
    bench.check(status == 0 and "come cable" in told["line"], f"it answers again: {told['line']}")
    end = [end for end in bench.fabric.ends() if end[1] and end[0] != "H1"][-1]
    named = f"{bench.fabric.guid(end[0]):016x}/{end[1]}"
    near = bench.fabric.peers[end]
    lid = re.search(rf"^lid (\d+) {named}$", (bench.path / "d/after.held").read_text(), re.M)[1]
    entries = (bench.path / "d/after.held").read_text()
    bench.tell(f'Error "{near[0]}"[{near[1]}] 100')
    status, told = one_round(bench, *words, "--accept", "silent")
    kept = told["silent"]["kept"] if told["silent"] else None
    bench.check(status == 0 and kept == [{"end": named, "lid": int(lid)}], f"an adapter is silent: {told['line']}")
    bench.check((bench.path / "d/after.held").read_text() == entries, "its LID and entries stay")
    bench.tell(f'Error "{near[0]}"[{near[1]}] 0')


# The fabrics and the checks tried on each.
ROUTED = to_a_plan, interrupted, silent_cable, healed
SENT = (
    ("triangle", sample_fabrics.triangle, (from_nothing, widths, refusals, seen_on_a_terminal)),
    ("a ring of 6 switches", lambda: sample_fabrics.ring(6), (first_round,)),
    ("a torus of 16 switches", lambda: sample_fabrics.torus(4, 4), ROUTED),
    ("a dragonfly of 20 switches", lambda: sample_fabrics.dragonfly(5, 4, 1), ROUTED),
)
