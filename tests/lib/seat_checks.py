"""What `tests/test` checks of `seat` over ibsim: `ibsm manage` as manager of the subnet, beside itself and OpenSM."""
from __future__ import annotations

import contextlib
import json
import os
import pathlib
import random
import re
import shutil
import signal
import subprocess
import sys
import time
from collections.abc import Callable, Iterator
from typing import Any

import live_checks
import paths
import sample_fabrics
import status_checks
from bench import RULE, Bench
from sample_fabrics import Port

SECONDS = 90
# What a bring-up of the largest fabric may take.
LONG = 300
# A stock OpenSM, except that it polls twice a second.
OPENSM = "sminfo_polling_timeout 500\npolling_retry_number 3\n"
# The TransactionID in a packet.
NUMBER = slice(8, 16)
# How seldom a master sweeps where traps alone are to make it act, and the seconds in which they have to.
SELDOM, PROMPT = ("-s", 60), 30
# The number of a trap for a changed link: 128.
LINK_CHANGED = b"\0\x80"


def until(holds: Callable[[], object], seconds: float = SECONDS) -> float | None:
    """Waits until `holds` is true, and returns the seconds that this took, or None."""
    began = time.monotonic()
    while time.monotonic() < began + seconds:
        if holds():
            return time.monotonic() - began
        time.sleep(0.02)
    return None


class Seat:
    """A process at an adapter of the fabric, and its output."""

    def __init__(self, process: subprocess.Popen[bytes], log: pathlib.Path, status: pathlib.Path) -> None:
        self.process, self.log, self.status_file = process, log, status

    def said(self) -> str:
        return self.log.read_text(errors="replace")

    def count(self, words: str) -> int:
        return self.said().count(words)

    def status(self) -> dict[str, Any]:
        return json.loads(self.status_file.read_text())

    def state(self) -> str | None:
        """Returns the state that the seat reported, or None before it reported any."""
        return self.status()["state"] if self.status_file.exists() else None

    def children(self) -> list[int]:
        number = self.process.pid
        return [int(it) for it in pathlib.Path(f"/proc/{number}/task/{number}/children").read_text().split()]

    def settles(self, seconds: float = SECONDS) -> bool:
        """Waits until its last sweep has found what it wrote last, and returns whether that came in time."""

        def holds() -> bool | None:
            now = self.status() if self.status_file.exists() else None
            return now and now["writing"]["settled"]

        return until(holds, seconds) is not None

    def end(self, number: int = signal.SIGTERM) -> int:
        self.process.send_signal(number)
        return self.process.wait(10)


@contextlib.contextmanager
def seated(
    bench: Bench,
    host: str,
    *words: object,
    program: pathlib.Path | None = None,
    packets: str | None = None,
    bend: str | None = None,
    variables: dict[str, str] | None = None,
) -> Iterator[Seat]:
    """Runs a seat at an adapter, and ends it by its id. `packets` names a file that keeps its packets. `bend` says how
    to bend them. `variables` are added to its environment."""
    bench.seats += 1
    log, status = (bench.path / f"seat{bench.seats}.{kind}" for kind in ("log", "json"))
    environment = bench.environment() | {"SIM_HOST": host} | (variables or {})
    if packets or bend:
        environment["LD_PRELOAD"] = f"{bench.room}/out/bent_replies.so:{bench.library}"
        environment |= {"PACKETS": str(bench.path / packets)} if packets else {"BEND": bend}
    words = [bench.room / "out/seat", "--ibsm", program or bench.program, "--status", status, "-v", *RULE, *words]
    with open(log, "w") as said:
        how = {"cwd": bench.path, "env": environment, "stdin": subprocess.DEVNULL, "stderr": said}
        process = subprocess.Popen([str(word) for word in words], **how)
    try:
        yield Seat(process, log, status)
    finally:
        if process.poll() is None:
            process.terminate()
            try:
                process.wait(5)
            except subprocess.TimeoutExpired:
                process.kill()
                process.wait()


@contextlib.contextmanager
def opensm(
    bench: Bench, host: str, priority: int, *words: str, is_deaf: bool = False
) -> Iterator[tuple[subprocess.Popen[bytes], Callable[[], str]]]:
    """Runs OpenSM at another adapter, and yields it with its log. If it is deaf, no traps reach it."""
    (bench.path / "opensm.conf").write_text(OPENSM)
    log = bench.path / f"opensm-{host}.log"
    log.unlink(missing_ok=True)
    environment = bench.environment() | {"SIM_HOST": host}
    environment["LD_PRELOAD"] = f"{bench.room}/out/opensm_kernel.so:{bench.library}"
    environment |= {"LOSE_TRAPS": "1"} if is_deaf else {}
    words = ["-e", "-p", priority, "-d", "2", "-s", "2", "-D", "0x43", "-f", log, "-F", "opensm.conf", *words]
    quiet = {"stdout": subprocess.DEVNULL, "stderr": subprocess.DEVNULL, "stdin": subprocess.DEVNULL}
    words = ["opensm", *map(str, words)]
    process = subprocess.Popen(words, cwd=bench.path, env=environment, **quiet)
    try:
        yield process, lambda: log.read_text(errors="replace") if log.exists() else ""
    finally:
        if process.poll() is None:
            process.kill()
            process.wait()


def held(bench: Bench, name: str, host: str = "H1") -> str:
    """Returns what the subnet holds. Checks that it is the plan of a recording and passes the audit."""
    status = bench.record("-q", "-g", 1, "-T", name, f"{name}.reports", seat=host)
    if status != 0:
        print(f"{name}: record ended with {status}: {bench.said}", flush=True)
    bench.texts(name, f"{name}.reports")
    bench.check(bench.same(name, f"{name}.plan"), f"{name}: held is the plan of a recording, byte for byte")
    status = bench.run(bench.program, "audit", name, f"{name}.reports")
    bench.check(status == 0, f"{name}: and the audit passes it: {bench.printed.splitlines()[:1]}")
    return (bench.path / name).read_text()


def lids(text: str) -> list[str]:
    """Returns the lines of LIDs in the text of a plan."""
    return [line for line in text.splitlines() if line.startswith("lid ")]


def manager(bench: Bench, host: str = "H1") -> tuple[int, int, int] | str:
    """Returns GUID, priority and state of the master, as `sminfo` reports them."""
    bench.run("sminfo", simulated=True, seat=host)
    found = re.search(r"sm guid (0x\w+), .*priority (\d+) state (\d)", bench.printed)
    return (int(found[1], 16), int(found[2]), int(found[3])) if found else bench.printed + bench.said


def port_guid(bench: Bench, host: str) -> int:
    """Returns the GUID of the port of an adapter."""
    return bench.fabric.guid(host) + 1


def dry_run(bench: Bench) -> None:
    """Checks that --dry-run prints what would be written, and writes nothing."""
    words = [bench.room / "out/seat", "-q", "--ibsm", bench.program, "--dry-run"]
    bench.record("-q", "-g", 1, "-T", "none", "none.reports")
    bench.texts("none")
    bench.run(bench.program, "plan", "--routing", "spread", "none.reports")
    (bench.path / "none.spread").write_text(bench.printed)
    for rule, plan in ((), "none.spread"), (RULE, "none.plan"):
        bench.check(bench.run(*words, *rule, simulated=True) == 0, f"--dry-run {' '.join(rule)}: status 0 {bench.said}")
        (bench.path / "dry").write_text(bench.printed)
        bench.check(bench.same("dry", plan), f"it prints the plan of a recording, {plan}")
    bench.check("lid " not in (bench.path / "none").read_text(), "the subnet has no LIDs still")
    bench.check(
        bench.run(*words, "--lmc", 1, simulated=True) == 0 and " lmc 1\n" in bench.printed,
        "with --lmc 1 that of this LMC",
    )


def own_program(bench: Bench) -> None:
    """Checks that a seat runs the program of its checkout, or the one installed beside it, if none is on the path."""
    path = os.environ["PATH"].split(":")
    bench.check(not any(os.access(f"{folder}/ibsm", os.X_OK) for folder in path), "no ibsm is on the path")
    bench.record("-q", "-g", 1, "-T", "none", "none.reports")
    bench.texts("none")
    for seat, program in (
        ("a/tools/seat/out/seat", "a/ibsm"),
        ("b/tools/record/out/seat", "b/ibsm"),
        ("c/bin/ibsm-seat", "c/bin/ibsm"),
    ):
        (bench.path / seat).parent.mkdir(parents=True)
        shutil.copy(bench.room / "out/seat", bench.path / seat)
        bench.check(
            bench.run(bench.path / seat, "-q", "--dry-run", *RULE, simulated=True) == 4
            and "there is no program ibsm: " in bench.said,
            f"{seat} without a program: status 4: {bench.said.strip()}",
        )
        (bench.path / program).write_text(f'#!/bin/sh\nexec {bench.program} "$@"\n')
        (bench.path / program).chmod(0o755)
        status = bench.run(bench.path / seat, "-q", "--dry-run", *RULE, simulated=True)
        bench.check(
            status == 0 and bench.printed == (bench.path / "none.plan").read_text(),
            f"with {program}: the plan {bench.said.strip()}",
        )


def wrong_usage(bench: Bench) -> None:
    """Checks command lines that must not start."""
    seat = bench.room / "out/seat"
    bench.check(bench.run(seat, "more") == 2 and bench.run(seat, "-p", 16) == 2, "wrong usage: status 2")
    statuses = [bench.run(seat, "-s", seconds) for seconds in (0, 61, 86400)]
    bench.check(statuses == [2, 2, 2], f"masters that never or seldom sweep would never meet: status {statuses}")
    bench.check(
        bench.run(seat, "--version") == 0 and bench.run(seat, "--help") == 0,
        "--help and --version: status 0",
    )
    helped = set(re.findall(r"(?<![\w-])--[a-z][a-z-]*", bench.printed))
    page = set(re.findall(r"--[a-z][a-z-]*", (paths.TOOLS / "seat/seat.1").read_text().replace("\\", "")))
    bench.check(
        helped <= page | {"--help"} and len(helped) > 20,
        f"options that the manual page lacks: {helped - page}",
    )
    bench.check(bench.run(seat) == 4, "no adapter: status 4")
    status = bench.run(seat, "--ibsm", "nowhere", "-S", "nowhere.json", simulated=True)
    bench.check(
        status == 4 and "there is no program nowhere" in bench.said,
        f"no program: status 4: {bench.said.strip()}",
    )
    (bench.path / "no.roots").write_text("x\n")
    words = ["--ibsm", bench.program, "--routing", "spread", "--roots", "no.roots"]
    bench.check(
        bench.run(seat, *words, simulated=True) == 3 and "no.roots: line 1: syntax" in bench.said,
        "wrong ROOTS: status 3",
    )
    bench.check(
        bench.run(seat, "--ibsm", "/bin/true", simulated=True) == 4 and "ends soon" in bench.said,
        "one that ends at once: status 4",
    )


def brought_up(bench: Bench) -> None:
    """Checks that a subnet without a manager is brought up, and what other tools see of it."""
    with seated(bench, "H1", "-p", 5) as seat:
        bench.check(seat.settles(), f"SUBNET UP: {seat.said().splitlines()[-2:]}")
        held(bench, "up")
        bench.check(manager(bench) == (port_guid(bench, "H1"), 5, 3), f"sminfo: {manager(bench)}")
        told = seat.status()
        nodes = [sum(map(kind, bench.fabric.nodes)) for kind in (lambda _: True, bench.fabric.is_switch)]
        counts = [told["writing"]["lids"], told["writing"]["switches"]]
        bench.check(
            told["state"] == "master" and counts == nodes and not told["silent"],
            f"status: {told['state']}, {counts}",
        )
        before = told["writing"]["count"]
        seat.process.send_signal(signal.SIGHUP)
        bench.check(until(lambda: seat.count("a sweep is asked for")), "SIGHUP: a sweep")
        time.sleep(2)
        told = seat.status()
        bench.check(told["writing"]["count"] == before == 1, "whose plan is what was written, and nothing is written")
        ways(bench)
        seen_by_others(bench)
        seen_by_prometheus(bench, seat)
        begun = seat.status()["sweep"]["count"]
        os.kill(seat.children()[0], signal.SIGKILL)
        bench.check(
            until(lambda: seat.count("SUBNET UP") == 2) is not None,
            "its process is killed: another one brings it up",
        )
        bench.check(until(lambda: seat.status()["sweep"]["count"] > begun + 1) is not None, "and sweeps once more")
        bench.check(held(bench, "again") == (bench.path / "up").read_text(), "tables are as they were")
        bench.check(seat.end() == 0 and "ended by signal 15" in seat.said(), "SIGTERM: status 0")


def by_options(bench: Bench) -> None:
    """Checks the options that are passed to the program: LMC, rule and roots."""
    root = next(node for node in bench.fabric.nodes if bench.fabric.is_switch(node))
    (bench.path / "roots").write_text(f"{bench.fabric.guid(root):x}\n")
    words = ["--lmc", 2, "--routing", "spread", "--roots", "roots"]
    with seated(bench, "H1", "-p", 5, *words) as seat:
        bench.check(seat.settles(), "SUBNET UP")
    bench.record("-q", "-g", 1, "-T", "spread", "spread.reports")
    bench.run(bench.program, "plan", *words, "spread.reports")
    bench.check(
        bench.printed == (bench.path / "spread").read_text() and " lmc 2\n" in bench.printed,
        "held is the plan of these options",
    )


def ways(bench: Bench) -> None:
    """Checks that `ibtracert` finds a route between any two adapters, and that `ibroute` dumps the plan."""
    plan = (bench.path / "up.plan").read_text()
    lid_of = {guid: lid for lid, guid in re.findall(r"^lid (\d+) (\w+)/", plan, re.M)}
    adapters = [node for node in bench.fabric.nodes if not bench.fabric.is_switch(node)]
    hosts = [lid_of[f"{bench.fabric.guid(node):016x}"] for node in adapters]
    arrive = 0
    for one in hosts:
        for other in hosts:
            status = bench.run("ibtracert", one, other, simulated=True)
            arrive += status == 0 and bench.printed.strip().splitlines()[-1].startswith("To ca")
    bench.check(arrive == len(hosts) ** 2 > 0, f"ibtracert: {arrive} of {len(hosts) ** 2} pairs of adapters")
    same = 0
    for guid, block in re.findall(r"^switch (\w+) top \d+\nblock 0 (\w+)$", plan, re.M):
        bench.run("ibroute", lid_of[guid], simulated=True)
        told = {int(lid, 16): int(port) for lid, port in re.findall(r"^(0x\w+) (\d+) ", bench.printed, re.M)}
        same += told == {lid: port for lid, port in enumerate(bytes.fromhex(block)) if port != 255}
    bench.check(same == plan.count("switch ") > 0, f"ibroute dumps the plan at {same} switches")


def seen_by_others(bench: Bench) -> None:
    """Checks that what ibnetdiscover, iblinkinfo and smpquery report is what was written."""
    bench.run("ibnetdiscover", simulated=True)
    (bench.path / "up.net").write_text(bench.printed)
    words = [sys.executable, paths.TOOLS / "from-dumps", "up.net", "--cap", str(sample_fabrics.ROOM)]
    with open(bench.path / "net.store", "wb") as store:
        subprocess.run(words, cwd=bench.path, stdout=store, stderr=subprocess.DEVNULL)
    bench.texts("net", "net.store")
    bench.check(bench.same("net.facts", "up.facts"), "ibnetdiscover: the facts of a recording")
    owners = dict(re.findall(r"^lid (\d+) (\w+/\d+)$", (bench.path / "up.plan").read_text(), re.M))
    status = bench.run("iblinkinfo", "-l", simulated=True)
    ends = re.findall(r'^0x\w+ +"[^"]*" +(\d+) .*Active/.*==> +0x\w+ +(\d+) +', bench.printed, re.M)
    known = all(one in owners and other in owners for one, other in ends)
    bench.check(
        status == 0 and known and len(ends) == len(bench.fabric.peers),
        f"iblinkinfo: {len(ends)} ends of cables, Active",
    )
    found = {}
    for lid in owners:
        bench.run("smpquery", "nodeinfo", lid, simulated=True)
        guid = re.search(r"^Guid:\.*0x(\w+)$", bench.printed, re.M)
        found[lid] = guid[1] if guid else bench.said
    bench.check(
        found == {lid: end.split("/")[0] for lid, end in owners.items()},
        f"smpquery: {len(found)} LIDs with their owners",
    )


def seen_by_prometheus(bench: Bench, seat: Seat) -> None:
    """Checks that the status is taken by tools/json, and what it prints of it."""
    status = bench.run(sys.executable, paths.TOOLS / "json", "--prometheus", seat.status_file)
    own = f'port="{seat.status()["port"]}",guid="{port_guid(bench, "H1"):016x}"'
    wanted = [f'state{{{own},state="master"}} 1', f"lids{{{own}}} {len(bench.fabric.nodes)}", f"sweep_whole{{{own}}} 1"]
    bench.check(
        status == 0 and status_checks.is_exposition(bench.printed)
        and all(f"\nibsm_seat_{line}\n" in bench.printed for line in wanted),
        f"its status as Prometheus reads it: {bench.printed.count('TYPE')} series{bench.said}",
    )


def some_ways(bench: Bench, name: str, count: int = 200) -> None:
    """Checks that `ibtracert` finds a route between each of `count` pairs of adapters, chosen at random, by the LIDs
    in the file `name`."""
    chance = random.Random(count)
    lid_of = {guid: lid for lid, guid in re.findall(r"^lid (\d+) (\w+)/1$", (bench.path / name).read_text(), re.M)}
    adapters = [node for node in bench.fabric.nodes if not bench.fabric.is_switch(node)]
    hosts = [lid_of[f"{bench.fabric.guid(node):016x}"] for node in adapters]
    arrive = 0
    for _ in range(count):
        status = bench.run("ibtracert", chance.choice(hosts), chance.choice(hosts), simulated=True)
        arrive += status == 0 and bench.printed.strip().splitlines()[-1].startswith("To ca")
    bench.check(arrive == count, f"ibtracert: {arrive} of {count} pairs of adapters")


def between(bench: Bench, name: str) -> pathlib.Path:
    """Returns a program that runs `ibsm`, and keeps its input and output in NAME.told and NAME.printed."""
    script = bench.path / name
    script.write_text(f'#!/bin/sh\ntee -a {name}.told | {bench.program} "$@" | tee -a {name}.printed\n')
    script.chmod(0o755)
    return script


def lines_of(path: pathlib.Path, word: str) -> list[list[str]]:
    """Returns the words after the first one of each line that begins with `word`, in a file that may be missing."""
    lines = path.read_text().splitlines() if path.exists() else []
    return [line.split()[1:] for line in lines if line.startswith(word + " ")]


def told_of(path: pathlib.Path) -> list[bytes]:
    """Returns the packets that a program was told of, each at its time."""
    lines = [line.split() for line in path.read_text().splitlines()]
    return [bytes.fromhex(words[2]) for words in lines if words[1:2] == ["packet"]]


def packets_of(path: pathlib.Path, word: str) -> list[bytes]:
    """Returns the packets in the lines that begin with `word`."""
    return [bytes.fromhex(words[0]) for words in lines_of(path, word)]


def between_switches(bench: Bench) -> tuple[Port, Port]:
    """Returns the two ends of a cable between switches."""
    for end, peer in bench.fabric.peers.items():
        if bench.fabric.is_switch(end[0]) and bench.fabric.is_switch(peer[0]):
            return end, peer
    raise ValueError("there is none")


def without_number(packet: bytes) -> bytes:
    """Returns a packet without its TransactionID."""
    return packet[: NUMBER.start] + packet[NUMBER.stop :]


def faithful(bench: Bench) -> None:
    """Checks from both sides that what the program printed went out, and that what came in was passed to it, except for
    the numbers of requests."""
    script = between(bench, "all")
    with seated(bench, "H1", "-p", 5, program=script, packets="all.packets") as seat:
        bench.check(seat.settles(), "a subnet is brought up")
        seat.end()
    printed = [bytes.fromhex(words[0]) for words in lines_of(bench.path / "all.printed", "send")]
    told = told_of(bench.path / "all.told")
    sent, came = (packets_of(bench.path / "all.packets", word) for word in ("out", "in"))
    bench.check(
        {without_number(it) for it in sent} == {without_number(it) for it in printed},
        f"{len(sent)} packets: those that were printed",
    )
    numbers = [it[NUMBER][4:] for it in sent]
    bench.check(len(set(numbers)) == len(numbers) == len(printed) > 50, "each has a number of its own")
    bench.check(
        {without_number(it) for it in told} <= {without_number(it) for it in came},
        f"{len(told)} packets told: they came",
    )
    asked = {it[NUMBER]: it for it in printed}
    bench.check(
        all(asked[it[NUMBER]][16:24] == it[16:24] for it in told),
        "each with the number of its request, as it was printed",
    )
    sets = [it for it in printed if it[3] == 2 and it[16:18] == b"\0\x15"]
    bench.check(
        sets != [] and all(it[64 + 36] >> 4 for it in sets),
        "a Set of PortInfo has a NeighborMTU, as the manager prints it",
    )


def what_ports_hold(bench: Bench, name: str) -> tuple[set[str], set[int]]:
    """Returns the GidPrefixes of end ports, and the HOQLives of other ports of switches that are Active."""
    held(bench, name)
    infos = live_checks.port_infos(bench.path / f"{name}.reports").values()
    prefixes = {info[8:16].hex() for info in infos if info[16:18] != b"\0\0"}
    return prefixes, {info[42] & 31 for info in infos if info[16:18] == b"\0\0" and info[32] & 15 == 4}


def repeated(bench: Bench, name: str) -> None:
    """Checks that a lost request is sent again as a copy, up to twice, and that the program gives up a request once, of
    which it was told no answer."""
    sent = [bytes.fromhex(words[0]) for words in lines_of(bench.path / f"{name}.packets", "out")]
    copies = {}
    for packet in sent:
        copies.setdefault(packet[NUMBER], []).append(packet)
    bench.check(
        all(len(set(group)) == 1 and len(group) <= 3 for group in copies.values()),
        "what is sent again is a copy",
    )
    bench.check(any(len(group) == 3 for group in copies.values()), "up to twice")
    notes = lines_of(bench.path / f"{name}.printed", "note")
    left = [words[1] for words in notes if words[0] == "unanswered"]
    printed = {words[0] for words in lines_of(bench.path / f"{name}.printed", "send")}
    bench.check(
        0 < len(left) == len(set(left)) and set(left) <= printed,
        f"given up: {len(left)}, each once, as it was printed",
    )
    answered = {packet[NUMBER].hex() for packet in told_of(bench.path / f"{name}.told")}
    bench.check(not answered & {it[16:32] for it in left}, "and none of these had an answer")


def repressed(bench: Bench) -> None:
    """Checks that each trap of a link was answered by TrapRepress, with its number, attribute, modifier and data."""
    came, sent = (packets_of(bench.path / "traps.packets", word) for word in ("in", "out"))
    traps = [packet for packet in came if packet[1] == 1 and packet[3] == 5 and packet[68:70] == LINK_CHANGED]
    answers = [packet for packet in sent if packet[3] == 7 and packet[68:70] == LINK_CHANGED]
    told, said = ([packet[:3] + packet[8:24] + packet[64:128] for packet in group] for group in (traps, answers))
    bench.check(said == told != [], f"traps: {len(traps)}, each repressed")


def bent(bench: Bench) -> None:
    """Checks that hop pointer 1 in an answer over no hops becomes 0, and that a refused answer is given up."""
    with seated(bench, "H1", "-p", 5, bend="pointer") as seat:
        bench.check(
            seat.settles() and seat.status()["packets"]["pointers_set"] > 0,
            "hop pointer 1 over no hops: SUBNET UP",
        )
    with seated(bench, "H1", "-p", 5, *SELDOM, bend="status") as seat:
        bench.check(
            until(lambda: seat.count("NOT WHOLE") > 0) is not None,
            "PortInfo of port 2 is refused: NOT WHOLE",
        )
        told = seat.status()
        bench.check(
            told["packets"]["given_up"] > 0 and "Get 0x0015 modifier 2" in told["silent"][0],
            f"it is named: {told['silent'][:1]}",
        )


def hosts_refused(bench: Bench) -> None:
    """Checks that a host that asks the master for what the subnet administration does not have is refused at once, and
    that a standby is silent, since the host tries again. Both seats live on."""
    timing = [*SELDOM, "-m", 200, "-r", 1]
    with seated(bench, "H1", "-p", 5, *timing) as seat, seated(bench, "H2", "-p", 3, *timing) as other:
        is_up = seat.settles() and until(lambda: other.state() == "standby") is not None
        bench.check(is_up, "a seat is master, and another one stands by")
        text = held(bench, "asked", "H3")
        asks = (["NR"], ["PIR"], ["-g"], ["-m"], ["SR"], ["-s"])
        for words in asks:
            began = time.monotonic()
            status = bench.run("saquery", *words, simulated=True, seat="H3")
            took = time.monotonic() - began
            bench.check(
                status == 5 and "Query result returned 0x000c" in bench.said and took < 1,
                f"saquery {' '.join(words)} is refused after {took:.2f} s: {bench.said.strip()}",
            )
        bench.check(bench.run("saquery", "-c", simulated=True, seat="H3") == 0, "saquery -c tells what the class has")
        for words in (["PR", "--src-to-dst", "1:2"], ["NR", 1]):
            status = bench.run("saquery", *words, simulated=True, seat="H3")
            bench.check(status == 0, f"saquery {' '.join(map(str, words))} gets one record: {bench.said.strip()}")
        status = bench.record("-g", 1, "-n", 1, "-L", "asked.lanes", "-S", "asked.reports", seat="H3")
        bench.check(status == 0 and "(0 sent again)" in bench.said, f"record --levels has paths: {bench.said.strip()}")
        lid_of = {guid: int(lid) for lid, guid in re.findall(r"^lid (\d+) (\w+)/1$", text, re.M)}
        third, second = (lid_of[f"{bench.fabric.guid(host):016x}"] for host in ("H3", "H2"))
        bench.run("ibportstate", third, 1, "smlid", second, simulated=True, seat="H4")
        status = bench.run("saquery", "-t", 300, "NR", simulated=True, seat="H3")
        bench.check(status != 0 and "0x000c" not in bench.said, f"a standby is silent: {bench.said.strip()}")
        seat.process.send_signal(signal.SIGHUP)
        bench.check(until(lambda: seat.status()["sweep"]["count"] > 2) is not None, "the master sweeps still")
        until(lambda: seat.settles(), 10)
        counts = [it.status()["packets"]["hosts_refused"] for it in (seat, other)]
        bench.check(counts == [len(asks), 0], f"queries that were refused: {counts}")
        counts.append(seat.status()["packets"]["hosts_answered"])
        bench.check(counts[2] > 100, f"and that were answered: {counts[2]}")
        bench.check(seat.count("is refused: LID") == counts[0], "each is in the log")
        bench.check(seat.end() == 0 and other.end() == 0, "both end by SIGTERM: status 0")


def images(bench: Bench) -> None:
    """Checks that after Sets ports hold what was read of them, or a value if they had none."""
    with seated(bench, "H1", "-p", 5) as seat:
        bench.check(seat.settles() and seat.status()["packets"]["sets"] > 20, "SUBNET UP")
    told = what_ports_hold(bench, "carried")
    bench.check(told == ({"fe80" + "0" * 12}, {16}), f"carried: GidPrefix, HOQLife {told}")


def cable(bench: Bench) -> None:
    """Checks that traps alone make the seat act when a cable between switches is cut and plugged in again."""
    (bench.path / "seat.names").write_text(
        "".join(f'0x{guid:016x} "node {name}"\n' for name, (_, guid, _) in bench.fabric.nodes.items())
    )
    words = "-p", 5, *SELDOM, "--names", "seat.names"
    with seated(bench, "H1", *words, packets="traps.packets") as seat:
        bench.check(seat.settles(), "SUBNET UP")
        before = last = held(bench, "whole")
        (name, port), (far, back) = between_switches(bench)
        for command, count in ((f'Unlink "{name}"[{port}]', 2), (f'Link "{name}"[{port}] "{far}"[{back}]', 3)):
            bench.tell(command)
            bench.check(
                until(lambda: seat.count("SUBNET UP") >= count, PROMPT) is not None,
                f"{command.split()[0]}: {seat.said().splitlines()[-1]}",
            )
            bench.check(seat.settles(), "and once more swept")
            after = held(bench, f"cable{count}")
            bench.check(lids(before) == lids(after), "LIDs stay")
            told_of_changes(bench, seat, "gone" if count == 2 else "new", last, after)
            last = after
            bench.check(
                (before == after) == (count == 3),
                "tables are others" if count == 2 else "tables are as at first",
            )
        seat.end()
    repressed(bench)


def told_of_changes(bench: Bench, seat: Seat, word: str, old: str, new: str) -> None:
    """Checks that the log tells why a plan was written, by name, and how many cables and entries changed."""
    rows = [re.findall(r"switch (\w+) top \d+\n((?:block .*\n)+)", text) for text in (old, new)]
    entries = {guid: bytes.fromhex("".join(re.findall(r"block \d+ (\w+)", blocks))) for guid, blocks in rows[0]}
    apart = [
        sum(a != b for a, b in zip(entries[guid], bytes.fromhex("".join(re.findall(r"block \d+ (\w+)", blocks)))))
        for guid, blocks in rows[1]
    ]
    told = [line for line in seat.said().splitlines() if f"1 cable {word}; " in line]
    form = re.search(
        r"trap 128 from LID \d+ \(node \w+\)(?:, \d+ more traps)?; 1 cable \w+; (\d+) entries on (\d+) switches$",
        told[-1] if told else "",
    )
    wanted = (str(sum(apart)), str(sum(map(bool, apart))))
    bench.check(form and form.groups() == wanted, f"the log tells what changed: {told}, and {wanted}")


def losses(bench: Bench) -> None:
    """Checks that unanswered requests are sent again if a port loses packets, and that no gap is written. A fifth is
    lost between two switches, and then a tenth and three tenths at the seat."""
    seat_port = bench.fabric.peers["H1", 1]
    for (name, port), lost in ((between_switches(bench)[0], 20), (seat_port, 10), (seat_port, 30)):
        bench.tell(f'Error "{name}"[{port}] {lost}')
        with seated(bench, "H1", "-p", 5, "-s", 1, "-r", 10) as seat:
            bench.check(seat.settles(), f"{lost} % of packets are lost: {seat.said().splitlines()[-1]}")
            told = seat.status()["packets"]
            bench.check(told["sent_again"] > 0, f"sent again: {told['sent_again']} of {told['sent']}")
        bench.tell(f'Error "{name}"[{port}] 0')
        held(bench, f"lossy{lost}")
    end = next(end for end in bench.fabric.ends() if end[1] and end[0] not in ("H1", "H2"))
    near = bench.fabric.peers[end]
    bench.tell(f'Error "{near[0]}"[{near[1]}] 100')
    words = ["-p", 5, "-s", 1, "-r", 2]
    with seated(bench, "H1", *words, program=between(bench, "lost"), packets="lost.packets") as seat:
        bench.check(
            until(lambda: seat.count("NOT WHOLE") > 1) is not None,
            f"where an adapter is silent: {seat.said().splitlines()[-2:]}",
        )
        told = seat.status()
        bench.check(
            told["writing"]["count"] == 0 and len(told["silent"]) >= 1,
            f"nothing is written: {told['silent']}",
        )
        seat.end()
    repeated(bench, "lost")
    with seated(bench, "H1", "-p", 5, *SELDOM, "-r", 1, "--partial") as seat:
        bench.check(until(lambda: seat.count("SUBNET UP") > 0) is not None, "with --partial it is")
    bench.tell(f'Error "{near[0]}"[{near[1]}] 0')


def two_seats(bench: Bench) -> None:
    """Checks that one of two seats is master, that the other takes over with its tables when it is killed, and that a
    seat of higher priority then gets them."""
    timing = ["-s", 3, "-m", 200, "-r", 1]
    hosts = [node for node in bench.fabric.nodes if not bench.fabric.is_switch(node)]
    first, second = hosts[0], hosts[-1]
    with seated(bench, first, "-p", 5, *timing) as one, seated(bench, second, "-p", 3, *timing) as other:
        bench.check(one.settles(), "two at once: one is master")
        bench.check(until(lambda: other.status()["state"] == "standby") is not None, "the other stands by")
        before = held(bench, "two")
        bench.check(manager(bench, second) == (port_guid(bench, first), 5, 3), f"sminfo: {manager(bench, second)}")
        one.end(signal.SIGKILL)
        took = until(lambda: "SUBNET UP" in other.said())
        bench.check(
            took is not None and other.settles(),
            f"the master is killed: the other has taken over after {took:.1f} s",
        )
        bench.check(held(bench, "taken", second) == before, "tables are as they were")
        with seated(bench, first, "-p", 8, *timing) as greater:
            bench.check(
                until(lambda: "SUBNET UP" in greater.said()) is not None,
                f"a greater one comes: {greater.said().splitlines()[-1:]}",
            )
            bench.check(
                until(lambda: other.status()["state"] == "standby") is not None,
                f"HANDOVER: {other.said().splitlines()[-2:]}",
            )
            bench.check(
                "HANDOVER to %016x, priority 8\n" % port_guid(bench, first) in other.said() and greater.settles(),
                "it is the master",
            )
            bench.check(held(bench, "greater") == before, "tables are as they were")


def killed_while_it_writes(bench: Bench) -> None:
    """Checks that if the master is killed with part of its plan written, the other one finishes the plan."""
    timing = ["-m", 200, "-r", 1]
    with contextlib.ExitStack() as stack:
        one = stack.enter_context(seated(bench, "H1", "-p", 5, *SELDOM, "-n", 1, *timing))
        other = stack.enter_context(seated(bench, "H2", "-p", 3, *SELDOM, *timing))
        bench.check(one.settles(), "SUBNET UP")
        (name, port), _ = between_switches(bench)
        filled = one.status()["packets"]["sets"]
        bench.tell(f'Unlink "{name}"[{port}]')
        until(lambda: one.status()["packets"]["sets"] > filled, 5)
        one.end(signal.SIGKILL)
        bench.check(
            until(lambda: "SUBNET UP" in other.said()) is not None and other.settles(),
            "the other takes over",
        )
        held(bench, "finished", "H2")
    bench.tell(f'ReLink "{name}"[{port}]')


def without_a_master(bench: Bench) -> None:
    """Checks that two seats that both stand by find that nobody is master. A lesser master's process is killed while a
    greater seat stands by, so the new process stands by too."""
    with contextlib.ExitStack() as stack:
        lesser = stack.enter_context(seated(bench, "H2", "-p", 3, *SELDOM, "-m", 200, "-r", 1))
        bench.check(lesser.settles(), "a lesser one is master")
        before = held(bench, "lesser")
        greater = stack.enter_context(seated(bench, "H1", "-p", 5, *SELDOM, "-m", 200, "-r", 1))
        bench.check(until(lambda: "STANDBY" in greater.said()) is not None, "a greater one stands by")
        os.kill(lesser.children()[0], signal.SIGKILL)
        took = until(lambda: "STANDBY" in lesser.said(), 20)
        bench.check(took is not None, "the lesser one's process is killed: the new one stands by")
        took = until(lambda: "SUBNET UP" in greater.said(), 30)
        bench.check(
            took is not None and greater.settles(),
            f"the greater one is master after {took or -1:.1f} s: {greater.said().splitlines()[-3:]}",
        )
        time.sleep(2)
        bench.check(
            (greater.status()["state"], lesser.status()["state"]) == ("master", "standby"),
            "and the lesser one stands by",
        )
        bench.check(held(bench, "found") == before, "tables are as they were")


def equal_priorities(bench: Bench) -> None:
    """Checks two seats of equal priority: the one with the lesser port GUID is master, whichever comes first, and the
    other takes over."""
    timing = ["-p", 5, "-s", 2, "-m", 200, "-r", 1]
    lesser, greater = sorted(("H1", "H2"), key=lambda host: port_guid(bench, host))
    with seated(bench, greater, *timing) as late, seated(bench, lesser, *timing) as early:
        took = until(lambda: (early.state(), late.state()) == ("master", "standby"), 40)
        bench.check(took is not None and early.settles(), f"equal priorities: the lesser GUID wins: {took or -1:.1f} s")
        before = held(bench, "equal", lesser)
        early.end(signal.SIGKILL)
        took = until(lambda: late.state() == "master", 40)
        bench.check(took is not None and late.settles(), f"it is killed: the greater takes over: {took or -1:.1f} s")
        bench.check(held(bench, "taken", greater) == before, "tables are as they were")
        earlier = late.count("HANDOVER to")  # if it came first, it has handed over before
        with seated(bench, lesser, *timing) as again:
            took = until(lambda: (again.state(), late.state()) == ("master", "standby"), 40)
            bench.check(took is not None and again.settles(), f"the lesser GUID comes back: {took or -1:.1f} s")
            bench.check(late.count("HANDOVER to") == earlier + 1, "it was handed over to once")
            bench.check(held(bench, "again", lesser) == before, "tables are as they were")


def announced_again(bench: Bench) -> None:
    """Checks that a greater seat that stood by twice announced itself twice, and got the subnet both times."""
    timing = [*SELDOM, "-m", 200, "-r", 1]
    with seated(bench, "H2", "-p", 3, *timing) as lesser:
        bench.check(lesser.settles(), "a lesser one is master")
        for number in 1, 2:
            with seated(bench, "H1", "-p", 5, *timing) as greater:
                took = until(lambda: "SUBNET UP" in greater.said(), PROMPT)
                is_up = took is not None and greater.settles()
                bench.check(is_up, f"a greater one gets it, {number}: {took or -1:.1f} s")
                times = greater.count("is to hand over")
                bench.check(times <= 1 + (took or 0) // 10, f"it was announced anew each ten seconds at most: {times}")
                bench.check(lesser.count("HANDOVER to") == number, "by a handover")
                greater.end(signal.SIGKILL)
                took = until(lambda: lesser.state() == "master", 40)
                bench.check(took is not None and lesser.settles(), f"it is killed: taken back: {took or -1:.1f} s")


def with_keys(bench: Bench) -> None:
    """Checks that seats with the same SM_Key elect a master, and that a seat with another key ignores them."""
    timing = ["-s", 3, "-m", 200, "-r", 1]
    with contextlib.ExitStack() as stack:
        one = stack.enter_context(seated(bench, "H1", "-p", 5, "--sm-key", "2a", *timing))
        bench.check(one.settles(), "a seat of SM_Key 2a is master")
        other = stack.enter_context(seated(bench, "H2", "-p", 3, "--sm-key", "2a", *timing))
        took = until(lambda: other.state() == "standby", 20)
        bench.check(took is not None, f"another of this key stands by: {took or -1:.1f} s")
        before = held(bench, "keyed")
        hosts = [node for node in bench.fabric.nodes if not bench.fabric.is_switch(node)]
        stranger = stack.enter_context(seated(bench, hosts[-1], "-p", 1, "--sm-key", "2b", *timing))
        bench.check(stranger.settles(), "one of another key is master too")
        time.sleep(4)
        states = [seat.state() for seat in (one, other, stranger)]
        bench.check(states == ["master", "standby", "master"], f"neither hands over to the other: {states}")
        bench.check(held(bench, "strange") == before, "tables are as they were, since both plan alike")
        one.end(signal.SIGKILL)
        took = until(lambda: other.state() == "master", 40)
        bench.check(took is not None, f"the master is killed: the one of its key takes over: {took or -1:.1f} s")


def beside_opensm(bench: Bench) -> None:
    """Checks a seat beside OpenSM, first of higher and then of lower priority: the master is killed, and the other
    takes over."""
    timing = [*SELDOM, "-m", 300, "-r", 1]
    with opensm(bench, "H2", 8, "-R", "updn") as (process, log):
        bench.check(until(lambda: "SUBNET UP" in log()) is not None, "OpenSM, priority 8, is master")
        bench.record("-q", "-g", 1, "-T", "theirs", "theirs.reports")
        before = (bench.path / "theirs").read_text()
        with seated(bench, "H1", "-p", 5, *timing) as seat:
            bench.check(until(lambda: "STANDBY" in seat.said()) is not None, "a seat of priority 5 stands by")
            time.sleep(2)
            bench.record("-q", "-g", 1, "-T", "still", "still.reports")
            bench.check(bench.same("theirs", "still") and manager(bench)[1:] == (8, 3), "tables are OpenSM's")
            process.kill()
            process.wait()
            took = until(lambda: "SUBNET UP" in seat.said())
            bench.check(took is not None and seat.settles(), f"OpenSM is killed: taken over after {took or -1:.1f} s")
            bench.check(lids(held(bench, "ours")) == lids(before), "LIDs stay")
    with seated(bench, "H1", "-p", 5, *timing) as seat:
        bench.check(seat.settles(), "the seat is master")
        before = held(bench, "master")
        with opensm(bench, "H2", 3) as (process, log):
            bench.check(until(lambda: "Entering STANDBY" in log()) is not None, "OpenSM, priority 3, stands by")
            time.sleep(2)
            bench.check(held(bench, "beside") == before and manager(bench)[1:] == (5, 3), "tables are the seat's")
            seat.end(signal.SIGKILL)
            bench.check(until(lambda: "SUBNET UP" in log()) is not None, "the seat is killed: OpenSM takes over")
            bench.record("-q", "-g", 1, "-T", "theirs", "theirs.reports", seat="H2")
            bench.check(lids((bench.path / "theirs").read_text()) == lids(before), "LIDs stay")


def handovers(bench: Bench) -> None:
    """Checks that a seat and OpenSM hand the subnet over to each other, and that one of them is then master."""
    timing = ["-s", 3, "-m", 300, "-r", 1]
    with opensm(bench, "H2", 3, "-R", "updn") as (process, log):
        bench.check(until(lambda: "SUBNET UP" in log()) is not None, "OpenSM, priority 3, is master")
        bench.record("-q", "-g", 1, "-T", "theirs", "theirs.reports")
        before = (bench.path / "theirs").read_text()
        with seated(bench, "H1", "-p", 8, *timing) as seat:
            took = until(lambda: "SUBNET UP" in seat.said(), 40)
            is_up = took is not None and seat.settles()
            bench.check(is_up, f"it hands over to a seat of priority 8: {took or -1:.1f} s")
            bench.check(until(lambda: "Entering STANDBY" in log(), 20) is not None, "OpenSM stands by")
            bench.check(lids(held(bench, "ours")) == lids(before), "LIDs stay")
            time.sleep(4)
            bench.check(manager(bench)[1:] == (8, 3) and seat.status()["state"] == "master", "one is master")
    with seated(bench, "H1", "-p", 5, *timing) as seat:
        bench.check(seat.settles(), "a seat of priority 5 is master")
        before = held(bench, "master")
        with opensm(bench, "H2", 8, "-R", "updn") as (process, log):
            took = until(lambda: "STANDBY" in seat.said(), 40)
            bench.check(took is not None, f"it hands over to OpenSM, priority 8: {took or -1:.1f} s")
            bench.check(until(lambda: "Entering MASTER" in log(), 20) is not None, "OpenSM is master")
            time.sleep(4)
            bench.check(seat.status()["state"] == "standby", "the seat stands by")
            process.kill()
            process.wait()
            took = until(lambda: seat.count("SUBNET UP") > 1, 40)
            bench.check(took is not None and seat.settles(), f"OpenSM is killed: taken back after {took or -1:.1f} s")
            bench.check(lids(held(bench, "back")) == lids(before), "LIDs stay")


def both_at_once(bench: Bench, ours: int, theirs: int) -> None:
    """Checks that one is master and the other stands by if a seat and OpenSM are started at the same moment."""
    with contextlib.ExitStack() as stack:
        _, log = stack.enter_context(opensm(bench, "H2", theirs, "-R", "updn"))
        seat = stack.enter_context(seated(bench, "H1", "-p", ours, "-s", 3, "-m", 300, "-r", 1))
        wins = ours > theirs
        said, told = ("SUBNET UP", "Entering STANDBY") if wins else ("STANDBY", "SUBNET UP")
        took = until(lambda: said in seat.said() and told in log(), 40)
        bench.check(took is not None, f"a seat of priority {ours} and OpenSM of {theirs} at once: {took or -1:.1f} s")
        time.sleep(3)
        bench.check(manager(bench)[1:] == (max(ours, theirs), 3), "the greater one is master")
        bench.check(seat.status()["state"] == ("master" if wins else "standby"), "as the seat sees it")


def above_at_once(bench: Bench) -> None:
    """Checks a seat of greater priority than OpenSM's."""
    both_at_once(bench, 5, 3)


def below_at_once(bench: Bench) -> None:
    """Checks a seat of lesser priority than OpenSM's."""
    both_at_once(bench, 3, 5)


def seat_up(bench: Bench, is_last: bool) -> float:
    """Returns the seconds from a seat's start to its SUBNET UP, and, the last time, checks what is then held."""
    began = time.monotonic()
    with seated(bench, "H1", "-p", 5) as seat:
        until(lambda: "SUBNET UP" in seat.said(), LONG)
        took = time.monotonic() - began
        bench.check(seat.settles(LONG), f"seat: SUBNET UP after {took:.2f} s")
        told = seat.status()["packets"]
        bench.check(told["given_up"] == 0, f"packets sent: {told['sent']}, of these again {told['sent_again']}")
        if is_last:
            held(bench, "up")
            bench.check(manager(bench) == (port_guid(bench, "H1"), 5, 3), f"sminfo: {manager(bench)}")
            some_ways(bench, "up")
    return took


def opensm_up(bench: Bench) -> float:
    """Returns the seconds from OpenSM's start to its SUBNET UP."""
    began = time.monotonic()
    with opensm(bench, "H1", 8, "-R", "updn") as (_, log):
        is_up = until(lambda: "SUBNET UP" in log(), LONG) is not None
        took = time.monotonic() - began
        bench.check(is_up, f"OpenSM, updn: SUBNET UP after {took:.2f} s")
    return took


def side_by_side(bench: Bench, name: str, make: Callable[[], sample_fabrics.Fabric], times: int) -> None:
    """Checks that a seat brings a subnet up in no more time than OpenSM. Both take turns, and the shortest of several
    times of each counts."""
    print(f"== {name}", flush=True)
    fabric, ours, theirs = make(), [], []
    for number in range(1, times + 1):
        with bench.simulated(fabric, f"{name}, OpenSM, {number}"):
            theirs.append(opensm_up(bench))
        with bench.simulated(fabric, f"{name}, seat, {number}"):
            ours.append(seat_up(bench, number == times))
    texts = [", ".join(f"{seconds:.2f}" for seconds in taken) for taken in (ours, theirs)]
    bench.check(min(ours) <= min(theirs), f"seconds of the seat: {texts[0]}; of OpenSM: {texts[1]}")
    bench.figures.append(f"{name}: seat {texts[0]} s; OpenSM {texts[1]} s; load {os.getloadavg()[0]:.1f}")


# What is brought up side by side with OpenSM, how often, and whether also if ONLY does not ask for it.
TIMED = (
    ("bring-up of 320 switches and 640 adapters, by seat", lambda: sample_fabrics.fat_tree(16, 5), 3, True),
    ("bring-up of 1,280 switches and 8,192 adapters", lambda: sample_fabrics.fat_tree(32, 16), 1, False),
)
# The fabrics, and the checks tried on each.
SEATED = (
    ("triangle", sample_fabrics.triangle, (dry_run, wrong_usage, brought_up, two_seats)),
    # It has its own fabric: ibsim has room for ten clients, and keeps for some time those that have ended.
    ("a triangle with programs", sample_fabrics.triangle, (own_program,)),
    ("another triangle", sample_fabrics.triangle, (faithful, bent)),
    ("a third triangle", sample_fabrics.triangle, (images,)),
    ("a ring of 6 switches", lambda: sample_fabrics.ring(6), (by_options,)),
    ("a torus of 9 switches with hosts that ask", lambda: sample_fabrics.torus(3, 3), (hosts_refused,)),
    (
        "a torus of 9 switches",
        lambda: sample_fabrics.torus(3, 3),
        (brought_up, cable, losses, two_seats, killed_while_it_writes, without_a_master),
    ),
    ("a torus of 9 switches, seats among themselves", lambda: sample_fabrics.torus(3, 3),
     (equal_priorities, announced_again, with_keys)),
    ("a torus of 9 switches beside OpenSM", lambda: sample_fabrics.torus(3, 3), (beside_opensm, handovers)),
    # Each has its own fabric: ibsim clears a port's IsSM late, when it finds that an earlier process there is dead.
    ("a torus beside a lesser OpenSM", lambda: sample_fabrics.torus(3, 3), (above_at_once,)),
    ("a torus beside a greater OpenSM", lambda: sample_fabrics.torus(3, 3), (below_at_once,)),
)
