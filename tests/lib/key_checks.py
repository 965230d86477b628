"""What is checked of management keys (M_Keys): files of keys without a fabric, and over ibsim the bytes of packets,
each of which has the key of the port that it goes to. ibsim takes any key."""
from __future__ import annotations

import contextlib
import os
import pathlib
import subprocess
from collections.abc import Iterator

import live_checks
import sample_fabrics
from bench import Bench
from sample_fabrics import Port
from seat_checks import SELDOM, between_switches, held, packets_of, seated, until
from tool_room import Room

# The key of ports without a key of their own.
OF_ALL = 0x1122334455667788
GET, SET, REPRESS, RESPONSE = 1, 2, 7, 0x80
ROUTED, DIRECTED = 1, 0x81
NODE_INFO, PORT_INFO = b"\0\x11", b"\0\x15"
# Texts of files of keys that are refused, and what is said of each.
REFUSED = {
    "": "has no line 0xGUID 0xKEY",
    "# 0x1 0x2\n\n": "has no line 0xGUID 0xKEY",
    "0x1\n": "line 1 is not 0xGUID 0xKEY",
    "\n0x1 2\n": "line 2 is not 0xGUID 0xKEY",
    "1 0x2\n": "line 1 is not 0xGUID 0xKEY",
    "0x1 0x\n": "line 1 is not 0xGUID 0xKEY",
    "0x 0x1\n": "line 1 is not 0xGUID 0xKEY",
    "0x1 0xg\n": "line 1 is not 0xGUID 0xKEY",
    "0x1 0x2 0x3\n": "line 1 is not 0xGUID 0xKEY",
    "0x10x2\n": "line 1 is not 0xGUID 0xKEY",
    "0x1 -0x2\n": "line 1 is not 0xGUID 0xKEY",
    "0x1 0x12345678123456780\n": "line 1 is not 0xGUID 0xKEY",
    "0x12345678123456780 0x1\n": "line 1 is not 0xGUID 0xKEY",
    "0x0 0x1\n": "line 1: no port has GUID 0",
    "0x1 0x2\n0x3 0x4\n0x01 0x2\n": "GUID 0x0000000000000001 is in line 1 and in line 3",
    f"0x1 0x2{' ' * 300}\n": "line 1 is too long",
    "0x1 0x2\0\n0x3 0x4\n": "line 1 is too long, or no text",
}
TAKEN = "# keys\n\n0x1 0x2\r\n\t 0X00000000000000aB\t0xffffffffffffffff \n\n0x3 0x0"


def files(room: Room, folder: pathlib.Path) -> None:
    """Checks that each tool in C refuses files of keys with faults, before it looks for a port, and takes others."""
    path = room.path / "m.keys"
    for tool, rest in (("record", ["x.reports"]), ("send", ["x.tables"]), ("seat", [])):

        def end(*words: object) -> tuple[int, str]:
            run = subprocess.run([str(it) for it in (folder / tool, *words, *rest)], capture_output=True, text=True)
            return run.returncode, run.stderr

        for text, why in REFUSED.items():
            path.write_text(text)
            status, said = end("--m-keys", path)
            room.check(status == 2 and said.startswith(f"{tool}: {path}") and why in said, f"{text!r}: {said}")
        for name, why in (("nowhere", "No such file or directory"), (room.path, "Is a directory")):
            status, said = end("--m-keys", name)
            room.check(status == 2 and said == f"{tool}: cannot read {name}: {why}\n", f"{name}: {said}")
        for key in ("x", "", "-1", "0x10000000000000000", "1 "):
            status, said = end("--m-key", key)
            room.check(status == 2 and "--m-key takes a number" in said, f"--m-key {key!r}: {said}")
        path.write_text(TAKEN)
        status, said = end("--m-keys", path, "--m-key", "0xffffffffffffffff")
        room.check(status in (3, 4) and "keys" not in said, f"keys that are taken: {status} {said}")


def port_guid(fabric: sample_fabrics.Fabric, end: Port) -> int:
    """Returns the GUID of the end port that answers at a port: of a switch that of port 0."""
    name, port = end
    return fabric.guid(name) + (0 if fabric.is_switch(name) else port)


class Keys:
    """Keys of all end ports but each third, and what packets carry."""

    def __init__(self, bench: Bench) -> None:
        self.fabric = bench.fabric
        guids = sorted(port_guid(self.fabric, end) for end in self.fabric.ends())
        self.own = {guid: 0xABC0000000000000 + guid for place, guid in enumerate(guids) if place % 3}
        lines = [f"0x{guid:016x} 0x{key:016x}\n\n" for guid, key in self.own.items()]
        (bench.path / "guid2mkey").write_text("".join(reversed(lines)))
        self.words = "--m-key", hex(OF_ALL), "--m-keys", "guid2mkey"
        self.reached, self.by_lid, self.counts = set(), {}, {"own": 0, "all": 0, "by LID": 0, "repressed": 0}

    def at(self, path: bytes, host: str) -> int:
        """Returns the GUID of the end port that a path reaches from an adapter's port 1."""
        end = host, 1
        for number, port in enumerate(path):
            end = self.fabric.peers[end[0], port if number else 1]
        return port_guid(self.fabric, end)

    def is_right(self, packet: bytes, host: str) -> bool:
        """Returns whether a packet that goes out has its key. NodeInfo tells which port a path reaches; until then the
        key of all is in it."""
        path = packet[129 : 129 + packet[7]]
        if packet[1] == DIRECTED:
            guid = self.at(path, host) if path in self.reached else None
        else:
            guid = self.by_lid.get(self.lid)
        wanted = self.own.get(guid, OF_ALL)
        self.counts["own" if guid in self.own else "all"] += 1
        self.counts["by LID"] += packet[1] == ROUTED
        self.counts["repressed"] += packet[3] == REPRESS
        return int.from_bytes(packet[24:32], "big") == wanted

    def learn(self, packet: bytes, host: str) -> None:
        """Notes what an answer tells: a port is reached, or has a LID."""
        if packet[1] != DIRECTED or packet[3] != RESPONSE | GET:
            return
        path = packet[129 : 129 + packet[7]]
        if packet[16:18] == NODE_INFO:
            self.reached.add(path)
        lid = int.from_bytes(packet[80:82], "big")
        if packet[16:18] == PORT_INFO and lid:
            self.by_lid[lid] = self.at(path, host)

    def wrong(self, log: pathlib.Path, host: str, lids: Iterator[int] = iter(())) -> list[str]:
        """Returns the requests and TrapRepresses of a log of packets without their keys. `lids` are those that packets
        by LIDs go to."""
        found = []
        for line in log.read_text().splitlines():
            word, digits = line.split()
            packet = bytes.fromhex(digits)
            if word == "in":
                self.learn(packet, host)
            elif packet[1] in (ROUTED, DIRECTED) and packet[3] in (GET, SET, REPRESS):
                self.lid = next(lids, 0) if packet[1] == ROUTED else 0
                if not self.is_right(packet, host):
                    found.append(digits[:136])
        return found


@contextlib.contextmanager
def kept_packets(path: pathlib.Path) -> Iterator[None]:
    """Has tools that run with the library that bends replies keep their packets."""
    os.environ["PACKETS"] = str(path)
    try:
        yield
    finally:
        del os.environ["PACKETS"]


def recorded_and_sent(bench: Bench) -> None:
    """Checks the keys in what record and send ask and set."""
    bench.record("-q", "-g", 1, "plain.reports")
    bench.texts("plain")
    for number in 1, 2:
        keys, log = Keys(bench), bench.path / f"record{number}.packets"
        with kept_packets(log):
            words = ["-q", "-g", 1, *keys.words, "-T", "keyed", "-N", "map", "-L", "lanes"]
            bench.check(bench.record(*words, "keyed.reports", bend="keep") == 0, "record with keys: status 0")
        wrong = keys.wrong(log, "H1")
        bench.check(not wrong and min(keys.counts["own"], keys.counts["all"]) > 20, f"{keys.counts}, wrong {wrong[:1]}")
        if number == 1:
            bench.texts("keyed")
            bench.check(bench.same("keyed.facts", "plain.facts"), "the facts are the same")
            keys, log = Keys(bench), bench.path / "send.packets"
            with kept_packets(log):
                status = live_checks.send(bench, *keys.words, "plain.plan", bend="keep")
                bench.check(status == 0, f"send with keys: {bench.said.strip()}")
            wrong = keys.wrong(log, "H1")
            sets = sum(packet[3] == SET for packet in packets_of(log, "out"))
            bench.check(not wrong and sets > 20, f"of these {sets} Sets: {keys.counts}, wrong {wrong[:1]}")
    bench.check(bench.same("keyed", "plain.plan"), "the fabric holds the plan")


def lids_of_packets(printed: pathlib.Path) -> Iterator[int]:
    """Yields the LIDs to which the packets by LIDs that a program printed go."""
    for line in printed.read_text().splitlines():
        words = line.split()
        if words[:1] == ["send"] and "to" in words:
            yield int(words[3])


def seat_with_keys(bench: Bench) -> None:
    """Checks the keys in what a seat asks, sets and represses, and in its polls of another one."""
    script = bench.path / "kept"
    script.write_text(f'#!/bin/sh\n{bench.program} "$@" | tee -a kept.printed\n')
    script.chmod(0o755)
    keys, log = Keys(bench), bench.path / "seat.packets"
    with seated(bench, "H1", "-p", 5, *SELDOM, *keys.words, program=script, packets="seat.packets") as seat:
        bench.check(seat.settles(), "a seat with keys: SUBNET UP")
        (name, port), _ = between_switches(bench)
        bench.tell(f'Unlink "{name}"[{port}]')
        bench.check(until(lambda: seat.count("SUBNET UP") == 2) is not None, "a cable is cut: it writes again")
        bench.check(seat.settles(), "and sweeps once more")
        held(bench, "keyed.held")
        with seated(bench, "H2", "-p", 8, "-m", 200, *keys.words) as other:
            bench.check(until(lambda: seat.state() == "standby", 40) is not None, "it hands over to another one")
            until(lambda: other.settles(), 10)
            time_to_poll = seat.status()["packets"]["sent"]
            until(lambda: seat.status()["packets"]["sent"] > time_to_poll + 1, 3)
            seat.end()
    wrong = keys.wrong(log, "H1", lids_of_packets(bench.path / "kept.printed"))
    bench.check(not wrong, f"each packet has its key: {keys.counts}, wrong {wrong[:1]}")
    bench.check(min(keys.counts.values()) > 0, "of each kind there are some")
    infos = [packet for packet in packets_of(log, "out") if packet[3] == SET and packet[16:18] == PORT_INFO]
    bench.check(infos and not any(any(it[64:72]) for it in infos), "no key is set at a port that had none")


SENT = (("a torus of 9 switches with keys", lambda: sample_fabrics.torus(3, 3), (recorded_and_sent,)),)
SEATED = (("a torus of 9 switches with keys", lambda: sample_fabrics.torus(3, 3), (seat_with_keys,)),)
