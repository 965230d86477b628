"""What `tests/test-lanes --ibsim` checks: OpenSM's engines that need lanes, over ibsim, and what record, from-dumps,
the rule of lane_rule.py and ibdmchk say of them."""
from __future__ import annotations

import pathlib
import re
import subprocess
import sys
from collections.abc import Callable

import paths
import sample_fabrics as make
import lane_cases
from bench import Bench, text
from ibsm_texts import End, Facts
from lane_rule import LEVELS, NO_LEVEL, Judged, Lanes, Rule
from next_rule import Tables

# The corner and the beginnings of both dimensions, by GUIDs.
TORUS = "torus 4 4 1\nxp_link 0x10 0x20\nxm_link 0x10 0x40\nyp_link 0x10 0x50\nym_link 0x10 0xd0\n"
ODD = "torus 5 5 1\nxp_link 0x10 0x20\nyp_link 0x10 0x60\n"
MESH = "mesh 4 4 1\nxp_link 0x10 0x20\nyp_link 0x10 0x50\n"
# Fabrics, and the texts that describe them to torus-2QoS.
FABRICS = {
    "a torus of 4 x 4": (lambda: make.torus(4, 4), TORUS),
    "a torus of 5 x 5": (lambda: make.torus(5, 5), ODD),
    "a mesh of 4 x 4": (lambda: make.mesh(4, 4), MESH),
    "a dragonfly of 4 groups": (lambda: make.dragonfly(4, 3, 2), ""),
    "a random fabric of 16 switches": (lambda: make.random_fabric(16, 4, 24), ""),
}
ENGINES = {
    "dfsssp": ("dfsssp,no_fallback", "-Q"),
    "lash": ("lash,no_fallback", "-Q"),
    "nue on 2 lanes": ("nue,no_fallback", "-Q", "--nue_max_num_vls", "2"),
    "torus-2QoS": ("torus-2QoS,no_fallback", "-Q", "--torus_config", "torus.conf"),
}
ONE_LANE = f"lanes {'00' * LEVELS}\nlevel 0\n"
NEEDED = "cc", "make", "ibsim", "opensm", "ibdmchk"
VERDICT = re.compile(r"Found credit loop|no credit loops found")


class Read:
    """What was recorded of a fabric: its facts, its tables and the text of lanes."""

    def __init__(self, path: pathlib.Path) -> None:
        self.facts = Facts(path / "a.facts")
        self.tables, self.text = Tables(text(path / "held")), text(path / "lanes")
        self.said = Lanes(self.text)
        self.owners = {lid: ends[0] for lid, ends in sorted(self.tables.owners().items())}

    def judged(self, lanes: str, with_answers: bool = False) -> Judged:
        """Returns what the rule finds by a text on lanes."""
        return Rule(self.facts, self.tables, Lanes(lanes)).judge(with_answers)

    def between(self, counts: Callable[[End, End], bool]) -> str:
        """Returns the text on lanes in which only packets between ends that count have a level."""
        maps = [line for line in self.text.splitlines() if not line.startswith("level")]

        def level_of(end: End, lid: int) -> int:
            is_counted = lid in self.owners and counts(end, self.owners[lid])
            level = self.said.level_of(end, lid) if is_counted else None
            return NO_LEVEL if level is None else level

        levels = lane_cases.level_lines(self.facts.port_guids, max(self.owners), level_of)
        return "".join(f"{line}\n" for line in [*maps, *levels])

    def for_ibdmchk(self) -> str:
        """Returns the levels as ibdmchk reads them."""
        return "".join(
            f"0x{guid:016x} {lid} {self.said.level_of((guid, port), lid)}\n"
            for guid, port in self.facts.port_guids for lid in self.owners
        )


def is_between_adapters(end: End, far: End) -> bool:
    """Returns whether both ends are ports of adapters, by their numbers."""
    return end[1] > 0 and far[1] > 0


def recorded(bench: Bench) -> Read | None:
    """Records the fabric, its tables and lanes, and checks these against what OpenSM dumped."""
    status = bench.record("-g", 1, "-T", "held", "-L", "lanes", "-S", "a.reports")
    bench.figure("with tables, lanes and levels")
    bench.check(status == 0, f"record --lanes --levels: {bench.said.strip()}")
    if status:
        return None
    bench.run(bench.program, "facts", "a.reports")
    (bench.path / "a.facts").write_text(bench.printed)
    read = Read(bench.path)
    words = ["d/opensm-subnet.lst", "d/opensm-sl2vl.dump", "--cap", str(make.ROOM), "--lanes", "dumped"]
    how = {"cwd": bench.path, "stdout": subprocess.DEVNULL, "stderr": subprocess.PIPE, "text": True}
    ended = subprocess.run([sys.executable, paths.TOOLS / "from-dumps", *words, "--level", "0"], **how)
    dumped = Lanes(text(bench.path / "dumped"))
    switches = [guid for guid in read.facts.nodes if read.facts.is_switch(guid)]
    ports = {guid: [port for near, port in read.facts.links if near == guid] for guid in switches}
    same = all(
        read.said.lane(guid, into, out, level) == dumped.lane(guid, into, out, level)
        for guid in switches for into in (0, *ports[guid]) for out in ports[guid] for level in range(LEVELS)
    )
    bench.check(ended.returncode == 0 and same, f"OpenSM's dump has these maps: {ended.stderr.splitlines()[-1:]}")
    return read


def as_ibdmchk_says(bench: Bench, read: Read, found: dict[str, bool]) -> None:
    """Checks against ibdmchk, an independent program, whether there is a loop: between adapters, and among all ends."""
    (bench.path / "psl").write_text(read.for_ibdmchk())
    files = ["-s", "d/opensm-subnet.lst", "-f", "d/opensm.fdbs", "-m", "d/opensm.mcfdbs"]
    for words, pairs in ((["-a"], "all"), ([], "between adapters")):
        # ibdmchk says what it found, and then often ends with a segmentation fault.
        bench.run("ibdmchk", *words, *files, "-c", "psl", "-d", "d/opensm-sl2vl.dump")
        told = set(VERDICT.findall(bench.printed))
        wanted = {"Found credit loop" if found[pairs] else "no credit loops found"}
        bench.check(told == wanted, f"ibdmchk, {pairs}: {', '.join(told)}")


def as_the_program_says(bench: Bench, loops: dict[str, bool], lanes: dict[str, str]) -> None:
    """Checks the lines of the program's audits on credit loops, if it audits by lane."""
    bench.run(bench.program, "audit", "--help")
    if "--lanes" not in bench.printed:
        print("     the program does not audit by lane")
        return
    for name, lines in lanes.items():
        (bench.path / "those").write_text(lines)
        status = bench.run(bench.program, "audit", "--lanes", "those", "held", "a.reports")
        word = "answers " if name.endswith("answers") else ""
        wanted = f"{word}credit loop {'by lane ' if loops[name] else 'none'}"
        told = [line for line in bench.printed.splitlines() if line.startswith(f"{word}credit loop ")]
        is_told = len(told) == 1 and told[0].startswith(wanted)
        bench.check(is_told, f"audit, {name}: status {status}, {' '.join(told)[:100]}")


def judge(bench: Bench, name: str) -> None:
    """Checks the lanes of a fabric that OpenSM routes, and prints what they do."""
    read = recorded(bench)
    if read is None:
        return
    adapters = read.between(is_between_adapters)
    lanes = {"one lane": ONE_LANE, "all": read.text, "between adapters": adapters}
    lanes |= {f"{pairs}, with answers": lanes[pairs] for pairs in ("all", "between adapters")}
    found = {pairs: read.judged(lines, pairs.endswith("answers")) for pairs, lines in lanes.items()}
    used = {channel[2] for channel in found["all"].after}
    asked = [(end, lid) for end in read.facts.port_guids for lid in read.owners if read.owners[lid] != end]
    first = {end: lid for lid, end in reversed(read.owners.items())}
    alike = sum(read.said.level_of(*pair) == read.said.level_of(read.owners[pair[1]], first[pair[0]]) for pair in asked)
    loops = ", ".join(f"{pairs}: {it.loop or 'none'}" for pairs, it in found.items())
    both = f"{alike} of {len(asked)} pairs have one level both ways"
    bench.figures.append(f"{name}: {len(used)} lanes; {both}; loops: {loops}")
    print(f"     {bench.figures[-1]}")
    bench.check(not found["all"].without and not found["all"].drops, "each pair has a level, and no packet is dropped")
    bench.check(not found["between adapters"].loop, "no loop between adapters, each by the level of its own direction")
    bench.record("-q", "-g", 1, "-L", "few", "-S", "-A", "b.reports")
    few = Lanes(text(bench.path / "few"))
    told = [(end, lid) for end, lid in asked if few.level_of(end, lid) is not None]
    wanted = [(end, lid) for end, lid in asked if is_between_adapters(end, read.owners[lid])]
    bench.check(told == wanted and few.level is None, f"record --adapters: {len(told)} pairs have a level")
    as_ibdmchk_says(bench, read, {pairs: bool(it.loop) for pairs, it in found.items()})
    as_the_program_says(bench, {pairs: bool(it.loop) for pairs, it in found.items()}, lanes)


def refused(bench: Bench) -> None:
    """Checks recordings of lanes that end without a file, and replies that are not as they should be."""
    bench.check(bench.record("-S", "x.reports") == 2, "--levels without --lanes: status 2")
    bench.check(bench.record("-L", "x", "-A", "x.reports") == 2, "--adapters without --levels: status 2")
    for words in (("-L", "x.reports"), ("-L", "x", "-T", "x"), ("-L", "x", "-N", "x")):
        bench.check(bench.record(*words, "x.reports") == 2 and "cannot be one file" in bench.said, f"{words}: status 2")
    status = bench.record("-q", "-L", "x", "-S", "x.reports")
    bench.check(status == 4 and "no port has a LID" in bench.said, "levels in a fabric without LIDs: status 4")
    bench.check(not list(bench.path.glob("x*")), "none of these leaves a file")
    bench.check(bench.record("-q", "-L", "plain", "x.reports") == 0, "lanes need no manager: status 0")
    bench.check(bench.record("-q", "-L", "x", "x.reports", bend="lanes") == 1, "maps that are refused: status 1")
    refusal = re.search(r"SLtoVLMappingTable from port \d to port 2 of node \w+: left out: Status 0x001c", bench.said)
    is_there = (bench.path / "x").exists()
    bench.check(refusal and "x is not written" in bench.said and not is_there, "they are named")
    bench.check(bench.record("-q", "-p", "-L", "x", "x.reports", bend="lanes") == 1, "with --partial: status 1")
    plain, some = Lanes(text(bench.path / "plain")), Lanes(text(bench.path / "x"))
    ports = cabled(bench)
    apart = [
        some.lane(guid, 0, port, level) == (15 if port == 2 else plain.lane(guid, 0, port, level))
        for guid, port in ports for level in range(LEVELS)
    ]
    bench.check(apart != [] and all(apart), "by that text packets are dropped there alone")
    bench.check(bench.record("-q", "-L", "x", "x.reports", bend="narrow") == 0, "ports with two lanes: status 0")
    some = Lanes(text(bench.path / "x"))
    two = [
        some.lane(guid, 0, port, level) == (level if level < 2 else 15)
        for guid, port in ports if port == 2 for level in range(LEVELS)
    ]
    bench.check(two != [] and all(two), "what they do not carry is lane 15")
    bench.check(bench.record("-q", "-L", "x", "x.reports", bend="single") == 0, "ports with a single lane: status 0")
    some = Lanes(text(bench.path / "x"))
    one = [some.lane(guid, 0, port, level) == 0 for guid, port in ports if port == 2 for level in range(LEVELS)]
    bench.check(one != [] and all(one), "all levels have lane 0 there")


def cabled(bench: Bench) -> list[End]:
    """Returns the ports of switches that have a cable."""
    return [(bench.fabric.guid(name), port) for name, port in bench.fabric.peers if bench.fabric.is_switch(name)]


def try_all(bench: Bench) -> None:
    """Tries each engine on each fabric, and then what is refused."""
    for fabric, (made, conf) in FABRICS.items():
        for engine, words in ENGINES.items():
            if "torus.conf" in words and not conf:
                continue
            name = f"{engine} on {fabric}"
            print(f"== {name}", flush=True)
            with bench.simulated(made(), name):
                (bench.path / "torus.conf").write_text(conf)
                with bench.opensm(*words):
                    judge(bench, name)
    print("== a triangle", flush=True)
    with bench.simulated(make.triangle(), "triangle"):
        refused(bench)
