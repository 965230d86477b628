"""How the cost of commands grows, for `tests/at-scale`: each runs at a size and at twice that size, and its
instructions are counted. `valgrind` counts them if the machine has it, else `perf`. If it has neither, the least
processor time of some runs is taken, and twice as much is allowed; bounds on instructions are then left out. If
`valgrind` is there and does not work, that is a failure: nobody is to believe that instructions were bounded."""
from __future__ import annotations

import collections
import concurrent.futures
import contextlib
import itertools
import os
import pathlib
import re
import shutil
import subprocess
from collections.abc import Callable, Iterable, Iterator, Sequence

import function_costs
import measured_options
import paths
import record_files as make
import sample_fabrics
import served_lines
from built_program import ENTRIES
from noted_costs import ALLOCATIONS, INSTRUCTIONS, Noted
from scale import Fabric, Tree, chain, check

# What twice the size may cost: two times as much for linear cost, four times for quadratic, and a third more for
# logarithmic parts.
LINEAR, SQUARED = 2 * 4 / 3, 4 * 4 / 3
# How many times as much a fabric of four times the size may cost, if the cost grows by the logarithm at most.
STAYS = 3 / 2
# How many times a run is timed if instructions cannot be counted, and the slack allowed then.
TIMES, SLACK = 5, 2
# Less processor time than this says nothing, in microseconds.
LEAST = 20000
SPREAD = "--routing", "spread"
# The GUID of a switch without wires.
LONE = 0x8000
# The words after `ibsm` on a command line. Behind the word `<` is the file that is standard input.
Words = tuple[str, ...]


# Counting --------------------------------------------------------------------------------------------


Command = Sequence[str | os.PathLike[str]]


@contextlib.contextmanager
def begun(command: Command, folder: pathlib.Path, env: dict[str, str] | None = None) -> Iterator[subprocess.Popen]:
    """Starts a command without output. Its last two words may be `<` and the name of its standard input."""
    command, given = (command[:-2], folder / command[-1]) if "<" in command else (command, os.devnull)
    with open(given, "rb") as stdin:
        yield subprocess.Popen(
            command, cwd=folder, env=env, stdin=stdin, stdout=subprocess.DEVNULL, stderr=subprocess.DEVNULL
        )


def ran(command: Command, folder: pathlib.Path, env: dict[str, str] | None = None) -> int:
    """Runs a command without output, and returns its exit status."""
    with begun(command, folder, env) as process:
        return process.wait()


class Perf:
    """Instructions, by the processor's own counter."""

    name, is_exact = "perf", True

    def __init__(self, program: pathlib.Path, folder: pathlib.Path) -> None:
        self.program, self.folder = program, folder

    def cost(self, words: Iterable[str], log: pathlib.Path) -> tuple[int, int | None]:
        status = ran(["perf", "stat", "-x,", "-e", "instructions:u", "-o", log, self.program, *words], self.folder)
        found = re.search(r"^(\d+),", log.read_text(), re.M) if log.exists() else None
        return status, int(found[1]) if found else None


class Valgrind:
    """Instructions, by a simulated processor. The program is stripped, since valgrind may fail to read its debug
    information; functions are counted in one that keeps their names."""

    name, is_exact = "valgrind", True

    def __init__(self, program: pathlib.Path, folder: pathlib.Path) -> None:
        self.program, self.named, self.folder = folder / "stripped", folder / "named", folder
        subprocess.run(["strip", "-o", self.program, program], check=True)
        subprocess.run(["strip", "-g", "-o", self.named, program], check=True)

    def cost(self, words: Iterable[str], log: pathlib.Path) -> tuple[int, int | None]:
        tool = [
            "valgrind", "--tool=cachegrind", "--cache-sim=no", "--cachegrind-out-file=/dev/null", f"--log-file={log}"
        ]
        status = ran([*tool, self.program, *words], self.folder)
        found = re.search(r"I\s+refs:\s+([\d,]+)", log.read_text()) if log.exists() else None
        return status, int(found[1].replace(",", "")) if found else None

    def profile(self, words: Iterable[str], log: pathlib.Path) -> str:
        """Returns what callgrind writes of a run, with whole names."""
        tool = [
            "valgrind", "--tool=callgrind", "--dump-line=no", "--compress-strings=no", "--compress-pos=no",
            f"--callgrind-out-file={log}", "--log-file=/dev/null",
        ]
        ran([*tool, self.named, *words], self.folder)
        return log.read_text()


class Clock:
    """Microseconds of processor time, the least of several runs."""

    name, is_exact = "processor time", False

    def __init__(self, program: pathlib.Path, folder: pathlib.Path) -> None:
        self.program, self.folder = program, folder

    def cost(self, words: Iterable[str], log: pathlib.Path) -> tuple[int, int]:
        del log
        costs = []
        for _ in range(TIMES):
            with begun([self.program, *words], self.folder) as process:
                _, status, used = os.wait4(process.pid, 0)
                process.returncode = os.waitstatus_to_exitcode(status)
            costs.append(int(1e6 * (used.ru_utime + used.ru_stime)))
        return process.returncode, min(costs)


class Costs:
    """What runs cost beyond starting the program. Each run is made once."""

    def __init__(self, program: pathlib.Path, folder: pathlib.Path) -> None:
        self.program, self.folder, self.numbers, self.known, self.files = program, folder, itertools.count(1), {}, set()
        for kind in Valgrind, Perf, Clock:
            log = self.log()
            try:
                self.counter = kind(program, folder)
                status, self.start = self.counter.cost(["--version"], log)
                fault = f"status {status}"
            except (FileNotFoundError, subprocess.CalledProcessError) as it:
                self.start, status, fault = None, None, it
            if status == 0 and self.start is not None:
                return
            if kind is Valgrind and shutil.which("valgrind"):
                said = log.read_text(errors="replace").splitlines() if log.exists() else []
                check(False, f"valgrind is there and does not work: {fault}{f', {said[-1]}' if said else ''}")

    def log(self) -> pathlib.Path:
        return self.folder / f"cost{next(self.numbers)}"

    def put(self, name: str, make_data: Callable[[], str | bytes]) -> str:
        """Writes a file of this name, once, and returns the name."""
        if name not in self.files:
            self.files.add(name)
            data = make_data()
            (self.folder / name).write_bytes(data.encode() if isinstance(data, str) else data)
        return name

    def measure(self, words: Words, wanted: int) -> int:
        status, cost = self.counter.cost(words, self.log())
        check(status == wanted and cost is not None, f"{' '.join(words)}: exit status {status}, cost {cost}")
        return max(1, (cost or 0) - self.start)

    def take(self, runs: Iterable[Words], ends: dict[Words, int] | None = None) -> None:
        """Measures each of `runs`, in parallel if the counter does not depend on time; `ends` has the exit statuses
        other than 0."""
        runs = [words for words in dict.fromkeys(runs) if words not in self.known]
        with concurrent.futures.ThreadPoolExecutor(os.cpu_count() if self.counter.is_exact else 1) as pool:
            self.known.update(zip(runs, pool.map(self.measure, runs, [(ends or {}).get(it, 0) for it in runs])))

    def allocations(self, runs: Iterable[Words]) -> list[int]:
        """Returns how often each run allocates memory: repeated work mostly shows as repeated allocation."""
        library, source = self.folder / "count.so", paths.ROOT / "tests/refuse/refuse.c"
        subprocess.run(["cc", "-O2", "-shared", "-fPIC", "-o", library, source, "-ldl"], check=True)

        def count(words: Words) -> int:
            told = self.log()
            env = {"LD_PRELOAD": library, "REFUSE": "alloc", "REFUSE_AT": "0", "REFUSE_COUNT": told}
            ran([self.program, *words], self.folder, env)
            return int(told.read_text())

        with concurrent.futures.ThreadPoolExecutor(os.cpu_count()) as pool:
            return list(pool.map(count, runs))

    def profiles(self, runs: Iterable[Words]) -> list[str]:
        """Returns what callgrind writes of each run."""
        with concurrent.futures.ThreadPoolExecutor(os.cpu_count()) as pool:
            return list(pool.map(lambda words: self.counter.profile(words, self.log()), runs))

    def at_most(self, cost: int, other: int, times: float, what: str, spare: int = 0) -> None:
        """Checks that a cost is at most `times` another. Processor time gets slack, and `spare` besides."""
        if not self.counter.is_exact:
            times, other = SLACK * times, max(other, LEAST) + spare
        check(cost <= times * other, f"{what}: {cost} in place of {times:.2f} times {other} by {self.counter.name}")


# What is measured ------------------------------------------------------------------------------------


def replies(costs: Costs, count: int) -> str:
    """Makes a file with replies of `count` adapters, each about itself."""
    return costs.put(f"replies{count}", lambda: make.reports(
        *(make.node_info(make.START, make.ADAPTER, 1, 16 * it, 16 * it + 1, 1) for it in range(1, count + 1))
    ))


def claims(costs: Costs, count: int, first: int = 1, floor: int = 1) -> str:
    """Returns a store file of `count` claims, of every other GUID from `first` on, under a floor."""
    return costs.put(f"claims{count}from{first}above{floor}", lambda: make.store(
        *(make.cell(make.CLAIM, guid, 1, b"\0\1", 3) for guid in range(first, first + 2 * count, 2)), floor=floor
    ))


def tree_of(switches: int, hosts: int) -> Tree:
    """Returns a tree: a switch above `switches` others, and `hosts` adapters at each other one."""
    return Tree([0] * switches, [0] + [hosts] * switches)


def known(costs: Costs, switches: int, hosts: int) -> str:
    """Returns a store file of the facts of a tree."""
    return costs.put(f"tree{switches}by{hosts}", lambda: make.store(*tree_of(switches, hosts).cells()))


def strangers(costs: Costs, count: int) -> str:
    """Makes links from `count` nodes to as many others that nothing else describes: the first leads to the last."""
    def made() -> bytes:
        return make.store_of(
            "".join(f"link {it:016x}/1 {2 * count + 1 - it:016x}/2 @1\n" for it in range(1, count + 1))
        )

    return costs.put(f"strangers{count}", made)


def planned(costs: Costs, switches: int, hosts: int, lmc: int = 0) -> str:
    """Returns a file with the plan of a tree."""
    return costs.put(f"plan{switches}by{hosts}lmc{lmc}", lambda: tree_of(switches, hosts).plan(lmc))


def mesh(costs: Costs, switches: int) -> str:
    """Makes a mesh: `switches` switches, each with an adapter and two wires up to a few others."""
    def made() -> bytes:
        fabric = Fabric(switches // 10, switches, 40, switches)
        path = costs.folder / f"replies_of_mesh{switches}"
        fabric.reports(path)
        return path.read_bytes()

    return costs.put(f"mesh{switches}", made)


def holed(costs: Costs, switches: int, hosts: int, without: int = 1) -> str:
    """Makes the tables of a tree. The last `without` switches lead nowhere."""
    def made() -> bytes:
        parts = tree_of(switches, hosts).plan().split(b"switch ")
        return b"switch ".join(
            [
                *parts[:-without],
                *(re.sub(rb"(block \d+ ).*", lambda found: found[1] + b"ff" * ENTRIES, it) for it in parts[-without:]),
            ]
        )

    return costs.put(f"holes{without}of{switches}by{hosts}", made)


def claimed(costs: Costs, hosts: int) -> str:
    """Makes the facts of a tree whose adapters' ports claim LIDs from 16,384 on."""
    def made() -> bytes:
        tree = tree_of(8, hosts)
        claimed_lids = [
            make.cell(make.CLAIM, guid, port, (16384 + at).to_bytes(2, "big"))
            for at, (guid, port, _, _) in enumerate(tree.ends)
        ]
        cells = tree.cells()
        first = next(at for at, it in enumerate(cells) if it[0] == make.CAP)
        return make.store(*cells[:first], *claimed_lids, *cells[first:])

    return costs.put(f"claimed{hosts}", made)


def apart(costs: Costs, switches: int, hosts: int) -> str:
    """Makes the facts of a tree, and of a switch without wires."""
    def made() -> bytes:
        more = (
            (make.NODE, bytes([make.SWITCH, 1])),
            (make.PORT_GUID, LONE.to_bytes(8, "big")),
            (make.CAP, (49152).to_bytes(2, "big")),
        )
        cells = [*tree_of(switches, hosts).cells(), *(make.cell(kind, LONE, 0, value) for kind, value in more)]
        return make.store(*sorted(cells, key=lambda it: (it[0], it[8:16], it[2])))

    return costs.put(f"apart{switches}by{hosts}", made)


def printed(costs: Costs, *words: str) -> str:
    """Makes a file of what the program prints."""
    return costs.put(
        "".join(words), lambda: subprocess.run([costs.program, *words], cwd=costs.folder, capture_output=True).stdout
    )


def without_one(costs: Costs, tables: str) -> str:
    """Makes tables that lack one entry of some tables: that for the greatest LID at the last switch."""
    def made() -> str:
        text = (costs.folder / tables).read_text()
        at = 2 * (int(re.findall(r"top (\d+)", text)[-1]) % ENTRIES)
        head, _, digits = text.rpartition(" ")
        return f"{head} {digits[:at]}ff{digits[at + 2 :]}"

    return costs.put(f"{tables}without_one", made)


def swept(costs: Costs, adapters: int) -> str:
    """Makes a sweep that reaches adapters at fifty switches in turn, and then all of them again."""
    def made() -> bytes:
        fabric = Fabric(2, 50, 130, adapters)
        path = costs.folder / f"replies_of_adapters{adapters}"
        fabric.reports(path)
        data = path.read_bytes()
        return data + data.removeprefix(make.NO_REPORTS)

    return costs.put(f"swept{adapters}", made)


def row(costs: Costs, switches: int, hosts: int = 0) -> str:
    """Makes a row of switches, for long routes, with adapters at each."""
    return costs.put(f"row{switches}by{hosts}", lambda: make.store(*chain(switches, hosts).cells()))


def row_planned(costs: Costs, switches: int, hosts: int) -> str:
    """Returns a file with the plan of switches in a row."""
    return costs.put(f"row_plan{switches}by{hosts}", lambda: chain(switches, hosts).plan())


def roots(costs: Costs, count: int) -> str:
    """Makes a text of the first `count` switches of a mesh."""
    return costs.put(f"roots{count}", lambda: "".join(f"0x{0x1000 + it:x}\n" for it in range(count)))


def order(costs: Costs, count: int) -> str:
    """Makes a text of all switches of a mesh, the last one first."""
    return costs.put(f"order{count}", lambda: "".join(f"0x{0x1000 + it:x}\n" for it in reversed(range(count))))


def remarks(costs: Costs, count: int) -> str:
    """Makes a text of `count` comment lines of 64 bytes."""
    return costs.put(f"remarks{count}", lambda: ("#" * 63 + "\n") * count)


def remarked(costs: Costs, count: int) -> str:
    """Makes the tables of a small tree after `count` comment lines."""
    return costs.put(f"remarked{count}", lambda: ("#" * 63 + "\n").encode() * count + tree_of(8, 10).plan())


def one_lane(costs: Costs, maps: int) -> str:
    """Makes a text on lanes by which all packets have the same level and the same lane. It has `maps` maps of switches
    that do not exist, by which that level has lane 15. If there is such a map, the program follows packets by lane."""
    lanes = "00" * 16
    said = "".join(f"sl2vl {0x8000 + it // 200:x} 1 {it % 200} 0f{lanes[2:]}\n" for it in range(maps))
    return costs.put(f"lanes{maps}", lambda: f"lanes {lanes}\nlevel 0\n{said}")


def scheduled(
    costs: Costs, hosts: int, line: str, times: int, conduct: str = "", options: Sequence[str] = ()
) -> Words:
    """Makes a run in a tree of four switches with `hosts` adapters each: manager A, which writes, standby B, and then
    `line` repeated `times` times."""
    tree = tree_of(4, hosts)
    topology = costs.put(f"topology{hosts}", tree.topology)
    seats = [
        f'manager {name} "H{guid:x}"[1] {priority}{conduct}'
        for name, guid, priority in zip("AB", tree.adapters, (2, 1))
    ]
    first = ["sweep A", "drain 1000000", "write A", "drain 1000000", "sweep B", "drain 1000000"]
    guid, port, switch, out = tree.ends[-1]
    for word, text in (
        ("LID", str(tree.lids()[1][0])),
        ("SEAT", f'"H{tree.adapters[0]:x}"[1]'),
        ("CUT", f'cut "H{guid:x}"[{port}]'),
        ("PLUG", f'plug "H{guid:x}"[{port}] "S{switch}"[{out}]'),
    ):
        line = line.replace(word, text)
    text = "".join(f"{it}\n" for it in [*seats, *first, *line.split("/") * times])
    return "run", *options, topology, costs.put(f"schedule{len(costs.files)}of{hosts}", lambda: text)


def brought_up(costs: Costs, command: str, hosts: int, line: str, times: int, options: Sequence[str]) -> Words:
    """Makes the lines for a manager of six switches in two levels, with `hosts` adapters at each of the four lower
    ones: it brings the subnet up, and then gets `line` `times` times."""
    fabric = sample_fabrics.two_levels(4, 2, hosts)
    words = command, *options, *served_lines.seat(fabric)
    first = costs.put("".join((*words, str(hosts))), lambda: "".join(
        f"{it}\n" for it in served_lines.bringing_up(costs.program, costs.folder, words, fabric)
    ))
    for word, told in (
        ("PACKET", served_lines.ASKED), ("TRAP", served_lines.TRAPPED), ("PATH", served_lines.asked_path(fabric)),
        ("JOIN", served_lines.asked_to_join(fabric)), ("HEX", served_lines.ASKS),
    ):
        line = line.replace(word, told)
    text = "".join(f"{it}\n" for it in line.split("/") * times)
    return *words, "<", costs.put(f"lines{len(costs.files)}", lambda: (costs.folder / first).read_text() + text)


def served(costs: Costs, hosts: int, line: str, times: int, *options: str) -> Words:
    """Makes the lines for a manager that does what lines say."""
    return brought_up(costs, "serve", hosts, line, times, options)


def managed(costs: Costs, hosts: int, line: str, times: int, *options: str) -> Words:
    """Makes the lines for a manager that decides by itself."""
    return brought_up(costs, "manage", hosts, line, times, options)


def served_order(costs: Costs, count: int) -> str:
    """Makes a text of the last `count` switches of the fabric of a served manager, the last one first."""
    return costs.put(f"served_order{count}", lambda: "".join(f"0x{16 * it:x}\n" for it in range(6, 6 - count, -1)))


def run_order(costs: Costs, count: int) -> str:
    """Makes a text of the last `count` switches of the tree of a run, the last one first."""
    switches = tree_of(4, 1).switches[-count:]
    return costs.put(f"run_order{count}", lambda: "".join(f"0x{it:x}\n" for it in reversed(switches)))


def in_order(costs: Costs, switches: int) -> Words:
    """Returns the options for plans of a mesh in an order."""
    return *SPREAD, "--order", order(costs, switches)


def from_roots(costs: Costs, switches: int) -> Words:
    """Returns the options for plans of a mesh from roots."""
    return *SPREAD, "--roots", roots(costs, switches // 10)


# The live conduct of managers, lines by which a switch sends a trap twice, lines that a served manager answers from
# what it has at hand, and such lines for a manager that decides by itself: a time that goes back is the last one, and
# no sweep is due then. And all options of such a manager but `--roots`, which does not go with `--order`.
LIVE = " live 1"
TRAPS = "traps/CUT/drain 100/PLUG/drain 100/resend"
SHOWS = "state/progress/silent/written/managers/floor 1/timeout/poll/handover/yield/rediscover/PACKET/TRAP"
MANAGED_SHOWS = "0/0 state/0 progress/0 silent/0 written/0 managers/0 look/0 light HEX/0 PACKET/0 TRAP"
MANAGED_OPTIONS = (
    "--sm-key", "5", "--lmc", "1", "--every", "60000", "--poll", "1", "--strict", "--timeout", "200", "--tries", "2",
    "--outstanding", "16", "--newest", "1000",
)


def scheduled_live(costs: Costs, hosts: int, line: str, times: int) -> Words:
    """Makes a run as `scheduled` does, with live managers."""
    return scheduled(costs, hosts, line, times, LIVE)


# The title of a row of lines; runs with few lines and with many, in a fabric and in one of four times the size.
Steady = tuple[str, list[list[Words]]]
# A command: `words` makes it for a size, `limit` bounds how many times as much it costs at twice that size, `status` is
# its exit status.
Row = collections.namedtuple("Row", "title words size limit status", defaults=[0])
GROWING = (
    Row("facts of replies", lambda c, n: ("facts", replies(c, n)), 4000, LINEAR),
    Row("facts of a sweep", lambda c, n: ("facts", mesh(c, n)), 150, LINEAR),
    Row("join of a sweep by adapters", lambda c, n: ("join", swept(c, n)), 1500, LINEAR),
    Row("join of replies", lambda c, n: ("join", replies(c, n)), 4000, LINEAR),
    Row("facts of a store file", lambda c, n: ("facts", claims(c, n)), 10000, LINEAR),
    Row("join of a store file with a floor", lambda c, n: ("join", "--floor", "2", claims(c, n)), 10000, LINEAR),
    Row("join of two that alternate", lambda c, n: ("join", claims(c, n), claims(c, n, 2)), 10000, LINEAR),
    Row("join of two with different floors",
        lambda c, n: ("join", claims(c, n, 1, 2), claims(c, n, 2, 3)), 10000, LINEAR),
    Row("facts of one file many times", lambda c, n: ("facts", *[claims(c, 10)] * n), 400, LINEAR),
    Row("plan by adapters", lambda c, n: ("plan", known(c, 8, n)), 100, LINEAR),
    Row("plan by adapters, spread", lambda c, n: ("plan", *SPREAD, known(c, 8, n)), 100, LINEAR),
    Row("plan by adapters, LMC 3", lambda c, n: ("plan", "--lmc", "3", known(c, 8, n)), 50, LINEAR),
    Row("plan by adapters, claimed LIDs", lambda c, n: ("plan", claimed(c, n)), 100, LINEAR),
    Row("plan by switches", lambda c, n: ("plan", mesh(c, n)), 150, SQUARED),
    Row("plan by switches, spread", lambda c, n: ("plan", *SPREAD, mesh(c, n)), 150, SQUARED),
    Row("plan by switches, balance", lambda c, n: ("plan", "--routing", "balance", mesh(c, n)), 60, SQUARED),
    Row("plan by switches, spread from roots",
        lambda c, n: ("plan", *from_roots(c, n), mesh(c, n)), 150, SQUARED),
    Row("plan by switches, spread in an order",
        lambda c, n: ("plan", *in_order(c, n), mesh(c, n)), 150, SQUARED),
    Row("order of switches", lambda c, n: ("order", mesh(c, n)), 150, SQUARED),
    Row("plan of switches in a row", lambda c, n: ("plan", row(c, n)), 150, SQUARED),
    Row("plan of switches in a row, spread", lambda c, n: ("plan", *SPREAD, row(c, n)), 150, SQUARED),
    Row("audit by adapters", lambda c, n: ("audit", planned(c, 8, n), known(c, 8, n)), 100, LINEAR),
    Row("audit by adapters of many switches", lambda c, n: ("audit", planned(c, 40, n), known(c, 40, n)), 25, LINEAR),
    Row("audit by adapters, LMC 3", lambda c, n: ("audit", planned(c, 40, n, 3), known(c, 40, n)), 6, LINEAR),
    Row("audit by adapters, claimed LIDs",
        lambda c, n: ("audit", printed(c, "plan", claimed(c, n)), claimed(c, n)), 100, LINEAR),
    Row("audit by adapters, packets lost", lambda c, n: ("audit", holed(c, 40, n), known(c, 40, n)), 6, SQUARED, 1),
    Row("audit by adapters, none delivered", lambda c, n: ("audit", holed(c, 8, n, 9), known(c, 8, n)), 30, SQUARED, 1),
    Row("audit by switches", lambda c, n: ("audit", planned(c, n, 4), known(c, n, 4)), 60, SQUARED),
    Row("audit by adapters, loads", lambda c, n: ("audit", "--loads", planned(c, 8, n), known(c, 8, n)), 100, LINEAR),
    Row("audit by switches, loads", lambda c, n: ("audit", "--loads", planned(c, n, 4), known(c, n, 4)), 60, SQUARED),
    Row("audit by adapters, a way",
        lambda c, n: ("audit", "--way", "100000/1,1", planned(c, 8, n), known(c, 8, n)), 100, LINEAR),
    Row("audit of switches in a row, a way",
        lambda c, n: ("audit", "--way", f"10/0,{n}", row_planned(c, n, 4), row(c, n, 4)), 40, SQUARED),
    Row("audit by adapters, all lines",
        lambda c, n: ("audit", "--all", holed(c, 40, n), known(c, 40, n)), 6, SQUARED, 1),
    Row("audit by adapters, a greatest load",
        lambda c, n: ("audit", "--max-load", "4294967295", planned(c, 8, n), known(c, 8, n)), 100, LINEAR),
    Row("audit of links alone", lambda c, n: ("audit", remarks(c, 1), strangers(c, n)), 2000, LINEAR, 1),
    Row("audit of switches in a row", lambda c, n: ("audit", row_planned(c, n, 4), row(c, n, 4)), 40, SQUARED),
    Row("audit by lane by adapters",
        lambda c, n: ("audit", "--lanes", one_lane(c, 1), planned(c, 8, n), known(c, 8, n)), 50, SQUARED),
    Row("order by adapters, updown", lambda c, n: ("order", "--routing", "updown", known(c, 8, n)), 100, LINEAR),
    Row("order by switches, updown", lambda c, n: ("order", "--routing", "updown", known(c, n, 4)), 60, SQUARED),
    Row("audit by lane by switches",
        lambda c, n: ("audit", "--lanes", one_lane(c, 1), planned(c, n, 4), known(c, n, 4)), 60, SQUARED),
    Row("audit by lane by maps",
        lambda c, n: ("audit", "--lanes", one_lane(c, n), planned(c, 8, 10), known(c, 8, 10)), 5000, LINEAR),
    Row("audit by lane, each packet carried",
        lambda c, n: ("audit", "--lanes", one_lane(c, 0), planned(c, 8, n), known(c, 8, n)), 100, LINEAR),
    Row("order of tables by adapters", lambda c, n: ("order", "--held", planned(c, 8, n), known(c, 8, n)), 100, LINEAR),
    Row("order of tables by switches", lambda c, n: ("order", "--held", planned(c, n, 4), known(c, n, 4)), 60, SQUARED),
    Row("next by adapters", lambda c, n: ("next", planned(c, 8, n), known(c, 8, n)), 100, LINEAR),
    Row("next by adapters of many switches", lambda c, n: ("next", planned(c, 40, n), known(c, 40, n)), 25, LINEAR),
    Row("next by adapters, claimed LIDs",
        lambda c, n: ("next", printed(c, "plan", claimed(c, n)), claimed(c, n)), 100, LINEAR),
    Row("next by adapters, from nothing", lambda c, n: ("next", "/dev/null", known(c, 40, n)), 25, LINEAR),
    Row("next by adapters, from tables with holes",
        lambda c, n: ("next", holed(c, 40, n), known(c, 40, n)), 25, LINEAR),
    Row("next by adapters, a switch apart",
        lambda c, n: ("next", printed(c, "plan", apart(c, 8, n)), apart(c, 8, n)), 50, LINEAR),
    Row("next by switches", lambda c, n: ("next", planned(c, n, 4), known(c, n, 4)), 60, SQUARED),
    Row("next by switches, from the other rule",
        lambda c, n: ("next", printed(c, "plan", *SPREAD, mesh(c, n)), mesh(c, n)), 50, SQUARED),
    Row("next by switches, to the other rule",
        lambda c, n: ("next", *SPREAD, printed(c, "plan", mesh(c, n)), mesh(c, n)), 50, SQUARED),
    Row("next by switches, in an order",
        lambda c, n: ("next", *in_order(c, n), printed(c, "plan", *in_order(c, n), mesh(c, n)), mesh(c, n)), 50,
        SQUARED),
    Row("next by switches, in an order, an entry gone",
        lambda c, n: (
            "next", *in_order(c, n), without_one(c, printed(c, "plan", *in_order(c, n), mesh(c, n))), mesh(c, n)
        ), 50, SQUARED),
    Row("next by switches, in the order of the tables",
        lambda c, n: ("next", *SPREAD, printed(c, "plan", *in_order(c, n), mesh(c, n)), mesh(c, n)), 50, SQUARED),
    Row("next by switches, in the order of the last step",
        lambda c, n: (
            "next", *SPREAD, "--last-order", order(c, n), printed(c, "plan", *in_order(c, n), mesh(c, n)), mesh(c, n)
        ), 50, SQUARED),
    Row("next by switches, from roots",
        lambda c, n: ("next", *from_roots(c, n), printed(c, "plan", *from_roots(c, n), mesh(c, n)), mesh(c, n)), 50,
        SQUARED),
    Row("next by switches, balance",
        lambda c, n: ("next", "--routing", "balance", printed(c, "plan", mesh(c, n)), mesh(c, n)), 30, SQUARED),
    Row("next by adapters, LMC 3",
        lambda c, n: ("next", "--lmc", "3", planned(c, 40, n, 3), known(c, 40, n)), 6, LINEAR),
    Row("audit of tables by comments", lambda c, n: ("audit", remarked(c, n), known(c, 8, 10)), 5000, LINEAR),
    Row("run by adapters", lambda c, n: scheduled(c, n, "state A", 1), 60, LINEAR),
    Row("run by adapters, in an order",
        lambda c, n: scheduled(c, n, "plan A", 1, "", (*SPREAD, "--order", run_order(c, 5))), 60, LINEAR),
    Row("run by adapters, from roots, LMC 1",
        lambda c, n: scheduled(c, n, "plan A", 1, "", ("--lmc", "1", *SPREAD, "--roots", run_order(c, 2))), 30,
        LINEAR),
    Row("run by adapters, live managers", lambda c, n: scheduled(c, n, "state A", 1, LIVE), 60, LINEAR),
    Row("run by polls, live managers", lambda c, n: scheduled(c, 10, "poll B LID/drain 100", n, LIVE), 1500, LINEAR),
    Row("run by traps", lambda c, n: scheduled(c, 10, TRAPS, n, LIVE), 700, LINEAR),
    Row("run by adapters, what is known and held",
        lambda c, n: scheduled(c, n, "merge B A/facts B/plan B/tables/flight", 1), 30, LINEAR),
    Row("run by pings", lambda c, n: scheduled(c, 10, "ping SEAT LID", n), 4000, LINEAR),
    Row("run of a topology of comments", lambda c, n: ("run", remarks(c, n), remarks(c, 1)), 5000, LINEAR),
    Row("serve by adapters", lambda c, n: served(c, n, "facts/plan", 1), 30, LINEAR),
    Row("serve by adapters, in an order",
        lambda c, n: served(c, n, "plan", 1, "--lmc", "1", *SPREAD, "--order", served_order(c, 6)), 30, LINEAR),
    Row("serve by adapters, with a multicast tree", lambda c, n: served(c, n, "plan", 1, "--multicast"), 30, LINEAR),
    Row("serve by lines", lambda c, n: served(c, 5, SHOWS, n, "--sm-key", "5"), 500, LINEAR),
    Row("serve by plans from roots",
        lambda c, n: served(c, 5, "plan", n, *SPREAD, "--roots", served_order(c, 2)), 50, LINEAR),
    Row("manage by adapters", lambda c, n: managed(c, n, "0 facts/0 plan/0 leave", 1), 30, LINEAR),
    Row("manage by adapters, with all options",
        lambda c, n: managed(c, n, "0", 1, *MANAGED_OPTIONS, *SPREAD, "--order", served_order(c, 6)), 30, LINEAR),
    Row("manage by paths for hosts", lambda c, n: managed(c, 5, "0 PATH", n), 500, LINEAR),
    Row("manage by adapters, paths for hosts", lambda c, n: managed(c, n, "0 PATH", 100), 30, LINEAR),
    Row("manage by joins of hosts", lambda c, n: managed(c, 5, "0 JOIN", n, "--multicast"), 500, LINEAR),
    Row("manage by adapters, joins of hosts", lambda c, n: managed(c, n, "0 JOIN", 100, "--multicast"), 30, LINEAR),
    Row("manage by light sweeps", lambda c, n: managed(c, 5, "0 light", n), 500, LINEAR),
    Row("manage by adapters, light sweeps", lambda c, n: managed(c, n, "0 light", 100), 30, LINEAR),
    Row("manage by lines",
        lambda c, n: managed(c, 5, MANAGED_SHOWS, n, *SPREAD, "--roots", served_order(c, 2)), 500, LINEAR),
)

# Lines of a schedule, of one with live managers, and then lines of `serve` and of `manage`, that cost the same in a
# fabric of any size, except for a search among its ports.
STEADY = (
    ("a poll that is answered", "poll B LID/drain 100"),
    ("a poll over a path", "poll B/drain 100"),
    ("a floor that is no greater", "floor A 1"),
    ("a ping", "ping SEAT LID"),
    ("a state", "state B"),
    ("a progress", "progress A"),
    ("silent managers", "silent A"),
    ("whether a plan is written", "written B"),
    ("a timeout of nothing", "timeout A"),
    ("a refused writing", "write B"),
    ("a packet that is lost", "poll B LID/lose last/timeout A"),
    ("a packet that is repeated", "poll B LID/repeat last/deliver last/drain 100"),
    ("a refused handover", "handover A"),
    ("a refused handover to the heir", "yield A"),
    ("a refused discovery", "rediscover A"),
)
STEADY_LIVE = (("a live poll that is answered", "poll B LID/drain 100"), ("traps", TRAPS))
STEADY_SERVED = (("lines of serve", SHOWS),)
STEADY_MANAGED = (("lines of manage", MANAGED_SHOWS),)


def check_all(program: pathlib.Path, folder: pathlib.Path, noted: Noted) -> tuple[str, int]:
    """Checks all costs. Returns what counted them and how many runs it measured. `noted` gets the cost of each command
    at the larger size."""
    costs = Costs(program, folder)
    growing = [(case, case.words(costs, case.size), case.words(costs, 2 * case.size)) for case in GROWING]
    costs.take(
        [words for _, *both in growing for words in both],
        {words: case.status for case, *both in growing for words in both},
    )
    for (case, one, two), count in zip(growing, costs.allocations([two for _, _, two in growing])):
        costs.at_most(costs.known[two], costs.known[one], case.limit, f"{case.title}, of twice the size")
        noted.find(INSTRUCTIONS, case.title, costs.known[two] / 10**6)
        noted.find(ALLOCATIONS, case.title, count)
    steady = steady_runs(costs)
    measured = [two for _, _, two in growing] + [more for _, (_, (_, more)) in steady]
    measured_options.check_all(program, measured, folder)
    if isinstance(costs.counter, Valgrind):
        function_costs.check_all({case.title: one for case, one, _ in growing}, costs.profiles, noted)
    check_apart(costs)
    check_steady(costs, steady)
    return costs.counter.name, len(costs.known)


def check_apart(costs: Costs) -> None:
    """Checks that a switch without wires adds no more than its own table to the cost of a plan."""
    for options in (), SPREAD:
        one, two = ("plan", *options, known(costs, 40, 25)), ("plan", *options, apart(costs, 40, 25))
        costs.take([one, two])
        costs.at_most(costs.known[two], costs.known[one], 1.1, f"a plan by {options}, with a switch apart")


def steady_runs(costs: Costs) -> list[Steady]:
    """Returns the rows of lines that cost the same in a fabric of any size."""
    few, many, hosts = (250, 500, 25) if costs.counter.is_exact else (1000, 8000, 25)
    return [
        (title, [[words(costs, size, line, times) for times in (few, many)] for size in (hosts, 4 * hosts)])
        for words, lines in (
            (scheduled, STEADY), (scheduled_live, STEADY_LIVE), (served, STEADY_SERVED), (managed, STEADY_MANAGED),
        )
        for title, line in lines
    ]


def check_steady(costs: Costs, steady: Sequence[Steady]) -> None:
    """Checks that what a line of a schedule, of `serve` or of `manage` costs does not grow with the fabric."""
    costs.take(words for _, rows in steady for both in rows for words in both)
    for title, rows in steady:
        one, two = (costs.known[more] - costs.known[less] for less, more in rows)
        costs.at_most(two, one, STAYS, f"{title}, in a fabric of four times the size", costs.known[rows[1][0]])
