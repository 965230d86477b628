"""Inputs for `tests/at-scale` past each size at which one of the program's counters could overflow. All that is printed
is compared: with what is known of a tree, with what another way prints, or with what must result."""
from __future__ import annotations

import itertools
import pathlib

import paths  # noqa: F401
import record_files as make
import sample_audits as audits
import served_lines
from noted_costs import MEMORY, Noted
from scale import Fabric, Run, Tree, chain, check, levels

# More than 2^16 lines, cells or commands; more than 2^20 cells; and the bytes of a line, for texts of more than 2^22
# bytes.
LINES, CELLS, PADDED = 70000, 1050000, 64
SPREAD, BALANCE = ("--routing", "spread"), ("--routing", "balance")
# The live conduct of managers.
LIVE = " live 1"


class Room:
    """A folder to run the program in."""

    def __init__(self, program: pathlib.Path, folder: pathlib.Path, noted: Noted) -> None:
        self.program, self.folder, self.noted, self.numbers = program, folder, noted, itertools.count(1)

    def put(self, name: str, data: str | bytes) -> None:
        (self.folder / name).write_bytes(data.encode() if isinstance(data, str) else data)

    def run(self, *words: str, status: int = 0) -> bytes:
        run = Run(self.program, list(words), self.folder, f"printed{next(self.numbers)}", status)
        self.noted.find(MEMORY, run.what, run.memory / 10**6)
        return run.printed()

    def prints(self, wanted: str | bytes, *words: str, status: int = 0) -> bytes:
        """Checks that a run prints `wanted` and nothing else."""
        printed = self.run(*words, status=status)
        wanted = wanted.encode() if isinstance(wanted, str) else wanted
        if printed != wanted:
            lines = zip(printed.splitlines(), wanted.splitlines())
            first = next((pair for pair in lines if pair[0] != pair[1]), (len(printed), len(wanted)))
            check(False, f"{' '.join(words)}: prints {first[0]!r:.300} in place of {first[1]!r:.300}")
        return printed


def check_tree(room: Room) -> None:
    """Checks 34,272 adapters at 157 switches: over 200,000 facts, a plan of over 10 MB, an audit whose sums are over
    2^32, and steps to the plan."""
    tree = levels(12, 12, 238)
    cells = tree.cells()
    plan = tree.plan()
    hops, loads, audit = tree.audit()
    check(len(cells) > 200000 and min(hops, loads) > 2**32, f"{len(cells)} cells, and sums of {hops} and {loads}")
    room.put("tree", make.store(*cells))
    room.prints(plan, "plan", "tree")
    room.prints(plan, "plan", *SPREAD, "tree")
    room.put("tree.plan", plan)
    room.prints(audit, "audit", "tree.plan", "tree")
    way = f"{tree.adapters[0]:x}/1,{tree.lids()[1][-1]}"
    with_appendix = audit.replace(b"passes yes\n", tree.appendix() + b"passes yes\n")
    room.prints(with_appendix, "audit", "--loads", "--way", way, "tree.plan", "tree")
    # All lines, of which there is none, and the greatest load that passes; then one less.
    most = max(tree.loads().values())
    room.prints(audit, "audit", "--all", "--max-load", f"{most}", "tree.plan", "tree")
    busier = audit.replace(b"passes yes", b"passes no: load")
    room.prints(busier, "audit", "--max-load", f"{most - 1}", "tree.plan", "tree", status=1)
    for tables in "tree.plan", "/dev/null":
        room.prints(plan, "next", tables, "tree")
    # Overlapping parts, in two groupings.
    names = "part0", "part1", "part2"
    for number, name in enumerate(names):
        room.put(name, make.store(*(cell for index, cell in enumerate(cells) if index % 3 != number)))
    room.put("left", room.run("join", *names[:2]))
    room.put("right", room.run("join", *names[1:]))
    whole = make.store(*cells)
    room.prints(whole, "join", "left", names[2])
    room.prints(whole, "join", names[0], "right")
    check_floors(room, tree)


def check_floors(room: Room, tree: Tree) -> None:
    """Checks stores of different floors, each of over 65,536 cells, and a floor under which half of them are
    forgotten."""
    cells = tree.cells(lambda index: 3 + index % 2)
    older, newer = cells[::2], cells[1::2]
    room.put("both", make.store(*cells))
    room.put("older", make.store(*older, floor=2))
    room.put("newer", make.store(*newer, floor=3))
    room.put("newest", make.store(*newer, floor=4))
    for words in ("older", "newer"), ("newer", "older"):
        room.prints(make.store(*cells, floor=3), "join", *words)
    for words in ("older", "newest"), ("newest", "older"), ("--floor", "4", "both"), ("newer", "--floor", "4", "both"):
        room.prints(make.store(*newer, floor=4), "join", *words)


def check_ranges(room: Room) -> None:
    """Checks 5,000 adapters under an LMC over 0, and the text of their tables."""
    tree = levels(5, 5, 200)
    room.put("ranges", make.store(*tree.cells()))
    for lmc in 1, 3:
        for rule in "updown", "spread":
            room.prints(tree.plan(lmc), "plan", "--lmc", str(lmc), "--routing", rule, "ranges")
    # The tables after more than 5 MB of comments.
    room.put("long.plan", padded("# ", 80000) + tree.plan())
    room.prints(tree.audit()[2], "audit", "long.plan", "ranges")
    room.prints(tree.plan(), "next", "long.plan", "ranges")


def check_findings(room: Room) -> None:
    """Checks an audit of links between 140,000 nodes that nothing else describes, with all its lines and with the first
    ones of each kind."""
    far = [2 * LINES + 1 - guid for guid in range(1, LINES + 1)]
    links = [f"link {guid:016x}/1 {other:016x}/2 @1\n" for guid, other in enumerate(far, 1)]
    room.put("strangers", make.store_of("".join(links)))
    unusable = [f"unusable {guid:016x}\n" for guid in range(1, 2 * LINES + 1)]
    unjoined = [f"unjoined {guid:016x}/{1 + guid // (LINES + 1)}\n" for guid in range(1, 2 * LINES + 1)]
    ends = "hops none\nload none\ncredit loop none\n"
    whole = audits.found(audits.counted(0, 0) + "".join(unusable + unjoined) + ends, "unusable")
    room.prints(whole.printed, "audit", "--all", "/dev/null", "strangers", status=1)
    more = [f"more {kind} {2 * LINES - 20}\n" for kind in ("unusable", "unjoined")]
    cut = "".join([*unusable[:20], more[0], *unjoined[:20], more[1]])
    short = audits.found(audits.counted(0, 0) + cut + ends, "unusable")
    room.prints(short.printed, "audit", "/dev/null", "strangers", status=1)


def check_lanes(room: Room) -> None:
    """Checks audits by a text of lanes of over 10 MB, with over 65,536 maps and as many blocks of levels: two levels
    on one lane, and then on a lane each. In a tree packets do as they do without lanes."""
    tree = levels(2, 2, 30)
    by_lane = tree.audit()[2].replace(b"passes", b"answers credit loop none\npasses")
    width = tree.lids()[1][-1] // 64 + 1
    maps = [f"sl2vl {0x8000 + it // 200:x} 1 {it % 200} 0f{'00' * 15}\n" for it in range(LINES)]
    blocks = [f"levels {0x8000 + it // 700:x}/1 {it % 700} {'01' * 64}\n" for it in range(LINES)]
    blocks += [f"levels {guid:x}/1 {block} {'01' * 64}\n" for guid in tree.adapters[::2] for block in range(width)]
    room.put("lane_tree", make.store(*tree.cells()))
    room.put("lane_tree.plan", tree.plan())
    for name, lanes in ("lanes", "00" * 16), ("more_lanes", "0001" + "00" * 14):
        room.put(name, "".join([f"lanes {lanes}\nlevel 0\n", *maps, *blocks]))
        room.prints(by_lane, "audit", "--lanes", name, "lane_tree.plan", "lane_tree")


def check_cells(room: Room) -> None:
    """Checks a store file of over a million cells."""
    whole = make.store(*(make.cell(make.CLAIM, guid, 1, b"\0\1") for guid in range(CELLS)))
    room.put("million", whole)
    room.prints(whole, "join", "million")


def check_switches(room: Room) -> None:
    """Checks 1,100 switches by each rule, from 70 roots and in a given order: each plan passes, and all plans give the
    same LIDs."""
    fabric = Fabric(20, 1080, 112, 1080)
    fabric.reports(room.folder / "switches")
    room.put("roots", "".join(f"0x{guid:x}\n" for guid in fabric.switches[:70]))
    ends, adapters = 1100 + 1080, 1080
    lids = set()
    room.put("order", "".join(f"0x{guid:x}\n" for guid in reversed(fabric.switches)))
    for options in (), SPREAD, BALANCE, (*SPREAD, "--roots", "roots"), (*SPREAD, "--order", "order"):
        plan = room.run("plan", *options, "switches")
        lids.add(plan.partition(b"switch")[0])
        room.put("switches.plan", plan)
        room.prints(plan, "next", *options, "switches.plan", "switches")
        lines = room.run("audit", "switches.plan", "switches").decode().splitlines(True)
        wanted = audits.counted(ends**2, adapters**2)
        passes = len(lines) == 8 and lines[-1] == "passes yes\n"
        check("".join(lines[:4]) == wanted and passes, f"the audit of a plan by {options}: {lines[:8]}")
    check(len(lids) == 1, "LIDs differ by the rule")
    check_orders(room, fabric)


def check_orders(room: Room, fabric: Fabric) -> None:
    """Checks that the order by which a rule plans 1,100 switches gives the same plan once it is printed, that an order
    is found of the tables by another one, and that a step from them near that order passes."""
    all_switches = sorted(f"0x{guid:016x}\n".encode() for guid in fabric.switches)
    room.put("whole_order", room.run("order", "switches"))
    room.put("held_order", room.run("order", "--held", "switches.plan", "switches"))
    for name in "whole_order", "held_order":
        printed = (room.folder / name).read_bytes().splitlines(True)
        check(sorted(printed) == all_switches, f"{name}: {len(printed)} lines of {len(all_switches)} switches")
    planned = room.run("plan", *SPREAD, "switches")
    room.prints(planned, "plan", *SPREAD, "--order", "whole_order", "switches")
    room.put("step", room.run("next", *SPREAD, "--last-order", "held_order", "switches.plan", "switches"))
    lines = room.run("audit", "step", "switches").splitlines()
    check(lines[-1:] == [b"passes yes"], f"the audit of a step by an order: {lines[:8]}")


def check_managers(room: Room) -> None:
    """Checks 66 managers at one switch, each of which sees the others."""
    tree = chain(1, 66)
    room.put("crowd", tree.topology())
    names = [f"M{number}" for number in range(66)]
    seats = [f'manager {name} "H{guid:x}"[1] {15 if name == "M0" else 1}\n' for name, guid in zip(names, tree.adapters)]
    sweeps = [f"sweep {name}\ndrain 1000000\nprogress {name}\nstate {name}\n" for name in [*names, "M0"]]
    room.put("sweeps", "".join([*seats, *sweeps, "handover M0\nplan M65\n"]))
    text = "".join(
        f"progress {name} done unanswered 0 toofar 0\nstate {name} {'master' if name == 'M0' else 'standby'}\n"
        for name in [*names, "M0"]
    )
    room.prints(text.encode() + b"refused Nobody\n" + tree.plan(), "run", "crowd", "sweeps")


def check_writing(room: Room) -> None:
    """Checks that a manager writes to 2,009 end ports, with one LID or two for each port of an adapter."""
    tree = Tree([0] * 8, [0] + [250] * 8, 2)
    room.put("wide", tree.topology())
    room.put(
        "written",
        f'manager A "H{tree.adapters[0]:x}"[1] 1\nsweep A\ndrain 1000000\nwrite A\ndrain 1000000\ntables\nplan A\n',
    )
    for lmc in 0, 1:
        room.prints(2 * tree.plan(lmc), "run", "--lmc", str(lmc), "wide", "written")


def check_rooted_run(room: Room) -> None:
    """Checks that a manager that plans from 70 roots plans what `plan` does from the manager's facts."""
    fabric = Fabric(20, 80, 30, 200)
    room.put("hundred", fabric.topology())
    room.put("roots", "".join(f"0x{guid:x}\n" for guid in fabric.switches[10:80]))
    room.put("swept", f'manager A "{fabric.adapters[0]:x}"[1] 1\nsweep A\ndrain 1000000\nfacts A\nplan A\n')
    printed = room.run("run", *SPREAD, "--roots", "roots", "hundred", "swept")
    facts, lid, plan = printed.partition(b"lid ")
    room.put("known", make.store_of(facts.decode()))
    room.prints(lid + plan, "plan", *SPREAD, "--roots", "roots", "known")


def seated(conduct: str = "") -> list[str]:
    """Returns the lines of a schedule by which a master A and a standby B come to the two adapters of a switch."""
    seats = [f'manager {name} "H{number}"[1] {3 - number}{conduct}' for number, name in enumerate("AB", 1)]
    return [*seats, "sweep A", "drain 1000", "write A", "drain 1000", "sweep B", "drain 1000"]


def polled(times: int, conduct: str = "") -> str:
    """Returns a schedule in which a standby polls a master `times` times, and then once more. Each of the `times` polls
    is a line of 64 bytes."""
    lines = seated(conduct)
    for number in range(times):
        lines.append("poll B 2".ljust(PADDED - 1, "#"))
        if number % 500 == 499:
            lines.append("drain 100000")
    return "\n".join([*lines, "drain 100000", "flight", "state B", "poll B 2", "flight", ""])


def check_lines(room: Room) -> None:
    """Checks a topology and a schedule of over 65,536 lines and over 4 MiB: a standby's polls, each of which is
    answered. Then the same with live managers, which also count what they answer, and as many traps."""
    topology = 'Switch 4 "S" guid 0x10\n[1] "H1"[1]\n[2] "H2"[1]\nHca 1 "H1" guid 0x100\nHca 1 "H2" guid 0x200\n'
    room.put("short", topology)
    room.put("long", padded("# ", LINES).decode() + topology)
    # Each poll is one packet, and so is its answer.
    text = "state B standby\npacket {} \"H2\"\n"
    for conduct, few, many in ("", "few", "many"), (LIVE, "few_live", "many_live"):
        room.put(few, polled(1000, conduct))
        serial = int((room.run("run", "short", few).split() + [0] * 5)[4])
        room.put(many, polled(LINES, conduct))
        room.prints(text.format(serial + 2 * (LINES - 1000)), "run", "long", many)
    # The switch, whose LID is 1, tells that a port is down, and then that it is up.
    changes = ['cut "H2"[1]', "drain 9", 'plug "H2"[1] "S"[2]', "drain 9"]
    room.put("traps", "\n".join([*seated(LIVE), "traps", *changes * (LINES // 2), "flight", "resend", "flight", ""]))
    room.prints("trap A 1\n" * (LINES // 2 * 2), "run", "short", "traps")


def check_serving(room: Room) -> None:
    """Checks that a served manager answers more than 65,536 requests for its SMInfo, and counts them."""
    room.put("asked", "".join(f"{line}\n" for line in ["state", *[served_lines.ASKED] * LINES, "state"]))
    state = "state discovering\n.\n"
    told = "".join(f"send {served_lines.tells(count)} to 7\n.\n" for count in range(1, LINES + 1))
    room.prints(state + told + state, "serve", *served_lines.WHO, "<", "asked")


def check_deciding(room: Room) -> None:
    """Checks that a manager that decides by itself answers more than 65,536 requests for its SMInfo, and then gives up
    as many sweeps, each of which lacks its only answer: the wait until the next one grows to ten seconds."""
    time, lines, told = 1000, ["1000"], [f"note sweep\nsend {served_lines.first_request(1)}\nwake 1500\n.\n"]
    for count in range(1, LINES + 1):
        lines.append(f"1000 {served_lines.ASKED}")
        told.append(f"send {served_lines.tells(1 + count)} to 7\nwake 1500\n.\n")
    for sweep in range(1, LINES + 1):
        if sweep > 1:
            lines.append(f"{time}")
            told.append(f"note sweep\nsend {served_lines.first_request(sweep)}\nwake {time + 500}\n.\n")
        time += 500
        lines.append(f"{time}")
        state = "note state master\n" if sweep == 1 else ""
        told.append(f"note unanswered {served_lines.first_request(sweep)}\n{state}note swept no\n")
        time += min(1000 * 2 ** min(sweep - 1, 4), 10000)
        told.append(f"wake {time}\n.\n")
    room.put("decided", "".join(f"{line}\n" for line in lines))
    room.prints("".join(told), "manage", "--tries", "1", "--strict", *served_lines.WHO, "<", "decided")


def padded(text: str, count: int) -> bytes:
    """Returns `count` lines, each the same comment."""
    return (text.ljust(PADDED - 1, "-") + "\n").encode() * count


def check_all(program: pathlib.Path, folder: pathlib.Path, noted: Noted) -> None:
    """Checks inputs past each size at which a program could stop."""
    room = Room(program, folder, noted)
    for part in (
        check_tree, check_ranges, check_findings, check_lanes, check_cells, check_switches, check_managers,
        check_writing, check_rooted_run, check_lines, check_serving, check_deciding,
    ):
        part(room)
