"""Plans and runs by the rule `spread`, texts of roots and of orders for them, and how these end. Faults and plans were
worked out from docs/FORMATS.md and docs/MODEL.md, independently of the program."""
from __future__ import annotations

from collections.abc import Callable, Iterable, Iterator

from built_program import Ended, prints, refused, says

# The GUIDs of switches and of adapters, and the wires.
Subnet = tuple[tuple[int, ...], tuple[int, ...], str]
THREE = (0x10, 0x20, 0x30)
TREE = (
    (0x10, 0x20, 0x30, 0x40, 0x50), (0x100, 0x110, 0x120, 0x200, 0x210, 0x300),
    "10/1-30/1 10/2-40/1 10/3-50/1 20/1-30/2 20/2-40/2 20/3-50/2 30/3-100/1 30/4-110/1 40/3-120/1 40/4-200/1 "
    "50/3-210/1 50/4-300/1",
)
TREE_LIDS = "1 10/0 2 20/0 3 30/0 4 40/0 5 50/0 6 100/1 7 110/1 8 120/1 9 200/1 10 210/1 11 300/1"
RINGS = (
    (0x10, 0x20, 0x30, 0x40, 0x50, 0x60, 0x70, 0x80), (0x100, 0x200, 0x300),
    "10/1-20/1 20/2-30/1 30/2-40/1 40/2-50/1 50/2-10/2 10/3-100/1 30/3-200/1 60/1-70/1 70/2-80/1 80/2-60/2 80/3-300/1",
)
RINGS_LIDS = "1 10/0 2 20/0 3 30/0 4 40/0 5 50/0 6 60/0 7 70/0 8 80/0 9 100/1 10 200/1 11 300/1"

# The ring of 10 to 50 alone, as a manager in it knows it.
RING_LIDS = "1 10/0 2 20/0 3 30/0 4 40/0 5 50/0 6 100/1 7 200/1"
# A manager at adapter 100 of the tree or the ring, which sweeps and prints its plan.
SWEPT = 'manager M "100"[1] 1\nsweep M\ndrain 1000\nplan M\n'


def topology(switches: Iterable[int], adapters: Iterable[int], wires: str) -> str:
    """Returns the text of a fabric of switches of four ports and adapters of one. Nodes are named by their GUIDs."""
    links = {}
    for cable in wires.split():
        (near, port), (far, at) = (end.split("/") for end in cable.split("-"))
        links.setdefault(near, []).append(f'[{port}] "{far}"[{at}]\n')
    nodes = [(guid, "Switch 4") for guid in switches] + [(guid, "Hca 1") for guid in adapters]
    return "".join(f'{kind} "{guid:x}" guid 0x{guid:x}\n' + "".join(links.get(f"{guid:x}", [])) for guid, kind in nodes)


def without_roots(plan: Callable[..., Ended]) -> Iterator[tuple[str, tuple[int, ...], tuple[int, ...], str, Ended]]:
    """Yields subnets whose packets are spread over the wires without roots: title, switches, adapters, wires, plan."""
    yield "the triangle", THREE, (0x100, 0x200), "10/1-20/1 10/2-30/1 20/2-30/2 20/3-100/1 30/3-200/1", plan(
        "1 10/0 2 20/0 3 30/0 4 100/1 5 200/1", "10 0 1 2 1 2", "20 1 0 2 3 2", "30 1 2 0 2 3",
    )
    # In a mesh without adapters each switch sends to each over their own wire, or by GUID.
    yield (
        "no adapters", TREE[0], (),
        "10/1-20/1 10/2-30/1 10/3-40/1 10/4-50/1 20/2-30/2 30/3-40/2 40/3-50/2",
        plan(
            "1 10/0 2 20/0 3 30/0 4 40/0 5 50/0",
            "10 0 1 2 3 4", "20 1 0 2 2 1", "30 1 2 0 3 3", "40 1 1 2 0 3", "50 1 1 1 2 0",
        ),
    )
    # Two switches above three leaf switches: from below, LIDs in a row alternate between the two.
    yield "a tree of two levels", *TREE, plan(
        TREE_LIDS,
        "10 0 1 1 2 3 1 1 2 2 3 3", "20 1 0 1 2 3 1 1 2 2 3 3", "30 1 2 0 2 2 3 4 1 2 1 2",
        "40 1 2 1 0 1 2 1 3 4 2 1", "50 1 2 1 1 0 2 1 2 1 3 4",
    )
    one = "1 10/0 2 20/0 3 30/0 4 100/1"
    yield (
        "two wires between each two of a chain", THREE, (0x100,),
        "10/1-20/1 10/2-20/2 20/3-30/1 20/4-30/2 30/3-100/1",
        plan(one, "10 0 1 1 2", "20 2 0 4 3", "30 2 2 0 3"),
    )
    yield (
        "two components", THREE, (0x100,), "10/1-20/1 10/2-20/2 20/3-20/4 30/1-100/1",
        plan(one, "10 0 1 - -", "20 2 0 - -", "30 - - 0 1"),
    )
    yield (
        "a ring of five",
        TREE[0],
        (0x100, 0x200),
        "10/1-20/1 20/2-30/1 30/2-40/1 40/2-50/1 50/2-10/2 10/3-100/1 30/3-200/1",
        plan(
            RING_LIDS,
            "10 0 1 1 2 2 3 1", "20 1 0 2 2 1 1 2", "30 1 1 0 2 1 1 3", "40 2 1 1 0 2 2 1", "50 2 2 2 1 0 2 2",
        ),
    )


def plans(plan: Callable[..., Ended]) -> Iterator[tuple[str, Subnet, tuple[str, ...], Ended]]:
    """Yields titles, subnets, texts of their roots, and their plans."""
    # From both upper switches the order grows as it does from the middle, where it also begins without roots.
    middle = (
        "10 0 1 1 2 3 1 1 2 2 3 3", "20 1 0 1 2 3 1 1 2 2 3 3", "30 1 2 0 2 2 3 4 1 2 1 2",
        "40 1 2 1 0 1 2 1 3 4 2 1", "50 1 2 1 1 0 2 1 2 1 3 4",
    )
    yield "a tree from both switches above", TREE, ("10\n20", "20\n10\n"), plan(TREE_LIDS, *middle)
    one = (
        "10 0 2 1 2 3 1 1 2 2 3 3", "20 2 0 1 2 3 1 1 2 2 3 3", "30 1 2 0 2 2 3 4 2 2 2 2",
        "40 1 2 2 0 2 2 2 3 4 2 2", "50 1 2 2 2 0 2 2 2 2 3 4",
    )
    texts = (
        "20", "0x20\n", "0000000000000020", "0x0000000000000020 # the other one\r\n", "# 10\n\n\t \n \t20\t \r\n#30",
        "20# 10", "\r\n20\r\n",
    )
    yield "a tree from one switch above", TREE, texts, plan(TREE_LIDS, *one)
    below = (
        "10 0 2 1 2 3 1 1 2 2 3 3", "20 3 0 1 2 3 1 1 2 2 3 3", "30 1 2 0 2 2 3 4 1 2 1 2",
        "40 1 2 1 0 1 2 1 3 4 1 1", "50 1 2 1 1 0 2 1 1 1 3 4",
    )
    yield "a tree from two switches below", TREE, ("50\n40", "0x40\n50"), plan(TREE_LIDS, *below)
    rings = (
        "10 0 1 2 2 2 - - - 3 2 -", "20 1 0 2 2 1 - - - 1 2 -", "30 2 1 0 2 2 - - - 2 3 -", "40 2 1 1 0 2 - - - 2 1 -",
        "50 2 2 1 1 0 - - - 2 1 -", "60 - - - - - 0 1 2 - - 2", "70 - - - - - 1 0 2 - - 2", "80 - - - - - 2 1 0 - - 3",
    )
    yield "two rings with a root of one", RINGS, ("40",), plan(RINGS_LIDS, *rings)


def plans_as_named(plan: Callable[..., Ended]) -> Iterator[tuple[str, Subnet, tuple[str, ...], Ended]]:
    """Yields titles, subnets, texts of an order, and their plans."""
    # From below, and then by one upper switch: the other one is reached from it through that single leaf switch.
    below = (
        "10 0 3 1 2 3 1 1 2 2 3 3", "20 3 0 1 2 3 1 1 2 2 3 3", "30 1 2 0 2 2 3 4 1 2 1 2",
        "40 1 2 1 0 1 2 1 3 4 2 1", "50 1 2 1 1 0 2 1 2 1 3 4",
    )
    texts = (
        "50\n10", "0x50 # a leaf\r\n\r\n0x10\r\n20\r\n30\r\n40", "50", "11\n50\nffffffffffffffff\n100\n1",
    )
    yield "a tree in an order from a switch below", TREE, texts, plan(TREE_LIDS, *below)
    # The other upper switch comes last: nothing goes through it.
    last = (
        "10 0 2 1 2 3 1 1 2 2 3 3", "20 2 0 1 2 3 1 1 2 2 3 3", "30 1 2 0 1 1 3 4 1 1 1 1",
        "40 1 2 1 0 1 1 1 3 4 1 1", "50 1 2 1 1 0 1 1 1 1 3 4",
    )
    yield "a tree in an order that ends above", TREE, ("50\n10\n40\n30\n20", "50\n10\n40\n30"), plan(TREE_LIDS, *last)
    # By GUID, if nothing named is a switch: from 10, and then from the leaf switch with the least GUID.
    least = (
        "10 0 1 1 2 3 1 1 2 2 3 3", "20 1 0 1 2 3 1 1 2 2 3 3", "30 1 2 0 2 2 3 4 1 2 1 2",
        "40 1 2 1 0 1 2 1 3 4 2 1", "50 1 2 1 1 0 2 1 2 1 3 4",
    )
    yield "a tree by GUID", TREE, ("", "# none\r\n", "11\n100\nffffffffffffffff", "10\n20\n30\n40\n50"), plan(
        TREE_LIDS, *least
    )
    # 20 and 40 are named in a row; 30, which joins them, comes between; 60 and 70 stay in order of GUID.
    rings = (
        "10 0 1 1 1 2 - - - 3 1 -", "20 1 0 2 2 1 - - - 1 2 -", "30 1 1 0 2 2 - - - 1 3 -", "40 1 1 1 0 2 - - - 1 1 -",
        "50 2 2 1 1 0 - - - 2 1 -", "60 - - - - - 0 1 2 - - 2", "70 - - - - - 1 0 2 - - 2", "80 - - - - - 2 1 0 - - 3",
    )
    yield "two rings in an order of some", RINGS, ("40\n20\n80", "80\n40\n20\n30\n10\n50", "41\n40\n42\n80"), plan(
        RINGS_LIDS, *rings
    )


# A subnet, an option with its text, and the order that is printed, from the first switch on.
ORDERS = (
    (TREE, "", "", "10 30 20 40 50"),
    (TREE, "--roots", "20", "20 30 40 50 10"),
    (TREE, "--roots", "50\n40", "40 10 50 20 30"),
    (TREE, "--order", "", "10 30 20 40 50"),
    (TREE, "--order", "50\n10", "50 10 20 30 40"),
    (TREE, "--order", "50\n10\n40\n30\n20", "50 10 40 30 20"),
    (TREE, "--order", "ffffffffffffffff\n20\n11\n40", "20 40 10 30 50"),
    (RINGS, "--roots", "40", "40 30 50 10 20 80 60 70"),
    (RINGS, "--order", "80\n40\n20", "80 60 70 40 30 20 10 50"),
)

# A text of roots for the tree, and what is wrong with it.
FAULTS = (
    ("20 30", "line 1: syntax"),
    ("20 # 30\n20 30", "line 2: syntax"),
    ("0x", "line 1: syntax"),
    ("0X20", "line 1: syntax"),
    ("x20", "line 1: syntax"),
    ("2g", "line 1: syntax"),
    ("-1", "line 1: syntax"),
    ("+20", "line 1: syntax"),
    ("20,30", "line 1: syntax"),
    ('"20"', "line 1: syntax"),
    ("20\x0b", "line 1: syntax"),
    ("0x0x20", "line 1: syntax"),
    ("10\n20\n\n30 x", "line 4: syntax"),
    ("0", "line 1: guid"),
    ("0x0", "line 1: guid"),
    ("20\r\n0000000000000000", "line 2: guid"),
    ("10000000000000000", "line 1: guid"),
    ("0x10000000000000000", "line 1: guid"),
    ("0x00000000000000020", "line 1: guid"),
    ("f" * 100, "line 1: guid"),
    ("10\n0x10", "line 2: repeated"),
    ("20\n30\n\n0x0000000000000020 # again\n0", "line 4: repeated"),
    ("aB\nAb\nx", "line 2: repeated"),
    ("ffffffffffffffff\n10\nffffffffffffffff\n", "line 3: repeated"),
    ("", "no root"),
    ("# none\r\n\r\n \n\t#10", "no root"),
    ("100", "no usable switch 0000000000000100"),
    ("10\n51\n20\n100", "no usable switch 0000000000000051"),
    ("20\n30\nFFFFFFFFFFFFFFFF", "no usable switch ffffffffffffffff"),
)


# The faults of a text of an order. Such a text may name nothing, or what is not a switch.
FAULTS_OF_ORDERS = tuple((text, said) for text, said in FAULTS if said.startswith("line "))


def faulty_files() -> Iterator[tuple[str, str, Ended]]:
    """Yields command lines in which several files have faults, with the text of roots and how they end. `SPREAD` is a
    store file of the tree, `CROWDED` one by which a table of the tree has room for 10 LIDs only, `EMPTY` an empty file.
    There is no file `NONE`."""
    spread = "plan --routing spread --roots"
    yield f"{spread} NONE SPREAD", "20", says(4, "NONE: cannot open")
    yield f"{spread} NONE NONE", "20", says(4, "NONE: cannot open")
    yield f"{spread} missing NONE", "20", says(4, "missing: cannot open")
    yield f"{spread} ROOTS NONE", "20 30", says(4, "NONE: cannot open")
    yield f"{spread} . SPREAD", "", says(4, ".: read failed")
    yield f"{spread} . EMPTY", "", says(4, ".: read failed")
    yield f"{spread} ROOTS EMPTY", "20\n20", refused("ROOTS: line 2: repeated")
    yield f"{spread} ROOTS SPREAD EMPTY", "", refused("EMPTY: bad magic")
    yield f"{spread} ROOTS EMPTY SPREAD", "100", refused("EMPTY: bad magic")
    yield f"{spread} ROOTS ADAPTER", "100", refused("ROOTS: no usable switch 0000000000000100")
    yield f"{spread} ROOTS ADAPTER", "", refused("ROOTS: no root")
    yield f"{spread} ROOTS SPREAD CROWDED", "", refused("ROOTS: no root")
    yield f"{spread} ROOTS SPREAD CROWDED", "11", refused("ROOTS: no usable switch 0000000000000011")
    yield f"{spread} ROOTS SPREAD CROWDED", "10", refused("no room: 11 end ports, room 11")
    spread = "plan --routing spread --order"
    yield f"{spread} NONE SPREAD", "20", says(4, "NONE: cannot open")
    yield f"{spread} missing NONE", "20", says(4, "missing: cannot open")
    yield f"{spread} ROOTS NONE", "20 30", says(4, "NONE: cannot open")
    yield f"{spread} . EMPTY", "", says(4, ".: read failed")
    yield f"{spread} ROOTS EMPTY", "20\n20", refused("ROOTS: line 2: repeated")
    yield f"{spread} ROOTS EMPTY SPREAD", "100", refused("EMPTY: bad magic")
    yield f"{spread} ROOTS SPREAD CROWDED", "", refused("no room: 11 end ports, room 11")


def runs(plan: Callable[..., Ended]) -> Iterator[tuple[str, Subnet, str, str, Ended]]:
    """Yields titles, subnets, texts of their roots, further options, and the plan of a manager at adapter 100."""
    for title, of, texts, ends in plans(plan):
        if of is TREE:
            for text in texts:
                yield title, of, text, "", ends
    # Each adapter's switch is where its two LIDs lead, and no switch on the route has two candidates.
    one = (
        "10 0 2 1 2 3 1 1 2 2 3 3", "20 3 0 1 2 3 1 1 2 2 3 3", "30 1 2 0 2 2 3 4 2 2 2 2",
        "40 1 2 2 0 2 2 2 3 4 2 2", "50 1 2 2 2 0 2 2 2 2 3 4",
    )
    lids = "1 10/0 2 20/0 3 30/0 4 40/0 5 50/0 6 100/1 8 110/1 10 120/1 12 200/1 14 210/1 16 300/1"
    yield "a tree from one switch above, two LIDs an adapter port", TREE, "20", "--lmc 1", plan(lids, *one, lmc=1)
    # Switches of the fabric in a ring that the manager does not reach change nothing.
    ring = "10 0 1 2 2 2 3 2", "20 1 0 2 2 1 1 2", "30 2 1 0 2 2 2 3", "40 2 1 1 0 2 2 1", "50 2 2 1 1 0 2 1"
    for text in "40", "40\n70", "60\n40":
        yield "a ring from one switch of it", RINGS, text, "", plan(RING_LIDS, *ring)


def runs_as_named(plan: Callable[..., Ended]) -> Iterator[tuple[str, Subnet, str, Ended]]:
    """Yields titles, subnets, texts of an order, and the plan of a manager at adapter 100."""
    for title, of, texts, ends in plans_as_named(plan):
        if of is TREE:
            for text in texts:
                yield title, of, text, ends
    # A switch that the manager does not reach does not count as a switch.
    ring = "10 0 1 1 1 2 3 1", "20 1 0 2 2 1 1 2", "30 1 1 0 2 2 1 3", "40 1 1 1 0 2 1 1", "50 2 2 1 1 0 2 1"
    for text in "40\n20", "60\n40\n80\n20":
        yield "a ring in an order of some", RINGS, text, plan(RING_LIDS, *ring)


# Topologies in which a switch and an adapter have the same GUID.
TWINS = (
    'Switch 1 "S" guid 0x10\nHca 1 "H" guid 0x10\n',
    'Hca 1 "H" guid 0x10\nSwitch 1 "S" guid 0x10\n',
)


def run_orders() -> Iterator[tuple[str, str, Ended]]:
    """Yields command lines of runs, with the text of roots and how they end. `FABRIC_OF_TREE` is the topology of the
    tree. The other files are those of `sample_files.py`: `TOPOLOGY` has only an adapter, `FAULTY` and `BYTES` are
    refused as either text, `EMPTY` as neither. There is no file `NONE`."""
    spread = "run --routing spread --roots"
    yield f"{spread} NONE TOPOLOGY SCHEDULE", "20", says(4, "NONE: cannot open")
    yield f"{spread} missing NONE NONE", "20", says(4, "missing: cannot open")
    yield f"{spread} ROOTS NONE missing", "20 30", says(4, "NONE: cannot open")
    yield f"{spread} ROOTS FABRIC_OF_TREE NONE", "20 30", says(4, "NONE: cannot open")
    yield f"{spread} ROOTS . NONE", "", says(4, "NONE: cannot open")
    yield f"{spread} . TOPOLOGY SCHEDULE", "", says(4, ".: read failed")
    yield f"{spread} . FAULTY BYTES", "", says(4, ".: read failed")
    yield f"{spread} ROOTS . SCHEDULE", "20 30", refused("ROOTS: line 1: syntax")
    yield f"{spread} ROOTS . SCHEDULE", "", says(4, ".: read failed")
    yield f"{spread} ROOTS FAULTY .", "", says(4, ".: read failed")
    yield f"{spread} ROOTS FAULTY BYTES", "20\n20", refused("ROOTS: line 2: repeated")
    yield f"{spread} ROOTS FAULTY BYTES", "", refused("FAULTY: line 1: syntax")
    yield f"{spread} ROOTS BYTES FAULTY", "100", refused("BYTES: not UTF-8")
    yield f"{spread} ROOTS FABRIC_OF_TREE FAULTY", "100", refused("FAULTY: line 2: syntax")
    yield f"{spread} ROOTS FABRIC_OF_TREE BYTES", "", refused("BYTES: not UTF-8")
    yield f"{spread} ROOTS FABRIC_OF_TREE SWEPT", "", refused("ROOTS: no root")
    yield f"{spread} ROOTS TOPOLOGY SCHEDULE", "100", refused("ROOTS: no usable switch 0000000000000100")
    yield f"{spread} ROOTS TOPOLOGY SCHEDULE", "", refused("ROOTS: no root")
    yield f"{spread} ROOTS EMPTY EMPTY", "20", refused("ROOTS: no usable switch 0000000000000020")
    yield f"{spread} ROOTS EMPTY EMPTY", "", refused("ROOTS: no root")
    yield f"{spread} ROOTS FABRIC_OF_TREE EMPTY", "20", prints("")
    spread = "run --routing spread --order"
    yield f"{spread} NONE TOPOLOGY SCHEDULE", "20", says(4, "NONE: cannot open")
    yield f"{spread} ROOTS NONE missing", "20 30", says(4, "NONE: cannot open")
    yield f"{spread} ROOTS . SCHEDULE", "20 30", refused("ROOTS: line 1: syntax")
    yield f"{spread} ROOTS FAULTY BYTES", "20\n20", refused("ROOTS: line 2: repeated")
    yield f"{spread} ROOTS FAULTY BYTES", "", refused("FAULTY: line 1: syntax")
    yield f"{spread} ROOTS BYTES FAULTY", "100", refused("BYTES: not UTF-8")
    yield f"{spread} ROOTS EMPTY EMPTY", "20", prints("")


def long_text(count: int) -> Iterator[tuple[str, Ended]]:
    """Yields two texts and how they end: `count` roots, none of which is a switch, and the roots with the first one
    repeated."""
    lines = [f"0x{number:x}" for number in range(0x10000, 0x10000 + count)]
    yield "\n".join(lines), refused(f"ROOTS: no usable switch {0x10000:016x}")
    yield "\n".join([*lines, lines[0]]), refused(f"ROOTS: line {count + 1}: repeated")
