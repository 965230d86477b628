"""What runs cost, for `tests/at-scale`, compared with what `tests/costs.table` notes: instructions and allocations of
the runs in growth.py, calls of the functions in function_costs.py and the instructions in them, and memory of the runs
in past_sizes.py. A run asks for memory, and calls a function, no more often than noted. Valgrind counts the same
instructions on each run, and on all machines except for what the C library chooses by processor, so a run or a function
may take a tenth more than noted. The processor's own counter counts some others too, and memory comes in pages, so
these may exceed the note by more."""
from __future__ import annotations

from paths import ROOT
from scale import check

PATH = ROOT / "tests/costs.table"
HEAD = "# What runs cost, by which tests/at-scale bounds them; it writes them with --write, of the program as it is.\n"
INSTRUCTIONS, ALLOCATIONS, MEMORY = "millions of instructions", "allocations", "megabytes"
CALLS, WITHIN = "calls of functions", "thousands of instructions in functions"
KINDS = INSTRUCTIONS, ALLOCATIONS, CALLS, WITHIN, MEMORY
# What valgrind alone counts, or counts well enough to be noted.
BY_VALGRIND = INSTRUCTIONS, CALLS, WITHIN
# How many times the noted cost a run may take, by what is counted or by what counts it.
MORE = {"valgrind": 1.1, "perf": 4 / 3, ALLOCATIONS: 1, CALLS: 1, WITHIN: 1.1, MEMORY: 1.25}
# The megabytes that an empty run takes on some machines, with what starts it.
LEAST = 16
# A cost below this part of the noted one shows that the note is too old to bound anything.
LESS = 0.8


def told(number: float) -> str:
    """Returns a number with at most two decimals."""
    return f"{number:.2f}".rstrip("0").rstrip(".")


class Noted:
    """The costs that the table notes, and those that were found."""

    def __init__(self) -> None:
        kind = None
        self.noted, self.found = ({kind: {} for kind in KINDS} for _ in range(2))
        for line in PATH.read_text().splitlines() if PATH.exists() else []:
            if line.startswith("  "):
                title, _, number = line.strip().rpartition(": ")
                self.noted[kind][title] = float(number)
            elif not line.startswith("#"):
                kind = line

    def find(self, kind: str, title: str, number: float) -> None:
        """Keeps the cost of a run, or the greatest one of several runs with the same title."""
        self.found[kind][title] = max(round(number, 2), self.found[kind].get(title, LEAST if kind == MEMORY else 0))

    def check_all(self, counter: str) -> None:
        """Compares the costs that were found with the noted ones. `counter` is what counted instructions, or timed runs
        instead."""
        for kind, found in self.found.items():
            more = MORE.get(counter if kind == INSTRUCTIONS else kind)
            if more is None or kind in (CALLS, WITHIN) and counter != "valgrind":
                continue
            for title, number in found.items():
                noted = self.noted[kind].get(title)
                if noted is None:
                    check(False, f"{title}: {told(number)} {kind}, and none are noted: at-scale --write notes them")
                else:
                    check(number <= more * noted, f"{title}: {told(number)} {kind} in place of {told(noted)}")
                    if number < LESS * noted:
                        print(
                            f"at-scale: {title}: {told(number)} {kind} in place of {told(noted)}: at-scale --write "
                            "notes that"
                        )
            for title in self.noted[kind].keys() - found.keys():
                check(False, f"{title}: {kind} are noted, and none are found")

    def write(self, counter: str) -> None:
        """Notes the costs that were found. Those that valgrind counts stay as noted if something else counted."""
        if counter != "valgrind":
            self.found |= {kind: self.noted[kind] for kind in BY_VALGRIND}
        lines = [HEAD]
        for kind, found in self.found.items():
            lines += [f"{kind}\n", *(f"  {title}: {told(number)}\n" for title, number in found.items())]
        PATH.write_text("".join(lines))
