"""The built program, run in a folder of its own, and the texts that its tests compare.

A test ends with 1 at the first thing that is not as it should be, and says what that is.
"""
from __future__ import annotations

import collections
import os
import pathlib
import subprocess
import sys
from collections.abc import Iterable
from typing import Any

from paths import ROOT

TEST = pathlib.Path(sys.argv[0]).name
# A block of a plan's text: the number of its entries, the number of its digits, and the entry of an unreachable LID.
ENTRIES, DIGITS, NO_WAY = 64, 128, 255

# How a run ends: its exit status, its standard error and its standard output, both in bytes.
Ended = collections.namedtuple("Ended", "status said printed")


def prints(text: str | bytes) -> Ended:
    """Returns the end of a successful run that prints `text`."""
    return Ended(0, b"", text if isinstance(text, bytes) else text.encode())


def says(status: int, line: str) -> Ended:
    """Returns the end of a run that prints nothing and says `line`."""
    return Ended(status, f"ibsm: {line}\n".encode(), b"")


def refused(line: str) -> Ended:
    """Returns the end of a run that refuses a file or a text and says `line` about it."""
    return says(3, line)


def check(holds: object, what: str) -> None:
    """Ends the test if something does not hold, and says what."""
    if not holds:
        print(f"{TEST}: FAILED: {what}")
        sys.exit(1)


def check_end(ended: Ended, wanted: Ended, what: str) -> None:
    """Checks that a run ends as wanted, byte for byte."""
    for part, there, should in zip(Ended._fields, ended, wanted):
        check(there == should, f"{what}: {part} is {shown(there)}\nand should be {shown(should)}")


def shown(part: bytes | int) -> str | int:
    """Returns an exit status, or the beginning of an output as text."""
    return part.decode(errors="backslashreplace")[:4000] if isinstance(part, bytes) else part


def help_where_asked() -> None:
    """Prints the test's help and exits if the command line asks for it."""
    if {"-h", "--help"} & set(sys.argv[1:]):
        print(sys.modules["__main__"].__doc__.strip())
        sys.exit(0)


def the_program() -> pathlib.Path:
    """Returns the program that the command line names, or the one built here. Prints help if the command line asks for
    it."""
    help_where_asked()
    program = pathlib.Path(sys.argv[1] if len(sys.argv) > 1 else ROOT / "crates/ibsm/out/ibsm").resolve()
    if not program.exists():
        print(f"{TEST}: there is no program {program}", file=sys.stderr)
        sys.exit(1)
    return program


class Runs:
    """A folder to run the program in, and the number of runs."""

    def __init__(self, program: pathlib.Path, folder: str | pathlib.Path) -> None:
        self.program, self.folder, self.count = program, pathlib.Path(folder), 0

    def put(self, name: str, data: bytes) -> None:
        (self.folder / name).write_bytes(data)

    def run(self, words: Iterable[str | os.PathLike[str]], **streams: Any) -> Ended:
        self.count += 1
        streams = {"stdin": subprocess.DEVNULL, "stdout": subprocess.PIPE, "stderr": subprocess.PIPE} | streams
        # Help shows the program under argv[0].
        done = subprocess.run(["ibsm", *words], executable=self.program, cwd=self.folder, timeout=60, **streams)
        return Ended(done.returncode, done.stderr or b"", done.stdout or b"")


class Row:
    """A schedule in a topology, and how its run ends."""

    def __init__(self, place: str, title: str) -> None:
        self.place, self.title, self.parts = place, title, {}
        self.numbers, self.ends = range(1), None


def read_rows(folder: pathlib.Path = ROOT / "tests" / "runs") -> tuple[list[Row], dict[str, list[str]]]:
    """Returns the rows of all files, and the texts that they name. `tests/test-runs` describes the files."""
    rows, texts = [], {}
    for file in sorted(folder.glob("*.rows")):
        lines = None
        for number, line in enumerate(file.read_text().splitlines(), 1):
            head, _, rest = line.partition(" ")
            if head == "::":
                lines = texts.setdefault(rest, [])
            elif head == "==":
                rows.append(Row(f"{file.name}:{number}", rest))
                lines = []
            elif head == "--":
                word, _, rest = rest.partition(" ")
                lines = rows[-1].parts.setdefault(word, [])
                if word == "for":
                    first, last = map(int, rest.split()[1:])
                    rows[-1].numbers = range(first, last + 1)
                elif word == "ends":
                    status, _, rows[-1].ends = rest.partition(" ")
                    rows[-1].status = int(status)
            elif lines is not None:
                lines.append(line)
    for lines in [*texts.values(), *(it for row in rows for it in row.parts.values())]:
        # Empty lines separate rows and texts.
        while lines and not lines[-1]:
            lines.pop()
    return rows, texts


def whole_blocks(lines: Iterable[str]) -> bytes:
    """Returns the text of `lines`, with the entries that `..` stands for in a block."""
    out = []
    for line in lines:
        if line.startswith("block ") and line.endswith(".."):
            head, number, entries = line[:-2].split(" ")
            line = f"{head} {number} {entries.ljust(DIGITS, 'f')}"
        out.append(f"{line}\n")
    return "".join(out).encode()


def plan_lines(lids: dict[int, tuple[int, int]], tables: dict[int, dict[int, int]], lmc: int = 0) -> list[str]:
    """Returns the lines of a plan. `lids`: the end port of each LID, a GUID and a port. `tables`: by switch GUID, its
    port for each LID. Under an LMC an adapter's port has 2^LMC LIDs from its LID on."""
    top = max(lid + (2**lmc - 1 if port else 0) for lid, (_, port) in lids.items())
    told = f" lmc {lmc}" if lmc else ""
    lines = [f"lid {lid} {guid:016x}/{port}{told if port else ''}" for lid, (guid, port) in sorted(lids.items())]
    for switch, ports in sorted(tables.items()):
        lines.append(f"switch {switch:016x} top {top}")
        for block in range(top // ENTRIES + 1):
            entries = bytes(ports.get(lid, NO_WAY) for lid in range(ENTRIES * block, ENTRIES * (block + 1)))
            lines.append(f"block {block} {entries.hex()}")
    return lines
