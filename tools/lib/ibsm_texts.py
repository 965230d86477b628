"""Reads the texts that `ibsm facts` and `ibsm plan` print. docs/FORMATS.md has their forms.

An end is a pair of a node's GUID and a port. A text that is cut or not in its form raises `Refused`.
"""
from __future__ import annotations

import contextlib
import io
import os
import pathlib
import re
import sys
from collections.abc import Callable, Iterable, Iterator, Mapping, Sequence
from typing import Any, BinaryIO, TextIO

import progress
import version

GUID = "([0-9a-f]{16})"
NUMBER = "([0-9]{1,10})"
END = f"{GUID}/{NUMBER}"
# By kind of fact: what it is about, and its value.
FACTS = {
    "node": (GUID, f"(ca|switch|router) {NUMBER}"),
    "portguid": (END, GUID),
    "link": (END, END),
    "port": (END, "(up|down)"),
    "claim": (END, NUMBER),
    "cap": (GUID, NUMBER),
}
FORMS = {kind: re.compile(f"{kind} {about} (?:(disputed)|{value}) @{NUMBER}") for kind, (about, value) in FACTS.items()}
# The first line if the floor is over 1: older facts are forgotten.
FLOOR = re.compile(f"floor {NUMBER}")
LID_LINE = re.compile(f"lid {NUMBER} {END}(?: lmc ([1-7]))?")
SWITCH_LINE = re.compile(f"switch {GUID} top {NUMBER}")
BLOCK_NUMBER = re.compile(NUMBER)
NO_WAY = 255
NONE = bytes([NO_WAY])
ENTRIES = 64
GREATEST_LID = 0xBFFF
# A node's port by GUID and number, and the names of nodes by GUID, for type hints.
End, Names = tuple[int, int], dict[int, str]


class Refused(Exception):
    """The input of a tool is not what it takes, or its task must not be done."""


def ends(tool: str, doc: str, work: Callable[[list[str]], int]) -> int:
    """Runs a tool, and returns its exit status. `work` takes the words after the tool's name. A failure is reported in
    one line."""
    # Words after -- are for another program.
    own = set(sys.argv[1 : sys.argv.index("--")] if "--" in sys.argv else sys.argv[1:])
    try:
        if {"-h", "--help"} & own:
            print(as_called(doc.strip()), flush=True)
            return 0
        if {"-V", "--version"} & own:
            print(version.told(tool), end="", flush=True)
            return 0
        with progress.told(tool):
            status = work(sys.argv[1:])
            sys.stdout.flush()
        return status
    except BrokenPipeError:
        # The reader has seen enough. Python would report the closed pipe again at exit.
        os.dup2(os.open(os.devnull, os.O_WRONLY), sys.stdout.fileno())
        return 4
    except Refused as fault:
        said, status = fault, 3
    except OSError as fault:
        said, status = told(fault), 4
    except MemoryError:
        said, status = "out of memory", 5
    print(f"{tool}: {said}", file=sys.stderr)
    return status


def told(fault: OSError) -> str:
    """Returns the text of an OSError, with the file's name once. An error without a file name is taken to be of
    standard output."""
    if fault.strerror is None:
        return str(fault)
    return f"{fault.filename or 'standard output'}: {fault.strerror}"


def as_called(doc: str) -> str:
    """Returns a tool's help. In the help of an installed tool, its name is the one by which it was called."""
    called = pathlib.Path(sys.argv[0])
    return (
        doc if called.resolve().parent.name == "tools" else doc.replace(f"tools/{called.resolve().name}", called.name)
    )


def usage_of(doc: str) -> str:
    """Returns a tool's usage, for its parser."""
    return as_called(doc).split("usage: ")[1].split("\n\n")[0]


def name_of(end: End) -> str:
    """Returns an end as texts spell it: the node's GUID and the port."""
    return f"{end[0]:016x}/{end[1]}"


def end_in(word: str) -> End | None:
    """Returns the end that a text `G/p` names, with or without 0x before its hex digits, or None."""
    form = re.fullmatch(r"(?:0x)?([0-9a-fA-F]{1,16})/([0-9]{1,3})", word)
    return (int(form[1], 16), int(form[2])) if form else None


_input = []


def standard_input() -> bytes:
    """Returns the bytes of standard input, which is read once."""
    if not _input:
        _input.append(sys.stdin.buffer.read())
    return _input[0]


def opened(path: str | os.PathLike, **how: Any) -> TextIO:
    """Opens a text; `-` is standard input, which is read once, however often it is opened."""
    return io.TextIOWrapper(io.BytesIO(standard_input()), **how) if path == "-" else open(path, **how)


def opened_bytes(path: str | os.PathLike, most: int = -1) -> bytes:
    """Returns the bytes of a file or of standard input, at most `most` of them."""
    if path == "-":
        return standard_input()[: most if most >= 0 else None]
    with open(path, "rb") as file:
        return file.read(most)


def each_line(
    path: str | os.PathLike, take: Callable[[int, str], object], errors: str = "strict", encoding: str = "ascii"
) -> None:
    """Passes each line of a text with its number to `take`, so that the whole text is never in memory.

    The first refusal of `take` is raised at the end, once the whole text is known to be well-formed, with an end to its
    last line.
    """
    refused, line = None, "\n"
    with opened(path, encoding=encoding, errors=errors) as file:
        try:
            with progress.reading(path, file):
                for number, line in enumerate(file, 1):
                    try:
                        if refused is None:
                            take(number, line[:-1])
                    except Refused as fault:
                        refused = fault
        except UnicodeDecodeError:
            fault = f"{path}: not a text: is it a recording or store file, and not what ibsm printed of it?"
            raise Refused(fault) from None
    if not line.endswith("\n"):
        raise Refused(f"{path}: its last line has no end: is it cut?")
    if refused is not None:
        raise refused


def lines_of(path: str | os.PathLike, errors: str = "strict", encoding: str = "ascii") -> list[str]:
    """Returns the lines of a text. The last line must end with a newline."""
    lines = []
    each_line(path, lambda _, line: lines.append(line), errors, encoding)
    return lines


def names_in(path: str | os.PathLike) -> Names:
    """Returns the names of a node name map, by GUID."""
    found = {}
    with opened(path, encoding="utf-8", errors="replace") as file:
        for line in file:
            if form := re.match(r'\s*0x([0-9a-fA-F]{1,16})\s+"([^"]*)"', line):
                found[int(form[1], 16)] = form[2]
    return found


NAMED = re.compile(r"\b(?:0x)?([0-9a-f]{16})(?:/[0-9]{1,3})?(?![0-9A-Za-z_])")


def with_names(line: str, names: Names) -> str:
    """Returns a line with names after its GUIDs and ends."""

    def called(found: re.Match) -> str:
        name = names.get(int(found[1], 16))
        return found[0] if name is None else f'{found[0]} "{name}"'

    return NAMED.sub(called, line)


@contextlib.contextmanager
def whole(path: str | os.PathLike) -> Iterator[BinaryIO]:
    """Yields a temporary file to write bytes to, and renames it to `path` once all is written. So `path` is whole or
    unchanged."""
    if os.path.exists(path) and not os.path.isfile(path):
        raise OSError(f"{path}: it is no regular file")
    temporary = f"{path}.{os.getpid()}"
    try:
        with open(temporary, "xb") as file:
            yield file
            file.flush()
            os.fsync(file.fileno())
        os.rename(temporary, path)
    except BaseException as fault:
        if os.path.exists(temporary):
            os.unlink(temporary)
        if isinstance(fault, OSError) and fault.strerror:
            raise OSError(fault.errno, fault.strerror, path) from None
        raise


def put(path: str | os.PathLike, text: str) -> None:
    """Writes a file whole, or leaves it unchanged."""
    with whole(path) as file:
        file.write(text.encode())


def plan_lines(
    ranges: dict[End, tuple[int, int]], tops: dict[int, int], tables: Mapping[int, bytes | bytearray]
) -> Iterator[str]:
    """Yields the lines of a plan, from the first and last LID of each end, and from the top and the entries (from LID 0
    on) of each switch by GUID."""
    for end, (first, last) in sorted(ranges.items(), key=lambda item: (item[1], item[0])):
        lmc = (last - first + 1).bit_length() - 1
        yield f"lid {first} {name_of(end)}" + (f" lmc {lmc}" if lmc else "")
    for guid, table in sorted(tables.items()):
        yield f"switch {guid:016x} top {tops[guid]}"
        for start in range(0, tops[guid] + 1, ENTRIES):
            yield f"block {start // ENTRIES} {table[start : start + ENTRIES].ljust(ENTRIES, NONE).hex()}"


class Facts:
    """The text of `ibsm facts`, from a file or from lines. A file's lines are kept only if asked for."""

    def __init__(self, path: str | os.PathLike, keeps_lines: bool = False, lines: Iterable[str] | None = None) -> None:
        self.nodes = {}  # GUID: type, ports
        self.port_guids = {}
        self.links = {}  # end: far end
        self.up = {}
        self.claims = {}
        self.caps = {}
        self.disputed = []  # kind, GUID, port
        self.generations = set()
        self.floor = 1
        self.path, self.lines = path, [] if keeps_lines else None
        if lines is None:
            each_line(path, self.take_line)
        else:
            for number, line in enumerate(lines, 1):
                self.take_line(number, line)

    def take_line(self, number: int, line: str) -> None:
        """Takes in a line, and refuses one that is not a fact. The first line may give the floor."""
        if self.lines is not None:
            self.lines.append(line)
        floor = FLOOR.fullmatch(line) if number == 1 else None
        if floor:
            self.floor = int(floor[1])
        elif not self.take(line):
            raise Refused(f"{self.path}: line {number} is no fact: {line[:60]}")

    def take(self, line: str) -> bool:
        """Takes in a fact, and returns whether the line is one."""
        kind = line.split(" ", 1)[0]
        form = kind in FORMS and FORMS[kind].fullmatch(line)
        if not form:
            return False
        *words, generation = form.groups()
        self.generations.add(int(generation))
        guid = int(words.pop(0), 16)
        port = 0 if kind in ("node", "cap") else int(words.pop(0))
        if words.pop(0):
            self.disputed.append((kind, guid, port))
        elif kind == "node":
            self.nodes[guid] = words[0], int(words[1])
        elif kind == "portguid":
            self.port_guids[guid, port] = int(words[0], 16)
        elif kind == "link":
            self.links[guid, port] = int(words[0], 16), int(words[1])
        elif kind == "port":
            self.up[guid, port] = words[0] == "up"
        elif kind == "claim":
            self.claims[guid, port] = int(words[0])
        else:
            self.caps[guid] = int(words[0])
        return True

    def type_of(self, guid: int) -> str:
        """Returns the type of a node, or an empty text if it is not known."""
        return self.nodes.get(guid, ("", 0))[0]

    def is_switch(self, guid: int) -> bool:
        """Returns whether a node is known to be a switch."""
        return self.type_of(guid) == "switch"

    def end_ports(self) -> list[End]:
        """Returns the end ports: port 0 of each switch, and the other ports of each adapter, if their GUID is known."""
        return [end for end in self.port_guids if self.type_of(end[0]) and self.is_switch(end[0]) == (end[1] == 0)]

    def wire(self, end: End) -> End | None:
        """Returns the far end of the cable in a port if both ends report it and are up, or else None."""
        far = self.links.get(end)
        if far is None or far == end or self.links.get(far) != end or not (self.up.get(end) and self.up.get(far)):
            return None
        return far

    def cables(self) -> list[tuple[End, End, str]]:
        """Returns each cable once: its ends, and whether it is `up`, `down`, or reported by `one` end only."""
        found = {}
        for end, far in sorted(self.links.items()):
            if (far, end) not in found:
                found[end, far] = "one" if self.links.get(far) != end else "up" if self.wire(end) else "down"
        return [(end, far, kind) for (end, far), kind in found.items()]


class Plan:
    """The text of `ibsm plan`, or what a fabric holds in that form: LIDs, and each switch's top and entries. Lines are
    kept only if they are not those of the file."""

    def __init__(self, path: str | os.PathLike, lines: Sequence[str] | None = None) -> None:
        self.owners = {}  # LID: end, for each LID of a range
        self.ranges = {}  # end: its first LID, and the last
        self.shared = []  # LIDs that a second end has, with that end
        self.tops = {}
        self.tables = {}  # GUID: entries from LID 0 on, in whole blocks
        self.last, self.blocks = None, []  # the current switch, and its blocks
        self.path, self.lines = path, lines
        if lines is None:
            each_line(path, self.take_line)
        else:
            for number, line in enumerate(lines, 1):
                self.take_line(number, line)
        self.close()
        self.greatest = max(self.owners, default=0)
        for guid, table in self.tables.items():
            if len(table) != (self.tops[guid] // ENTRIES + 1) * ENTRIES:
                blocks = len(table) // ENTRIES
                raise Refused(f"{path}: switch {guid:016x} has {blocks} blocks for top {self.tops[guid]}: is it cut?")

    def take_line(self, number: int, line: str) -> None:
        """Takes in a line, and refuses one that does not belong to a plan."""
        if line.startswith("block "):
            is_taken = self.take_block(line)
        else:
            is_taken = self.take_lids(line) or self.take_switch(line)
        if not is_taken:
            raise Refused(f"{self.path}: line {number} is no line of a plan: {line[:60]}")

    def take_lids(self, line: str) -> bool:
        """Takes in the line of an end port's LIDs, and returns whether the line is one."""
        form = LID_LINE.fullmatch(line)
        if not form:
            return False
        first, end = int(form[1]), (int(form[2], 16), int(form[3]))
        last = first + 2 ** int(form[4] or 0) - 1
        self.ranges.setdefault(end, (first, last))
        for lid in range(first, last + 1):
            if self.owners.setdefault(lid, end) != end:
                self.shared.append((lid, end))
        return True

    def take_switch(self, line: str) -> bool:
        """Takes in the line that begins a switch's table, and returns whether the line is one, and the first for this
        switch."""
        form = SWITCH_LINE.fullmatch(line)
        guid = int(form[1], 16) if form else None
        if guid is None or guid in self.tops:
            return False
        self.close()
        self.last, self.tops[guid] = guid, int(form[2])
        return True

    def take_block(self, line: str) -> bool:
        """Takes in the next block of the current switch, and returns whether it is well-formed."""
        number, _, digits = line[6:].partition(" ")
        try:
            entries = bytes.fromhex(digits)
        except ValueError:
            return False
        # `fromhex` also takes blanks and upper-case digits, which no plan has.
        if self.last is None or len(entries) != ENTRIES or entries.hex() != digits:
            return False
        if number != str(len(self.blocks)) and not (BLOCK_NUMBER.fullmatch(number) and int(number) == len(self.blocks)):
            return False
        self.blocks.append(entries)
        return True

    def close(self) -> None:
        """Keeps the table of the current switch."""
        if self.last is not None:
            self.tables[self.last], self.blocks = b"".join(self.blocks), []

    def entry(self, guid: int, lid: int) -> int:
        """Returns the port by which a switch sends packets for a LID; NO_WAY above its top, and for an unknown
        switch."""
        return self.tables[guid][lid] if lid <= self.tops.get(guid, -1) else NO_WAY

    def row(self, guid: int) -> bytes:
        """Returns the entries of a switch from LID 0 up to its top; none of a switch without tables."""
        return self.tables[guid][: self.tops[guid] + 1] if guid in self.tables else b""
