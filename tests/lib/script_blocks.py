"""Files of rows that are scripts with what follows from them."""
from __future__ import annotations

import pathlib
from collections.abc import Iterator


def blocks_of(path: pathlib.Path) -> tuple[list[tuple[str, list[str]]], dict[str, list[str]]]:
    """Returns the rows of a file, each with its title and lines, and the lines that rows use, by name."""
    rows, used, lines = [], {}, []
    for line in path.read_text().splitlines():
        head, _, rest = line.partition(" ")
        if head == "==":
            lines = []
            rows.append((rest, lines))
        elif head == "::":
            lines = used[rest] = []
        elif line and head != "#":
            lines.append(line)
    return rows, used


def script_of(lines: list[str], used: dict[str, list[str]]) -> Iterator[str]:
    """Yields the lines of a script, with those that it uses."""
    for line in lines:
        if line.startswith("> use "):
            yield from script_of(used[line[6:]], used)
        elif line.startswith("> "):
            yield line[2:]


def wanted_of(lines: list[str]) -> list[str]:
    """Returns what is to follow from a script."""
    return [line for line in lines if not line.startswith("> ")]
