"""A program in place of `ibsm` for tests of the tools where none is built: audits by `audit_model.py`.

usage: stand_in.py audit [--loads] [--all] [--way G/p,L] TABLES STORE

Lines that no tool counts by, of ways between adapters and of credit loops, tell of none.
"""
from __future__ import annotations

import argparse
import pathlib
import struct
import sys
from collections.abc import Iterator

sys.path.insert(0, str(pathlib.Path(__file__).resolve().parents[2] / "tools/lib"))

from audit_model import Subnet
from ibsm_texts import Facts, Plan, end_in
from record_files import KINDS, TYPES

WORDS, NAMES = {number: word for word, number in KINDS.items()}, {number: word for word, number in TYPES.items()}


def facts_in(store: bytes) -> Iterator[str]:
    """Yields the lines of facts of a store file."""
    for at in range(16, len(store), 32):
        kind, state, port, _, generation, guid, value = struct.unpack_from(">BBBBIQ16s", store, at)
        word = WORDS[kind]
        about = f"{guid:016x}" + ("" if word in ("node", "cap") else f"/{port}")
        told = {
            "node": lambda: f"{NAMES[value[0]]} {value[1]}",
            "portguid": lambda: value[:8].hex(),
            "link": lambda: f"{value[:8].hex()}/{value[8]}",
            "port": lambda: "up" if value[0] else "down",
            "claim": lambda: str(int.from_bytes(value[:2], "big")),
            "cap": lambda: str(int.from_bytes(value[:2], "big")),
        }[word]
        yield f"{word} {about} {told() if state == 1 else 'disputed'} @{generation}"


def main(words: list[str]) -> int:
    """Prints an audit, and returns its status."""
    parser = argparse.ArgumentParser()
    parser.add_argument("command", choices=["audit"])
    parser.add_argument("--loads", action="store_true")
    parser.add_argument("--all", action="store_true")
    parser.add_argument("--way")
    parser.add_argument("tables")
    parser.add_argument("store")
    options = parser.parse_args(words)
    subnet = Subnet(
        Facts(options.store, lines=facts_in(pathlib.Path(options.store).read_bytes())), Plan(options.tables)
    )
    lines = list(subnet.audit_lines(options.all))
    print("\n".join([*lines, "hops none", "load none", "credit loop none"]))
    print(subnet.load_lines() if options.loads else "", end="")
    if options.way:
        end, _, lid = options.way.partition(",")
        print(subnet.way_line(end_in(end), int(lid)), end="")
    _, pairs, _, arrive = lines[0].split(" ")
    print("passes yes" if pairs == arrive else "passes no: pairs")
    return 0 if pairs == arrive else 1


if __name__ == "__main__":
    sys.exit(main(sys.argv[1:]))
