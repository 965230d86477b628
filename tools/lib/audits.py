"""Audits by the program, for tools that have facts and tables as texts."""
from __future__ import annotations

import os
import pathlib
import struct

from ibsm_texts import Facts, Plan, Refused, lines_of
from json_forms import AuditRead, fault_of_lines
from program import printed_by
from record_files import store_of


def stored(facts: Facts) -> bytes:
    """Returns the store file of facts that keep their lines. Refuses numbers for which a store file has no room."""
    try:
        return store_of("".join(f"{line}\n" for line in facts.lines))
    except struct.error as fault:
        raise Refused(f"{facts.path}: a number is too large for a store file: {fault}") from None


class Auditor:
    """The program, with the tables that it audits, in a folder for its files."""

    def __init__(self, program: str, room: str | os.PathLike, held: Plan) -> None:
        self.program, self.room = program, pathlib.Path(room)
        self.tables = self.room / "held"
        lines = lines_of(held.path) if held.lines is None else held.lines
        self.tables.write_text("".join(f"{line}\n" for line in lines))

    def put(self, store: bytes) -> pathlib.Path:
        """Writes a store file, and returns its path. Each process has one path."""
        path = self.room / f"{os.getpid()}.store"
        path.write_bytes(store)
        return path

    def text(self, store: bytes, *options: str) -> str:
        """Returns the text of the audit of the tables in the subnet of a store file."""
        return printed_by(self.program, "audit", *options, self.tables, self.put(store), statuses=(0, 1))

    def audit(self, store: bytes, *options: str) -> AuditRead:
        """Returns the audit of the tables in the subnet of a store file."""
        return audit_in(self.text(store, *options))


def audit_in(text: str) -> AuditRead:
    """Returns the audit that a text has."""
    reader = AuditRead()
    if number := fault_of_lines(reader, text.splitlines()):
        raise Refused(f"line {number} of the audit is no line of one")
    if reader.lacks():
        raise Refused("the audit lacks lines: is it cut?")
    return reader
