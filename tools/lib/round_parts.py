"""Parts of `tools/round`: how a round ends, what an audit says of tables, and a running OpenSM."""
from __future__ import annotations

import contextlib
import datetime
import hashlib
import os
import pathlib
import re
import signal
import time

from loads import times_mean


class Ended(Exception):
    """A round ends here, with this exit status and verdict. What goes on is its command with the words `add`, and
    without the options `leave_out`; nothing does if `add` is None."""

    def __init__(
        self, status: int, verdict: str, add: list[str] | None = None, leave_out: tuple[str, ...] = ()
    ) -> None:
        super().__init__(verdict)
        self.status, self.verdict, self.add, self.leave_out = status, verdict, add, leave_out


# Names the OpenSM that runs instead of another process.
ANOTHER = ["--opensm", "$(pidof opensm)"], ("--opensm",)


def now() -> str:
    """Returns the time now, in UTC."""
    return datetime.datetime.now(datetime.timezone.utc).isoformat(timespec="milliseconds")


def seconds_between(one: str, other: str) -> float:
    """Returns the seconds from one time to another."""
    return (datetime.datetime.fromisoformat(other) - datetime.datetime.fromisoformat(one)).total_seconds()


def digest(path: str | pathlib.Path) -> bytes:
    """Returns the SHA-256 digest of a file."""
    found = hashlib.sha256()
    with open(path, "rb") as file:
        while piece := file.read(1 << 20):
            found.update(piece)
    return found.digest()


def last_line(text: str) -> str:
    """Returns the last line that a program printed, or a text that it said nothing."""
    return (text.strip() or "it said nothing").splitlines()[-1]


class Audit:
    """The text of an audit: how many pairs there are, how many of them arrive and, if it says so, how busy channels
    are."""

    def __init__(self, text: str) -> None:
        pairs = re.search(r"^pairs (\d+) arrive (\d+)$", text, re.M)
        load = re.search(r"^load max (\d+) mean (\d+\.\d+)$", text, re.M)
        beside = re.search(r"^between adapters pairs (\d+) ", text, re.M)
        self.pairs, self.arrive = map(int, pairs.groups()) if pairs else (0, 0)
        self.of_adapters = int(beside[1]) if beside else 0
        self.lost = self.pairs - self.arrive
        self.busiest, self.mean = (int(load[1]), load[2]) if load else (None, None)

    def is_busier_than(self, other: "Audit") -> bool:
        """Returns whether the busiest channel carries, for each pair of adapters, over a fifth more than that of
        `other`."""
        if None in (self.busiest, other.busiest) or not other.busiest:
            return False
        here, there = self.of_adapters or 1, other.of_adapters or 1
        return 5 * self.busiest * there > 6 * other.busiest * here

    def times(self) -> str:
        """Returns how many times the mean the busiest channel carries."""
        return times_mean(self.busiest, float(self.mean))

    def load(self) -> dict[str, float]:
        """Returns how busy channels are, as the status of a round has it."""
        return {"max": self.busiest, "mean": float(self.mean)}


def name_of_process(process: int) -> str:
    """Returns the name of a process. Ends the round if there is none."""
    try:
        return pathlib.Path(f"/proc/{process}/comm").read_text().strip()
    except OSError:
        raise Ended(3, f"there is no process {process}: has OpenSM ended?", *ANOTHER) from None


def file_of(process: int, short: str, long: str) -> str | None:
    """Returns the file that an option in the command line of an OpenSM names, or None."""
    words = pathlib.Path(f"/proc/{process}/cmdline").read_bytes().decode(errors="surrogateescape").split("\0")
    for i, word in enumerate(words[:-1]):
        name = words[i + 1] if word in (short, long) else None
        for begin in (f"{long}=", short):
            if name is None and word.startswith(begin) and len(word) > len(begin):
                name = word[len(begin) :]
        if name:
            return name if os.path.isabs(name) else os.path.join(os.readlink(f"/proc/{process}/cwd"), name)
    return None


def log_of(process: int | None, named: str | None) -> str:
    """Returns OpenSM's log: the one that is named, or else the one in the command line of the process, or else the one
    that OpenSM writes if nothing is said."""
    found = named
    if process is not None and not found:
        with contextlib.suppress(OSError):
            found = file_of(process, "-f", "--log_file")
    return found or "/var/log/opensm.log"


def judge_opensm(process: int, plan: str | pathlib.Path) -> None:
    """Ends the round if a process is not an OpenSM, or is one that routes by a file other than `plan`."""
    if (name := name_of_process(process)) != "opensm":
        raise Ended(3, f"process {process} is {name}, not opensm", *ANOTHER)
    try:
        named = file_of(process, "-U", "--lfts_file")
    except OSError:
        return
    if named and os.path.realpath(named) != os.path.realpath(plan):
        raise Ended(3, f"OpenSM {process} routes by {named}, not by {plan} (-U in its command line)")


def ask_for_sweep(process: int, log: str, seconds: float) -> None:
    """Sends HUP to an OpenSM, and waits until its log reports again that the subnet is up."""
    with open(log, "rb") as file:
        file.seek(0, os.SEEK_END)
        os.kill(process, signal.SIGHUP)
        end, said = time.monotonic() + seconds, b""
        while time.monotonic() < end:
            if os.path.getsize(log) < file.tell():
                file.seek(0)
            said = said[-20:] + file.read()
            if b"SUBNET UP" in said:
                return
            if not os.path.exists(f"/proc/{process}"):
                raise Ended(3, f"OpenSM {process} has ended meanwhile")
            time.sleep(0.05)
    raise Ended(
        1, f"{log} does not say SUBNET UP within {seconds:g} seconds; without -d 2 OpenSM keeps its log in memory", []
    )


class Log:
    """OpenSM's log, which holds a round back until OpenSM has swept anew."""

    def __init__(self, path: str | pathlib.Path) -> None:
        self.path, self.at = path, 0

    def note(self) -> None:
        """Notes the end of the log, so that only later sweeps count as news."""
        try:
            self.at = os.path.getsize(self.path)
        except OSError:
            self.at = 0

    def has_news(self) -> bool:
        """Returns whether the log reports a sweep since `note`, or cannot be read."""
        try:
            if os.path.getsize(self.path) < self.at:
                self.at = 0
            with open(self.path, "rb") as file:
                file.seek(self.at)
                return b"SUBNET UP" in file.read()
        except OSError:
            return True
