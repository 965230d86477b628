"""The bench of `tests/test`: fabrics that ibsim simulates, and the tools that run in them."""
from __future__ import annotations

import contextlib
import os
import pathlib
import re
import shutil
import signal
import subprocess
import sys
import time
from collections.abc import Callable, Iterable, Iterator
from typing import Any, TextIO

import paths
import sample_fabrics

# The rule by which rounds and seats plan if a test names no other one: that of `ibsm plan`.
RULE = "--routing", "updown"

SECONDS = 60


def wait_until(holds: Callable[[], object], seconds: float = SECONDS) -> bool:
    """Waits until `holds` returns true, and returns whether it did in time."""
    end = time.monotonic() + seconds
    while not holds():
        if time.monotonic() > end:
            return False
        time.sleep(0.05)
    return True


def text(path: pathlib.Path) -> str:
    """Returns the text of a file, or an empty one if there is no file."""
    return path.read_text(errors="replace") if path.exists() else ""


def simulated_library() -> str:
    """Returns the path of the library that stands for libibumad over ibsim."""
    return re.search("^sim_so=(.*)", text(pathlib.Path(shutil.which("ibsim-run"))), re.M)[1].strip('"')


@contextlib.contextmanager
def running(words: Iterable[object], **how: Any) -> Iterator[subprocess.Popen]:
    """Runs a process, and ends it by its id."""
    process = subprocess.Popen([str(word) for word in words], **how)
    try:
        yield process
    finally:
        process.terminate()
        try:
            process.wait(5)
        except subprocess.TimeoutExpired:
            process.kill()
            process.wait()


class Bench:
    """A fabric that ibsim simulates, a folder, and the number of checks made."""

    def __init__(self, program: pathlib.Path, room: pathlib.Path, library: str) -> None:
        self.program, self.room, self.library = program, room, library
        self.held = self.wrong = 0
        self.said = self.printed = ""
        self.fabric = self.path = self.console = None
        self.figures, self.seats = [], 0

    def check(self, holds: object, what: str) -> None:
        print(f"{'ok   ' if holds else 'WRONG'} {what}", flush=True)
        self.held += bool(holds)
        self.wrong += not holds

    def end(self, began: float) -> int:
        """Prints what was measured and how many checks hold, and returns the exit status."""
        print("\n".join(self.figures))
        print(f"test: {self.held} checks hold, {self.wrong} do not; {time.monotonic() - began:.0f} s")
        return 1 if self.wrong else 0

    def environment(self) -> dict[str, str]:
        return os.environ | {
            "IBSIM_SOCKNAME": f"tools-test-{os.getpid()}",
            "SIM_HOST": "H1",
            "LD_PRELOAD": self.library,
            "OSM_CACHE_DIR": f"{self.path}/d/",
            "OSM_TMP_DIR": f"{self.path}/d/",
        }

    def run(
        self,
        *words: object,
        simulated: bool = False,
        seat: str = "H1",
        bend: str | None = None,
        before: Callable[[], None] | None = None,
        stdin: TextIO | None = None,
    ) -> int:
        """Runs a command, keeps its output, and returns its exit status."""
        environment = None
        if simulated:
            environment = self.environment() | {"SIM_HOST": seat}
        if bend:
            environment |= {"BEND": bend, "LD_PRELOAD": f"{self.room}/out/bent_replies.so:{self.library}"}
        words = [str(word) for word in words]
        how = {"encoding": "latin1", "capture_output": True, "timeout": 300, "preexec_fn": before, "stdin": stdin}
        run = subprocess.run(words, cwd=self.path, env=environment, **how)
        self.printed, self.said = run.stdout, run.stderr
        return run.returncode

    def figure(self, what: str) -> None:
        """Keeps what the last recording took."""
        words = re.search(r"\d+ requests in [\d.]+ s", self.said)
        self.figures.append(f"{self.path.name}, {what}: {words[0] if words else self.said}")

    def programs(self) -> list[object]:
        """Returns the option that names the folder of the programs of a round."""
        its = self.room / "out/ibsm"
        if not its.exists():
            its.symlink_to(pathlib.Path(self.program).resolve())
        return ["--programs", self.room / "out"]

    def record(self, *words: object, **how: Any) -> int:
        return self.run(self.room / "out/record", *words, simulated=True, **how)

    def files(self, *words: object) -> int:
        audits = ("--ibsm", self.program) if words[0] == "write" else ()
        return self.run(sys.executable, paths.TOOLS / "opensm-files", *words, *audits)

    def draw(self, *words: object) -> int:
        audits = ("--ibsm", self.program) if "--way" in words else ()
        return self.run(sys.executable, paths.TOOLS / "draw", *words, *audits)

    def texts(self, name: str, *reports: str) -> None:
        """Writes the facts and the plan of reports."""
        for command in ("facts", "plan"):
            self.run(self.program, command, *(reports or [f"{name}.reports"]))
            (self.path / f"{name}.{command}").write_text(self.printed)

    def same(self, one: str, other: str) -> bool:
        first = text(self.path / one)
        return first != "" and first == text(self.path / other)

    def tell(self, line: str) -> None:
        self.console.write(line + "\n")
        self.console.flush()
        time.sleep(0.5)

    @contextlib.contextmanager
    def simulated(self, fabric: sample_fabrics.Fabric, name: str) -> Iterator[None]:
        self.fabric, self.path = fabric, self.room / name
        (self.path / "d").mkdir(parents=True)
        (self.path / "net").write_text(fabric.ibsim())
        ports = sum(fabric.ports(node) + 1 for node in fabric.nodes)
        switches = sum(map(fabric.is_switch, fabric.nodes))
        sizes = ["-N", len(fabric.nodes) + 8, "-S", switches + 8, "-P", ports + 64, "-L", sample_fabrics.ROOM]
        environment = self.environment()
        del environment["LD_PRELOAD"]
        with open(self.path / "ibsim.log", "w") as log:
            how = {"stdin": subprocess.PIPE, "stdout": log, "stderr": log, "text": True}
            how |= {"cwd": self.path, "env": environment}
            with running(["ibsim", "-s", *sizes, "net"], **how) as ibsim:
                self.console = ibsim.stdin
                ready = wait_until(lambda: "Network simulator ready" in text(self.path / "ibsim.log"))
                self.check(ready, f"ibsim simulates {name}")
                yield

    def sweeps(self) -> int:
        return text(self.path / "osm.log").count("SUBNET UP")

    @contextlib.contextmanager
    def opensm(self, *routing: str) -> Iterator[subprocess.Popen[bytes]]:
        words = ["opensm", "-e", "-d", "2", "-s", "0", "-D", "0x43", "-f", "osm.log", "-R", *routing]
        quiet = {"stdout": subprocess.DEVNULL, "stderr": subprocess.DEVNULL, "stdin": subprocess.DEVNULL}
        (self.path / "osm.log").unlink(missing_ok=True)
        with running(words, cwd=self.path, env=self.environment(), **quiet) as opensm:
            self.check(wait_until(lambda: self.sweeps() > 0), "OpenSM has written")
            yield opensm

    def sweep_again(self, opensm: subprocess.Popen[bytes]) -> bool:
        before = self.sweeps()
        opensm.send_signal(signal.SIGHUP)
        return wait_until(lambda: self.sweeps() > before)

    def holds_after_hup(self, opensm: subprocess.Popen[bytes], wanted: str, held: str) -> bool:
        """Sends OpenSM HUP, and returns whether the fabric holds tables in time; records into `held`. A sweep that was
        under way does not read the file that was written meanwhile, so its end tells nothing."""
        opensm.send_signal(signal.SIGHUP)

        def holds() -> bool:
            return self.record("-q", "-g", 4, "-T", held, "hup.reports") == 0 and self.same(wanted, held)

        return wait_until(holds)
