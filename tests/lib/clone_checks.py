"""The commands of README.md, run in a clean clone. A subnet that ibsim simulates and OpenSM has brought up is at the
port of those that need one."""
from __future__ import annotations

import os
import pathlib
import re
import shlex
import subprocess
import sys
import tempfile
import time

import sample_fabrics
from bench import Bench, simulated_library
from paths import ROOT

SECTIONS = "Repair a cut", "Set up", "Use"
# What is run only if it is asked for, since it takes so long.
LONG = "make prove"
# A line that begins so is a command, in a block all of whose lines are.
COMMANDS = "./ibsm ", "make "
BLOCK = re.compile(r"^```\n(.*?)^```$", re.S | re.M)
# Takes the place of sudo, which those commands have that need the port.
SUDO = """#!/bin/sh
export {settings}
exec "$@"
"""


def commands() -> list[str]:
    """Returns the commands in README's sections, in their order."""
    text = (ROOT / "README.md").read_text()
    found = []
    for section in SECTIONS:
        body = text.split(f"\n## {section}\n", 1)[1].split("\n## ", 1)[0]
        blocks = [block.splitlines() for block in BLOCK.findall(body)]
        found += [line for block in blocks if all(line.startswith(COMMANDS) for line in block) for line in block]
    return found


def run_command(line: str, clone: pathlib.Path, environment: dict[str, str]) -> None:
    """Runs a command in the clone, and ends the test if it fails."""
    began = time.monotonic()
    run = subprocess.run(line, shell=True, cwd=clone, env=environment, capture_output=True, stdin=subprocess.DEVNULL)
    wanted = 1 if line.endswith("# exit status 1") else 0
    print(f"{'ok   ' if run.returncode == wanted else 'WRONG'} {line}: {time.monotonic() - began:.0f} s", flush=True)
    if run.returncode != wanted:
        said = run.stderr.decode(errors="replace")
        sys.exit(f"test-readme: FAILED in a clean clone: {line}: status {run.returncode}\n{said}")


def in_a_clone(proves: bool) -> int:
    """Runs the commands in a clone of what is committed, and returns the exit status."""
    lines = [line for line in commands() if proves or not line.startswith(LONG)]
    with tempfile.TemporaryDirectory(prefix="test-readme-") as name:
        room = pathlib.Path(name)
        clone = room / "clone"
        subprocess.run(["git", "clone", "-q", ROOT, clone], check=True)
        bench = Bench(pathlib.Path("ibsm"), room, simulated_library())
        with bench.simulated(sample_fabrics.two_levels(3, 2, 2), "subnet"):
            with bench.opensm("minhop"):
                pass
            at_port = bench.environment()
            names = "IBSIM_SOCKNAME", "SIM_HOST", "LD_PRELOAD"
            settings = " ".join(f"{name}={shlex.quote(at_port[name])}" for name in names)
            (room / "bin").mkdir()
            (room / "bin/sudo").write_text(SUDO.format(settings=settings))
            (room / "bin/sudo").chmod(0o755)
            environment = os.environ | {"PATH": f"{room}/bin:{os.environ['PATH']}"}
            for line in lines:
                run_command(line, clone, environment)
    print(f"test-readme: ok, {len(lines)} commands in a clean clone{'' if proves else f', without {LONG}'}")
    return 0 if lines and not bench.wrong else 1
