"""What `tests/test-readme` tries of `tools/demo`: with the program, and with programs that do not do what it shows."""
from __future__ import annotations

import os
import pathlib
import shlex
import subprocess
import tempfile

from built_program import check
from paths import TOOLS

# What stands in for the program, by the command at which a demo with it must end: a script, in which PROGRAM is the
# program.
WRONG = {
    "audit held cut": 'PROGRAM "$@"; status=$?; [ "$1" = audit ] || exit $status',
    "audit first cut": 'case $1 in next) cat "$4";; *) PROGRAM "$@";; esac',
    "audit second cut": 'case $*/$4 in next*/first) cat "$4";; *) PROGRAM "$@";; esac',
    "plan --routing balance cut | cmp - second": 'PROGRAM "$@"; s=$?; [ "$1/$4" != plan/cut ] && exit $s; echo',
    "run examples/takeover.topology examples/takeover.schedule > takeover": '[ "$1" != run ] && PROGRAM "$@"',
}
# A program that answers as it should but for a master that never stands by.
OTHER_STATES = 'if [ "$1" = run ]; then PROGRAM "$@" | sed "s/^state B standby/state B master/"; else PROGRAM "$@"; fi'


def ended(program: str | pathlib.Path, room: pathlib.Path) -> subprocess.CompletedProcess[str]:
    """Runs the demo with a program, checks that it leaves no file where it makes its folder, and returns how it
    ended."""
    (room / "tmp").mkdir(exist_ok=True)
    run = subprocess.run(
        [TOOLS / "demo", "--ibsm", program],
        cwd=room,
        text=True,
        capture_output=True,
        timeout=300,
        env=os.environ | {"TMPDIR": str(room / "tmp")},
    )
    check(os.listdir(room / "tmp") == [], f"demo leaves nothing behind with {program}")
    return run


def demos(program: pathlib.Path) -> int:
    """Tries the demo, and returns how often it ran."""
    with tempfile.TemporaryDirectory(prefix="demo-checks-") as name:
        room = pathlib.Path(name)
        run = ended(program, room)
        check(run.returncode == 0 and not run.stderr, f"demo ends well: {run.returncode} {run.stderr}")
        shown = [line for line in run.stdout.splitlines() if line.startswith("$ ")]
        check(len(shown) > 10 and shown[-1].startswith("$ cmp takeover "), f"demo shows its commands: {shown}")
        for part, script in (*WRONG.items(), ("grep -e state -e ping takeover", OTHER_STATES)):
            wrong = room / "wrong"
            wrong.write_text(f"#!/bin/sh\n{script.replace('PROGRAM', shlex.quote(str(program)))}\n")
            wrong.chmod(0o755)
            run = ended(wrong, room)
            last = [line for line in run.stdout.splitlines() if line.startswith("$ ")][-1:]
            check(run.returncode == 1, f"demo ends with 1 where the program is wrong: {part}, {run.returncode}")
            check(last and last[0].endswith(part), f"demo ends at `{part}`: {last}")
            check("does not end as it should" in run.stderr, f"demo says why it ends: {run.stderr}")
        check(ended(room / "nothing", room).returncode == 4, "demo without a program ends with 4")
    return len(WRONG) + 3
