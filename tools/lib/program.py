"""The built program `ibsm`, for tools that call it."""
from __future__ import annotations

import os
import pathlib
import shutil
import subprocess
from collections.abc import Container

from ibsm_texts import Refused

TOOLS = pathlib.Path(__file__).resolve().parent.parent
# Beside these tools: the built program, the one compiled without its proofs, and the installed one.
BUILT = TOOLS.parent / "crates/ibsm/out"
BESIDE = BUILT / "ibsm", BUILT / "unproved/ibsm", TOOLS / "ibsm"


def the_program(named: str | None = None, by: str = "--ibsm") -> str:
    """Returns the program that is named or, if none is, the one built or installed beside these tools, or else the one
    on the path. `by` is the option that names one."""
    beside = [os.fspath(path) for path in BESIDE if os.access(path, os.X_OK)]
    found = shutil.which(named) if named else beside[0] if beside else shutil.which("ibsm")
    if not found:
        raise OSError(f"there is no program {named or 'ibsm'}: build it by ./ibsm, or name one by {by}")
    return found


def printed_by(program: str, *words: object, statuses: Container[int] = (0,)) -> str:
    """Returns what a run of the program prints. Refuses a run with an exit status that is not in `statuses`, and quotes
    its last line."""
    run = subprocess.run([program, *map(str, words)], capture_output=True, text=True, stdin=subprocess.DEVNULL)
    if run.returncode not in statuses:
        raise Refused(
            f"{' '.join(['ibsm', *map(str, words)])}: "
            f"{(run.stderr.strip() or f'status {run.returncode}').splitlines()[-1]}"
        )
    return run.stdout


def made_in_c(name: str, named: str | None = None, by: str | None = None) -> str:
    """Returns the program `record` or `send`: the one that is named or, if none is, the one made or installed beside
    these tools, or else the one on the path. `by` is the option that names one."""
    beside = [TOOLS / "record/out" / name, TOOLS.parent.parent / f"bin/ibsm-{name}"]
    found = shutil.which(named or next((path for path in beside if os.access(path, os.X_OK)), f"ibsm-{name}"))
    if not found:
        raise OSError(f"there is no program {name}: make -C tools/record makes it, or name one by {by or f'--{name}'}")
    return found


def the_search(named: str | None = None) -> str:
    """Returns the program `search`: the one that is named or, if none is, the one made or installed beside these
    tools."""
    beside = [TOOLS / "search/out/search", TOOLS / "record/out/search", TOOLS / "search"]
    found = shutil.which(named or next((path for path in beside if path.is_file()), ""))
    if not found:
        lacks = named or "search"
        raise OSError(f"there is no program {lacks}: make -C tools/search makes it, or name one by --search")
    return found
