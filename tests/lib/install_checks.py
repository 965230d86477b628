"""What `tests/test-files` checks of an installed copy, in which scripts take the place of programs."""
from __future__ import annotations

import os
import pathlib
import re
import shutil
import subprocess
from collections.abc import Iterable
from typing import Any

import completions
import paths
from tool_room import Room

PROGRAM = """#!/bin/sh
case $1 in --version) echo 'ibsm 0.1.0' ;; *) echo "program $*"; exit 3 ;; esac
"""
IN_C = """#!/bin/sh
echo 'usage: NAME [OPTION]... FILE'
echo 'Does what others do by --foreign.'
echo '  -q, --quiet            neither'
"""

TOOLS_IN_C = "ibsm-record", "ibsm-send", "ibsm-seat"
UNITS = [f"ibsm-{name}{many}.service" for name in ("round", "seat") for many in ("", "@")]


def run(words: Iterable[object], **how: Any) -> subprocess.CompletedProcess[str]:
    """Runs a command without input, and returns how it ended, with its output."""
    return subprocess.run(
        [str(word) for word in words], capture_output=True, text=True, stdin=subprocess.DEVNULL, **how
    )


def installed(room: Room, program: pathlib.Path) -> None:
    """Lays out the tree, installs it, runs it, completes commands, and uninstalls it."""
    made = room.path / "made"
    made.mkdir()
    for name, script in (("ibsm", PROGRAM), *((name, IN_C) for name in ("record", "send", "seat", "search"))):
        (made / name).write_text(script.replace("NAME", name))
        (made / name).chmod(0o755)
    (made / "ibsm.sources").write_text("0123\n")
    laid = run([paths.TOOLS / "stage", room.path / "stage", made / "ibsm", made])
    room.check(laid.returncode == 0 and laid.stdout.endswith("proved\n"), f"it is laid out: {laid.stdout}{laid.stderr}")
    to = room.path / "to"
    # A folder that is there before, and stays.
    (to / "share/man").mkdir(parents=True)
    done = run([room.path / "stage/install.sh", to])
    room.check(done.returncode == 0, f"it is installed: {done.stdout}{done.stderr}")
    tools = sorted(path.name for path in (to / "bin").iterdir())
    room.check(
        tools[0] == "ibsm" and len(tools) >= 12 and all(name.startswith("ibsm-") for name in tools[1:]),
        f"names: {tools}",
    )
    styles = sorted(path.name for path in (to / "lib/ibsm/lib").iterdir() if path.suffix in (".css", ".js"))
    room.check(styles == ["picture.css", "report.css", "report.js"], f"what pages and pictures need: {styles}")
    runs(room, to, tools)
    told = pages(room, to, tools)
    units = to / "lib/systemd/system"
    room.check(f"ExecStart={to}/bin/ibsm-round " in (units / "ibsm-round.service").read_text(), "the unit's path")
    seat = f"ExecStart={to}/bin/ibsm-seat --ibsm {to}/bin/ibsm "
    unit = (units / "ibsm-seat.service").read_text()
    room.check(seat in unit, "the paths of the seat's unit")
    room.check("\nKillMode=mixed\n" in unit, "the seat alone gets SIGTERM: its child answers until it has handed over")
    for name, lines in (
        ("ibsm-seat@.service", (seat, "--status /run/ibsm-seat/%i/seat.json $OPTIONS", "=/etc/ibsm/seat-%i.conf\n")),
        ("ibsm-round@.service", (f"ExecStart={to}/bin/ibsm-round /var/lib/ibsm/%i ", "=/etc/ibsm/round-%i.conf\n")),
    ):
        there = (units / name).read_text()
        room.check(all(line in there for line in lines), f"{name}: one of several ports: {there}")
    room.check(sorted(path.name for path in units.iterdir()) == sorted(UNITS), "and no other units")
    completed(room, to, program)
    taken_off(room, to, told)


def runs(room: Room, to: pathlib.Path, tools: list[str]) -> None:
    """Checks that each tool runs from anywhere under its installed name, and that the version says how the program was
    built."""
    for tool in tools[1:]:
        done = run([to / "bin" / tool, "--help"], cwd="/", env={"PATH": os.environ["PATH"]})
        name = tool if tool not in TOOLS_IN_C else tool[5:]
        room.check(
            done.returncode == 0 and f"usage: {name} " in done.stdout and not done.stderr,
            f"{tool} --help: {done.stdout[:80]}{done.stderr}",
        )
        room.check("tools/" + tool[5:] not in done.stdout, f"{tool} calls itself by its name")
        if name == tool:
            done = run([to / "bin" / tool, "--version"], cwd="/")
            room.check(
                done.stdout.startswith(f"{tool} 0.1.0\ncommit "), f"{tool} --version: {done.stdout}{done.stderr}"
            )
    done = run([to / "bin/ibsm", "--version"], cwd="/")
    wanted = r"ibsm 0.1.0\ncommit ([0-9a-f]{40}(, with changes)?|unknown: .*)\nproved\nsources 0123\n"
    room.check(
        done.returncode == 0 and re.fullmatch(wanted, done.stdout), f"ibsm --version: {done.stdout}{done.stderr}"
    )
    done = run([to / "bin/ibsm", "plan", "--version"], cwd="/")
    room.check(
        (done.returncode, done.stdout) == (3, "program plan --version\n"), f"all else is the program's: {done.stdout}"
    )
    one_command(room, to, tools)
    link = room.path / "linked"
    link.symlink_to(to / "bin/ibsm")
    room.check(run([link, "--version"]).stdout.startswith("ibsm 0.1.0\ncommit "), "by a link too")


def one_command(room: Room, to: pathlib.Path, tools: list[str]) -> None:
    """Checks that `ibsm NAME` runs the installed tool, and that `ibsm help` lists all."""
    own = {tool.removeprefix("ibsm-") for tool in tools[1:]}
    listed = re.findall(r"^  (\S+) {2,}", run([to / "bin/ibsm", "help"], cwd="/").stdout, re.M)
    wanted = own | completions.COMMANDS.keys() - {"help"}
    room.check(set(listed) == wanted, f"help lists {set(listed) ^ wanted}")
    for words in ("help", "names"), ("names", "--help"):
        done = run([to / "bin/ibsm", *words], cwd="/")
        room.check(done.stdout.startswith("Puts the names of nodes"), f"{words} of the installed ibsm: {done.stdout}")
    for words in ("frob",), ("help", "plan"), ("names/../names",), ():
        done = run([to / "bin/ibsm", *words], cwd="/")
        room.check(done.stdout == f"program {' '.join(words)}\n", f"{words} are the program's: {done.stdout}")


def pages(room: Room, to: pathlib.Path, tools: list[str]) -> list[str]:
    """Checks that each tool has a page that `man` accepts and that lists every option."""
    for tool in tools:
        page = to / f"share/man/man1/{tool}.1"
        room.check(page.exists(), f"{tool} has a page")
        if shutil.which("man"):
            done = run(
                ["man", "--warnings", "-E", "UTF-8", "-l", "-Tutf8", "-Z", page], env=os.environ | {"MANROFFSEQ": ""}
            )
            room.check(done.returncode == 0 and not done.stderr, f"man finds no fault in {page.name}: {done.stderr}")
        if tool not in ("ibsm", *TOOLS_IN_C):
            wanted = set(re.findall(r"(?<![\w-])--[a-z][a-z-]*", run([to / "bin" / tool, "--help"]).stdout))
            there = set(re.findall(r"--[a-z][a-z-]*", page.read_text().replace("\\", "")))
            lacks = wanted - there - {"--node-name-map"}
            room.check(not lacks, f"the page of {tool} lacks {lacks}")
    return (to / "lib/ibsm/installed").read_text().splitlines()


def completed(room: Room, to: pathlib.Path, program: pathlib.Path) -> None:
    """Checks what bash completes, and that the options are those of the program."""
    script = to / "share/bash-completion/completions/ibsm"
    for words, wanted in (
        ("ibsm pl", "plan"),
        ("ibsm dr", "draw"),
        ("ibsm help fin", "find-order"),
        ("ibsm draw --le", "--levels"),
        ("ibsm draw --hosts f", "fold"),
        ("ibsm-draw --nod", ""),
        ("ibsm-opensm-files c", "check"),
        ("ibsm-opensm-files check --t", "--top"),
        ("ibsm-find-order --routing ''", ""),
        ("ibsm-what-if --routing s", "spread"),
        ("ibsm-record --quiet --q", "--quiet"),
        ("ibsm-record --fo", ""),
        ("ibsm plan --ro", "--routing --roots"),
        ("ibsm plan --routing s", "spread"),
        ("ibsm facts --r", ""),
        ("ibsm-draw --le", "--levels"),
        ("ibsm-record --q", "--quiet"),
        ("/x/ibsm-round --d", "--direct"),
        ("ibsm-round --accept l", "lids"),
    ):
        code = (
            f'. {script}; COMP_WORDS=({words}); COMP_CWORD=$((${{#COMP_WORDS[@]}}-1)); _ibsm; echo "${{COMPREPLY[*]}}"'
        )
        room.check(run(["bash", "-c", code]).stdout == f"{wanted}\n", f"bash completes `{words}` by `{wanted}`")
    if shutil.which("zsh"):
        done = run(["zsh", "-n", to / "share/zsh/site-functions/_ibsm"])
        room.check(done.returncode == 0 and not done.stderr, f"zsh reads it: {done.stderr}")
    if os.access(program, os.X_OK):
        for command, options in completions.COMMANDS.items():
            helped = run([program, command, "--help"]).stdout if command != "help" else ""
            there = set(re.findall(r"^ +(?:-\w, )?(--[a-z][a-z-]*)", helped, re.M)) - {"--help"}
            room.check(there == set(options.split()), f"options of {command}: {sorted(there)}")


def without_a_trace(room: Room) -> None:
    """Checks that nothing is left of an installation that was made twice, in a folder that was not there, and of one by
    a version that lists no folders."""
    for prefix, there, lists_none, times in (("new/usr", "new", False, 2), ("/usr", "root", True, 1)):
        words = [room.path / prefix] if there == "new" else [prefix, room.path / "root"]
        (room.path / there).mkdir()
        for _ in range(times):
            done = run([room.path / "stage/install.sh", *words])
            room.check(done.returncode == 0, f"it is installed: {done.stderr}")
        lib = room.path / there / "usr/lib/ibsm"
        (lib / "lib/__pycache__").mkdir()
        if lists_none:
            (lib / "made").unlink()
        done = run([paths.TOOLS / "install.sh", "--uninstall", *words])
        left = [path for path in (room.path / there).rglob("*") if not (lists_none and path.is_dir())]
        room.check(done.returncode == 0 and not left, f"nothing is left of {words}: {left} {done.stderr}")
        room.check(not lib.exists(), f"nor is {lib}")


def taken_off(room: Room, to: pathlib.Path, told: list[str]) -> None:
    """Checks that uninstalling removes what was installed and nothing else, and that changed files are not
    installed."""
    (to / "bin/other").write_text("")
    done = run([paths.TOOLS / "install.sh", "--uninstall", to])
    left = sorted(str(path.relative_to(to)) for path in to.rglob("*") if not path.is_dir())
    room.check(
        done.returncode == 0 and left == ["bin/other"] and len(told) > 40, f"it is taken off: {left} {done.stderr}"
    )
    folders = sorted(str(path.relative_to(to)) for path in to.rglob("*") if path.is_dir())
    room.check(folders == ["bin", "share", "share/man"], f"and no folder that was made for it: {folders}")
    room.check(run([paths.TOOLS / "install.sh", "--uninstall", to]).returncode == 1, "once alone")
    without_a_trace(room)
    with open(room.path / "stage/tree/lib/ibsm/lib/version.py", "a") as file:
        file.write("#\n")
    done = run([room.path / "stage/install.sh", to])
    room.check(
        done.returncode == 1 and "otherwise than their checksums" in done.stderr, f"a file that changed: {done.stderr}"
    )
