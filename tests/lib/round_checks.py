"""What `tests/test-files` checks of whole rounds, with scripts that stand in for a subnet."""
from __future__ import annotations

import contextlib
import datetime
import fcntl
import functools
import json
import os
import pathlib
import random
import re
import shutil
import signal
import subprocess
import sys
import time
from collections.abc import Callable, Iterator
from typing import Any

import paths
import record_files
import round_parts
import round_words
import sample_fabrics
import tool_checks
from tool_room import Room

# These scripts stand in for a subnet. The folder fab has what the subnet says and holds. A recording is the text of its
# facts.
FAKE_RECORD = """#!/bin/sh
for word; do tables=$file; file=$word; done
echo "$*" >>fab/asked
cp fab/facts "$file"
if [ -f fab/flaps ]; then mv fab/facts fab/kept; mv fab/flaps fab/facts; mv fab/kept fab/flaps; fi
status=$(cat fab/status)
case "$status $*" in 0*|*--partial*) cp fab/held "$tables" ;; esac
[ "$status" = 0 ] || echo "record: NOT WHOLE: 1 requests without a reply" >&2
exit "$status"
"""
FAKE_IBSM = """#!/bin/sh
for word; do last=$word; done
case $1 in
facts) case $last in *.store) cat fab/stored ;; *) cat "$last" ;; esac ;;
plan) echo "$*" >>fab/planned; cat fab/plan ;;
order)
    echo "$*" >>fab/ordered
    case "$*" in
    *--held*) [ -f fab/implied ] && cat fab/implied ;;
    *--order*)
        for word; do
            [ "$before" != --order ] || cat "$word"
            before=$word
        done ;;
    *) cat fab/own ;;
    esac ;;
next)
    echo "$*" >>fab/stepped
    case "$*" in *--last-order*) tr '\\n' ' ' <rd/step.order >>fab/handed ;; esac
    for word; do tables=$file; file=$word; done
    if [ -f fab/moves ]; then cat fab/moves >&2; exit 3; fi
    between=
    for step in fab/step.*; do
        if [ -f "$step" ] && [ -z "$between" ] && ! cmp -s "$tables" fab/plan && ! cmp -s "$tables" "$step"; then
            between=$step
        fi
    done
    cat "${between:-fab/next}"
    loop=fab/loop
    [ -z "$between" ] || [ ! -f "fab/loop.${between##*.}" ] || loop=fab/loop.${between##*.}
    cat "$loop" >&2
    grep -q none "$loop" ;;
audit)
    text=fab/audit
    case $2 in
    */now.held) [ -f fab/audit.held ] && text=fab/audit.held ;;
    */balance.plan) [ -f fab/audit.balance ] && text=fab/audit.balance ;;
    */trial.plan)
        case $(tail -n 1 fab/planned) in
        *own.order*) text=fab/audit.own ;;
        *) text=fab/audit.best ;;
        esac ;;
    */opensm-files-*) exec AUDITOR "$@" ;;
    esac
    cat "$text"
    grep -q ' arrive 25$' "$text" ;;
esac
"""
FAKE_SEND = """#!/bin/sh
echo "$*" >>fab/sent
for word; do tables=$word; done
if [ -f fab/fails ]; then cat fab/fails >&2; exit "$(cat fab/ends)"; fi
cp "$tables" fab/held
"""
FAKE_OPENSM = """#!/bin/sh
obey() {
    if [ -f fab/obeys ]; then cp rd/step.tables fab/held; else cp fab/written fab/held; fi
    [ -f fab/deaf ] || echo "SUBNET UP" >>fab/log
}
trap obey HUP
echo ready >>fab/log
while :; do sleep 0.02; done
"""
# What an audit of the triangle prints if each packet arrives.
ALL_ARRIVE = "pairs 25 arrive 25\n"
# The order that a rule chooses, and the options by which rounds plan if they keep an order.
OWN, IN_ORDER = "0x1\n0x3\n", "--order rd/kept.order"
# How the command of a round of `check_round` begins.
ROUND = f"{paths.TOOLS / 'round'} rd --programs . --log fab/log"
# The types of `put_in_fab` and `check_round`, each bound to a room.
Fab, Ends = Callable[..., None], Callable[..., dict[str, Any]]


@contextlib.contextmanager
def fake_opensm(room: Room, *words: str) -> Iterator[int]:
    """Runs a process named opensm that changes the held tables at HUP, and yields its id."""
    process = subprocess.Popen(
        [room.path / "opensm", *words],
        cwd=room.path,
        stdin=subprocess.DEVNULL,
        # A shell can't trap a signal that was ignored when it was started, as HUP is under nohup.
        preexec_fn=lambda: signal.signal(signal.SIGHUP, signal.SIG_DFL),
    )
    try:
        end = time.monotonic() + 120
        while "ready" not in room.text("fab/log"):
            if time.monotonic() > end:
                raise TimeoutError("the process that is called opensm is not ready after 120 seconds")
            time.sleep(0.02)
        yield process.pid
    finally:
        process.kill()
        process.wait()


def rounds(room: Room, program: pathlib.Path) -> None:
    """Checks rounds of a subnet that scripts stand in for: how each ends, and what it has written by then."""
    for name, script in (("record", FAKE_RECORD), ("ibsm", FAKE_IBSM), ("opensm", FAKE_OPENSM), ("send", FAKE_SEND)):
        room.scripts(**{name: script})
    room.put(x_order="0x1\n")
    (room.path / "fab").mkdir()
    fab, ends = functools.partial(put_in_fab, room), functools.partial(check_round, room)
    fab(
        facts=room.text("t.facts"),
        plan=room.text("t.plan"),
        held=room.text("round.plan"),
        written=room.text("t.plan"),
        audit=ALL_ARRIVE,
        status="0",
        log="",
        asked="",
        planned="",
        stepped="",
        own=OWN,
        next=room.text("t.plan"),
        loop="credit loop none\n",
    )
    looked_only(room, ends)
    stopped_before_writing(room, fab, ends)
    written_for_opensm(room, ends)
    by_opensm(room, fab, ends)
    directly(room, fab, ends)
    by_a_kept_order(room, fab)
    by_no_kept_order(room, fab)
    changes_told(room, fab, ends)
    loads_told(room, fab, ends)
    beside_balance(room, fab, ends)
    silence(room, fab, ends)
    silent_switches(room, fab, ends)
    lids_of_the_silent(room, fab, ends)
    other_files(room, fab, ends)
    log_of_opensm(room, fab, ends)
    told_how_to_go_on(room, fab, ends)
    programs_fail(room, fab, ends)
    recordings_of_a_round(room, fab, ends)
    by_a_file(room, fab)
    files_of_options(room)
    watched(room)
    healed(room, fab)
    watched_by_log(room, fab)
    waited_for(room)
    not_begun(room)
    if os.access(program, os.X_OK):
        for name in CUT_FABRICS:
            over_cuts(room, program, name)


def put_in_fab(room: Room, **texts: str) -> None:
    """Writes files into the folder fab, from which the scripts read what they say."""
    for name, text in texts.items():
        (room.path / "fab" / name).write_text(text)


def check_round(room: Room, words: str, status: int, step: str, verdict: str, settle: float = 0) -> dict[str, Any]:
    """Checks how a round ends, by its output and in status.json, and returns the latter."""
    printed = room.run(
        f"round rd --programs . --log fab/log --settle {settle} {words}", status
    )
    told = json.loads(room.text("rd/status.json"))
    orders = [
        "" if step["agrees"] is None
        else f"; its order is the plan's on the first {step['agrees']} of {told['counts']['switches']} switches"
        for step in told["steps"]
    ]
    steps = [
        f"step {number}: {step['entries']} entries, {step['blocks']} blocks; {step['told']}; status {step['status']}"
        f"{order}\n"
        for number, (step, order) in enumerate(zip(told["steps"], orders), 1)
    ]
    wanted = {"status": status, "step": step, "verdict": told["verdict"]}
    room.check(all(told[word] == value for word, value in wanted.items()), f"round {words}: {told}")
    room.check(
        verdict in told["verdict"] and printed == f"{''.join(steps)}{told['step']}: {told['line']}\n",
        f"round {words}: says `{verdict}`, not `{told['verdict']}`",
    )
    room.check(told["line"].startswith(told["verdict"]), f"round {words}: its line begins with its verdict")
    room.check(
        list(told["seconds"])[-1] == step and told["began"] <= told["ended"],
        f"round {words}: the steps until {step}",
    )
    return told


def looked_only(room: Room, ends: Ends) -> None:
    """Checks what is counted by a round that only looks."""
    told = ends("--look", 0, "compare", "looked only: 2 entries differ on 2 switches, blocks to write: 2")
    room.check(
        told["counts"]
        == {
            "nodes": 5,
            "switches": 3,
            "cables": 5,
            "pairs": 25,
            "arrive": 25,
            "lids": 5,
            "first_lids": 5,
            "moved_lids": 0,
            "entries": 2,
            "blocks": 2,
            "tops_above": 0,
            "differences": 2,
        },
        f"counts: {told['counts']}",
    )


def stopped_before_writing(room: Room, fab: Fab, ends: Ends) -> None:
    """Checks rounds that end before anything is written."""
    facts, plan = room.text("t.facts"), room.text("t.plan")
    fab(status="1")
    ends("", 1, "record", "the record has gaps: record: NOT WHOLE")
    fab(status="4")
    ends("", 4, "record", "record: record: NOT WHOLE")
    fab(status="0", facts=room.text("disputed.facts"))
    ends("", 1, "facts", "1 facts are disputed, as `claim` of 0000000000000100/1")
    fab(facts=facts, audit="pairs 25 arrive 24\nlost x\n")
    ends("", 1, "audit-plan", "the audit of now.plan fails: lost x")
    fab(audit=ALL_ARRIVE, facts=room.text("moved.facts"))
    ends("", 1, "lids", "1 LIDs would move, as that of 0000000000000100/1 from 77 to 4")
    fab(facts=facts, plan=room.text("hole.plan"))
    ends("", 3, "write", "opensm-files: nothing is written")
    fab(plan="nonsense\n")
    ends("", 3, "lids", "no line of a plan")
    fab(plan=plan)
    room.check(not (room.path / "rd/plan.lfts").exists(), "none of these writes")


def written_for_opensm(room: Room, ends: Ends) -> None:
    """Checks a round that writes OpenSM's files, and what record and ibsm are asked for."""
    ends(
        "--routing spread --lmc 0 --ca mlx5_0 --port 1",
        0,
        "write",
        "written for OpenSM, and not sent: 2 entries, 2 blocks",
    )
    room.check(
        (room.path / "rd/plan.lfts").exists() and "--ca mlx5_0 --port 1 --quiet" in room.text("fab/asked"),
        "options are handed to record",
    )
    room.check(
        f"plan --routing spread {IN_ORDER} --lmc 0 rd/now.reports\n" in room.text("fab/planned"), "and to ibsm plan"
    )
    room.check(room.text("rd/first.held") == room.text("round.plan"), "what was held at first is kept")


def by_opensm(room: Room, fab: Fab, ends: Ends) -> None:
    """Checks rounds that have a running OpenSM write the tables, and rounds that find no OpenSM."""
    facts, plan = room.text("t.facts"), room.text("t.plan")
    with fake_opensm(room) as process:
        told = ends(f"--opensm {process}", 0, "audit", "the subnet holds the plan")
        room.check(
            room.text("rd/after.held") == plan and room.text("fab/log").count("UP") == 1, "OpenSM was asked once"
        )
        ends(f"--opensm {process}", 0, "audit", "the subnet holds the plan")
        room.check(room.text("fab/log").count("UP") == 1, "and not where nothing differs")
        fab(facts=room.text("moved.facts"), held=room.text("round.plan"))
        told = ends(f"--opensm {process} --accept lids", 0, "audit", "the subnet holds the plan")
        room.check(told["counts"]["moved_lids"] == 1 and told["counts"]["changes"] == 0, "a LID may move")
        fab(facts=facts, held=room.text("round.plan"), written=room.text("hole.plan"))
        ends(
            f"--opensm {process}",
            1,
            "holds",
            "the subnet does not hold the plan: 1 entries differ on 1 switches, blocks to write: 1; switch "
            "0000000000000010 entries 1",
        )
        fab(held=room.text("top.plan"), written=plan, next=room.text("top.plan"))
        told = ends(f"--opensm {process}", 0, "audit", "the subnet holds the plan, but for greater tops on 1 switches")
        room.check(
            told["counts"]["tops_above"] == 1 and told["counts"]["differences"] == 0, "a greater top is no difference"
        )
        fab(next=plan)
        by_steps(room, fab, ends, process)
        fab(held=room.text("round.plan"), deaf="")
        deaf(room, process)
        fab(held=room.text("round.plan"))
        told = ends(f"--opensm {process} --log fab/nothing", 4, "opensm", "fab/nothing")
        room.check(told["go_on"] is None, "nothing goes on without a log")
        room.check("round: --log: there is no log fab/nothing yet\n" in room.said, f"it is said first: {room.said}")
    for process, why in (os.getpid(), "not opensm"), (99999999, "there is no process 99999999: has OpenSM ended?"):
        told = ends(f"--opensm {process} --accept holes", 3, "manager", why)
        words = "--settle 0 --accept holes --opensm $(pidof opensm)"
        room.check(told["go_on"] == f"{ROUND} {words}", f"the OpenSM that runs goes on: {told['go_on']}")


def deaf(room: Room, process: int) -> None:
    """Checks how a round ends if OpenSM does not say that the subnet is up. A whole round would wait for a minute."""
    try:
        round_parts.ask_for_sweep(process, str(room.path / "fab/log"), 0.3)
        ended = round_parts.Ended(0, "not at all")
    except round_parts.Ended as end:
        ended = end
    why = "fab/log does not say SUBNET UP within 0.3 seconds"
    room.check((ended.status, ended.add) == (1, []) and why in ended.verdict, f"a deaf OpenSM: {ended.verdict}")


def log_of_opensm(room: Room, fab: Fab, ends: Ends) -> None:
    """Checks that a round reads the log that OpenSM's command line names, unless the round's own names one."""
    (room.path / "fab/deaf").unlink()
    for words in (("-f", "fab/own.log"), ("--log_file=fab/own.log",), ("-ffab/own.log", "-U", "rd/plan.lfts")):
        with fake_opensm(room, *words) as process:
            fab(held=room.text("round.plan"), log="ready\n")
            (room.path / "fab/own.log").unlink(missing_ok=True)
            (room.path / "fab/own.log").symlink_to("log")
            words = f"round rd --programs . --settle 0 --opensm {process}"
            room.prints(words, 0, "audit: the subnet holds the plan")
            room.check(room.text("fab/own.log").count("UP") == 1, "OpenSM was asked, and its log read")
            room.check(round_parts.log_of(process, "fab/log") == "fab/log", "a log that is named is that one")
        room.check(round_parts.log_of(process, None) == "/var/log/opensm.log", "without a process, OpenSM's own")
        fab(log="")
    with fake_opensm(room) as process:
        room.check(round_parts.log_of(process, None) == "/var/log/opensm.log", "and if its command line names none")
    fab(log="")
    (room.path / "fab/own.log").unlink()


def told_how_to_go_on(room: Room, fab: Fab, ends: Ends) -> None:
    """Checks which command a round that stops tells, by which it would go on: the words that were typed, but no rounds
    that are repeated, and no key."""
    facts, plan, held = (room.text(name) for name in ("t.facts", "t.plan", "round.plan"))
    loaded = "pairs 25 arrive 25\nbetween adapters pairs 2 arrive 2\nload max {} mean 2.00\n"
    good = {"facts": facts, "plan": plan, "held": held, "status": "0"}
    good |= {"loop": "credit loop none\n", "audit": ALL_ARRIVE}
    loop = {"loop": "credit loop on one lane 0000000000000010/1\nlids 5\n"}
    fails = {"fails": "send: NOT HELD: 1 of 2 that were set\n", "ends": "1"}
    busier = {"audit": loaded.format(9), "audit.held": loaded.format(5)}
    for step, status, files, add in (
        ("record", 1, {"status": "1"}, "--accept silent"),
        ("record", 4, {"status": "4"}, None),
        ("facts", 1, {"facts": room.text("disputed.facts")}, ""),
        ("audit-plan", 1, {"audit": "pairs 25 arrive 24\n"}, None),
        ("lids", 1, {"facts": room.text("moved.facts")}, "--accept lids"),
        ("compare", 1, busier, "--accept busier"),
        ("next", 1, loop, "--at-once"),
        ("next", 3, {"moves": "ibsm: rd/now.held: lid 4 moves\n"}, "--at-once"),
        ("write", 3, {"plan": room.text("hole.plan")}, "--accept holes"),
        ("send", 1, fails, ""),
    ):
        fab(**(good | files))
        told = ends("--direct --m-key=7 --lmc 0", status, step, "")
        wanted = None if add is None else f"{ROUND} --settle 0 --direct --m-key KEY --lmc 0 {add}".rstrip()
        room.check(told["go_on"] == wanted, f"what goes on after {step}: {told['go_on']}, not {wanted}")
        last = f"; to go on: {wanted}" if wanted else told["verdict"]
        room.check(told["line"].endswith(last), f"the line of {step}: {told['line']}")
        for name in files.keys() - good.keys():
            (room.path / "fab" / name).unlink()
    fab(**good)
    with fake_opensm(room) as process:
        fab(written=room.text("hole.plan"), next=room.text("hole.plan"))
        told = ends(f"--m-key 7 --opensm {process} --routing spread", 1, "holds", "the subnet does not hold the plan")
        wanted = f"{ROUND} --settle 0 --m-key KEY --routing spread --direct"
        room.check(told["go_on"] == wanted, f"what OpenSM does not write, `send` does: {told['go_on']}")
    fab(written=plan, next=plan, log="", status="1")
    process = started(room, "--watch", "0.05", "--look", "--lmc=0")
    line = process.stdout.readline()
    process.terminate()
    process.communicate()
    wanted = f"to go on: {paths.TOOLS / 'round'} rd --programs . --look --lmc=0 --accept silent\n"
    room.check(line.endswith(wanted), f"one round, and not all again: {line}")
    fab(status="0")


def programs_fail(room: Room, fab: Fab, ends: Ends) -> None:
    """Checks rounds one of whose programs ends with 5, for want of memory, or as no program ought to."""
    held = room.text("round.plan")
    (room.path / "fail.programs").mkdir()
    for name, words, step in (
        ("record", "", "record"),
        ("ibsm facts", "", "facts"),
        ("ibsm order", "", "order"),
        ("ibsm plan", "--routing updown", "plan"),
        ("ibsm audit", "", "audit-plan"),
        ("ibsm next", "--direct", "next"),
        ("send", "--direct", "send"),
    ):
        program, _, command = name.partition(" ")
        for status, wanted in (5, 5), (7, 4):
            for its in "record", "ibsm", "send":
                script = f'#!/bin/sh\nexec "{room.path}/{its}" "$@"\n'
                if its == program:
                    asked = f'case $1 in {command}) ;; *) exec "{room.path}/{its}" "$@" ;; esac\n' if command else ""
                    script = f"#!/bin/sh\n{asked}echo '{its}: out of memory' >&2\nexit {status}\n"
                (room.path / "fail.programs" / its).write_text(script)
                (room.path / "fail.programs" / its).chmod(0o755)
            fab(held=held)
            told = ends(f"--programs fail.programs {words}", wanted, step, f"{program}: {program}: out of memory")
            room.check(told["go_on"] is None and room.text("fab/held") == held, f"{name} with {status}: {told}")


def recordings_of_a_round(room: Room, fab: Fab, ends: Ends) -> None:
    """Checks which of the two recordings of an earlier round is compared with: the later one, whatever their names."""
    facts = room.text("t.facts")
    fewer = facts.replace("link 0000000000000020/2 0000000000000030/2 @1\n", "").replace(
        "link 0000000000000030/2 0000000000000020/2 @1\n", ""
    )
    cable = "come cable 0000000000000020/2 0000000000000030/2"
    for now, after, later, wanted in (
        (fewer, facts, "after", []),
        (facts, fewer, "after", [cable]),
        (facts, fewer, "now", []),
        (fewer, facts, "now", [cable]),
        (fewer, None, "now", [cable]),
        (None, None, "now", []),
    ):
        for name, text in ("now", now), ("after", after):
            path = room.path / f"rd/{name}.facts"
            path.unlink(missing_ok=True)
            if text is not None:
                path.write_text(text)
                os.utime(path, (2000, 2000) if name == later else (1000, 1000))
        (room.path / "rd/before.facts").unlink(missing_ok=True)
        told = ends("--look", 0, "compare", "looked only")
        room.check(told["changes"] == wanted, f"compared with {later}: {told['changes']}")


def waited_for(room: Room) -> None:
    """Checks that a terminal shows which step a round waits for."""
    (room.path / "slow.programs").mkdir()
    (room.path / "slow.programs/ibsm").symlink_to(room.path / "ibsm")
    (room.path / "slow.programs/ibsm-record").write_text(FAKE_RECORD.replace("cp fab/facts", "sleep 3; cp fab/facts"))
    (room.path / "slow.programs/ibsm-record").chmod(0o755)
    said = tool_checks.on_a_terminal(room, "round", "rd", "--programs", "slow.programs", "--look")
    room.check(re.fullmatch(r"(\r\x1b\[Kround: record, \d+ s)+\r\x1b\[K", said), f"which step is waited for: {said!r}")


def not_begun(room: Room) -> None:
    """Checks rounds that do not begin: the folder is in use, a program is missing, or the command line is wrong."""
    with open(room.path / "rd/lock", "w") as lock:
        fcntl.flock(lock, fcntl.LOCK_EX)
        room.refused("round rd --programs .", "in use")
    room.refused("round rd --programs nothing", "--programs: there is no folder nothing", 4)
    (room.path / "few.programs").mkdir()
    (room.path / "few.programs/ibsm").symlink_to(room.path / "ibsm")
    # Programs that were made or installed here would be found instead.
    if not (paths.TOOLS / "record/out").exists() and not shutil.which("ibsm-record"):
        room.refused("round rd --programs few.programs", "no program record", 4)
        (room.path / "few.programs/record").symlink_to(room.path / "record")
        room.refused("round rd --programs few.programs --direct", "no program send", 4)
    for words in ("", *(f"rd {options}" for options in ("--lmc 8", "--opensm x", "--routing other"))):
        room.run(f"round {words}", 2)
    room.refused("round rd --direct --opensm 1", "--opensm and --direct exclude each other", 2)


def by_orders_handed_on(room: Room, fab: Fab, ends: Ends, process: int) -> None:
    """Checks rounds whose steps go by orders that the held tables imply: the order of a step is handed on to the next
    one, and no order of another round or of an earlier step."""
    by, told_order = f"next --routing spread {IN_ORDER}", "credit loop none\n0x1\n0x2\n"
    began, went_on = (f"{by} rd/{name}.held rd/{name}.reports" for name in ("now", "after"))
    handed_on = f"{by} --last-order rd/step.order rd/after.held rd/after.reports"
    for last, agree, stepped, handed in (
        (told_order, [1, 1], [began, handed_on, handed_on], "0x1 0x2 0x1 0x2 "),
        ("credit loop none\n", [1, None], [began, handed_on, went_on], "0x1 0x2 "),
    ):
        fab(held=room.text("round.plan"), stepped="", handed="", log="ready\n", loop=last, **{"loop.1": told_order})
        (room.path / "rd/step.order").write_text("0x5\n")
        told = ends(f"--opensm {process} --routing spread", 0, "audit", "the subnet holds the plan")
        room.check([step["agrees"] for step in told["steps"]] == agree, f"they agree with the plan's: {told['steps']}")
        room.check(
            {step["told"] for step in told["steps"]} == {"credit loop none"} == set(told["said"]),
            f"of what is said, switches are left out: {told['steps']}, {told['said']}",
        )
        room.check(
            room.text("fab/stepped").splitlines() == stepped and room.text("fab/handed") == handed,
            f"the order is handed on: {room.text('fab/stepped')}{room.text('fab/handed')}",
        )
        room.check((room.path / "rd/step.order").exists() == (last == told_order), "and kept while steps go by it")
    (room.path / "fab/loop.1").unlink()
    fab(loop="credit loop none\n")


def by_steps(room: Room, fab: Fab, ends: Ends, process: int) -> None:
    """Checks rounds whose plan is two steps away."""
    facts, plan, held = (room.text(name) for name in ("t.facts", "t.plan", "round.plan"))
    fab(held=held, obeys="", stepped="", log="ready\n", **{"step.1": room.text("hole.plan")})
    told = ends(f"--opensm {process} --lmc 0", 0, "audit", "the subnet holds the plan", settle=0.3)
    room.check(0.3 <= told["seconds"]["settle"] < 0.6, f"packets have 0.3 seconds between two steps: {told['seconds']}")
    none = {"told": "credit loop none", "agrees": None, "status": 0}
    room.check(
        told["steps"] == [{"entries": 2, "blocks": 2} | none, {"entries": 1, "blocks": 1} | none],
        f"two steps: {told['steps']}",
    )
    names = ["now", "after", "after"]
    # A round that names no rule goes by balance.
    words = f"next --routing balance {IN_ORDER} --lmc 0"
    room.check(
        room.text("fab/stepped") == "".join(f"{words} rd/{name}.held rd/{name}.reports\n" for name in names)
        and room.text("fab/log").count("UP") == 2
        and room.text("fab/held") == plan,
        "each from what is held then",
    )
    by_orders_handed_on(room, fab, ends, process)
    fab(held=held, loop="credit loop on one lane 0000000000000010/1 0000000000000020/1\nlids 5 4\n", log="ready\n")
    written = room.text("rd/plan.lfts")
    loop = "credit loop on one lane 0000000000000010/1 0000000000000020/1; lids 5 4"
    told = ends(
        f"--opensm {process}", 1, "next", f"step 1 is not written, since packets can wait in a loop meanwhile: {loop}"
    )
    room.check(
        told["steps"][0]["status"] == 1 and room.text("fab/held") == held and room.text("rd/plan.lfts") == written,
        "a step with a credit loop is not written",
    )
    fab(stepped="", written=plan)
    (room.path / "fab/obeys").unlink()
    told = ends(f"--opensm {process} --at-once", 0, "audit", "the subnet holds the plan")
    room.check(told["steps"] == [] and room.text("fab/stepped") == "", "--at-once takes no steps")
    fab(held=held, loop="credit loop none\n", moves="ibsm: rd/now.held: lid 4 moves\n")
    ends(f"--opensm {process}", 3, "next", "ibsm: ibsm: rd/now.held: lid 4 moves")
    (room.path / "fab/moves").unlink()
    fab(plan=room.text("hole.plan"))
    ends(f"--opensm {process}", 3, "write", "opensm-files: nothing is written")
    room.check(room.text("fab/held") == held, "nor is a step to a plan that may not be written")
    # The held tables never change, and the size of a table differs at each look.
    fab(plan=plan, written=held, flaps=facts.replace("cap 0000000000000010 1024", "cap 0000000000000010 1025"))
    told = ends(f"--opensm {process}", 1, "read-back", "after 32 steps another one is left")
    fab(facts=facts, written=plan)
    for name in ("flaps", "step.1"):
        (room.path / "fab" / name).unlink()


def directly(room: Room, fab: Fab, ends: Ends) -> None:
    """Checks rounds that send tables themselves and leave OpenSM its files."""
    plan, held = room.text("t.plan"), room.text("round.plan")
    fab(held=held, sent="", log="ready\n", **{"step.1": room.text("hole.plan")})
    (room.path / "rd/plan.lfts").unlink()
    given = "--ca mlx5_0 --m-key 7 --m-keys guid2mkey"
    told = ends(f"--direct {given}", 0, "audit", "the subnet holds the plan", settle=0.1)
    sent = f"{given} --holes --quiet rd/step.tables\n"
    room.check(
        len(told["steps"]) == 2 and room.text("fab/sent") == 2 * sent, f"each step is sent: {room.text('fab/sent')}"
    )
    room.check("settle" in told["seconds"] and "opensm" not in told["seconds"], "with a wait between, and no HUP")
    room.check(
        "0x0005 002" in room.text("rd/plan.lfts") and room.text("fab/held") == plan,
        "OpenSM's file is that of the last step",
    )
    room.check(room.text("fab/log") == "ready\n", "OpenSM is not asked")
    (room.path / "fab/step.1").unlink()
    fab(held=held, sent="")
    told = ends("--direct --at-once --accept holes --accept lids", 0, "audit", "the subnet holds the plan")
    room.check(
        room.text("fab/sent") == "--move-lids --holes --quiet rd/now.plan\n" and not told["steps"],
        "at once the plan is",
    )
    ends("--direct", 0, "audit", "the subnet holds the plan")
    room.check(room.text("fab/sent").count("\n") == 1, "nothing is sent where nothing differs")
    for status, wanted in (("1", 1), ("3", 3), ("4", 4), ("130", 4)):
        fab(held=held, fails="send: NOT HELD: 1 of 2 that were set\n", ends=status)
        ends("--direct", wanted, "send", "NOT HELD: 1 of 2 that were set")
    for name in ("fails", "ends"):
        (room.path / "fab" / name).unlink()


# Orders of the triangle: the kept one, and the one that the held tables imply.
KEPT, IMPLIED = "0x4\n", "0x2\n"
# What is checked of an order; the kept order and the implied one, if there are; how many of 25 packets arrive by the
# held tables; the loads of the busiest channels by the order that there was and by the rule's own, if plans by both are
# compared; options; and the order that is kept then.
KEPT_ORDERS = (
    ("a first round keeps the order that the held tables imply", None, IMPLIED, 25, (5, 5), "", IMPLIED),
    ("also if one packet arrives", None, IMPLIED, 1, (5, 5), "", IMPLIED),
    ("if none arrives, the rule's own", None, IMPLIED, 0, None, "", OWN),
    ("if no order is implied, the rule's own", None, None, 25, None, "", OWN),
    ("also if the implied one has no switch", None, "", 25, None, "", OWN),
    ("an implied order may be a fifth worse", None, IMPLIED, 25, (6, 5), "", IMPLIED),
    ("and no more", None, IMPLIED, 25, (7, 5), "", OWN),
    ("even if packets are lost", None, IMPLIED, 20, (7, 5), "", OWN),
    ("an order stays", KEPT, IMPLIED, 25, (5, 5), "", KEPT),
    ("also if the rule's own is much worse", KEPT, IMPLIED, 25, (5, 50), "", KEPT),
    ("a kept order may be a fifth worse", KEPT, IMPLIED, 25, (6, 5), "", KEPT),
    ("and more only if packets are lost", KEPT, IMPLIED, 25, (7, 5), "", OWN),
    ("and then stays", KEPT, IMPLIED, 24, None, "", KEPT),
    ("no plans are compared if the kept order is the rule's own", OWN, IMPLIED, 25, None, "", OWN),
    ("an order is kept of the other rule", KEPT, IMPLIED, 25, (5, 5), "--routing spread", KEPT),
    ("or not, with an LMC", KEPT, IMPLIED, 25, (7, 5), "--routing spread --lmc 1", OWN),
)


def by_a_kept_order(room: Room, fab: Fab) -> None:
    """Checks which order of switches rounds keep, and that they plan and step by it."""
    kept, held = room.path / "rd/kept.order", room.text("round.plan")
    loaded = "pairs 25 arrive 25\nbetween adapters pairs 2 arrive 2\nload max {} mean 2.00\n"
    for what, before, implied, arrive, loads, words, wanted in KEPT_ORDERS:
        kept.unlink(missing_ok=True)
        (room.path / "fab/implied").unlink(missing_ok=True)
        if before is not None:
            kept.write_text(before)
        if implied is not None:
            fab(implied=implied)
        audits = {"audit.held": f"pairs 25 arrive {arrive}\n"}
        if loads:
            audits |= {"audit.best": loaded.format(loads[0]), "audit.own": loaded.format(loads[1])}
        fab(ordered="", planned="", held=held, **audits)
        room.prints(f"round rd --programs . --look {words}", 0, "compare: looked only")
        rule, lmc = "spread" if "spread" in words else "balance", " --lmc 1" if "lmc" in words else ""
        asks = before is None and arrive > 0
        tried = "kept" if before is not None else "implied"
        room.check(
            room.text("fab/ordered").splitlines()
            == [f"order --routing {rule} rd/now.reports"] + ["order --held rd/now.held rd/now.reports"] * asks,
            f"{what}: {room.text('fab/ordered')}",
        )
        room.check(
            room.text("fab/planned").splitlines()
            == [
                f"plan --routing {rule} --order rd/{name}.order{lmc} rd/now.reports"
                for name in [*((tried, "own") if loads else ()), "kept"]
            ],
            f"{what}: {room.text('fab/planned')}",
        )
        room.check(kept.read_text() == wanted, f"{what}: {kept.read_text()}")
        for name in audits:
            (room.path / "fab" / name).unlink()
    kept.unlink()
    fab(implied=IMPLIED, stepped="", planned="", **{"audit.best": loaded.format(5), "audit.own": loaded.format(5)})
    told = check_round(room, "--direct", 0, "audit", "the subnet holds the plan")
    room.check(list(told["seconds"])[2] == "order", f"the order is chosen behind the facts: {told['seconds']}")
    by = f"--routing balance {IN_ORDER} rd"
    room.check(
        room.text("fab/planned").splitlines()[2:]
        == [f"plan {by}/{name}.reports" for name in ("now", "after", "after")]
        and f"next {by}/now.held rd/now.reports\n" in room.text("fab/stepped")
        and kept.read_text() == IMPLIED,
        "plans and steps of a round go by the order that it keeps first",
    )
    kept.write_text(OWN)
    for name in "implied", "audit.best", "audit.own":
        (room.path / "fab" / name).unlink()


def by_no_kept_order(room: Room, fab: Fab) -> None:
    """Checks that rounds by a named order, or by up and down, keep no order."""
    kept = room.path / "rd/kept.order"
    kept.write_text(KEPT)
    for words in "--routing balance --order x.order", "--routing updown":
        fab(ordered="", planned="", stepped="", held=room.text("round.plan"))
        told = check_round(room, f"--direct {words}", 0, "audit", "the subnet holds the plan")
        room.check("order" not in told["seconds"] and room.text("fab/ordered") == "", f"{words}: no order is chosen")
        room.check(
            room.text("fab/planned").splitlines()
            == [f"plan {words} rd/{name}.reports" for name in ("now", "after", "after")]
            and room.text("fab/stepped").startswith(f"next {words} rd/now.held rd/now.reports\n")
            and kept.read_text() == KEPT,
            f"{words}: no order is kept: {room.text('fab/planned')}",
        )
    kept.write_text(OWN)


# Fabrics whose cables are cut and repaired one after another.
CUT_FABRICS = {
    "torus": sample_fabrics.torus(4, 4),
    "dragonfly": sample_fabrics.dragonfly(5, 4, 1),
    "random fabric": sample_fabrics.random_fabric(24, 4, 24),
    "fat tree": sample_fabrics.fat_tree(4, 2),
    "ring": sample_fabrics.ring(9),
}


def over_cuts(room: Room, program: pathlib.Path, name: str) -> None:
    """Checks with the built program that rounds succeed after each of some cuts and repairs, without a step that could
    make a credit loop."""
    fabric, chance, down = CUT_FABRICS[name], random.Random(7), set()
    between = [(end, far) for end, far in fabric.peers.items() if end < far]
    cables = [cable for cable in between if all(fabric.is_switch(name) for name, _ in cable)]

    def facts() -> bytes:
        """Returns a store file of the facts in which the cut cables' ports are down."""
        ends = {f"{fabric.guid(name):016x}/{port}" for cable in down for name, port in cable}
        lines = [line.split(" ") for line in fabric.facts().splitlines()]
        lines = [[*line[:2], "down", *line[3:]] if line[0] == "port" and line[1] in ends else line for line in lines]
        return record_files.store_of("".join(f"{' '.join(line)}\n" for line in lines))

    (room.path / "fab/facts").write_bytes(facts())
    words = [program, "plan", "--routing", "balance", "fab/facts"]
    planned = subprocess.run(words, cwd=room.path, capture_output=True, check=True).stdout
    (room.path / "fab/held").write_bytes(planned)
    shutil.rmtree(room.path / "rc", ignore_errors=True)
    shutil.rmtree(room.path / "real.programs", ignore_errors=True)
    (room.path / "real.programs").mkdir()
    for file, its in (("ibsm", program), ("record", room.path / "record"), ("send", room.path / "send")):
        (room.path / "real.programs" / file).symlink_to(its)
    for number in range(9):
        if number % 4 == 3:
            down.remove(chance.choice(sorted(down)))
        elif number:
            down.add(chance.choice([cable for cable in cables if cable not in down]))
        (room.path / "fab/facts").write_bytes(facts())
        words = "--settle 0 --direct --routing balance --accept busier,holes"
        room.run(f"round rc --programs real.programs {words}", 0)
        told = json.loads(room.text("rc/status.json"))
        room.check(
            told["verdict"].startswith("the subnet holds the plan")
            and all(step["told"] == "credit loop none" for step in told["steps"]),
            f"round {number} over a {name} with {len(down)} cables cut: {told}",
        )


def changes_told(room: Room, fab: Fab, ends: Ends) -> None:
    """Checks what is reported of changes, of how many pairs are lost and for how long, and of how busy channels are."""
    facts, plan, held = (room.text(name) for name in ("t.facts", "t.plan", "round.plan"))
    more = facts.replace(
        "link 0000000000000020/1 ",
        "link 0000000000000010/3 0000000000000010/4 @1\nlink 0000000000000010/4 0000000000000010/3 @1\n"
        "link 0000000000000020/1 ",
    )
    more = more.replace("port 0000000000000010/3 down", "port 0000000000000010/3 up").replace(
        "port 0000000000000010/4 down", "port 0000000000000010/4 up"
    )
    audits = {
        "audit": "pairs 25 arrive 25\nload max 10 mean 2.00\n",
        "audit.held": "pairs 25 arrive 20\nload max 3 mean 1.25\n",
    }
    fab(facts=facts, held=plan, sent="")
    before = ends("--direct", 0, "audit", "the subnet holds the plan")
    room.check(before["lost"] is None and before["changes"] == [] and before["whole"], f"nothing changed: {before}")
    fab(facts=more, held=held, **audits)
    told = ends("--direct", 0, "audit", "the subnet holds the plan")
    come = "come cable 0000000000000010/3 0000000000000010/4"
    room.check(told["changes"] == [come] and f"; changed: {come}; " in told["line"], f"what changed: {told['line']}")
    lost = told["lost"]
    room.check(
        (lost["pairs"], lost["since"], lost["is_back"]) == (5, before["whole"], True), f"pairs were lost: {lost}"
    )
    room.check(
        f"; 5 pairs were lost, for {lost['seconds']:.1f} s at most; " in told["line"], f"for how long: {told['line']}"
    )
    room.check(
        told["line"].endswith("; busiest channel 3 > 10, 2.4 > 5.0 times the mean"),
        f"how busy channels are: {told['line']}",
    )
    load = {"max": 10, "mean": 2.0}
    room.check(
        told["load"] == {"plan": load, "held": {"max": 3, "mean": 1.25}, "balance": load}, f"load: {told['load']}"
    )
    fab(held=held, loop="credit loop on one lane 0000000000000010/1\nlids 5\n")
    told = ends("--direct", 1, "next", "step 1 is not written")
    room.check(
        not told["lost"]["is_back"] and "; 5 pairs are lost, for " in told["line"], f"and are not back: {told['line']}"
    )
    (room.path / "rd/status.json").unlink()
    told = ends("--direct", 1, "next", "step 1 is not written")
    room.check(
        told["lost"]["seconds"] is None and "; 5 pairs are lost, it is not known for how long; " in told["line"],
        told["line"],
    )


def loads_told(room: Room, fab: Fab, ends: Ends) -> None:
    """Checks which loads of channels a round accepts."""
    facts, held = room.text("t.facts"), room.text("round.plan")
    for most, pairs, words, status in (
        (6, 2, "", 0), (7, 2, "", 1), (7, 2, "--accept busier", 0), (7, 2, "--look", 0), (12, 4, "", 0)
    ):
        audits = {"audit": pairs, "audit.held": 2}
        for name, count in audits.items():
            load = f"load max {most if name == 'audit' else 5} mean 2.00\n"
            audits[name] = f"pairs 25 arrive 25\nbetween adapters pairs {count} arrive {count}\n{load}"
        fab(held=held, facts=facts, loop="credit loop none\n", **audits)
        verdict = "carries 7 routes, and what is held 5" if status else "the subnet holds the plan"
        ends(
            f"--direct {words}",
            status,
            "compare" if status or "look" in words else "audit",
            "looked only" if "look" in words else verdict,
        )
    fab(held=held, **{"audit.held": "pairs 25 arrive 25\nbetween adapters pairs 0 arrive 0\nload max 0 mean 0.00\n"})
    ends("--direct", 0, "audit", "the subnet holds the plan")
    (room.path / "fab/audit.held").unlink()
    fab(audit="pairs 25 arrive 25\n")


def beside_balance(room: Room, fab: Fab, ends: Ends) -> None:
    """Checks what is told of how busy channels are by a plan by `balance`, and when one is made for it."""
    facts, plan, held = (room.text(name) for name in ("t.facts", "t.plan", "round.plan"))
    texts = {
        name: f"pairs 25 arrive 25\nbetween adapters pairs 2 arrive 2\nload max {most} mean 2.00\n"
        for name, most in (("audit", 6), ("audit.held", 6), ("audit.balance", 5), ("audit.best", 6), ("audit.own", 6))
    }
    kept, made = room.path / "rd/kept.order", "plan --routing balance --lmc 0 rd/now.reports"
    fab(facts=facts, loop="credit loop none\n", **texts)
    for words, order, told, most, is_made in (
        ("--routing spread", OWN, "busiest channel 6 > 6, 3.0 > 3.0 times the mean, by balance 5, 2.5 times", 5, True),
        ("--routing updown", OWN, "busiest channel 6 > 6, 3.0 > 3.0 times the mean, by balance 5, 2.5 times", 5, True),
        ("--order x.order", OWN, "busiest channel 6 > 6, 3.0 > 3.0 times the mean, by balance 5, 2.5 times", 5, True),
        # The rule's own order, and a kept one that is not.
        ("", OWN, "busiest channel 6 > 6, 3.0 > 3.0 times the mean", 6, False),
        ("", KEPT, "busiest channel 6 > 6, 3.0 > 3.0 times the mean, by balance 6, 3.0 times", 6, False),
    ):
        for look in "--look", "--direct":
            kept.write_text(order)
            fab(held=held, planned="")
            status = ends(f"{look} --lmc 0 {words}", 0, "compare" if look == "--look" else "audit", "")
            planned = room.text("fab/planned").splitlines()
            room.check(status["line"].endswith(f"; {told}"), f"{words}: {status['line']}")
            room.check(status["load"]["balance"] == {"max": most, "mean": 2.0}, f"{words}: {status['load']}")
            room.check(planned.count(made) == is_made and (not is_made or planned[-1] == made), f"{words}: {planned}")
    fab(held=plan, **{"audit.held": texts["audit"]})
    status = ends("--direct --lmc 0 --routing spread", 0, "audit", "the subnet holds the plan")
    wanted = "the subnet holds the plan; busiest channel 6, 3.0 times the mean, by balance 5, 2.5 times"
    room.check(status["line"] == wanted, f"where nothing differs: {status['line']}")
    # A plan for comparison that fails does not change how a round ends; none is made for a kept order while packets are
    # lost, and none if no channel is known.
    fab(**{"audit.balance": "no audit\n"})
    status = ends("--direct --lmc 0 --routing spread", 0, "audit", "the subnet holds the plan")
    room.check("balance" not in status["load"], f"without an audit of it: {status['load']}")
    kept.write_text(KEPT)
    fab(held=held, planned="", **{"audit.held": texts["audit.held"].replace("arrive 25", "arrive 24")})
    status = ends("--look --lmc 0", 0, "compare", "")
    room.check("balance" not in status["load"] and made not in room.text("fab/planned"), "while packets are lost")
    kept.write_text(OWN)
    for name in texts:
        (room.path / "fab" / name).unlink()
    fab(audit=ALL_ARRIVE, planned="")
    status = ends("--look --lmc 0 --routing spread", 0, "compare", "")
    room.check(status["load"] == {} and made not in room.text("fab/planned"), f"without channels: {status['load']}")


def silence(room: Room, fab: Fab, ends: Ends) -> None:
    """Checks that silent nodes are left out, and that a known adapter stays."""
    facts, plan = room.text("t.facts"), room.text("t.plan")
    claimed = facts.replace("claim 0000000000000200/1 0", "claim 0000000000000200/1 5")
    quiet = "".join(line for line in claimed.splitlines(True) if "0000000000000200" not in line)
    fab(facts=claimed, held=plan)
    ends("--direct", 0, "audit", "the subnet holds the plan")
    held = plan.replace("lid 5 0000000000000200/1\n", "")
    fab(facts=quiet, stored=claimed, held=held, status="1", sent="", asked="", **{"step.1": plan})
    told = ends("--direct", 1, "record", "the record has gaps")
    told = ends("--direct --accept silent", 0, "audit", "the subnet holds the plan")
    room.check(
        (room.path / "rd/now.store").read_bytes() == record_files.store_of(claimed), "planned is what was known before"
    )
    room.check(
        told["silent"] == {"ports": [], "kept": [{"end": "0000000000000200/1", "lid": 5}], "left_out": []},
        f"{told['silent']}",
    )
    room.check(
        told["line"].endswith("; silent ports that keep their LIDs: 1, as 0000000000000200/1 with 5"), told["line"]
    )
    room.check(
        room.text("rd/now.held") == plan and "--retries 20" in room.text("fab/asked"),
        "its LID is held, and it was asked again",
    )


def silent_switches(room: Room, fab: Fab, ends: Ends) -> None:
    """Checks that nothing is kept of a silent cable between switches. A switch without a known table size is left out,
    with the adapter whose only wire leads to it."""
    facts, plan = room.text("t.facts"), room.text("t.plan")
    cut = facts.replace("link 0000000000000020/2 0000000000000030/2 @1\n", "").replace(
        "link 0000000000000030/2 0000000000000020/2 @1\n", ""
    )
    fab(facts=cut, held=plan)
    told = ends("--accept silent --look", 0, "compare", "looked only")
    room.check(
        told["silent"]["ports"] == ["0000000000000020/2", "0000000000000030/2"] and not told["silent"]["kept"],
        f"{told['silent']}",
    )
    room.check(not (room.path / "rd/now.store").exists(), "and what was recorded is planned")
    left = "".join(
        line for line in facts.splitlines(True) if "0000000000000030" not in line and "0000000000000200" not in line
    )
    fab(facts=facts.replace("cap 0000000000000030 1024 @1\n", ""), stored=left, held=plan)
    told = ends("--accept silent --look", 0, "compare", "looked only")
    room.check(
        (room.path / "rd/now.store").read_bytes() == record_files.store_of(left),
        "a switch without its size is left out",
    )
    room.check(
        told["silent"]["left_out"] == ["0000000000000030", "0000000000000200"], f"with what it joins: {told['silent']}"
    )


def lids_of_the_silent(room: Room, fab: Fab, ends: Ends) -> None:
    """Checks that no port gets the LID of a silent one."""
    facts, plan = room.text("t.facts"), room.text("t.plan")
    fab(facts=facts.replace("claim 0000000000000030/0 0", "claim 0000000000000030/0 5"), held=plan, status="0")
    ends("--look --accept lids", 0, "compare", "looked only")
    fab(
        facts=facts.replace("cap 0000000000000030 1024 @1\n", ""),
        plan=plan.replace("lid 3 0000000000000030/0\n", ""),
        status="1",
    )
    fab(
        plan=room.text("fab/plan").replace("lid 5 0000000000000200/1", "lid 5 0000000000000100/1").replace(
            "lid 4 0000000000000100/1\n", ""
        )
    )
    ends(
        "--accept silent --look",
        1,
        "lids",
        "0000000000000100/1 would get LID 5 of 0000000000000030/0, which may be silent alone",
    )
    fab(facts=facts, plan=plan, held=plan, status="0")
    (room.path / "fab/step.1").unlink()


def other_files(room: Room, fab: Fab, ends: Ends) -> None:
    """Checks that an OpenSM that reads other files is reported before anything is asked."""
    fab(held=room.text("t.plan"), log="", facts=room.text("t.facts"))
    for words, is_other in (
        (("-U", "other.lfts"), 1),
        (("--lfts_file=x/plan.lfts",), 1),
        (("-U", "rd/plan.lfts"), 0),
        (("-Urd/../rd/plan.lfts",), 0),
    ):
        with fake_opensm(room, *words) as process:
            if is_other:
                told = ends(f"--opensm {process}", 3, "manager", f"OpenSM {process} routes by ")
                room.check("not by rd/plan.lfts (-U in its command line)" in told["verdict"], told["verdict"])
            else:
                ends(f"--opensm {process}", 0, "audit", "the subnet holds the plan")
        fab(log="")


def by_a_file(room: Room, fab: Fab) -> None:
    """Checks options in a file, and the rule if none is named. Options of the command line take precedence."""
    room.put(round_conf="# where\ndir rd\nrouting spread  # a rule\nlmc=0\nlook\n\n", bad_conf="dir rd\nsing\n")
    fab(planned="")
    words = "--programs ."
    room.prints(f"round --config round.conf {words}", 0, "compare: looked only")
    room.prints(f"round --config round.conf {words} --routing updown", 0, "compare: looked only")
    for more in "", "--order x.order":
        room.prints(f"round rd --look {words} {more}", 0, "compare: looked only")
    wanted = [
        f"plan --routing {rule} rd/now.reports"
        for rule in (
            f"spread {IN_ORDER} --lmc 0",
            "updown --lmc 0",
            f"balance {IN_ORDER}",
            "balance --order x.order",
        )
    ]
    room.check(room.text("fab/planned").splitlines() == wanted, f"options of a file: {room.text('fab/planned')}")
    room.run(f"round --config bad.conf {words}", 2)
    room.run(f"round {words}", 2)
    room.refused(f"round --config nothing {words}", "nothing", 4)


def files_of_options(room: Room) -> None:
    """Checks that what is wrong in a file of options is told with its line, and on the command line with its option."""
    good = "dir rd\n\n# a comment\nlook\n"
    for line, why, status in (
        ("sing", "unrecognized arguments: --sing", 2),
        ("lmc 8", "argument --lmc: invalid choice: 8", 2),
        ("lmc", "argument --lmc: expected one argument", 2),
        ("opensm x", "argument --opensm: invalid int value", 2),
        ("direct 5", "--direct takes no value: 5", 2),
        ("accept silent,loud", "argument --accept: 'loud' is none of silent, lids, busier, holes", 2),
        *((word.removeprefix("--"), f"{word} is gone: {instead}", 2) for word, instead in round_words.GONE.items()),
        ("order nothing", "there is no file nothing", 4),
        ("programs=nothing", "there is no folder nothing", 4),
        ("programs fab", "fab has none of ibsm, record and send", 4),
    ):
        room.put(bad_conf=f"{good}{line}\nrouting spread\n")
        # The command line comes first, so what it names must not be in the way of what is tried.
        programs = "" if "programs" in line else "--programs ."
        room.run(f"round --config bad.conf {programs}", status)
        room.check(f"bad.conf:5: {why}" in room.said, f"`{line}` in a file: {room.said[-300:]}")
        if line == "direct 5":
            continue
        words = f"--{line}"
        room.run(f"round rd --look {programs} {words}", status)
        where = f"{words.partition('=')[0].partition(' ')[0]}: {why}" if status == 4 else why
        room.check(where in room.said and "bad.conf" not in room.said, f"{words}: {room.said[-300:]}")
    first = "bad.conf:1: "
    for line, words, where in (("t.facts", "", first), ("rd", "t.facts", ""), ("t.facts/x", "", first)):
        room.put(bad_conf=f"dir {line}\nlook\n")
        room.run(f"round --config bad.conf --programs . {words}", 4)
        room.check(re.match(rf"round: {where}t\.facts(/x)?: ", room.said), f"`dir {line}`: {room.said}")
    room.put(log_conf=f"{good}log nothing.log\n", more_conf=f"{good}accept holes\naccept silent,lids  # two\n")
    room.prints("round --config log.conf --programs .", 0, "compare: looked only")
    room.check(room.said == "round: log.conf:5: there is no log nothing.log yet\n", f"a log to come: {room.said}")
    options = round_words.read_words(["--config", str(room.path / "more.conf"), "--accept", "busier"], "")
    room.check(options.accept == ["holes", "silent", "lids", "busier"], f"what a file accepts: {options.accept}")
    room.check(options.silent and options.holes and options.busier and options.move_lids, "is accepted")
    room.run("round --config nothing --programs .", 4)


def started(room: Room, *words: str) -> subprocess.Popen[str]:
    """Starts repeated rounds, and returns the process, whose lines can be read."""
    words = [sys.executable, paths.TOOLS / "round", "rd", "--programs", ".", *words]
    return subprocess.Popen(words, cwd=room.path, stdout=subprocess.PIPE, text=True, stdin=subprocess.DEVNULL)


def healed(room: Room, fab: Fab) -> None:
    """Checks that --watch writes a step with a credit loop only while packets are lost."""
    held, loop = room.text("round.plan"), "credit loop on one lane 0000000000000010/1\nlids 5\n"
    for arrive, step, end in (
        (20, "; status 1; written all the same, since 5 pairs are lost", "status 0 audit: the subnet holds the plan; "),
        (25, "; status 1", "status 1 next: step 1 is not written, since packets can wait in a loop meanwhile"),
    ):
        fab(held=held, loop=loop, **{"audit.held": f"pairs 25 arrive {arrive}\n"})
        process = started(room, "--direct", "--watch", "0.1", "--settle", "0")
        lines = [process.stdout.readline().rstrip("\n") for _ in range(2)]
        process.terminate()
        process.communicate()
        room.check(lines[0].endswith(step) and end in lines[1], f"{arrive} of 25 arrive: {lines}")
    (room.path / "fab/audit.held").unlink()
    fab(loop="credit loop none\n")


def watched_by_log(room: Room, fab: Fab) -> None:
    """Checks that a round starts only once OpenSM's log, if given, reports a sweep."""
    fab(log="SUBNET UP\n")
    process = started(room, "--look", "--watch", "0.05", "--log", "fab/log")
    first = process.stdout.readline()
    time.sleep(1)
    with open(room.path / "fab/log", "a") as log:
        told = time.time()
        log.write("SUBNET UP\n")
    second = process.stdout.readline()
    process.terminate()
    process.communicate()
    at = datetime.datetime.fromisoformat(second.split(" ")[0]).timestamp()
    room.check(
        " status 0 compare: " in first and " status 0 compare: " in second and at >= told,
        f"by the log: {first}{second}",
    )


def watched(room: Room) -> None:
    """Checks that rounds go on until a signal, with one line each."""
    process = started(room, "--look", "--watch", "0.05")
    lines = [process.stdout.readline() for _ in range(3)]
    process.terminate()
    process.communicate()
    room.check(
        all(re.fullmatch(r"\S+ status 0 compare: looked only: .*\n", line) for line in lines),
        f"a line for each round: {lines}",
    )
    room.check(process.returncode == 143, f"a signal ends them: {process.returncode}")
