"""What `tests/test` checks of `seat` over ibsim: two masters and none, a process that hangs, the end of a master."""
from __future__ import annotations

import contextlib
import os
import re
import signal
import time
from collections.abc import Callable, Iterator

import live_checks
import sample_fabrics
from bench import Bench
from seat_checks import Seat, held, lids, manager, opensm, port_guid, seated, until

# Seconds in which one master is to be left, and in which it is to have written.
SOON = 12
# Seconds in which one is to be left where sweeps lack answers: six of them, with waits up to two seconds.
DEAF = 30
# Seconds that a seat may take to leave.
LEFT = 6
# How a seat polls and repeats requests in these trials.
TIMING = ("-m", 200, "-r", 1)
# Seconds for which no other state may come.
STEADY = 4


@contextlib.contextmanager
def stopped(number: int) -> Iterator[None]:
    """Stops a process, and lets it go on, if it is still there."""
    os.kill(number, signal.SIGSTOP)
    try:
        yield
    finally:
        with contextlib.suppress(ProcessLookupError):
            os.kill(number, signal.SIGCONT)


def state_in(log: str) -> str | None:
    """Returns the state that OpenSM's log reports last."""
    states = re.findall(r"Entering (\w+) state", log)
    return states[-1].lower() if states else None


def master_lids(bench: Bench, name: str) -> set[int]:
    """Returns the MasterSMLIDs of the end ports in a recording."""
    infos = live_checks.port_infos(bench.path / f"{name}.reports").values()
    return {int.from_bytes(info[18:20], "big") for info in infos if info[16:18] != b"\0\0"}


def lid_of(bench: Bench, text: str, host: str) -> int:
    """Returns the LID of an adapter in the text of a plan."""
    return int(re.search(rf"^lid (\d+) {bench.fabric.guid(host):016x}/1$", text, re.M)[1])


def one_master(
    bench: Bench,
    states: Callable[[], tuple[str | None, ...]],
    wanted: tuple[str, ...],
    what: str,
    seconds: float = SOON,
) -> None:
    """Checks that the managers have the wanted states in so many seconds, and keep them."""
    took = until(lambda: states() == wanted, seconds)
    seen = set()
    until(lambda: seen.add(states()), STEADY)
    bench.check(took is not None and seen == {wanted}, f"{what}: {took if took is None else round(took, 1)} s, {seen}")


def settled_anew(seat: Seat, since: float) -> bool:
    """Waits until a seat has swept since a time with nothing left to write."""

    def holds() -> bool:
        told = seat.status()
        return told["writing"]["settled"] and (told["sweep"]["began"] or 0) > since

    return until(holds, SOON) is not None


def ruled_by(bench: Bench, name: str, host: str, reader: str = "H3") -> None:
    """Checks that the subnet holds the plan, and that each end port has the LID of the master at `host`."""
    text = held(bench, name, reader)
    named = master_lids(bench, name)
    bench.check(named == {lid_of(bench, text, host)}, f"each end port names {host} as its master: {named}")


def ruled_by_opensm(bench: Bench, name: str) -> None:
    """Checks that each end port soon has the LID of OpenSM's port as its master's."""

    def holds() -> bool:
        bench.record("-q", "-g", 1, "-T", name, f"{name}.reports", seat="H3")
        return master_lids(bench, name) == {lid_of(bench, (bench.path / name).read_text(), "H2")}

    took = until(holds, SOON)
    bench.check(took is not None, f"each end port names OpenSM as its master: {master_lids(bench, name)}")


def paused_above_opensm(bench: Bench, name: str = "above", **how: bool) -> None:
    """Checks that a seat that was stopped while a lesser OpenSM became master is the only master soon after."""
    with seated(bench, "H1", "-p", 8, *TIMING) as seat, contextlib.ExitStack() as stack:
        bench.check(seat.settles(), "a seat of priority 8 is master")
        with stopped(seat.process.pid):
            _, log = stack.enter_context(opensm(bench, "H2", 3, **how))
            bench.check(until(lambda: "SUBNET UP" in log()) is not None, "it is stopped: OpenSM, priority 3, is master")
            since = time.time()
        one_master(bench, lambda: (seat.state(), state_in(log())), ("master", "standby"), "it goes on: one master")
        bench.check(seat.count("ANOTHER MASTER") > 0, f"it saw two: {seat.said().splitlines()[-8:]}")
        bench.check((seat.count("YIELDS") > 0) == ("is_deaf" in how), f"it yields {seat.count('YIELDS')} times")
        bench.check(settled_anew(seat, since), "it writes, and sweeps once more")
        ruled_by(bench, name, "H1")
        bench.check(manager(bench, "H3") == (port_guid(bench, "H1"), 8, 3), f"sminfo: {manager(bench, 'H3')}")


def paused_above_a_deaf_opensm(bench: Bench) -> None:
    """Checks the same where no trap reaches OpenSM: the seat hands over to it, and it hands back."""
    paused_above_opensm(bench, "deaf", is_deaf=True)


def paused_below_opensm(bench: Bench) -> None:
    """Checks that a seat that was stopped while a greater OpenSM became master hands over, and writes nothing."""
    with seated(bench, "H1", "-p", 3, *TIMING) as seat, contextlib.ExitStack() as stack:
        bench.check(seat.settles(), "a seat of priority 3 is master")
        before = seat.status()["writing"]["count"]
        with stopped(seat.process.pid):
            _, log = stack.enter_context(opensm(bench, "H2", 8, "-R", "updn"))
            bench.check(until(lambda: "SUBNET UP" in log()) is not None, "it is stopped: OpenSM, priority 8, is master")
            bench.record("-q", "-g", 1, "-T", "theirs", "theirs.reports", seat="H3")
        one_master(bench, lambda: (seat.state(), state_in(log())), ("standby", "master"), "it goes on: one master")
        bench.check(seat.status()["writing"]["count"] == before, "the seat has written nothing")
        ruled_by_opensm(bench, "still")
        bench.check(bench.same("theirs", "still"), "tables are OpenSM's")


def opensm_paused(bench: Bench, ours: int, theirs: int) -> None:
    """Checks that one master is left after OpenSM was stopped as master and a seat took over."""
    wins = ours > theirs
    with contextlib.ExitStack() as stack:
        process, log = stack.enter_context(opensm(bench, "H2", theirs))
        bench.check(until(lambda: "SUBNET UP" in log()) is not None, f"OpenSM, priority {theirs}, is master")
        with stopped(process.pid):
            seat = stack.enter_context(seated(bench, "H1", "-p", ours, "-s", 2, *TIMING))
            bench.check(seat.settles(), f"it is stopped: a seat of priority {ours} is master")
            since = time.time()
        wanted = ("master", "standby") if wins else ("standby", "master")
        one_master(bench, lambda: (seat.state(), state_in(log())), wanted, "it goes on: one master")
        if wins:
            bench.check(settled_anew(seat, since), "the seat writes, and sweeps once more")
            ruled_by(bench, "paused", "H1")
        else:
            ruled_by_opensm(bench, "paused")
        bench.check(manager(bench, "H3")[1:] == (max(ours, theirs), 3), f"sminfo: {manager(bench, 'H3')}")


def lesser_opensm_paused(bench: Bench) -> None:
    """Checks an OpenSM of lesser priority than the seat's."""
    opensm_paused(bench, 8, 3)


def greater_opensm_paused(bench: Bench) -> None:
    """Checks an OpenSM of greater priority than the seat's."""
    opensm_paused(bench, 3, 8)


def seats_paused(bench: Bench, *words: object, bend: str | None = None) -> None:
    """Checks two seats: the greater one is stopped, the lesser one becomes master, and the greater one goes on. It is
    the only master then, and each end port names it as such. `words` and `bend` are of the lesser one."""
    with contextlib.ExitStack() as stack:
        greater = stack.enter_context(seated(bench, "H1", "-p", 8, *TIMING))
        bench.check(greater.settles(), "a seat of priority 8 is master")
        lesser = stack.enter_context(seated(bench, "H2", "-p", 3, *TIMING, *words, bend=bend))
        bench.check(until(lambda: lesser.state() == "standby", 20) is not None, "one of priority 3 stands by")
        before = held(bench, "before", "H3")
        with stopped(greater.process.pid):
            took = until(lambda: lesser.state() == "master")
            bench.check(took is not None and lesser.settles(), f"the greater one is stopped: {took or -1:.1f} s")
            ruled_by(bench, "lesser", "H2")
            since = time.time()
        one_master(bench, lambda: (greater.state(), lesser.state()), ("master", "standby"), "it goes on: one master")
        bench.check((greater.count("YIELDS") > 0) == (bend is not None), f"it yields {greater.count('YIELDS')} times")
        bench.check(settled_anew(greater, since), "it writes, and sweeps once more")
        ruled_by(bench, "greater", "H1")
        bench.check((bench.path / "greater").read_text() == before, "tables are as at first")


def paused_above_a_deaf_seat(bench: Bench) -> None:
    """Checks the same where no trap reaches the lesser one, and it sweeps each minute: the greater one hands over to
    it, and it hands back."""
    seats_paused(bench, "-s", 60, bend="untrapped")


def cut_off(bench: Bench) -> None:
    """Checks that a seat whose line lost all packets while OpenSM became master is the only master soon after, though
    it was never stopped."""
    line = 'Error "H1"[1]'
    with contextlib.ExitStack() as stack:
        seat = stack.enter_context(seated(bench, "H1", "-p", 8, *TIMING))
        bench.check(seat.settles(), "a seat of priority 8 is master")
        _, log = stack.enter_context(opensm(bench, "H2", 3))
        bench.check(until(lambda: state_in(log()) == "standby") is not None, "OpenSM, priority 3, stands by")
        bench.tell(f"{line} 100")
        took = until(lambda: state_in(log()) == "master")
        bench.check(took is not None, f"the seat's line loses all packets: OpenSM is master after {took or -1:.1f} s")
        bench.check(until(lambda: "SUBNET UP" in log()) is not None, "and has written")
        bench.check(seat.state() == "master", "the seat is master still")
        bench.tell(f"{line} 0")
        since = time.time()
        states = ("master", "standby")
        one_master(bench, lambda: (seat.state(), state_in(log())), states, "the line is whole: one master", DEAF)
        bench.check(settled_anew(seat, since), "the seat writes, and sweeps once more")
        ruled_by(bench, "cut", "H1")


def without_a_master(bench: Bench) -> None:
    """Checks that one of two seats becomes master although an adapter answers nothing and both stand by: the lesser
    one was master, was killed, and started anew. Once the adapter answers, the master writes."""
    deaf = 'Error "H6"[1]'
    bench.tell(f"{deaf} 100")
    with contextlib.ExitStack() as stack:
        lesser = stack.enter_context(seated(bench, "H1", "-p", 3, *TIMING))
        bench.check(until(lambda: lesser.state() == "master") is not None, "an adapter is deaf: a seat is master")
        greater = stack.enter_context(seated(bench, "H2", "-p", 8, *TIMING))
        bench.check(until(lambda: greater.state() == "standby") is not None, "a greater one stands by")
        lesser.end(signal.SIGKILL)
        lesser = stack.enter_context(seated(bench, "H1", "-p", 3, *TIMING))
        took = until(lambda: (lesser.state(), greater.state()) == ("standby", "master"), DEAF)
        bench.check(took is not None, f"the master is started anew: the greater one is master after {took or -1:.1f} s")
        bench.check(greater.count("SUBNET UP") == 0 < greater.count("NOT WHOLE"), "it writes nothing")
        bench.tell(f"{deaf} 0")
        bench.check(greater.settles(), "the adapter answers: the subnet is up")
        one_master(bench, lambda: (lesser.state(), greater.state()), ("standby", "master"), "one master")
        ruled_by(bench, "found", "H2")


def handed_over_with_gaps(bench: Bench) -> None:
    """Checks that a master hands over to a greater seat although an adapter answers nothing."""
    deaf = 'Error "H6"[1]'
    with contextlib.ExitStack() as stack:
        lesser = stack.enter_context(seated(bench, "H1", "-p", 3, *TIMING))
        bench.check(lesser.settles(), "a seat is master")
        before = held(bench, "before", "H3")
        bench.tell(f"{deaf} 100")
        greater = stack.enter_context(seated(bench, "H2", "-p", 8, *TIMING))
        took = until(lambda: (lesser.state(), greater.state()) == ("standby", "master"), DEAF)
        bench.check(took is not None, f"an adapter is deaf: a greater seat is master after {took or -1:.1f} s")
        bench.check(greater.count("SUBNET UP") == 0, "it writes nothing")
        bench.tell(f"{deaf} 0")
        bench.check(greater.settles(), "the adapter answers: the subnet is up")
        ruled_by(bench, "after", "H2")
        bench.check((bench.path / "after").read_text() == before, "tables are as at first")


def port_of_another(bench: Bench) -> None:
    """Checks that a port whose MasterSMLID becomes another LID gets the master's again, though the plan is the same;
    but not without end, since who changes it may be a master too."""
    with seated(bench, "H1", "-p", 8, "-s", 1, *TIMING) as seat:
        bench.check(seat.settles(), "a seat is master")
        text = held(bench, "before", "H3")
        own, other = lid_of(bench, text, "H1"), lid_of(bench, text, "H6")
        for number in range(1, 5):
            status = bench.run("ibportstate", other, 1, "smlid", other, simulated=True, seat="H3")
            bench.check(status == 0, f"H6 names itself as master, {number}: {bench.said.strip()}")
            if number == 4:
                break
            took = until(lambda: seat.count("SUBNET UP") == 1 + number, SOON)
            bench.check(took is not None and seat.settles(), f"the plan is written again after {took or -1:.1f} s")
            bench.check(seat.count("name another master still") == 0, "and none is left")
            ruled_by(bench, f"again{number}", "H1")
        time.sleep(STEADY)
        bench.check(seat.count("SUBNET UP") == 4 and seat.state() == "master", "it is not written a fourth time")
        bench.check(seat.count(" 1 ports name another master still") == 1, "and the log says so, once")
        bench.record("-q", "-g", 1, "-T", "left", "left.reports", seat="H3")
        bench.check(master_lids(bench, "left") == {own, other}, f"H6 names itself still: {master_lids(bench, 'left')}")


def hung(bench: Bench) -> None:
    """Checks that a seat whose process is stopped has it killed, and that a new one brings the subnet up. A seat whose
    process is stopped ends at SIGTERM all the same."""
    with seated(bench, "H1", "-p", 8, "-s", 1, *TIMING) as seat:
        bench.check(seat.settles(), "a seat is master")
        before = held(bench, "before", "H3")
        first = seat.children()
        os.kill(first[0], signal.SIGSTOP)
        took = until(lambda: seat.count("hangs, and is killed"), SOON)
        bench.check(took is not None, f"its process is stopped: that is seen after {took or -1:.1f} s")
        took = until(lambda: seat.count("SUBNET UP") == 2, SOON)
        bench.check(took is not None and seat.settles(), f"a new one brings the subnet up after {took or -1:.1f} s")
        bench.check(len(seat.children()) == 1 and seat.children() != first, "the stopped one is gone")
        bench.check(held(bench, "after", "H3") == before, "tables are as they were")
        os.kill(seat.children()[0], signal.SIGSTOP)
        began = time.monotonic()
        bench.check(seat.end() == 0, f"SIGTERM while it is stopped: status 0 after {time.monotonic() - began:.1f} s")
        bench.check(seat.count("hangs, and is killed") == 1, "for which nothing more is said")


def left_to_a_seat(bench: Bench) -> None:
    """Checks that a seat that is ended hands over to a lesser one, which would otherwise poll for ten seconds."""
    with seated(bench, "H1", "-p", 8) as greater, seated(bench, "H2", "-p", 3) as lesser:
        bench.check(greater.settles(), "a seat is master")
        bench.check(until(lambda: lesser.state() == "standby") is not None, "a lesser one stands by")
        before = held(bench, "before", "H3")
        # The master sees it as such in its next sweep.
        since = time.time()
        greater.process.send_signal(signal.SIGHUP)
        bench.check(settled_anew(greater, since - 1), "the master has swept since")
        began = time.monotonic()
        bench.check(greater.end() == 0, f"SIGTERM: status 0 after {time.monotonic() - began:.1f} s")
        heir = f"YIELDS to {port_guid(bench, 'H2'):016x}, priority 3\n"
        bench.check(heir in greater.said(), f"the other takes over: {greater.said().splitlines()[-4:]}")
        took = until(lambda: "SUBNET UP" in lesser.said(), SOON)
        took = time.monotonic() - began
        bench.check(lesser.settles() and took < LEFT, f"and has written {took:.1f} s after the signal")
        ruled_by(bench, "left", "H2")
        bench.check((bench.path / "left").read_text() == before, "tables are as they were")
        began = time.monotonic()
        bench.check(lesser.end() == 0 and lesser.count("YIELDS") == 0, "SIGTERM with nobody beside it: status 0")
        bench.check(time.monotonic() - began < 1, f"at once: {time.monotonic() - began:.1f} s")


def left_to_a_dead_seat(bench: Bench) -> None:
    """Checks that a seat ends soon although the standby that it hands over to is stopped."""
    with seated(bench, "H1", "-p", 8) as greater, seated(bench, "H2", "-p", 3) as lesser:
        bench.check(until(lambda: lesser.state() == "standby") is not None, "a lesser one stands by")
        bench.check(until(lambda: greater.status()["managers"] and greater.settles()) is not None, "and is seen")
        with stopped(lesser.process.pid):
            began = time.monotonic()
            status = greater.end()
            took = time.monotonic() - began
            bench.check(status == 0 and took < LEFT, f"SIGTERM while it is stopped: status {status} after {took:.1f} s")
            bench.check(greater.count("nobody takes over") == 1, f"it is said: {greater.said().splitlines()[-3:]}")


def left_to_opensm(bench: Bench) -> None:
    """Checks that a seat that is ended hands over to a lesser OpenSM."""
    with seated(bench, "H1", "-p", 8, "-s", 2) as seat, opensm(bench, "H2", 3, "-R", "updn") as (_, log):
        bench.check(until(lambda: state_in(log()) == "standby") is not None, "OpenSM, priority 3, stands by")
        is_seen = until(lambda: seat.state() and seat.status()["managers"] and seat.settles()) is not None
        bench.check(is_seen, "and is seen")
        before = held(bench, "before", "H3")
        time.sleep(STEADY)
        began = time.monotonic()
        bench.check(seat.end() == 0, f"SIGTERM: status 0 after {time.monotonic() - began:.1f} s")
        heir = f"YIELDS to {port_guid(bench, 'H2'):016x}, priority 3\n"
        bench.check(heir in seat.said(), f"OpenSM takes over: {seat.said().splitlines()[-4:]}")
        bench.check(until(lambda: "SUBNET UP" in log(), SOON) is not None, "and has written")
        bench.check(state_in(log()) == "master", f"it is {state_in(log())}")
        ruled_by_opensm(bench, "theirs")
        bench.check(lids((bench.path / "theirs").read_text()) == lids(before), "LIDs stay")


def torus() -> sample_fabrics.Fabric:
    """Returns the fabric of these trials."""
    return sample_fabrics.torus(3, 3)


# Each has its own fabric: ibsim clears a port's IsSM late, when it finds that an earlier process there is dead.
SEATED = (
    ("two masters, a seat paused above OpenSM", torus, (paused_above_opensm,)),
    ("two masters, a seat paused above a deaf OpenSM", torus, (paused_above_a_deaf_opensm,)),
    ("two masters, a seat paused below OpenSM", torus, (paused_below_opensm,)),
    ("two masters, a lesser OpenSM paused", torus, (lesser_opensm_paused,)),
    ("two masters, a greater OpenSM paused", torus, (greater_opensm_paused,)),
    ("two masters, a seat paused above a seat", torus, (seats_paused,)),
    ("two masters, a seat paused above a deaf seat", torus, (paused_above_a_deaf_seat,)),
    ("a port of another master", torus, (port_of_another,)),
    ("two masters, a seat cut off beside OpenSM", torus, (cut_off,)),
    ("a process that hangs", torus, (hung,)),
    ("an end beside a seat", torus, (left_to_a_seat,)),
    ("an end beside a stopped seat", torus, (left_to_a_dead_seat,)),
    ("an end beside OpenSM", torus, (left_to_opensm,)),
    ("no master, with a deaf adapter", torus, (without_a_master,)),
    ("a greater seat, with a deaf adapter", torus, (handed_over_with_gaps,)),
)
