"""The status files of a seat and of rounds: their form, and what Prometheus is to see of them."""
from __future__ import annotations

import datetime
from collections.abc import Iterator
from typing import Any

# A series of one name: its meaning, its type, and its values by labels. Values that are None are left out.
Series = tuple[str, str, str, dict[str, Any]]
STATES = "discovering", "standby", "master", "not-active"
# The members by which an object is known, with their types.
FORMS = {
    "seat": {"state": str, "guid": str, "sweep": dict, "writing": dict, "managers": list, "packets": dict},
    "round": {"began": str, "ended": str, "step": str, "verdict": str, "status": int, "seconds": dict, "counts": dict},
}


def form_of_object(value: Any) -> str | None:
    """Returns whose status an object of JSON is, or None."""
    for form, members in FORMS.items():
        if isinstance(value, dict) and all(isinstance(value.get(name), kind) for name, kind in members.items()):
            return form
    return None


def labels(**values: str) -> str:
    """Returns labels as they stand behind a name."""
    marks = str.maketrans({"\\": "\\\\", '"': '\\"', "\n": "\\n"})
    return "{" + ",".join(f'{name}="{value.translate(marks)}"' for name, value in values.items()) + "}"


def series_of_seat(seat: dict[str, Any]) -> Iterator[Series]:
    """Yields what a seat's status tells. Each value has the seat's port and GUID as labels."""
    own = {"port": seat["port"], "guid": seat["guid"]}
    sweep, writing = seat["sweep"], seat["writing"]

    def one(name: str, what: str, value: Any, kind: str = "gauge") -> Series:
        return name, what, kind, {labels(**own): value}

    states = {labels(**own, state=state): seat["state"] == state for state in STATES}
    yield "state", "whether the manager is in a state", "gauge", states
    yield one("state_since_seconds", "when that state began, in seconds since 1970", seat["since"])
    yield one("priority", "the manager's priority", seat["priority"])
    yield one("sweeps_total", "sweeps since the start", sweep["count"], "counter")
    yield one("light_sweeps_total", "light sweeps that found each switch as it was", sweep.get("light", 0), "counter")
    yield one("sweep_ended_seconds", "when the last sweep ended, in seconds since 1970", sweep["ended"])
    yield one("sweep_whole", "whether it had every answer but those of managers", sweep["whole"])
    yield one("sweep_unanswered", "its requests without an answer", sweep["unanswered"])
    yield one("sweep_managers_silent", "those of them to managers", sweep["managers_silent"])
    yield one("sweep_too_far", "ports that are too many hops away", sweep["too_far"])
    yield one("writings_total", "writings since the start", writing["count"], "counter")
    yield one("writing_ended_seconds", "when the last writing ended, in seconds since 1970", writing["ended"])
    yield one("writing_written", "whether each step of it was answered", writing["written"])
    yield one("writing_settled", "whether a later sweep found the plan that was written", writing["settled"])
    yield one("lids", "end ports in the plan that was written", writing["lids"])
    yield one("switches", "switches in that plan", writing["switches"])
    seen = [it["state"] for it in seat["managers"]]
    counts = {labels(**own, state=state): seen.count(state) for state in dict.fromkeys((*STATES, *seen))}
    yield "managers", "other managers that the last sweep saw, by state", "gauge", counts
    packets = {labels(**own, kind=kind): count for kind, count in seat["packets"].items()}
    yield "packets_total", "packets since the start, by kind", "counter", packets


def seconds_since_1970(time: str | None) -> float | None:
    """Returns a time of a round as a number."""
    return datetime.datetime.fromisoformat(time.replace("Z", "+00:00")).timestamp() if time else None


def series_of_round(told: dict[str, Any]) -> Iterator[Series]:
    """Yields what the status of a round tells."""
    lost, silent = told.get("lost") or {}, told.get("silent") or {}

    def one(name: str, what: str, value: Any) -> Series:
        return name, what, "gauge", {"": value}

    yield one("status", "the exit status of the last round, 0 if the subnet holds the plan", told["status"])
    yield one("began_seconds", "when it began, in seconds since 1970", seconds_since_1970(told["began"]))
    yield one("ended_seconds", "when it ended, in seconds since 1970", seconds_since_1970(told["ended"]))
    last = "when a look last found that no packet is lost, in seconds since 1970"
    yield one("whole_seconds", last, seconds_since_1970(told.get("whole")))
    yield one("lost_pairs", "pairs of a sender and a LID that were lost when it began", lost.get("pairs", 0))
    yield one("lost_seconds", "for how long at most they were lost", lost.get("seconds"))
    yield one("steps", "steps to the plan that it took", len(told.get("steps", ())))
    yield one("silent", "whether nodes or ports were silent", bool(silent))
    steps = {labels(step=step): seconds for step, seconds in told["seconds"].items()}
    yield "step_seconds", "what each step of it took", "gauge", steps
    counts = {labels(of=name): count for name, count in told["counts"].items()}
    yield "counts", "what it counted", "gauge", counts
    loads = {labels(tables=name, of=of): load for name, it in told.get("load", {}).items() for of, load in it.items()}
    yield "load", "pairs of adapters on a channel, by the tables held and by the plan", "gauge", loads


SERIES = {"seat": series_of_seat, "round": series_of_round}


def text_of_series(prefix: str, series: Iterator[Series]) -> str:
    """Returns the text form of Prometheus."""
    lines = []
    for name, what, kind, values in series:
        there = {label: value for label, value in values.items() if value is not None}
        if there:
            lines += [f"# HELP {prefix}_{name} {what}", f"# TYPE {prefix}_{name} {kind}"]
            lines += [f"{prefix}_{name}{label} {value + 0}" for label, value in there.items()]
    return "\n".join(lines) + "\n"
