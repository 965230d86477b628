"""What functions of the program cost in some runs of growth.py, for `tests/at-scale`: how often each is called, and the
instructions in it and in all that it calls. So work that is done twice shows where it adds little to a whole run. The
compiler may put a function into its callers. It then has no name in the program, and cannot be counted."""
from __future__ import annotations

import collections
import re
from collections.abc import Callable, Iterable, Mapping

from noted_costs import CALLS, WITHIN, Noted
from paths import ROOT
from scale import check

# The functions that are counted in a run, by its title. Each does a part of the run, or is called once for each LID,
# switch, channel, target, cell, packet or line.
COUNTED = {
    "facts of a sweep": (
        "reply_facts::report_facts::sightings_in", "fact_store::store::Store::add_all", "fact_store::cells::put_kept",
        "fact_store::search::compare",
    ),
    "plan by switches": (
        "subnet_view::wire_table::Wires::of", "subnet_view::switch_graph::SwitchGraph::of",
        "updown_routes::graph::Graph::of", "lid_assign::assignment::assign", "lft_blocks::attachment::attachments",
        "lft_blocks::plan_text::write_block",
    ),
    "plan by switches, spread": (
        "port_graph::distance::distances", "spread_labels::distance_class::grade",
        "spread_labels::growth::grown_order", "spread_labels::candidate_sets::CandidateSets::towards",
        "spread_routes::adapters::adapters_of",
    ),
    "plan by switches, balance": (
        "trial_loads::trials::trial_loads", "balanced_choices::target_ways::ways_towards",
        "balanced_choices::choice_order::near_first", "balanced_choices::choice_rounds::Balance::choose_all",
    ),
    "audit by switches": (
        "subnet_view::subnet::Subnet::of", "subnet_view::subnet::Subnet::graph",
        "held_tables::wired_subnet::WiredSubnet::of", "packet_walks::lid_cursor::LidCursor::go_to",
        "packet_walks::lid_cursor::LidCursor::edges", "packet_walks::network::Network::deliveries",
        "audit_channels::network_waits::channel_waits", "audit_channels::waits::Waits::add",
        "audit_channels::order::order_channels", "audit_counts::site::sites", "audit_ways::way_tally::WayTally::add",
    ),
    "audit by lane by switches": ("lane_channels::waits_by_lane::walk_at_level", "audit_channels::waits::Waits::add"),
    "order of tables by switches": ("held_order::told::told_order",),
    "next by switches, from the other rule": (
        "subnet_view::subnet::Subnet::of", "subnet_view::subnet::Subnet::graph",
        "packet_walks::lid_cursor::LidCursor::switch_steps", "packet_walks::lid_cursor::LidCursor::entries",
        "next_tables::held_arrivals::hops", "next_tables::rightness::are_right", "next_tables::step::next_tables",
        "audit_channels::waits::Waits::add", "audit_channels::order::order_channels",
    ),
    "next by switches, in the order of the tables": (
        "packet_walks::lid_cursor::LidCursor::switch_steps", "held_order::told::told_order",
        "two_orders::growth::grown_by", "two_orders::labels::label_each",
    ),
    "run by traps": ("schedule_run::world::World::deliver", "sm_manager::manager::Manager::on_packet"),
    "serve by adapters": (
        "sweep::sweep::Sweep::accept", "sm_manager::manager::Manager::on_packet", "plan_steps::carried::port_read",
        "subnet_view::wire_lookup::wire",
    ),
    "manage by adapters": (
        "acting_manager::acting_manager::ActingManager::handle_packet", "request_window::window::Window::answer",
        "request_window::window::Window::send", "acting_manager::reads::Reads::read",
        "sm_manager::manager::Manager::on_packet", "acting_manager::judging::planned",
        "acting_manager::plans::is_same_plan",
    ),
    "manage by lines": ("serve_run::notes::write_wake", "acting_manager::acting_manager::ActingManager::work"),
    "serve by lines": ("byte_io::to_write::ToWriteSink::write", "byte_io::to_write::ToWriteSink::flush"),
}
# What an instance of a generic function has behind its name.
INSTANCE = re.compile(r"::<#[0-9a-f]+>")


def costs_in(profile: str) -> tuple[dict[str, int], dict[str, int]]:
    """Returns the calls of each function, and the instructions in it with all that it calls, from a file that callgrind
    writes with whole names. Instances of a generic function count together."""
    calls, within = collections.Counter(), collections.Counter()
    name = called = ""
    for line in profile.splitlines():
        word, _, rest = line.partition("=")
        if word == "fn":
            name = INSTANCE.sub("", rest)
        elif word == "cfn":
            called = INSTANCE.sub("", rest)
        elif word == "calls":
            calls[called] += int(rest.split()[0])
        elif line[:1].isdigit():
            # Behind `calls` this is what the calls cost.
            within[name] += int(line.split()[1])
    return calls, within


def is_there(function: str) -> bool:
    """Returns whether the crate has a function of this name. Its file may be another than that of its type."""
    crate, *_, name = function.split("::")
    files = (ROOT / "crates" / crate / "src").glob("*.rt")
    return any(re.search(rf"\bfn {name}\b", path.read_text()) for path in files)


def check_all(
    runs: Mapping[str, tuple[str, ...]], profiles: Callable[[Iterable[tuple[str, ...]]], list[str]], noted: Noted
) -> None:
    """Notes what functions cost. `runs` are those of growth.py by title; `profiles` gives what callgrind writes of
    some. Functions without a name in the program are left out: it is a failure if costs of one are noted."""
    asked = [(title, function) for title, functions in COUNTED.items() for function in functions]
    for title, function in asked:
        check(title in runs, f"{title}: function_costs.py has functions of a run that is none")
        check(is_there(function), f"{function}: function_costs.py has a function that is none")
    titles = [title for title in COUNTED if title in runs]
    costs = {title: costs_in(it) for title, it in zip(titles, profiles([runs[title] for title in titles]))}
    seen = [(title, function) for title, function in asked if title in costs and costs[title][0][function]]
    check(3 * len(seen) > len(asked), f"few functions have a name in the program: {seen}")
    for title, function in seen:
        calls, within = costs[title]
        noted.find(CALLS, f"{title}, {function}", calls[function])
        noted.find(WITHIN, f"{title}, {function}", within[function] / 1000)
