"""How busy channels are, as `ibsm audit` counts it: the busiest one beside the mean, and by a plan by `balance`."""
from __future__ import annotations

from collections.abc import Mapping

# The load of an audit: the most on one channel, and the mean.
Load = Mapping[str, float]


def times_mean(most: int, mean: float) -> str:
    """Returns how many times the mean the busiest channel carries."""
    return f"{most / mean:.1f}" if mean else "0.0"


def beside_balance(held: Load, balance: Load | None) -> str:
    """Returns what the busiest channel carries by the held tables, and by a plan by `balance` if its load is given."""

    def carried(load: Load) -> str:
        pairs = f"{load['max']:,} pair{'' if load['max'] == 1 else 's'} of adapters"
        return f"{pairs}, {times_mean(load['max'], load['mean'])} times the mean"

    more = f"; by a plan by balance {carried(balance)}" if balance else ""
    return f"the busiest channel carries {carried(held)}{more}"
