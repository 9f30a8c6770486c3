"""A top whose files have as many bytes together as they may have, or one more."""
from __future__ import annotations

import json

from model.joined import LARGEST_OF_ALL
from model.trees import Json, Object
from model.whole_build import Built, Held, built

MOST_TYPES = 64
FILE = "large.hjson"


def small_files() -> Held:
    """A top of as many types as there may be, each of one instance and without an interface."""
    names = [f"b{number}" for number in range(MOST_TYPES)]
    instances: list[Json] = [{"name": f"u_{name}", "type": name, "clock_srcs": {"clk_i": "main"}} for name in names]
    top: Object = {"name": "large", "clocks": {"srcs": [{"name": "main"}]}, "resets": {"nodes": []}, "module": instances, "xbar": []}
    made: dict[str, Object] = {FILE: top}
    for name in names:
        made[f"{name}.hjson"] = {"name": name, "clocking": [{"clock": "clk_i"}], "bus_interfaces": [], "registers": []}
    return {name: json.dumps(description).encode() for name, description in made.items()}


def padded(more: int) -> Held:
    """The files with blanks behind them, so that they have all bytes that they may have together, and so many more in the last one."""
    held = small_files()
    each, left = divmod(LARGEST_OF_ALL - len(held[FILE]), MOST_TYPES)
    blocks = [name for name in held if name != FILE]
    sizes = {name: each for name in blocks} | {blocks[-1]: each + left + more}
    return held | {name: held[name].ljust(size) for name, size in sizes.items()}


def large_tops() -> dict[str, tuple[Held, Built]]:
    """Such tops with what is made of them: blanks change nothing, and one byte too many is told at the last file."""
    refused = Built(f"b{MOST_TYPES - 1}.hjson:1:1: fault 11: too large\n", [])
    return {"64-MiB": (padded(0), built(small_files(), FILE)), "one-byte-more": (padded(1), refused)}
