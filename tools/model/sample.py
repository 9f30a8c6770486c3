"""The files of a large top that is made from a number."""
from __future__ import annotations

import json

from model.trees import Json, Object

MOST_TYPES, PER_CROSSBAR, FIRST_BASE, STEP = 16, 32, 0x40000000, 0x1000
CLOCKING: list[Json] = [{"clock": "clk_i", "reset": "rst_ni"}]
CLOCK_SOURCES: Object = {"clk_i": "main"}
RESET_SOURCES: Object = {"rst_ni": "sys"}


def block(number: int) -> Object:
    """The block of the type of this number."""
    fields: list[Json] = [{"bits": "7:0", "name": "A", "resval": number}, {"bits": "8", "name": "B"}]
    copied: Object = {"name": "EN", "swaccess": "rw", "count": 8 * (number + 1), "fields": [{"bits": "0", "name": "F"}]}
    return {"name": f"b{number}", "clocking": CLOCKING, "bus_interfaces": [{"protocol": "tlul", "direction": "device"}],
            "interrupt_list": [{"name": "irq"}],
            "registers": [{"name": "CTRL", "swaccess": "rw", "fields": fields}, {"multireg": copied},
                          {"window": {"name": "MEM", "items": number + 1}}]}


def instance(name: str, kind: str, **more: Json) -> Object:
    """An instance with its sources."""
    return {"name": name, "type": kind, "clock_srcs": CLOCK_SOURCES, "reset_connections": RESET_SOURCES, **more}


def crossbar(name: str, nodes: list[Json], host: str, devices: list[str]) -> Object:
    """A crossbar with one host."""
    return {"name": name, "clock": "clk_i", "nodes": nodes, "connections": {host: devices}}


def inner_crossbar(number: int, names: list[str]) -> Object:
    """The crossbar of this number below the main one, with these instances."""
    nodes: list[Json] = [{"name": "main", "type": "host", "xbar": True}, *[{"name": name, "type": "device"} for name in names]]
    return crossbar(f"p{number}", nodes, "main", names)


def described(number: int) -> dict[str, Object]:
    """The descriptions by the names of their files, the top's first, with so many instances of blocks with registers."""
    types = min(number, MOST_TYPES)
    names = [f"i{place}" for place in range(number)]
    groups = [names[start:start + PER_CROSSBAR] for start in range(0, number, PER_CROSSBAR)]
    inner = [f"p{place}" for place in range(len(groups))]
    instances: list[Json] = [instance("cpu", "cpu")]
    instances += [instance(name, f"b{place % types}", base_addr=FIRST_BASE + STEP * place) for place, name in enumerate(names)]
    top: Object = {"name": "sample", "clocks": {"srcs": [{"name": "main"}]}, "resets": {"nodes": [{"name": "sys"}]}, "module": instances,
                   "xbar": [{"name": name, "clock_srcs": CLOCK_SOURCES} for name in ["main", *inner]]}
    nodes: list[Json] = [{"name": "cpu", "type": "host"}, *[{"name": name, "type": "device", "xbar": True} for name in inner]]
    host: Object = {"name": "cpu", "clocking": CLOCKING, "bus_interfaces": [{"protocol": "tlul", "direction": "host"}], "registers": []}
    made = {"sample.hjson": top, "xbar_main.hjson": crossbar("main", nodes, "cpu", inner)}
    made |= {f"xbar_p{place}.hjson": inner_crossbar(place, group) for place, group in enumerate(groups)}
    return made | {"cpu.hjson": host} | {f"b{place}.hjson": block(place) for place in range(types)}


def sample_files(number: int) -> dict[str, bytes]:
    """The files of the top with so many instances."""
    return {name: json.dumps(description, indent=1).encode() for name, description in described(number).items()}
