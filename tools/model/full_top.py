"""A top's completed description: its tree with everything said, as JSON."""
from __future__ import annotations

import json

from model.document import Value
from model.forms import listed, number, text
from model.full import plain
from model.tops import HART
from model.trees import Json, Object

# the lists that a section has where it is there, with what is in them as a default
SECTIONS: dict[str, list[str]] = {"clocks": ["derived_srcs"], "resets": [], "pinout": ["pads"], "pinmux": ["signals"]}


def full_base(base: Value) -> Json:
    """A base, or one for each address space, in plain form."""
    if base.kind == "object":
        return {space: number(value) for space, _, value in base.data}
    return number(base)


def full_instance(instance: Value) -> Object:
    """An instance with its sources and its bases."""
    made: Object = {"clock_srcs": {}, "reset_connections": {}} | plain(instance)
    base, bases = instance.member("base_addr"), instance.member("base_addrs")
    if base is not None:
        made["base_addr"] = full_base(base)
    if bases is not None:
        made["base_addrs"] = {face: full_base(value) for face, _, value in bases.data}
    return made


def full_section(section: Value, key: str) -> Object:
    """A section with its lists; each signal has its port."""
    made: Object = {name: [] for name in SECTIONS[key]} | plain(section)
    if key == "pinmux":
        made["signals"] = [{"port": ""} | plain(signal) for signal in listed(section, "signals")]
    return made


def full_top(top: Value) -> Object:
    """The top with everything said, as Python data."""
    made: Object = {"addr_spaces": [{"name": HART}]} | plain(top)
    made |= {key: full_section(top.member(key), key) for key in SECTIONS if top.member(key) is not None}
    made["module"] = [full_instance(instance) for instance in listed(top, "module")]
    made["xbar"] = [{"addr_space": HART, "clock_srcs": {}} | plain(use) for use in listed(top, "xbar")]
    return made


def completed_top(top: Value) -> tuple[str, str]:
    """The name of the file without its ending, and its text."""
    return f"top_{text(top, 'name')}", json.dumps(full_top(top), indent=2, sort_keys=True, ensure_ascii=False) + "\n"
