"""The numbers of a top's interrupts and alerts, and the sources of its clocks and resets, from the descriptions alone.

It takes a top with its files that breaks no rule of an earlier layer.
"""
from __future__ import annotations

import dataclasses

from model.document import Value, read
from model.forms import listed, number, text
from model.joined import Fault, Judged, first, judged, line_of

MOST = 1024
# `clock` or `reset`, and its name
Port = tuple[str, str]


@dataclasses.dataclass(frozen=True)
class Files:
    """A top with its crossbars and the blocks of its types."""
    top: Value
    crossbars: list[Value]
    blocks: dict[str, Value]

    def instances(self) -> list[tuple[Value, Value]]:
        """Each instance with its block."""
        return [(instance, self.blocks[text(instance, "type")]) for instance in listed(self.top, "module")]


def files_of(files: dict[str, str]) -> Files:
    """A top with its files; the first file is the top's."""
    top, _ = read(files[next(iter(files))])
    crossbars = [read(files[f"xbar_{text(use, 'name')}.hjson"])[0] for use in listed(top, "xbar")]
    kinds = dict.fromkeys(text(instance, "type") for instance in listed(top, "module"))
    return Files(top, crossbars, {kind: read(files[f"{kind}.hjson"])[0] for kind in kinds})


def name_place(named: Value) -> int:
    """Where the value of a name stands."""
    return named.member("name").place


# ---- interrupts and alerts

def interrupts(instance: Value, block: Value) -> list[str]:
    """The interrupts of an instance, bit by bit."""
    made = []
    for interrupt in listed(block, "interrupt_list"):
        width = interrupt.member("width")
        bits = range(1 if width is None else number(width))
        made += [f"{text(instance, 'name')} {text(interrupt, 'name')} {bit}" for bit in bits]
    return made


def alerts(instance: Value, block: Value) -> list[str]:
    """The alerts of an instance."""
    return [f"{text(instance, 'name')} {text(alert, 'name')}" for alert in listed(block, "alert_list")]


def too_many(held: Files) -> list[Fault]:
    """The instances with which interrupts or alerts are more than they may be."""
    broken: list[Fault] = []
    counts = [0, 0]
    for instance, block in held.instances():
        counts[0] += len(interrupts(instance, block))
        counts[1] += len(alerts(instance, block))
        if max(counts) > MOST:
            broken.append((9, 0, name_place(instance), 66, text(instance, "name")))
    return broken


def shown_numbers(held: Files) -> str:
    """A line for each source, from 1, and for each alert, from 0."""
    sources = [bit for pair in held.instances() for bit in interrupts(*pair)]
    found = [alert for pair in held.instances() for alert in alerts(*pair)]
    made = [f"source {place}: {bit}" for place, bit in enumerate(sources, 1)] + [f"alert {place}: {alert}" for place, alert in enumerate(found)]
    return "\n".join(made) or "no sources"


# ---- clocks and resets

def ports_of(block: Value) -> list[Port]:
    """The clock and reset ports of a block, each once, where it is first used."""
    made: list[Port] = []
    for entry in listed(block, "clocking"):
        made.append(("clock", text(entry, "clock")))
        if entry.member("reset") is not None:
            made.append(("reset", text(entry, "reset")))
    return list(dict.fromkeys(made))


def crossbar_ports(crossbar: Value) -> list[Port]:
    """The clocks of a crossbar, each once, where it is first used."""
    own = text(crossbar, "clock") if crossbar.member("clock") is not None else text(crossbar, "clock_primary")
    used = [own] + [text(node, "clock") if node.member("clock") is not None else own for node in listed(crossbar, "nodes")]
    return [("clock", name) for name in dict.fromkeys(used)]


def source_for(owner: Value, kind: str, port: str) -> str | None:
    """The source that a top names for a port."""
    held = owner.member("clock_srcs" if kind == "clock" else "reset_connections")
    value = None if held is None else held.member(port)
    if value is None:
        return None
    inner = value.member("clock" if kind == "clock" else "name") if value.kind == "object" else value
    return inner.data if inner is not None and inner.kind == "str" else None


def known(top: Value, kind: str) -> list[str]:
    """The clocks, or the resets, that a top has."""
    if kind == "reset":
        return [text(node, "name") for node in listed(top.member("resets"), "nodes")]
    clocks = top.member("clocks")
    return [text(source, "name") for key in ["srcs", "derived_srcs"] for source in listed(clocks, key)]


def owners(held: Files) -> list[tuple[str, Value, list[Port]]]:
    """Each instance and each listed crossbar, as it is shown, with its ports."""
    made = [(text(instance, "name"), instance, ports_of(block)) for instance, block in held.instances()]
    uses = zip(listed(held.top, "xbar"), held.crossbars)
    return made + [(f"crossbar {text(use, 'name')}", use, crossbar_ports(crossbar)) for use, crossbar in uses]


def without_source(held: Files) -> list[Fault]:
    """The ports that have no source that the top has."""
    broken: list[Fault] = []
    for _, owner, ports in owners(held):
        for kind, port in ports:
            if source_for(owner, kind, port) not in known(held.top, kind):
                broken.append((10, 0, name_place(owner), 63 if kind == "clock" else 64, port))
    return broken


def shown_ties(held: Files) -> str:
    """A line for each port with its source."""
    made = [f"{shown} {kind} {port}: {source_for(owner, kind, port)}" for shown, owner, ports in owners(held) for kind, port in ports]
    return "\n".join(made) or "no ports"


# ---- what is answered

def answer(files: dict[str, str], asked: str) -> str:
    """The line of the first fault of a top with its files, or what is asked: `numbers` or `ties`."""
    found: Judged = judged(files)
    if found.whole is None:
        return found.line
    held = files_of(files)
    faults = too_many(held) if asked == "numbers" else without_source(held)
    if faults:
        return line_of(files, list(files), first(faults))
    return shown_numbers(held) if asked == "numbers" else shown_ties(held)
