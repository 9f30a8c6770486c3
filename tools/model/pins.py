"""Which port of an instance goes to which pin of a top, and which signals break a rule, bit by bit from the descriptions alone.

It takes a top with its files that breaks no rule of an earlier layer.
"""
from __future__ import annotations

import dataclasses
import re

from model.document import Value, read
from model.forms import listed, number, text
from model.joined import Fault, Judged, first, judged, line_of

# the lists of a block's ports, in the order of their numbers, with their direction
LISTS = {"available_input_list": "in", "available_output_list": "out", "available_inout_list": "inout"}
MOST, ONE_BIT = 1 << 16, re.compile(r"(?s)(.*)\[(0|[1-9][0-9]*)\]")


@dataclasses.dataclass(frozen=True)
class Port:
    """A port of a block."""
    name: str
    width: int
    direction: str


@dataclasses.dataclass(frozen=True)
class Bit:
    """A bit of a port, by the numbers of its instance and of the port in its block."""
    instance: int
    port: int
    bit: int


@dataclasses.dataclass(frozen=True)
class Signal:
    """A signal: the instance that it names, how it is joined, where it stands, its bits in order, and the number of the pad that it names."""
    instance: str
    joint: str
    place: int
    bits: list[Bit]
    pad: int | None


@dataclasses.dataclass(frozen=True)
class Pins:
    """A top's instances with their ports, its pads and its signals."""
    instances: list[tuple[str, list[Port]]]
    pads: list[str]
    signals: list[Signal]

    def inputs(self, signals: list[Signal]) -> list[Bit]:
        """The bits of `mio_in` that these signals ask for."""
        return [bit for bit in muxed(signals) if self.port(bit).direction != "out"]

    def outputs(self, signals: list[Signal]) -> list[Bit]:
        """The bits of `mio_out` that these signals ask for."""
        return [bit for bit in muxed(signals) if self.port(bit).direction != "in"]

    def port(self, bit: Bit) -> Port:
        """The port of a bit."""
        return self.instances[bit.instance][1][bit.port]

    def shown(self, bit: Bit) -> str:
        """A bit: its instance, the number and the name of its port, and its own number."""
        return f"{self.instances[bit.instance][0]} {bit.port} {self.port(bit).name} {bit.bit}"


def muxed(signals: list[Signal]) -> list[Bit]:
    """The bits of the muxed signals, in their order."""
    return [bit for signal in signals if signal.joint == "muxed" for bit in signal.bits]


# ---- what is described

def ports_of(block: Value) -> list[Port]:
    """The ports of a block: inputs, then outputs, then those that are both."""
    ports = []
    for key, direction in LISTS.items():
        for port in listed(block, key):
            width = port.member("width")
            ports.append(Port(text(port, "name"), 1 if width is None else number(width), direction))
    return ports


def first_named(name: str, names: list[str]) -> int | None:
    """The number of the first of this name."""
    return names.index(name) if name in names else None


def bits_of(instance: int, ports: list[Port], named: str) -> list[Bit]:
    """The bits that a signal's `port` names."""
    everything = [Bit(instance, place, bit) for place, port in enumerate(ports) for bit in range(port.width)]
    if not named:
        return everything
    names = [port.name for port in ports]
    indexed = ONE_BIT.fullmatch(named)
    if indexed is None:
        return [bit for bit in everything if bit.port == first_named(named, names)]
    return [bit for bit in everything if bit.port == first_named(indexed[1], names) and bit.bit == int(indexed[2])]


def signal_of(signal: Value, instances: list[tuple[str, list[Port]]], pads: list[str]) -> Signal:
    """A signal of a top with these instances and pads."""
    named, pad = text(signal, "instance"), text(signal, "pad")
    instance = first_named(named, [name for name, _ in instances])
    bits = [] if instance is None else bits_of(instance, instances[instance][1], text(signal, "port") or "")
    return Signal(named, text(signal, "connection"), signal.place, bits, None if pad is None else first_named(pad, pads))


def section(top: Value, name: str, key: str) -> list[Value]:
    """The list at a key of a section that may be absent."""
    held = top.member(name)
    return [] if held is None else listed(held, key)


def pins_of(top: Value, blocks: dict[str, Value]) -> Pins:
    """What a top with the blocks of its types says of pins."""
    instances = [(text(instance, "name"), ports_of(blocks[text(instance, "type")])) for instance in listed(top, "module")]
    pads = [text(pad, "name") for pad in section(top, "pinout", "pads")]
    return Pins(instances, pads, [signal_of(signal, instances, pads) for signal in section(top, "pinmux", "signals")])


# ---- what is broken

def is_broken(pins: Pins, place: int) -> bool:
    """Whether the signal at this place breaks a rule beside the earlier ones."""
    signal, earlier = pins.signals[place], pins.signals[:place]
    if not signal.bits:
        return True
    if signal.joint == "direct":
        taken = [other.pad for other in earlier if other.joint == "direct"]
        if len(signal.bits) != 1 or signal.pad is None or signal.pad in taken:
            return True
    if signal.joint != "manual" and any(not set(other.bits).isdisjoint(signal.bits) for other in earlier if other.joint != "manual"):
        return True
    so_far = pins.signals[:place + 1]
    return signal.joint == "muxed" and max(len(pins.inputs(so_far)), len(pins.outputs(so_far))) > MOST


def broken(pins: Pins) -> list[Fault]:
    """What the signals break."""
    return [(11, 0, signal.place, 65, signal.instance) for place, signal in enumerate(pins.signals) if is_broken(pins, place)]


# ---- what is answered

def lines(pins: Pins) -> str:
    """The bits with their numbers, and those with pads."""
    made = [f"in {place}: {pins.shown(bit)}" for place, bit in enumerate(pins.inputs(pins.signals))]
    made += [f"out {place}: {pins.shown(bit)}" for place, bit in enumerate(pins.outputs(pins.signals))]
    ties = [(signal.pad, bit) for signal in pins.signals if signal.joint == "direct" for bit in signal.bits]
    made += [f"pad {pad} {pins.pads[pad]}: {pins.shown(bit)}" for pad, bit in ties if pad is not None]
    return "\n".join(made) or "no pins"


def answer(files: dict[str, str]) -> str:
    """The line of the first fault of a top with its files, or its pins; the first file is the top's."""
    found: Judged = judged(files)
    if found.whole is None:
        return found.line
    names = list(files)
    top, _ = read(files[names[0]])
    kinds = {text(instance, "type") for instance in listed(top, "module")}
    pins = pins_of(top, {kind: read(files[f"{kind}.hjson"])[0] for kind in kinds})
    faults = broken(pins)
    return line_of(files, names, first(faults)) if faults else lines(pins)
