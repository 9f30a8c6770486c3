"""A top with its files that breaks no rule of the phases up to the pins: what its texts are made of."""
from __future__ import annotations

import dataclasses
import functools

from model import crossbar_text
from model.document import Value
from model.forms import listed, number, text
from model.joined import Crossbar, Node, Whole
from model.pins import Bit, Pins, Port
from model.sources import Files, crossbar_ports, known, ports_of, source_for

# the instance's name, the name of its interrupt or alert, its width, and the bit
SourceBit = tuple[str, str, int, int]
# the port of an instance or crossbar, and the net at it
Connection = tuple[str, str]


@dataclasses.dataclass(frozen=True)
class Chip:
    """The descriptions of a top with its files, and what they say together."""
    files: Files
    whole: Whole
    pins: Pins

    @property
    def name(self) -> str:
        """The top's name."""
        return text(self.files.top, "name")

    @functools.cached_property
    def kinds(self) -> list[str]:
        """The types of blocks in the order of their first use."""
        return list(dict.fromkeys(text(instance, "type") for instance in listed(self.files.top, "module")))

    # ---- interrupts and alerts

    @functools.cached_property
    def interrupts(self) -> list[SourceBit]:
        """The bits of all interrupts; that of source 1 is the first."""
        return [(text(instance, "name"), name, width, bit) for instance, block in self.files.instances()
                for name, width in widths(block, "interrupt_list") for bit in range(width)]

    @functools.cached_property
    def alerts(self) -> list[SourceBit]:
        """All alerts; that of number 0 is the first."""
        return [(text(instance, "name"), text(alert, "name"), 1, 0) for instance, block in self.files.instances()
                for alert in listed(block, "alert_list")]

    # ---- pins

    @functools.cached_property
    def muxed_in(self) -> dict[Bit, int]:
        """The bits of `mio_in` with their numbers, in this order."""
        return {bit: number for number, bit in enumerate(self.pins.inputs(self.pins.signals))}

    @functools.cached_property
    def muxed_out(self) -> dict[Bit, int]:
        """The bits of `mio_out` with their numbers, in this order."""
        return {bit: number for number, bit in enumerate(self.pins.outputs(self.pins.signals))}

    @functools.cached_property
    def pads(self) -> dict[Bit, int]:
        """The pads of the bits that are tied to one."""
        return {bit: signal.pad for signal in self.pins.signals if signal.joint == "direct" for bit in signal.bits}

    def ports(self, instance: int) -> list[Port]:
        """The ports for pins of the instance of this number."""
        return self.pins.instances[instance][1]

    # ---- links

    def is_outside(self, node: Node) -> bool:
        """Whether a node stands for no interface and for no crossbar."""
        return not node.nested and self.whole.named(node) is None

    def link(self, crossbar: Crossbar, node: Node) -> str:
        """The link at a node; a host that stands for an outer crossbar has that of the device there."""
        if node.nested and node.host:
            return self.link(*self.whole.partner(crossbar, node))
        return f"x_{crossbar.name}_{'h' if node.host else 'd'}_{node.spelling}"

    @functools.cached_property
    def links(self) -> dict[tuple[str, int, bool], str]:
        """The links of the interfaces that crossbars have nodes for, by instance, number, and whether it is a host's."""
        made: dict[tuple[str, int, bool], str] = {}
        for crossbar in self.whole.crossbars:
            for node in crossbar.nodes:
                named = self.whole.named(node)
                if named is not None:
                    made[named[0].name, named[1], node.host] = self.link(crossbar, node)
        return made

    # ---- clocks and resets

    def sources(self, kind: str) -> list[str]:
        """The clocks, or the resets, that the top has."""
        return known(self.files.top, kind)

    def clock_connections(self, instance: Value, block: Value) -> list[Connection]:
        """The clock and reset ports of an instance, each with its source."""
        return [(port, f"{'clk' if kind == 'clock' else 'rst'}_{source_for(instance, kind, port)}") for kind, port in ports_of(block)]

    def crossbar_clocks(self, count: int) -> list[Connection]:
        """The clock ports of the crossbar of this number, each with its source."""
        use = listed(self.files.top, "xbar")[count]
        return [(f"c_{port}", f"clk_{source_for(use, kind, port)}") for kind, port in crossbar_ports(self.files.crossbars[count])]

    # ---- crossbars

    def crossbar(self, count: int) -> crossbar_text.Crossbar:
        """The crossbar of this number with the ranges that its devices have in the top."""
        own, described = self.whole.crossbars[count], crossbar_text.crossbar_of(self.files.crossbars[count])
        ranges = {node.name: [] if node.host else self.whole.ranges(own, node) for node in own.nodes}
        nodes = [dataclasses.replace(node, ranges=ranges[node.name]) for node in described.nodes]
        return dataclasses.replace(described, nodes=nodes)


def widths(block: Value, key: str) -> list[tuple[str, int]]:
    """The names and widths in the list at a key; a width that is absent is 1."""
    return [(text(item, "name"), 1 if item.member("width") is None else number(item.member("width"))) for item in listed(block, key)]
