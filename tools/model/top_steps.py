"""What a top does in each step, from its descriptions alone: responses, requests outside, register blocks, vectors, pins, clocks and resets."""
from __future__ import annotations

import collections
import dataclasses

from model.core_stubs import first_port
from model.joined import Node
from model.layout import Register
from model.maps import at, device_at, face_name
from model.pins import Bit
from model.simulation import Counts, expected_values
from model.sources import ports_of, source_for
from model.step import Block, Clock, hardware_ports, target
from model.top_accesses import Access, Step, slice_of
from model.top_bench import Bench, Values, kind_of

ONES = (1 << 32) - 1


def bit_of(value: int, bit: int) -> int:
    """One bit of a value."""
    return value >> bit & 1


@dataclasses.dataclass
class Face:
    """A device interface of an instance that a crossbar has a node for, and what it holds."""
    instance: int
    number: int
    block: Block
    size: int
    # the names of what resets it, and the clock's number among the top's
    reset: str
    clock: int
    hardware: list[str]


class TopModel:
    """A top as its descriptions say, step by step."""

    def __init__(self, bench: Bench) -> None:
        """The top before its first step; no clock has risen."""
        self.bench, self.chip, self.whole = bench, bench.chip, bench.chip.whole
        self.faces = {(owner, number): self.face(count, number) for count, instance in enumerate(self.whole.instances)
                      for owner in [instance.name] for number in range(len(instance.faces)) if (owner, number, False) in self.chip.links}
        self.outside = [(crossbar, node) for crossbar in self.whole.crossbars for node in crossbar.nodes
                        if not node.host and self.chip.is_outside(node)]
        self.risen = 0
        self.counts: Counts = collections.Counter()

    def face(self, instance: int, number: int) -> Face:
        """A device interface of an instance."""
        kind, block = kind_of(self.chip, instance)
        described, held = self.chip.files.instances()[instance][0], Block(self.bench.cores[kind].faces[number])
        reset = first_port(block, "reset")
        name = self.whole.instances[instance].name
        source = f"{name}.stub_reset" if reset is None else f"rst_{source_for(described, 'reset', reset)}"
        clock = self.bench.clocks.index(f"clk_{source_for(described, 'clock', first_port(block, 'clock'))}")
        hardware = [net for direction, _, net in hardware_ports(held.interface) if direction == "input"]
        return Face(instance, number, held, self.whole.instances[instance].faces[number].size, source, clock, hardware)

    def has_risen(self, clocks: int, clock: int) -> int:
        """Whether a clock is among those that rise."""
        return bit_of(clocks, len(self.bench.clocks) - 1 - clock)

    # ---- one step

    def step(self, step: Step) -> Values:
        """What is expected of the slices that are seen in a step. Then the clocks of the step have risen."""
        values, access = step.values, step.access
        found = None if access is None else device_at(self.whole, *access.host, access.address)
        expected = self.bus(access, found, values) | self.vectors(values) | self.pins(values) | self.clocks_and_resets(values)
        for key, face in self.faces.items():
            named = None if found is None else self.whole.named(found[1])
            expected |= self.at_face(key, face, access if named is not None and (named[0].name, named[1]) == key else None, values)
        self.risen = values["next"]
        return expected

    def bus(self, access: Access | None, found: tuple[object, Node] | None, values: Values) -> Values:
        """The requests outside, and the response where it comes from outside or nothing is there."""
        made: Values = {}
        for crossbar, node in self.outside:
            reached = found is not None and found[1] is node
            link = self.chip.link(crossbar, node)
            made[f"{link}_req"] = access.request if reached else 0
            if reached:
                made |= self.response(access, values[f"{link}_rsp"] >> 32, values[f"{link}_rsp"] & ONES)
                self.counts["accesses outside"] += 1
        if access is not None and found is None:
            made |= self.response(access, 1, ONES)
            self.counts["accesses where nothing is"] += 1
        self.counts["accesses"] += access is not None
        self.counts["steps"] += 1
        return made

    def response(self, access: Access, error: int, data: int | None) -> Values:
        """The response to an access; nothing is said of the data where there are none."""
        names = [slice_of(self.bench, access.host, "error", "error"), slice_of(self.bench, access.host, "data", "data")]
        return {names[0]: error} | ({} if data is None else {names[1]: data})

    def at_face(self, key: tuple[str, int], face: Face, access: Access | None, values: Values) -> Values:
        """What is seen of a device interface, and the response that it gives; then it has passed the step's clock."""
        start = f"{key[0]}.r{key[1]}_"
        clock = Clock(rst_ni=values[face.reset], hardware={net: values[start + net] for net in face.hardware})
        if access is not None:
            clock.reg_we, clock.reg_re, clock.reg_be = access.write, 1 - access.write, access.strobes
            clock.reg_addr, clock.reg_wdata = access.address & face.size - 1, access.data
        if not clock.rst_ni:
            face.block.reset()
        made = {start + net: value for net, value in expected_values(face.block, clock).items() if not net.startswith("reg_")}
        made[f"{start}request"] = 0 if access is None else access.request
        if access is not None:
            made |= self.response(access, *face.block.answer(clock))
            self.account(key, face, access, clock)
        if self.has_risen(values["next"], face.clock):
            face.block.pass_clock(clock)
        return made

    def account(self, key: tuple[str, int], face: Face, access: Access, clock: Clock) -> None:
        """Counts an access at an interface, whose place the address map has to have, too."""
        row = target(face.block.interface, clock.reg_addr)
        kind = "where an interface has nothing" if row is None else "at registers" if isinstance(row, Register) else "at windows"
        verb = "writes" if access.write else "reads"
        self.counts[f"{verb} {kind}"] += 1
        self.counts[f"{verb} refused"] += row is not None and face.block.answer(clock)[0]
        place = "error"
        if row is not None:
            shown = f"{face_name(self.whole.instances[face.instance], key[1])} {face.block.interface.rows.index(row)}"
            place = f"register {shown}" if isinstance(row, Register) else f"word {shown} {(clock.reg_addr - row.offset) // 4}"
        mapped = at(self.whole, *access.host, access.address)
        if mapped != place:
            raise ValueError(f"{access}: {mapped!r} in the address map, {place!r} in the block")

    # ---- what is joined

    def vectors(self, values: Values) -> Values:
        """The interrupts and the alerts."""
        made: Values = {"intr_src": 0}
        for number, (owner, name, _, bit) in enumerate(self.chip.interrupts, 1):
            made["intr_src"] |= bit_of(values[f"{owner}.intr_{name}_o"], bit) << number
        for number, (owner, name, _, _) in enumerate(self.chip.alerts):
            made["alert_src"] = made.get("alert_src", 0) | values[f"{owner}.alert_{name}_o"] << number
        self.counts["interrupts and alerts"] += len(self.chip.interrupts) + len(self.chip.alerts)
        return made

    def out_bit(self, bit: Bit, values: Values) -> int:
        """What an output bit is given."""
        owner, ports = self.chip.pins.instances[bit.instance]
        return bit_of(values[f"{owner}.cio_{ports[bit.port].name}_o"], bit.bit)

    def in_bit(self, bit: Bit, values: Values) -> int:
        """What an input bit takes."""
        if bit in self.chip.muxed_in:
            return bit_of(values["mio_in"], self.chip.muxed_in[bit])
        return bit_of(values["pad_in"], self.chip.pads[bit]) if bit in self.chip.pads else 0

    def pins(self, values: Values) -> Values:
        """The pins that go out, and those that come in at instances."""
        made: Values = {}
        if self.chip.muxed_out:
            made["mio_out"] = sum(self.out_bit(bit, values) << number for bit, number in self.chip.muxed_out.items())
        if self.chip.pins.pads:
            driven = {pad: bit for bit, pad in self.chip.pads.items() if self.chip.pins.port(bit).direction != "in"}
            made["pad_out"] = sum(self.out_bit(bit, values) << pad for pad, bit in driven.items())
        for number, (owner, ports) in enumerate(self.chip.pins.instances):
            for place, port in enumerate(ports):
                if port.direction != "out":
                    bits = [self.in_bit(Bit(number, place, bit), values) for bit in range(port.width)]
                    made[f"{owner}.cio_{port.name}_i"] = sum(bit << index for index, bit in enumerate(bits))
                    self.counts["bits of pins that come in"] += port.width
        self.counts["pins that go out"] += len(self.chip.muxed_out) + len(self.chip.pins.pads)
        return made

    def clocks_and_resets(self, values: Values) -> Values:
        """The clocks, of which those of the last step are still high, and the resets, at each instance and crossbar."""
        made: Values = {}
        for described, block in self.chip.files.instances():
            for kind, port in ports_of(block):
                source = source_for(described, kind, port)
                name = f"{described.member('name').data}.{port}"
                made[name] = values[f"rst_{source}"] if kind == "reset" else self.has_risen(self.risen, self.bench.clocks.index(f"clk_{source}"))
        for count, crossbar in enumerate(self.whole.crossbars):
            for port, net in self.chip.crossbar_clocks(count):
                made[f"xbar {crossbar.name}.{port}"] = self.has_risen(self.risen, self.bench.clocks.index(net))
        self.counts["clocks and resets"] += len(made)
        return made
