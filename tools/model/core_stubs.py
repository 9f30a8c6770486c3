"""Stubs of the cores of a top's blocks, for simulation and lint, after the rules on what a core does with its interfaces.

A stub joins each device interface to its register module as a core has to. What a core would bring by itself stands in one register, `stub_given`,
that a testbench sets: inputs of register modules, requests of hosts, interrupts, alerts and pins. What arrives at a core stands in one wire,
`stub_seen`: clocks and resets, requests, outputs and states of register modules, responses to hosts, and pins. The states are in it only where
`SIMULATED` is defined, as not all tools look into a module from outside.
"""
from __future__ import annotations

import dataclasses

from model.chips import widths
from model.document import Value
from model.forms import listed, text
from model.full import full_block
from model.layout import Interface, interfaces
from model.pins import ports_of as pins_of
from model.register_text import literal, module_name, width
from model.sources import ports_of
from model.step import Input, hardware_ports, shadowed_rows, stored_fields

REQUEST, RESPONSE = 70, 33
HEAD = "// A stub of a core."


@dataclasses.dataclass(frozen=True)
class Core:
    """A block's stub: its text, its interfaces, and the slices of what it is given and of what is seen of it, the highest first."""
    kind: str
    text: str
    faces: list[Interface]
    given: list[Input]
    seen: list[Input]


def total(slices: list[Input]) -> int:
    """The bits of all slices together."""
    return sum(bits for bits, _ in slices)


def starts(block: Value, direction: str) -> list[str]:
    """How the names of the bus ports of each interface of a direction begin."""
    names = [text(face, "name") for face in listed(block, "bus_interfaces") if text(face, "direction") == direction]
    unnamed = "tl" if direction == "device" else "tl_h"
    return [unnamed if name is None else f"{name}_tl" for name in names]


def joined(nets: list[str]) -> str:
    """A concatenation of nets, the first of which is the highest."""
    return "{" + ", ".join(nets) + "}"


# ---- the slices

def face_given(number: int, face: Interface) -> list[Input]:
    """What a device interface is given: the inputs of its register module that are hardware's."""
    return [(bits, f"r{number}_{net}") for direction, bits, net in hardware_ports(face) if direction == "input"]


def states(face: Interface) -> list[Input]:
    """The states of a register module."""
    made = [(field.width, f"{field.net}_s") for field in stored_fields(face)]
    for number, row in shadowed_rows(face).items():
        made += [(field.width, f"{field.net}_t") for field in row.fields] + [(1, f"ph_{number}")]
    return made


def face_seen(number: int, face: Interface) -> list[Input]:
    """What is seen of a device interface: its request, and its module's outputs and states."""
    nets = [(bits, net) for direction, bits, net in hardware_ports(face) if direction == "output"] + states(face)
    return [(REQUEST, f"r{number}_request"), *[(bits, f"r{number}_{net}") for bits, net in nets]]


def given_of(block: Value, faces: list[Interface]) -> list[Input]:
    """What a stub is given."""
    made = [part for number, face in enumerate(faces) for part in face_given(number, face)]
    made += [(REQUEST, f"h{number}_request") for number in range(len(starts(block, "host")))]
    made += [(bits, f"intr_{name}_o") for name, bits in widths(block, "interrupt_list")]
    made += [(1, f"alert_{text(alert, 'name')}_o") for alert in listed(block, "alert_list")]
    made += [(port.width, f"cio_{port.name}_o") for port in pins_of(block) if port.direction != "in"]
    return made + [(1, "stub_reset")]


def seen_of(block: Value, faces: list[Interface]) -> list[Input]:
    """What is seen of a stub."""
    made = [(1, port) for _, port in ports_of(block)]
    made += [part for number, face in enumerate(faces) for part in face_seen(number, face)]
    made += [part for number in range(len(starts(block, "host"))) for part in [(1, f"h{number}_error"), (32, f"h{number}_data")]]
    return made + [(port.width, f"cio_{port.name}_i") for port in pins_of(block) if port.direction != "out"]


# ---- the text

def port_lines(block: Value) -> list[str]:
    """The ports of a stub."""
    made = [f"input {port}" for _, port in ports_of(block)]
    for start in starts(block, "device"):
        made += [f"input {width(REQUEST)}{start}_req_i", f"output {width(RESPONSE)}{start}_rsp_o"]
    for start in starts(block, "host"):
        made += [f"output {width(REQUEST)}{start}_req_o", f"input {width(RESPONSE)}{start}_rsp_i"]
    made += [f"output {width(bits)}intr_{name}_o" for name, bits in widths(block, "interrupt_list")]
    made += [f"output alert_{text(alert, 'name')}_o" for alert in listed(block, "alert_list")]
    made += [f"input {width(port.width)}cio_{port.name}_i" for port in pins_of(block) if port.direction != "out"]
    return made + [f"output {width(port.width)}cio_{port.name}_o" for port in pins_of(block) if port.direction != "in"]


def first_port(block: Value, kind: str) -> str | None:
    """The first clock, or reset, of a block."""
    return next((port for found, port in ports_of(block) if found == kind), None)


def face_lines(block: Value, number: int, face: Interface) -> list[str]:
    """The register module of an interface, joined to its bus: the address has as many low bits as the interface's parameter says."""
    start, made = starts(block, "device")[number], []
    known = "Aw" if face.name is None else f"Aw_{face.name}"
    nets = [(bits, net) for _, bits, net in hardware_ports(face)]
    made += [f"wire {width(bits)}r{number}_{net};" for bits, net in nets]
    made += [f"wire {width(bits)}r{number}_{net};" for bits, net in states(face)]
    made += ["`ifdef SIMULATED", *[f"assign r{number}_{net} = r{number}.{net};" for _, net in states(face)],
             "`else", *[f"assign r{number}_{net} = {literal(bits, 0)};" for bits, net in states(face)], "`endif"]
    made += [f"wire {width(REQUEST)}r{number}_request = {start}_req_i;", f"wire [31:0] r{number}_rdata;", f"wire r{number}_error;",
             f"assign {start}_rsp_o = {{r{number}_error, r{number}_rdata}};"]
    bus = {"clk_i": first_port(block, "clock"), "rst_ni": first_port(block, "reset") or "stub_reset",
           "reg_we": f"({start}_req_i[69] & {start}_req_i[68])", "reg_re": f"({start}_req_i[69] & ~{start}_req_i[68])",
           "reg_addr": f"({start}_req_i[63:32] & ((32'h1 << {known}) - 32'h1))", "reg_wdata": f"{start}_req_i[31:0]",
           "reg_be": f"{start}_req_i[67:64]", "reg_rdata": f"r{number}_rdata", "reg_error": f"r{number}_error"}
    bus |= {net: f"r{number}_{net}" for _, net in nets}
    held = ", ".join(f".{port}({value})" for port, value in bus.items())
    return [*made, f"{module_name(text(block, 'name'), face)} r{number} ({held});"]


def body_lines(block: Value, faces: list[Interface], given: list[Input], seen: list[Input]) -> list[str]:
    """What stands in a stub. A wire stands for each slice that is no port of its own."""
    made = [f"reg {width(total(given))}stub_given;", f"always @(posedge {first_port(block, 'clock')}) stub_given <= stub_given;",
            "wire stub_reset;"]
    for number, face in enumerate(faces):
        made += face_lines(block, number, face)
    for number, start in enumerate(starts(block, "host")):
        made += [f"wire {width(REQUEST)}h{number}_request;", f"assign {start}_req_o = h{number}_request;",
                 f"wire h{number}_error = {start}_rsp_i[32:32];", f"wire [31:0] h{number}_data = {start}_rsp_i[31:0];"]
    made.append(f"assign {joined([net for _, net in given])} = stub_given;")
    shown = joined([net for _, net in seen]) if seen else literal(1, 0)
    return [*made, f"wire {width(max(1, total(seen)))}stub_seen = {shown};"]


def core_of(block: Value) -> Core:
    """The stub of a block that breaks no rule."""
    kind, faces = text(block, "name"), interfaces(full_block(block))
    given, seen = given_of(block, faces), seen_of(block, faces)
    parameters = [f"parameter Aw{'' if face.name is None else '_' + face.name} = 2" for face in faces]
    head = f"module {kind} #({', '.join(parameters)}) (" if parameters else f"module {kind} ("
    ports = ",\n".join(f"  {port}" for port in port_lines(block))
    body = "\n".join(f"  {line}" for line in body_lines(block, faces, given, seen))
    return Core(kind, f"{HEAD}\n{head}\n{ports}\n);\n{body}\nendmodule\n", faces, given, seen)
