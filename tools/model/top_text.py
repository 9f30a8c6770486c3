"""The text of a top's module, and the names of which none may come twice, after the rules on tops."""
from __future__ import annotations

from model.chips import Chip, Connection, SourceBit, widths
from model.crossbar_text import port_names
from model.document import Value
from model.forms import listed, text
from model.pins import Bit
from model.register_text import assign, instance, literal, module, wire
from model.step import Port

REQUEST, RESPONSE = 70, 33
PARTS = ["prim_flop", "tlul_socket_1n", "tlul_socket_m1", "tlul_fifo_async"]


def one_of(net: str, width: int, bit: int) -> str:
    """One bit of a net of this width."""
    return net if width == 1 else f"{net}[{bit}:{bit}]"


def joined(bits: list[str]) -> str:
    """A concatenation of these bits, the first of which is the lowest."""
    return "{" + ", ".join(reversed(bits)) + "}"


# ---- ports

def link_ports(link: str, host: bool) -> list[Port]:
    """The ports of a link to a host or a device outside."""
    directions = ("input", "output") if host else ("output", "input")
    return [(directions[0], REQUEST, f"{link}_req"), (directions[1], RESPONSE, f"{link}_rsp")]


def ports(chip: Chip) -> list[Port]:
    """The ports: clocks, resets, the links of nodes outside, interrupts, alerts and pins."""
    made: list[Port] = [("input", 1, f"clk_{source}") for source in chip.sources("clock")]
    made += [("input", 1, f"rst_{source}") for source in chip.sources("reset")]
    for crossbar in chip.whole.crossbars:
        for host in [True, False]:
            for node in crossbar.nodes:
                made += link_ports(chip.link(crossbar, node), host) if node.host == host and chip.is_outside(node) else []
    made.append(("output", len(chip.interrupts) + 1, "intr_src"))
    pads = len(chip.pins.pads)
    widths_of: list[Port] = [("output", len(chip.alerts), "alert_src"), ("input", len(chip.muxed_in), "mio_in"),
                             ("output", len(chip.muxed_out), "mio_out"), ("input", pads, "pad_in"), ("output", pads, "pad_out")]
    return made + [port for port in widths_of if port[1]]


# ---- wires

def link_names(chip: Chip) -> list[str]:
    """The links that are no ports: of each crossbar the hosts that are instances', then the devices that are instances' or crossbars'."""
    made = []
    for crossbar in chip.whole.crossbars:
        inside = [node for node in crossbar.nodes if not chip.is_outside(node)]
        made += [chip.link(crossbar, node) for node in inside if node.host and not node.nested]
        made += [chip.link(crossbar, node) for node in inside if not node.host]
    return made


def pin_in(chip: Chip, bit: Bit) -> str:
    """What an input bit takes."""
    if bit in chip.muxed_in:
        return one_of("mio_in", len(chip.muxed_in), chip.muxed_in[bit])
    return one_of("pad_in", len(chip.pins.pads), chip.pads[bit]) if bit in chip.pads else "1'h0"


# the width and the name of a wire, and its expression, if any
Wire = tuple[int, str, str | None]


def instance_wires(chip: Chip, number: int, block: Value) -> list[Wire]:
    """The wires of an instance: interrupts, alerts, pins that it drives, and pins that it takes."""
    name, named = chip.whole.instances[number].name, list(enumerate(chip.ports(number)))
    made: list[Wire] = [(width, f"i_{name}_{interrupt}", None) for interrupt, width in widths(block, "interrupt_list")]
    made += [(1, f"a_{name}_{text(alert, 'name')}", None) for alert in listed(block, "alert_list")]
    made += [(port.width, f"p_{name}_{port.name}_o", None) for _, port in named if port.direction != "in"]
    for place, port in named:
        if port.direction != "out":
            taken = joined([pin_in(chip, Bit(number, place, bit)) for bit in range(port.width)])
            made.append((port.width, f"p_{name}_{port.name}_i", taken))
    return made


def wires(chip: Chip) -> list[Wire]:
    """All wires: links, and then those of each instance."""
    made: list[Wire] = []
    for link in link_names(chip):
        made += [(REQUEST, f"{link}_req", None), (RESPONSE, f"{link}_rsp", None)]
    for number, (_, block) in enumerate(chip.files.instances()):
        made += instance_wires(chip, number, block)
    return made


# ---- assigns

def source_net(kind: str, source: SourceBit) -> str:
    """The net of a bit of an interrupt or of an alert."""
    owner, name, width, bit = source
    return one_of(f"{kind}_{owner}_{name}", width, bit)


def pin_out(chip: Chip, bit: Bit) -> str:
    """The net of an output bit."""
    port = chip.pins.port(bit)
    return one_of(f"p_{chip.pins.instances[bit.instance][0]}_{port.name}_o", port.width, bit.bit)


def pad_outs(chip: Chip) -> list[str]:
    """What drives each pad."""
    drivers = {pad: pin_out(chip, bit) for bit, pad in chip.pads.items() if chip.pins.port(bit).direction != "in"}
    return [drivers.get(pad, literal(1, 0)) for pad in range(len(chip.pins.pads))]


def assigns(chip: Chip) -> list[str]:
    """The assigns of the outputs that are no links."""
    driven = {"intr_src": [literal(1, 0), *[source_net("i", source) for source in chip.interrupts]],
              "alert_src": [source_net("a", source) for source in chip.alerts],
              "mio_out": [pin_out(chip, bit) for bit in chip.muxed_out], "pad_out": pad_outs(chip)}
    return [assign(port, joined(bits)) for port, bits in driven.items() if bits]


# ---- instances

def link_connections(chip: Chip, number: int) -> list[Connection]:
    """The links of an instance: its device interfaces, then its host interfaces; those in no crossbar are left out."""
    owner, made = chip.whole.instances[number], []
    for face, device in enumerate(owner.faces):
        link, start = chip.links.get((owner.name, face, False)), "tl" if device.name is None else f"{device.name}_tl"
        made += [(f"{start}_req_i", f"{link}_req"), (f"{start}_rsp_o", f"{link}_rsp")] if link is not None else []
    for face, name in enumerate(owner.hosts):
        link, start = chip.links.get((owner.name, face, True)), "tl_h" if name is None else f"{name}_tl"
        made += [(f"{start}_req_o", f"{link}_req"), (f"{start}_rsp_i", f"{link}_rsp")] if link is not None else []
    return made


def connections(chip: Chip, number: int) -> list[Connection]:
    """The connections of the instance of this number."""
    described, block = chip.files.instances()[number]
    name, held = text(described, "name"), chip.ports(number)
    made = chip.clock_connections(described, block) + link_connections(chip, number)
    made += [(f"intr_{interrupt}_o", f"i_{name}_{interrupt}") for interrupt, _ in widths(block, "interrupt_list")]
    made += [(f"alert_{text(alert, 'name')}_o", f"a_{name}_{text(alert, 'name')}") for alert in listed(block, "alert_list")]
    made += [(f"cio_{port.name}_i", f"p_{name}_{port.name}_i") for port in held if port.direction != "out"]
    return made + [(f"cio_{port.name}_o", f"p_{name}_{port.name}_o") for port in held if port.direction != "in"]


def block_instance(chip: Chip, number: int) -> list[str]:
    """The instance of a block, with the widths of its interfaces' addresses."""
    owner = chip.whole.instances[number]
    widths_of = [f".Aw{'' if face.name is None else '_' + face.name}({face.size.bit_length() - 1})" for face in owner.faces]
    kind = text(listed(chip.files.top, "module")[number], "type")
    parameters = f" #({', '.join(widths_of)})" if widths_of else ""
    return instance(f"{kind}{parameters} u_{owner.name}", connections(chip, number))


def crossbar_instance(chip: Chip, count: int) -> list[str]:
    """The instance of a crossbar."""
    crossbar = chip.whole.crossbars[count]
    nets = dict(chip.crossbar_clocks(count))
    for node in crossbar.nodes:
        port = f"{'h' if node.host else 'd'}_{node.spelling}"
        nets |= {f"{port}_{end}": f"{chip.link(crossbar, node)}_{end}" for end in ["req", "rsp"]}
    return instance(f"xbar_{crossbar.name} u_xbar_{crossbar.name}", [(port, nets[port]) for port in port_names(chip.crossbar(count))])


# ---- the whole

def top_text(chip: Chip) -> str:
    """The text of the top's module."""
    entries = [wire(*one) for one in wires(chip)] + assigns(chip)
    for number in range(len(chip.whole.instances)):
        entries += block_instance(chip, number)
    for count in range(len(chip.whole.crossbars)):
        entries += crossbar_instance(chip, count)
    return module(f"top_{chip.name}", ports(chip), entries)


def top_names(chip: Chip) -> list[str]:
    """The names that the top's module declares, in the order of its text."""
    names = [name for _, _, name in ports(chip)] + [name for _, name, _ in wires(chip)]
    names += [f"u_{owner.name}" for owner in chip.whole.instances]
    return names + [f"u_xbar_{crossbar.name}" for crossbar in chip.whole.crossbars]


def connected_ports(chip: Chip) -> list[list[str]]:
    """The names of the connected ports of each instance of a block."""
    return [[port for port, _ in connections(chip, number)] for number in range(len(chip.whole.instances))]


def register_modules(kind: str, block: Value) -> list[str]:
    """The names of a block's register modules."""
    faces = [text(face, "name") for face in listed(block, "bus_interfaces") if text(face, "direction") == "device"]
    return [f"{kind}_reg_top" if face is None else f"{kind}_{face}_reg_top" for face in faces]


def module_names(chip: Chip) -> list[str]:
    """The names of all modules that the texts have or use."""
    names = [*PARTS, f"top_{chip.name}", *[f"xbar_{crossbar.name}" for crossbar in chip.whole.crossbars], *chip.kinds]
    return names + [name for kind in chip.kinds for name in register_modules(kind, chip.files.blocks[kind])]


def output_names(chip: Chip) -> list[str]:
    """The names of the files that are written, in the order in which they are compared."""
    names = [f"top_{chip.name}.{ending}" for ending in ["sv", "h", "gen.hjson"]]
    names += [f"xbar_{crossbar.name}.sv" for crossbar in chip.whole.crossbars]
    for kind in chip.kinds:
        names += [f"{kind}_regs.h", f"{kind}.gen.hjson", *[f"{name}.sv" for name in register_modules(kind, chip.files.blocks[kind])]]
    return [*names, "manifest.txt"]
