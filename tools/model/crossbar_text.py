"""What `tlgen` says of a crossbar: its first fault, or the text of its module, after docs/FORMATS.md."""
import dataclasses

from model.crossbars import PHRASES, clock_key, connections, crossbar_keys, crossbar_nodes
from model.document import Value, read
from model.forms import listed, number, text

LIMIT = 1 << 32


@dataclasses.dataclass(frozen=True)
class Node:
    """A node: its name, its spelling in nets, whether it is a host, its clock, its ranges and the devices of a host."""

    name: str
    host: bool
    clock: str
    ranges: list[tuple[int, int]]
    to: list[str]
    place: int

    @property
    def label(self) -> str:
        """The name as it stands in nets."""
        return self.name.replace(".", "__")


@dataclasses.dataclass(frozen=True)
class Crossbar:
    """A crossbar that breaks none of the rules on keys, nodes and connections."""

    name: str
    clock: str
    nodes: list[Node]

    @property
    def hosts(self) -> list[Node]:
        """The hosts, in the order of the nodes."""
        return [node for node in self.nodes if node.host]

    @property
    def devices(self) -> list[Node]:
        """The devices, in the order of the nodes."""
        return [node for node in self.nodes if not node.host]

    def node(self, name: str) -> Node:
        """The node of this name."""
        return next(node for node in self.nodes if node.name == name)

    def feeders(self, device: Node) -> list[Node]:
        """The hosts that connect to a device, in the order of the nodes."""
        return [host for host in self.hosts if device.name in host.to]

    def crosses(self, node: Node) -> bool:
        """Whether the node's clock is not the crossbar's."""
        return node.clock != self.clock


def crossbar_of(value: Value) -> Crossbar:
    """The crossbar that a description says."""
    own = text(value, clock_key(value))
    joined = {key: [item.data for item in listing.data] for key, _, listing in connections(value)}
    nodes = []
    for node in listed(value, "nodes"):
        name, host = text(node, "name"), text(node, "type") == "host"
        ranges = [(number(item.member("base_addr")), number(item.member("size_byte"))) for item in listed(node, "addr_range")]
        nodes.append(Node(name, host, text(node, "clock") or own, ranges, joined.get(name, []) if host else [], node.member("name").place))
    return Crossbar(text(value, "name"), own, nodes)


# ---- ranges


def is_good(base: int, size: int) -> bool:
    """Whether a range has the shape that ranges have."""
    return size >= 4 and size & (size - 1) == 0 and base % size == 0 and base + size <= LIMIT


def share(one: tuple[int, int], other: tuple[int, int]) -> bool:
    """Whether two ranges share an address."""
    return max(one[0], other[0]) < min(one[0] + one[1], other[0] + other[1])


def range_faults(crossbar: Crossbar) -> list[tuple[int, int, str]]:
    """What ranges break: place, rule and name."""
    broken = []
    for place, device in enumerate(crossbar.nodes):
        if device.host:
            continue
        if not device.ranges or not all(is_good(*one) for one in device.ranges):
            broken.append((device.place, 54, device.name))
        inside = any(share(one, other) for at, one in enumerate(device.ranges) for other in device.ranges[:at])
        near = [other for other in crossbar.nodes[:place]
                if not other.host and any({device.name, other.name} <= set(host.to) for host in crossbar.hosts)]
        if inside or any(share(one, two) for other in near for one in device.ranges for two in other.ranges):
            broken.append((device.place, 55, device.name))
    return broken


# ---- the module


def width(bits: int) -> str:
    """The range of a width."""
    return f"[{bits - 1}:0] "


def link(name: str) -> list[tuple[int, str]]:
    """The request and the response of a link."""
    return [(70, name + "_req"), (33, name + "_rsp")]


def after_host(crossbar: Crossbar, host: Node) -> str:
    """The link at the 1-to-N socket of a host."""
    return f"f_{host.label}" if crossbar.crosses(host) else f"h_{host.label}"


def before_device(crossbar: Crossbar, device: Node) -> str:
    """The link in front of a device's FIFO, or at its port where there is none."""
    return f"m_{device.label}" if crossbar.crosses(device) else f"d_{device.label}"


def lane(crossbar: Crossbar, host: Node, device: Node) -> str:
    """The link from a host's socket towards a device."""
    joined = len(crossbar.feeders(device)) > 1
    return f"l_{host.label}_t_{device.label}" if joined else before_device(crossbar, device)


def ports(crossbar: Crossbar) -> list[str]:
    """The ports: clocks in the order of first use, then hosts, then devices."""
    made = [f"input c_{clock}" for clock in dict.fromkeys([crossbar.clock, *(node.clock for node in crossbar.nodes)])]
    for host in crossbar.hosts:
        made += [f"input {width(70)}h_{host.label}_req", f"output {width(33)}h_{host.label}_rsp"]
    for device in crossbar.devices:
        made += [f"output {width(70)}d_{device.label}_req", f"input {width(33)}d_{device.label}_rsp"]
    return made


def port_names(crossbar: Crossbar) -> list[str]:
    """The names of the ports."""
    return [port.split(" ")[-1] for port in ports(crossbar)]


def wires(crossbar: Crossbar) -> list[str]:
    """The links that are no ports: of hosts' FIFOs, of pairs in front of an M-to-1 socket, and of devices' FIFOs."""
    links = [f"f_{host.label}" for host in crossbar.hosts if crossbar.crosses(host)]
    links += [lane(crossbar, host, crossbar.node(name)) for host in crossbar.hosts for name in host.to
              if len(crossbar.feeders(crossbar.node(name))) > 1]
    links += [f"m_{device.label}" for device in crossbar.devices
              if crossbar.crosses(device)]
    return [f"wire {width(bits)}{name};" for one in links for bits, name in link(one)]


def holds(request: str, base: int, size: int) -> str:
    """Whether the request's address is in the range."""
    bits = size.bit_length() - 1
    return "1'h1" if bits == 32 else f"({request}[63:{32 + bits}] == {32 - bits}'h{base >> bits:x})"


def select(crossbar: Crossbar, host: Node) -> str:
    """The select of a host's socket."""
    request, made = after_host(crossbar, host) + "_req", f"8'h{len(host.to):x}"
    for place in reversed(range(len(host.to))):
        terms = ", ".join(holds(request, *one) for one in crossbar.node(host.to[place]).ranges)
        made = f"((|{{{terms}}}) ? 8'h{place:x} : {made})"
    return f"wire {width(8)}sel_{host.label} = {made};"


def instance(head: str, conns: list[tuple[str, str]]) -> list[str]:
    """An instance, line by line."""
    inside = [f"  .{name}({value})" for name, value in conns]
    return [head + " (", *[line + "," for line in inside[:-1]], inside[-1], ");"]


def bundle(names: list[str]) -> str:
    """A concatenation whose lowest bits are those of the first name."""
    return "{" + ", ".join(reversed(names)) + "}"


def fifo(name: str, clocks: tuple[str, str], near: str, far: str) -> list[str]:
    """A FIFO between two clocks."""
    return instance(f"tlul_fifo_async {name}", [
        ("clk_h_i", f"c_{clocks[0]}"), ("clk_d_i", f"c_{clocks[1]}"), ("req_i", near + "_req"), ("rsp_o", near + "_rsp"),
        ("req_o", far + "_req"), ("rsp_i", far + "_rsp")])


def host_parts(crossbar: Crossbar, host: Node) -> list[str]:
    """The FIFO and the 1-to-N socket of a host."""
    made = []
    if crossbar.crosses(host):
        made += fifo(f"u_hf_{host.label}", (host.clock, crossbar.clock), f"h_{host.label}", f"f_{host.label}")
    near, far = after_host(crossbar, host), [lane(crossbar, host, crossbar.node(name)) for name in host.to]
    return made + instance(f"tlul_socket_1n #(.N({len(far)})) u_s_{host.label}", [
        ("clk_i", f"c_{crossbar.clock}"), ("sel_i", f"sel_{host.label}"), ("req_i", near + "_req"), ("rsp_o", near + "_rsp"),
        ("req_o", bundle([one + "_req" for one in far])), ("rsp_i", bundle([one + "_rsp" for one in far]))])


def device_parts(crossbar: Crossbar, device: Node) -> list[str]:
    """The M-to-1 socket and the FIFO of a device."""
    made, feeders, far = [], crossbar.feeders(device), before_device(crossbar, device)
    if len(feeders) > 1:
        near = [lane(crossbar, host, device) for host in feeders]
        made += instance(f"tlul_socket_m1 #(.M({len(near)})) u_m_{device.label}", [
            ("clk_i", f"c_{crossbar.clock}"), ("req_i", bundle([one + "_req" for one in near])),
            ("rsp_o", bundle([one + "_rsp" for one in near])), ("req_o", far + "_req"), ("rsp_i", far + "_rsp")])
    if crossbar.crosses(device):
        made += fifo(f"u_df_{device.label}", (crossbar.clock, device.clock), f"m_{device.label}", f"d_{device.label}")
    return made


def module_text(crossbar: Crossbar) -> str:
    """The text of the crossbar's module."""
    lines = ["// Generated by chipgen.", f"module xbar_{crossbar.name} ("]
    named = ports(crossbar)
    lines += [f"  {port}," for port in named[:-1]] + [f"  {named[-1]}", ");"]
    entries = wires(crossbar) + [select(crossbar, host) for host in crossbar.hosts]
    for host in crossbar.hosts:
        entries += host_parts(crossbar, host)
    for device in crossbar.devices:
        entries += device_parts(crossbar, device)
    return "\n".join([*lines, *[f"  {line}" for line in entries], "endmodule", ""])


def declared(crossbar: Crossbar) -> list[str]:
    """The names that the module declares, in the order of its text."""
    names = port_names(crossbar) + [wire.split(" ")[-1].rstrip(";") for wire in wires(crossbar)]
    names += [f"sel_{host.label}" for host in crossbar.hosts]
    for host in crossbar.hosts:
        names += [f"u_hf_{host.label}"] * crossbar.crosses(host) + [f"u_s_{host.label}"]
    for device in crossbar.devices:
        names += [f"u_m_{device.label}"] * (len(crossbar.feeders(device)) > 1) + [f"u_df_{device.label}"] * crossbar.crosses(device)
    return names


def first_repeat(names: list[str]) -> str | None:
    """The first name that repeats an earlier one."""
    seen: set[str] = set()
    for name in names:
        if name in seen:
            return name
        seen.add(name)
    return None


# ---- the whole


def fault_line(given: str, file: str, place: int, rule: int, name: str) -> str:
    """The line that tells a fault."""
    phrases = PHRASES | {54: "bad range", 55: "ranges overlap", 70: "generated names clash"}
    before = given[:place]
    line, column = before.count("\n") + 1, len(before) - before.rfind("\n")
    return f"{file}:{line}:{column}: fault {rule}: {phrases[rule]}" + (f": {name}" if name else "") + "\n"


def tlgen(given: str, file: str) -> tuple[int, str]:
    """The status of `tlgen` on a document with this tree, and the line of its first fault or the text that it writes."""
    value, _ = read(given)
    assert value is not None, "no document"
    broken = crossbar_keys(value) or crossbar_nodes(value)
    if broken:
        _, place, rule, name = min(broken, key=lambda fault: (fault[1], fault[2], fault[3].encode()))
        return 1, fault_line(given, file, place, rule, name)
    crossbar = crossbar_of(value)
    wrong = range_faults(crossbar)
    if wrong:
        return 1, fault_line(given, file, *min(wrong, key=lambda fault: (fault[0], fault[1], fault[2].encode())))
    repeat = first_repeat(declared(crossbar))
    if repeat is not None:
        return 1, fault_line(given, file, value.place, 70, repeat)
    return 0, module_text(crossbar)
