"""Crossbars made by chance, and their modules simulated beside what their descriptions say."""
import collections
import pathlib
import random
import subprocess

from model.crossbar_text import Crossbar, Node
from model.trees import Object

ONES = (1 << 33) - 1
STEPS = 40


# ---- crossbars that break nothing


def places(chance: random.Random, count: int) -> list[tuple[int, int]]:
    """Ranges of good shape that share no address, in some order."""
    made: list[tuple[int, int]] = []
    while len(made) < count:
        size = 1 << chance.choice([2, 2, 3, 5, 8, 12, 16, 24])
        base = chance.randrange(1 << 32) // size * size if chance.random() < 0.5 else chance.randrange(16) * size
        if base + size <= 1 << 32 and all(base + size <= other or other + extent <= base for other, extent in made):
            made.append((base, size))
    return made


def valid_crossbar(chance: random.Random) -> Object:
    """A crossbar that breaks no rule, as Python data."""
    clocks = ["clk_i", "clk_io", "clk_usb"]
    hosts = [f"h{number}" + (".d" if chance.random() < 0.2 else "") for number in range(chance.randint(1, 4))]
    devices = [f"d{number}" + (".regs" if chance.random() < 0.2 else "") for number in range(chance.randint(1, 6))]
    ranges = places(chance, 3 * len(devices))
    nodes: list[Object] = [{"name": name, "type": "host"} for name in hosts]
    for number, name in enumerate(devices):
        own = ranges[3 * number:3 * number + chance.randint(1, 3)]
        written = [{"base_addr": hex(base), "size_byte": hex(size)} for base, size in own]
        nodes.append({"name": name, "type": "device", "addr_range": written})
    chance.shuffle(nodes)
    for node in nodes:
        if chance.random() < 0.4:
            node["clock"] = chance.choice(clocks)
    joined = {host: chance.sample(devices, chance.randint(1, len(devices))) for host in hosts}
    for device in devices:
        if not any(device in to for to in joined.values()):
            joined[chance.choice(hosts)].append(device)
    return {"name": chance.choice(["main", "peri", "x"]), "clock": "clk_i", "nodes": nodes, "connections": joined}


# ---- what is expected


def device_at(crossbar: Crossbar, host: Node, address: int) -> Node | None:
    """The device that has the address, of those that the host connects to."""
    for name in host.to:
        device = crossbar.node(name)
        if any(base <= address < base + size for base, size in device.ranges):
            return device
    return None


def addresses(crossbar: Crossbar, chance: random.Random) -> list[int]:
    """Addresses at and around the ends of all ranges, inside them, and anywhere."""
    made = [0, (1 << 32) - 1, chance.randrange(1 << 32)]
    for device in crossbar.devices:
        for base, size in device.ranges:
            made += [base - 1, base, base + size - 1, base + size, base + chance.randrange(size)]
    return [address for address in made if 0 <= address < 1 << 32]


# ---- the simulation


def testbench(crossbar: Crossbar, vectors: list[tuple[list[int], list[int]]]) -> str:
    """A module that gives the requests of hosts and the responses of devices, step by step, and prints what comes of them."""
    lines = ["module bench;"]
    clocks = dict.fromkeys([crossbar.clock, *(node.clock for node in crossbar.nodes)])
    conns = [f".c_{clock}(1'b0)" for clock in clocks]
    for node in crossbar.hosts:
        lines += [f"  reg [69:0] h_{node.label}_req;", f"  wire [32:0] h_{node.label}_rsp;"]
        conns += [f".h_{node.label}_req(h_{node.label}_req)", f".h_{node.label}_rsp(h_{node.label}_rsp)"]
    for node in crossbar.devices:
        lines += [f"  wire [69:0] d_{node.label}_req;", f"  reg [32:0] d_{node.label}_rsp;"]
        conns += [f".d_{node.label}_req(d_{node.label}_req)", f".d_{node.label}_rsp(d_{node.label}_rsp)"]
    lines += [f"  xbar_{crossbar.name} dut ({', '.join(conns)});", "  initial begin"]
    shown = [f"h_{node.label}_rsp" for node in crossbar.hosts] + [f"d_{node.label}_req" for node in crossbar.devices]
    for requests, responses in vectors:
        lines += [f"    h_{node.label}_req = 70'h{value:x};" for node, value in zip(crossbar.hosts, requests)]
        lines += [f"    d_{node.label}_rsp = 33'h{value:x};" for node, value in zip(crossbar.devices, responses)]
        lines.append(f"    #1 $display(\"{' '.join(['%h'] * len(shown))}\", {', '.join(shown)});")
    return "\n".join([*lines, "  end", "endmodule", ""])


def simulated(crossbar: Crossbar, path: pathlib.Path, parts: pathlib.Path, bench: str) -> list[list[int]]:
    """What each step of the testbench prints."""
    source, made = path.with_suffix(".bench.v"), path.with_suffix(".vvp")
    source.write_text(bench)
    subprocess.run(["iverilog", "-g2012", "-s", "bench", "-o", made, path, parts, source], check=True, capture_output=True, timeout=120)
    told = subprocess.run(["vvp", "-N", made], check=True, capture_output=True, text=True, timeout=120).stdout
    return [[int(word, 16) for word in line.split(" ")] for line in told.splitlines()]


def compare(crossbar: Crossbar, path: pathlib.Path, parts: pathlib.Path, chance: random.Random,
            counts: collections.Counter[str]) -> list[str]:
    """What differs between the module at this path and the description, over requests of each host."""
    steps: list[tuple[Node, int, int]] = []
    for host in crossbar.hosts:
        chosen = addresses(crossbar, chance)
        for address in chance.sample(chosen, min(STEPS, len(chosen))):
            steps.append((host, address, chance.getrandbits(5) << 64 | address << 32 | chance.getrandbits(32)))
    vectors = [([1 << 69 | rest if node is host else 0 for node in crossbar.hosts],
                [chance.getrandbits(33) for _ in crossbar.devices]) for host, _, rest in steps]
    try:
        shown = simulated(crossbar, path, parts, testbench(crossbar, vectors))
    except (subprocess.CalledProcessError, ValueError) as broken:
        return [f"no simulation: {broken}"]
    found = [] if len(shown) == len(steps) else [f"{len(shown)} steps of {len(steps)}"]
    for (host, address, rest), (_, responses), told in zip(steps, vectors, shown):
        device = device_at(crossbar, host, address)
        answer = ONES if device is None else responses[crossbar.devices.index(device)]
        wanted = [answer if node is host else 0 for node in crossbar.hosts]
        wanted += [1 << 69 | rest if node is device else 0 for node in crossbar.devices]
        counts["requests"] += 1
        counts["requests that end in an error"] += device is None
        # an idle host's response counts for nothing
        told = [value if node is host else 0 for node, value in zip(crossbar.hosts, told)] + told[len(crossbar.hosts):]
        # nor does a request that is not valid
        told = told[:len(crossbar.hosts)] + [value if value >> 69 else 0 for value in told[len(crossbar.hosts):]]
        if told != wanted:
            found.append(f"{host.name} at {address:#x}: wanted {wanted}, got {told}")
    return found
