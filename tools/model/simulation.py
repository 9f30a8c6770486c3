"""Simulates a register module in Icarus Verilog, and compares each clock with the model."""
import collections
import dataclasses
import pathlib
import re
import subprocess

from model.layout import Interface, Register
from model.step import (BUS_PORTS, Block, Clock, Input, Port, accepted, field_ports, hardware_ports, shadowed_rows,
                        stored_fields, target, update_ports, window_ports)

# how many there are of each kind of thing that is tried
Counts = collections.Counter[str]
SECONDS = 600
FLOP = pathlib.Path(__file__).resolve().parent.parent / "prim_flop.sv"
PORT = re.compile(r"^  (input|output) (?:\[([0-9]+):0\] )?(\w+),?$", re.MULTILINE)


class Mismatch(Exception):
    """What differs from the model."""


def module_name(block: str, interface: Interface) -> str:
    """The name of the interface's register module."""
    return f"{block}_reg_top" if interface.name is None else f"{block}_{interface.name}_reg_top"


def compare_ports(interface: Interface, text: str) -> Counts:
    """Counts the module's ports, which must be those of the model in their order."""
    head = text.partition(");")[0]
    found = [(direction, int(high) + 1 if high else 1, name) for direction, high, name in PORT.findall(head)]
    expected = BUS_PORTS + hardware_ports(interface)
    for place, (left, right) in enumerate(zip(expected + [None], found + [None])):
        if left != right:
            raise Mismatch(f"port {place}: expected {left}, got {right}")
    return collections.Counter(ports=len(found))


@dataclasses.dataclass(frozen=True)
class Net:
    """A net that a testbench tells in each clock: its name, its path there, and the kind of check that it is for."""
    name: str
    path: str
    kind: str


@dataclasses.dataclass
class Bench:
    """A testbench of a module: its ports to hardware and to software without the clock, and the nets that it tells."""
    module: str
    ports: list[Port]
    told: list[Net]

    @property
    def inputs(self) -> list[Input]:
        """The widths and names of the inputs, in the order of a vector's bits."""
        return [(width, name) for direction, width, name in self.ports if direction == "input"]

    def text(self, clocks: int) -> str:
        """The testbench for so many clocks, which reads `vectors.hex` and writes `seen.txt`."""
        width = sum(width for width, _ in self.inputs)
        wires = "".join(f"  wire [{width - 1}:0] {name};\n" for _, width, name in self.ports)
        connections = ", ".join(f".{name}({name})" for name in ["clk_i"] + [name for _, _, name in self.ports])
        tells = "".join(f'      $fwrite(seen, "%h ", {net.path});\n' for net in self.told)
        return f"""module bench;
  reg clk_i;
  reg [{width - 1}:0] vectors [0:{clocks - 1}];
  reg [{width - 1}:0] vector;
  integer clock, seen;
{wires}  assign {{{", ".join(name for _, name in self.inputs)}}} = vector;
  {self.module} dut ({connections});
  initial begin
    $readmemh("vectors.hex", vectors);
    seen = $fopen("seen.txt", "w");
    clk_i = 0;
    vector = ~{width}'h0;
    #1;
    for (clock = 0; clock < {clocks}; clock = clock + 1) begin
      vector = vectors[clock];
      #1;
{tells}      $fwrite(seen, "\\n");
      clk_i = 1;
      #1 clk_i = 0;
    end
    $fclose(seen);
    $finish;
  end
endmodule
"""

    def vector(self, clock: Clock) -> str:
        """A clock's inputs in hexadecimal."""
        bits = "".join(f"{clock.value(name):0{width}b}" for width, name in self.inputs)
        return f"{int(bits, 2):x}\n"


def bench_of(module: str, interface: Interface) -> Bench:
    """The testbench of an interface's module."""
    told = [Net("reg_error", "reg_error", "errors"), Net("reg_rdata", "reg_rdata", "read data")]
    kinds = {"q": "hardware views q", "qe": "write strobes qe", "re": "read strobes re"}
    for row in interface.rows:
        if isinstance(row, Register):
            names = outputs([port for field in row.fields for port in field_ports(row, field)])
            told += [Net(name, name, kinds[name.rsplit("_", 1)[1]]) for name in names]
            told += [Net(name, name, "update errors") for name in outputs(update_ports(row))]
        else:
            told += [Net(name, name, "window outputs") for name in outputs(window_ports(row))]
    told += [Net(f"{field.net}_s", f"dut.{field.net}_s", "values of fields") for field in stored_fields(interface)]
    for number, row in shadowed_rows(interface).items():
        told += [Net(f"{field.net}_t", f"dut.{field.net}_t", "staged values") for field in row.fields]
        told.append(Net(f"ph_{number}", f"dut.ph_{number}", "phases"))
    return Bench(module, BUS_PORTS[1:] + hardware_ports(interface), told)


def outputs(ports: list[Port]) -> list[str]:
    """The names of the outputs among these ports."""
    return [name for direction, _, name in ports if direction == "output"]


def run(words: list[str], folder: pathlib.Path) -> str:
    """What a command says; a mismatch where it fails or does not end."""
    try:
        done = subprocess.run(words, cwd=folder, stdin=subprocess.DEVNULL, capture_output=True, text=True,
                              timeout=SECONDS)
    except subprocess.TimeoutExpired:
        raise Mismatch(f"{' '.join(words)}: no end within {SECONDS} seconds") from None
    if done.returncode != 0:
        raise Mismatch(f"{' '.join(words)}: status {done.returncode}\n{done.stdout}{done.stderr}".rstrip())
    return done.stdout


def simulate(bench: Bench, text_path: pathlib.Path, clocks: list[Clock], folder: pathlib.Path) -> list[list[str]]:
    """What the module shows in each clock, as one list of hexadecimal values for each."""
    folder.mkdir()
    (folder / "bench.sv").write_text(bench.text(len(clocks)))
    (folder / "vectors.hex").write_text("".join(map(bench.vector, clocks)))
    run(["iverilog", "-g2012", "-o", "bench.vvp", "bench.sv", str(text_path), str(FLOP)], folder)
    run(["vvp", "-n", "bench.vvp"], folder)
    return [line.split() for line in (folder / "seen.txt").read_text().splitlines()]


def expected_values(block: Block, clock: Clock) -> dict[str, int]:
    """The nets' values that the model gives for a clock, by name; a net of which it says nothing is absent."""
    error, data = block.answer(clock)
    values = {"reg_error": error} | ({} if data is None else {"reg_rdata": data})
    values |= block.views(clock) | {f"{field.net}_s": value for field, value in block.values.items()}
    values |= {f"{field.net}_t": value for field, value in block.staged.items()}
    return values | {f"ph_{number}": value for number, value in block.phases.items()}


def compare_clocks(interface: Interface, bench: Bench, clocks: list[Clock], seen: list[list[str]]) -> Counts:
    """Counts the values compared by their kind; the first that differs is a mismatch."""
    if len(seen) != len(clocks):
        raise Mismatch(f"{len(seen)} clocks in place of {len(clocks)}")
    block = Block(interface)
    counts: Counts = collections.Counter()
    for number, (clock, shown) in enumerate(zip(clocks, seen)):
        if not clock.rst_ni:
            block.reset()
        values = expected_values(block, clock)
        for net, got in zip(bench.told, shown, strict=True):
            if net.name in values:
                expected = f"{values[net.name]:x}"
                if expected != (got.lstrip("0") or "0"):
                    raise Mismatch(f"clock {number}, net {net.name}: expected 0x{expected}, got 0x{got}; {clock}")
                counts[net.kind if clock.rst_ni else f"{net.kind} in reset"] += 1
        counts += account(block, clock)
        block.pass_clock(clock)
    return counts


def account(block: Block, clock: Clock) -> Counts:
    """What kind of a clock it is, for the summary."""
    counts = collections.Counter(clocks=1, resets=1 - clock.rst_ni)
    row = target(block.interface, clock.reg_addr)
    if not (clock.reg_we or clock.reg_re):
        return counts
    if clock.reg_we:
        counts[f"writes with strobes {clock.reg_be:04b}"] += 1
    if row is None:
        counts["accesses at unmapped addresses"] += 1
    elif not accepted(row, clock):
        counts[f"accesses refused at a {'register' if isinstance(row, Register) else 'window'}"] += 1
    else:
        counts[f"accesses accepted at a {'register' if isinstance(row, Register) else 'window'}"] += 1
    if isinstance(row, Register) and row.gate is not None and accepted(row, clock) and clock.reg_we:
        counts[f"accesses at {'an open' if block.values[row.gate] else 'a closed'} gate"] += 1
    for number in block.shadowed:
        update = block.update(number, clock)
        if update is not None:
            counts[f"writes at shadowed registers {update}"] += 1
        if row is block.shadowed[number] and clock.reg_re and block.phases[number]:
            counts["reads of shadowed registers between two writes"] += 1
    if isinstance(row, Register) and accepted(row, clock):
        for field in row.fields:
            kind = "external" if field.external else field.software
            hardware = not field.external and field.driven and clock.value(f"{field.net}_de")
            counts[f"{'writes' if clock.reg_we else 'reads'} of {kind}{' with hardware' if hardware else ''}"] += 1
    return counts


def simulate_and_compare(module: str, interface: Interface, text_path: pathlib.Path, clocks: list[Clock],
                         folder: pathlib.Path) -> Counts:
    """Runs a module through the clocks, and counts the values that were compared with the model."""
    bench = bench_of(module, interface)
    seen = simulate(bench, text_path, clocks, folder)
    return collections.Counter(simulated=1) + compare_clocks(interface, bench, clocks, seen)
