"""Runs a top's module in Icarus Verilog: a testbench gives it a value for each of its inputs and stubs in each step, and tells what is seen.

A step sets all inputs, tells all that is seen, and then lets some of the clocks rise. Clocks stay high up to the next step's end, so that what is
seen of them there tells which of them rose.
"""
from __future__ import annotations

import dataclasses
import pathlib

from model.chips import Chip
from model.core_stubs import REQUEST, RESPONSE, Core, core_of, joined, starts, total
from model.document import Value
from model.register_text import width
from model.simulation import Mismatch, run
from model.step import Input
from model.top_text import ports as top_ports

TOOLS = pathlib.Path(__file__).resolve().parent.parent
PARTS = [TOOLS / "prim_flop.sv", TOOLS / "tlul_parts.sv"]
# a value, or a value of each slice, by the slice's name
Values = dict[str, int]


@dataclasses.dataclass
class Bench:
    """The testbench of a top: its stubs by the types of blocks, and the slices of what it sets and of what it tells, the highest first.

    A slice of a stub has the instance's name and a dot before its own name. `next` has the clocks that are to rise.
    """
    chip: Chip
    cores: dict[str, Core]
    clocks: list[str]
    given: list[Input]
    seen: list[Input]
    # the bus ports of instances that no crossbar has a node for: the instance, the port, its width
    loose: list[tuple[str, str, int]]

    def stubs(self) -> str:
        """The text of all stubs."""
        return "\n".join(core.text for core in self.cores.values())

    def text(self, steps: int) -> str:
        """The testbench for so many steps, which reads `vectors.hex` and writes `seen.txt`."""
        ports = top_ports(self.chip)
        nets = [f"  {'reg' if direction == 'input' else 'wire'} {width(bits)}{name};" for direction, bits, name in ports]
        held = ", ".join(f".{name}({name})" for _, _, name in ports)
        names = [name for direction, _, name in ports if direction == "input" and name not in self.clocks]
        stubs = [f"dut.u_{owner.name}.stub_given" for owner in self.chip.whole.instances]
        forced = [f"    force dut.u_{owner}.{port} = {bits}'h0;" for owner, port, bits in self.loose]
        clocks, all_of = joined(self.clocks), total(self.given)
        rise = [f"      {clocks} = 0;", f"      #1 {clocks} = rising;"] if self.clocks else []
        return "\n".join([
            "module bench;", *nets, f"  reg [{all_of - 1}:0] vectors [0:{steps - 1}];", f"  reg {width(max(1, len(self.clocks)))}rising;",
            "  integer step, seen;", f"  top_{self.chip.name} dut ({held});", "  initial begin", '    $readmemh("vectors.hex", vectors);',
            '    seen = $fopen("seen.txt", "w");', *forced, *([f"    {clocks} = 0;"] if self.clocks else []),
            f"    for (step = 0; step < {steps}; step = step + 1) begin",
            f"      {joined(['rising', *names, *stubs])} = vectors[step];", "      #1;",
            f'      $fwrite(seen, "%b\\n", {joined(self.told())});', *rise, "      #1;", "    end", "    $fclose(seen);", "    $finish;", "  end",
            "endmodule", ""])

    def told(self) -> list[str]:
        """The nets that are told, in the order of the slices."""
        made = [name for direction, _, name in top_ports(self.chip) if direction == "output"]
        for count, crossbar in enumerate(self.chip.whole.crossbars):
            made += [f"dut.u_xbar_{crossbar.name}.{port}" for port, _ in self.chip.crossbar_clocks(count)]
        return made + [f"dut.u_{owner.name}.stub_seen" for owner in self.chip.whole.instances]

    def vector(self, values: Values) -> str:
        """The values of a step in hexadecimal."""
        bits = "".join(f"{values[name]:0{count}b}" for count, name in self.given)
        return f"{int(bits, 2):x}\n"


def kind_of(chip: Chip, number: int) -> tuple[str, Value]:
    """The type of the instance of this number, and its block."""
    block = chip.files.instances()[number][1]
    return block.member("name").data, block


def loose_ports(chip: Chip) -> list[tuple[str, str, int]]:
    """The bus ports of instances that are not connected, as no crossbar has a node for them: only those that go in."""
    made = []
    for number, owner in enumerate(chip.whole.instances):
        block = kind_of(chip, number)[1]
        for host, ending, bits in [(False, "req_i", REQUEST), (True, "rsp_i", RESPONSE)]:
            for face, start in enumerate(starts(block, "host" if host else "device")):
                made += [(owner.name, f"{start}_{ending}", bits)] if (owner.name, face, host) not in chip.links else []
    return made


def output_slices(bits: int, name: str) -> list[Input]:
    """The slices of an output: those of a response are its error and its data."""
    start = name.removesuffix("_rsp")
    return [(bits, name)] if start == name else [(1, f"{start}_error"), (32, f"{start}_data")]


def bench_of(chip: Chip) -> Bench:
    """The testbench of a top."""
    cores = {kind: core_of(chip.files.blocks[kind]) for kind in chip.kinds}
    clocks, ports = [f"clk_{source}" for source in chip.sources("clock")], top_ports(chip)
    given: list[Input] = [(max(1, len(clocks)), "next")]
    given += [(bits, name) for direction, bits, name in ports if direction == "input" and name not in clocks]
    seen: list[Input] = [part for direction, bits, name in ports if direction == "output" for part in output_slices(bits, name)]
    for count, crossbar in enumerate(chip.whole.crossbars):
        seen += [(1, f"xbar {crossbar.name}.{port}") for port, _ in chip.crossbar_clocks(count)]
    for number, owner in enumerate(chip.whole.instances):
        core = cores[kind_of(chip, number)[0]]
        given += [(bits, f"{owner.name}.{name}") for bits, name in core.given]
        seen += [(bits, f"{owner.name}.{name}") for bits, name in core.seen or [(1, "nothing")]]
    return Bench(chip, cores, clocks, given, seen, loose_ports(chip))


def simulated(bench: Bench, texts: list[pathlib.Path], steps: list[Values], folder: pathlib.Path) -> list[str]:
    """What is seen in each step: a line of binary digits for each."""
    (folder / "stubs.sv").write_text(bench.stubs())
    (folder / "bench.sv").write_text(bench.text(len(steps)))
    (folder / "vectors.hex").write_text("".join(map(bench.vector, steps)))
    words = ["iverilog", "-g2012", "-DSIMULATED", "-s", "bench", "-o", "bench.vvp", "bench.sv", "stubs.sv"]
    run([*words, *map(str, texts), *map(str, PARTS)], folder)
    run(["vvp", "-n", "bench.vvp"], folder)
    lines = (folder / "seen.txt").read_text().splitlines()
    if len(lines) != len(steps) or any(len(line) != total(bench.seen) for line in lines):
        raise Mismatch(f"{len(lines)} steps in place of {len(steps)}, or steps of another width")
    return lines


def compared(bench: Bench, line: str, expected: Values) -> str:
    """How what is seen in a step differs from what is expected of some slices; nothing where it does not."""
    place = 0
    for bits, name in bench.seen:
        if name in expected and line[place:place + bits] != f"{expected[name]:0{bits}b}":
            shown = line[place:place + bits]
            told = f"0x{int(shown, 2):x}" if set(shown) <= {"0", "1"} else shown
            return f"{name}: expected 0x{expected[name]:x}, got {told}"
        place += bits
    return ""
