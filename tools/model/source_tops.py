"""Makes tops by chance whose instances have interrupts, alerts, clocks, resets and pins, some of which break a rule on these."""
from __future__ import annotations

import random

from model.trees import Json, Object

CLOCKS, RESETS, PORTS = ["clk_i", "clk_aon_i", "c"], ["rst_ni", "rst_aon_ni", "c"], ["rx", "tx", "io", "d"]
PADS = ["P0", "P1", "P2", "P0"]


class SourceMaker:
    """Makes one top with its files. One in `odd` choices of a source, a port or a pad is an odd one."""

    def __init__(self, chance: random.Random) -> None:
        """A maker, by this chance."""
        self.chance = chance
        self.odd = chance.choice([0.0, 0.0, 0.02, 0.1, 0.3])

    def is_odd(self) -> bool:
        """Whether this choice is an odd one."""
        return self.chance.random() < self.odd

    def clocking(self) -> list[Json]:
        """The clocks of a block with their resets, some of them twice."""
        chance = self.chance
        return [{"clock": chance.choice(CLOCKS), **({"reset": chance.choice(RESETS)} if chance.random() < 0.7 else {})}
                for _ in range(chance.choice([1, 1, 2, 3]))]

    def ports(self) -> list[Json]:
        """Ports of a block; two may have one name."""
        chance = self.chance
        return [{"name": chance.choice(PORTS), **({"width": chance.choice([1, 2, 3, 12, 64])} if chance.random() < 0.6 else {})}
                for _ in range(chance.choice([0, 0, 1, 1, 2]))]

    def block(self, name: str) -> Object:
        """A block of this name without registers."""
        chance = self.chance
        interrupts: list[Json] = [{"name": f"i{place}", **({"width": chance.choice([1, 2, 3])} if chance.random() < 0.5 else {})}
                                  for place in range(chance.choice([0, 1, 2, 3]))]
        alerts: list[Json] = [{"name": f"a{place}"} for place in range(chance.choice([0, 0, 1, 2]))]
        made: Object = {"name": name, "clocking": self.clocking(), "bus_interfaces": [], "registers": [], "interrupt_list": interrupts,
                        "alert_list": alerts, "available_input_list": self.ports(), "available_output_list": self.ports(),
                        "available_inout_list": self.ports()}
        return made

    def source(self, known: list[str], key: str) -> Json:
        """A source: a string, or an object that has it at this key."""
        found = self.chance.choice(["none", "sys2", "clk"]) if self.is_odd() else self.chance.choice(known)
        return {key: found, "group": "g"} if self.chance.random() < 0.2 else found

    def sources(self, ports: list[str], known: list[str], key: str) -> Object:
        """A source for each of the ports, and now and then for one that is not there."""
        return {port: self.source(known, key) for port in [*ports, "other"] if not self.is_odd()}

    def crossbar(self, name: str, number: int) -> Object:
        """A crossbar of a host and a device outside."""
        chance = self.chance
        clocks = [{"clock": chance.choice(CLOCKS)} if chance.random() < 0.5 else {} for _ in range(2)]
        ranges: list[Json] = [{"base_addr": 0x1000 * number, "size_byte": 0x1000}]
        nodes: list[Json] = [{"name": f"h{number}", "type": "host", **clocks[0]},
                             {"name": f"d{number}", "type": "device", "addr_range": ranges, **clocks[1]}]
        return {"name": name, "clock": chance.choice(CLOCKS), "nodes": nodes, "connections": {f"h{number}": [f"d{number}"]}}

    def port(self, block: Object) -> str:
        """What a signal names of a block's ports."""
        chance = self.chance
        named = [(port["name"], port.get("width", 1)) for key in ["input", "output", "inout"] for port in block[f"available_{key}_list"]]
        if self.is_odd() or not named:
            return chance.choice(["", "rx", "no", "rx[0]", "tx[64]", "io[01]", "d[", "[0]"])
        name, width = chance.choice(named)
        return chance.choice([name, f"{name}[{chance.randrange(width)}]", f"{name}[{chance.randrange(width)}]", f"{name}[0]"])

    def signal(self, instances: list[Json], blocks: dict[str, Object]) -> Object:
        """A signal of one of the instances."""
        chance = self.chance
        instance = chance.choice(instances)
        joint = chance.choice(["muxed", "muxed", "muxed", "direct", "manual"])
        made: Object = {"instance": "nobody" if self.is_odd() else instance["name"], "port": self.port(blocks[instance["type"]]),
                        "connection": joint}
        if joint == "direct" or chance.random() < 0.1:
            made["pad"] = "none" if self.is_odd() else chance.choice(PADS)
        return made

    def files(self) -> dict[str, Object]:
        """The descriptions by the names of their files, the top's first."""
        chance = self.chance
        blocks = {f"b{number}": self.block(f"b{number}") for number in range(chance.choice([1, 2, 3]))}
        instances: list[Json] = []
        many = chance.random() < 0.02
        if many:
            blocks["b0"][chance.choice(["interrupt_list", "alert_list"])] = [{"name": f"n{place}"} for place in range(32)]
        for number in range(chance.choice([32, 33, 70] if many else [0, 1, 2, 3, 5])):
            kind = chance.choice(list(blocks))
            used = blocks[kind]["clocking"]
            clocks, resets = [entry["clock"] for entry in used], [entry["reset"] for entry in used if "reset" in entry]
            instances.append({"name": f"u{number}", "type": kind, "clock_srcs": self.sources(clocks, ["main", "io"], "clock"),
                              "reset_connections": self.sources(resets, ["sys", "por"], "name")})
        crossbars = {f"x{number}": self.crossbar(f"x{number}", number) for number in range(chance.choice([0, 1, 2]))}
        uses: list[Json] = [{"name": name, "clock_srcs": self.sources(CLOCKS, ["main", "io"], "clock")} for name in crossbars]
        signals: list[Json] = [self.signal(instances, blocks) for _ in range(chance.choice([0, 1, 2, 3, 6]))] if instances else []
        top: Object = {"name": "t", "clocks": {"srcs": [{"name": "main"}], "derived_srcs": [{"name": "io"}]},
                       "resets": {"nodes": [{"name": "sys"}, {"name": "por"}]}, "module": instances, "xbar": uses,
                       "pinout": {"pads": [{"name": pad} for pad in PADS]}, "pinmux": {"signals": signals}}
        used_kinds = {instance["type"] for instance in instances}
        made: dict[str, Object] = {"t.hjson": top} | {f"xbar_{name}.hjson": crossbar for name, crossbar in crossbars.items()}
        return made | {f"{name}.hjson": block for name, block in blocks.items() if name in used_kinds}
