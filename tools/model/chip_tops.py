"""Makes tops with their files by chance that build: crossbars in crossbars, interrupts, alerts, clocks, resets and pins."""
from __future__ import annotations

import random

from model.trees import Json, Object
from model.whole_tops import Files, Maker

CLOCKS, RESETS = ["main", "io", "aon"], ["sys", "por"]
PORTS, PADS = ["rx", "tx", "io", "sda", "scl"], ["P0", "P1", "P2", "P3"]
PIN_LISTS = ["available_input_list", "available_output_list", "available_inout_list"]
# an instance's name, the name of its port, the bit
PortBit = tuple[str, str, int]


def width_of(item: Object) -> int:
    """The width that an interrupt or a port has."""
    return item.get("width", 1)


def ports_of(block: Object) -> list[Object]:
    """The ports of a block: inputs, then outputs, then those that are both."""
    return [port for key in PIN_LISTS for port in block.get(key, [])]


class ChipMaker(Maker):
    """Makes one top with its files that breaks no rule, but for what chance rarely brings."""

    def interrupts(self) -> list[Json]:
        """Interrupts of some widths and types."""
        chance = self.chance
        return [{"name": f"i{place}", **({"width": chance.choice([1, 2, 5])} if chance.random() < 0.4 else {}),
                 **({"type": chance.choice(["event", "status"])} if chance.random() < 0.3 else {})}
                for place in range(chance.choice([0, 0, 1, 2, 3]))]

    def pins(self) -> Object:
        """The ports of a block for pins, each of its own name."""
        chance, made = self.chance, {}
        names = chance.sample(PORTS, len(PORTS))
        for key in PIN_LISTS:
            listed: list[Json] = []
            for _ in range(chance.choice([0, 0, 1, 2]) if names else 0):
                listed += [{"name": names.pop(), **({"width": chance.choice([1, 2, 9, 64])} if chance.random() < 0.4 else {})}] if names else []
            made |= {key: listed} if listed or chance.random() < 0.1 else {}
        return made

    def clocking(self) -> list[Json]:
        """The clocks of a block, some with a reset, now and then one of them twice."""
        chance = self.chance
        made: list[Json] = [{"clock": "clk_i", "reset": "rst_ni"}]
        made += [{"clock": "clk_aon_i", **({"reset": "rst_aon_ni"} if chance.random() < 0.5 else {})}] if chance.random() < 0.3 else []
        return made + ([{"clock": "clk_i", "reset": "rst_2_ni"}] if chance.random() < 0.1 else [])

    def block(self, name: str) -> Object:
        """A block of this name with interrupts, alerts and ports."""
        chance, made = self.chance, super().block(name)
        made["clocking"] = self.clocking()
        if "interrupt_list" not in made:
            made["interrupt_list"] = self.interrupts()
        if "alert_list" not in made and chance.random() < 0.5:
            made["alert_list"] = [{"name": f"a{place}"} for place in range(chance.choice([1, 2]))]
        made |= {"no_auto_intr_regs": chance.random() < 0.5} if chance.random() < 0.2 else {}
        return made | ({} if any(key in made for key in PIN_LISTS) else self.pins())

    def source(self, known: list[str], key: str) -> Json:
        """A source: its name, or an object that has it."""
        name = self.chance.choice(known)
        return {key: name, "group": "top"} if self.chance.random() < 0.2 else name

    def sources(self, ports: list[str], known: list[str], key: str) -> Object:
        """A source for each of the ports, and now and then for one that is not there."""
        return {port: self.source(known, key) for port in [*ports, *(["spare"] if self.chance.random() < 0.2 else [])]}

    def instance(self, name: str, blocks: dict[str, Object], nodes: dict[str, list[Object]], spaces: dict[str, str]) -> Object:
        """An instance with the sources of its clocks and resets."""
        made = super().instance(name, blocks, nodes, spaces)
        used = blocks[made["type"]]["clocking"]
        resets = [entry["reset"] for entry in used if "reset" in entry]
        made["clock_srcs"] = self.sources([entry["clock"] for entry in used], CLOCKS, "clock")
        return made | ({"reset_connections": self.sources(resets, RESETS, "name")} if resets else {})

    def signal(self, name: str, port: str, joint: str, pads: list[str]) -> Object:
        """A signal."""
        made: Object = {"instance": name, "port": port, "connection": joint}
        if not port and self.chance.random() < 0.5:
            del made["port"]
        if joint == "direct":
            made["pad"] = pads.pop()
        return made | ({"pad": "P0"} if joint != "direct" and self.chance.random() < 0.1 else {})

    def bit_signals(self, name: str, port: Object, pads: list[str]) -> list[Json]:
        """Signals for some of the bits of a port, none of them twice."""
        chance, made, count = self.chance, [], width_of(port)
        for bit in chance.sample(range(count), min(count, chance.choice([1, 2, 3]))):
            spelled = port["name"] if count == 1 and chance.random() < 0.5 else f"{port['name']}[{bit}]"
            made.append(self.signal(name, spelled, "direct" if pads and chance.random() < 0.6 else "muxed", pads))
        return made

    def signals(self, files: Files) -> list[Json]:
        """Signals of some of the instances, in any order, none of which has the bit of another that is not manual."""
        chance, pads, made = self.chance, chance_order(PADS, self.chance), []
        for held in files.top["module"]:
            ports = ports_of(files.blocks[held["type"]])
            if not ports or chance.random() < 0.3:
                continue
            if chance.random() < 0.3:
                made.append(self.signal(held["name"], "", chance.choice(["muxed", "muxed", "manual"]), pads))
                continue
            for port in ports:
                match chance.choice(["whole", "bits", "manual", "none"]):
                    case "whole":
                        made.append(self.signal(held["name"], port["name"], "muxed", pads))
                    case "bits":
                        made += self.bit_signals(held["name"], port, pads)
                    case "manual":
                        made.append(self.signal(held["name"], port["name"], "manual", pads))
        return chance.sample(made, len(made))

    def whole(self) -> Files:
        """A top with its files, whose crossbars have clocks, and which has pads and signals."""
        files, chance = super().whole(), self.chance
        files.top["clocks"] = {"srcs": [{"name": name} for name in CLOCKS[:2]], "derived_srcs": [{"name": CLOCKS[2]}]}
        files.top["resets"] = {"nodes": [{"name": name} for name in RESETS]}
        for use in files.top["xbar"]:
            use["clock_srcs"] = self.sources(["clk", "aon"], CLOCKS, "clock")
        if chance.random() < 0.8:
            files.top["pinout"] = {"pads": [{"name": name} for name in PADS]}
            files.top["pinmux"] = {"signals": self.signals(files)}
        return files


def chance_order(names: list[str], chance: random.Random) -> list[str]:
    """The names in any order."""
    return chance.sample(names, len(names))


def random_chip(chance: random.Random) -> Files:
    """A top with its files, by chance."""
    return ChipMaker(chance).whole()
