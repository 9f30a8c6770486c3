"""Changes tops with their files by chance, so that they break rules on sources, pins and generated names, or on one another; and changes bytes."""
from __future__ import annotations

import random

from model.faulty import changed_text
from model.spelling import hjson_text
from model.trees import Json, Object
from model.whole_changes import WholeChanger

LARGE = 1 << 20
TAKEN = ["prim_flop", "tlul_fifo_async", "top_t", "xbar_x0", "b0_reg_top", "b0_core_reg_top"]


class ChipChanger(WholeChanger):
    """Changes a top with its files; chance decides what."""

    def block(self) -> Object | None:
        """One of the blocks."""
        return self.chance.choice(list(self.files.blocks.values())) if self.files.blocks else None

    def unsource(self) -> None:
        """A port has no source, or one that is not there."""
        key = self.chance.choice(["clock_srcs", "clock_srcs", "reset_connections"])
        holders = [held[key] for held in self.listed("module") + self.listed("xbar") if isinstance(held.get(key), dict) and held[key]]
        if holders:
            held = self.chance.choice(holders)
            port = self.chance.choice(list(held))
            if self.chance.random() < 0.5:
                del held[port]
            else:
                held[port] = self.chance.choice(["nowhere", "sys", "main", {"clock": "nowhere", "name": "nowhere"}])

    def signals(self) -> list[Json]:
        """The signals of the top, which are made where they are not there."""
        pinmux = self.files.top.setdefault("pinmux", {"signals": []})
        held = pinmux.setdefault("signals", []) if isinstance(pinmux, dict) else []
        return held if isinstance(held, list) else []

    def signal(self) -> None:
        """Another signal, or one once more, or one that is joined otherwise."""
        chance, held = self.chance, self.signals()
        names = [item["name"] for item in self.listed("module") if isinstance(item.get("name"), str)]
        if held and chance.random() < 0.5:
            one = chance.choice(held)
            if isinstance(one, dict):
                held.append(dict(one))
                one[chance.choice(["connection", "pad", "port"])] = chance.choice(["muxed", "direct", "manual", "P0", "P9", "rx", "rx[0]", ""])
            return
        made: Object = {"instance": chance.choice([*names, "nobody"]), "port": chance.choice(["", "rx", "tx[0]", "io[1]", "sda", "scl[0]"]),
                        "connection": chance.choice(["muxed", "direct", "manual"])}
        held.insert(chance.randint(0, len(held)), made | ({"pad": chance.choice(["P0", "P1", "P9"])} if chance.random() < 0.5 else {}))

    def many(self) -> None:
        """An instance's block has as many interrupts or alerts as it may have, and is there very often."""
        block, chance = self.block(), self.chance
        modules = self.files.top.get("module")
        if block is None or not isinstance(modules, list):
            return
        block[chance.choice(["interrupt_list", "alert_list"])] = [{"name": f"n{place}"} for place in range(32)]
        block |= {"no_auto_intr_regs": True, "no_auto_alert_regs": True}
        first = [held for held in self.listed("module") if held.get("type") == block.get("name")][:1]
        modules += [{**held, "name": f"more{place}"} for held in first for place in range(chance.choice([30, 31, 32, 33]))]

    def retype(self) -> None:
        """A type has the name of a module that is written or used."""
        if self.files.blocks:
            old, new = self.chance.choice(list(self.files.blocks)), self.chance.choice(TAKEN)
            block = self.files.blocks.pop(old)
            block["name"] = new
            self.files.blocks[new] = block
            for held in self.listed("module"):
                held |= {"type": new} if held.get("type") == old else {}

    def clash(self) -> None:
        """Names of which some may be generated twice."""
        chance, block, top = self.chance, self.block(), self.files.top
        match chance.choice(["source", "interrupt", "case", "clock", "instance", "top", "pin"]):
            case "source":
                top["clocks"] = {"srcs": [{"name": "main"}, {"name": "io"}, {"name": "aon"}, {"name": chance.choice(["main", "other"])}]}
            case "interrupt" if block is not None:
                block |= {"interrupt_list": [{"name": "i"}, {"name": "i"}], "no_auto_intr_regs": True}
            case "case" if block is not None:
                block |= {"alert_list": [{"name": "a"}, {"name": "A"}], "no_auto_alert_regs": True}
            case "clock" if block is not None:
                block["clocking"] = [{"clock": chance.choice(["tl_req_i", "clk_i"]), "reset": chance.choice(["rst_ni", "clk_i"])}]
                for held in self.listed("module"):
                    held["clock_srcs"] = {"tl_req_i": "main", "clk_i": "main", "clk_aon_i": "main"}
                    held["reset_connections"] = {"rst_ni": "sys", "clk_i": "sys", "rst_aon_ni": "sys", "rst_2_ni": "sys"}
            case "instance":
                for held in self.listed("module")[:1]:
                    held["name"] = chance.choice(["xbar_x0", "u1_i0", "x0"])
            case "top":
                top["name"] = chance.choice(["x_regs", "b0", "T"])
            case "pin" if block is not None:
                block["available_input_list"] = [{"name": "rx"}, {"name": chance.choice(["rx", "RX"])}]

    def nodes_clash(self) -> None:
        """Two nodes of a crossbar of which some names are spelled alike."""
        found = self.node()
        if found is not None:
            crossbar = self.files.crossbars[found[0]]
            self.renamed(crossbar, found[1], self.chance.choice(["a_t_b", "a.b", "a__b"]))

    def changed(self, count: int) -> dict[str, Object]:
        """The descriptions by the names of their files after so many changes."""
        own = [self.unsource, self.unsource, self.signal, self.signal, self.signal, self.many, self.retype, self.clash, self.clash, self.clash,
               self.nodes_clash]
        made = super().changed(0)
        for _ in range(count):
            if self.chance.random() < 0.6:
                self.chance.choice(own)()
                made = super().changed(0)
            else:
                made = super().changed(1)
        return made


def changed_bytes(given: str, chance: random.Random) -> bytes:
    """The bytes of a text, mostly as they are."""
    kind = chance.random()
    if kind < 0.9:
        return given.encode()
    if kind < 0.97:
        return changed_text(given, chance).encode()
    made = bytearray(given.encode())
    if kind < 0.99:
        made.insert(chance.randint(0, len(made)), chance.choice([0xFF, 0xC3, 0x80]))
        return bytes(made)
    return bytes(made) + b" " * (LARGE + chance.choice([0, 1]) - len(made))


def files_of(descriptions: dict[str, Object], folder: str, chance: random.Random, exact: bool) -> dict[str, bytes]:
    """The files in this folder, spelled by chance; their bytes are changed now and then unless they are to stay exact."""
    texts = {f"{folder}{name}": hjson_text(description, chance) for name, description in descriptions.items()}
    return {name: text.encode() if exact else changed_bytes(text, chance) for name, text in texts.items()}
