"""Makes tops with their files by chance: mostly good ones, with crossbars in crossbars."""
from __future__ import annotations

import dataclasses
import random

from model.blocks import CLOCKING, DEVICE, HOST, random_block
from model.layout import interfaces
from model.trees import Json, Object

SHAPES: list[tuple[list[str | None], list[str | None]]] = [
    ([None], []), ([None], [None]), (["core"], []), (["core", "io"], ["dma"]), ([], [None]), ([], [None, "lsu"]), (["null"], ["core"]),
]


@dataclasses.dataclass(eq=False)
class Files:
    """A top with its files as descriptions: the top's, the crossbars' by their names, and the blocks' by their types."""
    top: Object
    crossbars: dict[str, Object]
    blocks: dict[str, Object]

    def all(self) -> dict[str, Object]:
        """The descriptions by the names of their files, the top's first."""
        made = {"t.hjson": self.top} | {f"xbar_{name}.hjson": crossbar for name, crossbar in self.crossbars.items()}
        return made | {f"{name}.hjson": block for name, block in self.blocks.items()}


class Maker:
    """Makes one top with its files."""

    def __init__(self, chance: random.Random) -> None:
        """A maker, by this chance; bases rise from here."""
        self.chance = chance
        self.following = {"hart": chance.choice([0, 0x1000, 0x40000000]), "soc": 0}
        self.joined: dict[str, list[str]] = {}

    def entries(self) -> list[Json]:
        """The entries of an interface."""
        chance = self.chance
        made: list[Json] = [{"name": "CTRL", "swaccess": "rw", "fields": [{"bits": "7:0"}]}]
        for number in range(chance.choice([0, 0, 1, 2, 3])):
            made.append(chance.choice([
                {"name": f"R{number}", "fields": [{"bits": 0}]}, {"window": {"name": f"W{number}", "items": chance.choice([1, 3, 5, 16, 300])}},
                {"multireg": {"name": f"M{number}", "count": chance.choice([1, 33, 70]), "cname": "C", "fields": [{"bits": 0}]}},
                {"reserved": chance.choice([0, 1, 5])}]))
        return chance.sample(made, len(made))

    def block(self, name: str) -> Object:
        """A block of this name."""
        chance = self.chance
        if chance.random() < 0.15:
            return random_block(name, chance)
        devices, hosts = chance.choice(SHAPES)
        faces = [DEVICE | ({} if face is None else {"name": face}) for face in devices]
        faces += [HOST | ({} if face is None else {"name": face}) for face in hosts]
        registers: Json = self.entries() if devices == [None] else {face: self.entries() for face in devices} if devices else []
        return {"name": name, "clocking": CLOCKING, "bus_interfaces": faces, "registers": registers,
                **({"interrupt_list": [{"name": "i"}]} if devices and chance.random() < 0.3 else {})}

    def place(self, space: str, size: int) -> int:
        """A base for so many bytes, behind all earlier ones, now and then with room between."""
        chance = self.chance
        base = -(-self.following[space] // size) * size + size * chance.choice([0, 0, 0, 1, 7])
        if base + size > 1 << 32:
            base = 0
        self.following[space] = base + size
        return base

    def base_keys(self, block: Object, spaces: dict[str | None, str], sizes: dict[str | None, int]) -> Object:
        """The bases of an instance: one for each device interface in its space, spelled in one of the ways."""
        chance = self.chance
        faces: list[str | None] = [face.get("name") for face in block["bus_interfaces"] if face["direction"] == "device"]
        bases = {face: self.place(spaces[face], sizes[face]) for face in faces}
        written: dict[str | None, Json] = {
            face: base if spaces[face] == "hart" and chance.random() < 0.6 else {spaces[face]: base} for face, base in bases.items()}
        if len(faces) == 1:
            only = written[faces[0]]
            return chance.choice([{"base_addr": only}, {"base_addrs": {"null": only}}, {"base_addrs": {faces[0] or "null": only}},
                                  {"base_addr": only, "base_addrs": {"other": 4}}])
        return {"base_addrs": {face: base for face, base in written.items() if face is not None}} if faces else {}

    def node(self, name: str, kind: str, **more: Json) -> Object:
        """A node of a crossbar."""
        clock = {"clock": "aon"} if self.chance.random() < 0.2 else {}
        return {"name": name, "type": kind, **clock, **more}

    def crossbar(self, name: str, nodes: list[Object]) -> Object:
        """A crossbar of these nodes: each host connects to some devices, and each device to a host."""
        chance = self.chance
        hosts = [node["name"] for node in nodes if node["type"] == "host"]
        devices = [node["name"] for node in nodes if node["type"] == "device"]
        joined = {host: chance.sample(devices, chance.randint(1, len(devices))) for host in hosts}
        for device in devices:
            if not any(device in listed for listed in joined.values()):
                joined[chance.choice(hosts)].append(device)
        return {"name": name, "clock": "clk", "nodes": chance.sample(nodes, len(nodes)), "connections": joined}

    def whole(self) -> Files:
        """A top with its files."""
        chance = self.chance
        names = [f"x{number}" for number in range(chance.choice([0, 1, 1, 2, 2, 3, 4]))]
        spaces = {name: "hart" for name in names}
        several = chance.random() < 0.4
        nodes: dict[str, list[Object]] = {name: [] for name in names}
        for number, name in enumerate(names):
            if number and chance.random() < 0.8:
                for outer in chance.sample(names[:number], min(number, chance.choice([1, 1, 1, 2]))):
                    spaces[name] = spaces[outer] if not nodes[name] else spaces[name]
                    if spaces[outer] == spaces[name]:
                        nodes[outer].append(self.node(name, "device", xbar=True))
                        nodes[name].append(self.node(outer, "host", xbar=True))
            elif several:
                spaces[name] = chance.choice(["hart", "soc"])
        blocks = {f"b{number}": self.block(f"b{number}") for number in range(chance.choice([0, 1, 1, 2, 3]))}
        instances = [self.instance(f"u{number}", blocks, nodes, spaces) for number in range(chance.choice([0, 1, 2, 3, 5]) if blocks else 0)]
        crossbars = {name: self.finished(name, nodes[name], spaces[name]) for name in names}
        used = {instance["type"] for instance in instances}
        top: Object = {"name": "t", "clocks": {"srcs": [{"name": "clk"}]}, "resets": {"nodes": []}, "module": instances,
                       "xbar": [{"name": name, **self.spelled_space(spaces[name])} for name in names]}
        if several or chance.random() < 0.2:
            top["addr_spaces"] = [{"name": "hart"}, {"name": "soc"}]
        return Files(top, crossbars, {name: block for name, block in blocks.items() if name in used})

    def spelled_space(self, space: str) -> Object:
        """A crossbar's space; that of one in `hart` may be left out."""
        return {} if space == "hart" and self.chance.random() < 0.5 else {"addr_space": space}

    def instance(self, name: str, blocks: dict[str, Object], nodes: dict[str, list[Object]], spaces: dict[str, str]) -> Object:
        """An instance of one of the blocks, whose interfaces get nodes in some crossbars."""
        chance = self.chance
        kind = chance.choice(list(blocks))
        faces = blocks[kind]["bus_interfaces"]
        sizes = {face.name: max(4, 1 << (max((row.offset + row.size for row in face.rows), default=4) - 1).bit_length())
                 for face in interfaces(blocks[kind])}
        found: dict[str | None, str] = {}
        for face in faces:
            same = [other for other in faces if other["direction"] == face["direction"]]
            own = face.get("name")
            spelled = [name] if own is None else [f"{name}.{own}", name] if len(same) == 1 else [f"{name}.{own}"]
            crossbar = chance.choice(list(nodes)) if nodes and chance.random() < 0.9 else None
            if crossbar is not None:
                nodes[crossbar].append(self.node(chance.choice(spelled), face["direction"]))
            if face["direction"] == "device":
                found[own] = spaces[crossbar] if crossbar is not None else "hart"
        return {"name": name, "type": kind, **self.base_keys(blocks[kind], found, sizes)}

    def finished(self, name: str, nodes: list[Object], space: str) -> Object:
        """A crossbar that has at least a host and a device, and outside devices by chance."""
        chance = self.chance
        for number in range(chance.choice([0, 0, 1, 2])):
            nodes.append(self.device(f"{name}_d{number}", space))
        if not any(node["type"] == "device" for node in nodes):
            nodes.append(self.device(f"{name}_d", space))
        for number in range(chance.choice([0, 1, 2])):
            nodes.append(self.node(f"{name}_h{number}", "host"))
        if not any(node["type"] == "host" for node in nodes):
            nodes.append(self.node(f"{name}_h", "host"))
        return self.crossbar(name, nodes)

    def device(self, name: str, space: str) -> Object:
        """A device outside, with ranges."""
        sizes = [self.chance.choice([4, 16, 0x1000, 0x10000]) for _ in range(self.chance.choice([1, 1, 2, 3]))]
        ranges: list[Json] = [{"base_addr": self.place(space, size), "size_byte": size} for size in sizes]
        return self.node(name, "device", addr_range=ranges)


def random_whole(chance: random.Random) -> Files:
    """A top with its files, by chance."""
    return Maker(chance).whole()
