"""Changes tops with their files by chance, so that they break rules on one another, or just do not."""
from __future__ import annotations

import copy
import random

from model.crossbar_changes import CrossbarChanger
from model.faulty import Changer
from model.top_changes import TopChanger
from model.trees import Json, Object
from model.whole_tops import Files

SIZES = [0, 1, 2, 4, 8, 12, 0x1000, 0x1800, 1 << 31, 1 << 32]
BASES = [0, 2, 4, 0x1000, 0x1004, 0x40000000, (1 << 32) - 0x1000, (1 << 32) - 4, (1 << 32) - 1]


class WholeChanger:
    """Changes a top with its files; chance decides what."""

    def __init__(self, files: Files, chance: random.Random) -> None:
        """A changer of a copy; the files themselves stay."""
        self.files, self.chance = copy.deepcopy(files), chance
        self.absent: set[str] = set()

    def nodes(self) -> list[tuple[str, Object]]:
        """All nodes with the names of their crossbars."""
        return [(name, node) for name, crossbar in self.files.crossbars.items() if isinstance(crossbar.get("nodes"), list)
                for node in crossbar["nodes"] if isinstance(node, dict) and isinstance(node.get("name"), str)]

    def listed(self, key: str) -> list[Object]:
        """The objects in a list of the top."""
        held = self.files.top.get(key)
        return [item for item in held if isinstance(item, dict)] if isinstance(held, list) else []

    def node(self) -> tuple[str, Object] | None:
        """One of the nodes."""
        nodes = self.nodes()
        return self.chance.choice(nodes) if nodes else None

    def rename_node(self) -> None:
        """A node has another name, in its own crossbar's connections too: that of another node, spelled so or otherwise, or of nothing."""
        nodes = self.nodes()
        if not nodes:
            return
        (crossbar, node), (_, other) = self.chance.choice(nodes), self.chance.choice(nodes)
        instances = [item["name"] for item in self.listed("module") if isinstance(item.get("name"), str)]
        name = self.chance.choice([other["name"], other["name"].replace(".", "__"), other["name"].replace("__", "."), "nothing", "u0.io",
                                   *instances, *self.files.crossbars])
        self.renamed(self.files.crossbars[crossbar], node, name)

    def renamed(self, crossbar: Object, node: Object, name: str) -> None:
        """Gives a node this name, and its connections too."""
        old, joined = node["name"], crossbar.get("connections")
        node["name"] = name
        if isinstance(joined, dict):
            changed = {name if host == old else host: [name if device == old else device for device in devices]
                       if isinstance(devices, list) else devices for host, devices in joined.items()}
            crossbar["connections"] = changed

    def range(self) -> None:
        """Another range of a device, or none."""
        found = self.node()
        if found is not None:
            count = self.chance.choice([0, 1, 1, 2])
            found[1]["addr_range"] = [{"base_addr": self.chance.choice(BASES), "size_byte": self.chance.choice(SIZES)} for _ in range(count)]

    def base(self) -> None:
        """Another base of an instance, or none, or one for some space."""
        instances = self.listed("module")
        if not instances:
            return
        instance, chance = self.chance.choice(instances), self.chance
        base = chance.choice(BASES)
        value: Json = chance.choice([base, {"hart": base}, {"soc": base}, {"nowhere": base}, {"hart": base, "soc": 0}])
        match chance.choice(["base", "bases", "none", "face"]):
            case "base":
                instance["base_addr"] = value
            case "bases":
                instance["base_addrs"] = {chance.choice(["null", "core", "io", "none"]): value}
            case "none":
                instance.pop(chance.choice(["base_addr", "base_addrs"]), None)
            case _:
                held = instance.get("base_addrs")
                if isinstance(held, dict) and held:
                    held[chance.choice(list(held))] = value

    def space(self) -> None:
        """Other spaces of the top, or of a crossbar."""
        spaces = self.chance.choice([["hart"], ["soc"], ["hart", "soc"], ["soc", "hart"], ["hart", "soc", "hart"]])
        crossbars = self.listed("xbar")
        if crossbars and self.chance.random() < 0.7:
            self.chance.choice(crossbars)["addr_space"] = self.chance.choice(["hart", "soc", "nowhere"])
        else:
            self.files.top["addr_spaces"] = [{"name": name} for name in spaces]

    def name_twice(self) -> None:
        """An instance or a crossbar has the name of another."""
        held = [item for item in self.listed("module") + self.listed("xbar") if isinstance(item.get("name"), str)]
        if len(held) > 1:
            one, other = self.chance.sample(held, 2)
            one["name"] = other["name"]

    def nest(self) -> None:
        """A crossbar as a device in another, or in itself, mostly with the host there that stands for it."""
        names = list(self.files.crossbars)
        if not names:
            return
        outer, inner = self.chance.choice(names), self.chance.choice(names)
        if self.chance.random() < 0.9:
            self.add_node(outer, {"name": inner, "type": "device", "xbar": True}, True)
        if self.chance.random() < 0.9:
            self.add_node(inner, {"name": outer, "type": "host", "xbar": True}, True)

    def circle(self) -> None:
        """Three crossbars or more, each as a device in the one before it, and the first in the last."""
        names = list(self.files.crossbars)
        if len(names) < 3:
            return
        ring = self.chance.sample(names, self.chance.randint(3, len(names)))
        for outer, inner in zip(ring, [*ring[1:], ring[0]]):
            self.add_node(outer, {"name": inner, "type": "device", "xbar": True}, True)
            self.add_node(inner, {"name": outer, "type": "host", "xbar": True}, True)

    def add_node(self, name: str, node: Object, joined: bool) -> None:
        """One node more in a crossbar, joined to one that is there; where it is there already, nothing changes."""
        crossbar = self.files.crossbars[name]
        nodes, connections = crossbar.get("nodes"), crossbar.get("connections")
        if not isinstance(nodes, list) or not isinstance(connections, dict) or any(
                isinstance(other, dict) and other.get("name") == node["name"] for other in nodes):
            return
        others = [other["name"] for other in nodes if isinstance(other, dict) and isinstance(other.get("name"), str)
                  and other.get("type") not in (None, node["type"])]
        nodes.insert(self.chance.randint(0, len(nodes)), node)
        if others and joined:
            host, device = (self.chance.choice(others), node["name"])[::1 if node["type"] == "device" else -1]
            held = connections.setdefault(host, [])
            if isinstance(held, list):
                held.append(device)

    def toggle(self) -> None:
        """A node stands for a crossbar, or no longer."""
        found = self.node()
        if found is not None:
            found[1]["xbar"] = not found[1].get("xbar", False)

    def connect(self) -> None:
        """A host connects to a device more."""
        name = self.chance.choice(list(self.files.crossbars)) if self.files.crossbars else None
        crossbar = self.files.crossbars.get(name) if name is not None else None
        nodes = [node for held, node in self.nodes() if held == name]
        hosts, devices = ([node["name"] for node in nodes if node.get("type") == kind] for kind in ["host", "device"])
        joined = crossbar.get("connections") if crossbar is not None else None
        if hosts and devices and isinstance(joined, dict):
            host, device = self.chance.choice(hosts), self.chance.choice(devices)
            listed = joined.setdefault(host, [])
            if isinstance(listed, list) and device not in listed:
                listed.insert(self.chance.randint(0, len(listed)), device)

    def lose(self) -> None:
        """A file is absent."""
        self.absent.add(self.chance.choice(list(self.files.all())[1:] or ["none"]))

    def own_name(self) -> None:
        """A file gives itself another name than the top does."""
        held = [*self.files.crossbars.values(), *self.files.blocks.values()]
        if held:
            self.chance.choice(held)["name"] = self.chance.choice(["other", "B0", "x0", "b0", "module"])

    def one_file(self) -> None:
        """A change of one file as such."""
        chance, files = self.chance, self.files
        match chance.choice(["top", "crossbar", "block"]):
            case "top":
                files.top = TopChanger(files.top, chance).changed(1)
            case "crossbar" if files.crossbars:
                name = chance.choice(list(files.crossbars))
                files.crossbars[name] = CrossbarChanger(files.crossbars[name], chance).changed(1)
            case "block" if files.blocks:
                name = chance.choice(list(files.blocks))
                files.blocks[name] = Changer(files.blocks[name], chance).changed(1)

    def changed(self, count: int) -> dict[str, Object]:
        """The descriptions by the names of their files after so many changes."""
        often = [self.rename_node, self.range, self.base, self.space, self.name_twice, self.nest, self.toggle, self.connect]
        for _ in range(count):
            self.chance.choice(often * 3 + [self.circle] * 4 + [self.lose, self.own_name, self.one_file, self.one_file])()
        return {name: description for name, description in self.files.all().items() if name not in self.absent}
