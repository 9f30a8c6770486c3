"""Makes crossbars by chance, and changes them so that rules are broken, or just not."""
import random

from model.changes import KeyChanger
from model.trees import Object

KEYS = "name clock clock_primary nodes connections type xbar addr_range base_addr size_byte desc".split()
WORDS = ["host", "device", "a.b", "a.b.c", ".a", "b.", "h0", "d0", "true", "clk"]


def random_crossbar(chance: random.Random) -> Object:
    """A crossbar that breaks no rule."""
    hosts = [chance.choice([f"h{number}", f"h{number}.data"]) for number in range(chance.choice([0, 1, 1, 2, 3, 5]))]
    devices = [chance.choice([f"d{number}", f"d{number}.regs"]) for number in range(chance.choice([1, 2, 3, 6]))]
    joined = {host: chance.sample(devices, chance.randint(1, len(devices))) for host in hosts}
    heard = {device for listed in joined.values() for device in listed}
    nodes = [random_node(name, "host", chance) for name in hosts]
    nodes += [random_node(name, "device", chance) for name in devices if name in heard]
    chance.shuffle(nodes)
    clock = chance.choice(["clock", "clock", "clock_primary"])
    return {"name": "x", clock: "clk", "nodes": nodes, "connections": joined}


def random_node(name: str, kind: str, chance: random.Random) -> Object:
    """A node of this name and type, `host` or `device`, whose other keys are there by chance."""
    node: Object = {"name": name, "type": kind}
    if chance.random() < 0.5:
        node["clock"] = chance.choice(["clk", "aon", "io"])
    if chance.random() < 0.2:
        node["xbar"] = chance.random() < 0.5
    if chance.random() < 0.6:
        ranges = [(chance.getrandbits(32), chance.choice([0, 4, 1 << 12, 1 << 32])) for _ in range(chance.choice([0, 1, 2, 16]))]
        node["addr_range"] = [{"base_addr": base, "size_byte": size} for base, size in ranges]
    return node


class CrossbarChanger(KeyChanger):
    """Changes one crossbar; chance decides what."""

    keys, words = KEYS, WORDS

    def connections(self) -> Object:
        """The object of connections, or an empty one in its place."""
        joined = self.whole.get("connections")
        return joined if isinstance(joined, dict) else {}

    def node_name(self) -> str:
        """The name of a node, or one that no node has."""
        names = [holder["name"] for holder in self.named()]
        return self.chance.choice([*names, "q"])

    def connect(self) -> None:
        """A connection with some key, of which some elements may come twice."""
        self.connections()[self.node_name()] = [self.node_name() for _ in range(self.chance.choice([0, 1, 2, 3]))]

    def lengthen(self) -> None:
        """An element more in a connection."""
        lists = [listed for listed in self.connections().values() if isinstance(listed, list)]
        if lists:
            self.chance.choice(lists).append(self.node_name())

    def disconnect(self) -> None:
        """A connection less."""
        key = self.key_in(self.connections())
        if key is not None:
            del self.connections()[key]

    def copy_node(self) -> None:
        """A node once more, or very many of them."""
        nodes = self.whole.get("nodes")
        if isinstance(nodes, list) and nodes:
            node = self.chance.choice(nodes)
            nodes += [dict(node) if isinstance(node, dict) else node for _ in range(self.chance.choice([1, 1, 1, 70]))]

    def other_type(self) -> None:
        """The type of a node, chosen again."""
        node = self.some(dict, "type")
        if node is not None:
            node["type"] = self.chance.choice(["host", "device"])

    def changed(self, count: int) -> Object:
        """The crossbar after so many changes."""
        changes = [self.replace, self.remove, self.add, self.double, self.rename, self.connect, self.lengthen, self.disconnect,
                   self.copy_node, self.other_type]
        for _ in range(count):
            self.chance.choice(changes)()
        return self.whole
