"""Makes tops by chance, and changes them so that rules are broken, or just not."""
import random

from model.changes import KeyChanger
from model.trees import Json, Object

KEYS = """
    name clocks srcs derived_srcs resets nodes addr_spaces module xbar pinout pads pinmux signals type clock_srcs
    reset_connections base_addr base_addrs addr_space instance port connection pad clock desc
""".split()
WORDS = ["hart", "soc", "muxed", "direct", "manual", "both", "clk_i", "true"]
PORTS = ["clk_i", "clk_io_i", "Clk", "clk", "a", "\u00e9", "z.9"]
SPACES = ["hart", "soc", "Soc", "a-b"]


def named(names: list[str]) -> list[Json]:
    """Objects of these names."""
    return [{"name": name} for name in names]


def some_of(names: list[str], chance: random.Random) -> list[str]:
    """Some of the names, in any order."""
    return chance.sample(names, chance.randint(0, len(names)))


def sources(key: str, chance: random.Random) -> Object:
    """Ports with their sources, as strings or in objects with this key."""
    return {port: chance.choice(["clk", {key: "clk", "group": 1}]) for port in some_of(PORTS, chance)}


def bases(chance: random.Random) -> Json:
    """A base address, or an object of them."""
    numbers = [0, "0x1000", "1_000", (1 << 32) - 1]
    return chance.choice([chance.choice(numbers), {space: chance.choice(numbers) for space in some_of(SPACES, chance)}])


def random_instance(name: str, chance: random.Random) -> Object:
    """An instance of this name, whose other keys are there by chance."""
    instance: Object = {"name": name, "type": chance.choice(["uart", "ram", "gpio"])}
    if chance.random() < 0.5:
        instance["clock_srcs"] = sources("clock", chance)
    if chance.random() < 0.5:
        instance["reset_connections"] = sources("name", chance)
    if chance.random() < 0.5:
        instance["base_addr"] = bases(chance)
    if chance.random() < 0.5:
        instance["base_addrs"] = {face: bases(chance) for face in some_of(["core", "io", "null", "A"], chance)}
    return instance


def random_crossbar_use(name: str, chance: random.Random) -> Object:
    """A crossbar that the top lists."""
    crossbar: Object = {"name": name}
    if chance.random() < 0.5:
        crossbar["addr_space"] = chance.choice(["hart", "soc"])
    if chance.random() < 0.5:
        crossbar["clock_srcs"] = sources("clock", chance)
    return crossbar


def random_signal(chance: random.Random) -> Object:
    """A signal; what it names need not be there."""
    signal: Object = {"instance": chance.choice(["u0", "", "a b"]), "connection": chance.choice(["muxed", "direct", "manual"])}
    if chance.random() < 0.5:
        signal["port"] = chance.choice(["tx", "tx[1]", ""])
    if chance.random() < 0.5:
        signal["pad"] = chance.choice(["p0", ""])
    return signal


def random_top(chance: random.Random) -> Object:
    """A top that breaks no rule on keys, kinds, names and lengths."""
    top: Object = {
        "name": "t", "clocks": {"srcs": named(some_of(["c0", "c1"], chance))}, "resets": {"nodes": named(some_of(["r0", "r1"], chance))},
        "module": [random_instance(f"u{number}", chance) for number in range(chance.choice([0, 1, 2, 3]))],
        "xbar": [random_crossbar_use(f"x{number}", chance) for number in range(chance.choice([0, 1, 2]))],
    }
    if chance.random() < 0.4:
        top["clocks"]["derived_srcs"] = named(["d0"])
    if chance.random() < 0.5:
        top["addr_spaces"] = named(chance.choice([["hart"], ["hart", "soc"], [f"s{number}" for number in range(8)]]))
    if chance.random() < 0.5:
        top["pinout"] = {"pads": named(some_of(["p0", "p1"], chance))}
    if chance.random() < 0.5:
        top["pinmux"] = {"signals": [random_signal(chance) for _ in range(chance.choice([0, 1, 3]))]}
    return top


class TopChanger(KeyChanger):
    """Changes one top; chance decides what."""

    keys, words = KEYS, WORDS

    def copy(self) -> None:
        """An element of a list once more, or so often that the list comes to a limit, or passes it."""
        held = self.some(list)
        if held:
            count = self.chance.choice([1, 1, 1, 7, 8, 15, 16, 64, 255, 256])
            held += [self.again(self.chance.choice(held), number) for number in range(count)]

    def again(self, item: Json, number: int) -> Json:
        """An element once more, now and then with a type of its own."""
        item = dict(item) if isinstance(item, dict) else item
        if isinstance(item, dict) and isinstance(item.get("type"), str) and number < 66:
            item["type"] = f"b{number}"
        return item

    def changed(self, count: int) -> Object:
        """The top after so many changes."""
        changes = [self.replace, self.remove, self.add, self.double, self.rename, self.copy]
        for _ in range(count):
            self.chance.choice(changes)()
        return self.whole
