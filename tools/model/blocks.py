"""Makes descriptions of blocks: by chance, with all kinds of registers, copies, windows and gates; and at limits."""
import itertools
import random

from model.layout import READABLE, Interface, Register, Row, interfaces, span
from model.trees import Json, Object

SOFTWARE = ["ro", "rc", "rw", "rw1s", "rw1c", "rw0c", "r0w1c", "wo", "none"]
HARDWARE = ["hro", "hrw", "hwo", "none"]
WORDS = ["CTRL", "Status", "cfg", "INTR_MASK", "x", "_v", "DATA_0", "Timer_Value", "ALERT", "win",
         "name_of_almost_as_many_characters"]
END = 1 << 24
CLOCKING: list[Json] = [{"clock": "clk_i", "reset": "rst_ni"}]
DEVICE: Object = {"protocol": "tlul", "direction": "device"}
HOST: Object = {"protocol": "tlul", "direction": "host"}


def random_block(name: str, chance: random.Random) -> Object:
    """A description of this name, made by chance."""
    return Maker(chance).block(name)


def regular_block(name: str, registers: int) -> Object:
    """A description with so many registers, each of two fields."""
    fields = [{"bits": "15:0", "name": "LOW", "resval": 1}, {"bits": "31:16", "name": "HIGH"}]
    kinds = {"swaccess": "rw", "hwaccess": "hrw"}
    entries = [{"name": f"R{number}", **kinds, "fields": fields} for number in range(registers)]
    return {"name": name, "clocking": CLOCKING, "bus_interfaces": [DEVICE], "registers": entries}


def whole_window(name: str) -> Object:
    """A description whose only window fills the largest interface."""
    entries = [{"window": {"name": "ALL", "items": END // 4}}]
    return {"name": name, "clocking": CLOCKING, "bus_interfaces": [DEVICE], "registers": entries}


def device_names(head: Object) -> list[str | None]:
    """The names of the device interfaces; None for one without a name."""
    return [face.get("name") for face in head["bus_interfaces"] if face["direction"] == "device"]


class Maker:
    """Makes one block. Every name has a number of its own, so that no two generated names are the same."""

    def __init__(self, chance: random.Random) -> None:
        """A maker of one block, by this chance."""
        self.chance = chance
        self.numbers = itertools.count()
        self.parameters: list[Json] = []

    def maybe(self, likely: float, **members: Json) -> Object:
        """The members, as likely as said; else none."""
        return members if self.chance.random() < likely else {}

    def fresh(self) -> str:
        """A new name."""
        return f"{self.chance.choice(WORDS)}{self.chance.choice(['', '_'])}n{next(self.numbers)}"

    def cased(self, name: str) -> str:
        """The name, or another spelling of it: names of registers are compared without regard to case."""
        return self.chance.choice([name, name.upper(), name.lower()])

    def amount(self, value: int) -> int | str:
        """A number, or the name of a parameter that has it; a later parameter of that name does not count."""
        if self.chance.random() < 0.7:
            return value
        name = self.fresh()
        self.parameters.append({"name": name, "default": value})
        self.parameters += [{"name": name, "default": value + 1}] if self.chance.random() < 0.3 else []
        return name

    def bits(self, high: int, low: int) -> int | str:
        """A field's bits, spelled in one of their ways."""
        if high > low:
            return f"{high}:{low}"
        return self.chance.choice([high, str(high), f"{high}:{high}"])

    def field(self, high: int, low: int) -> Object:
        """A field with kinds of its own or its register's."""
        chance, width = self.chance, high - low + 1
        made = {"bits": self.bits(high, low), **self.maybe(0.8, name=self.fresh())}
        if width == 4 and chance.random() < 0.5:
            made |= {"mubi": True, "swaccess": chance.choice(["rw", "ro", "wo"])}
        else:
            made |= self.maybe(0.6, swaccess=chance.choice(SOFTWARE))
        made |= self.maybe(0.5, hwaccess=chance.choice(HARDWARE))
        values = [True, False, "x", chance.getrandbits(width), (1 << width) - 1]
        return made | self.maybe(0.6, resval=chance.choice(values))

    def fields(self, most: int) -> list[Object]:
        """At least one and at most so many fields, in any order."""
        low, made = self.chance.choice([0, 0, 1, 7, 8, 20]), []
        while low < 32 and len(made) < most:
            high = min(31, low + self.chance.choice([0, 0, 0, 2, 3, 3, 7, 15, 31]))
            made.append(self.field(high, low))
            low = high + self.chance.choice([1, 1, 1, 2, 9])
        return self.chance.sample(made, len(made))

    def register_keys(self, fields: list[Object]) -> Object:
        """The keys that a register and a multireg share."""
        chance = self.chance
        return {
            "name": self.fresh(), "fields": fields,
            **self.maybe(0.8, swaccess=chance.choice(SOFTWARE)), **self.maybe(0.7, hwaccess=chance.choice(HARDWARE)),
            **self.maybe(0.3, hwext=chance.random() < 0.8), **self.maybe(0.3, hwqe=True), **self.maybe(0.3, hwre=True),
            **self.maybe(0.3, resval=self.register_reset(fields)),
            **self.maybe(0.2, desc="a register: [one, two] \u00e9")}

    def shadowed_keys(self, fields: list[Object]) -> Object:
        """The keys of a shadowed register or multireg: software writes its fields plainly, and hardware at most sees them."""
        seen = [field | {"swaccess": "rw", "hwaccess": self.chance.choice(["hro", "hro", "none"])} for field in fields]
        return self.register_keys(seen) | {"hwext": False, "shadowed": True}

    def keys(self, fields: list[Object]) -> Object:
        """The keys that a register and a multireg share, now and then those of a shadowed one."""
        return self.shadowed_keys(fields) if self.chance.random() < 0.3 else self.register_keys(fields)

    def register_reset(self, fields: list[Object]) -> int | bool:
        """A register's reset value, with no bit outside its fields."""
        mask = 0
        for field in fields:
            high, low = span(field["bits"])
            mask |= (2 << high) - (1 << low)
        return self.chance.choice([self.chance.getrandbits(32) & mask, mask, bool(mask & 1)])

    def lock(self, **keys: Json) -> Object:
        """A register that may be a gate: one stored, readable field of one bit."""
        bit = self.chance.choice([0, 0, 5, 31])
        fields = [{"bits": self.bits(bit, bit), **self.maybe(0.8, resval=1)}]
        return {"name": self.fresh(), "swaccess": self.chance.choice(sorted(READABLE)),
                "hwaccess": self.chance.choice(HARDWARE), "fields": fields,
                **self.maybe(0.2, shadowed=True, swaccess="rw", hwaccess="hro"), **keys}

    def gated(self, written: Object) -> tuple[Object, Object]:
        """A gate, and the register or multireg with it."""
        lock = self.lock()
        return lock, written | {"regwen": self.cased(lock["name"])}

    def register(self) -> list[Object]:
        """A register, with a gate or without one, and the entry of its gate; a register may be its own gate."""
        written = self.keys(self.fields(self.chance.choice([1, 1, 2, 4, 12])))
        kind = self.chance.random()
        if kind < 0.2:
            return list(self.gated(written))
        if kind < 0.25:
            own = self.lock()
            return [own | {"regwen": self.cased(own["name"])}]
        return [written]

    def gated_by_one_of(self, rows: list[Row]) -> list[Object]:
        """A register that one of the laid rows gates, where one of them may."""
        gates = [row.name for row in rows if isinstance(row, Register) and row.may_gate]
        if not gates:
            return []
        return [self.keys(self.fields(2)) | {"regwen": self.cased(self.chance.choice(gates))}]

    def multireg(self) -> list[Object]:
        """A multireg, with one gate, with a gate for each copy, or with none; and the entries of its gates."""
        chance = self.chance
        count = chance.choice([1, 2, 3, 5, 9, 33, 40])
        fields = self.fields(chance.choice([1, 1, 1, 2, 4]))
        kind = chance.choice(["no gate", "no gate", "one gate", "several gates"])
        written = self.keys(fields) | {"count": self.amount(count), "cname": "C"}
        written |= self.maybe(0.3, compact=len(fields) == 1 and kind != "several gates" and chance.random() < 0.5)
        if kind == "no gate":
            return [{"multireg": written | ({} if "compact" in written else self.maybe(0.2, regwen_multi=True))}]
        if kind == "one gate":
            lock, gated = self.gated(written)
            return [lock, {"multireg": gated}]
        locks = self.lock(count=count + (chance.choice([0, 2]) if count > 1 else 0), compact=False, cname="C")
        written |= {"regwen": self.cased(locks["name"]), "regwen_multi": True}
        return [{"multireg": locks}, {"multireg": written}]

    def window(self) -> list[Object]:
        """A window, small or now and then large."""
        items = self.chance.choice([1, 2, 3, 5, 16, 21, 300, self.chance.randint(1, 1 << 18)])
        return [{"window": {
            "name": self.fresh(), "items": self.amount(items),
            **self.maybe(0.7, swaccess=self.chance.choice(["rw", "ro", "wo"])),
            **self.maybe(0.5, **{"byte-write": self.chance.random() < 0.7})}}]

    def skip(self, offset: int) -> list[Object]:
        """A skip or a reservation from this offset on."""
        if self.chance.random() < 0.5:
            return [{"reserved": self.chance.choice([0, 1, 3, 100])}]
        return [{"skipto": offset + 4 * self.chance.choice([0, 1, 7, 64])}]

    def part(self, face: Interface) -> list[Object]:
        """The next entries of an interface of which these rows are laid."""
        kind = self.chance.choice(["register", "register", "register", "gated", "multireg", "window", "skip"])
        match kind:
            case "register":
                made = self.register()
            case "gated":
                made = self.gated_by_one_of(face.rows)
            case "multireg":
                made = self.multireg()
            case "window":
                made = self.window()
            case _:
                made = self.skip(face.end)
        return self.chance.sample(made, len(made))

    def entries(self, head: Object, name: str | None) -> list[Object]:
        """The entries of the device interface with this name, as many as are within the limits."""
        def laid(entries: list[Object]) -> Interface:
            """The interface with these entries, laid out."""
            lists = {other: entries if other == name else [] for other in device_names(head)}
            partly = head | {"registers": entries if name is None else lists, "param_list": self.parameters}
            return next(face for face in interfaces(partly) if face.name == name)
        kept = self.register()
        for _ in range(self.chance.choice([0, 2, 4, 8])):
            longer = kept + self.part(laid(kept))
            kept = longer if laid(longer).end <= END else kept
        return kept

    def interrupts(self) -> list[Object]:
        """Interrupts of at most 32 bits together."""
        widths = self.chance.choice([[], [1], [1], [1, 1], [2, 5, 1], [32], [16, 15, 1]])
        return [{"name": self.fresh(), **({"width": width} if width > 1 else {}),
                 **self.maybe(0.5, type=self.chance.choice(["event", "status"]))} for width in widths]

    def buses(self) -> list[Object]:
        """The bus interfaces: one or several devices, and a host among them."""
        chance = self.chance
        names = [None] if chance.random() < 0.6 else [self.fresh() for _ in range(chance.choice([1, 2, 3]))]
        faces = [DEVICE | ({} if name is None else {"name": name}) for name in names]
        faces += [HOST] if chance.random() < 0.3 else []
        return chance.sample(faces, len(faces))

    def head(self, name: str) -> Object:
        """A block's keys but its registers and parameters."""
        chance = self.chance
        return {
            "name": name, "clocking": CLOCKING + chance.choice([[], [{"clock": "clk_aon_i"}]]),
            "bus_interfaces": self.buses(),
            **self.maybe(0.6, interrupt_list=self.interrupts()),
            **self.maybe(0.4, alert_list=[{"name": self.fresh()} for _ in range(chance.choice([0, 1, 3]))]),
            **self.maybe(0.2, no_auto_intr_regs=chance.random() < 0.5),
            **self.maybe(0.2, no_auto_alert_regs=chance.random() < 0.5),
            **self.maybe(0.2, available_input_list=[{"name": "rx"}, {"name": "data", "width": 64}]),
            **self.maybe(0.2, regwidth=32),
            **self.maybe(0.2, tags={"registers": [], "nested": [[1, {"fields": "none"}], 7]})}

    def block(self, name: str) -> Object:
        """The description of a block of this name."""
        head = self.head(name)
        filled = {device: self.entries(head, device) for device in device_names(head)}
        registers = filled[None] if None in filled else filled
        return head | {"registers": registers} | ({"param_list": self.parameters} if self.parameters else {})
