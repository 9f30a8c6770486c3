"""Changes descriptions by chance, so that rules are broken, or just not; and makes documents with odd spellings."""
import copy
import random
from collections.abc import Iterator
from typing import TypeVar

from model.layout import READABLE
from model.spelling import Doubled, Spelled
from model.trees import Json, Object

Holder = Object | list[Json]
# objects or lists
Kind = TypeVar("Kind")
NAMES = ["", "a b", "0a", "wire", "Module", "endmodule", "_", "CTRL", "REG", "x", "a-b", "\u00e9",
         *["n" * length for length in [40, 41, 45, 80, 81]]]
NUMBERS = [0, 1, 2, 3, 4, 5, 7, 8, 31, 32, 33, 63, 64, 65, 255, 2048, 4095, 4096, 4097,
           *[(1 << bits) + more for bits in [22, 24, 32] for more in [-4, -1, 0, 1, 4]], (1 << 64) - 1]
ODD = [
    "null", "true", "false", "-1", "-0", "1.5", "1e3", "18446744073709551616", '"1_000"', '"1__0"', '"_1"', '"0x_1"',
    '"0b102"', '"340282366920938463463374607431768211455"', '"340282366920938463463374607431768211456"', "''", "' 1'",
    "'True'", "''' x '''", "[]", "{}", "[1]", "[{}]", "[[]]", "{a: 1}", "'x'", "'7:4'", "'4:7'", "'07:04'", "'32:0'",
    "'31:0'", "'1 : 0'", "'+1:0'", "'3:3'", "'0x3:0'",
]
KEYS = """
    name bits swaccess hwaccess resval mubi fields regwen regwen_multi compact count cname items byte-write hwext hwqe
    hwre shadowed async sync alias_target sameaddr skipto reserved multireg window width type default protocol direction
    clock reset regwidth registers interrupt_list alert_list param_list no_auto_intr_regs no_auto_alert_regs clocking
    bus_interfaces available_input_list available_output_list available_inout_list desc
""".split()
WORDS = """
    ro rc rw r0w1c rw1s rw1c rw0c wo none hro hrw hwo event status device host tlul axi x true false RW
""".split()
PIECES = [
    "{", "}", "[", "]", ",", ":", "'", '"', "'''", "#", "//", "/*", "*/", "/", "\\", "\\n", "\\t", "\\b", "\\f", "\\r",
    "\\/", "\\u00e9", "\\ud83d\\ude00", "\\u0001", "\n", "\r\n", "\t", " ", "  ", "a", "b", "-", "0", "1", "17", "1.5",
    "2e3", "E", "true", "false", "null", "\u00e9", "\U0001f600", "\x7f",
]
SMALL_PIECES = [
    "", "{", "}", "[", "]", ",", ":", "'", '"', "'''", "#", "//", "/*", "*/", "/", "\\", "\r", "\n", "\r\n", "\t",
    "\x01", "\u00e9", "[" * 64, "{a:" * 64, "true", "1 ", "\\ud83d", "\\udc00", "\\u0000", "\x7f", "\u2028",
]
CLASHES = [
    ("A_B", "C", "A", "B_C"), ("hit", "0", "x", "y"), ("CTRL", "REG", "d", "e"), ("A", "B", "a_b", "s"),
    ("win_x", "we", "q", "r"), ("PARAM", "REG_WIDTH", "q", "r"), ("u", "a_b", "a", "b"),
]


def holders(value: Json) -> Iterator[Holder]:
    """All objects and lists below a value, itself among them."""
    if isinstance(value, (dict, list)):
        yield value
        for part in list(value.values()) if isinstance(value, dict) else value:
            yield from holders(part)


class Changer:
    """Changes one description; chance decides what."""

    def __init__(self, description: Object, chance: random.Random) -> None:
        """A changer of a copy of the description; the description itself stays."""
        self.whole, self.chance = copy.deepcopy(description), chance

    def value(self) -> Json:
        """A value of any kind."""
        chance = self.chance
        odd = Spelled(chance.choice(ODD))
        return chance.choice([chance.choice(NUMBERS), chance.choice(NAMES), chance.choice(WORDS), odd, True, False])

    def some(self, kind: type[Kind] | tuple[type[Kind], ...], *keys: str) -> Kind | None:
        """One of the objects or lists that have these keys, if there is one."""
        kinds = [holder for holder in holders(self.whole) if isinstance(holder, kind)]
        found = [holder for holder in kinds if all(key in holder for key in keys)]
        return self.chance.choice(found) if found else None

    def named(self) -> list[Object]:
        """All objects with a name."""
        objects = [holder for holder in holders(self.whole) if isinstance(holder, dict)]
        return [holder for holder in objects if isinstance(holder.get("name"), str)]

    def key_in(self, holder: Object | None) -> str | None:
        """One of the object's keys, if there is one."""
        return self.chance.choice(list(holder)) if holder else None

    def replace(self) -> None:
        """Another value at a key or in a list."""
        holder = self.some((dict, list))
        if isinstance(holder, dict):
            key = self.key_in(holder)
            if key is not None:
                holder[key] = self.value()
        elif holder:
            holder[self.chance.randrange(len(holder))] = self.value()

    def replace_at(self) -> None:
        """Another value at a known key."""
        key = self.chance.choice(KEYS)
        holder = self.some(dict, key)
        if holder is not None:
            holder[key] = self.value()

    def remove(self) -> None:
        """A member or element less."""
        holder = self.some((dict, list))
        if isinstance(holder, dict) and holder:
            del holder[self.key_in(holder)]
        elif holder:
            del holder[self.chance.randrange(len(holder))]

    def add(self) -> None:
        """A known key with some value."""
        self.some(dict)[self.chance.choice(KEYS)] = self.value()

    def double(self) -> None:
        """A member once more, with the same value or another one."""
        holder = self.some(dict)
        key = self.key_in(holder)
        if key is not None:
            again = [(key, self.chance.choice([holder[key], self.value()]))]
            self.place(holder, Doubled(holder, again))

    def place(self, old: Object, new: Object) -> None:
        """Puts a new value in the place of an object."""
        if old is self.whole:
            self.whole = new
        for holder in holders(self.whole):
            if isinstance(holder, list):
                holder[:] = [new if part is old else part for part in holder]
            else:
                for key, part in list(dict.items(holder)):
                    if part is old:
                        holder[key] = new

    def rename(self) -> None:
        """A name becomes that of another part, spelled so or otherwise."""
        named = self.named()
        if len(named) >= 2:
            one, other = self.chance.sample(named, 2)
            one["name"] = self.chance.choice([str, str.upper, str.lower, str.swapcase])(other["name"])

    def repeat(self) -> None:
        """An element of a list stands in it again."""
        holder = self.some(list)
        if holder:
            holder.insert(self.chance.randrange(len(holder) + 1), copy.deepcopy(self.chance.choice(holder)))

    def many(self) -> None:
        """A list becomes longer than it may be, or just as long."""
        key, most = self.chance.choice([("alert_list", 32), ("interrupt_list", 32), ("clocking", 64),
                                        ("available_input_list", 64), ("bus_interfaces", 8)])
        named = "clock" if key == "clocking" else "name"
        made = [{named: f"many{count}"} for count in range(most + self.chance.choice([0, 1]))]
        face = {"protocol": "tlul", "direction": "device"} if key == "bus_interfaces" else {}
        self.whole[key] = [item | face for item in made]

    def bits(self) -> None:
        """Other bits of a field, which may overlap with another's, or lie above 31."""
        field = self.some(dict, "bits")
        if field is not None:
            low = self.chance.randrange(33)
            high = low + self.chance.choice([0, 0, 1, 3, 3, 8])
            field["bits"] = self.chance.choice([f"{high}:{low}", low, f"{low}:{high}"])

    def reset(self) -> None:
        """A reset value at the edge of a field or a register."""
        holder = self.some(dict, self.chance.choice(["bits", "fields"]))
        if holder is not None:
            edge = (1 << self.chance.randrange(33)) - self.chance.choice([0, 1])
            holder["resval"] = self.chance.choice([edge, edge, "x", True])

    def gate(self) -> None:
        """A gate that names some register, or nothing."""
        chance, names = self.chance, [holder["name"] for holder in self.named()]
        holder = self.some(dict, "fields")
        if holder is not None and names:
            name = chance.choice(names)
            spelled = [name, name.lower(), f"{name}_0", f"{name}_1"]
            holder["regwen"] = chance.choice([*spelled, "INTR_ENABLE", "ALERT_TEST", "nothing"])
            holder |= chance.choice([{}, {}, {"regwen_multi": True}])

    def lock(self) -> None:
        """A register that may be a gate, or nearly, somewhere among the entries."""
        chance = self.chance
        field = {"bits": chance.choice([0, "3:0", "1:0"]), "swaccess": chance.choice([*sorted(READABLE), "wo", "none"])}
        field |= chance.choice([{}, {}, {"mubi": True}])
        entry = {"name": "nothing", "fields": [field, *chance.choice([[], [{"bits": 9}]])]}
        entry |= chance.choice([{}, {"hwext": True}])
        self.entry(chance.choice([entry, entry, {"multireg": entry | {"count": 2}}]))

    def shadow(self) -> None:
        """A register that is shadowed, and whose kinds mostly let it be."""
        chance = self.chance
        holder = self.some(dict, "fields")
        if holder is None:
            return
        holder["shadowed"] = chance.choice([True, True, True, "true", False, 1])
        fields = holder["fields"] if isinstance(holder["fields"], list) else []
        for part in [holder, *[field for field in fields if isinstance(field, dict)]]:
            part |= {"swaccess": "rw", "hwaccess": chance.choice(["hro", "none"])}
        part = chance.choice([holder, *[field for field in fields if isinstance(field, dict)]])
        odd = [{"swaccess": chance.choice(WORDS)}, {"hwaccess": chance.choice(WORDS)}, {"hwaccess": "hrw"}]
        part |= chance.choice([{}, *odd])
        if chance.random() < 0.5:
            del part[chance.choice(["swaccess", "hwaccess"])]
        holder |= chance.choice([{}, {}, {"hwext": chance.choice([True, False, "true", "x"])}])
        holder |= chance.choice([{}, {}, {}, {"fields": chance.choice([[], {}, [*fields, 1]])}])

    def skip(self) -> None:
        """A skip, a reservation, a large window or many copies somewhere among the entries."""
        count = self.chance.choice(NUMBERS)
        copies = {"name": f"m{count}", "count": count, "cname": "c", "fields": [{"bits": 0}]}
        self.entry(self.chance.choice([{"skipto": count}, {"reserved": count}, {"multireg": copies},
                                       {"window": {"name": f"big{count}", "items": count}}]))

    def entry(self, made: Object) -> None:
        """An entry more in one of the lists of entries."""
        registers = self.whole.get("registers")
        lists = list(registers.values()) if isinstance(registers, dict) else [registers]
        lists = [entries for entries in lists if isinstance(entries, list)]
        if lists:
            entries = self.chance.choice(lists)
            entries.insert(self.chance.randrange(len(entries) + 1), made)

    def faces(self) -> None:
        """Other interfaces: of one name, without a name, of another direction, or with lists that fit or do not."""
        chance = self.chance
        made = [{"protocol": "tlul", "direction": chance.choice(["device", "device", "host"])}
                for _ in range(chance.randrange(4))]
        for face in made:
            face |= chance.choice([{}, {"name": chance.choice(["one", "two", "One"])}])
        self.whole["bus_interfaces"] = made
        entries = chance.choice([[], [{"name": "R", "fields": [{"bits": 0}]}]])
        names = chance.sample(["one", "two", "One", "three"], chance.randrange(4))
        self.whole["registers"] = chance.choice([entries, {name: chance.choice([entries, []]) for name in names}])

    def clash(self) -> None:
        """Names that may come twice in what is generated."""
        chance, names = self.chance, self.chance.choice(CLASHES)
        for register, field in [names[:2], names[2:]]:
            fields = [{"name": field, "bits": chance.choice([0, "2:0"])}]
            self.entry({"name": register, "fields": fields, "swaccess": chance.choice(["rw", "ro"]),
                        "hwaccess": chance.choice(["hrw", "hro"]), "hwqe": chance.choice([True, False])})

    def changed(self, times: int) -> Object:
        """The description after so many changes."""
        often = [self.replace, self.rename, self.bits, self.reset, self.gate, self.skip, self.add, self.shadow]
        ways = often + often + [self.replace_at] * 3 + [
            self.remove, self.double, self.repeat, self.many, self.lock, self.faces, self.clash]
        for _ in range(times):
            self.chance.choice(ways)()
        return self.whole


def odd_value(chance: random.Random) -> str:
    """The text of a value that is spelled in an odd way, or of none."""
    made = "".join(chance.choice(PIECES) for _ in range(chance.choice([1, 2, 3, 5, 8])))
    around = ["{}", "{}", "'{}'", '"{}"', "'''{}'''", "[{}]", "{{a: {}}}", "{}\n", " {} # c\n"]
    return chance.choice(around).format(made)


def odd_document(chance: random.Random) -> str:
    """A small block with a key of no meaning, whose value is spelled in an odd way."""
    head = "{ name: 'd', clocking: [{clock: 'c'}], bus_interfaces: [], registers: []"
    key = chance.choice(["odd", "'odd'", '"o\\u0064d"', "o/dd", "odd#"]) + chance.choice([":", " :", ": ", "/**/:"])
    end = chance.choice(["}", "\n}", ",}", " }\n", "\n// x\n}"])
    return head + chance.choice(["\n", "\r\n", "\n    "]) + key + odd_value(chance) + end


def changed_text(text: str, chance: random.Random) -> str:
    """The text after a change of a few characters, or as it is."""
    if chance.random() < 0.85:
        return text
    start = chance.randrange(len(text) + 1)
    end = min(len(text), start + chance.choice([0, 0, 1, 3]))
    return text[:start] + chance.choice(SMALL_PIECES) + text[end:]
