"""From a description to the registers and windows of each of its device interfaces, after docs/FORMATS.md.

A description is the tree that its Hjson text stands for, as Python data: dicts, lists, strings, integers and booleans.
"""
from __future__ import annotations

import dataclasses

from model.trees import Object

# the defaults of the parameters by their names
Parameters = dict[str, int | None]
READABLE = {"ro", "rc", "rw", "rw1s", "rw1c", "rw0c"}
WRITABLE = {"rw", "r0w1c", "rw1s", "rw1c", "rw0c", "wo"}


@dataclasses.dataclass(eq=False)
class Field:
    """A field of a register; `net` is how the names of its nets begin."""
    name: str
    high: int
    low: int
    software: str
    hardware: str
    reset: int
    external: bool
    net: str = ""

    @property
    def width(self) -> int:
        """Its number of bits."""
        return self.high - self.low + 1

    @property
    def ones(self) -> int:
        """The largest value that it has room for: all its bits are ones."""
        return (1 << self.width) - 1

    @property
    def readable(self) -> bool:
        """Whether software reads its value; else a read shows zeros."""
        return self.software in READABLE

    @property
    def writable(self) -> bool:
        """Whether writes of software may change it."""
        return self.software in WRITABLE

    @property
    def seen(self) -> bool:
        """Whether hardware sees a stored field."""
        return self.hardware in {"hro", "hrw"}

    @property
    def driven(self) -> bool:
        """Whether hardware writes a stored field."""
        return self.hardware in {"hwo", "hrw"}

    def copy(self, number: int, shift: int) -> Field:
        """The copy of this number, shifted by so many bits."""
        return dataclasses.replace(self, name=f"{self.name}_{number}", high=self.high + shift, low=self.low + shift)


@dataclasses.dataclass(eq=False)
class Register:
    """A register of an interface; `gate` is the field that lets writes have an effect, if any."""
    name: str
    fields: list[Field]
    write_strobe: bool = False
    read_strobe: bool = False
    shadowed: bool = False
    gate_name: str | None = None
    gate: Field | None = None
    offset: int = 0
    words: int = 1
    size: int = 4

    @property
    def may_gate(self) -> bool:
        """Whether it is one stored, readable field of one bit."""
        field = self.fields[0]
        return len(self.fields) == 1 and field.width == 1 and field.readable and not field.external

    @property
    def bytes_needed(self) -> int:
        """How many bytes, from the lowest on, a write must strobe."""
        return max(field.high for field in self.fields) // 8 + 1


@dataclasses.dataclass(eq=False)
class Window:
    """A window of an interface."""
    name: str
    words: int
    byte_write: bool
    software: str
    offset: int = 0

    @property
    def size(self) -> int:
        """The bytes that it takes, the least power of two that its words fit in; its offset is a multiple of it."""
        return 4 << (self.words - 1).bit_length()


@dataclasses.dataclass(eq=False)
class Interface:
    """A device interface: its name, if any, its rows in the order of their offsets, and where the next may begin."""
    name: str | None
    rows: list[Row]
    end: int


Row = Register | Window
# a row, or `skipto` or `reserved` with its number
Item = Row | tuple[str, int]


def interfaces(description: Object) -> list[Interface]:
    """The device interfaces of a description, laid out."""
    names = [face.get("name") for face in description["bus_interfaces"] if face["direction"] == "device"]
    parameters: Parameters = {}
    for parameter in description.get("param_list", []):
        parameters.setdefault(parameter["name"], parameter.get("default"))
    laid = []
    for number, name in enumerate(names):
        written = description["registers"] if name is None else description["registers"][name]
        items = automatic_registers(description) if number == 0 else []
        for entry in written:
            items += entry_items(entry, parameters)
        laid.append(laid_out(name, items))
    return laid


def automatic_registers(description: Object) -> list[Register]:
    """The registers of the interrupts and alerts, which stand in front of the first interface's entries."""
    registers = []
    interrupts = description.get("interrupt_list", [])
    if interrupts and not description.get("no_auto_intr_regs", False):
        registers = [Register("INTR_STATE", interrupt_fields(interrupts, None, "hrw", False)),
                     Register("INTR_ENABLE", interrupt_fields(interrupts, "rw", "hro", False)),
                     Register("INTR_TEST", interrupt_fields(interrupts, "wo", "hro", True))]
    alerts = description.get("alert_list", [])
    if alerts and not description.get("no_auto_alert_regs", False):
        fields = [Field(alert["name"], bit, bit, "wo", "hro", 0, True) for bit, alert in enumerate(alerts)]
        registers.append(Register("ALERT_TEST", fields))
    return registers


def interrupt_fields(interrupts: list[Object], software: str | None, hardware: str, external: bool) -> list[Field]:
    """A field for each interrupt; without a kind of access it has that of its state, by the interrupt's type."""
    fields, low = [], 0
    for interrupt in interrupts:
        state = "ro" if interrupt.get("type") == "status" else "rw1c"
        high = low + interrupt.get("width", 1) - 1
        fields.append(Field(interrupt["name"], high, low, software or state, hardware, 0, external))
        low = high + 1
    return fields


def entry_items(entry: Object, parameters: Parameters) -> list[Item]:
    """The registers, windows and skips that an entry stands for."""
    if "multireg" in entry:
        return copies(entry["multireg"], parameters)
    if "window" in entry:
        window = entry["window"]
        items = number(window["items"], parameters)
        return [Window(window["name"], items, window.get("byte-write", False), window.get("swaccess", "rw"))]
    if "skipto" in entry:
        return [("skipto", entry["skipto"])]
    if "reserved" in entry:
        return [("reserved", entry["reserved"])]
    return [register(entry, entry["name"], fields_of(entry), entry.get("regwen"))]


def number(value: int | str, parameters: Parameters) -> int:
    """A number, or the number of the first parameter of that name."""
    return parameters[value] if isinstance(value, str) else value


def register(written: Object, name: str, fields: list[Field], gate_name: str | None) -> Register:
    """A register with the strobes that its entry asks for; the words of a shadowed multireg are shadowed."""
    return Register(name, fields, written.get("hwqe", False), written.get("hwre", False),
                    written.get("shadowed", False), gate_name)


def span(bits: int | str) -> tuple[int, int]:
    """The highest and the lowest bit of a field's `bits`."""
    if isinstance(bits, int):
        return bits, bits
    ends = [int(end) for end in bits.split(":")]
    return ends[0], ends[-1]


def fields_of(written: Object) -> list[Field]:
    """The fields of a register or multireg, in the order of their bits."""
    fields = []
    for place, field in enumerate(written["fields"], 1):
        high, low = span(field["bits"])
        default = written["name"] if len(written["fields"]) == 1 else f"field{place}"
        fields.append(Field(
            field.get("name", default), high, low,
            field.get("swaccess", written.get("swaccess", "none")),
            field.get("hwaccess", written.get("hwaccess", "hro")),
            reset_value(field, (int(written.get("resval", 0)) >> low) & ((2 << (high - low)) - 1)),
            written.get("hwext", False)))
    return sorted(fields, key=lambda field: field.low)


def reset_value(field: Object, default: int) -> int:
    """A field's reset value; a boolean of a multi-bit boolean is 6 or 9."""
    value = field.get("resval", default)
    if value == "x":
        return 0
    if isinstance(value, bool) and field.get("mubi", False):
        return 6 if value else 9
    return int(value)


def copies(multireg: Object, parameters: Parameters) -> list[Register]:
    """The registers of a multireg: several copies in a word where they are compacted, else one."""
    count = number(multireg["count"], parameters)
    fields = fields_of(multireg)
    several_gates = multireg.get("regwen_multi", False)
    compact = multireg.get("compact", len(fields) == 1 and not several_gates)
    step = fields[0].high + 1 if compact else 32
    in_a_word = 32 // step
    word_count = -(-count // in_a_word)
    words = []
    for word in range(word_count):
        first = word * in_a_word
        places = range(min(in_a_word, count - first))
        shifted = [field.copy(first + place, step * place) for place in places for field in fields]
        suffix = f"_{word}" if word_count > 1 else ""
        gate_name = multireg.get("regwen")
        if gate_name is not None and several_gates and count > 1:
            gate_name = f"{gate_name}_{word}"
        words.append(register(multireg, multireg["name"] + suffix, shifted, gate_name))
    return words


def laid_out(name: str | None, items: list[Item]) -> Interface:
    """The interface with each item at the least offset that its alignment allows."""
    rows, following = [], 0
    for item in items:
        if isinstance(item, tuple):
            following = item[1] if item[0] == "skipto" else following + 4 * item[1]
            continue
        item.offset = -(-following // item.size) * item.size
        following = item.offset + item.size
        rows.append(item)
    registers = {row.name.lower(): row for row in rows if isinstance(row, Register)}
    for row in registers.values():
        for field in row.fields:
            field.net = f"{row.name}_{field.name}".lower()
        if row.gate_name is not None:
            row.gate = registers[row.gate_name.lower()].fields[0]
    return Interface(name, rows, following)
