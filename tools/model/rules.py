"""The first fault of a block's description, after docs/FORMATS.md, from its text on."""
import dataclasses

from model.document import Value, read
from model.forms import Broken, boolean, listed, number, text
from model.keys import KNOWN_BY, block_keys, entry_lists, faces, span
from model.layout import READABLE, WRITABLE

PHRASES = {
    10: "file absent", 11: "too large", 12: "not UTF-8", 15: "not a document", 16: "too deep", 20: "duplicate key",
    21: "missing key", 22: "wrong kind", 24: "not a number", 25: "bad name", 26: "outside the profile", 30: "bad bits",
    31: "fields overlap", 32: "reset value too wide", 33: "no fields or items", 34: "name twice", 35: "unknown regwen",
    36: "bad regwen", 37: "bad count", 38: "too many", 39: "skip back", 40: "bad window", 41: "past the end",
    42: "too many interrupt bits", 70: "generated names clash",
}
LIMIT, END = 1 << 20, 1 << 24


@dataclasses.dataclass(eq=False)
class Field:
    """A field as it is written: its name, the place of its name or bits, its bits if good, and how it is accessed."""
    name: str
    place: int
    high: int | None
    low: int | None
    software: str
    hardware: str
    mubi: bool


@dataclasses.dataclass(eq=False)
class Item:
    """A register or window of an interface, or a skip or reservation, whose `span` is the number that it has."""
    kind: str
    name: str
    place: int
    fields: list[Field] = dataclasses.field(default_factory=list)
    entry: Value | None = None
    gate: str | None = None
    span: int = 0


# a device interface: its name, if any, the value that is the list of its entries, and its items
Face = tuple[str | None, Value, list[Item]]


def fields_of(register: Value) -> list[Field]:
    """The fields of a register in written order; those without good bits have None for them."""
    written = listed(register, "fields")
    made = []
    for count, field in enumerate(written, 1):
        bits = span(field.member("bits")) or (None, None)
        named = field.member("name")
        name = named.data if named is not None else text(register, "name") if len(written) == 1 else f"field{count}"
        place = (named or field.member("bits")).place
        made.append(Field(name, place, *bits, text(field, "swaccess") or text(register, "swaccess") or "none",
                          text(field, "hwaccess") or text(register, "hwaccess") or "hro",
                          boolean(field.member("mubi")) is True))
    return made


def mask_of(field: Field) -> int:
    """The field's bits in its register, as a number."""
    return (2 << field.high) - (1 << field.low)


def reset_number(value: Value) -> int:
    """The number of a reset value: `true` is 1; `false`, and `x` of a field, are 0."""
    found = number(value)
    return int(boolean(value) is True) if found is None else found


def register_values(register: Value) -> list[Broken]:
    """What a register or multireg breaks by its bits and its reset values."""
    name, fields, broken = text(register, "name"), fields_of(register), []
    written = listed(register, "fields")
    if not written:
        broken.append((3, register.member("fields").place, 33, name))
    taken = 0
    for field, held in zip(fields, written):
        if field.high is None:
            broken.append((3, held.member("bits").place, 30, name))
            continue
        if taken & mask_of(field):
            broken.append((3, held.member("bits").place, 31, field.name))
        taken |= mask_of(field)
        value = held.member("resval")
        if value is not None and reset_number(value) >= 1 << (field.high - field.low + 1):
            broken.append((3, value.place, 32, name))
    value = register.member("resval")
    if value is not None and all(field.high is not None for field in fields) and reset_number(value) & ~taken:
        broken.append((3, value.place, 32, name))
    return broken


def amount(block: Value, value: Value) -> int | None:
    """A number, or the number of the first parameter of that name."""
    found = number(value)
    if found is not None:
        return found
    for parameter in listed(block, "param_list"):
        if text(parameter, "name") == value.data:
            found = number(parameter.member("default"))
            return found if found is not None and found < 1 << 32 else None
    return None


def entry_values(block: Value, entry: Value) -> list[Broken]:
    """What an entry breaks by its bits, reset values, count or items."""
    multireg, window = entry.member("multireg"), entry.member("window")
    if multireg is not None:
        count = amount(block, multireg.member("count"))
        bad = count is None or not 1 <= count <= 4096
        return register_values(multireg) + (
            [(3, multireg.member("count").place, 37, text(multireg, "name"))] if bad else [])
    if window is not None:
        items = amount(block, window.member("items"))
        bad = items is None or not 1 <= items <= 1 << 22
        return [(3, window.member("items").place, 40, text(window, "name"))] if bad else []
    if any(entry.member(key) is not None for key in KNOWN_BY):
        return []
    return register_values(entry)


# ---- items

def automatic_items(block: Value) -> list[Item]:
    """The registers that come of the block's interrupts and alerts, in front of the first device interface."""
    made = []
    for key, switch, names in [("interrupt_list", "no_auto_intr_regs", ["INTR_STATE", "INTR_ENABLE", "INTR_TEST"]),
                               ("alert_list", "no_auto_alert_regs", ["ALERT_TEST"])]:
        if listed(block, key) and boolean(block.member(switch)) is not True:
            for name in names:
                made.append(Item("register", name, block.member(key).place, automatic_fields(block, key, name)))
    return made


def width_of(interrupt: Value) -> int:
    """How many bits an interrupt has."""
    return number(interrupt.member("width")) if interrupt.member("width") else 1


def automatic_fields(block: Value, key: str, register: str) -> list[Field]:
    """The fields of one of the automatic registers: one for each interrupt or alert in the list at the key."""
    made, low = [], 0
    for source in listed(block, key):
        width = width_of(source) if key == "interrupt_list" else 1
        state = "ro" if text(source, "type") == "status" else "rw1c"
        software = {"INTR_STATE": state, "INTR_ENABLE": "rw"}.get(register, "wo")
        made.append(Field(text(source, "name"), source.member("name").place, low + width - 1, low, software,
                          "hrw" if register == "INTR_STATE" else "hro", False))
        low += width
    return made


def copies(block: Value, multireg: Value) -> list[Item]:
    """The registers of a multireg."""
    fields, name, gate = fields_of(multireg), text(multireg, "name"), text(multireg, "regwen")
    count = amount(block, multireg.member("count"))
    own_gates = boolean(multireg.member("regwen_multi")) is True
    chosen = boolean(multireg.member("compact"))
    compact = len(fields) == 1 and not own_gates and chosen is not False
    step = fields[0].high + 1
    in_a_word = 32 // step if compact else 1
    words = [range(first, min(first + in_a_word, count)) for first in range(0, count, in_a_word)]
    made = []
    for number_of_word, word in enumerate(words):
        held = [dataclasses.replace(field, name=f"{field.name}_{copy}", high=field.high + step * place * compact,
                                    low=field.low + step * place * compact)
                for place, copy in enumerate(word) for field in fields]
        asked = f"{gate}_{number_of_word}" if gate is not None and own_gates and count > 1 else gate
        made.append(Item("register", name + (f"_{number_of_word}" if len(words) > 1 else ""),
                         multireg.member("name").place, held, multireg, asked))
    return made


def items_of(block: Value, entry: Value) -> list[Item]:
    """What an entry stands for."""
    if entry.member("multireg") is not None:
        return copies(block, entry.member("multireg"))
    window = entry.member("window")
    if window is not None:
        return [Item("window", text(window, "name"), window.member("name").place, entry=window,
                     span=amount(block, window.member("items")))]
    for key in ["skipto", "reserved"]:
        if entry.member(key) is not None:
            return [Item(key, "", entry.member(key).place, span=number(entry.member(key)))]
    name = text(entry, "name")
    return [Item("register", name, entry.member("name").place, fields_of(entry), entry, text(entry, "regwen"))]


def interfaces(block: Value) -> list[Face]:
    """The device interfaces: name, the value that is the list of its entries, and its items."""
    made = []
    for count, face in enumerate(faces(block, "device")):
        name, registers = text(face, "name"), block.member("registers")
        value = registers if registers.kind == "list" else registers.member(name)
        items = automatic_items(block) if count == 0 else []
        for entry in value.items():
            items += items_of(block, entry)
        made.append((name, value, items))
    return made


def is_row(item: Item) -> bool:
    """Whether the item is a register or window, which has an offset of its own."""
    return item.kind in ("register", "window")


def twice(named: list[tuple[str, int, str]], broken: list[Broken]) -> None:
    """Tells each name that stands earlier, by a key under which names are the same."""
    seen = set()
    for name, place, key in named:
        if key in seen:
            broken.append((4, place, 34, name))
        seen.add(key)


def block_items(block: Value) -> list[Broken]:
    """What a block breaks by names that come twice, and by too many registers, fields, interrupt bits or alerts."""
    broken, rows, field_count = [], 0, 0
    for _, _, items in interfaces(block):
        held = [item for item in items if is_row(item)]
        twice([(item.name, item.place, item.name.lower()) for item in held], broken)
        for item in held:
            twice([(field.name, field.place, field.name.lower()) for field in item.fields], broken)
        rows += len(held)
        field_count += sum(len(item.fields) for item in held)
    if rows > 2048 or field_count > 4096:
        broken.append((4, block.member("registers").place, 38, ""))
    if sum(width_of(source) for source in listed(block, "interrupt_list")) > 32:
        broken.append((4, block.member("interrupt_list").place, 42, ""))
    if len(listed(block, "alert_list")) > 32:
        broken.append((4, block.member("alert_list").place, 42, ""))
    return broken


# ---- offsets

def is_external(item: Item) -> bool:
    """Whether the register stores nothing itself: it has `hwext`, or is the automatic one of a test."""
    if item.entry is None:
        return item.name in ("INTR_TEST", "ALERT_TEST")
    return boolean(item.entry.member("hwext")) is True


def may_gate(item: Item) -> bool:
    """Whether the register is one stored, readable field of one bit."""
    field = item.fields[0]
    plain = len(item.fields) == 1 and field.high == field.low and not field.mubi
    return plain and field.software in READABLE and not is_external(item)


def gates(items: list[Item]) -> list[Broken]:
    """The gates of an interface's registers that are no register of it, or none that may be a gate."""
    broken, registers = [], {item.name.lower(): item for item in items if item.kind == "register"}
    for item in items:
        if item.gate is None:
            continue
        place, gate = item.entry.member("regwen").place, registers.get(item.gate.lower())
        if gate is None:
            broken.append((5, place, 35, item.gate))
        elif not may_gate(gate):
            broken.append((5, place, 36, item.gate))
    return broken


def offsets(items: list[Item]) -> list[Broken]:
    """What the offsets of an interface's items break; nothing is looked for after the first."""
    following = 0
    for item in items:
        if item.kind == "skipto":
            if item.span % 4 or item.span < following:
                return [(5, item.place, 39, "")]
            following = item.span
        elif item.kind == "reserved":
            following += 4 * item.span
        else:
            size = 4 if item.kind == "register" else 4 << (item.span - 1).bit_length()
            following = -(-following // size) * size + size
        if following > END:
            return [(5, item.place, 41, item.name)]
    return []


def block_offsets(block: Value) -> list[Broken]:
    """What a block's interfaces break by having no rows, by their gates and by their offsets."""
    broken = []
    for name, value, items in interfaces(block):
        if not any(is_row(item) for item in items):
            broken.append((5, value.place, 33, name or ""))
        broken += gates(items) + offsets(items)
    return broken


# ---- names

def field_ports(item: Item, field: Field, external: bool) -> list[str]:
    """The ports of a field, in their order."""
    entry, software = item.entry, field.software
    if external:
        kinds = ["q", "qe"] * (software in WRITABLE) + ["re", "d"] * (software in READABLE)
    else:
        strobes = [kind for kind in ["qe", "re"] if entry and boolean(entry.member(f"hw{kind}")) is True]
        kinds = ["q"] * (field.hardware in ("hro", "hrw")) + strobes + ["d", "de"] * (field.hardware in ("hwo", "hrw"))
    return [f"{item.name}_{field.name}".lower() + "_" + kind for kind in kinds]


def is_shadowed(row: Item) -> bool:
    """Whether the register takes its values by two equal writes."""
    return row.kind == "register" and row.entry is not None and boolean(row.entry.member("shadowed")) is True


def module_names(items: list[Item]) -> list[str]:
    """The names of an interface's register module: its ports, then its wires and instances in the text's order."""
    rows = [item for item in items if is_row(item)]
    ports = ["clk_i", "rst_ni", "reg_we", "reg_re", "reg_addr", "reg_wdata", "reg_be", "reg_rdata", "reg_error"]
    states, access, nexts, flops = [], [], [], []
    for count, row in enumerate(rows):
        access += [f"{kind}_{count}" for kind in ["hit", "wbad", "rbad", "we", "re", "rd"]]
        twice = is_shadowed(row)
        nexts += [f"eq_{count}", f"ok_{count}", f"ph_{count}_n"] if twice else []
        if row.kind == "window":
            ports += [f"win_{row.name.lower()}_{kind}" for kind in ["we", "re", "addr", "wdata", "be", "rdata"]]
        for field in sorted(row.fields, key=lambda field: field.low):
            ports += field_ports(row, field, is_external(row))
            if not is_external(row):
                net = f"{row.name}_{field.name}".lower()
                states += [f"{net}_s", f"{net}_t"] if twice else [f"{net}_s"]
                nexts += [f"{net}_h", f"{net}_n", f"{net}_v"] if twice else [f"{net}_h", f"{net}_n"]
                flops += [f"u_{net}", f"u_{net}_t"] if twice else [f"u_{net}"]
        ports += [f"upd_{row.name.lower()}_err"] if twice else []
        states += [f"ph_{count}"] if twice else []
        flops += [f"u_ph_{count}"] if twice else []
    return ports + states + access + ["hit_any", "wbad_any", "rbad_any"] + nexts + flops


def header_names(block: Value) -> list[str]:
    """The names that a block's header defines."""
    head = text(block, "name").upper()
    names = [f"_{head}_REG_DEFS_", f"{head}_PARAM_REG_WIDTH"]
    for face, _, items in interfaces(block):
        prefix = head if face is None else f"{head}_{face.upper()}"
        for row in items:
            start = f"{prefix}_{row.name.upper()}"
            if row.kind == "window":
                names += [f"{start}_REG_OFFSET", f"{start}_SIZE_WORDS", f"{start}_SIZE_BYTES"]
            elif row.kind == "register":
                names += [f"{start}_REG_OFFSET", f"{start}_REG_RESVAL"]
                for field in sorted(row.fields, key=lambda field: field.low):
                    own = f"{start}_{field.name.upper()}"
                    names += [f"{own}_BIT"] if field.high == field.low else [f"{own}_MASK", f"{own}_OFFSET"]
    return names


def clash(block: Value) -> list[Broken]:
    """The first name that comes twice in one of the block's register modules, or else in its header."""
    for names in [*[module_names(items) for _, _, items in interfaces(block)], header_names(block)]:
        seen = set()
        for name in names:
            if name in seen:
                return [(12, block.place, 70, name)]
            seen.add(name)
    return []


# ---- the whole

def first_broken(bytes_of_file: bytes) -> tuple[int, str, str] | None:
    """The first fault: its rule, its place in characters, and its name; None where there is none."""
    if len(bytes_of_file) > LIMIT:
        return 11, "", ""
    try:
        whole = bytes_of_file.decode()
    except UnicodeDecodeError as error:
        return 12, bytes_of_file[:error.start].decode(), ""
    root, failed = read(whole)
    if root is None:
        return failed[0], whole[:failed[1]], ""
    for phase in [block_keys, block_all_values, block_items, block_offsets, clash]:
        broken = phase(root)
        if broken:
            _, place, rule, name = min(broken, key=lambda found: (found[1], found[2], found[3].encode()))
            return rule, whole[:place], name
    return None


def block_all_values(block: Value) -> list[Broken]:
    """What the block's entries break by their bits, reset values, counts and items."""
    entries = [entry for _, value in entry_lists(block) for entry in value.items()]
    return [broken for entry in entries for broken in entry_values(block, entry)]


def first_line(name_of_file: str, bytes_of_file: bytes) -> str | None:
    """The line that tells the first fault of a file; None where there is none."""
    found = first_broken(bytes_of_file)
    if found is None:
        return None
    rule, before, name = found
    line, column = before.count("\n") + 1, len(before) - (before.rfind("\n") + 1) + 1
    told = f"{name_of_file}:{line}:{column}: fault {rule}: {PHRASES[rule]}"
    return told + (f": {name}\n" if name else "\n")
