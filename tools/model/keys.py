"""What a block breaks of the rules on keys, kinds and the profile, after docs/FORMATS.md."""
import re

from model.document import Value
from model.forms import (BOOLEAN, HARDWARE, LIST, LONG_NAME, NAME, NUMBER, OBJECT, SOFTWARE, TEXT, Broken, Table,
                         boolean, elements, fits, is_fit, length, listed, number, of_list, of_table, one_of, repeated,
                         text, unfit)

BITS = re.compile(r"([0-9]+):([0-9]+)")
PINS = ["available_input_list", "available_output_list", "available_inout_list"]
LISTS = ["interrupt_list", "alert_list", "param_list", *PINS]
BLOCK: Table = {
    "name": [NAME], "clocking": [LIST], "bus_interfaces": [LIST], "registers": [LIST, OBJECT],
    **{key: [None, LIST] for key in LISTS},
    "no_auto_intr_regs": [None, BOOLEAN], "no_auto_alert_regs": [None, BOOLEAN], "regwidth": [None, NUMBER],
}
PIN: Table = {"name": [NAME], "width": [None, ("number", 1, 64)]}
OF_LISTS: dict[str, Table] = {
    "clocking": {"clock": [NAME], "reset": [None, NAME]},
    "bus_interfaces": {"protocol": [TEXT], "direction": [one_of("device", "host")], "name": [None, NAME]},
    "interrupt_list": {"name": [NAME], "type": [None, one_of("event", "status")], "width": [None, ("number", 1, 32)]},
    "alert_list": {"name": [NAME]}, "param_list": {"name": [LONG_NAME], "default": [None, NUMBER, TEXT]},
    **{key: PIN for key in PINS},
}
REGISTER: Table = {
    "name": [NAME], "swaccess": [None, one_of(*SOFTWARE)], "hwaccess": [None, one_of(*HARDWARE)],
    "hwext": [None, BOOLEAN], "hwqe": [None, BOOLEAN], "hwre": [None, BOOLEAN], "shadowed": [None, BOOLEAN],
    "regwen": [None, TEXT], "resval": [None, NUMBER, BOOLEAN], "fields": [LIST],
}
MULTIREG: Table = REGISTER | {
    "count": [NUMBER, LONG_NAME], "cname": [None, TEXT], "regwen_multi": [None, BOOLEAN], "compact": [None, BOOLEAN],
}
WINDOW: Table = {
    "name": [NAME], "items": [NUMBER, LONG_NAME], "byte-write": [None, BOOLEAN],
    "swaccess": [None, one_of("rw", "ro", "wo")],
}
FIELD: Table = {
    "bits": [TEXT, NUMBER], "name": [None, NAME], "swaccess": [None, one_of(*SOFTWARE)],
    "hwaccess": [None, one_of(*HARDWARE)], "resval": [None, NUMBER, BOOLEAN, one_of("x")], "mubi": [None, BOOLEAN],
}
KNOWN_BY = ["multireg", "window", "skipto", "reserved"]


def outside(holder: Value, key: str, only_if_true: bool = False) -> list[Broken]:
    """The key's presence, or its truth, is outside the profile."""
    value = holder.member(key)
    if value is None or (only_if_true and boolean(value) is not True):
        return []
    return [(2, value.place, 26, key)]


def span(value: Value | None) -> tuple[int, int] | None:
    """The highest and lowest bit of `bits`, where it is good."""
    if value is None:
        return None
    found = number(value)
    if found is not None and found <= 31:
        return found, found
    ends = BITS.fullmatch(value.data) if value.kind == "str" else None
    if ends and 31 >= int(ends[1]) >= int(ends[2]):
        return int(ends[1]), int(ends[2])
    return None


def kind_that_counts(register: Value, field: Value, key: str, words: set[str], default: str) -> str | None:
    """The kind that counts for a field: its own, its register's, or the default; None where that is no such word."""
    held = field.member(key) or register.member(key)
    return default if held is None else held.data if fits(held, one_of(*words)) else None


def field_keys(register: Value, field: Value) -> list[Broken]:
    """What a field breaks of the rules on keys."""
    if field.kind != "object":
        return []
    kind = kind_that_counts(register, field, "swaccess", SOFTWARE, "none")
    bits = span(field.member("bits"))
    strange = (bits is not None and bits[0] - bits[1] != 3) or (kind is not None and kind not in ("rw", "ro", "wo"))
    return of_table(field, FIELD) + (outside(field, "mubi", True) if strange else [])


def shadow_keys(register: Value) -> list[Broken]:
    """What a shadowed register breaks, where all that is asked of it has its form."""
    fields = listed(register, "fields")
    if not (is_fit(register, "hwext", BOOLEAN) and is_fit(register, "fields", LIST)
            and all(field.kind == "object" for field in fields)):
        return []
    kinds = [(kind_that_counts(register, field, "swaccess", SOFTWARE, "none"),
              kind_that_counts(register, field, "hwaccess", HARDWARE, "hro")) for field in fields]
    if any(None in pair for pair in kinds):
        return []
    plain = all(software == "rw" and hardware in ("hro", "none") for software, hardware in kinds)
    return [] if plain and boolean(register.member("hwext")) is not True else outside(register, "shadowed", True)


def register_keys(register: Value, table: Table) -> list[Broken]:
    """What a register or multireg breaks of the rules on keys; the table is that of its own keys."""
    broken = of_table(register, table) + elements(register, "fields") + shadow_keys(register)
    for key in ["async", "sync", "alias_target"]:
        broken += outside(register, key)
    for field in listed(register, "fields"):
        broken += field_keys(register, field)
    return broken


def multireg_keys(multireg: Value) -> list[Broken]:
    """What a multireg breaks of the rules on keys."""
    if multireg.kind != "object":
        return unfit("multireg", multireg, OBJECT)
    fields = multireg.member("fields")
    clear = (fields is not None and fields.kind == "list" and all(field.kind == "object" for field in fields.data)
             and is_fit(multireg, "regwen_multi", BOOLEAN))
    several = clear and (len(fields.data) > 1 or boolean(multireg.member("regwen_multi")) is True)
    return register_keys(multireg, MULTIREG) + (outside(multireg, "compact", True) if several else [])


def entry_keys(entry: Value) -> list[Broken]:
    """What an entry of a list of registers breaks of the rules on keys, by its kind."""
    if entry.kind != "object":
        return []
    broken = outside(entry, "sameaddr")
    known = next((key for key in KNOWN_BY if entry.member(key) is not None), None)
    if known is None:
        return broken + register_keys(entry, REGISTER)
    value = entry.member(known)
    if known == "multireg":
        return broken + multireg_keys(value)
    if known == "window":
        return broken + unfit("window", value, OBJECT) + of_table(value, WINDOW)
    return broken + unfit(known, value, NUMBER)


def entry_lists(block: Value) -> list[tuple[str, Value]]:
    """The lists of entries with their keys: `registers`, or each of its members."""
    value = block.member("registers")
    if value is None:
        return []
    if value.kind == "object":
        return [(key, held) for key, _, held in value.first_members()]
    return [("registers", value)]


def faces(block: Value, direction: str) -> list[Value]:
    """The bus interfaces of this direction, in written order."""
    return [face for face in listed(block, "bus_interfaces") if text(face, "direction") == direction]


def good_faces(block: Value) -> bool:
    """Whether each interface is an object with a direction, whose direction and name have their forms."""
    value = block.member("bus_interfaces")
    return value is not None and value.kind == "list" and all(
        face.kind == "object" and face.member("direction") is not None
        and is_fit(face, "direction", one_of("device", "host")) and is_fit(face, "name", NAME) for face in value.data)


def face_keys(block: Value) -> list[Broken]:
    """What the bus interfaces break by their number, their names, and the lists of registers that belong to them."""
    devices, hosts = faces(block, "device"), faces(block, "host")
    buses, registers = block.member("bus_interfaces"), block.member("registers")
    broken = [(2, buses.place, 22, "bus_interfaces")] if len(devices) > 8 else []
    if not good_faces(block):
        return broken
    names = [text(face, "name") for face in devices]
    if len(devices) > 1:
        broken += [(2, face.place, 21, "name") for face in devices if text(face, "name") is None]
    for one_way in [names, [text(face, "name") for face in hosts]]:
        if len(set(one_way)) < len(one_way):
            broken.append((2, buses.place, 22, "bus_interfaces"))
    if registers is None or registers.kind not in ("list", "object"):
        return broken
    wants_list = not names or names == [None]
    if registers.kind == "list":
        stray = not names and registers.data
    else:
        stray = any(value.items() for key, _, value in registers.first_members() if key not in names)
        broken += [(2, registers.place, 21, name) for name in names if name and registers.member(name) is None]
    if stray or wants_list != (registers.kind == "list"):
        broken.append((2, registers.place, 22, "registers"))
    return broken


def block_keys(block: Value) -> list[Broken]:
    """All that a block breaks of the rules on keys, kinds and the profile."""
    broken = repeated(block) + of_table(block, BLOCK) + face_keys(block)
    for key, table in OF_LISTS.items():
        broken += elements(block, key)
        for item in listed(block, key):
            broken += of_table(item, table)
    for key, least in [("clocking", 1), *[(key, 0) for key in PINS]]:
        broken += length(block, key, least, 64)
    if fits(block.member("regwidth") or Value("int", 32, 0), NUMBER):
        broken += outside(block, "regwidth") if number(block.member("regwidth")) not in (None, 32) else []
    for face in listed(block, "bus_interfaces"):
        broken += outside(face, "protocol") if text(face, "protocol") not in (None, "tlul") else []
    for key, value in entry_lists(block):
        broken += unfit(key, value, LIST) + of_list(key, value, OBJECT)
        for entry in value.items():
            broken += entry_keys(entry)
    return broken
