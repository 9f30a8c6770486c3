"""A block's completed description, after docs/FORMATS.md: its tree with everything said, as JSON."""
import json
from collections.abc import Callable

from model.document import Value
from model.forms import boolean, listed, number, text
from model.keys import KNOWN_BY, LISTS, span
from model.rules import Field, fields_of, mask_of
from model.trees import Json, Object

REGISTER_SWITCHES = ["hwext", "hwqe", "hwre", "shadowed"]


def plain(value: Value) -> Json:
    """A value as Python data, as it stands."""
    if value.kind == "list":
        return [plain(item) for item in value.data]
    if value.kind == "object":
        return {key: plain(held) for key, _, held in value.data}
    return value.data


def put_number(made: Object, holder: Value, key: str, default: int | None = None) -> None:
    """The number at a key in its plain form; a name that stands there stays."""
    found = number(holder.member(key))
    if found is not None:
        made[key] = found
    elif default is not None and holder.member(key) is None:
        made[key] = default


def put_boolean(made: Object, holder: Value, key: str, default: bool = False) -> None:
    """The boolean at a key, or the default where there is none."""
    found = boolean(holder.member(key))
    made[key] = default if found is None else found


def full_list(holder: Value, key: str, full: Callable[[Value], Json]) -> list[Json]:
    """The elements of the list at a key, completed."""
    return [full(item) for item in listed(holder, key)]


def sized(item: Value) -> Object:
    """A pin, or an interrupt."""
    made = plain(item)
    put_number(made, item, "width", 1)
    return made


def interrupt(item: Value) -> Object:
    """An interrupt with its type and width."""
    return {"type": "event"} | sized(item)


def parameter(item: Value) -> Object:
    """A parameter; a default of at most 32 bits is in its plain form."""
    made, found = plain(item), number(item.member("default"))
    if found is not None and found < 1 << 32:
        made["default"] = found
    return made


def reset_of(register: Value, field: Field, held: Value) -> int:
    """A field's own reset value, or its bits of the register's, or 0."""
    value = held.member("resval")
    if value is None:
        whole = register.member("resval")
        whole = 0 if whole is None else number(whole) if number(whole) is not None else int(boolean(whole))
        return (whole & mask_of(field)) >> field.low
    if number(value) is not None:
        return number(value)
    if boolean(value) is None:
        return 0
    return (6 if boolean(value) else 9) if field.mubi else int(boolean(value))


def full_field(register: Value, field: Field, held: Value) -> Object:
    """A field, as it is written in `held`, with its name, its kinds of access and its reset value."""
    made = plain(held)
    high, low = span(held.member("bits"))
    return made | {"bits": f"{high}:{low}", "name": field.name, "mubi": field.mubi, "swaccess": field.software,
                   "hwaccess": field.hardware, "resval": reset_of(register, field, held)}


def full_register(register: Value) -> Object:
    """A register with its kinds of access, its switches and its fields."""
    made = {"swaccess": "none", "hwaccess": "hro"} | plain(register)
    for key in REGISTER_SWITCHES:
        put_boolean(made, register, key)
    value = register.member("resval")
    if value is not None:
        made["resval"] = number(value) if number(value) is not None else int(boolean(value))
    written = zip(fields_of(register), listed(register, "fields"))
    made["fields"] = [full_field(register, field, held) for field, held in written]
    return made


def full_multireg(multireg: Value) -> Object:
    """A multireg, which has its count and its own switches beside what a register has."""
    made = full_register(multireg)
    put_number(made, multireg, "count")
    put_boolean(made, multireg, "regwen_multi")
    put_boolean(made, multireg, "compact", len(made["fields"]) == 1 and not made["regwen_multi"])
    return made


def full_window(window: Value) -> Object:
    """A window with its kind of access, its items and its switch."""
    made = {"swaccess": "rw"} | plain(window)
    put_number(made, window, "items")
    put_boolean(made, window, "byte-write")
    return made


def full_entry(entry: Value) -> Object:
    """An entry of a list of registers, by its kind."""
    known = next((key for key in KNOWN_BY if entry.member(key) is not None), None)
    if known is None:
        return full_register(entry)
    made, value = plain(entry), entry.member(known)
    full = {"multireg": full_multireg, "window": full_window}.get(known, number)
    made[known] = full(value)
    return made


def full_block(block: Value) -> Object:
    """The block with everything said, as Python data."""
    made = plain(block)
    fulls = {"interrupt_list": interrupt, "alert_list": plain, "param_list": parameter}
    for key in LISTS:
        made[key] = full_list(block, key, fulls.get(key, sized))
    for key in ["no_auto_intr_regs", "no_auto_alert_regs"]:
        put_boolean(made, block, key)
    put_number(made, block, "regwidth", 32)
    registers = block.member("registers")
    if registers.kind == "list":
        made["registers"] = full_list(block, "registers", full_entry)
    else:
        made["registers"] = {key: [full_entry(entry) for entry in value.data] for key, _, value in registers.data}
    return made


def completed_text(block: Value) -> tuple[str, str]:
    """The name of the file without its ending, and its text."""
    return text(block, "name"), json.dumps(full_block(block), indent=2, sort_keys=True, ensure_ascii=False) + "\n"
