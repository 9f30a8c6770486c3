"""The forms of values, and what an object breaks of its keys, after docs/FORMATS.md.

What is broken is told as (phase, place, rule, name); the least of them is the first fault.
"""
import re

from model.document import Value

# the kind of a form, with its limits or words
Form = tuple[str] | tuple[str, int] | tuple[str, int, int] | tuple[str, frozenset[str]]
# the forms of each key; the first is None where the key may be absent
Table = dict[str, list[Form | None]]
# phase, place, rule, name
Broken = tuple[int, int, int, str]

WORD = re.compile(r"[A-Za-z_][A-Za-z0-9_]*")
QUOTED = {"module", "endmodule", "input", "output", "wire", "assign"}
DECIMAL = re.compile(r"[0-9]+(_[0-9]+)*")
HEXADECIMAL = re.compile(r"0[xX]([0-9a-fA-F]+(_[0-9a-fA-F]+)*)")
BINARY = re.compile(r"0[bB]([01]+(_[01]+)*)")
SOFTWARE = {"ro", "rc", "rw", "r0w1c", "rw1s", "rw1c", "rw0c", "wo", "none"}
HARDWARE = {"hro", "hrw", "hwo", "none"}
WORD_MOST = (1 << 32) - 1
NAME, LONG_NAME = ("name", 40), ("name", 80)
TEXT, BOOLEAN, LIST, OBJECT = ("text",), ("boolean",), ("list",), ("object",)
NUMBER = ("number", 0, WORD_MOST)


def one_of(*words: str) -> Form:
    """The form of a string that is one of these words."""
    return ("word", frozenset(words))


def number(value: Value | None) -> int | None:
    """The number that a value is, if it is one of at most 128 bits."""
    if value is None:
        return None
    if value.kind == "int":
        return value.data if value.data >= 0 else None
    if value.kind != "str":
        return None
    for form, base in [(DECIMAL, 10), (HEXADECIMAL, 16), (BINARY, 2)]:
        found = form.fullmatch(value.data)
        if found:
            made = int((found[1] if base != 10 else found[0]).replace("_", ""), base)
            return made if made < 1 << 128 else None
    return None


def boolean(value: Value | None) -> bool | None:
    """The truth of a value: `true` or `false`, or one of these as a string."""
    if value is None:
        return None
    if value.kind == "bool":
        return value.data
    return {"true": True, "false": False}.get(value.data) if value.kind == "str" else None


def is_name(text: str, most: int) -> bool:
    """Whether the text is a name of at most so many characters, and none of the quoted words."""
    return bool(WORD.fullmatch(text)) and len(text) <= most and text not in QUOTED


def fits(value: Value, form: Form) -> bool:
    """Whether the value has the form."""
    kind, *limits = form
    if kind == "number":
        found = number(value)
        return found is not None and limits[0] <= found <= limits[1]
    if kind == "boolean":
        return boolean(value) is not None
    if kind in ("list", "object"):
        return value.kind == kind
    if value.kind != "str":
        return False
    if kind == "name":
        return is_name(value.data, limits[0])
    return kind == "text" or value.data in limits[0]


def takes(value: Value, form: Form) -> bool:
    """Whether the form has values of this value's kind in Hjson."""
    kinds = {"number": {"int", "str"}, "boolean": {"bool", "str"}, "list": {"list"}, "object": {"object"}}
    return value.kind in kinds.get(form[0], {"str"})


def unfit(key: str, value: Value, *forms: Form) -> list[Broken]:
    """What a value breaks that has none of these forms."""
    if any(fits(value, form) for form in forms):
        return []
    if not any(takes(value, form) for form in forms):
        rule = 22
    elif any(form[0] == "number" for form in forms):
        rule = 24
    elif any(form[0] == "name" for form in forms):
        rule = 25
    else:
        rule = 22
    return [(2, value.place, rule, key)]


def is_fit(holder: Value, key: str, *forms: Form) -> bool:
    """Whether the key is absent, or its value has one of the forms."""
    value = holder.member(key)
    return value is None or any(fits(value, form) for form in forms)


def of_table(holder: Value, table: Table) -> list[Broken]:
    """What an object breaks of a table of keys with their forms; the first is None where the key may be absent."""
    if holder.kind != "object":
        return []
    broken = []
    for key, forms in table.items():
        value, optional = holder.member(key), forms[0] is None
        if value is not None:
            broken += unfit(key, value, *[form for form in forms if form])
        elif not optional:
            broken.append((2, holder.place, 21, key))
    return broken


def elements(holder: Value, key: str, form: Form = OBJECT) -> list[Broken]:
    """The list at a key has an element that has not this form."""
    value = holder.member(key)
    return of_list(key, value, form) if value is not None else []


def of_list(key: str, value: Value, form: Form) -> list[Broken]:
    """A list, which stands at this key, has an element that has not this form."""
    return [(2, value.place, 22, key)] if not all(fits(item, form) for item in value.items()) else []


def length(holder: Value, key: str, least: int, most: int) -> list[Broken]:
    """The list at a key has fewer or more elements than it may have."""
    value = holder.member(key)
    if value is None or value.kind != "list" or least <= len(value.data) <= most:
        return []
    return [(2, value.place, 22, key)]


def listed(holder: Value, key: str) -> list[Value]:
    """The elements of the list at a key."""
    value = holder.member(key)
    return [] if value is None else value.items()


def text(holder: Value, key: str) -> str | None:
    """The string at a key."""
    value = holder.member(key)
    return value.data if value is not None and value.kind == "str" else None


def repeated(value: Value) -> list[Broken]:
    """Keys that stand twice in an object, anywhere below."""
    if value.kind == "list":
        return [broken for item in value.data for broken in repeated(item)]
    if value.kind != "object":
        return []
    seen, broken = set(), []
    for key, place, held in value.data:
        broken += [(2, place, 20, key)] if key in seen else []
        seen.add(key)
        broken += repeated(held)
    return broken
