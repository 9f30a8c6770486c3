"""What a top's description breaks of the rules on keys, kinds, names and lengths, and what it says, after docs/FORMATS.md."""
from model.document import Value, read
from model.forms import (LIST, NAME, NUMBER, OBJECT, TEXT, Broken, Table, elements, is_name, length, listed, number, of_table,
                         one_of, repeated, text, unfit)

TOP: Table = {
    "name": [NAME], "clocks": [OBJECT], "resets": [OBJECT], "addr_spaces": [None, LIST], "module": [LIST], "xbar": [LIST],
    "pinout": [None, OBJECT], "pinmux": [None, OBJECT],
}
NAMED: Table = {"name": [NAME]}
INSTANCE: Table = {
    "name": [NAME], "type": [NAME], "clock_srcs": [None, OBJECT], "reset_connections": [None, OBJECT],
    "base_addr": [None, NUMBER, OBJECT], "base_addrs": [None, OBJECT],
}
CROSSBAR: Table = {"name": [NAME], "addr_space": [None, NAME], "clock_srcs": [None, OBJECT]}
SIGNAL: Table = {
    "instance": [TEXT], "port": [None, TEXT], "connection": [one_of("muxed", "direct", "manual")], "pad": [None, TEXT],
}
# the sections, each with its table, and its lists of objects with names
SECTIONS: dict[str, tuple[Table, list[str]]] = {
    "clocks": ({"srcs": [LIST], "derived_srcs": [None, LIST]}, ["srcs", "derived_srcs"]),
    "resets": ({"nodes": [LIST]}, ["nodes"]),
    "pinout": ({"pads": [None, LIST]}, ["pads"]),
    "pinmux": ({"signals": [None, LIST]}, []),
}
PHRASES = {20: "duplicate key", 21: "missing key", 22: "wrong kind", 24: "not a number", 25: "bad name"}
HART, MOST_TYPES = "hart", 64
# what stands at a key that is absent
ABSENT = Value("null", None, 0)


def at(holder: Value, key: str) -> Value:
    """The value at a key, or one that is nothing."""
    value = holder.member(key)
    return ABSENT if value is None else value


def names_broken(holder: Value, key: str) -> list[Broken]:
    """What the list at a key breaks, which is one of objects with names."""
    return elements(holder, key) + [broken for item in listed(holder, key) for broken in of_table(item, NAMED)]


def sources_broken(sources: Value, key: str) -> list[Broken]:
    """What an object of sources breaks: each a string, or an object with a string at the key."""
    broken = []
    for port, _, value in sources.first_members():
        broken += unfit(port, value, TEXT, OBJECT) + of_table(value, {key: [TEXT]})
    return broken


def bases_broken(bases: Value) -> list[Broken]:
    """What an object of base addresses breaks, each in its address space."""
    return [broken for space, _, value in bases.first_members() for broken in unfit(space, value, NUMBER)]


def faces_broken(faces: Value) -> list[Broken]:
    """What an object of the base addresses of interfaces breaks."""
    broken = []
    for face, _, value in faces.first_members():
        broken += unfit(face, value, NUMBER, OBJECT) + bases_broken(value)
    return broken


def instance_broken(instance: Value) -> list[Broken]:
    """What an instance breaks."""
    return (of_table(instance, INSTANCE) + sources_broken(at(instance, "clock_srcs"), "clock")
            + sources_broken(at(instance, "reset_connections"), "name") + bases_broken(at(instance, "base_addr"))
            + faces_broken(at(instance, "base_addrs")))


def types_broken(top: Value) -> list[Broken]:
    """The list of instances has too many types that are names."""
    types = {text(instance, "type") for instance in listed(top, "module")}
    good = [kind for kind in types if kind is not None and is_name(kind, 40)]
    return [(2, at(top, "module").place, 22, "module")] if len(good) > MOST_TYPES else []


def top_broken(top: Value) -> list[Broken]:
    """All that a top breaks."""
    broken = repeated(top) + of_table(top, TOP)
    for section, (table, lists) in SECTIONS.items():
        held = at(top, section)
        broken += of_table(held, table)
        for key in lists:
            broken += names_broken(held, key)
    pinmux = at(top, "pinmux")
    broken += length(at(top, "pinout"), "pads", 0, 256) + length(pinmux, "signals", 0, 1024) + elements(pinmux, "signals")
    broken += [fault for signal in listed(pinmux, "signals") for fault in of_table(signal, SIGNAL)]
    broken += length(top, "addr_spaces", 1, 8) + names_broken(top, "addr_spaces")
    broken += length(top, "module", 0, 256) + elements(top, "module") + types_broken(top)
    broken += [fault for instance in listed(top, "module") for fault in instance_broken(instance)]
    broken += length(top, "xbar", 0, 16) + elements(top, "xbar")
    for crossbar in listed(top, "xbar"):
        broken += of_table(crossbar, CROSSBAR) + sources_broken(at(crossbar, "clock_srcs"), "clock")
    return broken


def place(given: str, value: Value) -> str:
    """The line and the column of a value."""
    before = given[:value.place]
    return f"{before.count(chr(10)) + 1}:{len(before) - before.rfind(chr(10))}"


def in_order(held: Value) -> list[tuple[str, Value]]:
    """The keys of an object with their values, in the order of their bytes."""
    return sorted(((key, value) for key, _, value in held.first_members()), key=lambda member: member[0].encode())


def pairs(title: str, sources: Value, key: str) -> str:
    """The ports with their sources, after a title, where there are any."""
    named = [f"{port}={value.data if value.kind == 'str' else text(value, key)}" for port, value in in_order(sources)]
    return " ".join([f"; {title}", *named]) if named else ""


def spaced(value: Value) -> list[str]:
    """Address spaces with their bases: a number's is hart."""
    if value.kind == "object":
        return [f"{space}={number(base)}" for space, base in in_order(value)]
    return [] if value is ABSENT else [f"{HART}={number(value)}"]


def shown_instance(given: str, instance: Value) -> str:
    """An instance's line in the description."""
    base = spaced(at(instance, "base_addr"))
    bases = [f"{face}/{shown}" for face, value in in_order(at(instance, "base_addrs")) for shown in spaced(value)]
    line = f"instance {text(instance, 'name')} {text(instance, 'type')} {place(given, instance.member('name'))}"
    line += pairs("clocks", at(instance, "clock_srcs"), "clock") + pairs("resets", at(instance, "reset_connections"), "name")
    line += " ".join(["; base", *base]) if base else ""
    return line + (" ".join(["; bases", *bases]) if bases else "")


def shown_crossbar(given: str, crossbar: Value) -> str:
    """A listed crossbar's line in the description."""
    space = text(crossbar, "addr_space")
    line = f"crossbar {text(crossbar, 'name')} {HART if space is None else space} {place(given, crossbar.member('name'))}"
    return line + pairs("clocks", at(crossbar, "clock_srcs"), "clock")


def shown_signal(given: str, signal: Value) -> str:
    """A signal's line in the description."""
    pad = text(signal, "pad")
    line = f'signal "{text(signal, "instance")}" "{text(signal, "port") or ""}" {text(signal, "connection")}'
    return line + (f' "{pad}"' if pad is not None else "") + f" {place(given, signal)}"


def names(held: Value, key: str) -> list[str]:
    """The names of the objects of the list at a key."""
    return [text(item, "name") for item in listed(held, key)]


def described(given: str, top: Value) -> str:
    """What a top says that breaks nothing."""
    clocks, pinmux = at(top, "clocks"), at(top, "pinmux")
    lines = [f"top {text(top, 'name')}", " ".join(["sources:", *names(clocks, "srcs"), *names(clocks, "derived_srcs")])]
    lines.append(" ".join(["resets:", *names(at(top, "resets"), "nodes")]))
    if top.member("addr_spaces") is None:
        lines.append(f"space {HART} {place(given, top)}")
    lines += [f"space {text(space, 'name')} {place(given, space.member('name'))}" for space in listed(top, "addr_spaces")]
    lines += [shown_instance(given, instance) for instance in listed(top, "module")]
    lines += [shown_crossbar(given, crossbar) for crossbar in listed(top, "xbar")]
    pads = names(at(top, "pinout"), "pads")
    lines += [" ".join(["pads:", *pads])] if pads else []
    return "\n".join([*lines, *[shown_signal(given, signal) for signal in listed(pinmux, "signals")]])


def answer(given: str) -> str:
    """The line of the first fault, or the description."""
    top, _ = read(given)
    if top is None:
        return "no document"
    broken = top_broken(top)
    if not broken:
        return described(given, top)
    _, byte, rule, name = min(broken, key=lambda fault: (fault[1], fault[2], fault[3].encode()))
    return f"{place(given, Value('null', None, byte))}: fault {rule}: {PHRASES[rule]}" + (f": {name}" if name else "")
