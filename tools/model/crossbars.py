"""What a crossbar's description breaks, and what it says with its parts and clocks, after docs/FORMATS.md."""
from model.document import Member, Value, read
from model.forms import (BOOLEAN, LIST, NAME, NUMBER, OBJECT, TEXT, Broken, Table, boolean, elements, is_name, length,
                         listed, number, of_list, of_table, one_of, repeated, text, unfit)

NODE: Table = {
    "name": [TEXT], "type": [one_of("host", "device")], "clock": [None, NAME], "xbar": [None, BOOLEAN],
    "addr_range": [None, LIST],
}
RANGE: Table = {"base_addr": [NUMBER], "size_byte": [("number", 0, 1 << 32)]}
PHRASES = {20: "duplicate key", 21: "missing key", 22: "wrong kind", 24: "not a number", 25: "bad name",
           50: "node twice", 51: "unknown node", 52: "host without device", 53: "device without host"}


def clock_key(crossbar: Value) -> str:
    """The key that tells the crossbar's clock."""
    alone = crossbar.member("clock") is None and crossbar.member("clock_primary") is not None
    return "clock_primary" if alone else "clock"


def is_node_name(name: str) -> bool:
    """Whether the name is one name of at most 40 characters, or two with a dot between them."""
    parts = name.split(".")
    return len(parts) <= 2 and all(is_name(part, 40) for part in parts)


def node_keys(node: Value) -> list[Broken]:
    """What a node breaks of the rules on keys, kinds and names."""
    if node.kind != "object":
        return []
    broken = of_table(node, NODE) + elements(node, "addr_range") + length(node, "addr_range", 0, 16)
    name = text(node, "name")
    if name is not None and not is_node_name(name):
        broken.append((2, node.member("name").place, 25, "name"))
    for item in listed(node, "addr_range"):
        broken += of_table(item, RANGE)
    return broken


def connections(crossbar: Value) -> list[Member]:
    """The first members of each key of the object of connections."""
    value = crossbar.member("connections")
    return value.first_members() if value is not None and value.kind == "object" else []


def crossbar_keys(crossbar: Value) -> list[Broken]:
    """What a crossbar breaks of the rules on keys, kinds and names."""
    table: Table = {"name": [NAME], clock_key(crossbar): [NAME], "nodes": [LIST], "connections": [OBJECT]}
    broken = repeated(crossbar) + of_table(crossbar, table)
    broken += elements(crossbar, "nodes") + length(crossbar, "nodes", 0, 64)
    for node in listed(crossbar, "nodes"):
        broken += node_keys(node)
    for key, _, value in connections(crossbar):
        broken += unfit(key, value, LIST) + of_list(key, value, TEXT)
    return broken


def named(crossbar: Value, kind: str) -> set[str | None]:
    """The names of the nodes of this type, `host` or `device`."""
    return {text(node, "name") for node in listed(crossbar, "nodes") if text(node, "type") == kind}


def crossbar_nodes(crossbar: Value) -> list[Broken]:
    """What nodes and connections break, where no rule on keys is broken."""
    hosts, devices = named(crossbar, "host"), named(crossbar, "device")
    joined = {key: [item.data for item in value.data] for key, _, value in connections(crossbar)}
    heard = {device for host in hosts for device in joined.get(host, [])}
    broken, seen = [], set()
    for node in listed(crossbar, "nodes"):
        name, place = text(node, "name"), node.member("name").place
        if name in seen:
            broken.append((6, place, 50, name))
        seen.add(name)
        if text(node, "type") == "host" and not joined.get(name):
            broken.append((6, place, 52, name))
        if text(node, "type") == "device" and name not in heard:
            broken.append((6, place, 53, name))
    for key, place, value in connections(crossbar):
        broken += [] if key in hosts else [(6, place, 51, key)]
        before = set()
        for item in value.data:
            if item.data not in devices:
                broken.append((6, item.place, 51, item.data))
            elif item.data in before:
                broken.append((6, item.place, 50, item.data))
            before.add(item.data)
    return broken


def shown_node(crossbar: Value, node: Value, numbers: dict[str | None, int]) -> str:
    """A node's line in the description; `numbers` are the places of the nodes by their names."""
    kind, name = text(node, "type"), text(node, "name")
    words = [kind, name, text(node, "clock") or text(crossbar, clock_key(crossbar))]
    words += ["crossbar"] if boolean(node.member("xbar")) else []
    words += [f"{number(item.member('base_addr'))}+{number(item.member('size_byte'))}" for item in listed(node, "addr_range")]
    if kind == "host":
        joined = {key: value for key, _, value in connections(crossbar)}[name].data
        words += ["to", *[str(numbers[item.data]) for item in joined]]
    return " ".join(words)


def parts(crossbar: Value) -> list[str]:
    """The parts: those of the hosts, then those of the devices, each in the order of the nodes."""
    own = text(crossbar, clock_key(crossbar))
    fed = [item.data for _, _, value in connections(crossbar) for item in value.data]
    made: dict[str, list[str]] = {"host": [], "device": []}
    for place, node in enumerate(listed(crossbar, "nodes")):
        kind, crosses = text(node, "type"), text(node, "clock") not in (None, own)
        if kind == "host":
            made[kind] += [f"host fifo {place}"] if crosses else []
            made[kind].append(f"split {place}")
        else:
            made[kind] += [f"join {place}"] if fed.count(text(node, "name")) > 1 else []
            made[kind] += [f"device fifo {place}"] if crosses else []
    return made["host"] + made["device"]


def answer(given: str) -> str:
    """The line of the first fault, or the description with its parts and clocks."""
    crossbar, _ = read(given)
    if crossbar is None:
        return "no document"
    broken = crossbar_keys(crossbar) or crossbar_nodes(crossbar)
    if broken:
        _, place, rule, name = min(broken, key=lambda fault: (fault[1], fault[2], fault[3].encode()))
        before = given[:place]
        line, column = before.count("\n") + 1, len(before) - before.rfind("\n")
        return f"{line}:{column}: fault {rule}: {PHRASES[rule]}" + (f": {name}" if name else "")
    nodes, own = listed(crossbar, "nodes"), text(crossbar, clock_key(crossbar))
    numbers = {text(node, "name"): place for place, node in enumerate(nodes)}
    clocks = dict.fromkeys([own, *[text(node, "clock") or own for node in nodes]])
    lines = [f"crossbar {text(crossbar, 'name')} {own}", *[shown_node(crossbar, node, numbers) for node in nodes]]
    made = parts(crossbar)
    return "\n".join([*lines, "parts:" + (" " if made else "") + ", ".join(made), "clocks: " + " ".join(clocks)])
