"""Tops that are made to be slow, each with what is wanted of it: circles, chains, crossbars that double at each level, all limits, and
as many pins as may be."""
from __future__ import annotations

import itertools
import json

from model.maps import row_text
from model.tables import Row
from model.trees import Json, Object

MOST_CROSSBARS, MOST_NODES, MOST_INSTANCES, MOST_ROWS, MOST_SIGNALS = 16, 64, 256, 2048, 1024


def top(crossbars: list[str], instances: list[Json] | None = None) -> Object:
    """A top of these crossbars and instances."""
    return {"name": "t", "clocks": {"srcs": []}, "resets": {"nodes": []}, "module": instances or [],
            "xbar": [{"name": name} for name in crossbars]}


def crossbar(name: str, nodes: list[Json], joined: Object) -> Object:
    """A crossbar of these nodes and connections."""
    return {"name": name, "clock": "c", "nodes": nodes, "connections": joined}


def host(name: str, **more: Json) -> Object:
    """A host."""
    return {"name": name, "type": "host", **more}


def device(name: str, **more: Json) -> Object:
    """A device."""
    return {"name": name, "type": "device", **more}


def ranged(name: str, base: int, size: int) -> Object:
    """A device outside with one range."""
    return device(name, addr_range=[{"base_addr": base, "size_byte": size}])


def files(whole: Object, crossbars: list[Object], blocks: list[Object]) -> dict[str, str]:
    """The texts of the files by their names, in one line each."""
    held = {"t.hjson": whole} | {f"xbar_{found['name']}.hjson": found for found in crossbars} | {f"{found['name']}.hjson": found for found in blocks}
    return {name: json.dumps(description) for name, description in held.items()}


def circle(length: int) -> Row:
    """So many crossbars, three or more, each in the one before it, and the first in the last. The first node of the first file is in the
    circle. Two could not be in a circle: in each of them the device and the host that stand for the other would have one name."""
    names = [f"x{number}" for number in range(length)]
    made = []
    for number, name in enumerate(names):
        inner, outer = names[(number + 1) % length], names[number - 1]
        made.append(crossbar(name, [device(inner, xbar=True), host(outer, xbar=True)], {outer: [inner]}))
    given = files(top(names), made, [])
    column = place_of(given["xbar_x0.hjson"], names[1])
    return row_text(given, "rows"), f"xbar_x0.hjson:1:{column}: fault 56: crossbars in a circle: {names[1]}"


def place_of(text: str, name: str) -> int:
    """The column of the value of the first name that is this one."""
    return text.index(f'"name": "{name}"') + len('"name": ') + 1


def chain(length: int) -> Row:
    """So many crossbars, each in the one before it, and one device in the last."""
    names = [f"x{number}" for number in range(length)]
    made = []
    for number, name in enumerate(names):
        behind = ranged("d", 0x1000, 0x1000) if number == length - 1 else device(names[number + 1], xbar=True)
        before = host("cpu") if number == 0 else host(names[number - 1], xbar=True)
        made.append(crossbar(name, [before, behind], {before["name"]: [behind["name"]]}))
    given = files(top(names), made, [])
    return row_text(given, "rows\nfind x0/cpu 0x1ffc 0x2000"), f"x0/cpu 1000-1fff outside {names[-1]}/d\noutside {names[-1]}/d; error"


def doubling(length: int) -> Row:
    """So many crossbars, each in all that are before it, and one device in the last: the ways to it double at each level. The first device
    of the first file has the range of the one device once for each way, so ranges of its own share addresses."""
    names = [f"x{number}" for number in range(length)]
    made = []
    for number, name in enumerate(names):
        outer = [host(before, xbar=True) for before in names[:number]] or [host("cpu")]
        inner: list[Json] = [device(behind, xbar=True) for behind in names[number + 1:]] or [ranged("d", 0, 4)]
        made.append(crossbar(name, [*outer, *inner], {found["name"]: [node["name"] for node in inner] for found in outer}))
    given = files(top(names), made, [])
    return row_text(given, "rows"), f"xbar_x0.hjson:1:{place_of(given['xbar_x0.hjson'], 'x1')}: fault 55: ranges overlap: x1"


def limits() -> Row:
    """16 crossbars of 64 nodes, 256 instances of 2,048 registers: the first crossbar is over all others, and each of these has instances."""
    per_crossbar = -(-MOST_INSTANCES // (MOST_CROSSBARS - 1))
    inner = [f"p{number}" for number in range(MOST_CROSSBARS - 1)]
    instances: list[Json] = [{"name": f"u{number}", "type": "b", "base_addr": number * 4 * MOST_ROWS} for number in range(MOST_INSTANCES)]
    hosts = [host(f"h{number}") for number in range(MOST_NODES - len(inner))]
    made = [crossbar("main", [*hosts, *[device(name, xbar=True) for name in inner]], {found["name"]: inner for found in hosts})]
    names = iter(f"u{number}" for number in range(MOST_INSTANCES))
    for name in inner:
        devices: list[Json] = [device(found) for found in itertools.islice(names, per_crossbar)]
        spare = MOST_NODES - 1 - len(devices)
        devices += [ranged(f"{name}_d{number}", 0x80000000 + 0x10000 * inner.index(name) + 4 * number, 4) for number in range(spare)]
        made.append(crossbar(name, [host("main", xbar=True), *devices], {"main": [node["name"] for node in devices]}))
    block: Object = {"name": "b", "clocking": [{"clock": "c"}], "bus_interfaces": [{"protocol": "tlul", "direction": "device"}],
                     "registers": [{"multireg": {"name": "R", "count": MOST_ROWS, "cname": "C", "fields": [{"bits": "31:0"}]}}]}
    given = files(top(["main", *inner], instances), made, [block])
    return row_text(given, "check"), "good"


def pinned(instances: list[Json], signals: list[Object], blocks: list[Object], refused: int | None, wanted: str) -> Row:
    """A top of these instances and signals. The signal of this number is refused by rule 65, or else the counts of pins are wanted."""
    whole = {**top([], instances), "pinmux": {"signals": signals}}
    given = files(whole, [], blocks)
    if refused is None:
        return row_text(given, "pin counts"), wanted
    before = json.dumps({**whole, "pinmux": {"signals": signals[:refused]}})
    column = len(before.removesuffix("]}}")) + (len(", ") if refused else 0) + 1
    return row_text(given, "pin counts"), f"t.hjson:1:{column}: fault 65: bad pin: {signals[refused]['instance']}"


def ports(name: str, widths: list[int]) -> Object:
    """A block with input ports of these widths, and without registers."""
    listed: list[Json] = [{"name": f"p{number}", "width": width} for number, width in enumerate(widths)]
    return {"name": name, "clocking": [{"clock": "c"}], "bus_interfaces": [], "registers": [], "available_input_list": listed}


def muxed(instance: str, port: str) -> Object:
    """A muxed signal."""
    return {"instance": instance, "port": port, "connection": "muxed"}


def most_pins(more: bool) -> Row:
    """As many bits of 64-bit ports as may go in, over 256 instances, or one more at the last signal."""
    wide, last = ports("w", [64] * 4), ports("v", [64] * 4 + [1])
    instances: list[Json] = [{"name": f"u{number}", "type": "v" if number == 0 else "w"} for number in range(MOST_INSTANCES)]
    signals = [muxed(f"u{number}", f"p{port}") for number in range(MOST_INSTANCES - 1) for port in range(4)] + [muxed(f"u{MOST_INSTANCES - 1}", "")]
    if more:
        signals.append(muxed("u0", "p4"))
    return pinned(instances, signals, [last, wide], len(signals) - 1 if more else None, "65536 in, 0 out, 0 pads")


def same_pins() -> Row:
    """1,024 signals of which each names all ports of one instance: the second has the first's bits."""
    return pinned([{"name": "u", "type": "w"}], [muxed("u", "")] * MOST_SIGNALS, [ports("w", [64] * 64)], 1, "")


def shapes() -> dict[str, Row]:
    """Each shape by its name."""
    made = {f"circle of {length}": circle(length) for length in range(3, MOST_CROSSBARS + 1)}
    return made | {"chain of 16": chain(MOST_CROSSBARS), "doubling at 16": doubling(MOST_CROSSBARS), "all limits": limits(),
                   "65,536 bits of pins": most_pins(False), "one bit more": most_pins(True), "one instance 1,024 times": same_pins()}
