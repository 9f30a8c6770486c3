"""The address map of a top with its files, after the rules on tops: for each host each address is walked to, from the descriptions alone."""
from __future__ import annotations

from model.joined import Crossbar, Instance, Judged, Node, Whole, judged, placed
from model.rules import Item

# the crossbar and the node of a host
Host = tuple[Crossbar, Node]
# host, first address, last address, what is there
Row = tuple[Host, int, int, str]


def hosts(whole: Whole) -> list[Host]:
    """The hosts that stand for no crossbar."""
    return [(crossbar, node) for crossbar in whole.crossbars for node in crossbar.nodes if node.host and not node.nested]


def reached(whole: Whole, crossbar: Crossbar, host: Node) -> list[tuple[Crossbar, Node]]:
    """The devices that a host reaches and that stand for no crossbar."""
    found = []
    for device in host.to:
        inner = whole.partner(crossbar, device)
        found += [(crossbar, device)] if inner is None else reached(whole, *inner)
    return found


def face_name(instance: Instance, face: int) -> str:
    """A device interface: its instance, and its number where it is not the first."""
    return instance.name + (f":{face}" if face else "")


def place_in(instance: Instance, face: int, row: int, item: Item, index: int) -> str:
    """A register, or a word of a window."""
    shown = f"{face_name(instance, face)} {row}"
    return f"register {shown}" if item.kind == "register" else f"word {shown} {index}"


def device_rows(whole: Whole, host: Host, crossbar: Crossbar, device: Node) -> list[Row]:
    """The rows of a device for a host."""
    named = whole.named(device)
    if named is None:
        return [(host, base, base + size - 1, f"outside {crossbar.name}/{device.name}") for base, size in device.written]
    instance, face = named
    base, rows = whole.base(instance, face), []
    for row, (offset, _, item) in enumerate(placed(instance.faces[face].items)):
        words = item.span if item.kind == "window" else 1
        rows.append((host, base + offset, base + offset + 4 * words - 1, place_in(instance, face, row, item, 0)))
    return rows


def rows(whole: Whole) -> list[Row]:
    """The rows of the map in their order."""
    made = []
    for host in hosts(whole):
        mine = [row for device in reached(whole, *host) for row in device_rows(whole, host, *device)]
        made += sorted(mine, key=lambda row: row[1])
    return made


def device_at(whole: Whole, crossbar: Crossbar, host: Node, address: int) -> tuple[Crossbar, Node] | None:
    """The device that a host reaches at an address, if any: from crossbar to crossbar, to the one whose range has the address."""
    for device in host.to:
        inner = whole.partner(crossbar, device)
        if any(base <= address < base + size for base, size in whole.ranges(crossbar, device)):
            return (crossbar, device) if inner is None else device_at(whole, *inner, address)
    return None


def at(whole: Whole, crossbar: Crossbar, host: Node, address: int) -> str:
    """What stands at an address for a host."""
    found = device_at(whole, crossbar, host, address)
    if found is None:
        return "error"
    named = whole.named(found[1])
    return f"outside {found[0].name}/{found[1].name}" if named is None else in_face(whole, *named, address)


def in_face(whole: Whole, instance: Instance, face: int, address: int) -> str:
    """What stands at an address of a device interface."""
    offset = (address - whole.base(instance, face)) // 4 * 4
    for row, (first, _, item) in enumerate(placed(instance.faces[face].items)):
        words = item.span if item.kind == "window" else 1
        if first <= offset < first + 4 * words:
            return place_in(instance, face, row, item, (offset - first) // 4)
    return "error"


# ---- what is asked

def shown_rows(whole: Whole) -> list[str]:
    """The rows of the map."""
    return [f"{crossbar.name}/{node.name} {first:x}-{last:x} {place}" for (crossbar, node), first, last, place in rows(whole)] or ["no rows"]


def shown_ranges(whole: Whole) -> list[str]:
    """The ranges of the devices."""
    return [" ".join([f"{crossbar.name}/{node.name}", *[f"{base:x}+{size:x}" for base, size in whole.ranges(crossbar, node)]])
            for crossbar in whole.crossbars for node in crossbar.nodes if not node.host]


def end(whole: Whole, crossbar: Crossbar, node: Node) -> str:
    """What a node stands for."""
    partner, named = whole.partner(crossbar, node), whole.named(node)
    if partner is not None:
        return f"crossbar {partner[0].name}"
    return "outside" if named is None else f"{'host' if node.host else 'device'} {face_name(*named)}"


def shown_ends(whole: Whole) -> list[str]:
    """What the nodes of each crossbar stand for."""
    made = []
    for crossbar in whole.crossbars:
        ends = ", ".join(f"{node.name} is {end(whole, crossbar, node)}" for node in crossbar.nodes)
        made.append(f"{crossbar.name}:" + (f" {ends}" if ends else ""))
    return made


def shown_bases(whole: Whole) -> list[str]:
    """The bases of the instances."""
    return [" ".join([instance.name, *[f"{whole.base(instance, face):x}" for face in range(len(instance.faces))]])
            for instance in whole.instances if instance.faces]


def shown_found(whole: Whole, asked: str) -> list[str]:
    """What stands at the addresses for the host."""
    host, *addresses = asked.split(" ")
    found = next((held for held in hosts(whole) if f"{held[0].name}/{held[1].name}" == host), None)
    if found is None:
        return ["no host"]
    return ["; ".join(at(whole, *found, int(address, 0)) for address in addresses)]


def answers(whole: Whole, asked: str) -> str:
    """The answers to the lines that ask for something, as `data/maps.txt` of `cg_rows_tops` has them."""
    made: list[str] = []
    kinds = {"rows": shown_rows, "ranges": shown_ranges, "ends": shown_ends, "bases": shown_bases}
    for line in asked.split("\n"):
        made += kinds[line](whole) if line in kinds else shown_found(whole, line.removeprefix("find ")) if line else ["good"]
    return "\n".join(made)


def answer(files: dict[str, str], asked: str) -> str:
    """The line of the first fault of a top with its files, or what is asked."""
    found: Judged = judged(files)
    return found.line if found.whole is None else answers(found.whole, asked)


def row_text(files: dict[str, str], asked: str) -> str:
    """What a row of a table gives: what is asked, and the files."""
    pieces = [f"@ {name}\n{text}" for name, text in files.items()]
    return "\n".join([asked, *pieces] if asked else pieces)
