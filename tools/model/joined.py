"""What a top and its files break on one another, and the rules on ranges, after the rules on tops.

A fault is (phase, file, place, rule, name); the least is told. Files are the top's, then those of the listed crossbars in their order, then
those of the types in the order of their first use.
"""
from __future__ import annotations

import dataclasses

from model.crossbars import connections, crossbar_keys, crossbar_nodes, is_node_name
from model.document import Value, read
from model.forms import boolean, listed, number, text
from model.keys import block_keys
from model.rules import PHRASES as BLOCK_PHRASES
from model.rules import Item, block_all_values, block_items, block_offsets, interfaces
from model.tops import HART, top_broken

PHRASES = BLOCK_PHRASES | {
    50: "node twice", 51: "unknown node", 52: "host without device", 53: "device without host", 54: "bad range", 55: "ranges overlap",
    56: "crossbars in a circle", 57: "bad space", 60: "name twice", 62: "base missing",
    63: "bad clock", 64: "bad reset", 65: "bad pin", 66: "too many sources",
}
LARGEST, LARGEST_OF_ALL, ADDRESSES = 1 << 20, 1 << 26, 1 << 32
# phase, file, place, rule, name
Fault = tuple[int, int, int, int, str]
# a base and a size
Range = tuple[int, int]


@dataclasses.dataclass(eq=False)
class Face:
    """A device interface: its name, if any, its items in order, and its size."""
    name: str | None
    items: list[Item]
    size: int


@dataclasses.dataclass(eq=False)
class Node:
    """A node of a crossbar; a host has the nodes that it connects to."""
    name: str
    place: int
    host: bool
    nested: bool
    written: list[Range]
    to: list[Node] = dataclasses.field(default_factory=list)

    @property
    def spelling(self) -> str:
        """How the name is spelled in a text that is written."""
        return self.name.replace(".", "__")


@dataclasses.dataclass(eq=False)
class Crossbar:
    """A listed crossbar: its name and address space, the place of its name in the top, and its nodes."""
    name: str
    space: str
    place: int
    nodes: list[Node]


@dataclasses.dataclass(eq=False)
class Instance:
    """An instance with its device interfaces, the names of its host interfaces, and its bases by key and space; the key of `base_addr` is None."""
    name: str
    place: int
    faces: list[Face]
    hosts: list[str | None]
    bases: dict[tuple[str | None, str], int]


@dataclasses.dataclass(eq=False)
class Whole:
    """A top with its files."""
    spaces: list[tuple[str, int]]
    crossbars: list[Crossbar]
    instances: list[Instance]

    def named(self, node: Node) -> tuple[Instance, int] | None:
        """The instance of which a node names an interface of its direction, and the interface's number."""
        if node.nested:
            return None
        for instance in self.instances:
            names = instance.hosts if node.host else [face.name for face in instance.faces]
            for count, name in enumerate(names):
                alone = name is None or len(names) == 1
                if (alone and node.name == instance.name) or (name is not None and node.name == f"{instance.name}.{name}"):
                    return instance, count
        return None

    def partner(self, crossbar: Crossbar, node: Node) -> tuple[Crossbar, Node] | None:
        """The crossbar that a node stands for, and the node there that stands for the node's own."""
        for other in self.crossbars:
            for back in other.nodes:
                if node.nested and back.nested and other.name == node.name and back.name == crossbar.name and back.host != node.host:
                    return other, back
        return None

    def space_of(self, instance: Instance, face: int) -> str:
        """The address space of a device interface."""
        for crossbar in self.crossbars:
            if any(not node.host and self.named(node) == (instance, face) for node in crossbar.nodes):
                return crossbar.space
        return self.spaces[0][0]

    def base(self, instance: Instance, face: int) -> int | None:
        """The base of a device interface in its space, if there is one."""
        space, own = self.space_of(instance, face), instance.faces[face].name
        keys = ([] if own is None else [own]) + ([None, "null"] if len(instance.faces) == 1 else [])
        return next((instance.bases[key, space] for key in keys if (key, space) in instance.bases), None)

    def ranges(self, crossbar: Crossbar, node: Node) -> list[Range]:
        """The ranges of a device, where crossbars are in no circle."""
        inner = self.partner(crossbar, node)
        if inner is not None:
            return [found for device in inner[1].to for found in self.ranges(inner[0], device)]
        named = self.named(node)
        if named is not None:
            return [(self.base(*named), named[0].faces[named[1]].size)]
        return node.written


# ---- one file

def good_name(value: Value, wanted: str) -> list[tuple[int, int, int, str]]:
    """The name that a file gives itself is a string, and not the one that the top gives."""
    held = value.member("name")
    misnamed = held is not None and held.kind == "str" and held.data != wanted
    return [(2, held.place, 25, "name")] if misnamed else []


def block_broken(block: Value, wanted: str) -> list[tuple[int, int, int, str]]:
    """What a block's file breaks of the first phase of which it breaks anything."""
    first = block_keys(block) + good_name(block, wanted)
    return first or block_all_values(block) or block_items(block) or block_offsets(block)


def crossbar_broken(crossbar: Value, wanted: str) -> list[tuple[int, int, int, str]]:
    """What a crossbar's file breaks of the first phase of which it breaks anything."""
    return crossbar_keys(crossbar) + good_name(crossbar, wanted) or crossbar_nodes(crossbar)


def tree(given: str | None, before: int) -> tuple[Value | None, list[tuple[int, int, int, str]]]:
    """A file's tree, or why there is none."""
    if given is None:
        return None, [(0, 0, 10, "")]
    size = len(given.encode())
    if size > LARGEST or before + size > LARGEST_OF_ALL:
        return None, [(0, 0, 11, "")]
    root, failed = read(given)
    return root, [] if root is not None else [(1, failed[1], failed[0], "")]


# ---- a top with its files

def nodes_of(crossbar: Value) -> list[Node]:
    """The nodes of a crossbar."""
    nodes = []
    for node in listed(crossbar, "nodes"):
        written = [(number(item.member("base_addr")), number(item.member("size_byte"))) for item in listed(node, "addr_range")]
        nodes.append(Node(text(node, "name"), node.member("name").place, text(node, "type") == "host",
                          boolean(node.member("xbar")) is True, written))
    by_name = {node.name: node for node in nodes}
    for key, _, value in connections(crossbar):
        by_name[key].to = [by_name[item.data] for item in value.data]
    return nodes


def faces_of(block: Value) -> list[Face]:
    """The device interfaces of a block, each with its size."""
    return [Face(name, items, size_of(items)) for name, _, items in interfaces(block)]


def size_of(items: list[Item]) -> int:
    """The size of an interface: a power of two, at least 4, up to which all its rows end."""
    end = max(first + taken for first, taken, _ in placed(items))
    return max(4, 1 << (end - 1).bit_length())


def placed(items: list[Item]) -> list[tuple[int, int, Item]]:
    """The registers and windows at their offsets: offset, bytes that they take, item."""
    following, made = 0, []
    for item in items:
        if item.kind == "skipto":
            following = item.span
        elif item.kind == "reserved":
            following += 4 * item.span
        else:
            size = 4 if item.kind == "register" else 4 << (item.span - 1).bit_length()
            first = -(-following // size) * size
            made.append((first, size, item))
            following = first + size
    return made


def spaced(value: Value | None) -> dict[str, int]:
    """Bases by their spaces: a number's is hart."""
    if value is None:
        return {}
    if value.kind == "object":
        return {space: number(base) for space, _, base in value.first_members()}
    return {HART: number(value)}


def instance_of(instance: Value, block: Value) -> Instance:
    """An instance of a block."""
    bases: dict[tuple[str | None, str], int] = {(None, space): base for space, base in spaced(instance.member("base_addr")).items()}
    faces = instance.member("base_addrs")
    for face, _, value in faces.first_members() if faces is not None else []:
        bases |= {(face, space): base for space, base in spaced(value).items()}
    hosts = [text(face, "name") for face in listed(block, "bus_interfaces") if text(face, "direction") == "host"]
    return Instance(text(instance, "name"), instance.member("name").place, faces_of(block), hosts, bases)


def whole_of(top: Value, crossbars: list[Value], blocks: dict[str, Value]) -> Whole:
    """The top with its files."""
    spaces = [(text(space, "name"), space.member("name").place) for space in listed(top, "addr_spaces")]
    uses = [Crossbar(text(use, "name"), text(use, "addr_space") or HART, use.member("name").place, nodes_of(crossbar))
            for use, crossbar in zip(listed(top, "xbar"), crossbars)]
    instances = [instance_of(instance, blocks[text(instance, "type")]) for instance in listed(top, "module")]
    return Whole(spaces if top.member("addr_spaces") is not None else [(HART, 0)], uses, instances)


# ---- what files break on one another

def top_joins(whole: Whole) -> list[Fault]:
    """What the top's file breaks."""
    broken: list[Fault] = []
    names = [name for name, _ in whole.spaces]
    for count, (name, place) in enumerate(whole.spaces):
        broken += [(7, 0, place, 57, name)] if name in names[:count] else []
    taken: set[str] = set()
    for instance in whole.instances:
        broken += [(7, 0, instance.place, 60, instance.name)] if instance.name in taken else []
        taken.add(instance.name)
        broken += [(7, 0, instance.place, 57, space) for _, space in instance.bases if space not in names]
        if any(whole.base(instance, face) is None for face in range(len(instance.faces))):
            broken.append((7, 0, instance.place, 62, instance.name))
    for crossbar in whole.crossbars:
        broken += [(7, 0, crossbar.place, 60, crossbar.name)] if crossbar.name in taken else []
        taken.add(crossbar.name)
        broken += [(7, 0, crossbar.place, 57, crossbar.space)] if crossbar.space not in names else []
    return broken


def node_joins(whole: Whole) -> list[Fault]:
    """What the crossbars' files break."""
    broken: list[Fault] = []
    spelled: set[str] = set()
    for file, crossbar in enumerate(whole.crossbars, 1):
        for node in crossbar.nodes:
            partner = whole.partner(crossbar, node)
            if node.nested:
                broken += [(7, file, node.place, 51, node.name)] if partner is None else []
                away = partner is not None and not node.host and partner[0].space != crossbar.space
                broken += [(7, file, node.place, 57, node.name)] if away else []
            else:
                broken += [(7, file, node.place, 50, node.name)] if node.spelling in spelled else []
                unknown = not node.host and whole.named(node) is None and not node.written
                broken += [(7, file, node.place, 51, node.name)] if unknown else []
        spelled |= {node.spelling for node in crossbar.nodes if not node.nested}
    return broken + interfaces_twice(whole)


def interfaces_twice(whole: Whole) -> list[Fault]:
    """Nodes that name an interface which an earlier node names."""
    broken: list[Fault] = []
    seen: set[tuple[str, bool, int]] = set()
    for file, crossbar in enumerate(whole.crossbars, 1):
        for node in crossbar.nodes:
            named = whole.named(node)
            if named is None:
                continue
            key = named[0].name, node.host, named[1]
            broken += [(7, file, node.place, 50, node.name)] if key in seen else []
            seen.add(key)
    return broken


# ---- ranges

def leads(whole: Whole, start: Crossbar) -> set[str]:
    """The names of the crossbars that are reached over nested devices, the start among them."""
    reached: set[str] = set()
    new = [start]
    while new:
        crossbar = new.pop()
        if crossbar.name not in reached:
            reached.add(crossbar.name)
            inner = [whole.partner(crossbar, node) for node in crossbar.nodes if not node.host]
            new += [found[0] for found in inner if found is not None]
    return reached


def circles(whole: Whole) -> list[Fault]:
    """Nested devices whose crossbar leads back."""
    broken: list[Fault] = []
    for file, crossbar in enumerate(whole.crossbars, 1):
        for node in crossbar.nodes:
            inner = None if node.host else whole.partner(crossbar, node)
            if inner is not None and crossbar.name in leads(whole, inner[0]):
                broken.append((8, file, node.place, 56, node.name))
    return broken


def is_range(found: Range) -> bool:
    """Whether a range has a good shape."""
    base, size = found
    return size >= 4 and size & (size - 1) == 0 and base % size == 0 and base + size <= ADDRESSES


def meet(one: Range, other: Range) -> bool:
    """Whether two ranges share an address."""
    return max(one[0], other[0]) < min(one[0] + one[1], other[0] + other[1])


def bad_ranges(whole: Whole) -> list[Fault]:
    """What the devices break by their ranges, where crossbars are in no circle."""
    broken: list[Fault] = []
    for file, crossbar in enumerate(whole.crossbars, 1):
        devices = [(node, whole.ranges(crossbar, node)) for node in crossbar.nodes if not node.host]
        for count, (node, ranges) in enumerate(devices):
            if not ranges or not all(is_range(found) for found in ranges):
                broken.append((8, file, node.place, 54, node.name))
            earlier = [other for other, _ in devices[:count]]
            beside = {id(device) for host in crossbar.nodes if node in host.to for device in host.to if device in earlier}
            others = [found for other, theirs in devices[:count] if id(other) in beside for found in theirs]
            own = any(meet(found, ranges[before]) for place, found in enumerate(ranges) for before in range(place))
            if own or any(meet(found, other) for found in ranges for other in others):
                broken.append((8, file, node.place, 55, node.name))
    return broken


# ---- the whole

@dataclasses.dataclass(eq=False)
class Judged:
    """A top with its files as they were judged: the whole, or the line of the first fault."""
    whole: Whole | None
    line: str


def line_of(files: dict[str, str], names: list[str], fault: Fault) -> str:
    """The line of a fault."""
    _, file, place, rule, name = fault
    before = files.get(names[file], "")[:place]
    told = f"{names[file]}:{before.count(chr(10)) + 1}:{len(before) - before.rfind(chr(10))}: fault {rule}: {PHRASES[rule]}"
    return told + (f": {name}" if name else "")


def first(faults: list[Fault]) -> Fault:
    """The first of faults."""
    return min(faults, key=lambda fault: (*fault[:4], fault[4].encode()))


def judged(files: dict[str, str]) -> Judged:
    """A top with its files, judged; the first file is the top's."""
    names = list(files)[:1]
    top, failed = tree(files[names[0]], 0)
    faults = [(phase, 0, place, rule, name) for phase, place, rule, name in failed or top_broken(top)]
    if faults:
        return Judged(None, line_of(files, names, first(faults)))
    listings = [text(use, "name") for use in listed(top, "xbar")]
    kinds = list(dict.fromkeys(text(instance, "type") for instance in listed(top, "module")))
    names += [f"xbar_{name}.hjson" for name in listings] + [f"{kind}.hjson" for kind in kinds]
    wanted = [*listings, *kinds]
    before, trees = len(files[names[0]].encode()), []
    for count, name in enumerate(names[1:]):
        found, failed = tree(files.get(name), before)
        broken = block_broken if count >= len(listings) else crossbar_broken
        failed = failed or broken(found, wanted[count])
        faults += [(phase, count + 1, place, rule, name) for phase, place, rule, name in failed]
        before += len(files.get(name, "").encode())
        trees.append(found)
    if faults:
        return Judged(None, line_of(files, names, first(faults)))
    whole = whole_of(top, trees[:len(listings)], dict(zip(kinds, trees[len(listings):])))
    faults = top_joins(whole) + node_joins(whole)
    faults = faults or circles(whole) or bad_ranges(whole)
    return Judged(None, line_of(files, names, first(faults))) if faults else Judged(whole, "")
