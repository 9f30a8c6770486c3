"""The steps that a top is tried with: accesses of its hosts at registers, windows, devices outside and where nothing is, and all other inputs."""
from __future__ import annotations

import dataclasses
import random

from model.accesses import data_of, sequences_of
from model.joined import Node, Whole
from model.layout import Interface
from model.maps import Host, hosts, reached
from model.top_bench import Bench, Values, kind_of

ADDRESSES = 1 << 32
SEQUENCES = 150


@dataclasses.dataclass(frozen=True)
class Access:
    """An access of a host."""
    host: Host
    write: int
    address: int
    strobes: int
    data: int

    @property
    def request(self) -> int:
        """The bits of its request."""
        return 1 << 69 | self.write << 68 | self.strobes << 64 | self.address << 32 | self.data

    def __str__(self) -> str:
        """The access in words."""
        kind = f"write of {self.data:#x}, strobes {self.strobes:04b}," if self.write else "read"
        return f"{kind} at {self.address:#x} by {self.host[0].name}/{self.host[1].name}"


@dataclasses.dataclass(frozen=True)
class Step:
    """A step: the access, if any, and the values of all inputs and of all that stubs are given."""
    access: Access | None
    values: Values


def interface_of(bench: Bench, whole: Whole, node: Node) -> tuple[Interface, int] | None:
    """The device interface that a node names, with its base."""
    named = whole.named(node)
    if named is None:
        return None
    kind = kind_of(bench.chip, whole.instances.index(named[0]))[0]
    return bench.cores[kind].faces[named[1]], whole.base(*named)


# ---- accesses

def row_addresses(bench: Bench, host: Host) -> list[int]:
    """The address of each register, and of the first and the last word of each window, that a host reaches."""
    found = [interface_of(bench, bench.chip.whole, node) for _, node in reached(bench.chip.whole, *host)]
    rows = [(base, row) for face, base in filter(None, found) for row in face.rows]
    return [base + row.offset + 4 * word for base, row in rows for word in sorted({0, row.words - 1})]


def read_back(host: Host, address: int, chance: random.Random) -> list[Access]:
    """Writes of all ones and of any value, and what is read after each."""
    values = [(1 << 32) - 1, chance.getrandbits(32)]
    return [Access(host, write, address, 0b1111, value) for value in values for write in [1, 0]]


def at_interface(host: Host, face: Interface, base: int, chance: random.Random) -> list[list[Access]]:
    """Accesses at an interface: those that its register module alone is tried with."""
    sequences, made = sequences_of(face, chance), []
    for sequence in chance.sample(sequences, min(SEQUENCES, len(sequences))):
        accesses = [(write, address, strobes, data) for write, read, address, strobes, data in sequence if write or read]
        made.append([Access(host, write, (base + address + chance.choice([0, 0, 1, 2, 3])) % ADDRESSES, strobes,
                            data_of(chance, 32) if data is None else data) for write, address, strobes, data in accesses])
    return [sequence for sequence in made if sequence]


def plain(host: Host, address: int, chance: random.Random) -> list[Access]:
    """Some access at an address."""
    return [Access(host, chance.choice([0, 1]), address % ADDRESSES, chance.choice([0b1111, chance.randrange(16)]), data_of(chance, 32))]


def of_host(bench: Bench, host: Host, chance: random.Random) -> list[list[Access]]:
    """The accesses of a host in sequences: at what it reaches, round the ends of ranges, and anywhere."""
    whole = bench.chip.whole
    made = [plain(host, address, chance) for address in [0, ADDRESSES - 1, chance.getrandbits(32), chance.getrandbits(32)]]
    for crossbar, node in reached(whole, *host):
        found = interface_of(bench, whole, node)
        made += [] if found is None else at_interface(host, *found, chance)
        for base, size in whole.ranges(crossbar, node):
            near = [base - 1, base, base + size - 1, base + size, base + chance.randrange(size), base ^ 1 << chance.randrange(32)]
            made += [plain(host, address, chance) for address in near]
    # what other hosts reach
    others = [node for crossbar in whole.crossbars for node in crossbar.nodes if not node.host and not node.nested]
    for node in chance.sample(others, min(4, len(others))):
        found = interface_of(bench, whole, node)
        made += [plain(host, found[1] if found is not None else node.written[0][0], chance)]
    return made


def up_to(most: int, sequences: list[list[Access]], chance: random.Random) -> list[Access]:
    """The accesses of sequences in any order, about so many at most."""
    made: list[Access] = []
    for sequence in chance.sample(sequences, len(sequences)):
        made += sequence if len(made) < most else []
    return made


def accesses(bench: Bench, most: int, chance: random.Random) -> list[Access | None]:
    """The accesses of all hosts, about so many at most: reads after reset, writes that are read back, then all others, and now and then none."""
    of_all = hosts(bench.chip.whole)
    rows = [(host, address) for host in of_all for address in row_addresses(bench, host)]
    made: list[Access] = up_to(most // 5, [[Access(host, 0, address, 0b1111, 0)] for host, address in rows], chance)
    made += up_to(most * 2 // 5, [read_back(host, address, chance) for host, address in rows], chance)
    made += up_to(most - len(made), [sequence for host in of_all for sequence in of_host(bench, host, chance)], chance)
    idle = [[access] if chance.random() < 0.97 else [access, None] for access in made]
    return [None, *[access for few in idle for access in few], None]


# ---- inputs

def request_names(bench: Bench) -> dict[int, str]:
    """The name of each host's request among what is given, by the node."""
    return {id(node): slice_of(bench, (crossbar, node), "request", "req") for crossbar, node in hosts(bench.chip.whole)}


def slice_of(bench: Bench, host: Host, inner: str, outer: str) -> str:
    """The name of a host's slice: an instance's own, or that of the port of a host outside."""
    named = bench.chip.whole.named(host[1])
    return f"{bench.chip.link(*host)}_{outer}" if named is None else f"{named[0].name}.h{named[1]}_{inner}"


def value_of(bits: int, name: str, busy: float, chance: random.Random) -> int:
    """Some value of a slice: hardware writes a field as often as it is busy, and requests are none."""
    if name.endswith(("_req", "_request")) and bits == 70:
        return 0
    return int(chance.random() < busy) if name.endswith("_de") else data_of(chance, bits)


def steps(bench: Bench, most: int, chance: random.Random) -> list[Step]:
    """The steps of a trial; the first is in reset, and so are some of the later ones, at some of the resets."""
    names, resets = request_names(bench), [name for _, name in bench.given if name.startswith("rst_") or name.endswith(".stub_reset")]
    clocks, made = (1 << max(1, len(bench.clocks))) - 1, []
    for number, access in enumerate(accesses(bench, most, chance)):
        busy, in_reset = chance.choice([0, 0.1, 1]), chance.random() < 0.03
        values = {name: value_of(bits, name, busy, chance) for bits, name in bench.given}
        values["next"] = clocks if chance.random() < 0.8 else chance.getrandbits(clocks.bit_length())
        values |= {name: int(number > 0 and not (in_reset and chance.random() < 0.6)) for name in resets}
        if access is not None:
            values[names[id(access.host[1])]] = access.request
        made.append(Step(access, values))
    return made
