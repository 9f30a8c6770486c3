"""The clocks that a register module is tried with: accesses at its rows and beside them, with hardware's inputs."""
import random

from model.layout import Interface, Register, Row
from model.step import Clock, Input, hardware_ports, target

# write, read, address, strobes, and the data where they are not any
Access = tuple[int, int, int, int, int | None]
# accesses that follow one another
Sequence = list[Access]
WORD = (1 << 32) - 1
FEWEST_CLOCKS = 150
CLOCKS = 400
CLOCKS_BETWEEN_RESETS = 60
VALUES = 1_000_000


def data_of(chance: random.Random, width: int) -> int:
    """Data of this width; zeros, ones and single bits come often."""
    ones = (1 << width) - 1
    return chance.choice([0, ones, 1 << chance.randrange(width), chance.getrandbits(width), chance.getrandbits(width)])


def row_addresses(row: Row, chance: random.Random) -> list[int]:
    """Addresses that reach the row."""
    words = {0, row.words - 1, chance.randrange(row.words)}
    return sorted(row.offset + 4 * word for word in words)


def unmapped_addresses(interface: Interface, chance: random.Random) -> list[int]:
    """Addresses that reach no row: behind rows and windows, and those of rows with another bit above."""
    addresses = [interface.end, WORD & ~3, chance.getrandbits(32)]
    for row in interface.rows:
        bits = [chance.randint(2, 31), chance.randint(24, 31)]
        addresses += [row.offset + 4 * row.words, row.offset + row.size, *(row.offset ^ (1 << bit) for bit in bits)]
    return [address for address in addresses if target(interface, address) is None]


def update_sequences(row: Register, chance: random.Random) -> list[Sequence]:
    """Pairs of writes at a shadowed register: equal ones and ones that differ in one field, some with an access between."""
    sequences = []
    for _ in range(6):
        data = data_of(chance, 32)
        field = chance.choice(row.fields)
        other = data ^ (1 << chance.randint(field.low, field.high))
        first, second = (1, 0, row.offset, 0b1111, data), (1, 0, row.offset, 0b1111, chance.choice([data, other]))
        reading, missing = (0, 1, row.offset, 0b1111, None), (1, 0, row.offset, 0b0000, data)
        between = chance.choice([[], [], [], [reading], [missing], [(0, 0, row.offset, 0b1111, data)]])
        sequences.append([first, *between, second, *chance.choice([[], [first, second], [second]])])
    return sequences


def sequences_of(interface: Interface, chance: random.Random) -> list[Sequence]:
    """All accesses that the interface is to be tried with; those of a sequence are to follow one another."""
    made: list[Access] = []
    updates: list[Sequence] = []
    for row in interface.rows:
        addresses = row_addresses(row, chance)
        made += [(1, 0, address, strobes, None) for address in addresses[:1] for strobes in range(16)]
        made += [(1, 0, address, 0b1111, None) for address in addresses]
        made += [(0, 1, address, strobes, None) for address in addresses for strobes in (0b1111, chance.randrange(16))]
        made.append((0, 0, addresses[0], 0b1111, None))
        if isinstance(row, Register):
            made += [(1, 0, row.offset, 0b1111, None), (0, 1, row.offset, 0b1111, None)] * 3
            updates += update_sequences(row, chance) if row.shadowed else []
    for address in unmapped_addresses(interface, chance):
        strobes = chance.choice([0b1111, chance.randrange(16)])
        made += [(1, 0, address, strobes, None), (0, 1, address, 0b1111, None)]
    return [[access] for access in made] + updates


def accesses(interface: Interface, chance: random.Random) -> list[Access]:
    """All accesses that the interface is to be tried with, in a random order of the sequences."""
    sequences = sequences_of(interface, chance)
    chance.shuffle(sequences)
    return [access for sequence in sequences for access in sequence]


def clocks(interface: Interface, chance: random.Random) -> list[Clock]:
    """The clocks of a trial: accesses with resets among them, and a clock without an access to see the last values."""
    ports = hardware_ports(interface)
    inputs = [(width, name) for direction, width, name in ports if direction == "input"]
    most = max(FEWEST_CLOCKS, min(CLOCKS, VALUES // (1 + len(ports))))
    tried: list[Access] = []
    while len(tried) < FEWEST_CLOCKS:
        tried += accesses(interface, chance)
    made = []
    for number, (write, read, address, strobes, data) in enumerate(tried[:most]):
        no_reset = int(number % CLOCKS_BETWEEN_RESETS != 0)
        byte_address = address | chance.choice([0, 0, 1, 2, 3])
        written = data_of(chance, 32) if data is None else data
        made.append(Clock(no_reset, write, read, byte_address, written, strobes, hardware_inputs(inputs, chance)))
    made.append(Clock(hardware={name: 0 for _, name in inputs}))
    return made


def hardware_inputs(inputs: list[Input], chance: random.Random) -> dict[str, int]:
    """What hardware brings in a clock, to no field, to some or to all."""
    busy = chance.choice([0, 0.3, 1])
    return {name: int(chance.random() < busy) if name.endswith("_de") else data_of(chance, width)
            for width, name in inputs}
